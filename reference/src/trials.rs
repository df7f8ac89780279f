//! The seven calls of the firmware, and random trials that compare two libraries on them.
//!
//! - [`Coding`]: encoding and reading back; [`DecodeTable`], [`DecodeBelow`], [`DecodeBits`]: decoding
//!   a table by doubt, by threshold and maximum, and from bit values; [`Superframes`]: building superframes
//!   and taking them apart; each returns the refusal or 0. [`REFERENCE`], [`REFERENCE_TABLE`],
//!   [`REFERENCE_BELOW`], [`REFERENCE_BITS`] and [`REFERENCE_SUPERFRAMES`] are this package's.
//! - [`encode_trial`], [`read_back_trial`], [`table_trial`], [`fade_trial`], [`below_trial`],
//!   [`bits_trial`]: one numbered call, right or damaged, on a library; the [`Outcome`] is its number and
//!   every byte of its buffers. [`rate_table_trial`], [`rate_below_trial`], [`rate_bits_trial`]: those of
//!   frames at every rate; [`mark_table_trial`], [`mark_below_trial`]: those of frames for the mark;
//!   [`sure_table_trial`], [`sure_below_trial`], [`sure_bits_trial`]: those of frames for what is sure with
//!   doubtful places; [`superframe_trial`]: those of superframes.
//! - [`compare`]: many trials on two libraries; the [`Tally`] of numbers, margins, marks, blank places,
//!   doubtful ones, doubts and sorts of fades, of thresholds, of bit values, of rates, of frames for the mark
//!   and for what is sure and of superframes, or a [`Difference`].

use std::sync::atomic::{AtomicBool, Ordering};
use std::thread;

use crate::below_counts::BelowCounts;
use crate::below_frames::BelowCall;
use crate::bit_counts::BitCounts;
use crate::bit_frames::{BitCall, DOUBTS};
use crate::bits::decode_bits;
use crate::blanks::{Blanks, Faded};
use crate::choices::{Choice, Choices};
use crate::code::{encode, read_back, Code};
use crate::decode::{
    decode_table, decode_table_below, margin_of, mark_of, table_of_columns, REPORT_BYTES,
};
use crate::doubts::{Came, Doubts};
use crate::fade_counts::FadeCounts;
use crate::fades::Fade;
use crate::frames::{any_rate, random_codeword, unknown_rate, Frame, Kind, DOUBTFUL_GAP, RATES};
use crate::margins::Margins;
use crate::mark_counts::{MarkCounts, Marks};
use crate::mark_frames::MarkFrame;
use crate::random::Random;
use crate::rate_counts::{Part, RateCounts};
use crate::rates::RateFrame;
use crate::refusal::number;
use crate::soft::DOUBT_LIMIT;
use crate::superframe::{build, take_apart};
use crate::superframe_calls::{SuperAnswer, SuperCall};
use crate::superframe_counts::SuperCounts;
use crate::sure_counts::SureCounts;
use crate::sure_frames::{SureFrame, SURE_STEP};

/// Encoding and reading back, as the firmware calls them: "these return the refusal, or 0."
pub struct Coding {
    /// Rate, message, frame, start.
    pub encode: fn(u64, &[u8], &mut [u8], usize) -> u8,
    /// Rate, word, message.
    pub read_back: fn(u64, &[u8], &mut [u8]) -> u8,
}

/// Table decoding, as the firmware calls it: rate, table, doubt, message, report.
pub type DecodeTable = fn(u64, &[u8], u64, &mut [u8], &mut [u8]) -> u8;

/// Table decoding with a threshold, as the firmware calls it: rate, table, threshold, maximum,
/// message, report.
pub type DecodeBelow = fn(u64, &[u8], u16, u64, &mut [u8], &mut [u8]) -> u8;

/// Decoding from bit values, as the firmware calls it: rate, values, doubt, message, report.
pub type DecodeBits = fn(u64, &[i8], u64, &mut [u8], &mut [u8]) -> u8;

/// Building superframes and taking them apart, as the firmware calls them.
pub struct Superframes {
    /// Rate, messages, frame.
    pub build: fn(u64, &[u8], &mut [u8]) -> u8,
    /// Frame, messages, status.
    pub take_apart: fn(&[u8], &mut [u8], &mut u8) -> u8,
}

/// This package's encoding and reading back.
pub const REFERENCE: Coding = Coding {
    encode: |rate, message, frame, start| number(&encode(rate, message, frame, start)),
    read_back: |rate, word, message| number(&read_back(rate, word, message)),
};

/// This package's table decoding.
pub const REFERENCE_TABLE: DecodeTable = |rate, table, doubt, message, report| {
    number(&decode_table(rate, table, doubt, message, report))
};

/// This package's table decoding with a threshold.
pub const REFERENCE_BELOW: DecodeBelow = |rate, table, threshold, most, message, report| {
    number(&decode_table_below(
        rate, table, threshold, most, message, report,
    ))
};

/// This package's decoding from bit values.
pub const REFERENCE_BITS: DecodeBits = |rate, values, doubt, message, report| {
    number(&decode_bits(rate, values, doubt, message, report))
};

/// This package's superframes. The status of a refused call is 0.
pub const REFERENCE_SUPERFRAMES: Superframes = Superframes {
    build: |rate, messages, frame| number(&build(rate, messages, frame)),
    take_apart: |frame, messages, status| {
        let taken = take_apart(frame, messages);
        *status = taken.unwrap_or(0);
        number(&taken)
    },
};

/// What a call returned, and every byte of its lent buffers afterwards.
#[derive(Clone, Debug, Default, PartialEq, Eq)]
pub struct Outcome {
    pub number: u8,
    /// The rate that the call was given.
    pub rate: u64,
    pub buffer: Vec<u8>,
    /// None where the call has no report.
    pub report: Option<Vec<u8>>,
    /// The blank places of the table, where the call has one.
    pub faded: Option<Faded>,
    /// What its pinned seconds make of the doubtful places, where the table was decoded.
    pub choice: Option<Choice>,
    /// The rate and the doubt, where the call has no other rule and the table is a frame's.
    pub asked: Option<(u64, u64)>,
    /// The fade, where the table is one.
    pub fade: Option<Fade>,
    /// The call, where it decodes a table with a threshold.
    pub below: Option<BelowCall>,
    /// The call, where it decodes from bit values.
    pub bits: Option<BitCall>,
    /// The wrong symbols of the word, where the call encodes (none) or reads back.
    pub coded: Option<Option<usize>>,
    /// The frame, where it is one of those at every rate, and the comparison that it is in.
    pub rated: Option<(Part, RateFrame)>,
    /// The frame, where it is one of those for the mark.
    pub marked: Option<MarkFrame>,
    /// The frame, where it is one of those for what is sure, and whether the buffers are as they were.
    pub sure: Option<(SureFrame, bool)>,
    /// The call and what came of it, its buffer too, where it is one of superframes.
    pub superframe: Option<(SuperCall, SuperAnswer)>,
}

/// The numbers that these calls return are below this.
const NUMBERS: usize = 15;

/// A trial whose outcomes differ.
#[derive(Clone, Debug)]
pub struct Difference {
    pub trial: u64,
    pub outcomes: Box<[Outcome; 2]>,
}

/// One call of a library, the same for the same seed and number.
pub type Trial<L> = fn(&L, u64, u64) -> Outcome;

/// How often each number was returned, the margins and marks of the reports, the blank and the doubtful
/// places of the tables and the sorts of fades, of thresholds, of bit values, of rates, of frames for the
/// mark and for what is sure and of superframes.
#[derive(Clone, Debug, Default)]
pub struct Tally {
    pub numbers: [u64; NUMBERS],
    pub margins: Margins,
    pub marks: Marks,
    pub blanks: Blanks,
    pub choices: Choices,
    pub doubts: Doubts,
    pub fades: FadeCounts,
    pub below: BelowCounts,
    pub bits: BitCounts,
    pub rates: RateCounts,
    pub mark_sorts: MarkCounts,
    pub sure: SureCounts,
    pub superframes: SuperCounts,
}

impl Tally {
    fn count(&mut self, outcome: &Outcome) {
        self.numbers[usize::from(outcome.number)] += 1;
        self.rates.count_rate(outcome.rate, outcome.number);
        if let Some(wrong) = outcome.coded {
            self.rates.count_coded(outcome.rate, wrong, outcome.number);
        }
        let report = outcome.report.as_ref().filter(|_| outcome.number == 0);
        if let Some((part, frame)) = &outcome.rated {
            let margin = report.and_then(|report| margin_of(report));
            self.rates.count_frame(*part, frame, outcome.number, margin);
        }
        if let Some(report) = report {
            self.margins.count(margin_of(report));
            self.marks.count(mark_of(report));
        }
        if let Some(faded) = &outcome.faded {
            let margin = report.and_then(|report| margin_of(report));
            self.blanks.count(faded, outcome.number, margin);
        }
        if let Some(choice) = &outcome.choice {
            self.choices.count(choice);
        }
        if let Some((rate, doubt)) = outcome.asked {
            match (outcome.number, report) {
                (0, Some(report)) => {
                    let came = Came::of_report(report);
                    self.doubts.count(rate, doubt as usize, came);
                }
                (9, _) => self.doubts.count(rate, doubt as usize, Came::NoneNear),
                (4, _) => self.doubts.count_refused(doubt),
                _ => (),
            }
        }
        if let Some(fade) = &outcome.fade {
            self.fades.count(fade, outcome.number);
        }
        let message = &outcome.buffer;
        if let (Some(call), Some(report)) = (&outcome.below, &outcome.report) {
            self.below.count(call, outcome.number, message, report);
        }
        if let (Some(call), Some(report)) = (&outcome.bits, &outcome.report) {
            self.bits.count(call, outcome.number, message, report);
        }
        if let (Some(frame), Some(report)) = (&outcome.marked, &outcome.report) {
            let number = outcome.number;
            self.mark_sorts.count(frame, number, message, report);
        }
        if let (Some((frame, untouched)), Some(report)) = (&outcome.sure, &outcome.report) {
            let lent = [message.as_slice(), report];
            self.sure.count(frame, outcome.number, lent, *untouched);
        }
        if let Some((call, answer)) = &outcome.superframe {
            self.superframes.count(call, answer);
        }
    }

    fn add(&mut self, other: Tally) {
        for (sum, times) in self.numbers.iter_mut().zip(other.numbers) {
            *sum += times;
        }
        self.margins.add(other.margins);
        self.marks.add(other.marks);
        self.blanks.add(other.blanks);
        self.choices.add(other.choices);
        self.doubts.add(other.doubts);
        self.fades.add(other.fades);
        self.below.add(other.below);
        self.bits.add(other.bits);
        self.rates.add(other.rates);
        self.mark_sorts.add(other.mark_sorts);
        self.sure.add(other.sure);
        self.superframes.add(other.superframes);
    }
}

/// Encoding into the middle of a frame.
pub fn encode_trial(library: &Coding, seed: u64, number: u64) -> Outcome {
    let mut random = Random::new(seed, number);
    let symbols = coded_rate(number, &mut random) as usize;
    let rate = perhaps_unknown(symbols as u64, &mut random);
    let length = perhaps_other(symbols, &mut random);
    let mut message: Vec<u8> = (0..length).map(|_| random.symbol()).collect();
    spoil_symbol(&mut message, &mut random);
    let length = if random.once_in(10) {
        random.one_of(&[0, 1, 63])
    } else {
        random.between(64, 200)
    };
    let mut frame = bytes(length, &mut random);
    let last = length.saturating_sub(64);
    let start = match random.below(10) {
        0 => random.one_of(&[last + 1, length, length + 1, usize::MAX, usize::MAX - 63]),
        _ => random.between(0, last),
    };
    let number = (library.encode)(rate, &message, &mut frame, start);
    Outcome {
        number,
        rate,
        buffer: frame,
        coded: Some(None),
        ..Outcome::default()
    }
}

/// Reading back a codeword, one with a few wrong symbols, or any word.
pub fn read_back_trial(library: &Coding, seed: u64, number: u64) -> Outcome {
    let mut random = Random::new(seed, number);
    let symbols = coded_rate(number, &mut random) as usize;
    let code = Code::of_rate(symbols as u64).expect("a known rate");
    let mut word = random_codeword(code, &mut random).elements().to_vec();
    let wrong = random.one_of(&[0, 0, 0, 1, 2, 7, 64]);
    for place in random.shuffled(0..word.len()).into_iter().take(wrong) {
        word[place] = random.other_symbol(word[place]);
    }
    spoil_symbol(&mut word, &mut random);
    word.resize(perhaps_other(64, &mut random), 0);
    let rate = perhaps_unknown(symbols as u64, &mut random);
    let mut message = bytes(perhaps_other(symbols, &mut random), &mut random);
    let number = (library.read_back)(rate, &word, &mut message);
    Outcome {
        number,
        rate,
        buffer: message,
        coded: Some(Some(wrong)),
        ..Outcome::default()
    }
}

/// The rates of the numbered frames and all by turns.
fn coded_rate(number: u64, random: &mut Random) -> u64 {
    match number % 2 {
        0 => random.one_of(&RATES),
        _ => any_rate(random),
    }
}

/// Table decoding of one of the numbered frames.
pub fn table_trial(decode_table: &DecodeTable, seed: u64, number: u64) -> Outcome {
    let mut random = Random::new(seed, number);
    let (seed, number) = (random.number(), random.below(1 << 20) as u64);
    let frame = Frame::numbered(seed, number);
    let faded = Faded::of(Kind::numbered(number), frame.rate, &frame.columns, &[]);
    let mut table = table_of_columns(&frame.columns);
    table.resize(perhaps_other(table.len(), &mut random), 0);
    let doubt = match random.below(20) {
        0 => random.one_of(&DOUBTS),
        1 => random.below(DOUBT_LIMIT + 1) as u64,
        _ => frame.doubtful.len() as u64,
    };
    let rate = perhaps_unknown(frame.rate, &mut random);
    let mut message = bytes(perhaps_other(frame.rate as usize, &mut random), &mut random);
    let mut report = bytes(perhaps_other(REPORT_BYTES, &mut random), &mut random);
    let number = decode_table(rate, &table, doubt, &mut message, &mut report);
    let decoded = [0, 9].contains(&number);
    Outcome {
        number,
        rate,
        buffer: message,
        report: Some(report),
        faded: Some(faded),
        choice: decoded.then(|| Choice::of(rate, &frame.columns, doubt as usize)),
        asked: Some((rate, doubt)),
        ..Outcome::default()
    }
}

/// Table decoding of one of the numbered fades.
pub fn fade_trial(decode_table: &DecodeTable, seed: u64, number: u64) -> Outcome {
    let fade = Fade::numbered(seed, number);
    let mut random = Random::new(!seed, number);
    let rate = fade.frame.rate;
    let table = table_of_columns(&fade.frame.columns);
    let doubt = fade.frame.doubtful.len() as u64;
    let mut message = bytes(rate as usize, &mut random);
    let mut report = bytes(REPORT_BYTES, &mut random);
    let number = decode_table(rate, &table, doubt, &mut message, &mut report);
    Outcome {
        number,
        rate,
        buffer: message,
        report: Some(report),
        fade: Some(fade),
        ..Outcome::default()
    }
}

/// Table decoding with a threshold, of one of the numbered calls.
pub fn below_trial<D>(decode_below: &D, seed: u64, number: u64) -> Outcome
where
    D: Fn(u64, &[u8], u16, u64, &mut [u8], &mut [u8]) -> u8,
{
    let call = BelowCall::numbered(seed, number);
    let mut random = Random::new(!seed, number);
    let mut message = bytes(call.message, &mut random);
    let mut report = bytes(call.report, &mut random);
    let number = decode_below(
        call.rate,
        &call.table,
        call.threshold,
        call.most,
        &mut message,
        &mut report,
    );
    Outcome {
        number,
        rate: call.rate,
        buffer: message,
        report: Some(report),
        below: Some(call),
        ..Outcome::default()
    }
}

/// Decoding from one of the numbered frames of bit values.
pub fn bits_trial<D>(decode_bits: &D, seed: u64, number: u64) -> Outcome
where
    D: Fn(u64, &[i8], u64, &mut [u8], &mut [u8]) -> u8,
{
    let call = BitCall::numbered(seed, number);
    let mut random = Random::new(!seed, number);
    let mut message = bytes(call.message, &mut random);
    let mut report = bytes(call.report, &mut random);
    let number = decode_bits(
        call.rate,
        &call.values,
        call.doubt,
        &mut message,
        &mut report,
    );
    Outcome {
        number,
        rate: call.rate,
        buffer: message,
        report: Some(report),
        bits: Some(call),
        ..Outcome::default()
    }
}

/// Table decoding of one of the numbered frames at every rate.
pub fn rate_table_trial(decode_table: &DecodeTable, seed: u64, number: u64) -> Outcome {
    let frame = RateFrame::numbered(seed, number);
    let table = table_of_columns(&frame.frame.columns);
    let doubt = frame.doubt() as u64;
    rated(Part::Tables, frame, !seed ^ number, |rate, lent| {
        let [message, report] = lent;
        decode_table(rate, &table, doubt, message, report)
    })
}

/// The same with a threshold that its doubtful places are below, and any maximum that they are not above.
pub fn rate_below_trial(decode_below: &DecodeBelow, seed: u64, number: u64) -> Outcome {
    let frame = RateFrame::numbered(seed, number);
    let table = table_of_columns(&frame.frame.columns);
    let threshold = DOUBTFUL_GAP as u16 + 1;
    let mut random = Random::new(seed, !number);
    let most = random.between(frame.doubt().max(1), DOUBT_LIMIT) as u64;
    rated(Part::Thresholds, frame, !seed ^ number, |rate, lent| {
        let [message, report] = lent;
        decode_below(rate, &table, threshold, most, message, report)
    })
}

/// The same from bit values.
pub fn rate_bits_trial(decode_bits: &DecodeBits, seed: u64, number: u64) -> Outcome {
    let frame = RateFrame::of_bits(seed, number);
    let (values, doubt) = (frame.values.clone(), frame.doubt() as u64);
    rated(Part::Bits, frame, !seed ^ number, |rate, lent| {
        let [message, report] = lent;
        decode_bits(rate, &values, doubt, message, report)
    })
}

/// A frame decoded into buffers of the right sizes, whose first bytes follow a seed.
fn rated(
    part: Part,
    frame: RateFrame,
    seed: u64,
    decode: impl FnOnce(u64, [&mut [u8]; 2]) -> u8,
) -> Outcome {
    let outcome = decoded(frame.frame.rate, seed, decode);
    Outcome {
        rated: Some((part, frame)),
        ..outcome
    }
}

/// Table decoding of one of the numbered frames for the mark.
pub fn mark_table_trial<D>(decode_table: &D, seed: u64, number: u64) -> Outcome
where
    D: Fn(u64, &[u8], u64, &mut [u8], &mut [u8]) -> u8,
{
    let frame = MarkFrame::numbered(seed, number);
    let table = table_of_columns(&frame.frame.columns);
    let doubt = frame.doubt() as u64;
    let outcome = decoded(
        frame.frame.rate,
        !seed ^ number,
        |rate, [message, report]| decode_table(rate, &table, doubt, message, report),
    );
    Outcome {
        marked: Some(frame),
        ..outcome
    }
}

/// The same with the largest threshold, and as many places as maximum as are doubtful, or one.
pub fn mark_below_trial(decode_below: &DecodeBelow, seed: u64, number: u64) -> Outcome {
    let frame = MarkFrame::numbered(seed, number);
    let table = table_of_columns(&frame.frame.columns);
    let most = frame.doubt().max(1) as u64;
    let outcome = decoded(
        frame.frame.rate,
        !seed ^ number,
        |rate, [message, report]| decode_below(rate, &table, u16::MAX, most, message, report),
    );
    Outcome {
        marked: Some(frame),
        ..outcome
    }
}

/// Table decoding of one of the numbered frames for what is sure.
pub fn sure_table_trial<D>(decode_table: &D, seed: u64, number: u64) -> Outcome
where
    D: Fn(u64, &[u8], u64, &mut [u8], &mut [u8]) -> u8,
{
    let frame = SureFrame::numbered(seed, number);
    let table = table_of_columns(&frame.frame.columns);
    let doubt = frame.doubt() as u64;
    sure(frame, !seed ^ number, |rate, [message, report]| {
        decode_table(rate, &table, doubt, message, report)
    })
}

/// The same with a threshold that the gaps of its doubtful places alone are below. A frame without these is
/// one with the next doubt, since at least one place is taken.
pub fn sure_below_trial(decode_below: &DecodeBelow, seed: u64, number: u64) -> Outcome {
    let numbers = (0..).map(|turn| number + turn * SURE_STEP);
    let mut frames = numbers.map(|number| SureFrame::numbered(seed, number));
    let frame = frames.find(|frame| frame.doubt() > 0);
    let frame = frame.expect("a frame with doubt");
    let table = table_of_columns(&frame.frame.columns);
    let threshold = DOUBTFUL_GAP as u16 + 1;
    sure(frame, !seed ^ number, |rate, [message, report]| {
        decode_below(rate, &table, threshold, DOUBT_LIMIT as u64, message, report)
    })
}

/// The same from bit values.
pub fn sure_bits_trial(decode_bits: &DecodeBits, seed: u64, number: u64) -> Outcome {
    let frame = SureFrame::of_bits(seed, number);
    let (values, doubt) = (frame.values.clone(), frame.doubt() as u64);
    sure(frame, !seed ^ number, |rate, [message, report]| {
        decode_bits(rate, &values, doubt, message, report)
    })
}

/// A frame decoded into buffers of the right sizes, whose first bytes follow a seed.
fn sure(frame: SureFrame, seed: u64, decode: impl FnOnce(u64, [&mut [u8]; 2]) -> u8) -> Outcome {
    let rate = frame.frame.rate;
    let before = decoded(rate, seed, |_, _| 0);
    let outcome = decoded(rate, seed, decode);
    let untouched = before.buffer == outcome.buffer && before.report == outcome.report;
    Outcome {
        sure: Some((frame, untouched)),
        ..outcome
    }
}

/// One of the numbered calls of superframes.
pub fn superframe_trial(library: &Superframes, seed: u64, number: u64) -> Outcome {
    let call = SuperCall::numbered(seed, number);
    let answer = call.answer(library);
    Outcome {
        number: answer.number,
        rate: call.turn.rate(),
        superframe: Some((call, answer)),
        ..Outcome::default()
    }
}

/// A call that decodes into buffers of the right sizes, whose first bytes follow a seed.
fn decoded(rate: u64, seed: u64, decode: impl FnOnce(u64, [&mut [u8]; 2]) -> u8) -> Outcome {
    let mut random = Random::new(seed, 0);
    let mut message = bytes(rate as usize, &mut random);
    let mut report = bytes(REPORT_BYTES, &mut random);
    let number = decode(rate, [&mut message, &mut report]);
    Outcome {
        number,
        rate,
        buffer: message,
        report: Some(report),
        ..Outcome::default()
    }
}

fn bytes(length: usize, random: &mut Random) -> Vec<u8> {
    (0..length).map(|_| random.number() as u8).collect()
}

/// The rate, or once in twenty another number.
fn perhaps_unknown(rate: u64, random: &mut Random) -> u64 {
    if random.once_in(20) {
        unknown_rate(u64::MAX, random)
    } else {
        rate
    }
}

/// The size, or once in twenty another one.
fn perhaps_other(size: usize, random: &mut Random) -> usize {
    if random.once_in(20) {
        random.one_of(&[0, 6, 8, size - 1, size + 1, 39, 49, 52])
    } else {
        size
    }
}

/// Once in ten a symbol becomes a number above 15.
fn spoil_symbol(symbols: &mut [u8], random: &mut Random) {
    if !symbols.is_empty() && random.once_in(10) {
        let at = random.below(symbols.len());
        symbols[at] = random.between(16, 255) as u8;
    }
}

/// Runs trials 0 to `count` − 1 of a seed on both libraries: what came how often, or the first trial
/// found whose outcomes differ.
pub fn compare<L: Sync>(
    trial: Trial<L>,
    libraries: [&L; 2],
    seed: u64,
    count: u64,
) -> Result<Tally, Difference> {
    let threads = thread::available_parallelism().map_or(1, |threads| threads.get() as u64);
    let found = AtomicBool::new(false);
    let part = |first: u64| {
        let mut tally = Tally::default();
        for number in (first..count).step_by(threads as usize) {
            if found.load(Ordering::Relaxed) {
                break;
            }
            let outcomes = libraries.map(|library| trial(library, seed, number));
            if outcomes[0] != outcomes[1] {
                found.store(true, Ordering::Relaxed);
                return Err(Difference {
                    trial: number,
                    outcomes: Box::new(outcomes),
                });
            }
            tally.count(&outcomes[0]);
        }
        Ok(tally)
    };
    thread::scope(|scope| {
        let parts: Vec<_> = (0..threads)
            .map(|first| scope.spawn(move || part(first)))
            .collect();
        let mut sum = Tally::default();
        for part in parts {
            sum.add(part.join().expect("a thread that ends")?);
        }
        Ok(sum)
    })
}

#[cfg(test)]
mod tests {
    use super::*;
    use crate::below_frames::BelowKind;
    use crate::bit_frames::BitKind;
    use crate::bits::{column_of_bits, BITS, FRAME_VALUES};
    use crate::blanks::OF_TABLES;
    use crate::decode::{decode_table_below_by, decode_table_by, MARGIN_BYTES, TABLE_BYTES};
    use crate::slips::SLIPS;
    use crate::soft::{
        best, column_bytes, column_of_bytes, counted_gap, doubtful_below, doubtful_places, gap,
        is_blank, is_second_pinned, smallest, Column, Columns, CEILING, COLUMN_BYTES,
    };

    /// The numbers that come often when a library is compared with itself.
    fn reached<L: Sync>(trial: Trial<L>, library: &L, count: u64) -> Vec<usize> {
        let tally = compare(trial, [library, library], 60, count).unwrap();
        (0..NUMBERS)
            .filter(|number| tally.numbers[*number] >= 10)
            .collect()
    }

    #[test]
    fn trials_reach_every_answer() {
        assert_eq!(reached(encode_trial, &REFERENCE, 4000), [0, 1, 2, 3]);
        assert_eq!(reached(read_back_trial, &REFERENCE, 4000), [0, 1, 2, 3, 8]);
        assert_eq!(
            reached(table_trial, &REFERENCE_TABLE, 1200),
            [0, 1, 2, 4, 9, 12]
        );
    }

    /// Libraries with one fault each.
    #[test]
    fn faults_are_found() {
        let shifted = Coding {
            encode: |rate, message, frame, start| {
                (REFERENCE.encode)(rate, message, frame, start.saturating_sub(1))
            },
            ..REFERENCE
        };
        let lenient = Coding {
            read_back: |rate, word, message| match (REFERENCE.read_back)(rate, word, message) {
                8 => 0,
                number => number,
            },
            ..REFERENCE
        };
        let miscounting: DecodeTable = |rate, table, doubt, message, report| {
            let number = REFERENCE_TABLE(rate, table, doubt, message, report);
            if number == 0 && doubt == 12 {
                report[5] = report[5].wrapping_add(1);
            }
            number
        };
        assert!(compare(encode_trial, [&REFERENCE, &shifted], 61, 400).is_err());
        assert!(compare(read_back_trial, [&REFERENCE, &lenient], 61, 400).is_err());
        assert!(compare(table_trial, [&REFERENCE_TABLE, &miscounting], 61, 400).is_err());
    }

    #[test]
    fn trials_have_margins() {
        let both = [&REFERENCE_TABLE, &REFERENCE_TABLE];
        let tally = compare(table_trial, both, 62, 1200).unwrap();
        assert_eq!(tally.margins.check(1200), Ok(()));
        assert!(tally.margins.zero >= 60 && tally.margins.absent >= 200);
        let both = [&REFERENCE, &REFERENCE];
        let tally = compare(encode_trial, both, 62, 40).unwrap();
        assert_eq!(tally.margins, Margins::default());
    }

    #[test]
    fn trials_have_marks() {
        let both = [&REFERENCE_TABLE, &REFERENCE_TABLE];
        let tally = compare(table_trial, both, 75, 1200).unwrap();
        assert_eq!(tally.marks.check(1200), Ok(()));
        let both = [&REFERENCE, &REFERENCE];
        let tally = compare(encode_trial, both, 75, 40).unwrap();
        assert_eq!(tally.marks, Marks::default());
    }

    #[test]
    fn trials_have_every_number_of_doubtful_places() {
        let both = [&REFERENCE_TABLE, &REFERENCE_TABLE];
        let tally = compare(table_trial, both, 73, 2400).unwrap();
        assert_eq!(tally.doubts.check(2400, true), Ok(()));
        let both = [&REFERENCE, &REFERENCE];
        let tally = compare(encode_trial, both, 73, 40).unwrap();
        assert_eq!(tally.doubts, Doubts::default());
    }

    /// Table decoding with one fault each in what it makes of nine to twelve doubtful places.
    #[test]
    fn wrong_limits_of_doubt_are_found() {
        let faults: [(&str, DecodeTable); 6] = [
            ("limit of 8", |rate, table, doubt, message, report| {
                let doubt = if doubt > 8 { u64::MAX } else { doubt };
                REFERENCE_TABLE(rate, table, doubt, message, report)
            }),
            ("eight of more", |rate, table, doubt, message, report| {
                let doubt = if (9..=12).contains(&doubt) { 8 } else { doubt };
                REFERENCE_TABLE(rate, table, doubt, message, report)
            }),
            ("limit of 11", |rate, table, doubt, message, report| {
                let doubt = if doubt > 11 { u64::MAX } else { doubt };
                REFERENCE_TABLE(rate, table, doubt, message, report)
            }),
            ("limit of 13", |rate, table, doubt, message, report| {
                let doubt = if doubt == 13 { 12 } else { doubt };
                REFERENCE_TABLE(rate, table, doubt, message, report)
            }),
            (
                "tests in one byte",
                |rate, table, doubt, message, report| {
                    let number = REFERENCE_TABLE(rate, table, doubt, message, report);
                    if number == 0 {
                        report[4] = 0;
                    }
                    number
                },
            ),
            (
                "tests low byte first",
                |rate, table, doubt, message, report| {
                    let number = REFERENCE_TABLE(rate, table, doubt, message, report);
                    if number == 0 && report[4] != 0 {
                        report.swap(4, 5);
                    }
                    number
                },
            ),
        ];
        for (name, library) in faults {
            let compared = compare(table_trial, [&REFERENCE_TABLE, &library], 74, 1200);
            assert!(compared.is_err(), "{name}");
        }
    }

    #[test]
    fn trials_have_blank_places() {
        let both = [&REFERENCE_TABLE, &REFERENCE_TABLE];
        let tally = compare(table_trial, both, 64, 1500).unwrap();
        assert_eq!(tally.blanks.check(1500, &OF_TABLES), Ok(()));
        assert!(tally.numbers[12] >= 60);
        let both = [&REFERENCE, &REFERENCE];
        let tally = compare(encode_trial, both, 64, 40).unwrap();
        assert_eq!(tally.blanks, Blanks::default());
    }

    #[test]
    fn trials_have_pinned_seconds() {
        let both = [&REFERENCE_TABLE, &REFERENCE_TABLE];
        let tally = compare(table_trial, both, 66, 2400).unwrap();
        assert_eq!(tally.choices.check(2400), Ok(()));
        let both = [&REFERENCE, &REFERENCE];
        let tally = compare(encode_trial, both, 66, 40).unwrap();
        assert_eq!(tally.choices, Choices::default());
    }

    /// Table decoding with one fault each in the choice of doubtful places.
    #[test]
    fn wrong_choices_are_found() {
        let plain: DecodeTable = |rate, table, doubt, message, report| {
            let choose = |columns: &Columns, doubt| smallest(columns, doubt, gap);
            let lent = [message, report];
            number(&decode_table_by(choose, rate, table, doubt, lent))
        };
        let counted_as_none: DecodeTable = |rate, table, doubt, message, report| {
            let choose = |columns: &Columns, doubt| {
                smallest(columns, doubt, |c| match is_second_pinned(c) {
                    true => 0,
                    false => gap(c),
                })
            };
            let lent = [message, report];
            number(&decode_table_by(choose, rate, table, doubt, lent))
        };
        let ties_by_gap: DecodeTable = |rate, table, doubt, message, report| {
            let choose =
                |columns: &Columns, doubt| smallest(columns, doubt, |c| (counted_gap(c), gap(c)));
            let lent = [message, report];
            number(&decode_table_by(choose, rate, table, doubt, lent))
        };
        let never_chosen: DecodeTable = |rate, table, doubt, message, report| {
            let choose = |columns: &Columns, doubt| {
                let mut places = doubtful_places(columns, doubt);
                places.retain(|place| !is_second_pinned(&columns[usize::from(*place)]));
                places
            };
            let lent = [message, report];
            number(&decode_table_by(choose, rate, table, doubt, lent))
        };
        let any_cost_pinned: DecodeTable = |rate, table, doubt, message, report| {
            let choose = |columns: &Columns, doubt| {
                smallest(columns, doubt, |c| match c.contains(&CEILING) {
                    true => CEILING,
                    false => gap(c),
                })
            };
            let lent = [message, report];
            number(&decode_table_by(choose, rate, table, doubt, lent))
        };
        let libraries = [
            plain,
            counted_as_none,
            ties_by_gap,
            never_chosen,
            any_cost_pinned,
        ];
        for (at, library) in libraries.iter().enumerate() {
            let compared = compare(table_trial, [&REFERENCE_TABLE, library], 67, 2400);
            assert!(compared.is_err(), "{at}");
        }
    }

    /// A table with its columns changed.
    fn changed(table: &[u8], change: fn(Column) -> Column) -> Vec<u8> {
        let columns = table.chunks_exact(COLUMN_BYTES).map(column_of_bytes);
        let mut bytes: Vec<u8> = columns.flat_map(|c| column_bytes(&change(c))).collect();
        bytes.resize(table.len(), 0);
        bytes
    }

    /// How many more places of a table are blank than may be.
    fn beyond_limit(rate: u64, table: &[u8]) -> i64 {
        let columns = table.chunks_exact(COLUMN_BYTES).map(column_of_bytes);
        let limit = Code::of_rate(rate).map_or(0, Code::blank_limit);
        columns.filter(is_blank).count() as i64 - limit as i64
    }

    /// Table decoding with one fault each in what it takes for blank or makes of it.
    #[test]
    fn wrong_treatment_of_blank_places_is_found() {
        let symbol_0: DecodeTable = |rate, table, doubt, message, report| {
            let table = changed(table, |mut column| {
                if is_blank(&column) {
                    column[15] ^= 1;
                }
                column
            });
            REFERENCE_TABLE(rate, &table, doubt, message, report)
        };
        let no_gap_is_blank: DecodeTable = |rate, table, doubt, message, report| {
            let table = changed(table, |column| match gap(&column) {
                0 => [column[usize::from(best(&column))]; 16],
                _ => column,
            });
            REFERENCE_TABLE(rate, &table, doubt, message, report)
        };
        let fifteen_are_enough: DecodeTable = |rate, table, doubt, message, report| {
            let table = changed(table, |mut column| {
                if is_blank(
                    &[&column[..15], &column[14..15]]
                        .concat()
                        .try_into()
                        .unwrap(),
                ) {
                    column[15] = column[0];
                }
                column
            });
            REFERENCE_TABLE(rate, &table, doubt, message, report)
        };
        let zeros_alone: DecodeTable = |rate, table, doubt, message, report| {
            let table = changed(table, |mut column| {
                if is_blank(&column) && column[0] != 0 {
                    column[15] ^= 1;
                }
                column
            });
            REFERENCE_TABLE(rate, &table, doubt, message, report)
        };
        let ceiling_is_not_blank: DecodeTable = |rate, table, doubt, message, report| {
            let table = changed(table, |mut column| {
                if column == [CEILING; 16] {
                    column[15] -= 1;
                }
                column
            });
            REFERENCE_TABLE(rate, &table, doubt, message, report)
        };
        let limit_is_less: DecodeTable = |rate, table, doubt, message, report| {
            let (mut sent, mut told) = (message.to_vec(), report.to_vec());
            let number = REFERENCE_TABLE(rate, table, doubt, &mut sent, &mut told);
            if number == 0 && beyond_limit(rate, table) == 0 {
                return 12;
            }
            message.copy_from_slice(&sent);
            report.copy_from_slice(&told);
            number
        };
        let limit_is_more: DecodeTable = |rate, table, doubt, message, report| {
            let number = REFERENCE_TABLE(rate, table, doubt, message, report);
            match (number, beyond_limit(rate, table)) {
                (12, 1) => 9,
                _ => number,
            }
        };
        let before_the_doubt: DecodeTable = |rate, table, doubt, message, report| {
            let number = REFERENCE_TABLE(rate, table, doubt, message, report);
            match (number, beyond_limit(rate, table)) {
                (4, 1..) => 12,
                _ => number,
            }
        };
        let blanks_are_changed: DecodeTable = |rate, table, doubt, message, report| {
            let number = REFERENCE_TABLE(rate, table, doubt, message, report);
            if number == 0 {
                let code = Code::of_rate(rate).unwrap();
                let word = code.codeword(message).elements();
                let columns = table.chunks_exact(COLUMN_BYTES).map(column_of_bytes);
                let wrong = columns.zip(word).filter(|(c, s)| is_blank(c) && *s != 0);
                report[7] += wrong.count() as u8;
            }
            number
        };
        let blanks_are_not_pinned: DecodeTable = |rate, table, doubt, message, report| {
            let number = REFERENCE_TABLE(rate, table, doubt, message, report);
            if number == 0 {
                let columns = table.chunks_exact(COLUMN_BYTES).map(column_of_bytes);
                report[6] -= columns.filter(|c| *c == [CEILING; 16]).count() as u8;
            }
            number
        };
        let libraries = [
            symbol_0,
            no_gap_is_blank,
            fifteen_are_enough,
            zeros_alone,
            ceiling_is_not_blank,
            limit_is_less,
            limit_is_more,
            before_the_doubt,
            blanks_are_changed,
            blanks_are_not_pinned,
        ];
        for (at, library) in libraries.iter().enumerate() {
            let compared = compare(table_trial, [&REFERENCE_TABLE, library], 65, 1500);
            assert!(compared.is_err(), "{at}");
        }
    }

    /// Table decoding with one fault each in what the report says of the margin.
    #[test]
    fn wrong_margins_are_found() {
        fn faulty(
            [rate, doubt]: [u64; 2],
            table: &[u8],
            [message, report]: [&mut [u8]; 2],
            fault: fn(&mut [u8]),
        ) -> u8 {
            let number = REFERENCE_TABLE(rate, table, doubt, message, report);
            if number == 0 {
                fault(report);
            }
            number
        }
        let never: DecodeTable = |rate, table, doubt, message, report| {
            faulty([rate, doubt], table, [message, report], |report| {
                report[8..13].fill(0);
            })
        };
        let always: DecodeTable = |rate, table, doubt, message, report| {
            faulty([rate, doubt], table, [message, report], |report| {
                report[8] = 1;
            })
        };
        let zero_is_absent: DecodeTable = |rate, table, doubt, message, report| {
            faulty([rate, doubt], table, [message, report], |report| {
                report[8] &= u8::from(report[MARGIN_BYTES] != [0; 4]);
            })
        };
        let two_bytes: DecodeTable = |rate, table, doubt, message, report| {
            faulty([rate, doubt], table, [message, report], |report| {
                report[9..11].fill(0);
            })
        };
        let runner_up: DecodeTable = |rate, table, doubt, message, report| {
            faulty([rate, doubt], table, [message, report], |report| {
                if let Some(margin) = margin_of(report) {
                    let total = u32::from_be_bytes([report[0], report[1], report[2], report[3]]);
                    report[MARGIN_BYTES].copy_from_slice(&(total + margin).to_be_bytes());
                }
            })
        };
        for library in [never, always, zero_is_absent, two_bytes, runner_up] {
            assert!(compare(table_trial, [&REFERENCE_TABLE, &library], 63, 400).is_err());
        }
    }

    #[test]
    fn trials_have_every_sort_of_thresholds() {
        let both = [&REFERENCE_BELOW, &REFERENCE_BELOW];
        let tally = compare(below_trial, both, 69, 4096).unwrap();
        assert_eq!(tally.below.check(), Ok(()));
        let often = (0..NUMBERS).filter(|number| tally.numbers[*number] >= 10);
        assert_eq!(often.collect::<Vec<usize>>(), [0, 1, 2, 4, 9, 12]);
        let both = [&REFERENCE, &REFERENCE];
        let tally = compare(encode_trial, both, 69, 40).unwrap();
        assert_eq!(tally.below, BelowCounts::default());
    }

    /// Decoding with doubtful places chosen by this rule.
    fn deciding(
        choose: impl Fn(&Columns, u16, usize) -> Vec<u8>,
    ) -> impl Fn(u64, &[u8], u16, u64, &mut [u8], &mut [u8]) -> u8 {
        move |rate, table, threshold, most, message, report| {
            let lent = [message, report];
            let limits = (threshold, most);
            number(&decode_table_below_by(&choose, rate, table, limits, lent))
        }
    }

    /// Table decoding by each of the wrong rules.
    #[test]
    fn wrong_choices_by_threshold_are_found() {
        let right = deciding(doubtful_below);
        assert!(compare(below_trial, [&right, &deciding(doubtful_below)], 70, 100).is_ok());
        for (slip, _) in SLIPS {
            let wrong =
                deciding(move |columns, threshold, most| slip.places(columns, threshold, most));
            assert!(differs((&right, &wrong), 70, 600), "{slip:?}");
        }
    }

    /// Whether two libraries differ in one of so many calls.
    fn differs<A, B>((right, wrong): (&A, &B), seed: u64, count: u64) -> bool
    where
        A: Fn(u64, &[u8], u16, u64, &mut [u8], &mut [u8]) -> u8,
        B: Fn(u64, &[u8], u16, u64, &mut [u8], &mut [u8]) -> u8,
    {
        (0..count)
            .any(|number| below_trial(right, seed, number) != below_trial(wrong, seed, number))
    }

    #[test]
    fn trials_have_every_sort_of_bit_values() {
        let both = [&REFERENCE_BITS, &REFERENCE_BITS];
        let tally = compare(bits_trial, both, 66, 8192).unwrap();
        assert_eq!(tally.bits.check(), Ok(()));
        let often = (0..NUMBERS).filter(|number| tally.numbers[*number] >= 10);
        assert_eq!(often.collect::<Vec<usize>>(), [0, 1, 2, 4, 9, 12]);
        let both = [&REFERENCE, &REFERENCE];
        let tally = compare(encode_trial, both, 66, 40).unwrap();
        assert_eq!(tally.bits, BitCounts::default());
    }

    /// What four values make.
    type Made = fn([i8; BITS]) -> Column;

    /// Decoding with these columns.
    fn decoding(made: Made) -> impl Fn(u64, &[i8], u64, &mut [u8], &mut [u8]) -> u8 {
        move |rate, values, doubt, message, report| {
            if Code::of_rate(rate).is_err() || values.len() != FRAME_VALUES {
                return REFERENCE_BITS(rate, values, doubt, message, report);
            }
            let columns = values.chunks_exact(BITS).map(|four| {
                let four = four.try_into().expect("four values");
                made(four)
            });
            let table: Vec<u8> = columns.flat_map(|column| column_bytes(&column)).collect();
            REFERENCE_TABLE(rate, &table, doubt, message, report)
        }
    }

    /// Columns with one fault each; the last ones are wrong for one value at one position.
    #[test]
    fn wrong_columns_from_bit_values_are_found() {
        let faults: [(&str, Made); 15] = [
            ("positive favours 1", |values| {
                let column = column_of_bits(values);
                std::array::from_fn(|symbol| column[15 - symbol])
            }),
            ("lowest bit first", |[a, b, c, d]| {
                column_of_bits([d, c, b, a])
            }),
            ("bytes are not signed", |values| {
                let ones = |symbol: usize| (0..BITS).filter(move |bit| symbol & 8 >> bit != 0);
                std::array::from_fn(|symbol| {
                    ones(symbol).map(|bit| u16::from(values[bit] as u8)).sum()
                })
            }),
            ("-128 has magnitude 127", |values| {
                column_of_bits(values.map(|value| value.max(-127)))
            }),
            ("-128 has magnitude 0", |values| {
                column_of_bits(values.map(|value| if value == -128 { 0 } else { value }))
            }),
            ("127 has magnitude 128", |values| {
                let mut column = column_of_bits(values);
                for (bit, value) in values.iter().enumerate() {
                    let ones = (0..16).filter(|symbol| symbol & 8 >> bit != 0);
                    ones.for_each(|symbol| column[symbol] += u16::from(*value == 127));
                }
                column
            }),
            ("sums of one byte", |values| {
                column_of_bits(values).map(|cost| cost & 255)
            }),
            ("sums up to 511", |values| {
                column_of_bits(values).map(|cost| cost.min(511))
            }),
            ("zero favours 0", |values| {
                column_of_bits(values.map(|value| if value == 0 { 1 } else { value }))
            }),
            ("zero favours 1", |values| {
                column_of_bits(values.map(|value| if value == 0 { -1 } else { value }))
            }),
            ("four zeros are not blank", |values| {
                let mut column = column_of_bits(values);
                column[15] += u16::from(values == [0; BITS]);
                column
            }),
            ("three zeros are blank", |values| {
                let zeros = values.iter().filter(|value| **value == 0).count();
                column_of_bits(if zeros == 3 { [0; BITS] } else { values })
            }),
            ("sum zero is blank", |values| {
                let sum: i16 = values.into_iter().map(i16::from).sum();
                column_of_bits(if sum == 0 { [0; BITS] } else { values })
            }),
            ("-77 at position 2", |[a, b, c, d]| {
                column_of_bits([a, b, c + i8::from(c == -77), d])
            }),
            ("93 beside zeros", |values| {
                column_of_bits(if values == [0, 0, 0, 93] {
                    [0, 0, 0, 92]
                } else {
                    values
                })
            }),
        ];
        let right = decoding(column_of_bits);
        assert!(compare(bits_trial, [&right, &decoding(column_of_bits)], 67, 100).is_ok());
        for (name, made) in faults {
            let compared = compare(bits_trial, [&right, &decoding(made)], 67, 8192);
            assert!(compared.is_err(), "{name}");
        }
    }

    /// Whether more places of a frame are blank than may be.
    fn too_blank(rate: u64, values: &[i8]) -> bool {
        let blank = values.chunks_exact(BITS).filter(|four| **four == [0; BITS]);
        Code::of_rate(rate).is_ok_and(|code| blank.count() > code.blank_limit())
    }

    /// Decoding from bit values with one fault each in its checks, on the calls that try these.
    #[test]
    fn wrong_checks_of_bit_values_are_found() {
        let faults: [(&str, DecodeBits); 9] = [
            ("a short frame", |rate, values, doubt, message, report| {
                let mut values = values.to_vec();
                if values.len() == 255 {
                    values.push(0);
                }
                REFERENCE_BITS(rate, &values, doubt, message, report)
            }),
            ("a long frame", |rate, values, doubt, message, report| {
                let most = values.len().min(FRAME_VALUES);
                REFERENCE_BITS(rate, &values[..most], doubt, message, report)
            }),
            ("a table", |rate, values, doubt, message, report| {
                if values.len() == FRAME_VALUES {
                    return REFERENCE_BITS(rate, values, doubt, message, report);
                }
                let table: Vec<u8> = values.iter().map(|value| *value as u8).collect();
                REFERENCE_TABLE(rate, &table, doubt, message, report)
            }),
            (
                "the size before the rate",
                |rate, values, doubt, message, report| match values.len() {
                    FRAME_VALUES => REFERENCE_BITS(rate, values, doubt, message, report),
                    _ => 2,
                },
            ),
            (
                "the doubt before the size",
                |rate, values, doubt, message, report| match (Code::of_rate(rate), doubt) {
                    (Ok(_), 13..) => 4,
                    _ => REFERENCE_BITS(rate, values, doubt, message, report),
                },
            ),
            (
                "blank places before the doubt",
                |rate, values, doubt, message, report| {
                    let number = REFERENCE_BITS(rate, values, doubt, message, report);
                    if number == 4 && too_blank(rate, values) {
                        return 12;
                    }
                    number
                },
            ),
            (
                "nearness before blank places",
                |rate, values, doubt, message, report| {
                    let number = REFERENCE_BITS(rate, values, doubt, message, report);
                    if number == 12 {
                        return 9;
                    }
                    number
                },
            ),
            ("doubt 13", |rate, values, doubt, message, report| {
                let doubt = if doubt == 13 { 12 } else { doubt };
                REFERENCE_BITS(rate, values, doubt, message, report)
            }),
            (
                "the last place first",
                |rate, values, doubt, message, report| {
                    let places: Vec<&[i8]> = values.chunks(BITS).rev().collect();
                    REFERENCE_BITS(rate, &places.concat(), doubt, message, report)
                },
            ),
        ];
        let refused: Trial<DecodeBits> = |library, seed, number| {
            let outcome = bits_trial(library, seed, 16 * number + 15);
            let kind = outcome.bits.as_ref().map(|call| call.kind);
            assert_eq!(kind, Some(BitKind::Refused));
            outcome
        };
        for (name, library) in faults {
            let compared = compare(refused, [&REFERENCE_BITS, &library], 68, 512);
            assert!(compared.is_err(), "{name}");
        }
    }

    /// Decoding with a threshold with one fault each in its checks, on the calls that try these.
    #[test]
    fn wrong_checks_of_thresholds_are_found() {
        let faults: [(&str, DecodeBelow); 8] = [
            (
                "a maximum of 0",
                |rate, table, threshold, most, message, report| {
                    REFERENCE_BELOW(rate, table, threshold, most.max(1), message, report)
                },
            ),
            (
                "a maximum of 13",
                |rate, table, threshold, most, message, report| {
                    let most = if most == 13 { 12 } else { most };
                    REFERENCE_BELOW(rate, table, threshold, most, message, report)
                },
            ),
            (
                "a maximum of one byte",
                |rate, table, threshold, most, message, report| {
                    REFERENCE_BELOW(rate, table, threshold, most & 255, message, report)
                },
            ),
            (
                "the size before the rate",
                |rate, table, threshold, most, message, report| match table.len() {
                    TABLE_BYTES => REFERENCE_BELOW(rate, table, threshold, most, message, report),
                    _ => 2,
                },
            ),
            (
                "the maximum before the size",
                |rate, table, threshold, most, message, report| match (Code::of_rate(rate), most) {
                    (Ok(_), 0 | 13..) => 4,
                    _ => REFERENCE_BELOW(rate, table, threshold, most, message, report),
                },
            ),
            (
                "blank places before the maximum",
                |rate, table, threshold, most, message, report| {
                    let number = REFERENCE_BELOW(rate, table, threshold, most, message, report);
                    match (number, beyond_limit(rate, table)) {
                        (4, 1..) => 12,
                        _ => number,
                    }
                },
            ),
            (
                "nearness before blank places",
                |rate, table, threshold, most, message, report| match REFERENCE_BELOW(
                    rate, table, threshold, most, message, report,
                ) {
                    12 => 9,
                    number => number,
                },
            ),
            (
                "a refusal that writes",
                |rate, table, threshold, most, message, report| {
                    let number = REFERENCE_BELOW(rate, table, threshold, most, message, report);
                    if number == 4 {
                        report.fill(0);
                    }
                    number
                },
            ),
        ];
        let refused: Trial<DecodeBelow> = |library, seed, number| {
            let outcome = below_trial(library, seed, 10 * number + 9);
            let kind = outcome.below.as_ref().map(|call| call.kind);
            assert_eq!(kind, Some(BelowKind::Refused));
            outcome
        };
        for (name, library) in faults {
            let compared = compare(refused, [&REFERENCE_BELOW, &library], 71, 512);
            assert!(compared.is_err(), "{name}");
        }
    }
}
