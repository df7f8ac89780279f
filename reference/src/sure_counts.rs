//! Which frames with and without what is sure are compared, and how often.
//!
//! - [`SureSlip`], [`SURE_SLIPS`], [`Claims`]: wrong sentences on doubtful places, and what each promises of
//!   a frame.
//! - [`Sort`]: one thing that is counted; a frame is several of them. [`SurePart`]: one comparison, with the
//!   sorts that it has to try.
//! - [`SureCounts`]: the counts; [`SureCounts::check`] fails where a sort is missing, and where a frame does
//!   not come to what it is made for, or against the sentences.

use std::collections::BTreeMap;
use std::fmt;

use crate::code::{rates, Code};
use crate::decode::margin_of;
use crate::light::light_weight;
use crate::soft::{total, DOUBT_LIMIT};
use crate::sure_frames::{has_kind, Bounds, Must, Source, SureFrame, SureKind, SURE_KINDS};

/// A wrong sentence: it promises more than the right ones.
#[derive(Clone, Copy, Debug, PartialEq, Eq, PartialOrd, Ord)]
pub enum SureSlip {
    /// One doubtful place more is few.
    FewOneMore,
    /// Blank places do not count for few.
    FewWithoutBlanks,
    /// T counts once for few.
    FewOnceT,
    /// Seven doubtful places are few at every rate, or eight.
    FewSeven,
    FewEight,
    /// Whatever is doubtful, there is no second.
    FewAlways,
    /// T + 1 wrong settled places are repaired.
    RepairedOneMore,
    /// As many as without blank places.
    RepairedAsWithoutBlanks,
    /// The sent symbol need not be best or second at doubtful places.
    RepairedWithoutSymbols,
    /// Wrong doubtful places alone count for T, and the settled ones do not.
    RepairedWithoutWrong,
    /// One place more may be wrong or doubtful without another message.
    NeverOneMore,
    /// Blank places do not count for never, nor T, nor doubtful places.
    NeverWithoutBlanks,
    NeverWithoutT,
    NeverWithoutDoubt,
    /// Of the doubtful places those alone count where the sent symbol is neither best nor second.
    NeverWithoutSeconds,
    /// Whatever is wrong or doubtful, no other message comes.
    NeverAlways,
}

pub const SURE_SLIPS: [SureSlip; 16] = [
    SureSlip::FewOneMore,
    SureSlip::FewWithoutBlanks,
    SureSlip::FewOnceT,
    SureSlip::FewSeven,
    SureSlip::FewEight,
    SureSlip::FewAlways,
    SureSlip::RepairedOneMore,
    SureSlip::RepairedAsWithoutBlanks,
    SureSlip::RepairedWithoutSymbols,
    SureSlip::RepairedWithoutWrong,
    SureSlip::NeverOneMore,
    SureSlip::NeverWithoutBlanks,
    SureSlip::NeverWithoutT,
    SureSlip::NeverWithoutDoubt,
    SureSlip::NeverWithoutSeconds,
    SureSlip::NeverAlways,
];

/// What sentences promise of a frame.
#[derive(Clone, Copy, Debug, PartialEq, Eq)]
pub struct Claims {
    /// There is no margin.
    pub alone: bool,
    /// The sent message comes back.
    pub repaired: bool,
    /// No other message comes.
    pub never: bool,
}

impl Claims {
    /// By the right sentences, or with a wrong one among them.
    pub fn of(frame: &SureFrame, slip: Option<SureSlip>) -> Claims {
        let Bounds {
            distance,
            reach,
            blanks,
        } = frame.bounds;
        let SureFrame { wrong, lost, .. } = *frame;
        let doubt = frame.doubt();
        let few = doubt + 2 * reach + blanks < distance;
        let alone = match slip {
            Some(SureSlip::FewOneMore) => doubt + 2 * reach + blanks <= distance,
            Some(SureSlip::FewWithoutBlanks) => doubt + 2 * reach < distance,
            Some(SureSlip::FewOnceT) => doubt + reach + blanks < distance,
            Some(SureSlip::FewSeven) => few || doubt <= 7,
            Some(SureSlip::FewEight) => few || doubt <= 8,
            Some(SureSlip::FewAlways) => true,
            _ => few,
        };
        let whole = Code::of_rate(frame.frame.rate).expect("a known rate").reach;
        let repaired = match slip {
            Some(SureSlip::RepairedOneMore) => wrong <= reach + 1 && lost == 0,
            Some(SureSlip::RepairedAsWithoutBlanks) => wrong <= whole && lost == 0,
            Some(SureSlip::RepairedWithoutSymbols) => wrong <= reach,
            Some(SureSlip::RepairedWithoutWrong) => lost <= reach,
            _ => wrong <= reach && lost == 0,
        };
        let never = match slip {
            Some(SureSlip::NeverOneMore) => wrong + doubt + reach + blanks <= distance,
            Some(SureSlip::NeverWithoutBlanks) => wrong + doubt + reach < distance,
            Some(SureSlip::NeverWithoutT) => wrong + doubt + blanks < distance,
            Some(SureSlip::NeverWithoutDoubt) => wrong + reach + blanks < distance,
            Some(SureSlip::NeverWithoutSeconds) => wrong + lost + reach + blanks < distance,
            Some(SureSlip::NeverAlways) => true,
            _ => wrong + doubt + reach + blanks < distance,
        };
        Claims {
            alone,
            repaired: few && repaired,
            never,
        }
    }

    /// Whether what came is not what they promise.
    pub fn is_against(&self, came: &Came) -> bool {
        self.alone && came.margin.is_some()
            || self.repaired && !came.is_sent
            || self.never && came.is_other
    }
}

/// What came of a frame.
#[derive(Clone, Copy, Debug, PartialEq, Eq)]
pub struct Came {
    pub number: u8,
    /// The sent message was written, or another one.
    pub is_sent: bool,
    pub is_other: bool,
    pub margin: Option<u32>,
    /// The buffers are as they were.
    pub untouched: bool,
}

impl Came {
    pub fn of(frame: &SureFrame, number: u8, lent: [&[u8]; 2], untouched: bool) -> Came {
        let [message, report] = lent;
        let code = Code::of_rate(frame.frame.rate).expect("a known rate");
        let is_sent = number == 0 && code.codeword(message) == frame.sent;
        Came {
            number,
            is_sent,
            is_other: number == 0 && !is_sent,
            margin: margin_of(report).filter(|_| number == 0),
            untouched,
        }
    }

    /// Whether it is what the frame is made for; the message is the one that was written.
    fn is_right(&self, frame: &SureFrame, message: &[u8]) -> bool {
        let code = Code::of_rate(frame.frame.rate).expect("a known rate");
        match frame.must {
            Must::Sent => self.is_sent && self.margin.is_none(),
            Must::Nothing => self.number == 9 && self.untouched,
            Must::Rival => self.number == 0 && code.codeword(message) == frame.rival,
            Must::Margin if self.number != 0 || self.margin.is_none() => false,
            Must::Margin if !frame.has_no_third() => true,
            Must::Margin => {
                let mut both = [frame.sent, frame.rival].map(|word| {
                    let cost = total(&frame.frame.columns, &word.elements());
                    (cost, code.message(&word).expect("a codeword"))
                });
                both.sort();
                both[0].1 == message && self.margin == Some(both[1].0 - both[0].0)
            }
        }
    }
}

/// A comparison.
#[derive(Clone, Copy, Debug, PartialEq, Eq)]
pub enum SurePart {
    Tables,
    /// With at least one doubtful place.
    Thresholds,
    Bits,
    Sessions,
}

/// What is counted.
#[derive(Clone, Copy, Debug, PartialEq, Eq, PartialOrd, Ord)]
pub enum Sort {
    /// A frame by its rate, with blank places or without.
    Frame {
        rate: u64,
        kind: SureKind,
        faded: bool,
    },
    /// One by its number of doubtful places.
    Doubt {
        kind: SureKind,
        doubt: usize,
    },
    /// One with as many doubtful places as are few, and one with one more, or two where no two codewords
    /// are known to differ in n − M places.
    LastFew {
        rate: u64,
    },
    FirstMargin {
        rate: u64,
    },
    /// What has to come back at a rate.
    End {
        rate: u64,
        must: Must,
    },
    /// A frame of which a wrong sentence promises what did not come.
    Slip(SureSlip),
}

/// Every sort that a comparison has to try.
fn wanted(part: SurePart) -> Vec<Sort> {
    let mut wanted = Vec::new();
    let source = match part {
        SurePart::Bits => Source::Bits,
        _ => Source::Costs,
    };
    for rate in rates() {
        let limit = Code::of_rate(rate).expect("a known rate").blank_limit();
        let has = |kind| has_kind(source, rate, kind);
        for kind in SURE_KINDS.into_iter().filter(|kind| has(*kind)) {
            let with = |faded: &bool| !faded || limit > 0;
            let frame = |faded| Sort::Frame { rate, kind, faded };
            wanted.extend([false, true].into_iter().filter(with).map(frame));
        }
        wanted.push(Sort::LastFew { rate });
        let ends = [Must::Sent, Must::Nothing, Must::Rival];
        wanted.extend(ends.map(|must| Sort::End { rate, must }));
        if has(SureKind::PastFew) {
            let must = Must::Margin;
            wanted.extend([Sort::FirstMargin { rate }, Sort::End { rate, must }]);
        }
    }
    for kind in SURE_KINDS {
        let doubts = doubts(part, kind);
        wanted.extend(doubts.map(|doubt| Sort::Doubt { kind, doubt }));
    }
    wanted.extend(SURE_SLIPS.map(Sort::Slip));
    wanted
}

/// The numbers of doubtful places with which a kind comes.
fn doubts(part: SurePart, kind: SureKind) -> std::ops::RangeInclusive<usize> {
    let least = usize::from(part == SurePart::Thresholds);
    match (kind, part) {
        (SureKind::Few, _) => least..=7,
        (SureKind::PastFew, SurePart::Bits) => 7..=9,
        (SureKind::PastFew, _) => 7..=DOUBT_LIMIT,
        (SureKind::PastNever | SureKind::PastNeverSecond, SurePart::Bits) => 0..=6,
        _ => least..=DOUBT_LIMIT,
    }
}

/// The counts, and what was against the rule.
#[derive(Clone, Debug, Default, PartialEq, Eq)]
pub struct SureCounts {
    counts: BTreeMap<Sort, u64>,
    against: Vec<String>,
}

impl SureCounts {
    /// Counts a frame that came to this number, message and report, in buffers that are as they were, or
    /// are not.
    pub fn count(&mut self, frame: &SureFrame, number: u8, lent: [&[u8]; 2], untouched: bool) {
        let SureFrame { kind, must, .. } = *frame;
        let (rate, doubt) = (frame.frame.rate, frame.doubt());
        let Bounds {
            blanks, distance, ..
        } = frame.bounds;
        let came = Came::of(frame, number, lent, untouched);
        let claims = Claims::of(frame, None);
        if !came.is_right(frame, lent[0]) || claims.is_against(&came) {
            self.against.push(format!(
                "{kind:?} at rate {rate}, doubt {doubt}, {} wrong, {blanks} blank, comes to {came:?}",
                frame.wrong
            ));
            return;
        }
        let faded = blanks > 0;
        self.add_one(Sort::Frame { rate, kind, faded });
        self.add_one(Sort::Doubt { kind, doubt });
        self.add_one(Sort::End { rate, must });
        let code = Code::of_rate(rate).expect("a known rate");
        let past = 1 + light_weight(code) - distance;
        match kind {
            SureKind::Few if doubt == frame.bounds.few() => self.add_one(Sort::LastFew { rate }),
            SureKind::PastFew if doubt == frame.bounds.few() + past => {
                self.add_one(Sort::FirstMargin { rate });
            }
            _ => (),
        }
        for slip in SURE_SLIPS {
            if Claims::of(frame, Some(slip)).is_against(&came) {
                self.add_one(Sort::Slip(slip));
            }
        }
    }

    fn add_one(&mut self, sort: Sort) {
        *self.counts.entry(sort).or_default() += 1;
    }

    pub fn add(&mut self, other: SureCounts) {
        for (sort, times) in other.counts {
            *self.counts.entry(sort).or_default() += times;
        }
        self.against.extend(other.against);
    }

    fn times(&self, sort: &Sort) -> u64 {
        self.counts.get(sort).copied().unwrap_or(0)
    }

    /// How often the sorts came that are so.
    fn came(&self, so: impl Fn(&Sort) -> bool) -> u64 {
        let came = self.counts.iter().filter(|(sort, _)| so(sort));
        came.map(|(_, times)| times).sum()
    }

    /// A line that says what was against the rule, or names the sorts that did not come.
    pub fn check(&self, part: SurePart) -> Result<(), String> {
        if let Some(first) = self.against.first() {
            let more = self.against.len() - 1;
            return Err(format!("{first}, and {more} more against the rule"));
        }
        let wanted = wanted(part);
        let missing: Vec<&Sort> = wanted.iter().filter(|s| self.times(s) == 0).collect();
        if missing.is_empty() {
            return Ok(());
        }
        let first: Vec<String> = missing.iter().take(5).map(|s| format!("{s:?}")).collect();
        Err(format!(
            "{} of {} sorts of what is sure are missing ({}): {}",
            missing.len(),
            wanted.len(),
            first.join(", "),
            self.line(part)
        ))
    }

    /// The counts in a line.
    pub fn line(&self, part: SurePart) -> String {
        let wanted = wanted(part);
        let came = wanted.iter().filter(|s| self.times(s) > 0).count();
        format!("sure: {came} of {} sorts; {self}", wanted.len())
    }
}

impl fmt::Display for SureCounts {
    fn fmt(&self, out: &mut fmt::Formatter) -> fmt::Result {
        let of_kind = |of: SureKind| {
            self.came(|sort| matches!(sort, Sort::Doubt { kind, .. } if *kind == of))
        };
        let [few, past, never, kept, lost, rival, second] = SURE_KINDS.map(of_kind);
        let faded = self.came(|sort| matches!(sort, Sort::Frame { faded: true, .. }));
        let last = self.came(|sort| matches!(sort, Sort::LastFew { .. }));
        let first = self.came(|sort| matches!(sort, Sort::FirstMargin { .. }));
        write!(
            out,
            "{few} with few doubtful places, {last} of them as many as are few, and {past} with more and a \
             margin, {first} of them the first; {never} as far as never another message comes, {kept} \
             nearer and repaired, {lost} nearer and refused, {} beyond and another message; {faded} with \
             blank places; told from the wrong sentences",
            rival + second
        )?;
        for slip in SURE_SLIPS {
            write!(out, " {slip:?}: {}", self.times(&Sort::Slip(slip)))?;
        }
        Ok(())
    }
}

#[cfg(test)]
mod tests {
    use super::*;
    use crate::code::RATE_COUNT;
    use crate::decode::{Answer, REPORT_BYTES};
    use crate::row::Row;
    use crate::sure_frames::{FEW_SURE_TURNS, SURE_STEP};

    /// What comes back: the number, the message and the report.
    type Back = (u8, Vec<u8>, [u8; REPORT_BYTES]);

    fn report(margin: Option<u32>) -> [u8; REPORT_BYTES] {
        let answer = Answer {
            message: Vec::new(),
            total: 0,
            tests: 1,
            pinned: 0,
            changed: 0,
            margin,
            marked: false,
        };
        answer.report()
    }

    /// What a frame is made for.
    fn right(frame: &SureFrame) -> Back {
        let code = Code::of_rate(frame.frame.rate).unwrap();
        let message = |word: &Row| code.message(word).unwrap();
        let cost = |word: &Row| total(&frame.frame.columns, &word.elements());
        let mut both = [frame.sent, frame.rival].map(|word| (cost(&word), message(&word)));
        match frame.must {
            Must::Sent => (0, message(&frame.sent), report(None)),
            Must::Nothing => (9, message(&frame.sent), report(None)),
            Must::Rival => (0, message(&frame.rival), report(None)),
            Must::Margin => {
                both.sort();
                let margin = both[1].0 - both[0].0;
                (0, both[0].1.clone(), report(Some(margin)))
            }
        }
    }

    fn count(counts: &mut SureCounts, frame: &SureFrame, back: &Back, untouched: bool) {
        let (number, message, report) = back;
        counts.count(frame, *number, [message, report], untouched);
    }

    fn frames(part: SurePart) -> impl Iterator<Item = SureFrame> {
        let numbers = 0..(RATE_COUNT * FEW_SURE_TURNS) as u64;
        numbers.map(move |number| match part {
            SurePart::Bits => SureFrame::of_bits(141, number),
            SurePart::Thresholds if number < SURE_STEP => {
                SureFrame::numbered(141, number + SURE_STEP)
            }
            _ => SureFrame::numbered(141, number),
        })
    }

    /// Few turns of a seed, each frame with what it is made for, have every sort; one that is missing is
    /// named.
    #[test]
    fn every_sort_is_wanted() {
        for part in [SurePart::Tables, SurePart::Thresholds, SurePart::Bits] {
            let mut full = SureCounts::default();
            for frame in frames(part) {
                count(&mut full, &frame, &right(&frame), true);
            }
            assert_eq!(full.check(part), Ok(()));
            for sort in wanted(part).into_iter().step_by(17) {
                let mut few = full.clone();
                few.counts.remove(&sort);
                let line = few.check(part).unwrap_err();
                assert!(line.contains(&format!("are missing ({sort:?})")), "{line}");
            }
        }
    }

    /// Another message than that of the frame's end, a margin where there is none or none where there is one,
    /// a refusal in its stead or the other way round, and a refusal that writes.
    #[test]
    fn what_is_against_the_rule_is_an_error() {
        for frame in frames(SurePart::Tables).step_by(3) {
            let (number, message, report_bytes) = right(&frame);
            let mut another = message.clone();
            another[0] ^= 1;
            let margin = margin_of(&report_bytes);
            let other_margin = report(margin.is_none().then_some(7));
            let mut wrong = vec![
                ((9 - number, message.clone(), report_bytes), true),
                ((2, message.clone(), report_bytes), true),
            ];
            match frame.must {
                Must::Nothing => wrong.push(((9, message, report_bytes), false)),
                Must::Margin if !frame.has_no_third() => {
                    wrong.push(((0, message, other_margin), false));
                }
                Must::Sent | Must::Margin => {
                    wrong.push(((0, message, other_margin), false));
                    wrong.push(((0, another, report_bytes), false));
                }
                Must::Rival => wrong.push(((0, another, report_bytes), false)),
            }
            for (back, untouched) in wrong {
                let mut counts = SureCounts::default();
                count(&mut counts, &frame, &back, untouched);
                let line = counts.check(SurePart::Tables).unwrap_err();
                assert!(line.contains("more against the rule"), "{line} {back:?}");
            }
        }
    }

    /// Each wrong sentence promises as much as the right one, and more of some frames.
    #[test]
    fn wrong_sentences_promise_more() {
        for frame in frames(SurePart::Tables) {
            let right = Claims::of(&frame, None);
            for slip in SURE_SLIPS {
                let wrong = Claims::of(&frame, Some(slip));
                assert!(wrong.alone >= right.alone, "{slip:?}");
                assert!(wrong.repaired >= right.repaired, "{slip:?}");
                assert!(wrong.never >= right.never, "{slip:?}");
            }
        }
    }
}
