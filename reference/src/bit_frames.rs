//! Calls of decoding from bit values, made at random around known codewords.
//!
//! - [`BitCall`], [`BitCall::numbered`]: call `number` of a seed; the even numbers go round every value
//!   at every position, the odd ones round the other kinds, the rates, the doubts and the numbers of
//!   blank places.
//! - [`BitKind`], [`BIT_KINDS`]: what a call is made to try.

use crate::bits::{BITS, FRAME_VALUES, SENT};
use crate::channel::Channel;
use crate::code::Code;
use crate::curve::PLACES;
use crate::decode::{REPORT_BYTES, TABLE_BYTES};
use crate::faults::{has, Fault, Faults, FAULT_SETS};
use crate::frames::{blank_limit, random_codeword, some_places, unknown_rate, DOUBTFUL_GAP, RATES};
use crate::light::lightest;
use crate::pairs::NEAR_DOUBT;
use crate::random::Random;
use crate::row::Row;
use crate::soft::DOUBT_LIMIT;

/// Values at every position at every rate, beside zeros and beside others: so many probes.
pub const PROBES: usize = RATES.len() * 2 * BITS * 256;

/// The least magnitude of a bit that is not to be doubtful.
const CLEAR: usize = 20;

/// Wrong numbers of values; a table's is the last.
pub const SIZES: [usize; 6] = [0, 64, 255, 257, 1024, TABLE_BYTES];

/// Doubts that are refused.
pub const DOUBTS: [u64; 6] = [TOO_MANY, TOO_MANY + 1, 255, 256, 256 + 3, u64::MAX];

/// The first doubt that is above the limit.
const TOO_MANY: u64 = DOUBT_LIMIT as u64 + 1;

/// What a call is made to try. T is that of its number of blank places.
#[derive(Clone, Copy, Debug, PartialEq, Eq, PartialOrd, Ord)]
pub enum BitKind {
    /// One value at one position of one place, beside zeros or others, against the sent bit: the
    /// answer's total has its magnitude. The other places have the sent symbol.
    Probe,
    /// Sent through the channel, from hopeless to nearly clean.
    Noise,
    /// Places with four zeros, and at most T wrong ones.
    Faded,
    /// Some places, up to two more than T, have three zeros and one value, 1 or as far as can be.
    Level,
    /// One value everywhere, −128, 127 or 0, but for a few places; or a codeword in values of −128
    /// and 127 with wrong places, up to one more than T.
    Extreme,
    /// Values −1 to 1.
    Sparse,
    /// Two near codewords, at rate 39 with doubt 8 or more: there is a margin, once in four zero.
    Pair,
    /// Values that follow no codeword.
    Random,
    /// Any of the faults together.
    Refused,
}

/// The kinds but for the probes, of which there are as many as of all others.
pub const BIT_KINDS: [BitKind; 8] = [
    BitKind::Noise,
    BitKind::Faded,
    BitKind::Level,
    BitKind::Extreme,
    BitKind::Sparse,
    BitKind::Pair,
    BitKind::Random,
    BitKind::Refused,
];

/// What decoding from bit values is called with, and the sizes of its lent buffers.
#[derive(Clone, Debug, PartialEq, Eq)]
pub struct BitCall {
    pub kind: BitKind,
    pub rate: u64,
    pub values: Vec<i8>,
    pub doubt: u64,
    pub message: usize,
    pub report: usize,
    /// Those of a refused call.
    pub faults: Faults,
}

/// The four values of each place.
type Values = [[i8; BITS]; PLACES];

impl BitCall {
    /// Call `number` of a seed.
    pub fn numbered(seed: u64, number: u64) -> BitCall {
        let random = &mut Random::new(seed, number);
        let half = number as usize / 2;
        if number.is_multiple_of(2) {
            return probe(half % PROBES, random);
        }
        let kind = BIT_KINDS[half % BIT_KINDS.len()];
        let round = half / BIT_KINDS.len();
        let rate = RATES[round % RATES.len()];
        let doubt = round / RATES.len() % (DOUBT_LIMIT + 1);
        let limit = blank_limit(rate);
        match kind {
            BitKind::Probe => probe(round % PROBES, random),
            BitKind::Noise => right(kind, rate, doubt, &noise(rate, random)),
            BitKind::Faded => {
                let blanks = 1 + round / RATES.len() % (limit + 1);
                right(kind, rate, doubt, &faded(rate, blanks, random))
            }
            BitKind::Level => right(kind, rate, doubt, &level(rate, random)),
            BitKind::Extreme => right(kind, rate, doubt, &extreme(rate, random)),
            BitKind::Sparse => right(kind, rate, doubt, &sparse(rate, random)),
            BitKind::Pair => {
                let doubt = NEAR_DOUBT + round % (DOUBT_LIMIT + 1 - NEAR_DOUBT);
                right(kind, 39, doubt, &pair(random))
            }
            BitKind::Random => {
                let values = [(); PLACES].map(|_| [(); BITS].map(|_| random.number() as i8));
                right(kind, rate, doubt, &values)
            }
            BitKind::Refused => refused(round, random),
        }
    }

    pub fn has(&self, fault: Fault) -> bool {
        has(self.faults, fault)
    }
}

/// A call with nothing wrong but what the values are.
fn right(kind: BitKind, rate: u64, doubt: usize, values: &Values) -> BitCall {
    BitCall {
        kind,
        rate,
        values: values.as_flattened().to_vec(),
        doubt: doubt as u64,
        message: rate as usize,
        report: REPORT_BYTES,
        faults: 0,
    }
}

/// Probe `number`: rate, others, position and value go round.
fn probe(number: usize, random: &mut Random) -> BitCall {
    let rate = RATES[number % RATES.len()];
    let beside_zeros = [true, false][number / RATES.len() % 2];
    let position = number / (RATES.len() * 2) % BITS;
    let value = (number / (RATES.len() * 2 * BITS)) as u8 as i8;
    let code = code(rate);
    let contradicts = |symbol: u8| SENT[usize::from(symbol)][position] * i16::from(value) <= 0;
    let (sent, place) = loop {
        let sent = random_codeword(code, random);
        let place = random.below(PLACES);
        if contradicts(sent.get(place)) {
            break (sent, place);
        }
    };
    let mut values = clear(&sent, CLEAR, random);
    values[place] = loop {
        let mut four = [0; BITS];
        if !beside_zeros {
            four = four.map(|_| random.number() as i8);
        }
        four[position] = 0;
        let zeros = four == [0; BITS];
        four[position] = value;
        if zeros == beside_zeros {
            break four;
        }
    };
    right(BitKind::Probe, rate, random.below(3), &values)
}

fn code(rate: u64) -> &'static Code {
    Code::of_rate(rate).expect("a known rate")
}

/// A bit sent, 1 or −1, in this magnitude; 128 is 127 above zero.
fn signed(bit: i16, magnitude: usize) -> i8 {
    (bit * magnitude as i16).clamp(-128, 127) as i8
}

/// A symbol's bits in magnitudes from the least one to 128.
fn clear_symbol(symbol: u8, least: usize, random: &mut Random) -> [i8; BITS] {
    SENT[usize::from(symbol)].map(|bit| signed(bit, random.between(least, 128)))
}

fn clear(sent: &Row, least: usize, random: &mut Random) -> Values {
    let symbols = sent.elements();
    symbols.map(|symbol| clear_symbol(symbol, least, random))
}

/// All bits of a place become the others: neither its best nor its second symbol is the sent one.
fn turn(values: &mut [i8; BITS]) {
    *values = values.map(|value| (-i16::from(value)).min(127) as i8);
}

/// So many places of a frame, in any order.
fn places(count: usize, random: &mut Random) -> Vec<usize> {
    let places = some_places(count, random);
    random.shuffled(places.into_iter().map(usize::from))
}

fn noise(rate: u64, random: &mut Random) -> Values {
    let channel = Channel::at(rate, random.between(10, 36) as f64 / 4.0);
    let sent = random_codeword(code(rate), random).elements();
    sent.map(|symbol| channel.values(symbol, random))
}

fn faded(rate: u64, blanks: usize, random: &mut Random) -> Values {
    let code = code(rate);
    let sent = random_codeword(code, random);
    let mut values = clear(&sent, 1, random);
    let wrong = random.between(0, code.reach_with(blanks).unwrap_or(0));
    let chosen = places(blanks + wrong, random);
    for place in &chosen[..blanks] {
        values[*place] = [0; BITS];
    }
    for place in &chosen[blanks..] {
        turn(&mut values[*place]);
    }
    values
}

fn level(rate: u64, random: &mut Random) -> Values {
    let code = code(rate);
    let sent = random_codeword(code, random);
    let mut values = clear(&sent, CLEAR, random);
    for place in places(random.between(1, code.reach + 2), random) {
        values[place] = [0; BITS];
        values[place][random.below(BITS)] = random.one_of(&[-128, -1, 1, 127]);
    }
    values
}

fn extreme(rate: u64, random: &mut Random) -> Values {
    let code = code(rate);
    let wrong = match random.below(3) {
        0 => 0,
        _ => random.between(1, code.reach + 1),
    };
    let mut values = match random.below(5) {
        0 => [[0; BITS]; PLACES],
        1 => [[127; BITS]; PLACES],
        2 => [[-128; BITS]; PLACES],
        _ => clear(&random_codeword(code, random), 128, random),
    };
    for place in places(wrong, random) {
        values[place] = values[place].map(|value| if value < 0 { 127 } else { -128 });
    }
    values
}

fn sparse(rate: u64, random: &mut Random) -> Values {
    let code = code(rate);
    let sent = random_codeword(code, random).elements();
    let mut values = sent.map(|symbol| SENT[usize::from(symbol)].map(|bit| signed(bit, 1)));
    for place in places(random.between(1, 2 * code.reach + 2), random) {
        let value = &mut values[place][random.below(BITS)];
        *value = match random.below(8) {
            0 => -*value,
            _ => 0,
        };
    }
    values
}

/// The second symbol of a column from bit values has one bit other than the best. So two codewords
/// are near only if they differ in one bit at each of eight doubtful places. At rate 39 those of
/// [`lightest`] are the same at the four places of an x, and two such fours are the doubtful ones; of
/// each other four, half of the places lean to each codeword.
fn pair(random: &mut Random) -> Values {
    let code = code(39);
    let (difference, doubtful) = loop {
        let difference = lightest(code, random);
        let one_bit = |x: &usize| difference.get(4 * x).is_power_of_two();
        let fours = random.shuffled((0..PLACES / 4).filter(one_bit));
        if let [first, second, ..] = fours[..] {
            break (difference, [first, second]);
        }
    };
    let alike = random.once_in(4);
    let (least, small) = (random.between(CLEAR, 127), random.below(DOUBTFUL_GAP + 1));
    let first = random_codeword(code, random);
    std::array::from_fn(|place| {
        let (symbol, other) = (first.get(place), difference.get(place));
        let odd = place % 2 == 1;
        let doubtful = doubtful.contains(&(place / 4));
        let near = if odd && !doubtful {
            symbol ^ other
        } else {
            symbol
        };
        let mut values = if alike {
            SENT[usize::from(near)].map(|bit| signed(bit, least))
        } else {
            clear_symbol(near, CLEAR, random)
        };
        if doubtful {
            let position = BITS - 1 - other.trailing_zeros() as usize;
            let (value, turned) = if alike {
                (small, odd)
            } else {
                (random.below(DOUBTFUL_GAP + 1), random.once_in(2))
            };
            let bit = SENT[usize::from(symbol)][position];
            values[position] = signed(if turned { -bit } else { bit }, value);
        }
        values
    })
}

/// Each set of faults in its turn, on a codeword that is else near.
fn refused(round: usize, random: &mut Random) -> BitCall {
    let (set, turn_of_sets) = (round % FAULT_SETS, round / FAULT_SETS);
    let rate = RATES[(set + turn_of_sets) % RATES.len()];
    let code = code(rate);
    let sent = random_codeword(code, random);
    let mut values = clear(&sent, CLEAR, random);
    let mut call = right(BitKind::Refused, rate, random.below(3), &values);
    call.faults = set as Faults;
    let (wrong, blank) = (call.has(Fault::Near), call.has(Fault::Blank));
    let wrong = if wrong { code.reach + 1 } else { 0 };
    let blank = if blank { blank_limit(rate) + 1 } else { 0 };
    let chosen = places(wrong + blank, random);
    for place in &chosen[..wrong] {
        turn(&mut values[*place]);
    }
    for place in &chosen[wrong..] {
        values[*place] = [0; BITS];
    }
    call.values = values.as_flattened().to_vec();
    if call.has(Fault::Rate) {
        call.rate = unknown_rate(u64::MAX, random);
    }
    if call.has(Fault::Given) {
        let size = SIZES[(set + turn_of_sets) % SIZES.len()];
        call.values.resize(size, 1);
    }
    if call.has(Fault::Message) {
        let other = RATES[usize::from(rate == RATES[0])] as usize;
        call.message = random.one_of(&[0, call.message - 1, call.message + 1, other]);
    }
    if call.has(Fault::Report) {
        call.report = random.one_of(&[0, 8, REPORT_BYTES - 1, REPORT_BYTES + 1, FRAME_VALUES]);
    }
    if call.has(Fault::Doubt) {
        call.doubt = DOUBTS[(set + turn_of_sets) % DOUBTS.len()];
    }
    call
}

#[cfg(test)]
mod tests {
    use super::*;
    use crate::bits::{columns_of_bits, decode_bits};
    use crate::decode::margin_of;
    use crate::faults::first_fault;
    use crate::refusal::number;
    use crate::soft::{best, blank_places, second};

    fn decoded(call: &BitCall) -> (u8, Vec<u8>, Vec<u8>) {
        let (mut message, mut report) = (vec![0; call.message], vec![0; call.report]);
        let values = &call.values;
        let result = decode_bits(call.rate, values, call.doubt, &mut message, &mut report);
        (number(&result), message, report)
    }

    fn calls(kind: BitKind) -> impl Iterator<Item = BitCall> {
        let calls = (0..4096).map(|number| BitCall::numbered(142, number));
        calls.filter(move |call| call.kind == kind)
    }

    /// The answer is the sent codeword, and its total the cost of the probed place alone.
    #[test]
    fn probes_show_the_magnitude_of_their_value() {
        for number in 0..PROBES {
            let call = BitCall::numbered(143, 2 * number as u64);
            assert_eq!(call.kind, BitKind::Probe);
            let value = (number / 16) as u8 as i8;
            let (refusal, message, report) = decoded(&call);
            assert_eq!(refusal, 0);
            let total = u32::from_be_bytes([report[0], report[1], report[2], report[3]]);
            let magnitude = u32::from(value.unsigned_abs());
            let word = code(call.rate).codeword(&message);
            if number / 2 % 2 == 0 {
                assert_eq!(total, magnitude);
            }
            assert!((magnitude..=512).contains(&total));
            let costly = columns_of_bits(&call.values)
                .iter()
                .zip(word.elements())
                .filter(|(column, symbol)| column[usize::from(*symbol)] > 0)
                .count();
            assert!(costly <= 1);
        }
    }

    #[test]
    fn the_first_fault_is_refused() {
        let mut sets = std::collections::BTreeSet::new();
        for round in 0..2 * FAULT_SETS {
            let call = refused(round, &mut Random::new(144, round as u64));
            assert_eq!(decoded(&call).0, first_fault(call.faults), "{round}");
            sets.insert(call.faults);
        }
        assert_eq!(sets.len(), FAULT_SETS);
    }

    #[test]
    fn faded_frames_have_every_number_of_blank_places() {
        let mut seen = std::collections::BTreeSet::new();
        for call in calls(BitKind::Faded) {
            let blanks = blank_places(&columns_of_bits(&call.values)).len();
            let expected = match blanks > blank_limit(call.rate) {
                true => 12,
                false => 0,
            };
            assert_eq!(decoded(&call).0, expected);
            seen.insert((call.rate, blanks));
        }
        assert_eq!(seen.len(), 14 + 4);
    }

    #[test]
    fn level_frames_are_not_blank() {
        for call in calls(BitKind::Level) {
            let columns = columns_of_bits(&call.values);
            assert_eq!(blank_places(&columns), []);
        }
    }

    #[test]
    fn pairs_have_margins() {
        let mut zero = 0;
        for call in calls(BitKind::Pair) {
            let (refusal, _, report) = decoded(&call);
            assert_eq!(refusal, 0);
            let margin = margin_of(&report);
            assert!(margin.is_some());
            zero += u32::from(margin == Some(0));
        }
        assert!(zero >= 20, "{zero}");
    }

    /// So pairs are made as they are.
    #[test]
    fn second_symbols_differ_in_one_bit() {
        for kind in [BitKind::Random, BitKind::Sparse, BitKind::Level] {
            for call in calls(kind) {
                for column in columns_of_bits(&call.values) {
                    assert!((best(&column) ^ second(&column)).is_power_of_two());
                }
            }
        }
    }
}
