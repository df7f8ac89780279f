//! What is tried of superframes, around what decides there: how many symbols of each word are wrong, and
//! which check refuses first.
//!
//! - [`Turn`], [`turns`]: what is tried, at which rate; [`Turn::number`]: the number that it comes to.
//! - [`Messages`], [`Beyond`], [`Flaw`]: the messages, and what may be wrong with a word and with a call.
//! - [`BUILD_FAULTS`], [`TAKE_FAULTS`]: the checks in their order.

use std::sync::OnceLock;

use crate::code::{rates, Code};
use crate::frames::UNKNOWN_RATES;
use crate::superframe::{FRAME_BYTES, HEAD_BYTES, SYMBOLS, WORDS};

/// At this rate bursts begin at every symbol, and every set of words is beyond repair.
pub const SWEPT_RATE: u64 = 39;

/// The longest burst of a rate: at the others eight symbols more than always come back.
pub fn longest_burst(rate: u64) -> usize {
    match rate {
        SWEPT_RATE => 60,
        _ => WORDS * (reach(rate) + 1),
    }
}

/// T where no place is blank.
pub fn reach(rate: u64) -> usize {
    Code::of_rate(rate).expect("a known rate").reach
}

/// What building is refused with, in the order of its checks. Any of these faults together are a set: number
/// n is bit n.
pub const BUILD_FAULTS: [u8; 3] = [1, 2, 3];

/// The same of taking apart: size, version, length; rate, size of the buffer, symbols.
pub const TAKE_FAULTS: [u8; 6] = [14, 14, 14, 1, 2, 3];

/// The refusal of the first fault of a set, or 0.
pub fn first_of(faults: &[u8], set: u8) -> u8 {
    let first = faults.get(set.trailing_zeros() as usize);
    first.copied().unwrap_or(0)
}

/// What is tried.
#[derive(Clone, Copy, Debug, PartialEq, Eq, PartialOrd, Ord)]
pub enum Turn {
    /// Building, and taking apart what was built.
    Build { rate: u64, messages: Messages },
    /// Building with all of these faults.
    BuildFaults { rate: u64, faults: u8 },
    /// Building with one fault.
    BuildFlaw { rate: u64, flaw: Flaw },
    /// Taking apart, with so many symbols altered from this one on, or as many as there are.
    Burst {
        rate: u64,
        long: usize,
        start: usize,
    },
    /// With the words of a set beyond repair; the others have up to T wrong symbols.
    Beyond {
        rate: u64,
        words: u8,
        beyond: Beyond,
    },
    /// With all of these faults.
    Faults { rate: u64, faults: u8 },
    /// With one fault.
    Flaw { rate: u64, flaw: Flaw },
}

/// Eight messages.
#[derive(Clone, Copy, Debug, PartialEq, Eq, PartialOrd, Ord)]
pub enum Messages {
    Random,
    /// All symbols are 0.
    Zero,
    /// All symbols are 15.
    Highest,
    /// Those of word v are all v.
    Numbered,
}

pub const MESSAGES: [Messages; 4] = [
    Messages::Random,
    Messages::Zero,
    Messages::Highest,
    Messages::Numbered,
];

/// How a word is beyond repair.
#[derive(Clone, Copy, Debug, PartialEq, Eq, PartialOrd, Ord)]
pub enum Beyond {
    /// T + 1 symbols are wrong.
    Past,
    /// More, but too few for another codeword to be near.
    Far,
    /// Every symbol is wrong, so that the word follows no codeword.
    All,
}

pub const BEYONDS: [Beyond; 3] = [Beyond::Past, Beyond::Far, Beyond::All];

/// One fault.
#[derive(Clone, Copy, Debug, PartialEq, Eq, PartialOrd, Ord)]
pub enum Flaw {
    /// A superframe of so many bytes.
    Size(usize),
    Version(u8),
    Length([u8; 2]),
    /// A rate that there is not.
    Rate(u64),
    /// Messages, or a buffer for them, of so many bytes.
    Room(usize),
    /// A number above 15 at this symbol of the frame, or of the messages.
    Symbol {
        at: usize,
        symbol: u8,
    },
}

/// Wrong sizes of a frame, one with the low byte of the right one among them.
pub const SIZES: [usize; 10] = [
    0,
    1,
    3,
    HEAD_BYTES,
    FRAME_BYTES - 256,
    SYMBOLS,
    FRAME_BYTES - 1,
    FRAME_BYTES + 1,
    FRAME_BYTES + 256,
    2 * FRAME_BYTES,
];

/// Wrong lengths: 512, 514, 516 and 515, 513 with its low byte first, and others.
pub const LENGTHS: [[u8; 2]; 12] = [
    [2, 0],
    [2, 2],
    [2, 4],
    [2, 3],
    [1, 2],
    [0, 1],
    [2, 255],
    [3, 1],
    [255, 1],
    [1, 1],
    [0, 0],
    [255, 255],
];

/// Wrong sizes of the messages at a rate.
pub fn rooms(rate: u64) -> Vec<usize> {
    let symbols = rate as usize;
    let right = WORDS * symbols;
    let mut rooms = vec![
        0,
        1,
        symbols,
        right - symbols,
        right - WORDS,
        right - 1,
        right + 1,
        right + WORDS,
        right + symbols,
        right + 256,
        2 * right,
        FRAME_BYTES,
    ];
    rooms.sort_unstable();
    rooms.dedup();
    rooms.retain(|room| *room != right);
    rooms
}

/// The bytes that are no rates.
pub fn unknown_bytes() -> impl Iterator<Item = u64> {
    (0..=255).filter(|byte| !rates().contains(byte))
}

/// All turns.
pub fn turns() -> &'static [Turn] {
    static TURNS: OnceLock<Vec<Turn>> = OnceLock::new();
    TURNS.get_or_init(|| {
        let mut turns: Vec<Turn> = rates().flat_map(turns_of).collect();
        // A rate for each of these is enough.
        let mut rate = rates().cycle();
        let mut next = || rate.next().expect("a rate");
        turns.extend(build_flaws().map(|flaw| Turn::BuildFlaw { rate: next(), flaw }));
        for at in 0..WORDS * SWEPT_RATE as usize {
            let rate = SWEPT_RATE;
            let flaws = [16, 255].map(|symbol| Flaw::Symbol { at, symbol });
            turns.extend(flaws.map(|flaw| Turn::BuildFlaw { rate, flaw }));
        }
        turns.extend(take_flaws().map(|flaw| Turn::Flaw { rate: next(), flaw }));
        turns
    })
}

/// What is tried at every rate.
fn turns_of(rate: u64) -> Vec<Turn> {
    let mut turns = Vec::new();
    turns.extend(MESSAGES.map(|messages| Turn::Build { rate, messages }));
    turns.extend((1..8).map(|faults| Turn::BuildFaults { rate, faults }));
    turns.extend((1..64).map(|faults| Turn::Faults { rate, faults }));
    for flaw in SIZES.map(Flaw::Size) {
        turns.extend([Turn::BuildFlaw { rate, flaw }, Turn::Flaw { rate, flaw }]);
    }
    for flaw in rooms(rate).into_iter().map(Flaw::Room) {
        turns.extend([Turn::BuildFlaw { rate, flaw }, Turn::Flaw { rate, flaw }]);
    }
    turns.extend(LENGTHS.map(|length| Turn::Flaw {
        rate,
        flaw: Flaw::Length(length),
    }));
    for long in 0..=longest_burst(rate) {
        let starts = starts(rate, long).into_iter();
        turns.extend(starts.map(|start| Turn::Burst { rate, long, start }));
    }
    for (words, beyond) in beyonds(rate) {
        turns.push(Turn::Beyond {
            rate,
            words,
            beyond,
        });
    }
    turns
}

/// Where bursts begin: everywhere, or once in each word, and of these one has an end of the frame.
fn starts(rate: u64, long: usize) -> Vec<usize> {
    if rate == SWEPT_RATE {
        return (0..SYMBOLS).collect();
    }
    let rows = (SYMBOLS - long) / WORDS;
    let start = |word| (97 * long + 31 * rate as usize + 61 * word) % rows * WORDS + word;
    let mut starts: Vec<usize> = (0..WORDS).map(start).collect();
    let end = [0, SYMBOLS - long.max(1)][long % 2];
    starts[end % WORDS] = end;
    starts
}

/// Which words are beyond repair: every set, or one alone, all, and a few other sets.
fn beyonds(rate: u64) -> Vec<(u8, Beyond)> {
    let all = 0..=u8::MAX;
    let of_all = |words| BEYONDS.map(|beyond| (words, beyond));
    if rate == SWEPT_RATE {
        return all.flat_map(of_all).collect();
    }
    let mut beyonds: Vec<(u8, Beyond)> = of_all(u8::MAX).to_vec();
    let alone = (0..WORDS).map(|word| 1 << word);
    let others = (1..4).map(|number| (37 * number * rate % 256) as u8);
    for (at, words) in alone.chain(others).enumerate() {
        beyonds.push((words, BEYONDS[(at + rate as usize) % BEYONDS.len()]));
    }
    beyonds.sort_unstable();
    beyonds.dedup();
    beyonds
}

/// Faults of building that are tried once: rates that do not fit a byte among them.
fn build_flaws() -> impl Iterator<Item = Flaw> {
    let bytes = unknown_bytes().filter(|byte| !UNKNOWN_RATES.contains(byte));
    UNKNOWN_RATES.into_iter().chain(bytes).map(Flaw::Rate)
}

/// Faults of taking apart that are tried once: every wrong byte of the head, and wrong symbols everywhere.
fn take_flaws() -> impl Iterator<Item = Flaw> {
    let versions = (0..=255).filter(|byte| *byte != 1).map(Flaw::Version);
    let high = (0..=255).filter(|byte| *byte != 2);
    let low = (0..=255).filter(|byte| *byte != 1);
    let lengths = high.map(|byte| [byte, 1]).chain(low.map(|byte| [2, byte]));
    let lengths = lengths.filter(|length| !LENGTHS.contains(length));
    let symbols = (0..SYMBOLS).flat_map(|at| {
        let other = [17, 31, 128][at % 3];
        [16, other, 255].map(|symbol| Flaw::Symbol { at, symbol })
    });
    versions
        .chain(lengths.map(Flaw::Length))
        .chain(unknown_bytes().map(Flaw::Rate))
        .chain(symbols)
}

impl Turn {
    /// The rate that the call is made for; a fault may put another one into it.
    pub fn rate(&self) -> u64 {
        match *self {
            Turn::Build { rate, .. }
            | Turn::BuildFaults { rate, .. }
            | Turn::BuildFlaw { rate, .. }
            | Turn::Burst { rate, .. }
            | Turn::Beyond { rate, .. }
            | Turn::Faults { rate, .. }
            | Turn::Flaw { rate, .. } => rate,
        }
    }

    /// The number that the call is made to come to.
    pub fn number(&self) -> u8 {
        match *self {
            Turn::Build { .. } | Turn::Burst { .. } | Turn::Beyond { .. } => 0,
            Turn::BuildFaults { faults, .. } => first_of(&BUILD_FAULTS, faults),
            Turn::Faults { faults, .. } => first_of(&TAKE_FAULTS, faults),
            Turn::BuildFlaw { flaw, .. } => match flaw {
                Flaw::Size(_) => 2,
                _ => flaw.number(),
            },
            Turn::Flaw { flaw, .. } => flaw.number(),
        }
    }
}

impl Flaw {
    /// What taking apart is refused with.
    fn number(self) -> u8 {
        match self {
            Flaw::Size(_) | Flaw::Version(_) | Flaw::Length(_) => 14,
            Flaw::Rate(_) => 1,
            Flaw::Room(_) => 2,
            Flaw::Symbol { .. } => 3,
        }
    }
}

#[cfg(test)]
mod tests {
    use super::*;
    use std::collections::BTreeSet;

    #[test]
    fn the_first_of_a_set_is_refused() {
        assert_eq!(first_of(&TAKE_FAULTS, 0), 0);
        for (number, refusal) in TAKE_FAULTS.into_iter().enumerate() {
            let alone = 1 << number;
            for set in [alone, !(alone - 1) & 63] {
                assert_eq!(first_of(&TAKE_FAULTS, set), refusal);
            }
        }
        assert_eq!(first_of(&BUILD_FAULTS, 6), 2);
    }

    /// No turn comes twice, and every burst is tried that was asked for.
    #[test]
    fn turns_are_all_there() {
        let all: BTreeSet<Turn> = turns().iter().copied().collect();
        assert_eq!(all.len(), turns().len());
        for (long, start) in (0..=60).flat_map(|long| (0..512).map(move |start| (long, start))) {
            let rate = 39;
            assert!(all.contains(&Turn::Burst { rate, long, start }));
        }
        for rate in rates() {
            let longest = if rate == 39 {
                60
            } else {
                8 * ((52 - rate as usize) / 2) + 8
            };
            let bursts = all
                .iter()
                .filter(|t| matches!(t, Turn::Burst { .. }) && t.rate() == rate);
            let longs: BTreeSet<usize> = bursts
                .filter_map(|turn| match turn {
                    Turn::Burst { long, start, .. } => {
                        assert!(rate == 39 || start + long <= 512);
                        Some(*long)
                    }
                    _ => None,
                })
                .collect();
            assert_eq!(longs, (0..=longest).collect());
        }
    }
}
