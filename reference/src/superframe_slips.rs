//! Wrong rules of superframes, to tell the right one from.
//!
//! - [`SuperSlip`], [`SUPER_SLIPS`]: the wrong rules.
//! - [`SuperSlip::told`]: whether a call would have been answered otherwise.

use crate::code::{rates, LEAST_RATE, MOST_RATE};
use crate::curve::PLACES;
use crate::nearest::Finder;
use crate::row::Row;
use crate::superframe::{FRAME_BYTES, HEAD_BYTES, SYMBOLS, WORDS};
use crate::superframe_calls::{Given, SuperAnswer, SuperCall};
use crate::superframe_turns::{reach, Turn, SWEPT_RATE};

/// A wrong rule.
#[derive(Clone, Copy, Debug, PartialEq, Eq, PartialOrd, Ord)]
pub enum SuperSlip {
    /// Place p of word v is symbol 64v + p, or 8p + (v + 1) % 8, or 8p + 7 − v.
    WordsInTurn,
    NextWord,
    LastWordFirst,
    /// The length is 512, or stands with its low byte first.
    Length512,
    LowByteFirst,
    /// A length of 512 is taken too, or any; or any version; or more bytes than 516.
    Length512Too,
    AnyLength,
    AnyVersion,
    LongerTaken,
    /// Two rates more are known; a rate is its low byte.
    OneRateMore,
    OneByte,
    /// Two checks are exchanged.
    RateBeforeVersion,
    SizeBeforeHead,
    SizeBeforeRate,
    SymbolsBeforeSize,
    /// Those of the first word or message only are checked; or 16 is a symbol.
    FirstSymbolsOnly,
    Symbol16,
    /// Word v counts 2^(7 − v), or 2^(v + 1); or those are named that come back.
    StatusReversed,
    NextWeight,
    NamedWhereRepaired,
    /// A refused call leaves the status; 'none near' refuses the whole.
    StatusKept,
    NoneNearRefused,
    /// The part of a word with none near is cleared.
    PartCleared,
    /// Every message goes into the first part; or into that of word 7 − v; or behind those before it, with no
    /// part left out.
    FirstPart,
    LastPartFirst,
    ClosedUp,
    /// T is larger by one, or smaller, or that of rate 39.
    ReachMore,
    ReachLess,
    ReachOfRate39,
}

pub const SUPER_SLIPS: [SuperSlip; 29] = [
    SuperSlip::WordsInTurn,
    SuperSlip::NextWord,
    SuperSlip::LastWordFirst,
    SuperSlip::Length512,
    SuperSlip::LowByteFirst,
    SuperSlip::Length512Too,
    SuperSlip::AnyLength,
    SuperSlip::AnyVersion,
    SuperSlip::LongerTaken,
    SuperSlip::OneRateMore,
    SuperSlip::OneByte,
    SuperSlip::RateBeforeVersion,
    SuperSlip::SizeBeforeHead,
    SuperSlip::SizeBeforeRate,
    SuperSlip::SymbolsBeforeSize,
    SuperSlip::FirstSymbolsOnly,
    SuperSlip::Symbol16,
    SuperSlip::StatusReversed,
    SuperSlip::NextWeight,
    SuperSlip::NamedWhereRepaired,
    SuperSlip::StatusKept,
    SuperSlip::NoneNearRefused,
    SuperSlip::PartCleared,
    SuperSlip::FirstPart,
    SuperSlip::LastPartFirst,
    SuperSlip::ClosedUp,
    SuperSlip::ReachMore,
    SuperSlip::ReachLess,
    SuperSlip::ReachOfRate39,
];

impl SuperSlip {
    /// Whether a call that is answered so would have been answered otherwise.
    pub fn told(self, call: &SuperCall, answer: &SuperAnswer) -> bool {
        match &call.given {
            Given::Build {
                rate,
                messages,
                frame,
            } => {
                let number = self.build_number(*rate, messages, frame.len());
                number != answer.number || number == 0 && self.frame(&answer.bytes) != answer.bytes
            }
            Given::Take {
                frame,
                messages,
                status,
            } => {
                if self.take_number(frame, messages.len()) != answer.number {
                    return true;
                }
                match answer.number {
                    0 => self.told_taken(call, frame, messages, answer),
                    _ => self == SuperSlip::StatusKept && *status != 0,
                }
            }
        }
    }

    fn knows(self, rate: u64) -> bool {
        match self {
            SuperSlip::OneRateMore => (LEAST_RATE - 1..=MOST_RATE + 1).contains(&rate),
            SuperSlip::OneByte => rates().contains(&(rate & 255)),
            _ => rates().contains(&rate),
        }
    }

    fn is_symbol(self, byte: u8) -> bool {
        byte <= 15 + u8::from(self == SuperSlip::Symbol16)
    }

    /// The number that the checks of building give.
    fn build_number(self, rate: u64, messages: &[u8], size: usize) -> u8 {
        let first = match self {
            SuperSlip::FirstSymbolsOnly => messages.len() / WORDS,
            _ => messages.len(),
        };
        let mut checks = [
            (1, !self.knows(rate)),
            (
                2,
                messages.len() as u128 != WORDS as u128 * u128::from(rate) || size != FRAME_BYTES,
            ),
            (
                3,
                !messages[..first].iter().all(|byte| self.is_symbol(*byte)),
            ),
        ];
        match self {
            SuperSlip::SizeBeforeRate => checks.swap(0, 1),
            SuperSlip::SymbolsBeforeSize => checks.swap(1, 2),
            _ => (),
        }
        first_number(&checks)
    }

    /// The same of taking apart.
    fn take_number(self, frame: &[u8], room: usize) -> u8 {
        let byte = |at: usize| frame.get(at).copied().unwrap_or(0);
        let size = match self {
            SuperSlip::LongerTaken => frame.len() < FRAME_BYTES,
            _ => frame.len() != FRAME_BYTES,
        };
        let version = self != SuperSlip::AnyVersion && byte(0) != 1;
        let length = [byte(1), byte(2)];
        let length = match self {
            SuperSlip::Length512 => length != [2, 0],
            SuperSlip::Length512Too => ![[2, 0], [2, 1]].contains(&length),
            SuperSlip::LowByteFirst => length != [1, 2],
            SuperSlip::AnyLength => false,
            _ => length != [2, 1],
        };
        let rate = usize::from(byte(3));
        let step = match self {
            SuperSlip::FirstSymbolsOnly => WORDS,
            _ => 1,
        };
        let mut symbols = frame.iter().skip(HEAD_BYTES).take(SYMBOLS).step_by(step);
        let mut checks = [
            (14, size),
            (14, version),
            (14, length),
            (1, !self.knows(rate as u64)),
            (2, room != WORDS * rate),
            (3, !symbols.all(|byte| self.is_symbol(*byte))),
        ];
        match self {
            SuperSlip::RateBeforeVersion => checks.swap(1, 3),
            SuperSlip::SizeBeforeHead => checks.swap(0, 4),
            SuperSlip::SizeBeforeRate => checks.swap(3, 4),
            SuperSlip::SymbolsBeforeSize => checks.swap(4, 5),
            _ => (),
        }
        first_number(&checks)
    }

    /// Which symbol place p of word v is.
    fn symbol(self, word: usize, place: usize) -> usize {
        match self {
            SuperSlip::WordsInTurn => PLACES * word + place,
            SuperSlip::NextWord => WORDS * place + (word + 1) % WORDS,
            SuperSlip::LastWordFirst => WORDS * place + (WORDS - 1 - word),
            _ => WORDS * place + word,
        }
    }

    fn moves_symbols(self) -> bool {
        self.symbol(0, 1) != WORDS
    }

    /// The frame that is built, beside the right one.
    fn frame(self, right: &[u8]) -> Vec<u8> {
        let mut frame = right.to_vec();
        match self {
            SuperSlip::Length512 => frame[2] = 0,
            SuperSlip::LowByteFirst => frame.swap(1, 2),
            _ => (),
        }
        for symbol in 0..SYMBOLS {
            let (word, place) = (symbol % WORDS, symbol / WORDS);
            frame[HEAD_BYTES + self.symbol(word, place)] = right[HEAD_BYTES + symbol];
        }
        frame
    }

    /// Where the eight words are decoded.
    fn told_taken(self, call: &SuperCall, frame: &[u8], lent: &[u8], answer: &SuperAnswer) -> bool {
        if self.moves_symbols() {
            return is_clean(call.turn) && self.moved(frame, lent) != *answer;
        }
        let status = answer.status.unwrap_or(0);
        let rate = call.turn.rate();
        let by_reach = |other: Option<usize>| {
            let near = |wrong: &usize| other.is_some_and(|reach| *wrong <= reach);
            let right = |wrong: &usize| *wrong <= reach(rate);
            call.wrong.iter().any(|wrong| near(wrong) != right(wrong))
        };
        match self {
            SuperSlip::StatusReversed => status.reverse_bits() != status,
            SuperSlip::NextWeight => status << 1 != status,
            SuperSlip::NamedWhereRepaired => true,
            SuperSlip::NoneNearRefused => status != 0,
            SuperSlip::ReachMore => by_reach(Some(reach(rate) + 1)),
            SuperSlip::ReachLess => by_reach(reach(rate).checked_sub(1)),
            SuperSlip::ReachOfRate39 => by_reach(Some(reach(39))),
            _ => self.parts(rate as usize, lent, answer) != answer.bytes,
        }
    }

    /// The buffer that is left, beside the right one.
    fn parts(self, symbols: usize, lent: &[u8], answer: &SuperAnswer) -> Vec<u8> {
        let status = answer.status.unwrap_or(0);
        let mut bytes = lent.to_vec();
        let mut found = 0;
        for (word, message) in answer.bytes.chunks_exact(symbols).enumerate() {
            let near = status >> word & 1 == 0;
            let part = match self {
                SuperSlip::FirstPart => 0,
                SuperSlip::LastPartFirst => WORDS - 1 - word,
                SuperSlip::ClosedUp => found,
                _ => word,
            };
            found += usize::from(near);
            let part = &mut bytes[symbols * part..][..symbols];
            match near {
                true => part.copy_from_slice(message),
                false if self == SuperSlip::PartCleared => part.fill(0),
                false => (),
            }
        }
        bytes
    }

    /// What comes of a frame whose words are taken from other symbols.
    fn moved(self, frame: &[u8], lent: &[u8]) -> SuperAnswer {
        let rate = u64::from(frame[3]);
        let finder = Finder::of_rate(rate).expect("a known rate");
        let places = finder.unblanked(&[]).expect("T without blank places");
        let mut bytes = lent.to_vec();
        let mut status = 0;
        for (word, part) in bytes.chunks_exact_mut(rate as usize).enumerate() {
            let symbols = (0..PLACES).map(|place| frame[HEAD_BYTES + self.symbol(word, place)]);
            match places.nearest(&Row::from_elements(symbols)) {
                Some(near) => part.copy_from_slice(&near.message),
                None => status |= 1 << word,
            }
        }
        SuperAnswer {
            number: 0,
            status: Some(status),
            bytes,
            back: None,
        }
    }
}

/// The number of the first check that refuses, or 0.
fn first_number(checks: &[(u8, bool)]) -> u8 {
    let first = checks.iter().find(|(_, refused)| *refused);
    first.map_or(0, |(number, _)| *number)
}

/// A frame with no wrong symbol, at one of the rates where these are few: only such ones are decoded again.
fn is_clean(turn: Turn) -> bool {
    matches!(turn, Turn::Burst { long: 0, rate, .. } if rate != SWEPT_RATE)
}

#[cfg(test)]
mod tests {
    use super::*;
    use crate::superframe_turns::turns;
    use std::collections::BTreeSet;

    /// The calls of every fifth turn, and what they come to.
    fn calls(seed: u64) -> impl Iterator<Item = (SuperCall, SuperAnswer)> {
        let numbers = (0..turns().len() as u64).step_by(5);
        numbers.map(move |number| {
            let call = SuperCall::numbered(seed, number);
            let answer = call.expected();
            (call, answer)
        })
    }

    /// Each wrong rule is told by some of the calls, and by some it is not.
    #[test]
    fn wrong_rules_are_told_apart() {
        let mut told = BTreeSet::new();
        let mut silent = BTreeSet::new();
        for (call, answer) in calls(165) {
            for slip in SUPER_SLIPS {
                match slip.told(&call, &answer) {
                    true => told.insert(slip),
                    false => silent.insert(slip),
                };
            }
        }
        assert_eq!(told.len(), SUPER_SLIPS.len(), "{told:?}");
        assert_eq!(silent.len(), SUPER_SLIPS.len(), "{silent:?}");
    }

    /// The checks are the right ones but for the wrong rules that are about them.
    #[test]
    fn checks_are_right_by_the_other_rules() {
        let slip = SuperSlip::StatusReversed;
        for (call, answer) in calls(166) {
            let number = match &call.given {
                Given::Build {
                    rate,
                    messages,
                    frame,
                } => slip.build_number(*rate, messages, frame.len()),
                Given::Take {
                    frame, messages, ..
                } => slip.take_number(frame, messages.len()),
            };
            assert_eq!(number, answer.number, "{:?}", call.turn);
        }
    }

    /// The wrong rules that a superframe is built by otherwise.
    #[test]
    fn built_frames_tell_where_symbols_and_lengths_are_wrong() {
        let right: Vec<u8> = [1, 2, 1, 39]
            .into_iter()
            .chain((0..SYMBOLS).map(|symbol| (symbol % 251) as u8))
            .collect();
        let other = SUPER_SLIPS.map(|slip| slip.frame(&right) != right);
        let other: Vec<SuperSlip> = SUPER_SLIPS
            .into_iter()
            .zip(other)
            .filter_map(|(slip, other)| other.then_some(slip))
            .collect();
        assert_eq!(
            other,
            [
                SuperSlip::WordsInTurn,
                SuperSlip::NextWord,
                SuperSlip::LastWordFirst,
                SuperSlip::Length512,
                SuperSlip::LowByteFirst
            ]
        );
    }
}
