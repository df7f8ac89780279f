//! Wrong rules of the elimination engine, to tell the right one from.
//!
//! - [`EngineSlip`], [`ENGINE_SLIPS`]: the wrong rules.
//! - [`EngineSlip::told`]: whether a call would have been answered otherwise.

use crate::code::{rates, Code};
use crate::curve::PLACES;
use crate::engine::{nodes, EngineAnswer};
use crate::engine_words::{differing, EngineWord, ENGINE_FAULTS};
use crate::least::{INTERPOLANT_BYTES, Q1_START};
use crate::soft::DOUBT_LIMIT;
use crate::steps::{least_by_steps, TermOrder};

/// A wrong rule.
#[derive(Clone, Copy, Debug, PartialEq, Eq, PartialOrd, Ord)]
pub enum EngineSlip {
    /// T is rounded up: 2T + b ≤ 64 − M − 6.
    RoundedUp,
    /// T is smaller where 2T + b = 64 − M − 7.
    RoundedDown,
    /// T is what it is without blank places.
    BlanksTakeNothing,
    /// Blank places where the word and the codeword differ are counted.
    BlanksCounted,
    /// T is half the least distance, without the genus.
    HalfTheDistance,
    /// One more or fewer may be blank.
    LimitMore,
    LimitLess,
    /// The list may be as long as a doubtful one.
    LimitOfDoubt,
    /// Place 64 may be in the list, or a place twice, or places may fall.
    Place64,
    PlaceTwice,
    AnyOrder,
    /// A symbol above 15 may stand at a blank place.
    SymbolAtBlank,
    /// A rate is its low byte.
    OneByte,
    /// Q has 82 bytes, with Q1 up to order 16.
    Q1To16,
    /// Two checks are exchanged.
    SizesBeforeRate,
    SymbolsBeforeSizes,
    ListBeforeSymbols,
    BlanksBeforeList,
    NearBeforeBlanks,
    /// Q passes through blank places too.
    BlanksInterpolated,
    /// Q passes through those places alone where the word is right.
    RightPlacesOnly,
    /// Of equal weights the term with z is smaller.
    ZFirst,
    /// A term with z weighs as at rate 39.
    WeightOfRate39,
    /// Q's lowest term has coefficient 1.
    LowestIsOne,
    /// Q is written where no codeword is near.
    QWithoutCodeword,
    /// The codeword buffer takes the word's symbols at blank places, or at all.
    WordAtBlanks,
    WordItself,
}

pub const ENGINE_SLIPS: [EngineSlip; 27] = [
    EngineSlip::RoundedUp,
    EngineSlip::RoundedDown,
    EngineSlip::BlanksTakeNothing,
    EngineSlip::BlanksCounted,
    EngineSlip::HalfTheDistance,
    EngineSlip::LimitMore,
    EngineSlip::LimitLess,
    EngineSlip::LimitOfDoubt,
    EngineSlip::Place64,
    EngineSlip::PlaceTwice,
    EngineSlip::AnyOrder,
    EngineSlip::SymbolAtBlank,
    EngineSlip::OneByte,
    EngineSlip::Q1To16,
    EngineSlip::SizesBeforeRate,
    EngineSlip::SymbolsBeforeSizes,
    EngineSlip::ListBeforeSymbols,
    EngineSlip::BlanksBeforeList,
    EngineSlip::NearBeforeBlanks,
    EngineSlip::BlanksInterpolated,
    EngineSlip::RightPlacesOnly,
    EngineSlip::ZFirst,
    EngineSlip::WeightOfRate39,
    EngineSlip::LowestIsOne,
    EngineSlip::QWithoutCodeword,
    EngineSlip::WordAtBlanks,
    EngineSlip::WordItself,
];

/// The first byte that 82 of them lack.
const BYTES_BEFORE: usize = Q1_START + 17;

impl EngineSlip {
    /// Whether a call that is answered so would have been answered otherwise.
    pub fn told(self, word: &EngineWord, answer: &EngineAnswer) -> bool {
        if let Some(first) = self.exchanged() {
            return told_by_order(word, first);
        }
        match answer.number {
            0 => self.told_near(word, answer),
            9 => self.told_none_near(word),
            _ => self.told_refused(word, answer.number),
        }
    }

    /// The number of the check that stands before the next one by the right rule.
    fn exchanged(self) -> Option<usize> {
        let checks = [
            EngineSlip::SizesBeforeRate,
            EngineSlip::SymbolsBeforeSizes,
            EngineSlip::ListBeforeSymbols,
            EngineSlip::BlanksBeforeList,
            EngineSlip::NearBeforeBlanks,
        ];
        checks.iter().position(|slip| *slip == self)
    }

    /// Where there is a codeword.
    fn told_near(self, word: &EngineWord, answer: &EngineAnswer) -> bool {
        let room = room(word.rate);
        let blanks = word.call.blanks.len();
        let distance = word.distance(&answer.codeword);
        let at_blanks = differing(&word.call.word, &answer.codeword).count() - distance;
        match self {
            EngineSlip::RoundedDown => 2 * distance + blanks + 1 == room,
            EngineSlip::BlanksCounted => 2 * (distance + at_blanks) + blanks >= room,
            EngineSlip::LimitLess => blanks + 1 == room,
            EngineSlip::LimitOfDoubt => blanks > DOUBT_LIMIT,
            EngineSlip::Q1To16 => answer.q[BYTES_BEFORE..].iter().any(|byte| *byte != 0),
            EngineSlip::WordAtBlanks => at_blanks > 0,
            EngineSlip::WordItself => distance > 0,
            _ => self.q(word, answer).is_some_and(|q| q[..] != answer.q),
        }
    }

    /// Another Q.
    fn q(self, word: &EngineWord, answer: &EngineAnswer) -> Option<[u8; INTERPOLANT_BYTES]> {
        let (given, blanks) = (&word.call.word, &word.call.blanks);
        let order = TermOrder::of_top(code(word.rate).top);
        let right = |order| least_by_steps(order, &nodes(given, blanks));
        let q = match self {
            EngineSlip::BlanksInterpolated if !blanks.is_empty() => {
                least_by_steps(order, &nodes(given, &[]))
            }
            EngineSlip::RightPlacesOnly => {
                let mut left = nodes(given, blanks);
                left.retain(|(place, symbol)| answer.codeword[usize::from(*place)] == *symbol);
                least_by_steps(order, &left)
            }
            EngineSlip::ZFirst => right(TermOrder {
                z_first: true,
                ..order
            }),
            EngineSlip::WeightOfRate39 => right(TermOrder::of_top(code(39).top)),
            EngineSlip::LowestIsOne => right(order).scaled_by_lowest(order),
            _ => return None,
        };
        Some(q.bytes())
    }

    /// Where there is none.
    fn told_none_near(self, word: &EngineWord) -> bool {
        let room = room(word.rate);
        let blanks = word.call.blanks.len();
        let distance = word.distance(&word.sent.elements());
        match self {
            EngineSlip::RoundedUp => 2 * distance + blanks <= room,
            EngineSlip::BlanksTakeNothing => 2 * distance < room,
            EngineSlip::HalfTheDistance => 2 * distance + blanks < room + 6,
            EngineSlip::LimitLess => blanks + 1 == room,
            EngineSlip::LimitOfDoubt => blanks > DOUBT_LIMIT,
            EngineSlip::QWithoutCodeword => true,
            _ => false,
        }
    }

    /// Where a check refuses the call.
    fn told_refused(self, word: &EngineWord, number: u8) -> bool {
        let call = &word.call;
        let blanks = &call.blanks;
        let rising = |by: fn(u8, u8) -> bool| blanks.windows(2).all(|pair| by(pair[0], pair[1]));
        let up_to = |most: u8| blanks.iter().all(|place| *place <= most);
        match (self, number) {
            (EngineSlip::OneByte, 1) => rates().contains(&(call.rate & 255)),
            (EngineSlip::Q1To16, 2) => call.q == BYTES_BEFORE,
            (EngineSlip::SymbolAtBlank, 3) => {
                let above = (0..PLACES as u8).filter(|place| call.word[usize::from(*place)] > 15);
                above.into_iter().all(|place| blanks.contains(&place))
            }
            (EngineSlip::Place64, 4) => up_to(64) && rising(|a, b| a < b),
            (EngineSlip::PlaceTwice, 4) => up_to(63) && rising(|a, b| a <= b),
            (EngineSlip::AnyOrder, 4) => up_to(63),
            (EngineSlip::LimitMore, 12) => blanks.len() == room(word.rate),
            (EngineSlip::LimitOfDoubt, 12) => blanks.len() > DOUBT_LIMIT,
            _ => false,
        }
    }
}

/// Whether both checks refuse a call, the one of this number and the next, and none before them.
fn told_by_order(word: &EngineWord, first: usize) -> bool {
    let call = &word.call;
    let rising = call.blanks.windows(2).all(|pair| pair[0] < pair[1]);
    let refused = [
        !rates().contains(&call.rate),
        (call.word.len(), call.codeword, call.q) != (PLACES, PLACES, INTERPOLANT_BYTES),
        call.word.iter().any(|symbol| *symbol > 15),
        !rising || call.blanks.iter().any(|place| *place > 63),
        call.blanks.len() >= room(word.rate),
        word.distance(&word.sent.elements()) > 0,
    ];
    assert_eq!(refused.len(), ENGINE_FAULTS.len());
    refused[first] && refused[first + 1] && !refused[..first].contains(&true)
}

/// 64 − M − 6, which 2T + b is less than.
fn room(rate: u64) -> usize {
    PLACES - 6 - code(rate).top
}

fn code(rate: u64) -> &'static Code {
    Code::of_rate(rate).expect("a known rate")
}

#[cfg(test)]
mod tests {
    use super::*;
    use crate::engine_words::{turns, Turn};
    use std::collections::BTreeSet;

    /// Each wrong rule is told at a rate that a seventh of the turns has, and none at all turns; right answers
    /// are right by their own rule.
    #[test]
    fn wrong_rules_are_told_apart() {
        let turns = turns();
        let mut told = BTreeSet::new();
        let mut silent = BTreeSet::new();
        for at in (0..turns.len() as u64).filter(|at| turns[*at as usize].0 % 9 == 3) {
            let word = EngineWord::made(&turns, 150, at);
            let answer = word.call.answer();
            for slip in ENGINE_SLIPS {
                match slip.told(&word, &answer) {
                    true => told.insert(slip),
                    false => silent.insert(slip),
                };
            }
        }
        assert_eq!(told.len(), ENGINE_SLIPS.len(), "{told:?}");
        assert_eq!(silent.len(), ENGINE_SLIPS.len());
    }

    /// A clean word without blank places is told from no rule that is about others.
    #[test]
    fn a_clean_word_is_told_from_few() {
        let turns = turns();
        let clean = Turn::Wrong {
            blanks: 0,
            wrong: 0,
        };
        for at in (0..turns.len()).filter(|at| turns[*at].1 == clean) {
            let word = EngineWord::made(&turns, 151, at as u64);
            let answer = word.call.answer();
            for slip in ENGINE_SLIPS {
                let about = matches!(
                    slip,
                    EngineSlip::ZFirst
                        | EngineSlip::WeightOfRate39
                        | EngineSlip::LowestIsOne
                        | EngineSlip::RoundedDown
                        | EngineSlip::LimitLess
                );
                assert!(about || !slip.told(&word, &answer), "{slip:?}");
            }
        }
    }
}
