//! Which calls of the elimination engine are compared, and how often.
//!
//! - [`Sort`]: one thing that is counted; a call is several of them.
//! - [`EngineCounts`]: the counts; [`EngineCounts::check`] fails where a sort is missing, and where a call
//!   does not come to the number that it is made for, or to a codeword that is not within T.

use std::collections::BTreeMap;
use std::fmt;

use crate::code::{rates, Code};
use crate::curve::{monomials, GENUS};
use crate::engine::EngineAnswer;
use crate::engine_slips::{EngineSlip, ENGINE_SLIPS};
use crate::engine_words::{
    differing, turns, EngineWord, Flaw, Placed, Turn, ENGINE_FAULTS, PLACED, ROUNDS,
};
use crate::least::Q1_START;
use crate::row::Row;

/// Each wrong rule is told so many times at least.
const TOLD: u64 = 100;

/// What is counted.
#[derive(Clone, Copy, Debug, PartialEq, Eq, PartialOrd, Ord)]
pub enum Sort {
    /// A call by its rate and number.
    Number { rate: u64, number: u8 },
    /// One that is made for something.
    Turn { rate: u64, turn: Turn },
    /// A codeword near, with blank places so placed.
    Placed { rate: u64, placed: Placed },
    /// One that differs from the word in more than T places, if the blank ones are counted.
    Under { rate: u64 },
    /// One that is not the one that the word is made from.
    Other { rate: u64 },
    /// A Q1 of this order.
    Q1 { order: usize },
    /// A call that a wrong rule would have answered otherwise.
    Slip(EngineSlip),
}

/// Every sort that a comparison has to try, and how often.
fn wanted() -> Vec<(Sort, u64)> {
    let mut wanted = Vec::new();
    for rate in rates() {
        let numbers = ENGINE_FAULTS.into_iter().chain([0]);
        wanted.extend(numbers.map(|number| (Sort::Number { rate, number }, 1)));
        wanted.push((Sort::Other { rate }, 1));
        if code(rate).blank_limit() > 0 {
            wanted.extend(PLACED.map(|placed| (Sort::Placed { rate, placed }, 1)));
            wanted.push((Sort::Under { rate }, 1));
        }
    }
    let of_turn = |(rate, turn)| (Sort::Turn { rate, turn }, ROUNDS as u64);
    wanted.extend(turns().into_iter().map(of_turn));
    // The least Q1 of T wrong places is of order T + 6 at most.
    let most = code(*rates().start()).reach + GENUS;
    wanted.extend(monomials(most).iter().map(|monomial| {
        let order = monomial.order();
        (Sort::Q1 { order }, 1)
    }));
    wanted.extend(ENGINE_SLIPS.map(|slip| (Sort::Slip(slip), TOLD)));
    wanted
}

fn code(rate: u64) -> &'static Code {
    Code::of_rate(rate).expect("a known rate")
}

/// The counts, and what was against the rule.
#[derive(Clone, Debug, Default, PartialEq, Eq)]
pub struct EngineCounts {
    counts: BTreeMap<Sort, u64>,
    against: Vec<String>,
}

impl EngineCounts {
    /// Counts a call that is answered so.
    pub fn count(&mut self, word: &EngineWord, answer: &EngineAnswer) {
        let EngineWord { rate, turn, .. } = *word;
        let number = answer.number;
        if number != word.expected() {
            self.against.push(format!(
                "{turn:?} at rate {rate} comes to {number} and not to {}",
                word.expected()
            ));
            return;
        }
        self.add_one(Sort::Number { rate, number });
        self.add_one(Sort::Turn { rate, turn });
        if number == 0 {
            self.count_near(word, answer);
        }
        for slip in ENGINE_SLIPS {
            if slip.told(word, answer) {
                self.add_one(Sort::Slip(slip));
            }
        }
    }

    fn count_near(&mut self, word: &EngineWord, answer: &EngineAnswer) {
        let EngineWord { rate, placed, .. } = *word;
        let code = code(rate);
        let blanks = word.call.blanks.len();
        let reach = code.reach_with(blanks).expect("not too many blank");
        let codeword = &answer.codeword;
        let is_codeword = code.message(&Row::from_elements(codeword.iter().copied()));
        let distance = word.distance(codeword);
        if is_codeword.is_none() || distance > reach {
            self.against.push(format!(
                "at rate {rate} with {blanks} blank places {codeword:x?} is no codeword within T"
            ));
        }
        if blanks > 0 {
            self.add_one(Sort::Placed { rate, placed });
        }
        if differing(&word.call.word, codeword).count() > reach {
            self.add_one(Sort::Under { rate });
        }
        if codeword[..] != word.sent.elements() {
            self.add_one(Sort::Other { rate });
        }
        let order = answer.q[Q1_START..].iter().rposition(|byte| *byte != 0);
        self.add_one(Sort::Q1 {
            order: order.expect("a Q1 that is not zero"),
        });
    }

    fn add_one(&mut self, sort: Sort) {
        *self.counts.entry(sort).or_default() += 1;
    }

    pub fn add(&mut self, other: EngineCounts) {
        for (sort, times) in other.counts {
            *self.counts.entry(sort).or_default() += times;
        }
        self.against.extend(other.against);
    }

    fn times(&self, sort: &Sort) -> u64 {
        self.counts.get(sort).copied().unwrap_or(0)
    }

    /// How often the sorts came that are so.
    fn came(&self, so: impl Fn(&Sort) -> bool) -> u64 {
        let came = self.counts.iter().filter(|(sort, _)| so(sort));
        came.map(|(_, times)| times).sum()
    }

    fn came_to(&self, of: u8) -> u64 {
        self.came(|sort| matches!(sort, Sort::Number { number, .. } if *number == of))
    }

    /// How many calls were compared.
    pub fn calls(&self) -> u64 {
        self.came(|sort| matches!(sort, Sort::Number { .. }))
    }

    /// A line that says what was against the rule, or names the sorts that came too seldom.
    pub fn check(&self) -> Result<(), String> {
        if let Some(first) = self.against.first() {
            let more = self.against.len() - 1;
            return Err(format!("{first}, and {more} more against the rule"));
        }
        let wanted = wanted();
        let seldom = wanted
            .iter()
            .filter(|(sort, least)| self.times(sort) < *least);
        let seldom: Vec<&Sort> = seldom.map(|(sort, _)| sort).collect();
        if seldom.is_empty() {
            return Ok(());
        }
        let first: Vec<String> = seldom.iter().take(5).map(|s| format!("{s:?}")).collect();
        Err(format!(
            "{} of {} sorts of engine calls came too seldom ({}): {self}",
            seldom.len(),
            wanted.len(),
            first.join(", ")
        ))
    }

    /// How often a turn came, by its end.
    fn turns(&self, so: impl Fn(u64, &Turn) -> bool) -> u64 {
        self.came(|sort| matches!(sort, Sort::Turn { rate, turn } if so(*rate, turn)))
    }
}

impl fmt::Display for EngineCounts {
    fn fmt(&self, out: &mut fmt::Formatter) -> fmt::Result {
        let wanted = wanted();
        let came = wanted.iter().filter(|(s, least)| self.times(s) >= *least);
        write!(out, "engine: {} of {} sorts", came.count(), wanted.len())?;
        let mut numbers = ENGINE_FAULTS;
        numbers.sort_unstable();
        write!(out, "; answered {}, refused", self.came_to(0))?;
        for (at, number) in numbers.into_iter().enumerate() {
            let mark = if at == 0 { "" } else { "," };
            write!(out, "{mark} with {number} {}", self.came_to(number))?;
        }
        self.write_turns(out)?;
        write!(out, "; told from the wrong rules")?;
        for slip in ENGINE_SLIPS {
            write!(out, " {slip:?}: {}", self.times(&Sort::Slip(slip)))?;
        }
        Ok(())
    }
}

impl EngineCounts {
    fn write_turns(&self, out: &mut fmt::Formatter) -> fmt::Result {
        for (at, name) in ENDS.into_iter().enumerate() {
            let times = self.turns(|rate, turn| match turn {
                Turn::Wrong { blanks, wrong } => end_of(rate, *blanks, *wrong) == name,
                _ => false,
            });
            write!(out, "{} {name} {times}", if at == 0 { ";" } else { "," })?;
        }
        let blank = self.turns(|_, turn| match turn {
            Turn::Wrong { blanks, .. } => *blanks > 0,
            _ => false,
        });
        let under = self.came(|sort| matches!(sort, Sort::Under { .. }));
        let random = self.turns(|_, turn| matches!(turn, Turn::Random { .. }));
        let zero = self.turns(|_, turn| matches!(turn, Turn::Zero { .. }));
        let between = self.turns(|_, turn| matches!(turn, Turn::Between { .. }));
        let other = self.came(|sort| matches!(sort, Sort::Other { .. }));
        write!(
            out,
            ", {blank} of these with blank places; {under} near though more than T places differ with the \
             blank ones; random words {random}; zero words {zero}; between two codewords {between}, \
             {other} of them near the other one"
        )?;
        let sets = self.turns(|_, turn| matches!(turn, Turn::Faults(_)));
        write!(out, "; sets of faults {sets}; one fault alone")?;
        for (at, name) in FLAWS.into_iter().enumerate() {
            let times = self.turns(|_, turn| match turn {
                Turn::Alone(flaw) => name_of(flaw) == name,
                _ => false,
            });
            write!(out, "{} {name} {times}", if at == 0 { "" } else { "," })?;
        }
        Ok(())
    }
}

const ENDS: [&str; 4] = ["none wrong", "up to T wrong", "T + 1 wrong", "more"];

/// Which of them so many wrong places are.
fn end_of(rate: u64, blanks: usize, wrong: usize) -> &'static str {
    let reach = code(rate).reach_with(blanks).expect("not too many blank");
    match wrong {
        0 => ENDS[0],
        _ if wrong <= reach => ENDS[1],
        _ if wrong == reach + 1 => ENDS[2],
        _ => ENDS[3],
    }
}

const FLAWS: [&str; 6] = [
    "rates",
    "sizes",
    "symbols",
    "symbols at blank places",
    "lists",
    "too many blank",
];

/// Which of them a fault is.
fn name_of(flaw: &Flaw) -> &'static str {
    match flaw {
        Flaw::Rate(_) => FLAWS[0],
        Flaw::Size(..) => FLAWS[1],
        Flaw::Symbol { blank: false, .. } => FLAWS[2],
        Flaw::Symbol { blank: true, .. } => FLAWS[3],
        Flaw::List(_) => FLAWS[4],
        Flaw::Blanks(_) => FLAWS[5],
    }
}

#[cfg(test)]
mod tests {
    use super::*;

    /// A sort that comes too seldom is named; every 97th is tried, and all wrong rules.
    #[test]
    fn every_sort_is_wanted() {
        let wanted = wanted();
        let full = EngineCounts {
            counts: wanted.iter().copied().collect(),
            against: Vec::new(),
        };
        assert_eq!(full.check(), Ok(()));
        let last = wanted.len() - ENGINE_SLIPS.len();
        for (sort, least) in wanted.iter().step_by(97).chain(&wanted[last..]) {
            let mut few = full.clone();
            few.counts.insert(*sort, least - 1);
            let line = few.check().unwrap_err();
            let named = format!(
                "1 of {} sorts of engine calls came too seldom ({sort:?})",
                wanted.len()
            );
            assert!(line.contains(&named), "{line}");
        }
        assert!(EngineCounts::default().check().is_err());
    }

    /// All calls of a few rates, each with its right answer, have every sort of these.
    #[test]
    fn turns_have_every_sort_of_their_rates() {
        let turns = turns();
        let mut counts = EngineCounts::default();
        let tried = |rate: u64| [39, 51, 52].contains(&rate);
        let words = (0..turns.len() * ROUNDS).filter(|number| tried(turns[number % turns.len()].0));
        let words = words.map(|number| EngineWord::made(&turns, 160, number as u64));
        for word in words {
            counts.count(&word, &word.call.answer());
        }
        assert!(counts.against.is_empty(), "{:?}", counts.against);
        for (sort, least) in wanted() {
            let of_rate = match sort {
                Sort::Number { rate, .. }
                | Sort::Turn { rate, .. }
                | Sort::Placed { rate, .. }
                | Sort::Under { rate }
                | Sort::Other { rate } => tried(rate),
                Sort::Q1 { .. } | Sort::Slip(_) => false,
            };
            assert!(!of_rate || counts.times(&sort) >= least, "{sort:?}");
        }
    }

    /// Another number, and a codeword that is none or not near.
    #[test]
    fn what_is_against_the_rule_is_an_error() {
        let turns = turns();
        for at in (0..turns.len() as u64).step_by(101) {
            let word = EngineWord::made(&turns, 161, at);
            let right = word.call.answer();
            let mut counts = EngineCounts::default();
            let mut wrong = right.clone();
            wrong.number = if right.number == 9 { 0 } else { 9 };
            counts.count(&word, &wrong);
            assert!(counts.check().unwrap_err().contains("comes to"));
            if right.number == 0 {
                for (place, symbol) in [(0, 1), (63, 15)] {
                    let mut counts = EngineCounts::default();
                    let mut wrong = right.clone();
                    wrong.codeword[place] ^= symbol;
                    counts.count(&word, &wrong);
                    let line = counts.check().unwrap_err();
                    assert!(line.contains("is no codeword within T"), "{line}");
                }
            }
        }
    }
}
