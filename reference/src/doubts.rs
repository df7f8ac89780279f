//! How many doubtful places the frames compared have, and what comes of them.
//!
//! - [`Doubts`]: the counts; [`Doubts::check`] fails where a comparison hardly tries one of the numbers.

use std::fmt;

use crate::decode::margin_of;
use crate::frames::RATES;
use crate::pairs::NEAR_DOUBT;
use crate::soft::DOUBT_LIMIT;

/// One frame in so many is answered, and one refused with 9, with each number of doubtful places at each
/// rate; as many have more test words near than a byte counts, and as many doubts are one too large.
const ONE_IN: u64 = 400;

/// One in so many has a margin and more doubtful places than two near codewords need.
const MARGIN_ONE_IN: u64 = 200;

/// Frames by rate and number of doubtful places.
type Counts = [[u64; DOUBT_LIMIT + 1]; RATES.len()];

/// What a frame comes to.
#[derive(Clone, Copy, Debug, PartialEq, Eq)]
pub enum Came {
    /// So many test words have a codeword within T, and there is a margin or none.
    Answered { tests: u16, margin: bool },
    /// Refused with 9.
    NoneNear,
}

impl Came {
    /// An answer with this report.
    pub fn of_report(report: &[u8]) -> Came {
        Came::Answered {
            tests: u16::from_be_bytes([report[4], report[5]]),
            margin: margin_of(report).is_some(),
        }
    }
}

/// The counts.
#[derive(Clone, Copy, Debug, Default, PartialEq, Eq)]
pub struct Doubts {
    answered: Counts,
    none_near: Counts,
    /// Answers with more than 255 test words near.
    many: u64,
    /// Answers with a margin and more than eight doubtful places.
    margins: u64,
    /// Doubts and lengths of lists that are refused with 4: one too large, and larger ones.
    refused: [u64; 2],
}

impl Doubts {
    /// Counts a frame with so many doubtful places, if it has one of the rates that are counted.
    pub fn count(&mut self, rate: u64, doubt: usize, came: Came) {
        let rate = RATES.iter().position(|other| *other == rate);
        let Some(rate) = rate else {
            return;
        };
        match came {
            Came::Answered { tests, margin } => {
                self.answered[rate][doubt] += 1;
                self.many += u64::from(tests > 255);
                self.margins += u64::from(margin && doubt > NEAR_DOUBT);
            }
            Came::NoneNear => self.none_near[rate][doubt] += 1,
        }
    }

    /// Counts a doubt, or the length of a list, that is refused where it is above the limit.
    pub fn count_refused(&mut self, doubt: u64) {
        match doubt.checked_sub(DOUBT_LIMIT as u64) {
            None | Some(0) => (),
            Some(1) => self.refused[0] += 1,
            Some(_) => self.refused[1] += 1,
        }
    }

    pub fn add(&mut self, other: Doubts) {
        let sums = self.answered.as_flattened_mut().iter_mut();
        let sums = sums.chain(self.none_near.as_flattened_mut());
        let sums = sums.chain(&mut self.refused);
        let sums = sums.chain([&mut self.many, &mut self.margins]);
        let others = other.answered.as_flattened().iter();
        let others = others.chain(other.none_near.as_flattened());
        let others = others.chain(&other.refused);
        for (sum, times) in sums.zip(others.chain([&other.many, &other.margins])) {
            *sum += times;
        }
    }

    /// A line that says what is missing where one of the numbers came too seldom; those that are too
    /// large come where they can.
    pub fn check(&self, frames: u64, can_be_too_large: bool) -> Result<(), String> {
        let wanted = (frames / ONE_IN).max(1);
        let mut few = Vec::new();
        for (counts, came) in [(&self.answered, "answered"), (&self.none_near, "none near")] {
            for (rate, counts) in RATES.iter().zip(counts) {
                let few_of = counts.iter().enumerate().filter(|(_, n)| **n < wanted);
                few.extend(few_of.map(|(doubt, _)| format!("{doubt} at rate {rate} {came}")));
            }
        }
        if self.many < wanted {
            few.push("more than 255 test words".to_string());
        }
        if self.margins < (frames / MARGIN_ONE_IN).max(1) {
            few.push("margins".to_string());
        }
        if can_be_too_large && self.refused.iter().any(|times| *times < wanted) {
            few.push("too large".to_string());
        }
        if few.is_empty() {
            return Ok(());
        }
        let few = few.join(", ");
        Err(format!("too few in {frames} frames ({few}): {self}"))
    }
}

impl fmt::Display for Doubts {
    fn fmt(&self, out: &mut fmt::Formatter) -> fmt::Result {
        write!(out, "doubtful places: by their number")?;
        let by_number = |counts: &[u64]| {
            let counts: Vec<String> = counts.iter().map(u64::to_string).collect();
            counts.join(" ")
        };
        for (at, rate) in RATES.iter().enumerate() {
            let answered = by_number(&self.answered[at]);
            let none_near = by_number(&self.none_near[at]);
            let mark = if at == 0 { "" } else { ";" };
            write!(
                out,
                "{mark} at rate {rate} answered {answered}, refused with 9 {none_near}"
            )?;
        }
        let Doubts {
            many,
            margins,
            refused: [one, more],
            ..
        } = self;
        write!(
            out,
            "; {many} with more than 255 test words near, {margins} with a margin and more than \
             {NEAR_DOUBT} places, {one} refused with {} and {more} with more",
            DOUBT_LIMIT + 1
        )
    }
}

#[cfg(test)]
mod tests {
    use super::*;

    /// Each number once, answered and not.
    fn full() -> Doubts {
        let mut full = Doubts::default();
        for rate in RATES {
            for doubt in 0..=DOUBT_LIMIT {
                let tests = 1 << doubt;
                let margin = doubt == 12;
                full.count(rate, doubt, Came::Answered { tests, margin });
                full.count(rate, doubt, Came::NoneNear);
            }
        }
        for doubt in [0, 12, 13, 14, u64::MAX] {
            full.count_refused(doubt);
        }
        full
    }

    #[test]
    fn every_number_is_wanted() {
        let full = full();
        assert_eq!(full.check(400, true), Ok(()));
        assert!(full.check(800, true).is_err());
        for (at, rate) in RATES.iter().enumerate() {
            for doubt in 0..=DOUBT_LIMIT {
                let mut few = full;
                few.answered[at][doubt] = 0;
                let named = format!("({doubt} at rate {rate} answered)");
                assert!(few.check(1, true).unwrap_err().contains(&named));
                let mut few = full;
                few.none_near[at][doubt] = 0;
                let named = format!("({doubt} at rate {rate} none near)");
                assert!(few.check(1, true).unwrap_err().contains(&named));
            }
        }
        let few = [
            Doubts { many: 0, ..full },
            Doubts { margins: 0, ..full },
            Doubts {
                refused: [0, 1],
                ..full
            },
            Doubts {
                refused: [1, 0],
                ..full
            },
        ];
        for (number, few) in few.iter().enumerate() {
            assert!(few.check(1, true).is_err());
            assert_eq!(few.check(1, false).is_ok(), number >= 2);
        }
    }

    #[test]
    fn counts_add_and_are_printed() {
        let mut sum = full();
        sum.add(full());
        assert_eq!(
            sum.to_string(),
            "doubtful places: by their number at rate 39 answered 2 2 2 2 2 2 2 2 2 2 2 2 2, refused \
             with 9 2 2 2 2 2 2 2 2 2 2 2 2 2; at rate 49 answered 2 2 2 2 2 2 2 2 2 2 2 2 2, refused \
             with 9 2 2 2 2 2 2 2 2 2 2 2 2 2; 20 with more than 255 test words near, 4 with a margin \
             and more than 8 places, 2 refused with 13 and 4 with more"
        );
    }
}
