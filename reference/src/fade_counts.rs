//! Which fades are tried where tables and sessions are compared, and how often.
//!
//! - [`Sort`]: one thing that is counted; a fade may be two of them.
//! - [`FadeCounts`]: the counts; [`FadeCounts::check`] fails where a sort is missing.

use std::collections::BTreeMap;
use std::fmt;

use crate::fades::{Fade, Left, DOUBTS, LEFT, WIDTHS};
use crate::frames::{blank_limit, RATES};

/// What is counted.
#[derive(Clone, Copy, Debug, PartialEq, Eq, PartialOrd, Ord)]
pub enum Sort {
    /// A fade of so many places that came to this number.
    Fade {
        left: Left,
        rate: u64,
        width: usize,
        doubt: usize,
        number: u8,
    },
    /// An answer with so many blank places beside the fade.
    Blank { rate: u64, blanks: usize },
}

/// The number that a fade has to come to: noise is refused, if not always.
fn number_of(left: Left) -> u8 {
    match left {
        Left::Reach => 0,
        Left::Noise | Left::Beyond => 9,
    }
}

/// The fades that are left so and come to a number, of each rate, width and doubt.
fn fades(left: Left, number: u8) -> impl Iterator<Item = Sort> {
    let of_rate = |rate| {
        let widths = WIDTHS.into_iter().zip(DOUBTS);
        widths.map(move |(width, most)| (rate, width, most))
    };
    let kinds = RATES.into_iter().flat_map(of_rate);
    kinds.flat_map(move |(rate, width, most)| {
        (0..=most).map(move |doubt| Sort::Fade {
            left,
            rate,
            width,
            doubt,
            number,
        })
    })
}

/// The numbers of blank places at a rate.
fn blanks(rate: u64) -> impl Iterator<Item = Sort> {
    (1..=blank_limit(rate)).map(move |blanks| Sort::Blank { rate, blanks })
}

/// Every sort that a comparison has to try.
fn wanted() -> Vec<Sort> {
    let fades = LEFT
        .into_iter()
        .flat_map(|left| fades(left, number_of(left)));
    fades.chain(RATES.into_iter().flat_map(blanks)).collect()
}

/// The counts.
#[derive(Clone, Debug, Default, PartialEq, Eq)]
pub struct FadeCounts(BTreeMap<Sort, u64>);

impl FadeCounts {
    /// Counts a fade that came to this number.
    pub fn count(&mut self, fade: &Fade, number: u8) {
        let (rate, blanks) = (fade.frame.rate, fade.blanks);
        let sort = Sort::Fade {
            left: fade.left,
            rate,
            width: fade.width,
            doubt: fade.frame.doubtful.len(),
            number,
        };
        let blank = Sort::Blank { rate, blanks };
        let answered = (number == 0 && blanks > 0).then_some(blank);
        for sort in [sort].into_iter().chain(answered) {
            *self.0.entry(sort).or_default() += 1;
        }
    }

    pub fn add(&mut self, other: FadeCounts) {
        for (sort, times) in other.0 {
            *self.0.entry(sort).or_default() += times;
        }
    }

    fn times(&self, sort: &Sort) -> u64 {
        self.0.get(sort).copied().unwrap_or(0)
    }

    /// How often one of these sorts came.
    fn came(&self, sorts: impl Iterator<Item = Sort>) -> u64 {
        sorts.map(|sort| self.times(&sort)).sum()
    }

    /// A line that names the sorts that did not come.
    pub fn check(&self) -> Result<(), String> {
        let wanted = wanted();
        let missing: Vec<&Sort> = wanted.iter().filter(|s| self.times(s) == 0).collect();
        if missing.is_empty() {
            return Ok(());
        }
        let first: Vec<String> = missing.iter().take(5).map(|s| format!("{s:?}")).collect();
        Err(format!(
            "{} of {} sorts of fades are missing ({}): {self}",
            missing.len(),
            wanted.len(),
            first.join(", ")
        ))
    }
}

impl fmt::Display for FadeCounts {
    fn fmt(&self, out: &mut fmt::Formatter) -> fmt::Result {
        let wanted = wanted();
        let came = wanted.iter().filter(|sort| self.times(sort) > 0).count();
        write!(out, "fades: {came} of {} sorts", wanted.len())?;
        let names = ["noise", "T wrong", "T + 1 wrong"];
        for (left, name) in LEFT.into_iter().zip(names) {
            let [answered, refused] = [0, 9].map(|number| self.came(fades(left, number)));
            write!(out, "; {name} {answered} answered, {refused} refused")?;
        }
        for rate in RATES {
            let numbers: Vec<String> = blanks(rate)
                .map(|sort| self.times(&sort).to_string())
                .collect();
            let numbers = numbers.join(" ");
            write!(out, "; by blank places at rate {rate} {numbers}")?;
        }
        Ok(())
    }
}

#[cfg(test)]
mod tests {
    use super::*;
    use crate::fades::ROUND;

    /// Ten rounds, each fade with the number that it has to come to.
    fn counts() -> FadeCounts {
        let mut counts = FadeCounts::default();
        for number in 0..10 * ROUND as u64 {
            let fade = Fade::numbered(81, number);
            counts.count(&fade, number_of(fade.left));
        }
        counts
    }

    #[test]
    fn every_sort_is_wanted() {
        let counts = counts();
        assert_eq!(counts.check(), Ok(()));
        assert_eq!(wanted().len(), ROUND + 13 + 3);
        for sort in wanted() {
            let mut few = counts.clone();
            few.0.remove(&sort);
            let line = few.check().unwrap_err();
            let named = format!("1 of 148 sorts of fades are missing ({sort:?}): fades: 147 of");
            assert!(line.starts_with(&named), "{line}");
        }
        assert!(FadeCounts::default().check().is_err());
    }

    #[test]
    fn other_numbers_are_not_what_is_wanted() {
        let mut counts = FadeCounts::default();
        for number in 0..10 * ROUND as u64 {
            let fade = Fade::numbered(81, number);
            counts.count(&fade, 9 - number_of(fade.left));
        }
        let line = counts.check().unwrap_err();
        assert!(line.starts_with("132 of 148 sorts"), "{line}");
    }

    #[test]
    fn counts_add_and_are_printed() {
        let mut sum = counts();
        sum.add(counts());
        let printed = sum.to_string();
        let expected =
            "fades: 148 of 148 sorts; noise 0 answered, 880 refused; T wrong 880 answered, \
                        0 refused; T + 1 wrong 0 answered, 880 refused; by blank places at rate 39";
        assert!(printed.starts_with(expected), "{printed}");
    }
}
