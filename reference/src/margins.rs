//! How many of the frames compared have a margin.
//!
//! - [`Margins`]: the counts; [`Margins::check`] fails where a comparison hardly tries margins.

use std::fmt;

/// One frame in so many has a margin at least: 500 of 3,000.
const ONE_IN: u64 = 6;

/// Answers by their margin.
#[derive(Clone, Copy, Debug, Default, PartialEq, Eq)]
pub struct Margins {
    /// The runner-up costs more.
    pub above: u64,
    /// The runner-up costs the same.
    pub zero: u64,
    /// No second codeword is near.
    pub absent: u64,
}

impl Margins {
    pub fn count(&mut self, margin: Option<u32>) {
        match margin {
            None => self.absent += 1,
            Some(0) => self.zero += 1,
            Some(_) => self.above += 1,
        }
    }

    pub fn add(&mut self, other: Margins) {
        self.above += other.above;
        self.zero += other.zero;
        self.absent += other.absent;
    }

    pub fn present(&self) -> u64 {
        self.above + self.zero
    }

    /// A line that says what is missing where too few of the frames have a margin, or none has one
    /// of zero.
    pub fn check(&self, frames: u64) -> Result<(), String> {
        let wanted = frames / ONE_IN;
        let zero_wanted = u64::from(wanted > 0);
        if self.present() >= wanted && self.zero >= zero_wanted {
            return Ok(());
        }
        Err(format!(
            "too few margins in {frames} frames: {self}; {wanted} are wanted, a zero among them"
        ))
    }
}

impl fmt::Display for Margins {
    fn fmt(&self, out: &mut fmt::Formatter) -> fmt::Result {
        let present = self.present();
        let Margins { zero, absent, .. } = self;
        write!(
            out,
            "margins: {present}, {zero} of them zero, and {absent} absent"
        )
    }
}

#[cfg(test)]
mod tests {
    use super::*;

    fn margins(above: u64, zero: u64) -> Margins {
        let absent = 2000;
        Margins {
            above,
            zero,
            absent,
        }
    }

    #[test]
    fn too_few_margins_are_an_error() {
        assert_eq!(margins(400, 100).check(3000), Ok(()));
        assert_eq!(
            margins(399, 100).check(3000).unwrap_err(),
            "too few margins in 3000 frames: margins: 499, 100 of them zero, and 2000 absent; 500 are \
             wanted, a zero among them"
        );
        assert!(margins(500, 0).check(3000).is_err());
        assert_eq!(margins(0, 0).check(5), Ok(()));
    }

    #[test]
    fn counts_add() {
        let mut sum = margins(1, 2);
        for margin in [None, Some(0), Some(7), Some(1)] {
            sum.count(margin);
        }
        sum.add(margins(10, 20));
        assert_eq!((sum.above, sum.zero, sum.absent), (13, 23, 4001));
    }
}
