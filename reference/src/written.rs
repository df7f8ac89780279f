//! How many of the captures compared were written after places that arrived in each sort of order.
//!
//! - [`Written`]: the counts; [`Written::check`] fails where a comparison hardly tries a sort, and
//!   where a capture in place order comes back changed or another one unchanged.

use std::fmt;

use crate::arrivals::{Arrival, ARRIVALS};

/// Counts in the order of [`ARRIVALS`].
type Counts = [u64; ARRIVALS.len()];

/// Captures written, by the order in which the session's places arrived.
#[derive(Clone, Copy, Debug, Default, PartialEq, Eq)]
pub struct Written {
    /// By deliveries.
    delivered: Counts,
    /// By opening a capture.
    opened: Counts,
    /// Those of the opened ones whose bytes came back.
    unchanged: Counts,
}

impl Written {
    /// Counts a capture written after places that arrived in this order, with the capture that
    /// brought them, if it was one.
    pub fn count(&mut self, places: &[u8], opened: Option<&[u8]>, written: &[u8]) {
        let at = Arrival::of(places) as usize;
        match opened {
            None => self.delivered[at] += 1,
            Some(capture) => {
                self.opened[at] += 1;
                self.unchanged[at] += u64::from(capture == written);
            }
        }
    }

    pub fn add(&mut self, other: Written) {
        let sums = [&mut self.delivered, &mut self.opened, &mut self.unchanged];
        let counts = [other.delivered, other.opened, other.unchanged];
        for (sums, counts) in sums.into_iter().zip(counts) {
            for (sum, count) in sums.iter_mut().zip(counts) {
                *sum += count;
            }
        }
    }

    /// A line that says what is wrong where a sort of order brought fewer than a fifth of the frames
    /// by deliveries, or fewer captures than frames; or where "writing what was read from an accepted
    /// capture returns it unchanged exactly if it is in place order" does not hold.
    pub fn check(&self, frames: u64) -> Result<(), String> {
        let share = frames / ARRIVALS.len() as u64;
        let few = |counts: &Counts, wanted| counts.iter().any(|count| *count < wanted);
        if few(&self.delivered, share) || few(&self.opened, frames) {
            return Err(format!(
                "too few captures written in {frames} frames: {self}; {share} are wanted after \
                 deliveries in each order and {frames} after captures"
            ));
        }
        let mut in_place_order = [0; ARRIVALS.len()];
        in_place_order[Arrival::Rising as usize] = self.opened[Arrival::Rising as usize];
        if self.unchanged != in_place_order {
            return Err(format!("not those in place order are unchanged: {self}"));
        }
        Ok(())
    }
}

impl fmt::Display for Written {
    fn fmt(&self, out: &mut fmt::Formatter) -> fmt::Result {
        let by_order = |counts: &Counts| {
            let named = ARRIVALS.iter().zip(counts);
            let named = named.map(|(arrival, count)| format!("{count} {arrival}"));
            named.collect::<Vec<String>>().join(", ")
        };
        write!(
            out,
            "written after deliveries: {}; after captures: {}, {} of them unchanged",
            by_order(&self.delivered),
            by_order(&self.opened),
            self.unchanged.iter().sum::<u64>()
        )
    }
}

#[cfg(test)]
mod tests {
    use super::*;

    fn written() -> Written {
        Written {
            delivered: [20, 21, 22, 23, 24],
            opened: [100, 101, 102, 103, 104],
            unchanged: [100, 0, 0, 0, 0],
        }
    }

    #[test]
    fn each_order_is_wanted_after_deliveries_and_captures() {
        assert_eq!(written().check(100), Ok(()));
        let line = written().check(101).unwrap_err();
        assert!(line.starts_with("too few captures written in 101 frames: written after"));
        let mut few = written();
        few.delivered[Arrival::Turned as usize] = 19;
        assert!(few.check(100).is_err());
        assert_eq!(few.check(99), Ok(()));
    }

    #[test]
    fn only_captures_in_place_order_may_be_unchanged() {
        let mut wrong = written();
        wrong.unchanged[0] -= 1;
        assert!(wrong.check(100).unwrap_err().starts_with("not those"));
        for order in 1..ARRIVALS.len() {
            let mut wrong = written();
            wrong.unchanged[order] += 1;
            assert!(wrong.check(100).unwrap_err().starts_with("not those"));
        }
    }

    #[test]
    fn captures_count_by_the_order_of_arrival() {
        let rising: Vec<u8> = (0..64).collect();
        let falling: Vec<u8> = (0..64).rev().collect();
        let mut sum = Written::default();
        sum.count(&rising, None, &[1]);
        sum.count(&falling, Some(&[1]), &[2]);
        sum.count(&rising, Some(&[2]), &[2]);
        sum.add(sum);
        assert_eq!(
            sum.to_string(),
            "written after deliveries: 2 rising, 0 falling, 0 exchanged, 0 turned, 0 shuffled; \
             after captures: 2 rising, 2 falling, 0 exchanged, 0 turned, 0 shuffled, 2 of them \
             unchanged"
        );
    }
}
