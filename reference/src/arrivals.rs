//! The orders in which the places of a frame arrive, by delivery or as the records of a capture.
//!
//! - [`Arrival`], [`ARRIVALS`]: the sorts of order; [`Arrival::places`] makes an order of a sort,
//!   [`Arrival::of`] tells the sort of an order.

use std::fmt;

use crate::curve::PLACES;
use crate::frames::some_places;
use crate::random::Random;

/// A sort of order of all places.
#[derive(Clone, Copy, Debug, PartialEq, Eq)]
pub enum Arrival {
    /// In place order.
    Rising,
    /// From the last place down to the first.
    Falling,
    /// In place order but for two places, each of which stands where the other should.
    Exchanged,
    /// From some place up to the last, then from the first up to that one.
    Turned,
    /// Any other order.
    Shuffled,
}

/// Five, which has no divisor in common with the numbers of kinds, rates, doubts and blank places:
/// frames whose numbers go round all of these have every sort with each of them.
pub const ARRIVALS: [Arrival; 5] = [
    Arrival::Rising,
    Arrival::Falling,
    Arrival::Exchanged,
    Arrival::Turned,
    Arrival::Shuffled,
];

impl Arrival {
    /// The sort of order for a numbered frame.
    pub fn numbered(number: u64) -> Arrival {
        ARRIVALS[number as usize % ARRIVALS.len()]
    }

    /// All places in an order of this sort.
    pub fn places(self, random: &mut Random) -> Vec<u8> {
        let mut places: Vec<u8> = (0..PLACES as u8).collect();
        match self {
            Arrival::Rising => {}
            Arrival::Falling => places.reverse(),
            Arrival::Exchanged => {
                let two = some_places(2, random);
                places.swap(usize::from(two[0]), usize::from(two[1]));
            }
            Arrival::Turned => places.rotate_left(random.between(1, PLACES - 1)),
            Arrival::Shuffled => places = random.shuffled(places),
        }
        places
    }

    /// The sort of an order of all places.
    pub fn of(places: &[u8]) -> Arrival {
        let moved = (0..).zip(places).filter(|(at, place)| at != *place);
        let falls = places.windows(2).filter(|pair| pair[0] > pair[1]);
        match (moved.count(), falls.count()) {
            (0, _) => Arrival::Rising,
            (2, _) => Arrival::Exchanged,
            (_, 1) if places.last() < places.first() => Arrival::Turned,
            (PLACES, falls) if falls == PLACES - 1 => Arrival::Falling,
            _ => Arrival::Shuffled,
        }
    }
}

impl fmt::Display for Arrival {
    fn fmt(&self, out: &mut fmt::Formatter) -> fmt::Result {
        out.write_str(match self {
            Arrival::Rising => "rising",
            Arrival::Falling => "falling",
            Arrival::Exchanged => "exchanged",
            Arrival::Turned => "turned",
            Arrival::Shuffled => "shuffled",
        })
    }
}

#[cfg(test)]
mod tests {
    use super::*;

    #[test]
    fn orders_are_of_the_sort_they_are_made_for() {
        for number in 0..500 {
            let sort = Arrival::numbered(number);
            let places = sort.places(&mut Random::new(45, number));
            assert_eq!(Arrival::of(&places), sort);
            let mut sorted = places.clone();
            sorted.sort_unstable();
            assert_eq!(sorted, (0..64).collect::<Vec<u8>>());
            assert_eq!(places == sorted, sort == Arrival::Rising);
        }
    }

    #[test]
    fn any_two_places_may_be_exchanged() {
        let rising: Vec<u8> = (0..64).collect();
        for (first, second) in [(0, 1), (0, 63), (31, 32), (62, 63)] {
            let mut places = rising.clone();
            places.swap(first, second);
            assert_eq!(Arrival::of(&places), Arrival::Exchanged);
        }
        for start in 1..64 {
            let mut places = rising.clone();
            places.rotate_left(start);
            assert_eq!(Arrival::of(&places), Arrival::Turned);
            places.swap(0, 1);
            assert_eq!(Arrival::of(&places), Arrival::Shuffled);
        }
    }
}
