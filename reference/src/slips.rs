//! Wrong rules for choosing doubtful places by threshold and maximum, which a comparison has to tell
//! from the right one.
//!
//! - [`Slip`], [`SLIPS`]: the rules; [`Slip::places`]: what they choose.
//! - [`Told`], [`Slip::told`]: what comes of them where it is not the answer.

use std::cmp::Reverse;

use crate::curve::PLACES;
use crate::soft::{by_gap, counted_gap, gap, Columns, DOUBT_LIMIT};

/// A wrong rule.
#[derive(Clone, Copy, Debug, PartialEq, Eq, PartialOrd, Ord)]
pub enum Slip {
    /// A gap that is equal to the threshold counts as below it.
    Inclusive,
    /// A gap that is one less does not.
    OneLess,
    /// Where no gap is below the threshold, no place is doubtful.
    NoneOnAClearLink,
    /// The first place does not count to the maximum.
    BesideTheFirst,
    /// Equal gaps go to the higher place.
    HigherPlace,
    /// Those below the threshold are taken in place order.
    PlaceOrder,
    /// A pinned second counts as its plain gap.
    PlainGap,
    /// Blank places are chosen, with a gap of zero.
    BlankChosen,
    /// As many as the maximum, whatever the threshold.
    NoThreshold,
    /// All below the threshold, up to the limit of doubt.
    NoMaximum,
    /// Those above the threshold, as if a large gap meant doubt.
    Above,
    /// The threshold in a byte.
    OneByte,
    /// No more than eight, the limit of before.
    LimitOfEight,
}

/// What a slip leads to, where this is not the answer.
#[derive(Clone, Copy, Debug, PartialEq, Eq, PartialOrd, Ord)]
pub enum Told {
    /// To none near, and there is an answer.
    Found,
    /// To an answer, and none is near.
    Lost,
    /// To another message or report.
    Otherwise,
}

/// The rules with what may come of them: one that takes places away never finds more codewords near,
/// and one that adds places never fewer.
pub const SLIPS: [(Slip, &[Told]); 13] = [
    (Slip::Inclusive, &ADDING),
    (Slip::OneLess, &TAKING),
    (Slip::NoneOnAClearLink, &TAKING),
    (Slip::BesideTheFirst, &ADDING),
    (Slip::HigherPlace, &BOTH),
    (Slip::PlaceOrder, &BOTH),
    (Slip::PlainGap, &BOTH),
    (Slip::BlankChosen, &TAKING),
    (Slip::NoThreshold, &ADDING),
    (Slip::NoMaximum, &ADDING),
    (Slip::Above, &BOTH),
    (Slip::OneByte, &TAKING),
    (Slip::LimitOfEight, &TAKING),
];

/// The limit of doubt before it rose.
const LIMIT_BEFORE: usize = 8;

const TAKING: [Told; 2] = [Told::Found, Told::Otherwise];
const ADDING: [Told; 2] = [Told::Lost, Told::Otherwise];
const BOTH: [Told; 3] = [Told::Found, Told::Lost, Told::Otherwise];

impl Slip {
    /// The places that the rule chooses; the list rises.
    pub fn places(self, columns: &Columns, threshold: u16, most: usize) -> Vec<u8> {
        let gap_at = |place: u8| counted_gap(&columns[usize::from(place)]);
        let order = by_gap(columns, counted_gap);
        let below = |place: u8| gap_at(place) < threshold;
        let mut places = match self {
            Slip::Inclusive => first_and(&order, most, |place| gap_at(place) <= threshold),
            Slip::OneLess => first_and(&order, most, |place| {
                below(place) && gap_at(place) + 1 < threshold
            }),
            Slip::NoneOnAClearLink => {
                let below = order.into_iter().filter(|place| below(*place));
                below.take(most).collect()
            }
            Slip::BesideTheFirst => first_and(&order, most + 1, below),
            Slip::HigherPlace => {
                let mut order = order;
                order.sort_by_cached_key(|place| (gap_at(*place), Reverse(*place)));
                first_and(&order, most, below)
            }
            Slip::PlaceOrder => {
                let mut order = order;
                if let [_, others @ ..] = &mut order[..] {
                    others.sort_unstable();
                }
                first_and(&order, most, below)
            }
            Slip::PlainGap => {
                let order = by_gap(columns, gap);
                first_and(&order, most, |place| {
                    gap(&columns[usize::from(place)]) < threshold
                })
            }
            Slip::BlankChosen => {
                let mut order: Vec<u8> = (0..PLACES as u8).collect();
                order.sort_by_cached_key(|place| (gap_at(*place), *place));
                first_and(&order, most, below)
            }
            Slip::NoThreshold => first_and(&order, most, |_| true),
            Slip::NoMaximum => first_and(&order, DOUBT_LIMIT, below),
            Slip::Above => first_and(&order, most, |place| gap_at(place) > threshold),
            Slip::OneByte => first_and(&order, most, |place| gap_at(place) < threshold & 255),
            Slip::LimitOfEight => first_and(&order, most.min(LIMIT_BEFORE), below),
        };
        places.sort_unstable();
        places
    }

    /// What may come of it.
    pub fn told(self) -> &'static [Told] {
        SLIPS[self as usize].1
    }
}

/// The first place of an order, and others that are taken, so many in all.
fn first_and(order: &[u8], most: usize, taken: impl Fn(u8) -> bool) -> Vec<u8> {
    let first = order.iter().take(1).copied();
    let others = order.iter().skip(1).copied().filter(|place| taken(*place));
    first.chain(others).take(most).collect()
}

#[cfg(test)]
mod tests {
    use super::*;
    use crate::soft::{doubtful_below, CEILING};

    /// Gaps by place, where the others are blank.
    fn columns(gaps: &[(usize, u16)]) -> Columns {
        let mut columns = [[60_000; 16]; PLACES];
        for (place, gap) in gaps {
            columns[*place][3] -= gap;
        }
        columns
    }

    #[test]
    fn slips_are_numbered_in_their_order() {
        for (at, (slip, told)) in SLIPS.into_iter().enumerate() {
            assert_eq!(slip as usize, at);
            assert_eq!(slip.told(), told);
        }
    }

    #[test]
    fn slips_choose_otherwise() {
        let mut columns = columns(&[(9, 5), (20, 3), (30, 4), (40, 4), (50, 6), (55, 300)]);
        columns[63] = [CEILING; 16];
        columns[63][1] -= 2;
        assert_eq!(doubtful_below(&columns, 5, 3), [20, 30, 40]);
        assert_eq!(doubtful_below(&columns, 5, 8), [20, 30, 40]);
        assert_eq!(doubtful_below(&columns, 259, 2), [20, 30]);
        let places = |slip: Slip, threshold, most| slip.places(&columns, threshold, most);
        assert_eq!(places(Slip::Inclusive, 5, 8), [9, 20, 30, 40]);
        assert_eq!(places(Slip::Inclusive, 5, 3), [20, 30, 40]);
        assert_eq!(places(Slip::OneLess, 5, 8), [20]);
        assert_eq!(places(Slip::NoneOnAClearLink, 3, 8), []);
        assert_eq!(places(Slip::NoneOnAClearLink, 5, 2), [20, 30]);
        assert_eq!(places(Slip::BesideTheFirst, 7, 2), [20, 30, 40]);
        assert_eq!(places(Slip::HigherPlace, 7, 2), [20, 40]);
        assert_eq!(places(Slip::PlaceOrder, 7, 2), [9, 20]);
        assert_eq!(places(Slip::PlainGap, 5, 8), [20, 30, 40, 63]);
        assert_eq!(places(Slip::BlankChosen, 5, 3), [0, 1, 2]);
        assert_eq!(places(Slip::NoThreshold, 5, 5), [9, 20, 30, 40, 50]);
        assert_eq!(places(Slip::NoMaximum, 7, 1), [9, 20, 30, 40, 50]);
        assert_eq!(places(Slip::Above, 5, 8), [20, 50, 55, 63]);
        assert_eq!(places(Slip::OneByte, 259, 8), [20]);
        let many: Vec<(usize, u16)> = (0..16).map(|place| (place, place as u16)).collect();
        let columns = self::columns(&many);
        for (most, taken) in [(7, 7), (8, 8), (9, 8), (12, 8)] {
            let places = Slip::LimitOfEight.places(&columns, 300, most);
            assert_eq!(places.len(), taken);
            assert_eq!(doubtful_below(&columns, 300, most).len(), most);
        }
    }

    /// What a slip takes away or adds.
    #[test]
    fn slips_take_and_add() {
        let columns = columns(&[(9, 5), (20, 3), (30, 4), (40, 4), (50, 6), (55, 300)]);
        for threshold in [0, 3, 4, 5, 6, 7, 301, CEILING] {
            for most in 1..=DOUBT_LIMIT {
                let right = doubtful_below(&columns, threshold, most);
                for (slip, told) in SLIPS {
                    let places = slip.places(&columns, threshold, most);
                    let within = |a: &[u8], b: &[u8]| a.iter().all(|place| b.contains(place));
                    if !told.contains(&Told::Found) {
                        assert!(within(&right, &places), "{slip:?}");
                    }
                    if !told.contains(&Told::Lost) && slip != Slip::BlankChosen {
                        assert!(within(&places, &right), "{slip:?}");
                    }
                }
            }
        }
    }
}
