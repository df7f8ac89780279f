//! Wrong rules of the mark, to tell the right one from.
//!
//! - [`Sheet`]: a codeword's costs place by place; [`Sheet::is_marked`]: by the rule, or by a wrong one.
//! - [`MarkSlip`], [`MARK_SLIPS`]: the wrong rules.

use crate::code::Code;
use crate::curve::{GENUS, PLACES};
use crate::soft::{best, counted_gap, gap, is_blank, is_changed, Columns};

/// A wrong rule.
#[derive(Clone, Copy, Debug, PartialEq, Eq, PartialOrd, Ord)]
pub enum MarkSlip {
    /// One gap more is summed, or one fewer.
    OneGapMore,
    OneGapLess,
    /// 64 − M gaps are summed, whatever is changed.
    ChangedNotTakenOff,
    /// The gaps of changed places are among them.
    ChangedGaps,
    /// The largest gaps are summed.
    LargestGaps,
    /// The gaps are those that choose doubtful places.
    CountedGaps,
    /// Blank places are not among the unchanged ones.
    BlanksLeftOut,
    /// Their costs are not among the best ones.
    BlanksNotInBest,
    /// The excess has to be smaller than the slack.
    Smaller,
    /// All gaps are summed where 64 − M − c isn't positive.
    AllWhereNoneIsLeft,
    /// The genus is taken off, as it is for T.
    GenusTakenOff,
    /// 64 − M is 20, as at rate 39.
    TwentyAtEveryRate,
    /// Excess and slack are numbers of two bytes.
    TwoBytes,
    Always,
    Never,
}

pub const MARK_SLIPS: [MarkSlip; 15] = [
    MarkSlip::OneGapMore,
    MarkSlip::OneGapLess,
    MarkSlip::ChangedNotTakenOff,
    MarkSlip::ChangedGaps,
    MarkSlip::LargestGaps,
    MarkSlip::CountedGaps,
    MarkSlip::BlanksLeftOut,
    MarkSlip::BlanksNotInBest,
    MarkSlip::Smaller,
    MarkSlip::AllWhereNoneIsLeft,
    MarkSlip::GenusTakenOff,
    MarkSlip::TwentyAtEveryRate,
    MarkSlip::TwoBytes,
    MarkSlip::Always,
    MarkSlip::Never,
];

/// What a rule of the mark may go by.
pub struct Sheet {
    /// M.
    top: usize,
    places: Vec<Place>,
}

struct Place {
    changed: bool,
    blank: bool,
    gap: u16,
    counted_gap: u16,
    best: u16,
    cost: u16,
}

impl Sheet {
    pub fn of(code: &Code, columns: &Columns, codeword: &[u8; PLACES]) -> Sheet {
        let places = columns.iter().zip(codeword).map(|(column, symbol)| Place {
            changed: is_changed(column, *symbol),
            blank: is_blank(column),
            gap: gap(column),
            counted_gap: counted_gap(column),
            best: column[usize::from(best(column))],
            cost: column[usize::from(*symbol)],
        });
        Sheet {
            top: code.top,
            places: places.collect(),
        }
    }

    /// Whether the codeword is marked by a wrong rule, or by the right one where none is given.
    pub fn is_marked(&self, slip: Option<MarkSlip>) -> bool {
        let (excess, slack) = (self.excess(slip), self.slack(slip));
        match slip {
            Some(MarkSlip::Always) => true,
            Some(MarkSlip::Never) => false,
            Some(MarkSlip::Smaller) => excess < slack,
            Some(MarkSlip::TwoBytes) => excess as u16 <= slack as u16,
            _ => excess <= slack,
        }
    }

    fn excess(&self, slip: Option<MarkSlip>) -> u32 {
        let in_best = |place: &&Place| slip != Some(MarkSlip::BlanksNotInBest) || !place.blank;
        let best = self.places.iter().filter(in_best);
        let best: u32 = best.map(|place| u32::from(place.best)).sum();
        let total: u32 = self.places.iter().map(|place| u32::from(place.cost)).sum();
        total - best
    }

    fn slack(&self, slip: Option<MarkSlip>) -> u32 {
        let summed = |place: &&Place| match slip {
            Some(MarkSlip::ChangedGaps) => true,
            Some(MarkSlip::BlanksLeftOut) => !place.changed && !place.blank,
            _ => !place.changed,
        };
        let mut gaps: Vec<u16> = self
            .places
            .iter()
            .filter(summed)
            .map(|place| match slip {
                Some(MarkSlip::CountedGaps) => place.counted_gap,
                _ => place.gap,
            })
            .collect();
        gaps.sort_unstable();
        if slip == Some(MarkSlip::LargestGaps) {
            gaps.reverse();
        }
        let few = self.few(slip);
        gaps.into_iter().take(few).map(u32::from).sum()
    }

    /// How many gaps are summed.
    fn few(&self, slip: Option<MarkSlip>) -> usize {
        let distance = PLACES - self.top;
        let changed = self.places.iter().filter(|place| place.changed).count();
        match slip {
            Some(MarkSlip::OneGapMore) => (distance + 1).saturating_sub(changed),
            Some(MarkSlip::OneGapLess) => (distance - 1).saturating_sub(changed),
            Some(MarkSlip::ChangedNotTakenOff) => distance,
            Some(MarkSlip::GenusTakenOff) => (distance - GENUS).saturating_sub(changed),
            Some(MarkSlip::TwentyAtEveryRate) => 20_usize.saturating_sub(changed),
            Some(MarkSlip::AllWhereNoneIsLeft) if distance <= changed => PLACES,
            _ => distance.saturating_sub(changed),
        }
    }
}
