//! Which marked and unmarked answers are compared, and how often.
//!
//! - [`Marks`]: of all answers; [`Marks::check`] fails where a comparison hardly has one of both.
//! - [`Sort`]: one thing that is counted of a frame for the mark; a frame is several of them.
//! - [`MarkCounts`]: the counts; [`MarkCounts::check`] fails where a sort is missing, and where an answer is
//!   not marked as its frame is made to be, or a codeword costs less than a marked one.

use std::collections::BTreeMap;
use std::fmt;

use crate::code::{rates, Code};
use crate::curve::PLACES;
use crate::decode::mark_of;
use crate::frames::random_codeword;
use crate::light::{light_weight, lightest};
use crate::mark_frames::{has_sort, MarkFrame, MarkKind, Side, MARK_SORTS};
use crate::mark_slips::{MarkSlip, Sheet, MARK_SLIPS};
use crate::random::Random;
use crate::row::Row;
use crate::soft::{total, DOUBT_LIMIT};

/// One frame in so many has a marked answer, and as many an unmarked one.
const ONE_IN: u64 = 25;

/// To each marked answer so many codewords at least distance are tried, and as many any others.
const TRIED: usize = 3;

/// Answers by their mark.
#[derive(Clone, Copy, Debug, Default, PartialEq, Eq)]
pub struct Marks {
    pub marked: u64,
    pub unmarked: u64,
}

impl Marks {
    pub fn count(&mut self, marked: bool) {
        match marked {
            true => self.marked += 1,
            false => self.unmarked += 1,
        }
    }

    pub fn add(&mut self, other: Marks) {
        self.marked += other.marked;
        self.unmarked += other.unmarked;
    }

    /// A line that says so where too few of the frames have a marked answer, or an unmarked one.
    pub fn check(&self, frames: u64) -> Result<(), String> {
        let wanted = frames / ONE_IN;
        if self.marked.min(self.unmarked) >= wanted {
            return Ok(());
        }
        Err(format!(
            "too few marks in {frames} frames: {self}; {wanted} of both are wanted"
        ))
    }
}

impl fmt::Display for Marks {
    fn fmt(&self, out: &mut fmt::Formatter) -> fmt::Result {
        let Marks { marked, unmarked } = self;
        write!(out, "answers: {marked} marked, {unmarked} not")
    }
}

/// What is counted.
#[derive(Clone, Copy, Debug, PartialEq, Eq, PartialOrd, Ord)]
pub enum Sort {
    /// A frame by its rate.
    Frame {
        rate: u64,
        kind: MarkKind,
        side: Side,
    },
    /// One by its number of doubtful places.
    Doubt {
        doubt: usize,
        side: Side,
    },
    /// A marked answer that another codeword costs as much as, and an unmarked one that another costs one
    /// less than.
    Tied {
        rate: u64,
    },
    Undercut {
        rate: u64,
    },
    /// An answer that a wrong rule would have marked otherwise.
    Slip(MarkSlip),
}

/// Every sort that a comparison has to try.
fn wanted() -> Vec<Sort> {
    let of_rate = |rate| {
        let sorts = MARK_SORTS
            .into_iter()
            .filter(move |sort| has_sort(rate, *sort));
        sorts.map(move |(kind, side)| Sort::Frame { rate, kind, side })
    };
    let mut wanted: Vec<Sort> = rates().flat_map(of_rate).collect();
    for doubt in 0..=DOUBT_LIMIT {
        let sides = [Side::Far, Side::Under, Side::Equal, Side::Over];
        wanted.extend(sides.map(|side| Sort::Doubt { doubt, side }));
    }
    for rate in rates() {
        let code = Code::of_rate(rate).expect("a known rate");
        if light_weight(code) == PLACES - code.top {
            wanted.extend([Sort::Tied { rate }, Sort::Undercut { rate }]);
        }
    }
    wanted.extend(MARK_SLIPS.map(Sort::Slip));
    wanted
}

/// The counts, and what was against the rule.
#[derive(Clone, Debug, Default, PartialEq, Eq)]
pub struct MarkCounts {
    counts: BTreeMap<Sort, u64>,
    /// Codewords that were tried beside marked answers.
    tried: u64,
    against: Vec<String>,
}

impl MarkCounts {
    /// Counts a frame that came to this number, message and report.
    pub fn count(&mut self, frame: &MarkFrame, number: u8, message: &[u8], report: &[u8]) {
        let MarkFrame { kind, side, .. } = *frame;
        let (rate, doubt) = (frame.frame.rate, frame.doubt());
        let code = Code::of_rate(rate).expect("a known rate");
        let right = number == 0
            && code.codeword(message) == frame.sent
            && mark_of(report) == side.is_marked();
        if !right {
            self.against.push(format!(
                "{kind:?} {side:?} at rate {rate}, doubt {doubt}, comes to {number} {message:?} {report:?}"
            ));
            return;
        }
        self.add_one(Sort::Frame { rate, kind, side });
        self.add_one(Sort::Doubt { doubt, side });
        self.count_others(frame, code);
        let sheet = Sheet::of(code, &frame.frame.columns, &frame.sent.elements());
        for slip in MARK_SLIPS {
            if sheet.is_marked(Some(slip)) != side.is_marked() {
                self.add_one(Sort::Slip(slip));
            }
        }
    }

    /// Tries other codewords.
    fn count_others(&mut self, frame: &MarkFrame, code: &Code) {
        let rate = frame.frame.rate;
        let total_of = |word: &Row| total(&frame.frame.columns, &word.elements());
        let answer = total_of(&frame.sent);
        let rival = frame.rival.as_ref().map(total_of);
        match (frame.side, rival) {
            (Side::Equal, Some(rival)) if rival == answer => self.add_one(Sort::Tied { rate }),
            (Side::Over, Some(rival)) if rival + 1 == answer => {
                self.add_one(Sort::Undercut { rate });
            }
            _ => (),
        }
        if !frame.side.is_marked() {
            return;
        }
        let mut random = Random::new(rate, u64::from(answer));
        let light = (0..TRIED).map(|_| {
            let mut word = frame.sent;
            word.add(&lightest(code, &mut random));
            word
        });
        let mut others: Vec<Row> = light.chain(frame.rival).collect();
        others.extend((0..TRIED).map(|_| random_codeword(code, &mut random)));
        self.tried += others.len() as u64;
        if let Some(other) = others.iter().map(total_of).find(|total| *total < answer) {
            self.against.push(format!(
                "a marked answer at rate {rate} costs {answer}, and another codeword {other}"
            ));
        }
    }

    fn add_one(&mut self, sort: Sort) {
        *self.counts.entry(sort).or_default() += 1;
    }

    pub fn add(&mut self, other: MarkCounts) {
        for (sort, times) in other.counts {
            *self.counts.entry(sort).or_default() += times;
        }
        self.tried += other.tried;
        self.against.extend(other.against);
    }

    fn times(&self, sort: &Sort) -> u64 {
        self.counts.get(sort).copied().unwrap_or(0)
    }

    /// How often the sorts came that are so.
    fn came(&self, so: impl Fn(&Sort) -> bool) -> u64 {
        let came = self.counts.iter().filter(|(sort, _)| so(sort));
        came.map(|(_, times)| times).sum()
    }

    /// A line that says what was against the rule, or names the sorts that did not come.
    pub fn check(&self) -> Result<(), String> {
        if let Some(first) = self.against.first() {
            let more = self.against.len() - 1;
            return Err(format!("{first}, and {more} more against the rule"));
        }
        let wanted = wanted();
        let missing: Vec<&Sort> = wanted.iter().filter(|s| self.times(s) == 0).collect();
        if missing.is_empty() {
            return Ok(());
        }
        let first: Vec<String> = missing.iter().take(5).map(|s| format!("{s:?}")).collect();
        Err(format!(
            "{} of {} sorts of marks are missing ({}): {self}",
            missing.len(),
            wanted.len(),
            first.join(", ")
        ))
    }
}

impl fmt::Display for MarkCounts {
    fn fmt(&self, out: &mut fmt::Formatter) -> fmt::Result {
        let wanted = wanted();
        let came = wanted.iter().filter(|s| self.times(s) > 0).count();
        write!(out, "marks: {came} of {} sorts", wanted.len())?;
        for (of, name) in [
            (Side::Far, "far below the slack"),
            (Side::Under, "one below"),
            (Side::Equal, "equal"),
            (Side::Over, "one above, not marked"),
        ] {
            let times = self.came(|sort| matches!(sort, Sort::Doubt { side, .. } if *side == of));
            let mark = if of == Side::Far { ";" } else { "," };
            write!(out, "{mark} {times} {name}")?;
        }
        for (of, name) in [
            (MarkKind::Faded, "with blank places"),
            (MarkKind::Pinned, "with pinned ones"),
            (MarkKind::Clipped, "with pinned seconds"),
            (MarkKind::NoSlack, "with gaps of zero"),
            (MarkKind::NoneLeft, "with no gap summed"),
        ] {
            let times = self.came(|sort| matches!(sort, Sort::Frame { kind, .. } if *kind == of));
            write!(out, "; {times} {name}")?;
        }
        let tied = self.came(|sort| matches!(sort, Sort::Tied { .. }));
        let undercut = self.came(|sort| matches!(sort, Sort::Undercut { .. }));
        write!(
            out,
            "; {tied} marked beside a codeword of equal total, {undercut} not marked beside one that costs \
             one less; {} other codewords tried; told from the wrong rules",
            self.tried
        )?;
        for slip in MARK_SLIPS {
            write!(out, " {slip:?}: {}", self.times(&Sort::Slip(slip)))?;
        }
        Ok(())
    }
}

#[cfg(test)]
mod tests {
    use super::*;
    use crate::code::RATE_COUNT;
    use crate::decode::{Answer, REPORT_BYTES};
    use crate::mark_frames::FEW_MARK_TURNS;

    #[test]
    fn too_few_marks_are_an_error() {
        let marks = |marked, unmarked| Marks { marked, unmarked };
        assert_eq!(marks(40, 960).check(1000), Ok(()));
        assert!(marks(39, 961).check(1000).is_err());
        assert!(marks(961, 39).check(1000).is_err());
        let mut sum = marks(1, 2);
        sum.count(true);
        sum.count(false);
        sum.add(marks(10, 20));
        assert_eq!(sum, marks(12, 23));
    }

    /// A report with a mark or none.
    fn report(marked: bool) -> [u8; REPORT_BYTES] {
        let answer = Answer {
            message: Vec::new(),
            total: 0,
            tests: 1,
            pinned: 0,
            changed: 0,
            margin: None,
            marked,
        };
        answer.report()
    }

    fn message(frame: &MarkFrame) -> Vec<u8> {
        let code = Code::of_rate(frame.frame.rate).unwrap();
        code.message(&frame.sent).unwrap()
    }

    /// Few turns of a seed, each frame marked as it is made to be, have every sort.
    fn full() -> MarkCounts {
        let mut counts = MarkCounts::default();
        for number in 0..(RATE_COUNT * FEW_MARK_TURNS) as u64 {
            let frame = MarkFrame::numbered(121, number);
            let report = report(frame.side.is_marked());
            counts.count(&frame, 0, &message(&frame), &report);
        }
        counts
    }

    /// A sort that is missing is named.
    #[test]
    fn every_sort_is_wanted() {
        let full = full();
        assert_eq!(full.check(), Ok(()));
        for sort in wanted() {
            let mut few = full.clone();
            few.counts.remove(&sort);
            let line = few.check().unwrap_err();
            let named = format!(
                "1 of {} sorts of marks are missing ({sort:?})",
                wanted().len()
            );
            assert!(line.contains(&named), "{line}");
        }
    }

    /// A frame that is marked otherwise, another message, a refusal, and a marked answer that costs more
    /// than a codeword.
    #[test]
    fn what_is_against_the_rule_is_an_error() {
        for number in 0..(RATE_COUNT * FEW_MARK_TURNS) as u64 {
            let frame = MarkFrame::numbered(122, number);
            let marked = frame.side.is_marked();
            let right = message(&frame);
            let mut wrong = right.clone();
            wrong[0] ^= 1;
            for (number, message, report) in [
                (0, &right, report(!marked)),
                (0, &wrong, report(marked)),
                (9, &right, report(marked)),
            ] {
                let mut counts = MarkCounts::default();
                counts.count(&frame, number, message, &report);
                assert!(counts.check().unwrap_err().contains("comes to"));
            }
            if frame.kind == MarkKind::Rival && !marked {
                let undercut = MarkFrame {
                    side: Side::Equal,
                    ..frame
                };
                let mut counts = MarkCounts::default();
                counts.count(&undercut, 0, &right, &report(true));
                let code = Code::of_rate(undercut.frame.rate).unwrap();
                let line = counts.check().unwrap_err();
                let exact = light_weight(code) == PLACES - code.top;
                assert_eq!(line.contains("and another codeword"), exact, "{line}");
            }
        }
    }
}
