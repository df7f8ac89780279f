//! What is tried where table decoding with a threshold is compared, and how often.
//!
//! - [`Sort`]: one thing that is counted; a call may be several of them.
//! - [`BelowCounts`]: the counts; [`BelowCounts::check`] fails where a sort is missing.

use std::collections::BTreeMap;
use std::fmt;

use crate::below_frames::{
    edges, BelowCall, BelowKind, Edge, BELOW_KINDS, MAXIMA, OPEN, SIZES, THRESHOLDS,
};
use crate::curve::PLACES;
use crate::decode::{columns_of_table, decode, margin_of, TABLE_BYTES};
use crate::faults::{first_fault, Fault, FAULT_SETS};
use crate::frames::{blank_limit, RATES};
use crate::nearest::Finder;
use crate::slips::{Slip, Told, SLIPS};
use crate::soft::{
    blank_places, by_gap, counted_gap, doubtful_below, is_second_pinned, Columns, DOUBT_LIMIT,
};

/// What ends the list of doubtful places.
#[derive(Clone, Copy, Debug, PartialEq, Eq, PartialOrd, Ord)]
pub enum End {
    /// The next gap is not below the threshold, and the maximum is not reached.
    Threshold,
    /// The next gap is below the threshold, and the maximum is reached.
    Maximum,
}

/// What is counted.
#[derive(Clone, Copy, Debug, PartialEq, Eq, PartialOrd, Ord)]
pub enum Sort {
    /// A call of a kind that returned this number.
    Returned { kind: BelowKind, number: u8 },
    /// An edge where the place that decides is chosen and there is an answer, or it is not and none is
    /// near.
    Edge(Edge),
    /// A wrong rule that leads to something else.
    Slip { rate: u64, slip: Slip, told: Told },
    /// An answer with so many doubtful places, by what ends their list.
    Chosen { rate: u64, count: usize, end: End },
    /// An answer with this maximum.
    Most { rate: u64, most: u64 },
    /// An answer with more than 255 test words near.
    ManyTests,
    /// An answer with this threshold.
    Threshold { rate: u64, threshold: u16 },
    /// An answer where equal gaps below the threshold lie on both sides of the maximum.
    Tie { rate: u64, most: u64 },
    /// An answer where two gaps at least are equal to the threshold, after the first place.
    TieAtThreshold { rate: u64 },
    /// An answer with a pinned second that is chosen as the first, or that is not chosen though the
    /// threshold is 65535 and the maximum is not reached.
    Pinned { rate: u64, first: bool },
    /// So many blank places: an answer, or, where they are too many, a table refused with 12.
    Blank { rate: u64, blanks: usize },
    /// So many places that are not blank, in a table refused with 12.
    Open { rate: u64, open: usize },
    /// An answer with a margin, of zero or above.
    Margin { zero: bool },
    /// This maximum, refused with 4.
    Maximum { most: u64 },
    /// A table of so many bytes, refused with 2 where no other size is wrong.
    Size { table: usize },
    /// These faults, refused by the first of them or, if there are none, answered.
    Faults { set: usize },
}

/// The numbers that come of each kind.
const RETURNED: [(BelowKind, &[u8]); 6] = [
    (BelowKind::Edge, &[0, 9]),
    (BelowKind::Frame, &[0, 9, 12]),
    (BelowKind::Pinned, &[0, 9]),
    (BelowKind::Few, &[0, 12]),
    (BelowKind::Noise, &[0, 9]),
    (BelowKind::Refused, &[0, 1, 2, 4, 9, 12]),
];

fn all_edges() -> impl Iterator<Item = Sort> {
    edges().into_iter().map(Sort::Edge)
}

fn slips(rate: u64) -> impl Iterator<Item = Sort> {
    SLIPS.into_iter().flat_map(move |(slip, told)| {
        told.iter().map(move |told| Sort::Slip {
            rate,
            slip,
            told: *told,
        })
    })
}

/// Lists of every length, as the maximum ends them and as the threshold does.
fn chosen(rate: u64) -> impl Iterator<Item = Sort> {
    (1..=DOUBT_LIMIT).flat_map(move |count| {
        [End::Threshold, End::Maximum]
            .into_iter()
            .filter(move |end| count < DOUBT_LIMIT || *end == End::Maximum)
            .map(move |end| Sort::Chosen { rate, count, end })
    })
}

/// The numbers of blank places at a rate, from one to one too many.
fn blanks(rate: u64) -> impl Iterator<Item = Sort> {
    (1..=blank_limit(rate) + 1).map(move |blanks| Sort::Blank { rate, blanks })
}

fn sets_of_faults() -> impl Iterator<Item = Sort> {
    (0..FAULT_SETS).map(|set| Sort::Faults { set })
}

/// Every sort that a comparison has to try.
fn wanted() -> Vec<Sort> {
    let mut wanted: Vec<Sort> = all_edges().chain(sets_of_faults()).collect();
    for (kind, numbers) in RETURNED {
        wanted.extend(numbers.iter().map(|number| Sort::Returned {
            kind,
            number: *number,
        }));
    }
    for rate in RATES {
        wanted.extend(slips(rate).chain(chosen(rate)).chain(blanks(rate)));
        for most in 1..=DOUBT_LIMIT as u64 {
            wanted.extend([Sort::Most { rate, most }, Sort::Tie { rate, most }]);
        }
        wanted.extend(THRESHOLDS.map(|threshold| Sort::Threshold { rate, threshold }));
        wanted.extend([true, false].map(|first| Sort::Pinned { rate, first }));
        wanted.extend(OPEN.map(|open| Sort::Open { rate, open }));
        wanted.push(Sort::TieAtThreshold { rate });
    }
    wanted.extend([true, false].map(|zero| Sort::Margin { zero }));
    wanted.push(Sort::ManyTests);
    wanted.extend(MAXIMA.map(|most| Sort::Maximum { most }));
    wanted.extend(SIZES.map(|table| Sort::Size { table }));
    wanted
}

/// What a call is, by the number that it returned and the buffers afterwards.
fn sorts(call: &BelowCall, number: u8, message: &[u8], report: &[u8]) -> Vec<Sort> {
    let (kind, rate, most) = (call.kind, call.rate, call.most);
    let mut sorts = vec![Sort::Returned { kind, number }];
    if let Some(edge) = call.edge {
        if number == if edge.chosen() { 0 } else { 9 } {
            sorts.push(Sort::Edge(edge));
        }
    }
    if kind == BelowKind::Refused {
        if number == first_fault(call.faults) {
            let set = usize::from(call.faults);
            sorts.push(Sort::Faults { set });
        }
        let other_size = call.has(Fault::Message) || call.has(Fault::Report);
        if number == 2 && !other_size {
            let table = call.table.len();
            sorts.push(Sort::Size { table });
        }
    }
    if number == 4 {
        sorts.push(Sort::Maximum { most });
    }
    if ![0, 9, 12].contains(&number) || call.table.len() != TABLE_BYTES {
        return sorts;
    }
    let columns = columns_of_table(&call.table);
    let blanks = blank_places(&columns).len();
    if number != 9 && blanks > 0 && (number == 12) == (blanks > blank_limit(rate)) {
        let open = PLACES - blanks;
        if number == 12 {
            sorts.push(Sort::Open { rate, open });
        }
        let blanks = blanks.min(blank_limit(rate) + 1);
        sorts.push(Sort::Blank { rate, blanks });
    }
    if number != 12 {
        sorts.extend(told(call, &columns, number == 0, message, report));
    }
    if number != 0 {
        return sorts;
    }
    let threshold = call.threshold;
    sorts.push(Sort::Most { rate, most });
    if report[4] > 0 {
        sorts.push(Sort::ManyTests);
    }
    sorts.push(Sort::Threshold { rate, threshold });
    if let Some(margin) = margin_of(report) {
        let zero = margin == 0;
        sorts.push(Sort::Margin { zero });
    }
    sorts.extend(of_the_list(call, &columns));
    sorts
}

/// What the wrong rules would have led to, where that is something else; places that several of them
/// choose are decoded once.
fn told(
    call: &BelowCall,
    columns: &Columns,
    answered: bool,
    message: &[u8],
    report: &[u8],
) -> Vec<Sort> {
    let (rate, most) = (call.rate, call.most as usize);
    let finder = Finder::of_rate(rate).expect("a known rate");
    let of_places = |places: &[u8]| match (answered, decode(finder, columns, places)) {
        (true, Err(_)) => Some(Told::Found),
        (false, Ok(_)) => Some(Told::Lost),
        (true, Ok(other)) if other.message != message || other.report() != report => {
            Some(Told::Otherwise)
        }
        _ => None,
    };
    let right = doubtful_below(columns, call.threshold, most);
    let mut known = BTreeMap::from([(right, None)]);
    let mut sorts = Vec::new();
    for (slip, _) in SLIPS {
        let places = slip.places(columns, call.threshold, most);
        let told = match known.get(&places) {
            Some(told) => *told,
            None => of_places(&places),
        };
        known.insert(places, told);
        sorts.extend(told.map(|told| Sort::Slip { rate, slip, told }));
    }
    sorts
}

/// How the list of an answer ends, and which gaps tie there.
fn of_the_list(call: &BelowCall, columns: &Columns) -> Vec<Sort> {
    let (rate, most, threshold) = (call.rate, call.most, call.threshold);
    let gap = |place: u8| counted_gap(&columns[usize::from(place)]);
    let order = by_gap(columns, counted_gap);
    let count = doubtful_below(columns, threshold, most as usize).len();
    let (last, next) = (order[count - 1], order[count]);
    let mut sorts = Vec::new();
    if count < most as usize {
        let end = End::Threshold;
        sorts.push(Sort::Chosen { rate, count, end });
    } else if gap(next) < threshold {
        let end = End::Maximum;
        sorts.push(Sort::Chosen { rate, count, end });
        if gap(last) == gap(next) {
            sorts.push(Sort::Tie { rate, most });
        }
    }
    let equal = order[1..].iter().filter(|place| gap(**place) == threshold);
    if equal.count() >= 2 {
        sorts.push(Sort::TieAtThreshold { rate });
    }
    let pinned = |place: u8| is_second_pinned(&columns[usize::from(place)]);
    if pinned(order[0]) {
        let first = true;
        sorts.push(Sort::Pinned { rate, first });
    }
    if count < most as usize && threshold == u16::MAX && pinned(next) {
        let first = false;
        sorts.push(Sort::Pinned { rate, first });
    }
    sorts
}

/// The counts.
#[derive(Clone, Debug, Default, PartialEq, Eq)]
pub struct BelowCounts(BTreeMap<Sort, u64>);

impl BelowCounts {
    /// Counts a call that returned this number, by the buffers afterwards.
    pub fn count(&mut self, call: &BelowCall, number: u8, message: &[u8], report: &[u8]) {
        for sort in sorts(call, number, message, report) {
            *self.0.entry(sort).or_default() += 1;
        }
    }

    pub fn add(&mut self, other: BelowCounts) {
        for (sort, times) in other.0 {
            *self.0.entry(sort).or_default() += times;
        }
    }

    fn times(&self, sort: &Sort) -> u64 {
        self.0.get(sort).copied().unwrap_or(0)
    }

    /// How many of these sorts came, and how often all of them together.
    fn came(&self, sorts: impl Iterator<Item = Sort>) -> (usize, u64) {
        let times = sorts.map(|sort| self.times(&sort));
        let came = times.filter(|times| *times > 0);
        came.fold((0, 0), |(sorts, sum), times| (sorts + 1, sum + times))
    }

    /// The calls of a kind.
    fn calls(&self, kind: BelowKind) -> u64 {
        let numbers = (0..=u8::MAX).map(|number| Sort::Returned { kind, number });
        self.came(numbers).1
    }

    /// Those that a wrong rule would have led elsewhere.
    fn slipped(&self, slip: Slip) -> u64 {
        let told = slip.told().iter().flat_map(move |told| {
            let told = *told;
            RATES.map(|rate| Sort::Slip { rate, slip, told })
        });
        self.came(told).1
    }

    /// A line that names the sorts that did not come.
    pub fn check(&self) -> Result<(), String> {
        let wanted = wanted();
        let missing: Vec<&Sort> = wanted.iter().filter(|s| self.times(s) == 0).collect();
        if missing.is_empty() {
            return Ok(());
        }
        let first: Vec<String> = missing.iter().take(5).map(|s| format!("{s:?}")).collect();
        Err(format!(
            "{} of {} sorts are missing ({}): {self}",
            missing.len(),
            wanted.len(),
            first.join(", ")
        ))
    }
}

impl fmt::Display for BelowCounts {
    fn fmt(&self, out: &mut fmt::Formatter) -> fmt::Result {
        let kinds = [BelowKind::Edge].into_iter().chain(BELOW_KINDS);
        let kinds: Vec<String> = kinds
            .map(|kind| format!("{} {kind:?}", self.calls(kind)))
            .collect();
        let (came, times) = self.came(all_edges());
        write!(
            out,
            "thresholds: {}; {came} of {} edges, {times} times; told from the wrong rules",
            kinds.join(", "),
            edges().len()
        )?;
        for (slip, _) in SLIPS {
            write!(out, " {slip:?}: {}", self.slipped(slip))?;
        }
        for end in [End::Threshold, End::Maximum] {
            let lengths = (1..=DOUBT_LIMIT).map(|count| {
                let sorts = RATES.map(|rate| Sort::Chosen { rate, count, end });
                self.came(sorts.into_iter()).1.to_string()
            });
            let lengths: Vec<String> = lengths.collect();
            let lengths = lengths.join(" ");
            write!(out, "; by the places chosen up to the {end:?} {lengths}")?;
        }
        let ties = RATES.iter().flat_map(|rate| {
            (1..=DOUBT_LIMIT as u64).map(move |most| Sort::Tie { rate: *rate, most })
        });
        let at = RATES.map(|rate| Sort::TieAtThreshold { rate });
        write!(
            out,
            "; ties across the maximum {}, at the threshold {}",
            self.came(ties).1,
            self.came(at.into_iter()).1
        )?;
        let pinned = [true, false].map(|first| {
            let sorts = RATES.map(|rate| Sort::Pinned { rate, first });
            self.came(sorts.into_iter()).1
        });
        write!(
            out,
            "; pinned seconds as the first {}, and left out below 65535 {}; thresholds",
            pinned[0], pinned[1]
        )?;
        for threshold in THRESHOLDS {
            let sorts = RATES.map(|rate| Sort::Threshold { rate, threshold });
            let times = self.came(sorts.into_iter()).1;
            write!(out, " {threshold}: {times}")?;
        }
        for rate in RATES {
            let numbers: Vec<String> = blanks(rate)
                .map(|sort| self.times(&sort).to_string())
                .collect();
            let numbers = numbers.join(" ");
            write!(out, "; by their blank places at rate {rate} {numbers}")?;
        }
        let few = RATES
            .iter()
            .flat_map(|rate| OPEN.map(|open| Sort::Open { rate: *rate, open }));
        let [zero, above] = [true, false].map(|zero| self.times(&Sort::Margin { zero }));
        write!(
            out,
            "; {} with all blank but {} at most; {} with more than 255 test words near; {} with a margin, \
             {zero} of them zero; maxima",
            self.came(few).1,
            OPEN.len() - 1,
            self.times(&Sort::ManyTests),
            zero + above
        )?;
        for most in MAXIMA {
            let times = self.times(&Sort::Maximum { most });
            write!(out, " {most}: {times}")?;
        }
        write!(out, "; sizes")?;
        for table in SIZES {
            let times = self.times(&Sort::Size { table });
            write!(out, " {table}: {times}")?;
        }
        let (came, times) = self.came(sets_of_faults());
        write!(
            out,
            "; {came} of {FAULT_SETS} sets of faults in {times} calls"
        )
    }
}

#[cfg(test)]
mod tests {
    use super::*;
    use crate::below_frames::Side;
    use crate::decode::{decode_table_below, table_of_columns, REPORT_BYTES};
    use crate::frames::frame_s;
    use crate::soft::CEILING;

    fn call(columns: &Columns, threshold: u16, most: u64) -> BelowCall {
        BelowCall {
            kind: BelowKind::Frame,
            rate: 39,
            table: table_of_columns(columns),
            threshold,
            most,
            message: 39,
            report: REPORT_BYTES,
            edge: None,
            faults: 0,
        }
    }

    fn slip(slip: Slip, told: Told) -> Sort {
        let rate = 39;
        Sort::Slip { rate, slip, told }
    }

    /// The bench sheet's S(7): the seven wrong places have gap 30, and the others gap 40.
    #[test]
    fn answers_count_by_their_list() {
        let (rate, kind, number) = (39, BelowKind::Frame, 0);
        let found = |threshold, most| {
            let call = call(&frame_s(7), threshold, most);
            let (mut message, mut report) = ([0; 39], [0; REPORT_BYTES]);
            let table = &call.table;
            decode_table_below(rate, table, threshold, most, &mut message, &mut report).unwrap();
            let mut sorts = sorts(&call, number, &message, &report);
            assert_eq!(sorts.remove(0), Sort::Returned { kind, number });
            sorts
        };
        let end = End::Threshold;
        assert_eq!(
            found(30, 2),
            [
                slip(Slip::Inclusive, Told::Otherwise),
                slip(Slip::NoneOnAClearLink, Told::Found),
                slip(Slip::NoThreshold, Told::Otherwise),
                Sort::Most { rate, most: 2 },
                Sort::Threshold {
                    rate,
                    threshold: 30
                },
                Sort::Chosen {
                    rate,
                    count: 1,
                    end
                },
                Sort::TieAtThreshold { rate },
            ]
        );
        let end = End::Maximum;
        let sorts = found(31, 2);
        assert!(sorts.contains(&Sort::Chosen {
            rate,
            count: 2,
            end
        }));
        assert!(sorts.contains(&Sort::Tie { rate, most: 2 }));
        assert!(sorts.contains(&slip(Slip::BesideTheFirst, Told::Otherwise)));
        assert!(!sorts.contains(&Sort::TieAtThreshold { rate }));
        let end = End::Threshold;
        let count = 7;
        assert!(found(40, 8).contains(&Sort::Chosen { rate, count, end }));
    }

    #[test]
    fn pinned_seconds_count_where_they_are_chosen_or_not() {
        let mut columns = frame_s(0);
        for column in &mut columns {
            *column = [CEILING; 16];
            column[0] = 0;
        }
        let rate = 39;
        let pinned = |columns: &Columns, threshold| {
            let sorts = of_the_list(&call(columns, threshold, 3), columns);
            [true, false].map(|first| sorts.contains(&Sort::Pinned { rate, first }))
        };
        assert_eq!(pinned(&columns, 0), [true, false]);
        assert_eq!(pinned(&columns, CEILING), [true, true]);
        columns[9][4] = CEILING - 1;
        assert_eq!(pinned(&columns, CEILING), [false, true]);
        assert_eq!(pinned(&columns, CEILING - 1), [false, false]);
    }

    #[test]
    fn refused_calls_count_by_their_faults() {
        let sorts = |size, most, faults, number| {
            let mut call = call(&[[7; 16]; PLACES], 5, most);
            call.kind = BelowKind::Refused;
            call.table.resize(size, 0);
            call.faults = faults;
            let mut sorts = sorts(&call, number, &[], &[]);
            assert_eq!(sorts.remove(0), {
                let kind = BelowKind::Refused;
                Sort::Returned { kind, number }
            });
            sorts
        };
        let size = Sort::Size { table: 2047 };
        assert_eq!(sorts(2047, 1, 0b10010, 2), [Sort::Faults { set: 18 }, size]);
        assert_eq!(sorts(2047, 1, 0b110, 2), [Sort::Faults { set: 6 }]);
        assert_eq!(sorts(2047, 1, 0b11, 2), [size]);
        let most = Sort::Maximum { most: 0 };
        assert_eq!(sorts(2048, 0, 0b10000, 4), [Sort::Faults { set: 16 }, most]);
        let rate = 39;
        assert_eq!(
            sorts(2048, 1, 0b1100000, 12),
            [
                Sort::Faults { set: 96 },
                Sort::Open { rate, open: 0 },
                Sort::Blank { rate, blanks: 14 }
            ]
        );
    }

    #[test]
    fn edges_count_where_they_decide() {
        let edge = Edge {
            rate: 39,
            most: 3,
            rank: 2,
            side: Side::OneBelow,
        };
        let mut call = call(&[[7; 16]; PLACES], 5, 3);
        call.edge = Some(edge);
        assert!(!sorts(&call, 12, &[], &[]).contains(&Sort::Edge(edge)));
        call.table = table_of_columns(&frame_s(0));
        let report = [0; REPORT_BYTES];
        assert!(sorts(&call, 0, &[0; 39], &report).contains(&Sort::Edge(edge)));
        assert!(!sorts(&call, 9, &[0; 39], &report).contains(&Sort::Edge(edge)));
    }

    /// Each sort that is missing is named.
    #[test]
    fn every_sort_is_wanted() {
        let wanted = wanted();
        let full = BelowCounts(wanted.iter().map(|sort| (*sort, 1)).collect());
        assert_eq!((full.0.len(), full.check()), (wanted.len(), Ok(())));
        for sort in &wanted {
            let mut few = full.clone();
            few.0.remove(sort);
            let line = few.check().unwrap_err();
            let named = format!("1 of {} sorts are missing ({sort:?}): ", wanted.len());
            assert!(line.starts_with(&named), "{line}");
        }
        assert!(BelowCounts::default().check().is_err());
        let mut sum = full.clone();
        sum.add(full);
        assert_eq!(sum.times(&slip(Slip::Inclusive, Told::Lost)), 2);
        assert!(sum.to_string().starts_with(
            "thresholds: 4 Edge, 6 Frame, 4 Pinned, 4 Few, 4 Noise, 12 Refused; 540 of 540 edges, 1080 \
             times; told from the wrong rules Inclusive: 8"
        ));
    }
}
