//! What is tried where decoding from bit values is compared, and how often.
//!
//! - [`Sort`]: one thing that is counted; a call may be several of them.
//! - [`BitCounts`]: the counts; [`BitCounts::check`] fails where a sort is missing.

use std::collections::BTreeMap;
use std::fmt;

use crate::bit_frames::{BitCall, BitKind, BIT_KINDS, DOUBTS, SIZES};
use crate::bits::{columns_of_bits, BITS, FRAME_VALUES, MOST_COST, SENT};
use crate::code::Code;
use crate::decode::margin_of;
use crate::faults::{first_fault, Fault, FAULT_SETS};
use crate::frames::{blank_limit, RATES};
use crate::soft::{blank_places, DOUBT_LIMIT};

/// What is counted.
#[derive(Clone, Copy, Debug, PartialEq, Eq, PartialOrd, Ord)]
pub enum Sort {
    /// A call of a kind that returned this number.
    Returned { kind: BitKind, number: u8 },
    /// A value at a position, from 0 for the highest bit, whose magnitude is in the total of an answer,
    /// or a zero in a frame that is answered; beside three zeros or others.
    Value {
        rate: u64,
        beside_zeros: bool,
        position: usize,
        value: i8,
    },
    /// An answer with this doubt.
    Doubt { rate: u64, doubt: u64 },
    /// An answer with more than 255 test words near.
    ManyTests,
    /// This doubt, refused with 4.
    TooLarge { doubt: u64 },
    /// So many blank places: an answer, or, where they are too many, a frame refused with 12.
    Blank { rate: u64, blanks: usize },
    /// A frame of one value everywhere that is answered, or, of zeros, refused with 12.
    Everywhere { rate: u64, value: i8 },
    /// An answer that costs 512 at a place.
    MostCost { rate: u64 },
    /// An answer with a margin, of zero or above.
    Margin { zero: bool },
    /// So many values, refused with 2 where no other size is wrong.
    Size { values: usize },
    /// These faults, refused by the first of them or, if there are none, answered.
    Faults { set: usize },
}

/// The numbers that come of each kind.
const RETURNED: [(BitKind, &[u8]); 9] = [
    (BitKind::Probe, &[0]),
    (BitKind::Noise, &[0, 9]),
    (BitKind::Faded, &[0, 12]),
    (BitKind::Level, &[0, 9]),
    (BitKind::Extreme, &[0, 9, 12]),
    (BitKind::Sparse, &[0, 9]),
    (BitKind::Pair, &[0]),
    (BitKind::Random, &[9]),
    (BitKind::Refused, &[0, 1, 2, 4, 9, 12]),
];

/// Every sort of value.
fn values() -> impl Iterator<Item = Sort> {
    RATES.into_iter().flat_map(|rate| {
        [true, false].into_iter().flat_map(move |beside_zeros| {
            (0..BITS).flat_map(move |position| {
                (i8::MIN..=i8::MAX).map(move |value| Sort::Value {
                    rate,
                    beside_zeros,
                    position,
                    value,
                })
            })
        })
    })
}

/// The numbers of blank places at a rate, from one to one too many.
fn blanks(rate: u64) -> impl Iterator<Item = Sort> {
    (1..=blank_limit(rate) + 1).map(move |blanks| Sort::Blank { rate, blanks })
}

fn sets_of_faults() -> impl Iterator<Item = Sort> {
    (0..FAULT_SETS).map(|set| Sort::Faults { set })
}

/// Every sort that a comparison has to try.
fn wanted() -> Vec<Sort> {
    let mut wanted: Vec<Sort> = values().chain(sets_of_faults()).collect();
    for (kind, numbers) in RETURNED {
        wanted.extend(numbers.iter().map(|number| Sort::Returned {
            kind,
            number: *number,
        }));
    }
    for rate in RATES {
        wanted.extend((0..=DOUBT_LIMIT as u64).map(|doubt| Sort::Doubt { rate, doubt }));
        wanted.extend(blanks(rate));
        wanted.extend([-128, 0, 127].map(|value| Sort::Everywhere { rate, value }));
        wanted.push(Sort::MostCost { rate });
    }
    wanted.extend([true, false].map(|zero| Sort::Margin { zero }));
    wanted.push(Sort::ManyTests);
    wanted.extend(DOUBTS.map(|doubt| Sort::TooLarge { doubt }));
    wanted.extend(SIZES.map(|values| Sort::Size { values }));
    wanted
}

/// What a call is, by the number that it returned and the buffers afterwards.
fn sorts(call: &BitCall, number: u8, message: &[u8], report: &[u8]) -> Vec<Sort> {
    let (kind, rate) = (call.kind, call.rate);
    let mut sorts = vec![Sort::Returned { kind, number }];
    if kind == BitKind::Refused {
        if number == first_fault(call.faults) {
            let set = usize::from(call.faults);
            sorts.push(Sort::Faults { set });
        }
        let other_size = call.has(Fault::Message) || call.has(Fault::Report);
        if number == 2 && !other_size {
            let values = call.values.len();
            sorts.push(Sort::Size { values });
        }
    }
    if number == 4 {
        let doubt = call.doubt;
        sorts.push(Sort::TooLarge { doubt });
    }
    if call.values.len() != FRAME_VALUES || ![0, 12].contains(&number) {
        return sorts;
    }
    let columns = columns_of_bits(&call.values);
    let blanks = blank_places(&columns).len();
    if blanks > 0 && (number == 12) == (blanks > blank_limit(rate)) {
        let blanks = blanks.min(blank_limit(rate) + 1);
        sorts.push(Sort::Blank { rate, blanks });
    }
    let value = call.values[0];
    if call.values.iter().all(|other| *other == value) {
        sorts.push(Sort::Everywhere { rate, value });
    }
    if number != 0 {
        return sorts;
    }
    let doubt = call.doubt;
    sorts.push(Sort::Doubt { rate, doubt });
    if report[4] > 0 {
        sorts.push(Sort::ManyTests);
    }
    if let Some(margin) = margin_of(report) {
        let zero = margin == 0;
        sorts.push(Sort::Margin { zero });
    }
    let code = Code::of_rate(rate).expect("a known rate");
    let symbols = code.codeword(message).elements();
    for ((four, column), symbol) in call.values.chunks(BITS).zip(columns).zip(symbols) {
        let symbol = usize::from(symbol);
        if column[symbol] == MOST_COST {
            sorts.push(Sort::MostCost { rate });
        }
        for (position, value) in four.iter().copied().enumerate() {
            if SENT[symbol][position] * i16::from(value) > 0 {
                continue;
            }
            let zeros = four.iter().filter(|value| **value == 0).count();
            sorts.push(Sort::Value {
                rate,
                beside_zeros: zeros - usize::from(value == 0) == BITS - 1,
                position,
                value,
            });
        }
    }
    sorts
}

/// The counts.
#[derive(Clone, Debug, Default, PartialEq, Eq)]
pub struct BitCounts(BTreeMap<Sort, u64>);

impl BitCounts {
    /// Counts a call that returned this number, by the buffers afterwards.
    pub fn count(&mut self, call: &BitCall, number: u8, message: &[u8], report: &[u8]) {
        for sort in sorts(call, number, message, report) {
            *self.0.entry(sort).or_default() += 1;
        }
    }

    pub fn add(&mut self, other: BitCounts) {
        for (sort, times) in other.0 {
            *self.0.entry(sort).or_default() += times;
        }
    }

    fn times(&self, sort: &Sort) -> u64 {
        self.0.get(sort).copied().unwrap_or(0)
    }

    /// How many of these sorts came, and how often all of them together.
    fn came(&self, sorts: impl Iterator<Item = Sort>) -> (usize, u64) {
        let times = sorts.map(|sort| self.times(&sort));
        let came = times.filter(|times| *times > 0);
        came.fold((0, 0), |(sorts, sum), times| (sorts + 1, sum + times))
    }

    /// The calls of a kind.
    fn calls(&self, kind: BitKind) -> u64 {
        let numbers = (0..=u8::MAX).map(|number| Sort::Returned { kind, number });
        self.came(numbers).1
    }

    /// A line that names the sorts that did not come.
    pub fn check(&self) -> Result<(), String> {
        let wanted = wanted();
        let missing: Vec<&Sort> = wanted.iter().filter(|s| self.times(s) == 0).collect();
        if missing.is_empty() {
            return Ok(());
        }
        let first: Vec<String> = missing.iter().take(5).map(|s| format!("{s:?}")).collect();
        Err(format!(
            "{} of {} sorts are missing ({}): {self}",
            missing.len(),
            wanted.len(),
            first.join(", ")
        ))
    }
}

impl fmt::Display for BitCounts {
    fn fmt(&self, out: &mut fmt::Formatter) -> fmt::Result {
        let kinds = [BitKind::Probe].into_iter().chain(BIT_KINDS);
        let kinds: Vec<String> = kinds
            .map(|kind| format!("{} {kind:?}", self.calls(kind)))
            .collect();
        let (came, times) = self.came(values());
        write!(
            out,
            "bit values: {}; {came} of {} values at a rate and position, beside zeros and beside \
             others, {times} times in answers",
            kinds.join(", "),
            values().count()
        )?;
        for rate in RATES {
            let numbers: Vec<String> = blanks(rate)
                .map(|sort| self.times(&sort).to_string())
                .collect();
            let numbers = numbers.join(" ");
            write!(out, "; by their blank places at rate {rate} {numbers}")?;
        }
        for rate in RATES {
            let doubts = (0..=DOUBT_LIMIT as u64).map(|doubt| Sort::Doubt { rate, doubt });
            let numbers: Vec<String> = doubts.map(|sort| self.times(&sort).to_string()).collect();
            let numbers = numbers.join(" ");
            write!(out, "; answers by doubt at rate {rate} {numbers}")?;
        }
        let many = self.times(&Sort::ManyTests);
        write!(out, "; {many} with more than 255 test words near; doubts")?;
        for doubt in DOUBTS {
            let times = self.times(&Sort::TooLarge { doubt });
            write!(out, " {doubt}: {times}")?;
        }
        for value in [-128, 0, 127] {
            let everywhere = RATES.map(|rate| Sort::Everywhere { rate, value });
            let times = self.came(everywhere.into_iter()).1;
            write!(out, "; {value} everywhere {times}")?;
        }
        let dearest = RATES.map(|rate| Sort::MostCost { rate });
        let dearest = self.came(dearest.into_iter()).1;
        let [zero, above] = [true, false].map(|zero| self.times(&Sort::Margin { zero }));
        write!(
            out,
            "; {dearest} places of cost {MOST_COST}; {} with a margin, {zero} of them zero; sizes",
            zero + above
        )?;
        for values in SIZES {
            let times = self.times(&Sort::Size { values });
            write!(out, " {values}: {times}")?;
        }
        let (came, times) = self.came(sets_of_faults());
        write!(
            out,
            "; {came} of {FAULT_SETS} sets of faults in {times} calls"
        )
    }
}

#[cfg(test)]
mod tests {
    use super::*;
    use crate::decode::REPORT_BYTES;

    fn call(kind: BitKind, values: Vec<i8>, faults: u8) -> BitCall {
        BitCall {
            kind,
            rate: 49,
            values,
            doubt: 2,
            message: 49,
            report: REPORT_BYTES,
            faults,
        }
    }

    fn value(beside_zeros: bool, position: usize, value: i8) -> Sort {
        Sort::Value {
            rate: 49,
            beside_zeros,
            position,
            value,
        }
    }

    /// The zero word is the answer: only values below zero, and zeros, count.
    #[test]
    fn values_count_by_what_is_beside_them() {
        let mut values = vec![7; FRAME_VALUES];
        values[..4].copy_from_slice(&[-128; 4]);
        values[4..8].copy_from_slice(&[0, 0, -3, 0]);
        values[8..12].copy_from_slice(&[0; 4]);
        values[12..16].copy_from_slice(&[5, -6, 5, 0]);
        let sorts = sorts(
            &call(BitKind::Random, values, 0),
            0,
            &[0; 49],
            &[0; REPORT_BYTES],
        );
        let (rate, kind) = (49, BitKind::Random);
        let mut expected = vec![
            Sort::Returned { kind, number: 0 },
            Sort::Blank { rate, blanks: 1 },
            Sort::Doubt { rate, doubt: 2 },
            Sort::MostCost { rate },
        ];
        expected.extend((0..4).map(|position| value(false, position, -128)));
        expected.extend([0, 1].map(|position| value(false, position, 0)));
        expected.extend([value(true, 2, -3), value(false, 3, 0)]);
        expected.extend((0..4).map(|position| value(true, position, 0)));
        expected.extend([value(false, 1, -6), value(false, 3, 0)]);
        assert_eq!(sorts, expected);
    }

    #[test]
    fn refused_calls_count_by_their_faults() {
        let sorts = |values, faults, number| {
            let call = call(BitKind::Refused, vec![0; values], faults);
            let mut sorts = sorts(&call, number, &[], &[]);
            assert_eq!(sorts.remove(0), {
                let kind = BitKind::Refused;
                Sort::Returned { kind, number }
            });
            sorts
        };
        let size = Sort::Size { values: 255 };
        assert_eq!(sorts(255, 0b10010, 2), [Sort::Faults { set: 18 }, size]);
        assert_eq!(sorts(255, 0b110, 2), [Sort::Faults { set: 6 }]);
        assert_eq!(sorts(255, 0b11, 1), [Sort::Faults { set: 3 }]);
        assert_eq!(sorts(255, 0b11, 2), [size]);
        let (rate, value) = (49, 0);
        assert_eq!(
            sorts(256, 0b1100000, 12),
            [
                Sort::Faults { set: 96 },
                Sort::Blank { rate, blanks: 4 },
                Sort::Everywhere { rate, value }
            ]
        );
    }

    /// Each sort that is missing is named.
    #[test]
    fn every_sort_is_wanted() {
        let wanted = wanted();
        let full = BitCounts(wanted.iter().map(|sort| (*sort, 1)).collect());
        assert_eq!((full.0.len(), full.check()), (wanted.len(), Ok(())));
        let (values, others) = wanted.split_at(values().count());
        for sort in others.iter().chain(values.iter().step_by(61)) {
            let mut few = full.clone();
            few.0.remove(sort);
            let line = few.check().unwrap_err();
            let named = format!("1 of {} sorts are missing ({sort:?}): ", wanted.len());
            assert!(line.starts_with(&named), "{line}");
        }
        assert!(BitCounts::default().check().is_err());
        let mut sum = full.clone();
        sum.add(full);
        assert_eq!(sum.times(&value(true, 3, -128)), 2);
        assert!(sum.to_string().starts_with(
            "bit values: 2 Probe, 4 Noise, 4 Faded, 4 Level, 6 Extreme, 4 Sparse, 2 Pair, 2 Random, \
             12 Refused; 4096 of 4096 values at a rate and position, beside zeros and beside others, \
             8192 times in answers; by their blank places at rate 39 2 2"
        ));
    }
}
