//! Captures as the firmware's three calls take them: decoded, put into place order, made from a table.
//!
//! - [`Captures`]: the three calls, of one library or another; [`REFERENCE_CAPTURES`]: this package's.
//!   A capture is sorted and made as bytes, records of 33 moved as they are; a session only says whether
//!   one is accepted, and closes it.
//! - [`WholeCall`]: a call, made from a seed and a number: captures of frames at rates 39 and 49 and at any
//!   rate, in every sort of order, with every fault, lists and tables with faults, and buffers of other sizes.
//! - [`WHOLE_SLIPS`]: libraries with a wrong rule each.
//! - [`compare_captures`]: both libraries on calls 0 to `count` − 1, and [`WholeCounts`], what came of them.

use std::fmt;
use std::thread;

use crate::arrivals::Arrival;
use crate::capture::{open_capture, version_of, DOUBTFUL_START, LARGEST, RECORD_BYTES, SMALLEST};
use crate::code::{check_size, Code, LEAST_RATE, MOST_RATE, RATE_COUNT};
use crate::curve::PLACES;
use crate::damage::{any_bytes, capture_of, damaged};
use crate::decode::{columns_of_table, table_of_columns, REPORT_BYTES, TABLE_BYTES};
use crate::frames::{frame, some_places, unknown_rate, Frame, Kind};
use crate::random::Random;
use crate::refusal::{number, Refusal};
use crate::session::{check_doubtful, Session};
use crate::soft::{doubtful_places, COLUMN_BYTES, DOUBT_LIMIT};
use crate::versions::spoilt;

/// The calls on whole captures, as the firmware makes them.
pub struct Captures {
    /// Capture, message, report.
    pub decode: fn(&[u8], &mut [u8], &mut [u8]) -> u8,
    /// Capture, buffer.
    pub sort: fn(&[u8], &mut [u8]) -> u8,
    /// Rate, doubtful list, table, buffer.
    pub make: fn(u64, &[u8], &[u8], &mut [u8]) -> u8,
}

/// This package's.
pub const REFERENCE_CAPTURES: Captures = Captures {
    decode: |capture, message, report| {
        number(&open_capture(capture).and_then(|session| session.close(message, report)))
    },
    sort: |capture, out| number(&sorted(capture).and_then(|bytes| fill(&bytes, out))),
    make: |rate, doubtful, table, out| {
        number(&made(rate, doubtful, table).and_then(|bytes| fill(&bytes, out)))
    },
};

fn fill(bytes: &[u8], out: &mut [u8]) -> Result<(), Refusal> {
    check_size(out, bytes.len())?;
    out.copy_from_slice(bytes);
    Ok(())
}

/// An accepted capture with its records, whole, sorted by their first byte.
fn sorted(capture: &[u8]) -> Result<Vec<u8>, Refusal> {
    open_capture(capture)?;
    let (head, records) = capture.split_at(capture.len() - PLACES * RECORD_BYTES);
    let mut records: Vec<&[u8]> = records.chunks_exact(RECORD_BYTES).collect();
    records.sort_by_key(|record| record[0]);
    Ok([head, &records.concat()].concat())
}

/// The head, and the table's columns as they are, each behind its place. Rate and list come first, as in
/// opening, then the table, from which the columns are delivered.
fn made(rate: u64, doubtful: &[u8], table: &[u8]) -> Result<Vec<u8>, Refusal> {
    Code::of_rate(rate)?;
    check_doubtful(doubtful)?;
    check_size(table, TABLE_BYTES)?;
    let length = (SMALLEST + doubtful.len() - 3) as u16;
    let mut bytes = vec![version_of(doubtful.len())];
    bytes.extend(length.to_be_bytes());
    bytes.extend([rate as u8, doubtful.len() as u8]);
    bytes.extend(doubtful);
    for (place, column) in table.chunks_exact(COLUMN_BYTES).enumerate() {
        bytes.push(place as u8);
        bytes.extend(column);
    }
    Ok(bytes)
}

/// A call, and its lent buffers as they are before it.
#[derive(Clone, Debug, PartialEq, Eq)]
pub enum WholeCall {
    Decode {
        capture: Vec<u8>,
        message: Vec<u8>,
        report: Vec<u8>,
    },
    Sort {
        capture: Vec<u8>,
        out: Vec<u8>,
    },
    Make {
        rate: u64,
        doubtful: Vec<u8>,
        table: Vec<u8>,
        out: Vec<u8>,
        /// The number of the first fault that it is made with, 0 without one.
        expected: u8,
    },
}

/// What a call returned, and its lent buffers afterwards.
pub type WholeAnswer = (u8, Vec<u8>, Vec<u8>);

/// How many calls there are of each sort before they repeat.
const CALLS: u64 = 3;

impl WholeCall {
    pub fn numbered(seed: u64, number: u64) -> WholeCall {
        let mut random = Random::new(seed, number);
        let turn = number / CALLS;
        match number % CALLS {
            0 => decode_call(turn, &mut random),
            1 => sort_call(turn, &mut random),
            _ => make_call(turn, &mut random),
        }
    }

    pub fn answer(&self, library: &Captures) -> WholeAnswer {
        match self {
            WholeCall::Decode {
                capture,
                message,
                report,
            } => {
                let (mut message, mut report) = (message.clone(), report.clone());
                let number = (library.decode)(capture, &mut message, &mut report);
                (number, message, report)
            }
            WholeCall::Sort { capture, out } => {
                let mut out = out.clone();
                let number = (library.sort)(capture, &mut out);
                (number, out, Vec::new())
            }
            WholeCall::Make {
                rate,
                doubtful,
                table,
                out,
                ..
            } => {
                let mut out = out.clone();
                let number = (library.make)(*rate, doubtful, table, &mut out);
                (number, out, Vec::new())
            }
        }
    }

    fn sort(&self) -> usize {
        match self {
            WholeCall::Decode { .. } => 0,
            WholeCall::Sort { .. } => 1,
            WholeCall::Make { .. } => 2,
        }
    }

    /// The rate and the number of doubtful places that it names.
    fn named(&self) -> Option<(u64, usize)> {
        match self {
            WholeCall::Decode { capture, .. } | WholeCall::Sort { capture, .. } => {
                Some((u64::from(*capture.get(3)?), usize::from(*capture.get(4)?)))
            }
            WholeCall::Make { rate, doubtful, .. } => Some((*rate, doubtful.len())),
        }
    }
}

/// A buffer with something in it.
fn buffer(size: usize, random: &mut Random) -> Vec<u8> {
    (0..size).map(|_| random.number() as u8).collect()
}

/// Another size than the one wanted.
fn other_size(wanted: usize, random: &mut Random) -> usize {
    let sizes = [
        0,
        1,
        wanted.wrapping_sub(1),
        wanted + 1,
        2 * wanted,
        14,
        39,
        64,
        SMALLEST,
        LARGEST,
    ];
    let others: Vec<usize> = sizes
        .into_iter()
        .filter(|size| *size != wanted && *size < 5000)
        .collect();
    random.one_of(&others)
}

fn sized(wanted: usize, wrong: bool, random: &mut Random) -> Vec<u8> {
    let size = if wrong {
        other_size(wanted, random)
    } else {
        wanted
    };
    buffer(size, random)
}

/// Every second frame is one of those at rates 39 and 49, of all kinds; the others go round all rates and doubts.
fn some_frame(turn: u64, random: &mut Random) -> Frame {
    if turn % 2 == 0 {
        return Frame::numbered(random.number(), turn / 2);
    }
    let round = (turn / 2) as usize;
    let rate = LEAST_RATE + (round % RATE_COUNT) as u64;
    let kind = [Kind::Valid, Kind::Wrong, Kind::Beyond][round / RATE_COUNT % 3];
    frame(kind, rate, round % (DOUBT_LIMIT + 1), random)
}

/// A capture in any order: as it is, with a fault of either version, damaged, or bytes that are none.
fn some_capture(turn: u64, random: &mut Random) -> Vec<u8> {
    let frame = some_frame(turn / 2, random);
    let places = Arrival::numbered(turn).places(random);
    let capture = capture_of(&frame, &places);
    if turn % 2 == 0 {
        return capture;
    }
    match turn / 2 % 8 {
        0..=4 => spoilt(&frame, &places, turn / 16 * 5 + turn / 2 % 8, random),
        5 | 6 => damaged(&capture, random),
        _ => any_bytes(random),
    }
}

fn decode_call(turn: u64, random: &mut Random) -> WholeCall {
    let capture = some_capture(turn, random);
    let rate = usize::from(capture.get(3).copied().unwrap_or(39));
    WholeCall::Decode {
        message: sized(rate, random.once_in(8), random),
        report: sized(REPORT_BYTES, random.once_in(8), random),
        capture,
    }
}

fn sort_call(turn: u64, random: &mut Random) -> WholeCall {
    let capture = some_capture(turn, random);
    WholeCall::Sort {
        out: sized(capture.len(), random.once_in(5), random),
        capture,
    }
}

/// All sets of four faults in turn, three of eight without one.
fn make_call(turn: u64, random: &mut Random) -> WholeCall {
    let sets = turn % 24;
    let faults = if sets < 16 { sets } else { 0 };
    let has = |fault: u64| faults >> fault & 1 == 1;
    let frame = some_frame(turn / 24 * 2 + turn % 2, random);
    let rate = if has(0) {
        unknown_rate(u64::MAX, random)
    } else {
        frame.rate
    };
    let doubtful = if has(1) {
        unfit_list(random)
    } else {
        frame.doubtful.clone()
    };
    let mut table = table_of_columns(&frame.columns);
    if has(2) {
        table = sized(TABLE_BYTES, true, random);
    }
    let numbers = [Refusal::Rate, Refusal::Doubt, Refusal::Size, Refusal::Size];
    let first = (0..4).find(|fault| has(*fault));
    WholeCall::Make {
        rate,
        out: sized(SMALLEST + doubtful.len(), has(3), random),
        doubtful,
        table,
        expected: first.map_or(0, |fault| numbers[fault as usize].number()),
    }
}

fn unfit_list(random: &mut Random) -> Vec<u8> {
    let mut list = some_places(random.between(2, DOUBT_LIMIT), random);
    let at = random.between(1, list.len() - 1);
    match random.below(4) {
        0 => list = some_places(random.one_of(&[13, 14, 20, 64]), random),
        1 => list[at] = list[at - 1],
        2 => list.swap(at, at - 1),
        _ => *list.last_mut().expect("two places or more") = random.one_of(&[64, 65, 128, 255]),
    }
    list
}

/// A wrong rule: what it is, and the library that has it.
pub type WholeSlip = (&'static str, Captures);

/// What decodes where a list of its own, and the places as they stand, are taken.
fn decode_otherwise(
    capture: &[u8],
    message: &mut [u8],
    report: &mut [u8],
    listed: bool,
    placed: bool,
) -> u8 {
    let Ok(session) = open_capture(capture) else {
        return (REFERENCE_CAPTURES.decode)(capture, message, report);
    };
    let doubtful = if listed {
        session.doubtful().to_vec()
    } else {
        Vec::new()
    };
    let mut other = Session::open(session.rate(), &doubtful).expect("as accepted");
    for (at, (place, column)) in session.row().iter().enumerate() {
        let place = if placed { u64::from(*place) } else { at as u64 };
        other.deliver(place, *column).expect("a free place");
    }
    number(&other.close(message, report))
}

pub const WHOLE_SLIPS: [WholeSlip; 12] = [
    (
        "decoded without doubt",
        Captures {
            decode: |capture, message, report| {
                decode_otherwise(capture, message, report, false, true)
            },
            ..REFERENCE_CAPTURES
        },
    ),
    (
        "records read by position",
        Captures {
            decode: |capture, message, report| {
                decode_otherwise(capture, message, report, true, false)
            },
            ..REFERENCE_CAPTURES
        },
    ),
    (
        "sizes before the capture",
        Captures {
            decode: |capture, message, report| {
                let rate = capture.get(3).copied().unwrap_or(39);
                if message.len() != usize::from(rate) || report.len() != REPORT_BYTES {
                    return Refusal::Size.number();
                }
                (REFERENCE_CAPTURES.decode)(capture, message, report)
            },
            ..REFERENCE_CAPTURES
        },
    ),
    (
        "a message buffer of 52 bytes for every rate",
        Captures {
            decode: |capture, message, report| match open_capture(capture) {
                Ok(session) if message.len() == MOST_RATE as usize => {
                    number(&session.close(&mut message[..session.rate() as usize], report))
                }
                Ok(_) => Refusal::Size.number(),
                Err(refusal) => refusal.number(),
            },
            ..REFERENCE_CAPTURES
        },
    ),
    (
        "message cleared where refused",
        Captures {
            decode: |capture, message, report| {
                let number = (REFERENCE_CAPTURES.decode)(capture, message, report);
                if number != 0 {
                    message.fill(0);
                }
                number
            },
            ..REFERENCE_CAPTURES
        },
    ),
    (
        "copied and not sorted",
        Captures {
            sort: |capture, out| number(&open_capture(capture).and_then(|_| fill(capture, out))),
            ..REFERENCE_CAPTURES
        },
    ),
    (
        "sorted falling",
        Captures {
            sort: |capture, out| {
                let number = (REFERENCE_CAPTURES.sort)(capture, out);
                if number == 0 {
                    let from = out.len() - PLACES * RECORD_BYTES;
                    let falling: Vec<u8> = out[from..]
                        .rchunks(RECORD_BYTES)
                        .flatten()
                        .copied()
                        .collect();
                    out[from..].copy_from_slice(&falling);
                }
                number
            },
            ..REFERENCE_CAPTURES
        },
    ),
    (
        "a longer buffer taken",
        Captures {
            sort: |capture, out| match sorted(capture) {
                Ok(bytes) if bytes.len() <= out.len() => {
                    out[..bytes.len()].copy_from_slice(&bytes);
                    0
                }
                other => number(&other.and_then(|bytes| fill(&bytes, out))),
            },
            ..REFERENCE_CAPTURES
        },
    ),
    (
        "the list before the rate",
        Captures {
            make: |rate, doubtful, table, out| match check_doubtful(doubtful) {
                Err(refusal) => refusal.number(),
                Ok(()) => (REFERENCE_CAPTURES.make)(rate, doubtful, table, out),
            },
            ..REFERENCE_CAPTURES
        },
    ),
    (
        "sizes before the list",
        Captures {
            make: |rate, doubtful, table, out| {
                let sized = table.len() == TABLE_BYTES && out.len() == SMALLEST + doubtful.len();
                if Code::of_rate(rate).is_ok() && !sized {
                    return Refusal::Size.number();
                }
                (REFERENCE_CAPTURES.make)(rate, doubtful, table, out)
            },
            ..REFERENCE_CAPTURES
        },
    ),
    (
        "made with version 1 always",
        Captures {
            make: |rate, doubtful, table, out| {
                let number = (REFERENCE_CAPTURES.make)(rate, doubtful, table, out);
                if number == 0 {
                    out[0] = 1;
                }
                number
            },
            ..REFERENCE_CAPTURES
        },
    ),
    (
        "made with the places that the table would pick",
        Captures {
            make: |rate, doubtful, table, out| {
                let number = (REFERENCE_CAPTURES.make)(rate, doubtful, table, out);
                if number == 0 {
                    let picked = doubtful_places(&columns_of_table(table), doubtful.len());
                    for (at, place) in picked.into_iter().enumerate() {
                        out[DOUBTFUL_START + at] = place;
                    }
                }
                number
            },
            ..REFERENCE_CAPTURES
        },
    ),
];

/// What came how often.
#[derive(Clone, Debug)]
pub struct WholeCounts {
    calls: u64,
    numbers: [[u64; 15]; CALLS as usize],
    rates: [[u64; RATE_COUNT]; CALLS as usize],
    doubts: [[u64; DOUBT_LIMIT + 1]; CALLS as usize],
    /// Sorted captures that were in place order, and that were not.
    kept: u64,
    moved: u64,
    slips: [u64; WHOLE_SLIPS.len()],
}

/// The numbers that each call has to come to.
const WANTED: [&[usize]; CALLS as usize] = [
    &[0, 1, 2, 4, 5, 6, 9, 10, 11, 12],
    &[0, 1, 2, 4, 5, 6, 10, 11],
    &[0, 1, 2, 4],
];

impl WholeCounts {
    fn new() -> WholeCounts {
        WholeCounts {
            calls: 0,
            numbers: [[0; 15]; CALLS as usize],
            rates: [[0; RATE_COUNT]; CALLS as usize],
            doubts: [[0; DOUBT_LIMIT + 1]; CALLS as usize],
            kept: 0,
            moved: 0,
            slips: [0; WHOLE_SLIPS.len()],
        }
    }

    fn count(&mut self, call: &WholeCall, answer: &WholeAnswer) {
        let sort = call.sort();
        self.calls += 1;
        self.numbers[sort][usize::from(answer.0)] += 1;
        if answer.0 == 0 {
            let (rate, doubt) = call.named().expect("an accepted call names them");
            self.rates[sort][(rate - LEAST_RATE) as usize] += 1;
            self.doubts[sort][doubt] += 1;
        }
        if let (WholeCall::Sort { capture, .. }, 0) = (call, answer.0) {
            match answer.1 == *capture {
                true => self.kept += 1,
                false => self.moved += 1,
            }
        }
        for (told, (_, slip)) in self.slips.iter_mut().zip(&WHOLE_SLIPS) {
            *told += u64::from(call.answer(slip) != *answer);
        }
    }

    fn add(&mut self, other: &WholeCounts) {
        self.calls += other.calls;
        self.kept += other.kept;
        self.moved += other.moved;
        for sort in 0..CALLS as usize {
            add_each(&mut self.numbers[sort], &other.numbers[sort]);
            add_each(&mut self.rates[sort], &other.rates[sort]);
            add_each(&mut self.doubts[sort], &other.doubts[sort]);
        }
        add_each(&mut self.slips, &other.slips);
    }

    /// Every number, rate and doubt of each call, captures in place order and in others, and each wrong rule.
    pub fn check(&self) -> Result<(), String> {
        for (sort, wanted) in WANTED.into_iter().enumerate() {
            let few = |number: &usize| self.numbers[sort][*number] < 10;
            if wanted.iter().any(few)
                || self.rates[sort].contains(&0)
                || self.doubts[sort].contains(&0)
            {
                return Err(format!("a sort of call {sort} is missing"));
            }
        }
        if self.kept < 20 || self.moved < 20 {
            return Err("too few captures to sort".to_string());
        }
        match WHOLE_SLIPS
            .iter()
            .zip(self.slips)
            .find(|(_, told)| *told < 10)
        {
            Some(((name, _), told)) => Err(format!("'{name}' is told {told} times")),
            None => Ok(()),
        }
    }
}

fn add_each(sums: &mut [u64], others: &[u64]) {
    for (sum, other) in sums.iter_mut().zip(others) {
        *sum += other;
    }
}

impl fmt::Display for WholeCounts {
    fn fmt(&self, f: &mut fmt::Formatter) -> fmt::Result {
        for (name, numbers) in ["decoded", "sorted", "made"].into_iter().zip(&self.numbers) {
            write!(f, "{name}:")?;
            for (number, count) in numbers.iter().enumerate().filter(|(_, count)| **count > 0) {
                write!(f, " {number} {count} times,")?;
            }
            write!(f, " ")?;
        }
        write!(
            f,
            "{} in place order and {} not; wrong rules:",
            self.kept, self.moved
        )?;
        for ((name, _), told) in WHOLE_SLIPS.iter().zip(self.slips) {
            write!(f, " {name} {told},")?;
        }
        Ok(())
    }
}

/// Runs calls 0 to `count` − 1 of a seed on the reference and on another library: what came how often, or a
/// call whose answers differ, or that does not come to what it is made for.
pub fn compare_captures(library: &Captures, seed: u64, count: u64) -> Result<WholeCounts, String> {
    let threads = thread::available_parallelism().map_or(1, |threads| threads.get() as u64);
    let part = |first: u64| {
        let mut counts = WholeCounts::new();
        for number in (first..count).step_by(threads as usize) {
            let call = WholeCall::numbered(seed, number);
            let answer = call.answer(&REFERENCE_CAPTURES);
            if answer != call.answer(library) {
                return Err(format!("call {number} on a capture is answered otherwise"));
            }
            if let WholeCall::Make { expected, .. } = &call {
                if answer.0 != *expected {
                    return Err(format!(
                        "call {number} comes to {} and not {expected}",
                        answer.0
                    ));
                }
            }
            counts.count(&call, &answer);
        }
        Ok(counts)
    };
    thread::scope(|scope| {
        let parts: Vec<_> = (0..threads)
            .map(|first| scope.spawn(move || part(first)))
            .collect();
        let mut sum = WholeCounts::new();
        for part in parts {
            sum.add(&part.join().expect("a thread that ends")?);
        }
        Ok(sum)
    })
}

#[cfg(test)]
mod tests {
    use super::*;

    /// Each wrong rule is found, and the reference is like itself.
    #[test]
    fn wrong_rules_are_found() {
        assert!(compare_captures(&REFERENCE_CAPTURES, 70, 300).is_ok());
        for (name, slip) in &WHOLE_SLIPS {
            assert!(compare_captures(slip, 70, 3000).is_err(), "{name}");
        }
    }

    /// What is made opens as what it was made of, and is in place order.
    #[test]
    fn made_captures_open() {
        for round in 0..60 {
            let mut random = Random::new(71, round);
            let frame = some_frame(round, &mut random);
            let bytes = made(
                frame.rate,
                &frame.doubtful,
                &table_of_columns(&frame.columns),
            )
            .unwrap();
            let session = open_capture(&bytes).unwrap();
            assert_eq!(session.rate(), frame.rate);
            assert_eq!(session.doubtful(), frame.doubtful);
            assert_eq!(session.columns(), frame.columns);
            assert_eq!(sorted(&bytes).unwrap(), bytes);
        }
    }
}
