//! Random lists of calls: one frame from opening to closing, with refused calls and readings.
//!
//! - [`call_list`]: the list of a numbered frame.

use crate::arrivals::{Arrival, ARRIVALS};
use crate::calls::Call;
use crate::capture::SMALLEST;
use crate::curve::PLACES;
use crate::damage::{any_bytes, capture_of, damaged};
use crate::decode::REPORT_BYTES;
use crate::frames::{any_rate, unknown_rate, Frame};
use crate::least::INTERPOLANT_BYTES;
use crate::random::Random;
use crate::soft::Column;
use crate::versions::spoilt;

/// The sizes of an interpolant reading and of a report, and sizes beside them.
pub(crate) const READING_SIZES: [u16; 5] =
    [READING_SIZE, 0, 82, READING_SIZE - 1, READING_SIZE + 1];
const READING_SIZE: u16 = INTERPOLANT_BYTES as u16;
const REPORT_SIZES: [u16; 5] = [REPORT_SIZE, 0, 8, REPORT_SIZE - 1, REPORT_SIZE + 1];
const REPORT_SIZE: u16 = REPORT_BYTES as u16;

/// An interpolant reading into a buffer of its size.
pub(crate) const READING: Call = Call::ReadInterpolant { size: READING_SIZE };

/// Places above 63; some have a place below 64 in their low byte.
pub(crate) const UNKNOWN_PLACES: [u16; 9] = [64, 65, 127, 128, 255, 256, 256 + 7, 32768, 65535];

/// The calls made with one frame of a seed: openings, refused ones among them; deliveries in
/// random order, and between them refused deliveries, readings, and closings and writings that
/// come too early or into buffers of wrong sizes; then closing, twice, writing, reading, and the
/// same with the captures of the frame; then writing after deliveries in an order whose sort goes
/// round with the number, and after captures in an order of each sort; then two captures that go round
/// the faults of both versions.
pub fn call_list(seed: u64, number: u64) -> Vec<Call> {
    let frame = Frame::numbered(seed, number);
    let mut random = Random::new(seed ^ u64::MAX, number);
    let arrivals = random.shuffled(0..PLACES as u8);
    let mut calls = Vec::new();
    if random.once_in(4) {
        calls.extend(refused_opening(&mut random));
    }
    calls.push(opening(&frame));
    for (taken, place) in arrivals.iter().enumerate() {
        if random.once_in(6) {
            calls.push(between(&frame, &arrivals[..taken], &mut random));
        }
        calls.push(delivery(&frame, *place));
    }
    calls.push(between(&frame, &arrivals, &mut random));
    calls.extend(whole(&frame));
    calls.push(refused_delivery(&arrivals, &mut random));
    calls.extend(whole(&frame));
    calls.extend(with_captures(&frame, &arrivals, &mut random));
    let arrival = Arrival::numbered(number);
    calls.extend(delivered_and_written(&frame, &arrival.places(&mut random)));
    for arrival in ARRIVALS {
        calls.extend(opened_and_written(&frame, &arrival.places(&mut random)));
    }
    for turn in [2 * number, 2 * number + 1] {
        let places = arrival.places(&mut random);
        let capture = spoilt(&frame, &places, turn, &mut random);
        calls.extend(looked_up_and_opened(capture, &mut random));
    }
    calls
}

pub(crate) fn opening(frame: &Frame) -> Call {
    Call::Open {
        rate: frame.rate as u16,
        doubtful: frame.doubtful.clone(),
    }
}

pub(crate) fn delivery(frame: &Frame, place: u8) -> Call {
    Call::Deliver {
        place: u16::from(place),
        column: frame.columns[usize::from(place)],
    }
}

/// Reading, closing and writing into buffers of the right sizes.
pub(crate) fn whole(frame: &Frame) -> [Call; 3] {
    [
        READING,
        Call::Close {
            message: frame.rate as u16,
            report: REPORT_SIZE,
        },
        writing(frame),
    ]
}

fn writing(frame: &Frame) -> Call {
    Call::WriteCapture {
        size: capture_size(frame),
    }
}

fn capture_size(frame: &Frame) -> u16 {
    (SMALLEST + frame.doubtful.len()) as u16
}

/// An opening that is refused, and calls on the session that it hands back.
fn refused_opening(random: &mut Random) -> Vec<Call> {
    let lists: [&[u8]; 10] = [
        &[64],
        &[7, 7],
        &[9, 8],
        &[0, 1, 2, 3, 4, 5, 6, 7, 8, 9, 10, 11, 12],
        &[1, 2, 3, 5, 8, 13, 21, 34, 55, 56, 57, 58, 59, 60],
        &[0, 1, 2, 3, 4, 5, 6, 255],
        &[0, 1, 2, 3, 4, 5, 6, 7, 8, 9, 10, 64],
        &[0, 1, 2, 3, 4, 5, 6, 7, 8, 9, 11, 11],
        &[0, 1, 2, 3, 4, 5, 6, 8, 7],
        &[],
    ];
    let doubtful = random.one_of(&lists).to_vec();
    let by_list = !doubtful.is_empty() && random.once_in(2);
    let rate = match by_list {
        true => any_rate(random),
        false => unknown_rate(u64::from(u16::MAX), random),
    };
    vec![
        Call::Open {
            rate: rate as u16,
            doubtful,
        },
        Call::Deliver {
            place: random.below(64) as u16,
            column: any_column(random),
        },
        Call::Deliver {
            place: random.below(64) as u16,
            column: any_column(random),
        },
        READING,
        Call::Close {
            message: random.one_of(&[39, 49, rate as u16 & 255]),
            report: REPORT_SIZE,
        },
        Call::WriteCapture {
            size: SMALLEST as u16 + random.below(2) as u16,
        },
    ]
}

/// One of the calls that change nothing, with the places of `taken` delivered.
pub(crate) fn between(frame: &Frame, taken: &[u8], random: &mut Random) -> Call {
    match random.below(6) {
        0 | 1 => READING,
        2 => Call::ReadInterpolant {
            size: random.one_of(&READING_SIZES),
        },
        3 => Call::Close {
            message: frame.rate as u16 + 1 - random.one_of(&[1, 1, 0, 2]),
            report: random.one_of(&REPORT_SIZES),
        },
        4 => Call::WriteCapture {
            size: capture_size(frame) + 1 - random.below(3) as u16,
        },
        _ => refused_delivery(taken, random),
    }
}

/// A place above 63, or one that is taken, with other costs.
fn refused_delivery(taken: &[u8], random: &mut Random) -> Call {
    let place = if taken.is_empty() || random.once_in(2) {
        random.one_of(&UNKNOWN_PLACES)
    } else {
        u16::from(random.one_of(taken))
    };
    Call::Deliver {
        place,
        column: any_column(random),
    }
}

pub(crate) fn any_column(random: &mut Random) -> Column {
    [(); 16].map(|_| random.below(1000) as u16)
}

/// Random bytes, and captures of the frame, valid and damaged: looked up, opened and used.
fn with_captures(frame: &Frame, arrivals: &[u8], random: &mut Random) -> Vec<Call> {
    let capture = capture_of(frame, arrivals);
    let spoiled = damaged(&capture, random);
    let place = random.one_of(&[0, 1, 31, 62, 63, 64, 255, 256, 65535]);
    let noise = any_bytes(random);
    let mut calls = vec![
        Call::OpenCapture {
            capture: noise.clone(),
        },
        Call::LookUp {
            place,
            capture: noise,
        },
        Call::LookUp {
            place: random.below(PLACES) as u16,
            capture: capture.clone(),
        },
        Call::LookUp {
            place,
            capture: capture.clone(),
        },
        Call::LookUp {
            place: random.below(PLACES) as u16,
            capture: spoiled.clone(),
        },
        Call::OpenCapture { capture: spoiled },
    ];
    calls.extend(whole(frame));
    calls.push(Call::OpenCapture { capture });
    calls.extend(whole(frame));
    calls.push(refused_delivery(arrivals, random));
    calls
}

/// A session whose places are delivered in this order, written.
fn delivered_and_written(frame: &Frame, places: &[u8]) -> Vec<Call> {
    let mut calls = vec![opening(frame)];
    calls.extend(places.iter().map(|place| delivery(frame, *place)));
    calls.push(writing(frame));
    calls
}

/// A capture whose records stand in this order, opened and written back.
fn opened_and_written(frame: &Frame, places: &[u8]) -> Vec<Call> {
    let capture = capture_of(frame, places);
    vec![Call::OpenCapture { capture }, writing(frame)]
}

/// A capture, right or wrong, with a place looked up; then opened, read and written back.
fn looked_up_and_opened(capture: Vec<u8>, random: &mut Random) -> [Call; 4] {
    let size = capture.len() as u16;
    [
        Call::LookUp {
            place: random.below(PLACES) as u16,
            capture: capture.clone(),
        },
        Call::OpenCapture { capture },
        READING,
        Call::WriteCapture { size },
    ]
}

#[cfg(test)]
mod tests {
    use super::*;
    use crate::calls::answer_all;
    use crate::capture::bytes_of;
    use crate::session::Session;
    use crate::soft::{best, gap, is_blank};
    use crate::streams::check_answers;
    use crate::versions::{spoils, VersionSlip, VERSION_SLIPS};

    #[test]
    fn calls_are_read_back_from_their_bytes() {
        for number in 0..40 {
            let calls = call_list(50, number);
            let stream: Vec<u8> = calls.iter().flat_map(Call::bytes).collect();
            let mut rest = &stream[..];
            for call in &calls {
                let (read, after) = Call::read(rest).unwrap();
                assert_eq!(read, *call);
                rest = after;
            }
            assert!(rest.is_empty());
            assert_eq!(answer_all(&stream[..stream.len() - 1]), None);
        }
    }

    #[test]
    fn lists_reach_every_refusal_of_every_call() {
        let mut seen = std::collections::BTreeMap::new();
        for number in 0..400 {
            let mut session = Session::default();
            for call in call_list(51, number) {
                let answer = call.answer(&mut session);
                if !matches!(call, Call::LookUp { .. }) {
                    *seen.entry((call.letter() as char, answer[0])).or_insert(0) += 1;
                }
            }
        }
        let expected = [
            ('O', &[0, 1, 4][..]),
            ('C', &[0, 1, 4, 5, 6, 10, 11]),
            ('D', &[0, 5, 6]),
            ('R', &[0, 2]),
            ('W', &[0, 2, 7]),
            ('X', &[0, 2, 7, 9, 12]),
        ];
        let expected: Vec<(char, u8)> = expected
            .iter()
            .flat_map(|(letter, numbers)| numbers.iter().map(|number| (*letter, *number)))
            .collect();
        let mut reached: Vec<(char, u8)> = seen.keys().copied().collect();
        let mut sorted = expected;
        reached.sort_unstable();
        sorted.sort_unstable();
        assert_eq!(reached, sorted);
    }

    /// What a program takes the column of a session's place for.
    type Taken = fn(&Session, u8, Column) -> Column;

    /// Whether a list shows a program that takes columns so in the calls of a letter.
    fn shows(letter: u8, taken: Taken, calls: &[Call]) -> bool {
        let mut session = Session::default();
        calls.iter().any(|call| {
            let mut seen = Session::open(session.rate(), session.doubtful()).unwrap();
            for (place, column) in session.row() {
                let column = taken(&session, *place, *column);
                seen.deliver(u64::from(*place), column).unwrap();
            }
            let answer = call.answer(&mut session);
            call.letter() == letter && call.answer(&mut seen) != answer
        })
    }

    /// Frames with one to four blank places, doubtful ones among them: a program that does not take
    /// these for blank, all of them or the doubtful ones alone, or takes every column without a gap
    /// for blank.
    #[test]
    fn columns_not_taken_for_blank_are_found() {
        let any: Taken = |_, _, mut column| {
            column[15] ^= u16::from(is_blank(&column));
            column
        };
        let doubtful: Taken = |session, place, mut column| {
            let doubled = is_blank(&column) && session.doubtful().contains(&place);
            column[15] ^= u16::from(doubled);
            column
        };
        let level: Taken = |_, _, column| match gap(&column) {
            0 => [column[usize::from(best(&column))]; 16],
            _ => column,
        };
        let numbers = [1, 3, 5, 7]
            .into_iter()
            .flat_map(|round| 26 * round..26 * (round + 1));
        let lists: Vec<Vec<Call>> = numbers.map(|number| call_list(58, number)).collect();
        let found = |letter, taken| {
            let found = lists.iter().filter(|calls| shows(letter, taken, calls));
            found.count()
        };
        assert!(found(b'R', any) >= 80);
        assert!(found(b'X', any) >= 70);
        assert!(found(b'X', doubtful) >= 15);
        assert_eq!(found(b'R', doubtful), 0);
        assert!(found(b'R', level) >= 10);
        assert!(found(b'X', level) >= 10);
        assert_eq!(found(b'W', |_, _, column| column), 0);
    }

    /// The records that a program writes for a session.
    type Records = fn(&Session) -> Vec<(u8, Column)>;

    /// The answers of a program that is right but for the records that it writes.
    fn answers_with(records: Records, calls: &[Call]) -> Vec<u8> {
        let mut session = Session::default();
        let mut answers = Vec::new();
        for call in calls {
            let mut answer = call.answer(&mut session);
            if matches!(call, Call::WriteCapture { .. }) && answer[0] == 0 {
                let records = records(&session);
                let bytes = bytes_of(session.rate(), session.doubtful(), &records);
                answer.splice(1.., bytes);
            }
            answers.extend(answer);
        }
        answers
    }

    fn differs(records: Records, calls: Vec<Call>) -> bool {
        let answers = answers_with(records, &calls);
        check_answers(&[(0, calls)], &answers).is_err()
    }

    /// Deliveries and captures in every sort of order but the rising one show it.
    #[test]
    fn writing_in_order_of_arrival_is_found() {
        let by_arrival: Records = |session| session.row().to_vec();
        for number in 0..52 {
            assert!(differs(by_arrival, call_list(52, number)));
            let frame = Frame::numbered(52, number);
            for arrival in ARRIVALS {
                let places = arrival.places(&mut Random::new(53, number));
                let found = arrival != Arrival::Rising;
                let delivered = delivered_and_written(&frame, &places);
                assert_eq!(differs(by_arrival, delivered), found);
                let opened = opened_and_written(&frame, &places);
                assert_eq!(differs(by_arrival, opened), found);
            }
        }
    }

    /// The answers of a program that opens captures, and writes their version, by a wrong rule; what it
    /// opens that is refused is the session of a refused opening, and the other way round.
    fn answers_by(slip: VersionSlip, calls: &[Call]) -> Vec<u8> {
        let mut session = Session::default();
        let mut answers = Vec::new();
        for call in calls {
            let mut answer = call.answer(&mut session);
            match call {
                Call::OpenCapture { capture } => {
                    answer[0] = slip.number(capture);
                    if answer[0] != 0 {
                        session = Session::default();
                    }
                }
                Call::WriteCapture { .. } if answer[0] == 0 => {
                    answer[1] = slip.version(session.doubtful().len());
                }
                _ => (),
            }
            answers.extend(answer);
        }
        answers
    }

    /// Each wrong rule of versions and sizes is found, in few of the lists where few captures show it.
    #[test]
    fn wrong_rules_of_versions_are_found() {
        let count = spoils().len() as u64 / 2 + 1;
        let lists: Vec<Vec<Call>> = (0..count).map(|number| call_list(59, number)).collect();
        for slip in VERSION_SLIPS {
            let found = lists.iter().filter(|calls| {
                let answers = answers_by(slip, calls);
                check_answers(&[(0, calls.to_vec())], &answers).is_err()
            });
            assert!(found.count() >= 1, "{slip:?}");
        }
    }

    /// Writers with one fault each that no order of arrival hides.
    #[test]
    fn records_out_of_place_are_found() {
        let falling: Records = |session| session.in_place_order().into_iter().rev().collect();
        let doubtful_first: Records = |session| {
            let mut records = session.in_place_order();
            records.sort_by_key(|(place, _)| !session.doubtful().contains(place));
            records
        };
        let by_first_cost: Records = |session| {
            let mut records = session.in_place_order();
            records.sort_by_key(|(_, column)| column[0]);
            records
        };
        let columns_by_arrival: Records = |session| {
            let columns = session.row().iter().map(|(_, column)| *column);
            (0..).zip(columns).collect()
        };
        for records in [falling, doubtful_first, by_first_cost, columns_by_arrival] {
            let lists = (0..52).filter(|number| differs(records, call_list(54, *number)));
            assert!(lists.count() >= 26);
        }
    }
}
