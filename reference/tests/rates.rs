//! Trials at every rate reach every sort, and find decoders and sessions that go wrong at some of them.

use reference::calls::Call;
use reference::code::{rates, Code, RATE_COUNT};
use reference::decode::columns_of_table;
use reference::least::{least, Q1_START};
use reference::random::Random;
use reference::rate_counts::Part;
use reference::rates::FEW_TURNS;
use reference::session::Session;
use reference::soft::{best, blank_places};
use reference::streams::{check_rates, rate_session};
use reference::trials::{
    compare, encode_trial, rate_below_trial, rate_bits_trial, rate_table_trial, read_back_trial,
    Coding, DecodeTable, REFERENCE, REFERENCE_BELOW, REFERENCE_BITS, REFERENCE_TABLE,
};

const COUNT: u64 = (RATE_COUNT * FEW_TURNS) as u64;

#[test]
fn trials_encode_and_read_back_at_every_rate() {
    let both = [&REFERENCE, &REFERENCE];
    let mut tally = compare(encode_trial, both, 96, 20_000).unwrap();
    assert!(tally.rates.check(Part::Code).is_err());
    tally
        .rates
        .add(compare(read_back_trial, both, 96, 20_000).unwrap().rates);
    assert_eq!(tally.rates.check(Part::Code), Ok(()));
}

#[test]
fn trials_by_threshold_and_from_bit_values_have_every_sort() {
    let both = [&REFERENCE_BELOW, &REFERENCE_BELOW];
    let tally = compare(rate_below_trial, both, 97, COUNT).unwrap();
    assert_eq!(tally.rates.check(Part::Thresholds), Ok(()));
    let both = [&REFERENCE_BITS, &REFERENCE_BITS];
    let tally = compare(rate_bits_trial, both, 97, COUNT).unwrap();
    assert_eq!(tally.rates.check(Part::Bits), Ok(()));
}

/// How many more may be blank than are, and the room that blank places leave: 2T is at most so much.
fn room(rate: u64, table: &[u8]) -> i64 {
    let blanks = blank_places(&columns_of_table(table)).len();
    52 - rate as i64 - blanks as i64
}

/// Encoders and decoders with one fault each at some rates.
#[test]
fn faults_at_some_rates_are_found() {
    let two_rates = Coding {
        encode: |rate, message, frame, start| match rate {
            39 | 49 => (REFERENCE.encode)(rate, message, frame, start),
            _ => 1,
        },
        ..REFERENCE
    };
    let up_to_51 = Coding {
        read_back: |rate, word, message| match rate {
            52 => 1,
            _ => (REFERENCE.read_back)(rate, word, message),
        },
        ..REFERENCE
    };
    let last_symbol_at_52 = Coding {
        encode: |rate, message, frame, start| {
            let mut message = message.to_vec();
            if let (52, [.., last]) = (rate, &mut message[..]) {
                *last &= 0xf0;
            }
            (REFERENCE.encode)(rate, &message, frame, start)
        },
        ..REFERENCE
    };
    assert!(compare(encode_trial, [&REFERENCE, &two_rates], 98, 400).is_err());
    assert!(compare(read_back_trial, [&REFERENCE, &up_to_51], 98, 4000).is_err());
    assert!(compare(encode_trial, [&REFERENCE, &last_symbol_at_52], 98, 4000).is_err());

    let faults: [(&str, DecodeTable); 6] = [
        (
            "T rounded up",
            |rate, table, doubt, message, report| match REFERENCE_TABLE(
                rate, table, doubt, message, report,
            ) {
                9 if doubt == 0 && room(rate, table) % 2 == 1 => 0,
                number => number,
            },
        ),
        (
            "rate 52 repairs one",
            |rate, table, doubt, message, report| match REFERENCE_TABLE(
                rate, table, doubt, message, report,
            ) {
                9 if rate == 52 => 0,
                number => number,
            },
        ),
        (
            "blank limit one more",
            |rate, table, doubt, message, report| match REFERENCE_TABLE(
                rate, table, doubt, message, report,
            ) {
                12 if room(rate, table) == -1 => 9,
                number => number,
            },
        ),
        (
            "blank limit one less",
            |rate, table, doubt, message, report| match room(rate, table) {
                0 if rate < 52 => 12,
                _ => REFERENCE_TABLE(rate, table, doubt, message, report),
            },
        ),
        (
            "from rate 7 on",
            |rate, table, doubt, message, report| match rate {
                6 => 1,
                _ => REFERENCE_TABLE(rate, table, doubt, message, report),
            },
        ),
        (
            "at most 12 wrong places",
            |rate, table, doubt, message, report| {
                let (mut kept, mut told) = (message.to_vec(), report.to_vec());
                let number = REFERENCE_TABLE(rate, table, doubt, &mut kept, &mut told);
                if number == 0 && told[7] > 12 && doubt == 0 {
                    return 9;
                }
                message.copy_from_slice(&kept);
                report.copy_from_slice(&told);
                number
            },
        ),
    ];
    for (name, library) in faults {
        let both = [&REFERENCE_TABLE, &library];
        let compared = compare(rate_table_trial, both, 98, 2 * COUNT);
        assert!(compared.is_err(), "{name}");
    }
}

/// The answers of a program that is right but for a fault in what it makes of a call.
fn answers_with(
    fault: impl Fn(&Call, &Session, &mut Vec<u8>),
    frames: &[(u64, Vec<Call>)],
) -> Vec<u8> {
    let mut session = Session::default();
    let mut answers = Vec::new();
    for call in frames.iter().flat_map(|(_, calls)| calls) {
        let mut answer = call.answer(&mut session);
        fault(call, &session, &mut answer);
        answers.extend(answer);
    }
    answers
}

#[test]
fn sessions_have_every_sort() {
    let frames: Vec<(u64, Vec<Call>)> = (0..COUNT).map(|n| (n, rate_session(99, n))).collect();
    let right = answers_with(|_, _, _| (), &frames);
    let counts = check_rates(99, &frames, &right).unwrap();
    assert_eq!(counts.check(Part::Sessions), Ok(()));
    let few = &frames[..3];
    let right = answers_with(|_, _, _| (), few);
    let mut random = Random::new(99, 0);
    for _ in 0..20 {
        let mut wrong = right.clone();
        wrong[random.below(right.len())] ^= 1;
        let line = check_rates(99, few, &wrong).unwrap_err();
        assert!(line.starts_with("frame"), "{line}");
    }
    assert!(check_rates(99, few, &right[1..]).is_err());
    assert!(check_rates(99, few, &[&right[..], &[0]].concat()).is_err());
}

/// Readings, openings and captures with one fault each; the first turn of each rate shows them, in which
/// all places are wrong and each number of them is read.
#[test]
fn faults_of_readings_and_rates_are_found() {
    type Fault = fn(&Call, &Session, &mut Vec<u8>);
    let faults: [(&str, Fault); 7] = [
        ("Q1 up to order 31", |call, _, answer| {
            if let (Call::ReadInterpolant { .. }, [0, .., last]) = (call, &mut answer[..]) {
                *last = 0;
            }
        }),
        ("Q1 up to order 16", |call, _, answer| {
            if let (Call::ReadInterpolant { .. }, [0, bytes @ ..]) = (call, &mut answer[..]) {
                bytes[Q1_START + 17..].fill(0);
            }
        }),
        ("weights of rate 39", |call, session, answer| {
            if let (Call::ReadInterpolant { .. }, [0, bytes @ ..]) = (call, &mut answer[..]) {
                let row = session.row().iter();
                let settled: Vec<(u8, u8)> = row.map(|(p, column)| (*p, best(column))).collect();
                bytes.copy_from_slice(&least(Code::of_rate(39).unwrap(), &settled));
            }
        }),
        ("82 bytes", |call, _, answer| {
            if let Call::ReadInterpolant { size: 82 } = call {
                answer[0] = 0;
            }
        }),
        ("a rate of one byte", |call, _, answer| {
            if let Call::Open { rate: 256.., .. } = call {
                answer[0] = 0;
            }
        }),
        ("rate 53", |call, _, answer| match call {
            Call::Open { rate: 53, .. } => answer[0] = 0,
            Call::OpenCapture { capture } if capture[3] == 53 => answer[0] = 0,
            _ => (),
        }),
        ("the rate of a capture", |call, session, answer| {
            if let (Call::WriteCapture { .. }, [0, bytes @ ..]) = (call, &mut answer[..]) {
                bytes[3] = if session.rate() < 44 { 39 } else { 49 };
            }
        }),
    ];
    let first = RATE_COUNT as u64;
    assert_eq!(rates().count() as u64, first);
    let frames: Vec<(u64, Vec<Call>)> = (0..first).map(|n| (n, rate_session(100, n))).collect();
    let right = answers_with(|_, _, _| (), &frames);
    assert!(check_rates(100, &frames, &right).is_ok());
    for (name, fault) in faults {
        let wrong = answers_with(fault, &frames);
        assert!(check_rates(100, &frames, &wrong).is_err(), "{name}");
    }
}
