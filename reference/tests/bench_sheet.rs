//! Document 01's bench sheet, item by item.

use reference::capture::{capture_size, write_capture};
use reference::code::encode;
use reference::curve::{monomials, points, Monomial, Point, PLACES};
use reference::decode::{decode_table, margin_of, mark_of, table_of_columns, Answer, REPORT_BYTES};
use reference::field::times;
use reference::frames::frame_s;
use reference::least::INTERPOLANT_BYTES;
use reference::refusal::Refusal;
use reference::session::Session;
use reference::show::show;
use reference::soft::{best, gap, second, Columns};

#[test]
fn c1_two_times_nine_is_one() {
    assert_eq!(times(2, 9), 1);
}

#[test]
fn c2_seven_times_seven_is_six() {
    assert_eq!(times(7, 7), 6);
}

#[test]
fn c3_places_8_to_11() {
    let expected = [10, 11, 12, 13].map(|y| Point { x: 2, y });
    assert_eq!(points()[8..12], expected);
}

#[test]
fn c4_place_63() {
    assert_eq!(points()[63], Point { x: 15, y: 5 });
}

#[test]
fn c5_message_symbol_38() {
    assert_eq!(monomials(44)[38], Monomial { i: 11, j: 0 });
    assert_eq!(monomials(44).len(), 39);
}

#[test]
fn c6_message_symbol_48() {
    assert_eq!(monomials(54)[48], Monomial { i: 11, j: 2 });
    assert_eq!(monomials(54).len(), 49);
}

/// The codeword of a 1 in one message symbol alone, at both rates.
fn word_of_symbol(symbol: usize) -> [u8; PLACES] {
    let words = [39, 49].map(|rate: u64| {
        let mut message = vec![0; rate as usize];
        message[symbol] = 1;
        let mut word = [99; PLACES];
        assert_eq!(encode(rate, &message, &mut word, 0), Ok(()));
        word
    });
    assert_eq!(words[0], words[1]);
    words[0]
}

#[test]
fn c7_a_one_in_symbol_1_alone() {
    let expected: [u8; PLACES] = std::array::from_fn(|place| place as u8 / 4);
    assert_eq!(word_of_symbol(1), expected);
}

#[test]
fn c8_a_one_in_symbol_2_alone() {
    let expected = [0, 1, 6, 7, 2, 3, 4, 5, 10, 11, 12, 13];
    assert_eq!(word_of_symbol(2)[..12], expected);
}

#[test]
fn c9_equal_costs_go_to_the_smaller_symbol() {
    let mut column = [7; 16];
    column[5] = 0;
    column[9] = 0;
    assert_eq!((best(&column), second(&column), gap(&column)), (5, 9, 0));
}

#[test]
fn c10_all_sixteen_at_the_ceiling() {
    let column = [65535; 16];
    assert_eq!((best(&column), second(&column), gap(&column)), (0, 1, 0));
}

/// Table decoding's answer, taken from the buffers.
fn decoded(rate: u64, columns: &Columns, doubt: u64) -> Result<Answer, Refusal> {
    let mut message = vec![99; rate as usize];
    let mut report = [99; REPORT_BYTES];
    let table = table_of_columns(columns);
    decode_table(rate, &table, doubt, &mut message, &mut report)?;
    Ok(Answer {
        message,
        total: u32::from_be_bytes([report[0], report[1], report[2], report[3]]),
        tests: u16::from_be_bytes([report[4], report[5]]),
        pinned: report[6],
        changed: report[7],
        margin: margin_of(&report),
        marked: mark_of(&report),
    })
}

/// An answer with the message zero and no second near codeword, which no codeword undercuts.
fn zero(total: u32, tests: u16, pinned: u8, changed: u8) -> Answer {
    let message = vec![0; 39];
    Answer {
        message,
        total,
        tests,
        pinned,
        changed,
        margin: None,
        marked: true,
    }
}

/// A session with all places delivered, the last one first.
fn delivered(rate: u64, doubtful: &[u8], columns: &Columns) -> Session {
    let mut session = Session::open(rate, doubtful).unwrap();
    for (place, column) in columns.iter().enumerate().rev() {
        session.deliver(place as u64, *column).unwrap();
    }
    session
}

#[test]
fn r1_six_wrong_places() {
    assert_eq!(decoded(39, &frame_s(6), 0), Ok(zero(180, 1, 0, 6)));
}

#[test]
fn r2_seven_wrong_places() {
    assert_eq!(decoded(39, &frame_s(7), 0), Err(Refusal::NoneNear));
}

#[test]
fn r3_seven_wrong_places_one_of_them_doubtful() {
    let session = delivered(39, &[0], &frame_s(7));
    let mut capture = vec![0; capture_size(&session)];
    assert_eq!(write_capture(&session, &mut capture), Ok(()));
    assert_eq!(capture, include_bytes!("../../examples/r3.capture"));
    let expected = format!("39 1 210 1 0 7 -\n{}\n", "0".repeat(39));
    assert_eq!(show(&capture), expected);
}

/// R3 with nine doubtful places, which is a capture of version 2.
#[test]
fn r3_with_nine_doubtful_places() {
    let session = delivered(39, &[0, 1, 2, 3, 4, 5, 6, 7, 8], &frame_s(7));
    let mut capture = vec![0; capture_size(&session)];
    assert_eq!(write_capture(&session, &mut capture), Ok(()));
    assert_eq!(capture, include_bytes!("../../examples/nine.capture"));
    assert_eq!((capture[0], capture.len()), (2, 2126));
    let expected = format!("39 9 210 1 0 7 -\n{}\n", "0".repeat(39));
    assert_eq!(show(&capture), expected);
}

#[test]
fn r4_two_doubtful_places() {
    assert_eq!(decoded(39, &frame_s(7), 2), Ok(zero(210, 3, 0, 7)));
}

#[test]
fn r5_rate_49_repairs_one_place() {
    let answer = decoded(49, &frame_s(1), 0).unwrap();
    assert_eq!(answer.message, [0; 49]);
    assert_eq!((answer.total, answer.changed, answer.marked), (30, 1, true));
    assert_eq!(decoded(49, &frame_s(2), 0), Err(Refusal::NoneNear));
}

/// "The all-zero table of R6 is now refused."
#[test]
fn r6_a_table_of_zero_bytes() {
    assert_eq!(decoded(39, &[[0; 16]; PLACES], 0), Err(Refusal::TooBlank));
}

#[test]
fn r7_interpolant_readings() {
    for rate in [39, 49] {
        let mut session = Session::open(rate, &[]).unwrap();
        let mut reading = [99; INTERPOLANT_BYTES];
        assert_eq!(session.read_interpolant(&mut reading), Ok(()));
        let mut expected = [0; INTERPOLANT_BYTES];
        expected[0] = 1;
        assert_eq!(reading, expected);

        session.deliver(0, frame_s(0)[0]).unwrap();
        assert_eq!(session.read_interpolant(&mut reading), Ok(()));
        expected[0] = 0;
        expected[4] = 1;
        assert_eq!(reading, expected);
    }
}
