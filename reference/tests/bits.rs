//! Document 02's sentences on bit values, on random frames.

use reference::bit_frames::{BitCall, BitKind};
use reference::bits::{column_of_bits, columns_of_bits, decode_bits, BITS, FRAME_VALUES};
use reference::decode::{decode_table, table_of_columns, REPORT_BYTES, TABLE_BYTES};
use reference::refusal::Refusal;
use reference::session::Session;
use reference::soft::{blank_places, doubtful_places};

type Decoded = (Result<(), Refusal>, Vec<u8>, Vec<u8>);

/// A decoding into buffers of a call's sizes.
fn into(call: &BitCall, decode: impl Fn(&mut [u8], &mut [u8]) -> Result<(), Refusal>) -> Decoded {
    let (mut message, mut report) = (vec![99; call.message], vec![99; call.report]);
    let result = decode(&mut message, &mut report);
    (result, message, report)
}

fn from_bits(call: &BitCall) -> Decoded {
    into(call, |message, report| {
        decode_bits(call.rate, &call.values, call.doubt, message, report)
    })
}

fn calls(count: u64) -> impl Iterator<Item = BitCall> {
    (0..count).map(|number| BitCall::numbered(145, number))
}

/// "Decoding from bit values equals decoding the table they make", with its refusals.
#[test]
fn decoding_equals_decoding_the_table() {
    for call in calls(2000) {
        if call.values.len() != FRAME_VALUES {
            let refused = [Err(Refusal::Rate), Err(Refusal::Size)];
            assert!(refused.contains(&from_bits(&call).0));
            continue;
        }
        let table = table_of_columns(&columns_of_bits(&call.values));
        assert_eq!(table.len(), TABLE_BYTES);
        let from_table = into(&call, |message, report| {
            decode_table(call.rate, &table, call.doubt, message, report)
        });
        assert_eq!(from_bits(&call), from_table);
    }
}

/// The columns may be delivered one by one.
#[test]
fn decoding_equals_closing_a_session() {
    for call in calls(2000).filter(|call| call.kind != BitKind::Refused) {
        let columns = columns_of_bits(&call.values);
        let doubtful = doubtful_places(&columns, call.doubt as usize);
        let mut session = Session::open(call.rate, &doubtful).unwrap();
        for (place, four) in call.values.chunks(BITS).enumerate().rev() {
            let column = column_of_bits(four.try_into().unwrap());
            session.deliver(place as u64, column).unwrap();
        }
        let closed = into(&call, |message, report| session.close(message, report));
        assert_eq!(from_bits(&call), closed);
    }
}

/// "Four zeros make a blank column", and nothing else does.
#[test]
fn blank_places_are_those_with_four_zeros() {
    let mut blank = 0;
    for call in calls(6000).filter(|call| call.values.len() == FRAME_VALUES) {
        let zeros = (0..64).filter(|place| {
            let from = BITS * usize::from(*place);
            call.values[from..from + BITS] == [0; BITS]
        });
        let zeros: Vec<u8> = zeros.collect();
        assert_eq!(blank_places(&columns_of_bits(&call.values)), zeros);
        blank += zeros.len();
    }
    assert!(blank >= 1000, "{blank}");
}

/// "The magnitude of −128 is 128": the word of fifteens or that of zeros is sent, and some places say
/// the other.
#[test]
fn totals_sum_magnitudes() {
    for (rate, wrong) in [(39, 6), (49, 1)] {
        for [sent, other] in [[-128, 127], [127, -128i8]] {
            let mut values = [sent; FRAME_VALUES];
            values[..BITS * wrong].fill(other);
            let (mut message, mut report) = (vec![99; rate as usize], [99; REPORT_BYTES]);
            decode_bits(rate, &values, 0, &mut message, &mut report).unwrap();
            let mut expected = vec![0; rate as usize];
            expected[0] = if sent < 0 { 15 } else { 0 };
            let magnitudes = 4 * u32::from(other.unsigned_abs()) * wrong as u32;
            assert_eq!(
                (message, report[..4].to_vec()),
                (expected, magnitudes.to_be_bytes().to_vec())
            );
        }
    }
}
