//! Document 02's sentences on doubt by threshold, on random tables.

use reference::below_frames::{BelowCall, BelowKind};
use reference::decode::{columns_of_table, decode_table, decode_table_below, TABLE_BYTES};
use reference::refusal::Refusal;
use reference::session::Session;
use reference::soft::{
    counted_gap, doubtful_below, doubtful_places, is_blank, is_second_pinned, Columns, CEILING,
};

type Decoded = (Result<(), Refusal>, Vec<u8>, Vec<u8>);

/// A decoding into buffers of a call's sizes.
fn into(call: &BelowCall, decode: impl Fn(&mut [u8], &mut [u8]) -> Result<(), Refusal>) -> Decoded {
    let (mut message, mut report) = (vec![99; call.message], vec![99; call.report]);
    let result = decode(&mut message, &mut report);
    (result, message, report)
}

fn by_threshold(call: &BelowCall) -> Decoded {
    into(call, |message, report| {
        let BelowCall {
            rate,
            table,
            threshold,
            most,
            ..
        } = call;
        decode_table_below(*rate, table, *threshold, *most, message, report)
    })
}

/// Calls whose table has 2,048 bytes and whose maximum is allowed, with their columns.
fn calls(seed: u64, count: u64) -> impl Iterator<Item = (BelowCall, Columns)> {
    let calls = (0..count).map(move |number| BelowCall::numbered(seed, number));
    let right = |call: &BelowCall| call.table.len() == TABLE_BYTES && (1..=12).contains(&call.most);
    calls.filter(right).map(|call| {
        let columns = columns_of_table(&call.table);
        (call, columns)
    })
}

fn gap_at(columns: &Columns, place: u8) -> u16 {
    counted_gap(&columns[usize::from(place)])
}

/// The places that are not blank and come before one: by a smaller gap, or by the same and a lower
/// place.
fn ahead(columns: &Columns, place: u8) -> usize {
    let key = |place: u8| (gap_at(columns, place), place);
    let open = (0..64).filter(|other| !is_blank(&columns[usize::from(*other)]));
    open.filter(|other| key(*other) < key(place)).count()
}

/// Each place by itself: the first is chosen; another one if its gap is below the threshold and fewer
/// than the maximum are ahead of it; a blank one never.
#[test]
fn places_are_chosen_by_what_is_ahead_of_them() {
    for (call, columns) in calls(146, 1500) {
        let (threshold, most) = (call.threshold, call.most as usize);
        let chosen = doubtful_below(&columns, threshold, most);
        assert!(chosen.windows(2).all(|pair| pair[0] < pair[1]));
        assert!(chosen.len() <= most);
        for place in 0..64 {
            let blank = is_blank(&columns[usize::from(place)]);
            let ahead = ahead(&columns, place);
            let below = gap_at(&columns, place) < threshold;
            let doubtful = !blank && (ahead == 0 || below && ahead < most);
            assert_eq!(chosen.contains(&place), doubtful);
        }
    }
}

/// It is table decoding with as many doubtful places as are counted below the threshold, one at least
/// and the maximum at most.
#[test]
fn decoding_equals_decoding_with_the_doubt_counted() {
    for (call, columns) in calls(147, 800) {
        let open = columns.iter().filter(|column| !is_blank(column));
        let below = open.filter(|column| counted_gap(column) < call.threshold);
        let doubt = below.count().max(1).min(call.most as usize);
        let by_doubt = into(&call, |message, report| {
            decode_table(call.rate, &call.table, doubt as u64, message, report)
        });
        assert_eq!(by_threshold(&call), by_doubt);
        if columns.iter().all(is_blank) {
            continue;
        }
        let chosen = doubtful_below(&columns, call.threshold, call.most as usize);
        assert_eq!(chosen, doubtful_places(&columns, doubt));
    }
}

/// A session that is opened with the places chosen closes with the same answer, in whatever order the columns come.
#[test]
fn decoding_equals_closing_a_session() {
    for (call, columns) in calls(148, 800).filter(|(call, _)| call.kind != BelowKind::Refused) {
        let doubtful = doubtful_below(&columns, call.threshold, call.most as usize);
        let mut session = Session::open(call.rate, &doubtful).unwrap();
        for (place, column) in columns.iter().enumerate().rev() {
            session.deliver(place as u64, *column).unwrap();
        }
        let closed = into(&call, |message, report| session.close(message, report));
        assert_eq!(by_threshold(&call), closed);
    }
}

/// Threshold 0 is doubt 1. With the largest threshold only pinned seconds are not below it, so that it
/// is the doubt of the maximum where as many others are left.
#[test]
fn the_ends_of_the_threshold() {
    for (mut call, columns) in calls(149, 400) {
        call.threshold = 0;
        let doubt_1 = into(&call, |message, report| {
            decode_table(call.rate, &call.table, 1, message, report)
        });
        assert_eq!(by_threshold(&call), doubt_1);
        call.threshold = CEILING;
        let below = |column: &&_| !is_blank(column) && !is_second_pinned(column);
        if columns.iter().filter(below).count() >= call.most as usize {
            let by_doubt = into(&call, |message, report| {
                decode_table(call.rate, &call.table, call.most, message, report)
            });
            assert_eq!(by_threshold(&call), by_doubt);
        }
    }
}

/// With maximum 1 the threshold says nothing.
#[test]
fn a_maximum_of_one_is_doubt_1() {
    for (mut call, _) in calls(153, 400) {
        call.most = 1;
        let doubt_1 = into(&call, |message, report| {
            decode_table(call.rate, &call.table, 1, message, report)
        });
        assert_eq!(by_threshold(&call), doubt_1);
    }
}
