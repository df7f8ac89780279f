//! The tree of test words, each of them tried, and table decoding.
//!
//! - [`Answer`]: the message, and what the report holds; [`margin_of`] and [`mark_of`] read its last
//!   bytes.
//! - [`test_words`]: all test words of columns and a doubtful list.
//! - [`near_codewords`]: all near codewords with their totals; [`decode`]: the one of least total.
//! - [`decode_table`]: document 01's call, with its checks; [`decode_table_by`]: with doubtful places
//!   chosen by any rule.
//! - [`decode_table_below`]: with a threshold and a maximum; [`decode_table_below_by`]: by any rule.

use crate::code::{check_size, Code};
use crate::curve::PLACES;
use crate::mark::Standing;
use crate::nearest::{Finder, Near};
use crate::refusal::Refusal;
use crate::row::Row;
use crate::soft::{self, doubtful_below, doubtful_places, Columns, COLUMN_BYTES, DOUBT_LIMIT};

/// "Table of 2,048 bytes, place 0 first."
pub const TABLE_BYTES: usize = PLACES * COLUMN_BYTES;

/// "The report grows to 13 bytes", and "the mark is a last report byte".
pub const REPORT_BYTES: usize = 14;

/// Where the margin stands in a report, and the mark.
pub(crate) const MARGIN_BYTES: std::ops::Range<usize> = 9..13;
pub(crate) const MARK_BYTE: usize = 13;

/// The answer to a frame.
#[derive(Clone, Debug, PartialEq, Eq)]
pub struct Answer {
    pub message: Vec<u8>,
    pub total: u32,
    /// Test words with a codeword within T.
    pub tests: u16,
    pub pinned: u8,
    pub changed: u8,
    /// "The least total among near codewords other than the answer, minus the answer's total";
    /// none if no other codeword is near.
    pub margin: Option<u32>,
    /// Whether it is known that no codeword at all costs less.
    pub marked: bool,
}

impl Answer {
    /// "High byte first: total (4), test words with a codeword within T (2), pinned places (1),
    /// changed places (1)." "Byte 8 is 1 or 0 for present, bytes 9 to 12 the margin, zero where
    /// absent." The mark is "1 or 0".
    pub fn report(&self) -> [u8; REPORT_BYTES] {
        let total = self.total.to_be_bytes();
        let tests = self.tests.to_be_bytes();
        let mut report = [0; REPORT_BYTES];
        report[..4].copy_from_slice(&total);
        report[4..6].copy_from_slice(&tests);
        report[6] = self.pinned;
        report[7] = self.changed;
        if let Some(margin) = self.margin {
            report[8] = 1;
            report[MARGIN_BYTES].copy_from_slice(&margin.to_be_bytes());
        }
        report[MARK_BYTE] = u8::from(self.marked);
        report
    }
}

/// The margin that a report holds.
pub fn margin_of(report: &[u8]) -> Option<u32> {
    assert_eq!(report.len(), REPORT_BYTES);
    let margin = u32::from_be_bytes([report[9], report[10], report[11], report[12]]);
    (report[8] == 1).then_some(margin)
}

/// Whether a report has the mark.
pub fn mark_of(report: &[u8]) -> bool {
    assert_eq!(report.len(), REPORT_BYTES);
    report[MARK_BYTE] == 1
}

/// "Each doubtful place, lowest first, doubles them, once with its best and once with its second
/// symbol. All other places are settled and carry their best symbol." A blank place is not "doubled
/// as doubtful", and what stands there counts for nothing.
pub fn test_words(columns: &Columns, doubtful: &[u8]) -> Vec<Row> {
    let mut words = vec![best_word(columns)];
    for (place, second) in doubled(columns, doubtful) {
        let doubled = words.iter().flat_map(|word| {
            let mut other = *word;
            other.set(place, second);
            [*word, other]
        });
        words = doubled.collect();
    }
    words
}

/// The word of best symbols.
fn best_word(columns: &Columns) -> Row {
    Row::from_elements(columns.iter().map(soft::best))
}

/// The places that double the test words, and their second symbols.
fn doubled(columns: &Columns, doubtful: &[u8]) -> Vec<(usize, u8)> {
    let places = doubtful.iter().map(|place| usize::from(*place));
    let unblanked = places.filter(|place| !soft::is_blank(&columns[*place]));
    unblanked
        .map(|place| (place, soft::second(&columns[place])))
        .collect()
}

/// "A codeword is near when it differs from some test word in at most T places", of those that are
/// not blank, with the T that the blank ones leave. All near codewords, cheapest first, with their
/// totals; and the number of test words with a codeword within T. Refused where too many are blank.
pub fn near_codewords(
    finder: &Finder,
    columns: &Columns,
    doubtful: &[u8],
) -> Result<(Vec<(u32, Near)>, u16), Refusal> {
    let blank = soft::blank_places(columns);
    let unblanked = finder.unblanked(&blank).ok_or(Refusal::TooBlank)?;
    let doubled = doubled(columns, doubtful);
    let (found, tests) = unblanked.nearest_of_tree(&best_word(columns), &doubled);
    Ok((ranking(columns, found), tests))
}

/// "The answer is the near codeword of least total cost." The runner-up is the next of all near
/// codewords. Refused "after the doubt or missing-place check": too many blank, then none near.
pub fn decode(finder: &Finder, columns: &Columns, doubtful: &[u8]) -> Result<Answer, Refusal> {
    let (ranking, tests) = near_codewords(finder, columns, doubtful)?;
    let (total, cheapest) = ranking.first().ok_or(Refusal::NoneNear)?;
    let codeword = cheapest.codeword.elements();
    Ok(Answer {
        message: cheapest.message.clone(),
        total: *total,
        tests,
        pinned: soft::pinned(columns, &codeword),
        changed: soft::changed(columns, &codeword),
        margin: ranking.get(1).map(|(runner_up, _)| runner_up - total),
        marked: Standing::of(finder.code(), columns, &codeword).is_marked(),
    })
}

/// The codewords found with their totals, cheapest first. "Equal totals go to the smaller message,
/// compared from symbol 0 on."
fn ranking(columns: &Columns, found: Vec<Near>) -> Vec<(u32, Near)> {
    let total = |near: &Near| soft::total(columns, &near.codeword.elements());
    let mut ranking: Vec<(u32, Near)> =
        found.into_iter().map(|near| (total(&near), near)).collect();
    ranking.sort_by(|(a, first), (b, second)| (a, &first.message).cmp(&(b, &second.message)));
    ranking
}

/// Table decoding, with its checks in their order: rate; table of 2,048 bytes, place 0 first,
/// message buffer of k bytes and report; doubt; blank places; nearness.
pub fn decode_table(
    rate: u64,
    table: &[u8],
    doubt: u64,
    message: &mut [u8],
    report: &mut [u8],
) -> Result<(), Refusal> {
    decode_table_by(doubtful_places, rate, table, doubt, [message, report])
}

/// Table decoding with the doubtful places that these columns have by a rule.
pub fn decode_table_by(
    choose: fn(&Columns, usize) -> Vec<u8>,
    rate: u64,
    table: &[u8],
    doubt: u64,
    lent: [&mut [u8]; 2],
) -> Result<(), Refusal> {
    checked(rate, table, lent, |columns| {
        if doubt > DOUBT_LIMIT as u64 {
            return Err(Refusal::Doubt);
        }
        Ok(choose(columns, doubt as usize))
    })
}

/// Table decoding with a threshold and a maximum instead of a doubt. The checks are the same, in the
/// same order; the maximum is refused as a doubt is, and 0 is refused too.
pub fn decode_table_below(
    rate: u64,
    table: &[u8],
    threshold: u16,
    most: u64,
    message: &mut [u8],
    report: &mut [u8],
) -> Result<(), Refusal> {
    let limits = (threshold, most);
    decode_table_below_by(doubtful_below, rate, table, limits, [message, report])
}

/// The same with the doubtful places that these columns have by a rule of threshold and maximum.
pub fn decode_table_below_by(
    choose: impl FnOnce(&Columns, u16, usize) -> Vec<u8>,
    rate: u64,
    table: &[u8],
    (threshold, most): (u16, u64),
    lent: [&mut [u8]; 2],
) -> Result<(), Refusal> {
    checked(rate, table, lent, |columns| {
        if !(1..=DOUBT_LIMIT as u64).contains(&most) {
            return Err(Refusal::Doubt);
        }
        Ok(choose(columns, threshold, most as usize))
    })
}

/// The checks of rate and sizes; then the doubtful places, or that they cannot be chosen; then the
/// answer, into the message buffer and the report that are lent.
fn checked(
    rate: u64,
    table: &[u8],
    [message, report]: [&mut [u8]; 2],
    choose: impl FnOnce(&Columns) -> Result<Vec<u8>, Refusal>,
) -> Result<(), Refusal> {
    let code = Code::of_rate(rate)?;
    check_size(table, TABLE_BYTES)?;
    check_size(message, code.symbols)?;
    check_size(report, REPORT_BYTES)?;
    let columns = columns_of_table(table);
    let doubtful = choose(&columns)?;
    let answer = decode(Finder::of_rate(rate)?, &columns, &doubtful)?;
    message.copy_from_slice(&answer.message);
    report.copy_from_slice(&answer.report());
    Ok(())
}

/// The columns of a table of 2,048 bytes.
pub fn columns_of_table(table: &[u8]) -> Columns {
    let mut parts = table.chunks_exact(COLUMN_BYTES);
    std::array::from_fn(|_| soft::column_of_bytes(parts.next().expect("64 columns")))
}

/// The 2,048 bytes of the columns, place 0 first.
pub fn table_of_columns(columns: &Columns) -> Vec<u8> {
    columns.iter().flat_map(soft::column_bytes).collect()
}

#[cfg(test)]
mod tests {
    use super::*;
    use crate::frames::{frame_s, Frame};
    use crate::soft::CEILING;

    /// Doubtful places that are blank double nothing.
    #[test]
    fn test_words_are_as_many_as_the_doubtful_places_that_are_not_blank() {
        let mut columns = frame_s(7);
        assert_eq!(test_words(&columns, &[0, 5, 10]).len(), 8);
        columns[5] = [3; 16];
        let words = test_words(&columns, &[0, 5, 10]);
        assert_eq!(words, test_words(&columns, &[0, 10]));
        assert_eq!(words.len(), 4);
        columns[0] = [3; 16];
        columns[10] = [0; 16];
        assert_eq!(test_words(&columns, &[0, 5, 10]).len(), 1);
    }

    /// With twelve doubtful places and none wrong the test words near are those with at most T second
    /// symbols: 2,510 at rate 39, where the count takes both bytes, and 13 at rate 49.
    #[test]
    fn twelve_doubtful_places_double_to_4096() {
        let columns = frame_s(0);
        for (rate, near) in [(39, 2510), (49, 13)] {
            let table = table_of_columns(&columns);
            let (mut message, mut report) = (vec![9; rate as usize], [9; REPORT_BYTES]);
            let decoded = decode_table(rate, &table, 12, &mut message, &mut report);
            assert_eq!(decoded, Ok(()));
            assert_eq!(u16::from_be_bytes([report[4], report[5]]), near);
        }
        assert_eq!(
            test_words(&columns, &[0, 5, 6, 7, 9, 11, 20, 21, 40, 50, 51, 63]).len(),
            4096
        );
    }

    /// What the tree finds is what each of its words finds by itself.
    #[test]
    fn the_tree_finds_what_each_test_word_does() {
        for number in 0..26 * 14 {
            let Frame {
                rate,
                doubtful,
                columns,
            } = Frame::numbered(31, number);
            let finder = Finder::of_rate(rate).unwrap();
            let blank = soft::blank_places(&columns);
            let Some(unblanked) = finder.unblanked(&blank) else {
                continue;
            };
            let words = test_words(&columns, &doubtful);
            let each: Vec<Near> = words.iter().filter_map(|w| unblanked.nearest(w)).collect();
            let (found, tests) = near_codewords(finder, &columns, &doubtful).unwrap();
            assert_eq!(usize::from(tests), each.len(), "{number}");
            assert!(each.iter().all(|near| found.iter().any(|(_, n)| n == near)));
            for (at, (_, near)) in found.iter().enumerate() {
                assert!(each.contains(near) && found[..at].iter().all(|(_, n)| n != near));
            }
        }
    }

    /// A list doubles what it names: what a gap counts as is a matter of choosing.
    #[test]
    fn test_words_have_pinned_seconds_that_a_list_names() {
        let mut columns = frame_s(7);
        columns[5] = [CEILING; 16];
        columns[5][6] = 30_000;
        let words = test_words(&columns, &[5]);
        assert_eq!(
            words.iter().map(|word| word.get(5)).collect::<Vec<u8>>(),
            [6, 0]
        );
        assert!(!doubtful_places(&columns, 8).contains(&5));
    }

    /// "After the doubt or missing-place check, before 'none near'": each fault beside the later
    /// ones.
    #[test]
    fn tables_are_checked_in_order() {
        let decoded = |rate, columns: &Columns, doubt, size: usize| {
            let table = table_of_columns(columns);
            let (mut message, mut report) = (vec![9; size], [9; REPORT_BYTES]);
            let result = decode_table(rate, &table, doubt, &mut message, &mut report);
            assert!(result.is_ok() || message == vec![9; size] && report == [9; REPORT_BYTES]);
            result
        };
        let mut columns = [[7; 16]; PLACES];
        assert_eq!(decoded(53, &columns, 13, 40), Err(Refusal::Rate));
        assert_eq!(decoded(39, &columns, 13, 40), Err(Refusal::Size));
        assert_eq!(decoded(39, &columns, 13, 39), Err(Refusal::Doubt));
        for doubt in [8, 9, 12] {
            assert_eq!(decoded(39, &columns, doubt, 39), Err(Refusal::TooBlank));
        }
        columns[14..].copy_from_slice(&frame_s(7)[14..]);
        assert_eq!(decoded(39, &columns, 0, 39), Err(Refusal::TooBlank));
        columns[13] = frame_s(0)[13];
        assert_eq!(decoded(39, &columns, 0, 39), Err(Refusal::NoneNear));
        columns[14..].copy_from_slice(&frame_s(0)[14..]);
        assert_eq!(decoded(39, &columns, 0, 39), Ok(()));
    }

    /// A maximum of 0 or above the limit comes after the sizes and before blank places.
    #[test]
    fn thresholds_and_maxima_are_checked_in_order() {
        let decoded = |rate, columns: &Columns, most, size: usize| {
            let table = table_of_columns(columns);
            let (mut message, mut report) = (vec![9; size], [9; REPORT_BYTES]);
            let result = decode_table_below(rate, &table, 31, most, &mut message, &mut report);
            assert!(result.is_ok() || message == vec![9; size] && report == [9; REPORT_BYTES]);
            result
        };
        let mut columns = [[7; 16]; PLACES];
        for most in [0, 13, 255, 256, 256 + 3, u64::MAX] {
            assert_eq!(decoded(5, &columns, most, 40), Err(Refusal::Rate));
            assert_eq!(decoded(39, &columns, most, 40), Err(Refusal::Size));
            assert_eq!(decoded(39, &columns, most, 39), Err(Refusal::Doubt));
        }
        assert_eq!(decoded(39, &columns, 1, 39), Err(Refusal::TooBlank));
        columns = frame_s(7);
        for most in 1..=12 {
            assert_eq!(decoded(39, &columns, most, 39), Ok(()));
        }
        columns[1] = columns[10];
        assert_eq!(decoded(39, &columns, 1, 39), Err(Refusal::NoneNear));
        assert_eq!(decoded(39, &columns, 2, 39), Ok(()));
    }

    /// The bench sheet's S(7): seven places have gap 30. A maximum of 2 is R4.
    #[test]
    fn the_threshold_stands_beside_the_doubt() {
        let table = table_of_columns(&frame_s(7));
        let decoded = |threshold, most| {
            let (mut message, mut report) = (vec![9; 39], [9; REPORT_BYTES]);
            let result = decode_table_below(39, &table, threshold, most, &mut message, &mut report);
            (result, message, report)
        };
        let by_doubt = |doubt| {
            let (mut message, mut report) = (vec![9; 39], [9; REPORT_BYTES]);
            let result = decode_table(39, &table, doubt, &mut message, &mut report);
            (result, message, report)
        };
        assert_eq!(decoded(31, 2).2[4..6], [0, 3]);
        for most in 1..=12 {
            assert_eq!(decoded(30, most), by_doubt(1));
            assert_eq!(decoded(31, most), by_doubt(most.min(7)));
            assert_eq!(decoded(41, most), by_doubt(most));
        }
    }

    /// Zero is a margin, and not the same as none. The mark comes last.
    #[test]
    fn reports_hold_the_margin_high_byte_first_and_the_mark() {
        let report = |margin, marked| {
            let answer = Answer {
                message: Vec::new(),
                total: 0x00a1_a2a3,
                tests: 0x0102,
                pinned: 3,
                changed: 4,
                margin,
                marked,
            };
            let report = answer.report();
            assert_eq!((margin_of(&report), mark_of(&report)), (margin, marked));
            report
        };
        let before = [0, 0xa1, 0xa2, 0xa3, 1, 2, 3, 4];
        for (margin, bytes) in [
            (None, [0, 0, 0, 0, 0]),
            (Some(0), [1, 0, 0, 0, 0]),
            (Some(0x000b_0c0d), [1, 0, 0x0b, 0x0c, 0x0d]),
        ] {
            for marked in [false, true] {
                let report = report(margin, marked);
                assert_eq!(report[..8], before);
                assert_eq!(report[8..13], bytes);
                assert_eq!(report[13..], [u8::from(marked)]);
            }
        }
    }
}
