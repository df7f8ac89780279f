//! Columns of costs: best and second symbols, gaps, blank and doubtful places, totals.
//!
//! - [`Column`], [`Columns`], [`column_of_bytes`], [`column_bytes`]: sixteen costs, and 64 of those.
//! - [`best`], [`second`], [`gap`]: what a column says by itself; [`counted_gap`]: the gap as it
//!   counts for choosing.
//! - [`is_blank`], [`blank_places`]: columns that say nothing.
//! - [`doubtful_places`]: the places that table decoding doubles; [`smallest`]: by any gap;
//!   [`doubtful_below`]: by threshold and maximum.
//! - [`total`], [`pinned`], [`changed`]: what a codeword costs, and the counts of the report;
//!   [`is_changed`]: one place of the last.

use crate::curve::PLACES;
use crate::field::SYMBOLS;

/// "65535 is the ceiling, reads 'at least' and is summed as 65535." (Saturation.)
pub const CEILING: u16 = 65535;

/// "The limit rises from 8 to 12": the largest doubt, and the length of the longest doubtful list.
pub const DOUBT_LIMIT: usize = 12;

/// The bytes of a column: two for each cost, high first.
pub const COLUMN_BYTES: usize = 2 * SYMBOLS;

/// "A place's column is sixteen costs, one for each symbol, each 0 to 65535 and smaller if
/// likelier."
pub type Column = [u16; SYMBOLS];

/// The columns by place.
pub type Columns = [Column; PLACES];

/// A column from its 32 bytes.
pub fn column_of_bytes(bytes: &[u8]) -> Column {
    assert_eq!(bytes.len(), COLUMN_BYTES);
    std::array::from_fn(|symbol| u16::from_be_bytes([bytes[2 * symbol], bytes[2 * symbol + 1]]))
}

/// The 32 bytes of a column.
pub fn column_bytes(column: &Column) -> Vec<u8> {
    column.iter().flat_map(|cost| cost.to_be_bytes()).collect()
}

/// The symbols from likeliest to unlikeliest. "Equal costs go to the smaller symbol."
fn ranking(column: &Column) -> Vec<u8> {
    let mut symbols: Vec<u8> = (0..SYMBOLS as u8).collect();
    symbols.sort_by_key(|symbol| (column[usize::from(*symbol)], *symbol));
    symbols
}

/// "The best symbol has least cost."
pub fn best(column: &Column) -> u8 {
    ranking(column)[0]
}

/// "The second is best of the others."
pub fn second(column: &Column) -> u8 {
    ranking(column)[1]
}

/// "The gap is second cost minus best cost."
pub fn gap(column: &Column) -> u16 {
    column[usize::from(second(column))] - column[usize::from(best(column))]
}

/// Whether the second cost is at the ceiling and the best is below it: a pinned second.
pub fn is_second_pinned(column: &Column) -> bool {
    let mut costs = *column;
    costs.sort_unstable();
    costs[0] < CEILING && costs[1..].iter().all(|cost| *cost == CEILING)
}

/// The gap as it counts for choosing doubtful places. Where the second is pinned the difference says
/// 'at least': there it counts as the ceiling.
pub fn counted_gap(column: &Column) -> u16 {
    if is_second_pinned(column) {
        CEILING
    } else {
        gap(column)
    }
}

/// "Columns with all sixteen costs equal": "such a place is blank." (An erasure.)
pub fn is_blank(column: &Column) -> bool {
    column.iter().all(|cost| *cost == column[0])
}

/// The blank places; the list rises.
pub fn blank_places(columns: &Columns) -> Vec<u8> {
    let blank = |place: &u8| is_blank(&columns[usize::from(*place)]);
    (0..PLACES as u8).filter(blank).collect()
}

/// "Table decoding with doubt d takes the d places of smallest gap. Equal gaps go to the
/// lower place." A blank place is "not chosen": they are the d of the others, or all of these where
/// they are fewer. A pinned second counts as the largest gap. The list rises.
pub fn doubtful_places(columns: &Columns, doubt: usize) -> Vec<u8> {
    smallest(columns, doubt, counted_gap)
}

/// The places that are not blank with the smallest gaps, however these are counted.
pub fn smallest<G: Ord>(columns: &Columns, doubt: usize, gap: fn(&Column) -> G) -> Vec<u8> {
    let mut places = by_gap(columns, gap);
    places.truncate(doubt);
    places.sort_unstable();
    places
}

/// The places that are not blank by rising gap, however gaps are counted, and equal gaps by place.
pub fn by_gap<G: Ord>(columns: &Columns, gap: fn(&Column) -> G) -> Vec<u8> {
    let unblanked = |place: &u8| !is_blank(&columns[usize::from(*place)]);
    let mut places: Vec<u8> = (0..PLACES as u8).filter(unblanked).collect();
    places.sort_by_cached_key(|place| (gap(&columns[usize::from(*place)]), *place));
    places
}

/// The doubtful places by threshold and maximum: from the front of the order by gap the first, and each
/// next one as long as its gap is smaller than the threshold and there is room. Blank places are not
/// chosen, and a pinned second counts as the largest gap. The list rises; the maximum is 1 at least.
pub fn doubtful_below(columns: &Columns, threshold: u16, most: usize) -> Vec<u8> {
    let mut places = by_gap(columns, counted_gap).into_iter();
    let mut chosen: Vec<u8> = places.next().into_iter().collect();
    for place in places {
        if chosen.len() >= most || counted_gap(&columns[usize::from(place)]) >= threshold {
            break;
        }
        chosen.push(place);
    }
    chosen.sort_unstable();
    chosen
}

/// A word's costs by place.
fn costs<'a>(columns: &'a Columns, word: &'a [u8; PLACES]) -> impl Iterator<Item = u16> + 'a {
    columns
        .iter()
        .zip(word)
        .map(|(column, symbol)| column[usize::from(*symbol)])
}

/// The sum of a word's costs over the 64 places.
pub fn total(columns: &Columns, word: &[u8; PLACES]) -> u32 {
    costs(columns, word).map(u32::from).sum()
}

/// "Pinned places, where the answer's symbol costs 65535." (Saturated costs.)
pub fn pinned(columns: &Columns, word: &[u8; PLACES]) -> u8 {
    costs(columns, word).filter(|cost| *cost == CEILING).count() as u8
}

/// "Changed places, where the answer is not the best symbol."
pub fn changed(columns: &Columns, word: &[u8; PLACES]) -> u8 {
    let changed = |(column, symbol): &(&Column, &u8)| is_changed(column, **symbol);
    columns.iter().zip(word).filter(changed).count() as u8
}

/// Whether a place with this symbol is changed. A blank place "never counts as differing or changed".
pub fn is_changed(column: &Column, symbol: u8) -> bool {
    !is_blank(column) && best(column) != symbol
}

#[cfg(test)]
mod tests {
    use super::*;

    #[test]
    fn equal_gaps_go_to_the_lower_place() {
        let mut columns = [[9; SYMBOLS]; PLACES];
        for (place, column) in columns.iter_mut().enumerate() {
            column[3] = if place % 2 == 0 { 4 } else { 5 };
        }
        assert_eq!(doubtful_places(&columns, 3), [1, 3, 5]);
        assert_eq!(doubtful_places(&columns, 0), []);
        columns[40][3] = 8;
        assert_eq!(doubtful_places(&columns, 3), [1, 3, 40]);
        columns[40][5] = 8;
        assert_eq!(doubtful_places(&columns, 3), [1, 3, 40]);
    }

    /// The best cost of a column that is pinned otherwise, at place 30; the other places have gap 9
    /// or, if they are even, 40,000.
    fn pinned_at_30(best: u16) -> Columns {
        let mut columns = [[50_009; SYMBOLS]; PLACES];
        for (place, column) in columns.iter_mut().enumerate() {
            column[3] = if place % 2 == 0 { 10_009 } else { 50_000 };
        }
        columns[30] = [CEILING; SYMBOLS];
        columns[30][3] = best;
        columns
    }

    #[test]
    fn pinned_seconds_count_as_the_largest_gap() {
        let column = pinned_at_30(30_000)[30];
        assert_eq!((gap(&column), counted_gap(&column)), (35_535, CEILING));
        for best in [0, 1, 30_000, CEILING - 1] {
            let column = pinned_at_30(best)[30];
            assert_eq!(
                (gap(&column), counted_gap(&column)),
                (CEILING - best, CEILING)
            );
            let mut open = column;
            open[9] = CEILING - 1;
            assert_eq!(
                (gap(&open), counted_gap(&open)),
                (CEILING - 1 - best, CEILING - 1 - best)
            );
        }
        let level = [CEILING; SYMBOLS];
        assert_eq!((gap(&level), counted_gap(&level)), (0, 0));
    }

    /// Place 30 would be the first by its gap of 1, and is the last.
    #[test]
    fn pinned_seconds_are_chosen_last() {
        let mut columns = pinned_at_30(CEILING - 1);
        assert_eq!(smallest(&columns, 3, gap), [1, 3, 30]);
        assert_eq!(doubtful_places(&columns, 3), [1, 3, 5]);
        for column in &mut columns[32..] {
            *column = [CEILING; SYMBOLS];
        }
        assert_eq!(doubtful_places(&columns, 31).len(), 31);
        assert!(!doubtful_places(&columns, 31).contains(&30));
        assert!(doubtful_places(&columns, 32).contains(&30));
    }

    /// Whatever their plain gaps, also where this is the ceiling itself.
    #[test]
    fn pinned_seconds_tie() {
        let mut columns = [[CEILING; SYMBOLS]; PLACES];
        for (place, best) in [
            (5, 0),
            (9, 7),
            (12, CEILING - 1),
            (40, CEILING - 9),
            (50, 3),
        ] {
            columns[place][2] = best;
        }
        assert_eq!(smallest(&columns, 2, gap), [12, 40]);
        for (doubt, places) in [(1, vec![5]), (2, vec![5, 9]), (4, vec![5, 9, 12, 40])] {
            assert_eq!(doubtful_places(&columns, doubt), places);
        }
        columns[60] = [CEILING - 1; SYMBOLS];
        columns[60][0] = 0;
        assert_eq!(doubtful_places(&columns, 2), [5, 60]);
    }

    /// Columns with these gaps at these places, and gap 9,000 at the others.
    fn with_gaps(gaps: &[(usize, u16)]) -> Columns {
        let mut columns = [[10_000; SYMBOLS]; PLACES];
        for column in &mut columns {
            column[3] = 1_000;
        }
        for (place, gap) in gaps {
            columns[*place][3] = 10_000 - gap;
        }
        columns
    }

    #[test]
    fn the_place_of_smallest_gap_is_chosen_whatever_the_threshold() {
        let columns = with_gaps(&[(40, 7), (41, 7), (50, 8)]);
        for threshold in [0, 1, 6, 7] {
            for most in 1..=12 {
                assert_eq!(doubtful_below(&columns, threshold, most), [40]);
            }
        }
        assert_eq!(doubtful_below(&columns, 8, 1), [40]);
        assert_eq!(doubtful_below(&columns, CEILING, 1), [40]);
    }

    /// A gap that is equal to the threshold is not below it.
    #[test]
    fn places_below_the_threshold_are_chosen() {
        let columns = with_gaps(&[(60, 3), (20, 7), (41, 7), (50, 8), (10, 9)]);
        for (threshold, places) in [
            (0, vec![60]),
            (7, vec![60]),
            (8, vec![20, 41, 60]),
            (9, vec![20, 41, 50, 60]),
            (10, vec![10, 20, 41, 50, 60]),
            (9_000, vec![10, 20, 41, 50, 60]),
            (9_001, vec![0, 1, 2, 10, 20, 41, 50, 60]),
            (CEILING, vec![0, 1, 2, 10, 20, 41, 50, 60]),
        ] {
            assert_eq!(doubtful_below(&columns, threshold, 8), places);
        }
    }

    /// The first counts to the maximum, and equal gaps go by the place.
    #[test]
    fn the_maximum_ends_the_list() {
        let columns = with_gaps(&[(60, 3), (20, 7), (41, 7), (50, 8), (10, 9)]);
        for (most, places) in [
            (1, vec![60]),
            (2, vec![20, 60]),
            (3, vec![20, 41, 60]),
            (4, vec![20, 41, 50, 60]),
            (5, vec![10, 20, 41, 50, 60]),
            (6, vec![10, 20, 41, 50, 60]),
        ] {
            assert_eq!(doubtful_below(&columns, 10, most), places);
        }
        for most in 1..=12 {
            let all = doubtful_places(&columns, most);
            assert_eq!(doubtful_below(&columns, 9_001, most), all);
        }
    }

    /// A pinned second has gap 65535, which no threshold exceeds.
    #[test]
    fn pinned_seconds_are_below_no_threshold() {
        let mut columns = pinned_at_30(CEILING - 1);
        for column in &mut columns[..28] {
            *column = [CEILING; SYMBOLS];
        }
        for column in &mut columns[34..] {
            *column = [CEILING; SYMBOLS];
        }
        assert_eq!(doubtful_below(&columns, CEILING, 8), [28, 29, 31, 32, 33]);
        for place in [28, 29, 31, 32, 33] {
            columns[place] = columns[30];
        }
        assert_eq!(doubtful_below(&columns, CEILING, 8), [28]);
        assert_eq!(doubtful_below(&columns, 0, 8), [28]);
    }

    #[test]
    fn blank_places_are_below_no_threshold() {
        let mut columns = [[9; SYMBOLS]; PLACES];
        assert_eq!(doubtful_below(&columns, CEILING, 8), []);
        columns[17][4] = 0;
        assert_eq!(doubtful_below(&columns, 0, 8), [17]);
        columns[5][4] = 0;
        columns[63][4] = 1;
        assert_eq!(doubtful_below(&columns, 8, 8), [63]);
        assert_eq!(doubtful_below(&columns, 10, 8), [5, 17, 63]);
        assert_eq!(doubtful_below(&columns, 10, 2), [5, 63]);
    }

    #[test]
    fn blank_means_all_sixteen_equal() {
        for cost in [0, 1, 7, CEILING - 1, CEILING] {
            assert!(is_blank(&[cost; SYMBOLS]));
            for symbol in 0..SYMBOLS {
                let mut column = [cost; SYMBOLS];
                column[symbol] ^= 1;
                assert!(!is_blank(&column));
            }
        }
    }

    /// A blank place has gap zero, and one with a single other cost may have.
    #[test]
    fn blank_places_are_not_chosen() {
        let mut columns = [[9; SYMBOLS]; PLACES];
        assert_eq!(blank_places(&columns), (0..64).collect::<Vec<u8>>());
        assert_eq!(doubtful_places(&columns, 8), []);
        for place in [2, 60, 61, 63] {
            columns[place][15] = 10;
        }
        columns[60][4] = 1;
        assert_eq!(doubtful_places(&columns, 8), [2, 60, 61, 63]);
        assert_eq!(doubtful_places(&columns, 4), [2, 60, 61, 63]);
        assert_eq!(doubtful_places(&columns, 3), [2, 61, 63]);
        assert_eq!(doubtful_places(&columns, 1), [2]);
        assert_eq!(blank_places(&columns).len(), 60);
    }

    #[test]
    fn totals_sum_the_ceiling_as_it_is() {
        let mut columns = [[CEILING; SYMBOLS]; PLACES];
        let word = [1; PLACES];
        assert_eq!(total(&columns, &word), 64 * 65535);
        assert_eq!(pinned(&columns, &word), 64);
        assert_eq!(changed(&columns, &word), 0);
        for column in &mut columns {
            column[9] -= 1;
        }
        assert_eq!(total(&columns, &word), 64 * 65535);
        assert_eq!(pinned(&columns, &word), 64);
        assert_eq!(changed(&columns, &word), 64);
    }

    #[test]
    fn column_bytes_have_the_high_byte_first() {
        let mut column = [0; SYMBOLS];
        column[1] = 0x1234;
        let bytes = column_bytes(&column);
        assert_eq!(bytes[..4], [0, 0, 0x12, 0x34]);
        assert_eq!(column_of_bytes(&bytes), column);
    }
}
