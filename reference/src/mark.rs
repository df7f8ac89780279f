//! The mark: no codeword at all, near or not, costs less than the answer.
//!
//! - [`Standing`]: what the answer costs beyond the best symbols, and what every other codeword does at
//!   least.
//!
//! Another codeword differs from the answer in 64 − M places or more, c of which are changed at most. At
//! the others the answer has a symbol of least cost, and the other codeword costs the gap more at least.

use crate::code::Code;
use crate::curve::PLACES;
use crate::soft::{is_changed, total, Column, Columns};

/// How a codeword stands among all.
#[derive(Clone, Copy, Debug, PartialEq, Eq)]
pub struct Standing {
    /// "Its total, minus the sum of all best costs."
    pub excess: u32,
    /// "The sum of the smallest 64 − M − c plain gaps (second minus best, without #104) over unchanged
    /// places; the sum is zero where that number isn't positive."
    pub slack: u32,
}

impl Standing {
    /// "A blank place counts as unchanged, with gap zero": that is the gap of equal costs.
    pub fn of(code: &Code, columns: &Columns, codeword: &[u8; PLACES]) -> Standing {
        let mut best = 0;
        let mut gaps = Vec::new();
        for (column, symbol) in columns.iter().zip(codeword) {
            let [least, next] = two_least(column);
            best += u32::from(least);
            if !is_changed(column, *symbol) {
                gaps.push(next - least);
            }
        }
        gaps.sort_unstable();
        let changed = PLACES - gaps.len();
        let few = (PLACES - code.top).saturating_sub(changed);
        Standing {
            excess: total(columns, codeword) - best,
            slack: gaps.into_iter().take(few).map(u32::from).sum(),
        }
    }

    /// "Mark the answer exactly if" the one "is at most" the other.
    pub fn is_marked(&self) -> bool {
        self.excess <= self.slack
    }
}

/// The best cost and the second.
fn two_least(column: &Column) -> [u16; 2] {
    let mut costs = *column;
    costs.sort_unstable();
    [costs[0], costs[1]]
}

#[cfg(test)]
mod tests {
    use super::*;
    use crate::frames::{column, frame_s, random_codeword};
    use crate::random::Random;
    use crate::row::Row;
    use crate::soft::CEILING;

    fn of(rate: u64, columns: &Columns, codeword: &[u8; PLACES]) -> Standing {
        Standing::of(Code::of_rate(rate).unwrap(), columns, codeword)
    }

    fn standing(excess: u32, slack: u32) -> Standing {
        Standing { excess, slack }
    }

    /// R1, R3 and R5 of the bench sheet: of 20 − 6, 20 − 7 and 10 − 1 unchanged places each has gap 40.
    #[test]
    fn frames_of_the_bench_sheet_are_marked() {
        let zero = [0; PLACES];
        for (rate, wrong, expected) in [
            (39, 6, standing(180, 14 * 40)),
            (39, 7, standing(210, 13 * 40)),
            (49, 1, standing(30, 9 * 40)),
        ] {
            let standing = of(rate, &frame_s(wrong), &zero);
            assert_eq!(standing, expected);
            assert!(standing.is_marked());
        }
    }

    /// Symbol 0 costs so much at place 0, where 1 is best; elsewhere 0 costs 0 and the others 1.
    fn one_wrong(cost: u16) -> Columns {
        let mut columns = [[1; 16]; PLACES];
        for column in &mut columns {
            column[0] = 0;
        }
        columns[0] = [40; 16];
        columns[0][1] = 0;
        columns[0][0] = cost;
        columns
    }

    #[test]
    fn the_excess_may_be_the_slack_and_no_more() {
        for (cost, marked) in [(1, true), (18, true), (19, true), (20, false), (40, false)] {
            let found = of(39, &one_wrong(cost), &[0; PLACES]);
            assert_eq!(found, standing(u32::from(cost), 19));
            assert_eq!(found.is_marked(), marked, "{cost}");
        }
    }

    /// A blank place takes one of the gaps, and its costs are among the best ones.
    #[test]
    fn blank_places_have_gap_zero() {
        for blanks in 1..=13 {
            let mut columns = one_wrong(19 - blanks as u16);
            columns[64 - blanks..].fill([7; 16]);
            let expected = 19 - blanks as u32;
            assert_eq!(of(39, &columns, &[0; PLACES]), standing(expected, expected));
        }
    }

    /// The plain gap, where the gap that chooses doubtful places counts as 65535.
    #[test]
    fn pinned_seconds_have_their_plain_gap() {
        let mut columns = one_wrong(19);
        for column in &mut columns[1..] {
            *column = [CEILING; 16];
            column[0] = CEILING - 1;
        }
        assert_eq!(of(39, &columns, &[0; PLACES]), standing(19, 19));
    }

    /// As many places changed as codewords differ in, or more: no gap is left to sum.
    #[test]
    fn nothing_is_summed_where_all_are_changed() {
        for changed in [6, 7, 8, 64] {
            let mut columns = one_wrong(0);
            for column in &mut columns {
                *column = [5; 16];
                column[0] = 0;
            }
            let mut word = [0; PLACES];
            word[..changed].fill(9);
            let slack = if changed == 6 { 5 } else { 0 };
            assert_eq!(of(52, &columns, &word), standing(5 * changed as u32, slack));
        }
    }

    /// All codewords of a code with few message symbols.
    fn all(code: &Code) -> Vec<[u8; PLACES]> {
        let mut words = vec![Row::default()];
        for monomial in &code.monomials {
            let multiples: Vec<Row> = (0..16).map(|scale| monomial.scaled(scale)).collect();
            let longer = words.iter().flat_map(|word| {
                multiples.iter().map(|multiple| {
                    let mut sum = *word;
                    sum.add(multiple);
                    sum
                })
            });
            words = longer.collect();
        }
        words.iter().map(Row::elements).collect()
    }

    /// With the functions of order up to 0, 4, 5 and 8 all codewords are tried, 65,536 at most: a marked
    /// one costs least. The columns lean to it and to another one.
    #[test]
    fn no_codeword_costs_less_than_a_marked_one() {
        let (mut marked, mut undercut) = (0, 0);
        for (top, frames) in [(0, 400), (4, 400), (5, 120), (8, 60)] {
            let code = Code::new(top);
            let words = all(&code);
            for number in 0..frames {
                let mut random = Random::new(111, number);
                let [sent, rival] = [(); 2].map(|_| random_codeword(&code, &mut random));
                let wrong = random.between(8, 48);
                let most = random.one_of(&[1, 3, 9]);
                let columns: Columns = std::array::from_fn(|place| {
                    let mut symbols = [sent.get(place), rival.get(place)];
                    if symbols[0] == symbols[1] {
                        symbols[1] = random.other_symbol(symbols[0]);
                    }
                    if random.below(PLACES) < wrong {
                        symbols.reverse();
                    }
                    let gap = random.between(0, most);
                    column(symbols[0], symbols[1], gap, &mut random)
                });
                let standing = Standing::of(&code, &columns, &sent.elements());
                let least = words
                    .iter()
                    .map(|word| total(&columns, word))
                    .min()
                    .unwrap();
                let cheaper = least < total(&columns, &sent.elements());
                assert!(!(standing.is_marked() && cheaper));
                marked += u32::from(standing.is_marked());
                undercut += u32::from(cheaper);
            }
        }
        assert!(marked >= 300 && undercut >= 100, "{marked} {undercut}");
    }
}
