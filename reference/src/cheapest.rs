//! All codewords that cost less than a given one, without regard to test words.
//!
//! - [`Cheapest`]: disjoint sets of k places, each of which determines a codeword.
//! - [`Cheapest::below`]: every codeword whose total is below a number.
//!
//! What a codeword costs beyond the best symbols is shared out among the sets: in one of n it has no more
//! than an n-th of it. So all choices of symbols with so little are tried in each set, and each choice is
//! one codeword.

use crate::code::Code;
use crate::curve::PLACES;
use crate::field::{inverse, SYMBOLS};
use crate::row::Row;
use crate::soft::{total, Column, Columns};

/// A search through a code.
pub struct Cheapest {
    sets: Vec<Vec<Lead>>,
}

/// A place of a set, and the multiples of the codeword that is 1 there and zero at the set's other places.
struct Lead {
    place: usize,
    multiples: [Row; SYMBOLS],
}

impl Cheapest {
    /// As many sets as the places give one after the other.
    pub fn new(code: &Code) -> Cheapest {
        let mut free: Vec<usize> = (0..PLACES).collect();
        let mut sets = Vec::new();
        while let Some(set) = leads(code, &free) {
            free.retain(|place| set.iter().all(|lead| lead.place != *place));
            sets.push(set);
        }
        Cheapest { sets }
    }

    /// The codewords whose total is below this one; none are told where more than `most` would have to be
    /// tried.
    pub fn below(&self, columns: &Columns, limit: u32, most: usize) -> Option<Vec<Row>> {
        let best: u32 = columns.iter().map(|column| u32::from(least(column))).sum();
        let Some(room) = limit.checked_sub(best + 1) else {
            return Some(Vec::new());
        };
        let mut search = Search {
            columns,
            limit,
            left: most,
            found: Vec::new(),
        };
        for set in &self.sets {
            search.walk(set, Row::default(), room / self.sets.len() as u32)?;
        }
        Some(search.found)
    }
}

/// Some of these places that determine a codeword; none where they do not.
fn leads(code: &Code, places: &[usize]) -> Option<Vec<Lead>> {
    let mut rows = code.monomials.clone();
    let mut chosen: Vec<(usize, Row)> = Vec::new();
    for place in places {
        let Some(at) = rows.iter().position(|row| row.get(*place) != 0) else {
            continue;
        };
        let row = rows.swap_remove(at);
        let row = row.scaled(inverse(row.get(*place)));
        let others = rows.iter_mut().chain(chosen.iter_mut().map(|(_, row)| row));
        for other in others {
            other.add_scaled(other.get(*place), &row);
        }
        chosen.push((*place, row));
    }
    let lead = |(place, row): (usize, Row)| Lead {
        place,
        multiples: std::array::from_fn(|scale| row.scaled(scale as u8)),
    };
    rows.is_empty()
        .then(|| chosen.into_iter().map(lead).collect())
}

fn least(column: &Column) -> u16 {
    column.iter().copied().min().expect("sixteen costs")
}

struct Search<'a> {
    columns: &'a Columns,
    limit: u32,
    /// So many codewords may still be tried.
    left: usize,
    found: Vec<Row>,
}

impl Search<'_> {
    /// Tries the symbols at the set's places that cost no more than the room beyond the best ones.
    fn walk(&mut self, set: &[Lead], word: Row, room: u32) -> Option<()> {
        let Some((lead, rest)) = set.split_first() else {
            self.left = self.left.checked_sub(1)?;
            if total(self.columns, &word.elements()) < self.limit && !self.found.contains(&word) {
                self.found.push(word);
            }
            return Some(());
        };
        let column = &self.columns[lead.place];
        for (cost, multiple) in column.iter().zip(&lead.multiples) {
            let beyond = u32::from(cost - least(column));
            if beyond <= room {
                let mut longer = word;
                longer.add(multiple);
                self.walk(rest, longer, room - beyond)?;
            }
        }
        Some(())
    }
}

#[cfg(test)]
mod tests {
    use super::*;
    use crate::frames::random_codeword;
    use crate::random::Random;

    /// The places give as many sets as there is room for, or one fewer, and each determines a codeword.
    #[test]
    fn sets_are_disjoint() {
        for (rate, sets) in [(6, 10), (7, 8), (20, 2), (39, 1)] {
            let code = Code::of_rate(rate).unwrap();
            let cheapest = Cheapest::new(code);
            assert_eq!(cheapest.sets.len(), sets, "{rate}");
            let mut places: Vec<usize> = Vec::new();
            for set in &cheapest.sets {
                assert_eq!(set.len(), code.symbols);
                for lead in set {
                    let word = lead.multiples[1];
                    assert!(code.message(&word).is_some());
                    let is_one =
                        |other: &Lead| word.get(other.place) == u8::from(other.place == lead.place);
                    assert!(set.iter().all(is_one));
                    places.push(lead.place);
                }
            }
            places.sort_unstable();
            places.dedup();
            assert_eq!(places.len(), sets * code.symbols);
        }
    }

    /// Of the functions of order at most 5 all 4,096 are tried one by one, and those below any total are
    /// the ones that are found.
    #[test]
    fn all_codewords_below_are_found() {
        let code = Code::new(5);
        let cheapest = Cheapest::new(&code);
        for number in 0..20 {
            let mut random = Random::new(123, number);
            let columns: Columns = [(); PLACES].map(|_| [(); 16].map(|_| random.below(9) as u16));
            let mut words: Vec<(u32, Row)> = (0..4096u32)
                .map(|message| {
                    let message = [message >> 8, message >> 4 & 15, message & 15];
                    let word = code.codeword(&message.map(|symbol| symbol as u8));
                    (total(&columns, &word.elements()), word)
                })
                .collect();
            words.sort_by_key(|(total, _)| *total);
            for rank in [0, 1, 5, 40, 700] {
                let limit = words[rank].0;
                let below = words.iter().filter(|(total, _)| *total < limit);
                let found = cheapest.below(&columns, limit, 1 << 20).unwrap();
                assert_eq!(found.len(), below.clone().count());
                assert!(below.into_iter().all(|(_, word)| found.contains(word)));
            }
        }
    }

    #[test]
    fn a_search_ends_where_too_many_would_be_tried() {
        let code = Code::of_rate(6).unwrap();
        let cheapest = Cheapest::new(code);
        let mut random = Random::new(124, 0);
        let columns: Columns = [(); PLACES].map(|_| [(); 16].map(|_| random.below(9) as u16));
        let sent = random_codeword(code, &mut random);
        let limit = total(&columns, &sent.elements());
        assert_eq!(cheapest.below(&columns, limit, 1000), None);
        assert_eq!(cheapest.below(&columns, 0, 1000), Some(Vec::new()));
    }
}
