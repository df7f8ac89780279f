//! Codewords at least distance, and frames between them.
//!
//! - [`pair`]: a frame that has two near codewords, or nearly; [`pair_with`]: with more doubtful places
//!   than they need; [`between`]: of any two codewords.
//! - [`Gaps`]: how far their totals are apart; [`Planted::apart`]: by a number given.
//! - [`Planted::faded`]: the frame with blank places; [`Planted::doubted`]: with more doubtful ones.
//! - [`trio`]: a frame with a third codeword, at least distance from both.
//! - [`clipped_pair`]: a frame that has one of two near by its own list, and the other by the places
//!   that table decoding picks.
//!
//! Two codewords differ in 64 − M places or more, 20 at rate 39 and 10 at rate 49. If both are near,
//! every settled place where they differ is wrong for one of them, and at most T are for each: 12
//! places, or 2. So they differ in eight doubtful places at least. With eight they differ in all of
//! them, one has the best and the other the second symbol there, and they are at least distance apart;
//! a third near codeword would have to differ from both in the doubtful places, with one of the same
//! two symbols, and there is none. With twelve there can be one.
//!
//! With b blank places 2T + b is 12 or 13 at rate 39 and 2 or 3 at rate 49, the larger where b is odd.
//! So with eight doubtful places two near codewords differ at every blank place, or, where b is odd, at
//! all but one of the blank and doubtful ones.

use crate::code::Code;
use crate::curve::PLACES;
use crate::frames::{
    blank_column, clipped_column, codeword_with_zeros, column, random_codeword, Frame,
    DOUBTFUL_GAP, SETTLED_GAP,
};
use crate::light::{light_pair, lightest};
use crate::random::Random;
use crate::row::Row;
use crate::soft::{best, is_blank, total, CEILING};

/// With wide gaps those of doubtful places are at most this, those of settled ones larger.
const WIDE_DOUBTFUL_GAP: usize = 30_000;
/// Above the ceiling, where costs are cut: many are pinned.
const WIDE_SETTLED_GAP: usize = 90_000;

/// Of the places where one of a trio differs from the two others, so many are doubtful.
const TRIO_DOUBT: usize = 4;

/// Half of the least distance is T and so many more, at rates 39 and 49.
const PAIR_DOUBT: usize = 4;

/// Two near codewords differ in so many doubtful places at least, at rates 39 and 49; at no rate do those of
/// least distance need more.
pub const NEAR_DOUBT: usize = 2 * PAIR_DOUBT;

/// How the gaps are drawn where codewords differ.
#[derive(Clone, Copy, Debug, PartialEq, Eq)]
pub enum Gaps {
    /// Each for itself: totals that differ by hundreds.
    Mixed,
    /// All alike, with half of the doubtful places leaning each way: equal totals.
    Alike,
    /// Each for itself and up to the ceiling: totals that may differ by more than two bytes hold.
    Wide,
}

impl Gaps {
    /// The gap of a doubtful place, and that of a settled one.
    fn draw(self, random: &mut Random) -> (usize, usize) {
        let (doubtful, settled) = match self {
            Gaps::Wide => (WIDE_DOUBTFUL_GAP, WIDE_SETTLED_GAP),
            _ => (DOUBTFUL_GAP, SETTLED_GAP),
        };
        (
            random.between(0, doubtful),
            random.between(doubtful + 1, settled),
        )
    }
}

/// A frame, and the codewords that it was made around.
#[derive(Clone, Debug)]
pub struct Planted {
    pub frame: Frame,
    pub codewords: Vec<Row>,
}

impl Planted {
    /// What each of the codewords costs.
    pub fn totals(&self) -> Vec<u32> {
        let total = |codeword: &Row| total(&self.frame.columns, &codeword.elements());
        self.codewords.iter().map(total).collect()
    }

    /// So many places become blank: half of them where the first codeword is wrong and the second is
    /// not, and half the other way round, so that whichever of the two is near stays so with the T
    /// that is left, and the other does not become near. An odd one, and those for which there is no
    /// such place, are any others, doubtful ones first if that is asked for and last if not.
    pub fn faded(mut self, blanks: usize, doubtful: bool, random: &mut Random) -> Planted {
        let wrong = [0, 1].map(|number| random.shuffled(self.wrong(number)));
        let halves = wrong
            .iter()
            .flat_map(|places| places.iter().take(blanks / 2));
        let mut blank: Vec<usize> = halves.copied().collect();
        let others = (0..PLACES).filter(|place| !wrong.concat().contains(place));
        let mut others = random.shuffled(others);
        others.sort_by_key(|place| self.is_doubtful(*place) != doubtful);
        blank.extend(others.iter().take(blanks - blank.len()));
        for place in blank {
            self.frame.columns[place] = blank_column(random);
        }
        self
    }

    /// Settled places become doubtful, until there are so many: some where all the codewords agree, with
    /// their symbol as best or second, so that whichever is near stays so and no other becomes near.
    pub fn doubted(mut self, doubt: usize, random: &mut Random) -> Planted {
        let agree = |place: &usize| {
            let symbol = self.codewords[0].get(*place);
            !self.is_doubtful(*place) && self.codewords.iter().all(|c| c.get(*place) == symbol)
        };
        let more = doubt.saturating_sub(self.frame.doubtful.len());
        let places = random.shuffled((0..PLACES).filter(agree));
        for place in places.into_iter().take(more) {
            let symbol = self.codewords[0].get(place);
            let mut symbols = [symbol, random.other_symbol(symbol)];
            if random.once_in(2) {
                symbols.reverse();
            }
            let gap = random.between(0, DOUBTFUL_GAP);
            self.frame.columns[place] = column(symbols[0], symbols[1], gap, random);
            self.frame.doubtful.push(place as u8);
        }
        self.frame.doubtful.sort_unstable();
        self
    }

    fn is_doubtful(&self, place: usize) -> bool {
        self.frame.doubtful.contains(&(place as u8))
    }

    /// The settled places where the first two codewords differ and one of them is wrong.
    fn wrong(&self, number: usize) -> Vec<usize> {
        let [first, second] = [0, 1].map(|number| &self.codewords[number]);
        let differ = |place: &usize| first.get(*place) != second.get(*place);
        let wrong =
            |place: &usize| best(&self.frame.columns[*place]) != self.codewords[number].get(*place);
        let settled = (0..PLACES).filter(|place| !self.is_doubtful(*place));
        settled.filter(differ).filter(wrong).collect()
    }

    /// The second codeword's total becomes the first one's and `margin` more. One of the two gets
    /// higher costs at settled places where it is wrong, so the test words stay the same.
    pub fn apart(mut self, margin: u32) -> Planted {
        let totals = self.totals();
        let wanted = totals[0] + margin;
        if totals[1] < wanted {
            self.raise(1, wanted - totals[1]);
        } else {
            self.raise(0, totals[1] - wanted);
        }
        self
    }

    fn raise(&mut self, number: usize, mut by: u32) {
        let Frame {
            doubtful, columns, ..
        } = &mut self.frame;
        for (place, column) in columns.iter_mut().enumerate() {
            let symbol = self.codewords[number].get(place);
            let settled = !doubtful.contains(&(place as u8)) && !is_blank(column);
            if !settled || best(column) == symbol {
                continue;
            }
            let cost = &mut column[usize::from(symbol)];
            let raised = by.min(u32::from(CEILING - *cost));
            *cost += raised as u16;
            by -= raised;
        }
        assert_eq!(by, 0, "room below the ceiling");
    }
}

/// Two codewords at least distance, with as few doubtful places as they need, all where they differ.
/// With `lean` = T both are near.
pub fn pair(rate: u64, lean: usize, gaps: Gaps, random: &mut Random) -> Planted {
    pair_with(rate, NEAR_DOUBT, lean, gaps, random)
}

/// The same with so many doubtful places where they differ: with more than [`NEAR_DOUBT`] there are test
/// words within T of each that have some of the other one's symbols.
pub fn pair_with(rate: u64, doubt: usize, lean: usize, gaps: Gaps, random: &mut Random) -> Planted {
    let code = Code::of_rate(rate).expect("a known rate");
    let first = random_codeword(code, random);
    let mut second = first;
    second.add(&lightest(code, random));
    between([first, second], rate, doubt, lean, gaps, random)
}

/// Two codewords: `doubt` of the places where they differ are doubtful; of the others `lean` have the
/// second codeword's symbol as their best, the rest the first one's.
pub fn between(
    [first, second]: [Row; 2],
    rate: u64,
    doubt: usize,
    lean: usize,
    gaps: Gaps,
    random: &mut Random,
) -> Planted {
    let mut draft = Draft::around(&first, rate, gaps, random);
    let differing = (0..PLACES).filter(|place| first.get(*place) != second.get(*place));
    for (number, place) in random.shuffled(differing).into_iter().enumerate() {
        let (a, b) = (first.get(place), second.get(place));
        if number < doubt {
            draft.doubt(place, [a, b], number, random);
        } else if number < doubt + lean {
            draft.settle(place, b, a, random);
        } else {
            draft.settle(place, a, b, random);
        }
    }
    draft.planted(vec![first, second])
}

/// Three codewords, each two of them at least distance apart, such that two of the three agree at
/// every place. Of the places where one of them stands alone [`TRIO_DOUBT`] are doubtful, as far as
/// `doubt` goes round, and the T others lean to those that agree. With a `doubt` of twelve all three
/// are near. With eight the third is [`TRIO_DOUBT`] places too far away; half of the time it costs
/// little.
pub fn trio(rate: u64, doubt: usize, gaps: Gaps, random: &mut Random) -> Planted {
    let code = Code::of_rate(rate).expect("a known rate");
    let first = random_codeword(code, random);
    let differences = light_pair(code, random);
    let others = differences.map(|difference| {
        let mut other = first;
        other.add(&difference);
        other
    });
    let codewords = [first, others[0], others[1]];
    let mut draft = Draft::around(&first, rate, gaps, random);
    let cheap = gaps == Gaps::Mixed && random.once_in(2);
    for alone in 0..codewords.len() {
        let agreeing = [1, 2].map(|step| codewords[(alone + step) % codewords.len()]);
        let part = (0..PLACES).filter(|place| {
            let symbol = agreeing[0].get(*place);
            symbol == agreeing[1].get(*place) && symbol != codewords[alone].get(*place)
        });
        for (number, place) in random.shuffled(part).into_iter().enumerate() {
            let (a, b) = (agreeing[0].get(place), codewords[alone].get(place));
            if number < TRIO_DOUBT && alone * TRIO_DOUBT + number < doubt {
                draft.doubt(place, [a, b], number, random);
            } else if alone == 2 && cheap {
                let gap = random.between(DOUBTFUL_GAP + 1, 2 * DOUBTFUL_GAP);
                draft.frame.columns[place] = column(a, b, gap, random);
            } else {
                draft.settle(place, a, b, random);
            }
        }
    }
    draft.planted(codewords.to_vec())
}

/// Two codewords at least distance, each wrong at T places and [`PAIR_DOUBT`] more. So many of the
/// first one's have pinned seconds, which are its symbols, and the smallest gaps; so many of the second
/// one's have the next larger gap. So the plain gap leads to the first, and table decoding, which
/// spares the pinned ones, to the second.
pub fn clipped_pair(rate: u64, random: &mut Random) -> Planted {
    let code = Code::of_rate(rate).expect("a known rate");
    let difference = lightest(code, random);
    let differing = (0..PLACES as u8).filter(|place| difference.get(usize::from(*place)) != 0);
    let mut first_wrong = random.shuffled(differing);
    let second_wrong = first_wrong.split_off(PAIR_DOUBT + code.reach);
    let first = codeword_with_zeros(code, &first_wrong[..PAIR_DOUBT], random);
    let mut second = first;
    second.add(&difference);
    let mut draft = Draft::around(&first, rate, Gaps::Mixed, random);
    for (number, place) in first_wrong.into_iter().enumerate() {
        let at = usize::from(place);
        if number < PAIR_DOUBT {
            draft.frame.doubtful.push(place);
            draft.frame.columns[at] = clipped_column(second.get(at), DOUBTFUL_GAP - 1, random);
        } else {
            draft.settle(at, second.get(at), first.get(at), random);
        }
    }
    for at in second_wrong.into_iter().take(PAIR_DOUBT).map(usize::from) {
        let leaning = column(first.get(at), second.get(at), DOUBTFUL_GAP, random);
        draft.frame.columns[at] = leaning;
    }
    draft.planted(vec![first, second])
}

/// A frame in the making.
struct Draft {
    frame: Frame,
    gaps: Gaps,
    alike: (usize, usize),
}

impl Draft {
    /// No doubtful place, and the codeword's symbols best everywhere.
    fn around(codeword: &Row, rate: u64, gaps: Gaps, random: &mut Random) -> Draft {
        let columns = codeword.elements().map(|symbol| {
            let other = random.other_symbol(symbol);
            column(symbol, other, gaps.draw(random).1, random)
        });
        let frame = Frame {
            rate,
            doubtful: Vec::new(),
            columns,
        };
        let alike = gaps.draw(random);
        Draft { frame, gaps, alike }
    }

    fn gaps(&self, random: &mut Random) -> (usize, usize) {
        match self.gaps {
            Gaps::Alike => self.alike,
            gaps => gaps.draw(random),
        }
    }

    /// The place is doubtful between two symbols; doubtful places are numbered.
    fn doubt(&mut self, place: usize, symbols: [u8; 2], number: usize, random: &mut Random) {
        let gap = self.gaps(random).0;
        let best = match self.gaps {
            Gaps::Alike => number % 2,
            _ => random.below(2),
        };
        self.frame.doubtful.push(place as u8);
        self.frame.columns[place] = column(symbols[best], symbols[1 - best], gap, random);
    }

    fn settle(&mut self, place: usize, best: u8, second: u8, random: &mut Random) {
        let gap = self.gaps(random).1;
        self.frame.columns[place] = column(best, second, gap, random);
    }

    fn planted(mut self, codewords: Vec<Row>) -> Planted {
        self.frame.doubtful.sort_unstable();
        Planted {
            frame: self.frame,
            codewords,
        }
    }
}

#[cfg(test)]
mod tests {
    use super::*;
    use crate::decode::{decode, near_codewords, Answer};
    use crate::frames::RATES;
    use crate::nearest::Finder;
    use crate::soft::{blank_places, doubtful_places, gap, smallest};

    /// The planted codewords that are near, cheapest first, with their totals. Every codeword found
    /// is one of them.
    fn near(planted: &Planted) -> Vec<(u32, Vec<u8>)> {
        let Frame {
            rate,
            doubtful,
            columns,
        } = &planted.frame;
        let finder = Finder::of_rate(*rate).unwrap();
        let (found, _) = near_codewords(finder, columns, doubtful).unwrap();
        let found = found.into_iter().map(|(_, near)| near);
        let mut near: Vec<(u32, Vec<u8>)> = found
            .map(|near| {
                let mut codewords = planted.codewords.iter().zip(planted.totals());
                let planted = codewords.find(|(codeword, _)| near.codeword == **codeword);
                (planted.unwrap().1, near.message)
            })
            .collect();
        near.sort();
        near
    }

    fn answer(planted: &Planted) -> Option<Answer> {
        let frame = &planted.frame;
        let finder = Finder::of_rate(frame.rate).unwrap();
        decode(finder, &frame.columns, &frame.doubtful).ok()
    }

    /// The answer is the cheapest of the near codewords, and its margin, which is returned, what the
    /// next one costs more.
    fn margin(planted: &Planted) -> Option<u32> {
        let near = near(planted);
        let answer = answer(planted).unwrap();
        assert_eq!((answer.total, &answer.message), (near[0].0, &near[0].1));
        assert_eq!(answer.margin, near.get(1).map(|next| next.0 - near[0].0));
        answer.margin
    }

    fn reach(rate: u64) -> usize {
        Code::of_rate(rate).unwrap().reach
    }

    #[test]
    fn clipped_pairs_are_told_apart_by_the_places_chosen() {
        for rate in RATES {
            let code = Code::of_rate(rate).unwrap();
            let finder = Finder::of_rate(rate).unwrap();
            for number in 0..20 {
                let planted = clipped_pair(rate, &mut Random::new(39, number));
                let columns = &planted.frame.columns;
                let plain = smallest(columns, PAIR_DOUBT, gap);
                assert_eq!(plain, planted.frame.doubtful);
                let chosen = doubtful_places(columns, PAIR_DOUBT);
                for (list, codeword) in [plain, chosen].iter().zip(&planted.codewords) {
                    let answer = decode(finder, columns, list).unwrap();
                    assert_eq!(Some(answer.message), code.message(codeword));
                    assert_eq!((answer.tests, answer.margin), (1, None));
                }
            }
        }
    }

    #[test]
    fn pairs_have_a_margin() {
        for rate in RATES {
            let mut margins = Vec::new();
            for number in 0..40 {
                let mut random = Random::new(33, number);
                let planted = pair(rate, reach(rate), Gaps::Mixed, &mut random);
                assert_eq!(near(&planted).len(), 2);
                let totals = planted.totals();
                assert_eq!(margin(&planted), Some(totals[0].abs_diff(totals[1])));
                margins.extend(margin(&planted));
                let planted = pair(rate, reach(rate), Gaps::Alike, &mut random);
                assert_eq!(near(&planted).len(), 2);
                assert_eq!(margin(&planted), Some(0));
            }
            margins.sort_unstable();
            margins.dedup();
            assert!(margins.len() >= 30);
        }
    }

    /// "Never counts as differing": the two codewords of a frame with blank places differ at these, at
    /// all of them or at all but one.
    #[test]
    fn faded_pairs_have_a_margin_and_differ_at_blank_places() {
        for rate in RATES {
            let (mut doubtful, mut elsewhere) = (0, 0);
            let limit = Code::of_rate(rate).unwrap().blank_limit();
            for number in 0..20 * limit {
                let mut random = Random::new(42, number as u64);
                let blanks = 1 + number % limit;
                let gaps = random.one_of(&[Gaps::Mixed, Gaps::Wide]);
                let planted = pair(rate, reach(rate), gaps, &mut random);
                let planted = planted.faded(blanks, random.once_in(2), &mut random);
                assert_eq!(near(&planted).len(), 2);
                assert!(margin(&planted).is_some());
                let blank = blank_places(&planted.frame.columns);
                assert_eq!(blank.len(), blanks);
                let [first, second] = [0, 1].map(|n| planted.codewords[n]);
                let differ = |place: &&u8| {
                    let place = usize::from(**place);
                    first.get(place) != second.get(place)
                };
                let differing = blank.iter().filter(differ).count();
                assert!(differing >= blanks / 2 * 2);
                elsewhere += u32::from(differing < blanks);
                let of_doubtful = |place: &u8| planted.frame.doubtful.contains(place);
                doubtful += u32::from(blank.iter().any(of_doubtful));
            }
            assert!(doubtful >= 5 && elsewhere >= 5, "{doubtful} {elsewhere}");
        }
    }

    #[test]
    fn faded_pairs_are_uneven_or_apart_as_without_blank_places() {
        for rate in RATES {
            let limit = Code::of_rate(rate).unwrap().blank_limit();
            for blanks in 0..=limit {
                for seed in [43, 44, 45] {
                    let mut random = Random::new(seed, blanks as u64);
                    let odd = random.once_in(2);
                    let planted = pair(rate, reach(rate) + 1, Gaps::Mixed, &mut random);
                    let planted = planted.faded(blanks, odd, &mut random);
                    assert_eq!(margin(&planted), None);
                    assert_eq!(answer(&planted).unwrap().total, planted.totals()[1]);
                    if blanks + 2 <= limit {
                        let planted = pair(rate, reach(rate), Gaps::Mixed, &mut random);
                        let planted = planted.faded(blanks, odd, &mut random).apart(64_000);
                        assert_eq!(blank_places(&planted.frame.columns).len(), blanks);
                        assert_eq!(margin(&planted), Some(64_000));
                    }
                }
            }
        }
    }

    #[test]
    fn uneven_pairs_have_none_though_the_other_may_cost_less() {
        let mut cheaper = 0;
        for rate in RATES {
            for number in 0..40 {
                let mut random = Random::new(34, number);
                let planted = pair(rate, reach(rate) + 1, Gaps::Mixed, &mut random);
                assert_eq!(margin(&planted), None);
                let totals = planted.totals();
                assert_eq!(answer(&planted).unwrap().total, totals[1]);
                cheaper += u32::from(totals[0] < totals[1]);
            }
        }
        assert!(cheaper >= 1);
    }

    #[test]
    fn pairs_are_apart_as_far_as_asked_for() {
        for rate in RATES {
            for (number, apart) in [0, 1, 2, 255, 256, 4095, 64_000].into_iter().enumerate() {
                for seed in [35, 36, 37] {
                    let mut random = Random::new(seed, number as u64);
                    let planted = pair(rate, reach(rate), Gaps::Mixed, &mut random).apart(apart);
                    assert_eq!(near(&planted).len(), 2);
                    assert_eq!(margin(&planted), Some(apart));
                }
            }
        }
        let planted = pair(39, 6, Gaps::Mixed, &mut Random::new(38, 0)).apart(300_000);
        assert_eq!(margin(&planted), Some(300_000));
    }

    #[test]
    fn wide_pairs_have_margins_of_three_bytes_and_pinned_places() {
        for rate in RATES {
            let (mut wide, mut pinned) = (0, 0);
            for number in 0..40 {
                let mut random = Random::new(39, number);
                let planted = pair(rate, reach(rate), Gaps::Wide, &mut random);
                assert_eq!(near(&planted).len(), 2);
                wide += u32::from(margin(&planted) > Some(65535));
                pinned += u32::from(answer(&planted).unwrap().pinned > 0);
            }
            assert!(wide >= 4 && pinned >= 4, "{wide} {pinned}");
        }
    }

    /// With nine to twelve doubtful places where two codewords differ, or ten at rate 49, several test
    /// words are near each; with others doubled both stay near.
    #[test]
    fn pairs_stay_near_with_more_doubtful_places() {
        for rate in RATES {
            let distance = PLACES - Code::of_rate(rate).unwrap().top;
            for doubt in NEAR_DOUBT..=12 {
                for number in 0..6 {
                    let mut random = Random::new(46, number);
                    let differing = doubt.min(distance);
                    let planted = pair_with(rate, differing, reach(rate), Gaps::Mixed, &mut random);
                    let planted = planted.doubted(doubt, &mut random);
                    assert_eq!(near(&planted).len(), 2);
                    assert!(margin(&planted).is_some());
                    let Frame {
                        doubtful, columns, ..
                    } = &planted.frame;
                    assert_eq!(doubtful_places(columns, doubt), *doubtful);
                    let tests = answer(&planted).unwrap().tests;
                    assert_eq!(tests > 2, differing > NEAR_DOUBT, "{tests}");
                    let planted = pair(rate, reach(rate) + 1, Gaps::Mixed, &mut random);
                    let planted = planted.doubted(doubt, &mut random);
                    assert_eq!(planted.frame.doubtful.len(), doubt);
                    assert_eq!(margin(&planted), None);
                }
            }
        }
    }

    #[test]
    fn the_third_of_a_trio_is_not_near_and_may_cost_least() {
        for rate in RATES {
            let (mut cheapest, mut next) = (0, 0);
            for number in 0..40 {
                let mut random = Random::new(40, number);
                let doubt = NEAR_DOUBT + number as usize % TRIO_DOUBT;
                let planted = trio(rate, doubt, Gaps::Mixed, &mut random);
                let totals = planted.totals();
                assert_eq!(near(&planted).len(), 2);
                assert_eq!(margin(&planted), Some(totals[0].abs_diff(totals[1])));
                let below = totals[..2].iter().filter(|total| totals[2] < **total);
                match below.count() {
                    2 => cheapest += 1,
                    1 => next += 1,
                    _ => (),
                }
            }
            assert!(cheapest >= 5 && next >= 1, "{cheapest} {next}");
        }
    }

    #[test]
    fn trios_with_twelve_doubtful_places_have_three_near_codewords() {
        for rate in RATES {
            let mut least = [0; 3];
            for number in 0..12 {
                let mut random = Random::new(41, number);
                let planted = trio(rate, 3 * TRIO_DOUBT, Gaps::Mixed, &mut random);
                assert_eq!(near(&planted).len(), 3);
                assert!(margin(&planted).is_some());
                let totals = planted.totals();
                let cheapest = (0..3).min_by_key(|n| totals[*n]).unwrap();
                least[cheapest] += 1;
            }
            assert!(least.iter().all(|times| *times >= 1), "{least:?}");
            let planted = trio(rate, 3 * TRIO_DOUBT, Gaps::Alike, &mut Random::new(41, 12));
            assert_eq!(near(&planted).len(), 3);
            assert_eq!(margin(&planted), Some(0));
        }
    }
}
