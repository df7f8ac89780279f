//! Frames drawn in search of those that cost most, and the ones that did.
//!
//! - [`Drawn`], [`Drawn::made`]: a frame with [`DRAWN_DOUBT`] doubtful places, made from a rate and a list of
//!   numbers: the first draws it, each one after it changes it a little.
//! - [`Drawn::named`]: from its rate and numbers as text, as it is printed.
//! - [`worst`]: those that cost most of all that a search found, from `worst.txt`.
//!
//! The tree of test words lives on as long as there is a locator of low order, and such are the products
//! of functions that are zero at many places: x − a at the four places of a fibre, y − mx − b at the five
//! of a line. So wrong and doubtful places are drawn along them, and along others.

use std::fmt;

use crate::code::Code;
use crate::curve::{points, PLACES};
use crate::field::times;
use crate::frames::{
    blank_column, blank_limit, column, random_codeword, DOUBTFUL_GAP, SETTLED_GAP,
};
use crate::light::lightest;
use crate::random::Random;
use crate::row::Row;
use crate::soft::Columns;

/// The doubt of the frames that are drawn.
pub const DRAWN_DOUBT: usize = 8;

const SEED: u64 = 27;

/// The places above one x.
const FIBRE: usize = 4;

/// Wrong settled places are fewer than this: more than twice T at rate 39.
const WRONG: usize = 14;

/// In which order places are taken for wrong and doubtful ones.
#[derive(Clone, Copy, Debug, PartialEq, Eq)]
enum Along {
    Anything,
    /// One after the other, from any place on.
    Places,
    /// The four places of an x, then those of another.
    Fibres,
    /// Places of the same number above each x.
    Numbers,
    /// The five places of a line, then those of another with the same slope.
    Lines,
    /// Where a codeword of least weight is not zero; what is wrong there is as in the codeword that
    /// differs by it.
    Codeword,
}

const ALONG: [Along; 6] = [
    Along::Anything,
    Along::Places,
    Along::Fibres,
    Along::Numbers,
    Along::Lines,
    Along::Codeword,
];

/// What a place is.
#[derive(Clone, Copy, Debug, PartialEq, Eq)]
enum Sort {
    Settled,
    Doubtful,
    Blank,
}

/// A place, and what its best and its second symbol are more than the one sent.
#[derive(Clone, Copy, Debug, PartialEq, Eq)]
struct Place {
    sort: Sort,
    best: u8,
    second: u8,
}

impl Place {
    fn right(random: &mut Random) -> Place {
        Place {
            sort: Sort::Settled,
            best: 0,
            second: random.other_symbol(0),
        }
    }

    /// Another symbol as best; the second stays another than the best.
    fn with_best(mut self, best: u8, random: &mut Random) -> Place {
        self.best = best;
        while self.second == best {
            self.second = random.symbol();
        }
        self
    }

    fn is_wrong(&self) -> bool {
        match self.sort {
            Sort::Settled => self.best != 0,
            Sort::Doubtful => self.best != 0 && self.second != 0,
            Sort::Blank => false,
        }
    }
}

/// A frame for eight doubtful places, and the numbers that it is made from.
#[derive(Clone, Debug, PartialEq, Eq)]
pub struct Drawn {
    pub rate: u64,
    pub numbers: Vec<u64>,
    places: [Place; PLACES],
}

impl Drawn {
    /// The frame of these numbers, of which there is one at least.
    pub fn made(rate: u64, numbers: &[u64]) -> Drawn {
        let (first, changes) = numbers.split_first().expect("a number to draw from");
        let random = |number: u64| Random::new(SEED, rate << 48 | number);
        let drawn = Drawn {
            rate,
            numbers: vec![*first],
            places: drawn(rate, &mut random(*first)),
        };
        changes
            .iter()
            .fold(drawn, |drawn, change| drawn.changed(*change))
    }

    /// This frame with a little changed, by a number.
    pub fn changed(&self, number: u64) -> Drawn {
        let mut random = Random::new(!SEED, self.rate << 48 | number);
        let mut changed = self.clone();
        changed.numbers.push(number);
        for _ in 0..random.between(1, 3) {
            change(&mut changed.places, &mut random);
        }
        changed
    }

    /// The columns around a random codeword: only what differs from it shapes the tree.
    pub fn columns(&self) -> Columns {
        let code = Code::of_rate(self.rate).expect("a known rate");
        let mut random = Random::new(SEED, self.rate << 48 | 1 << 40 | self.numbers[0]);
        let sent = random_codeword(code, &mut random);
        std::array::from_fn(|at| {
            let Place { sort, best, second } = self.places[at];
            let (low, high) = match sort {
                Sort::Doubtful => (1, DOUBTFUL_GAP),
                Sort::Settled => (DOUBTFUL_GAP + 1, SETTLED_GAP),
                Sort::Blank => return blank_column(&mut random),
            };
            let gap = random.between(low, high);
            let [best, second] = [best, second].map(|more| sent.get(at) ^ more);
            column(best, second, gap, &mut random)
        })
    }

    /// Whether another frame has the same symbols, but for those sent.
    pub fn is_like(&self, other: &Drawn) -> bool {
        self.places == other.places
    }

    /// The numbers, with commas between them.
    pub fn numbers(&self) -> String {
        let numbers: Vec<String> = self.numbers.iter().map(u64::to_string).collect();
        numbers.join(",")
    }

    /// Settled places that are wrong, doubtful ones where the sent symbol is neither best nor second, and
    /// blank ones.
    pub fn counts(&self) -> [usize; 3] {
        let count = |of: fn(&&Place) -> bool| self.places.iter().filter(of).count();
        [
            count(|place| place.sort == Sort::Settled && place.is_wrong()),
            count(|place| place.sort == Sort::Doubtful && place.is_wrong()),
            count(|place| place.sort == Sort::Blank),
        ]
    }

    /// The frame of a line that begins with a rate and numbers.
    pub fn named(line: &str) -> Option<Drawn> {
        let name = line.split(':').next()?;
        let (rate, numbers) = name.split_once(' ')?;
        let rate = rate.parse().ok()?;
        Code::of_rate(rate).ok()?;
        let numbers: Result<Vec<u64>, _> = numbers.split(',').map(str::parse).collect();
        Some(Drawn::made(rate, &numbers.ok()?))
    }
}

impl fmt::Display for Drawn {
    fn fmt(&self, out: &mut fmt::Formatter) -> fmt::Result {
        write!(out, "{} {}", self.rate, self.numbers())
    }
}

/// The frames of `worst.txt` at a rate, dearest first.
pub fn worst(rate: u64) -> Vec<Drawn> {
    let lines = include_str!("../worst.txt").lines();
    let frames = lines.map(|line| Drawn::named(line).expect("a rate and numbers"));
    frames.filter(|frame| frame.rate == rate).collect()
}

/// Eight doubtful places, up to [`WRONG`] wrong ones and, once in four, blank ones.
fn drawn(rate: u64, random: &mut Random) -> [Place; PLACES] {
    let code = Code::of_rate(rate).expect("a known rate");
    let along = random.one_of(&ALONG);
    let (order, toward) = order(along, code, random);
    let wrong = random.below(WRONG);
    let mut doubtful: Vec<usize> = match random.below(3) {
        0 => order[random.below(WRONG)..].to_vec(),
        1 => random.shuffled(order[..wrong + DRAWN_DOUBT].to_vec()),
        _ => random.shuffled(0..PLACES),
    };
    doubtful.truncate(DRAWN_DOUBT);
    let mut places = [(); PLACES].map(|_| Place::right(random));
    let more = |at: usize, random: &mut Random| match toward.get(at) {
        0 => random.other_symbol(0),
        symbol => symbol,
    };
    let of_wrong = order.iter().filter(|at| !doubtful.contains(at));
    for at in of_wrong.take(wrong) {
        let best = more(*at, random);
        places[*at] = places[*at].with_best(best, random);
    }
    let quarters = random.below(5);
    for at in doubtful {
        let mut symbols = match random.below(4) < quarters {
            true => [0, more(at, random)],
            false => {
                let best = more(at, random);
                [best, random.other_symbol(best)]
            }
        };
        if random.once_in(2) {
            symbols.reverse();
        }
        places[at] = Place {
            sort: Sort::Doubtful,
            best: symbols[0],
            second: symbols[1],
        };
    }
    if random.once_in(4) {
        let blanks = random.between(1, blank_limit(rate));
        let settled = (0..PLACES).filter(|at| places[*at].sort == Sort::Settled);
        for at in random.shuffled(settled).into_iter().take(blanks) {
            places[at].sort = Sort::Blank;
        }
    }
    places
}

/// All places in an order, and a word that is zero but where wrong symbols are to follow it.
fn order(along: Along, code: &Code, random: &mut Random) -> (Vec<usize>, Row) {
    let none = Row::from_elements([0; PLACES]);
    let fibres = |random: &mut Random| random.shuffled(0..PLACES / FIBRE);
    let order = match along {
        Along::Anything => random.shuffled(0..PLACES),
        Along::Places => {
            let first = random.below(PLACES);
            (first..first + PLACES).map(|at| at % PLACES).collect()
        }
        Along::Fibres => {
            let places = |x| (0..FIBRE).map(move |number| FIBRE * x + number);
            fibres(random).into_iter().flat_map(places).collect()
        }
        Along::Numbers => {
            let fibres = fibres(random);
            let numbers = random.shuffled(0..FIBRE);
            let places = |number| fibres.iter().map(move |x| FIBRE * x + number);
            numbers.into_iter().flat_map(places).collect()
        }
        Along::Lines => {
            let slope = random.symbol();
            let starts = random.shuffled(0..16u8);
            let start = |at: usize| points()[at].y ^ times(slope, points()[at].x);
            let line = |b: &u8| (0..PLACES).filter(|at| start(*at) == *b).collect();
            let mut lines: Vec<Vec<usize>> = starts.iter().map(line).collect();
            lines.sort_by_key(|line| line.len() < 5);
            lines.concat()
        }
        Along::Codeword => {
            let toward = lightest(code, random);
            let mut order = random.shuffled(0..PLACES);
            order.sort_by_key(|at| toward.get(*at) == 0);
            return (order, toward);
        }
    };
    (order, none)
}

/// One place changed, or two exchanged.
fn change(places: &mut [Place; PLACES], random: &mut Random) {
    let of_sort = |places: &[Place; PLACES], sort: Sort, random: &mut Random| {
        let all: Vec<usize> = (0..PLACES).filter(|at| places[*at].sort == sort).collect();
        random.one_of(&all)
    };
    let doubtful = of_sort(places, Sort::Doubtful, random);
    let settled = of_sort(places, Sort::Settled, random);
    let wrong: Vec<usize> = (0..PLACES).filter(|at| places[*at].is_wrong()).collect();
    match random.below(6) {
        0 => places.swap(doubtful, settled),
        1 => {
            let sorts = [places[doubtful].sort, places[settled].sort];
            places[settled].sort = sorts[0];
            places[doubtful].sort = sorts[1];
        }
        2 if !wrong.is_empty() => places.swap(random.one_of(&wrong), settled),
        3 if !wrong.is_empty() => {
            let at = random.one_of(&wrong);
            places[at] = places[at].with_best(0, random);
        }
        4 => {
            let best = random.other_symbol(0);
            places[settled] = places[settled].with_best(best, random);
        }
        _ => {
            let best = random.symbol();
            places[doubtful] = places[doubtful].with_best(best, random);
            places[doubtful].second = random.other_symbol(best);
        }
    }
}

#[cfg(test)]
mod tests {
    use super::*;
    use crate::frames::RATES;
    use crate::measured::CALLS;
    use crate::soft::{best, blank_places, doubtful_places, second};

    /// Drawn frames, and what comes of changing them a few times.
    fn frames() -> impl Iterator<Item = Drawn> {
        (0..400u64).map(|number| {
            let rate = RATES[number as usize % 2];
            let changes = (0..number % 5).map(|change| 7 * number + change);
            Drawn::made(rate, &[vec![number], changes.collect()].concat())
        })
    }

    /// Table decoding picks the doubtful places, and there are no more blank ones than there may be.
    #[test]
    fn columns_are_as_the_places_say() {
        for frame in frames() {
            let columns = frame.columns();
            let of_sort = |sort: Sort| {
                let places = (0..PLACES as u8).zip(frame.places);
                let places = places.filter(move |(_, place)| place.sort == sort);
                places.map(|(at, _)| at).collect::<Vec<u8>>()
            };
            let doubtful = doubtful_places(&columns, DRAWN_DOUBT);
            assert_eq!(doubtful.len(), DRAWN_DOUBT);
            assert_eq!(doubtful, of_sort(Sort::Doubtful));
            let blank = blank_places(&columns);
            assert_eq!(blank, of_sort(Sort::Blank));
            assert!(blank.len() <= blank_limit(frame.rate));
            for (column, place) in columns.iter().zip(frame.places) {
                let apart = best(column) ^ second(column);
                assert_eq!(place.best == place.second, apart == 0);
                assert!(place.sort == Sort::Blank || apart == place.best ^ place.second);
            }
        }
    }

    #[test]
    fn names_make_the_frames_again() {
        for frame in frames() {
            assert_eq!(Drawn::named(&frame.to_string()), Some(frame.clone()));
            let (last, others) = frame.numbers.split_last().unwrap();
            if !others.is_empty() {
                let before = Drawn::made(frame.rate, others);
                assert_eq!(before.changed(*last), frame);
            }
        }
        let drawn = Drawn::made(39, &[5, 6]);
        assert_eq!(drawn.to_string(), "39 5,6");
        assert_eq!(Drawn::named("39 5,6: 1,000, none near"), Some(drawn));
        for wrong in ["", "39", "53 5", "39 5,", "39 x", "five 5"] {
            assert_eq!(Drawn::named(wrong), None, "{wrong}");
        }
    }

    /// No two frames are like each other, and changes change something nearly always.
    #[test]
    fn frames_differ() {
        let all: Vec<Drawn> = frames().collect();
        for (at, frame) in all.iter().enumerate() {
            assert!(all[..at].iter().all(|other| !frame.is_like(other)));
        }
        let unchanged = (0..1000).filter(|change| all[7].changed(*change).is_like(&all[7]));
        assert!(unchanged.count() < 100);
    }

    #[test]
    fn orders_take_every_place_once() {
        let mut random = Random::new(86, 0);
        for along in ALONG {
            let code = Code::of_rate(39).unwrap();
            let (order, toward) = order(along, code, &mut random);
            let mut all = order.clone();
            all.sort_unstable();
            assert_eq!(all, (0..PLACES).collect::<Vec<usize>>());
            assert_eq!(
                toward.weight(),
                if along == Along::Codeword { 20 } else { 0 }
            );
            let xs = |places: &[usize]| {
                let mut xs: Vec<u8> = places.iter().map(|at| points()[*at].x).collect();
                xs.sort_unstable();
                xs.dedup();
                xs.len()
            };
            match along {
                Along::Fibres => assert_eq!(xs(&order[..8]), 2),
                Along::Numbers => assert_eq!(xs(&order[..16]), 16),
                Along::Places => assert!(xs(&order[..8]) <= 3),
                Along::Lines => assert_eq!(xs(&order[..5]), 5),
                _ => (),
            }
        }
    }

    #[test]
    fn as_many_are_kept_as_are_measured() {
        for rate in RATES {
            assert_eq!(worst(rate).len(), CALLS as usize);
        }
    }
}
