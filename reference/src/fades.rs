//! Fades that leave noise: consecutive places where symbols come as they fall, and all others right.
//!
//! - [`WIDTHS`]: how many places a fade takes; [`Left`]: what it leaves of the sent symbols.
//! - [`Fade`], [`Fade::made`]: one of them, as a frame; [`Fade::numbered`]: the number goes round rates,
//!   what is left, widths, doubts ([`DOUBTS`]) and numbers of blank places.
//! - [`Fade::calls`]: the calls of a session that takes it.
//!
//! Eight consecutive places lie above two or three x, twelve above three or four, so that few functions
//! x − a are zero at all of them: however the noise falls out there is a locator of low order, and the
//! whole tree of test words has rows within the limit though no codeword is near.

use crate::call_lists::{delivery, opening, whole};
use crate::calls::Call;
use crate::code::Code;
use crate::curve::PLACES;
use crate::frames::{
    blank_column, blank_limit, column, random_codeword, Frame, DOUBTFUL_GAP, RATES, SETTLED_GAP,
};
use crate::random::Random;
use crate::soft::DOUBT_LIMIT;

/// How many places a fade takes.
pub const WIDTHS: [usize; 2] = [8, 12];

/// The gaps of a fade's settled places are at most this, those of all others larger.
const FADED_GAP: usize = 2 * DOUBTFUL_GAP;

/// What a fade leaves of the sent symbols. T is that of the number of blank places.
#[derive(Clone, Copy, Debug, PartialEq, Eq, PartialOrd, Ord)]
pub enum Left {
    /// Any symbol is best, and any other second.
    Noise,
    /// At all places but T the sent symbol is best, or second and the place doubtful: some test word is
    /// within T.
    Reach,
    /// At all places but T + 1: none is.
    Beyond,
}

pub const LEFT: [Left; 3] = [Left::Noise, Left::Reach, Left::Beyond];

/// The largest doubt of each width: its doubtful places lie in the fade.
pub const DOUBTS: [usize; WIDTHS.len()] = [room(WIDTHS[0]), room(WIDTHS[1])];

const fn room(width: usize) -> usize {
    if width < DOUBT_LIMIT {
        width
    } else {
        DOUBT_LIMIT
    }
}

/// Fades of each rate, sort, width and doubt: numbers go round these.
pub const ROUND: usize = RATES.len() * LEFT.len() * (DOUBTS[0] + 1 + DOUBTS[1] + 1);

/// A frame with a fade, of which as many places are doubtful as the doubt asks for.
#[derive(Clone, Debug, PartialEq, Eq)]
pub struct Fade {
    pub width: usize,
    pub left: Left,
    pub blanks: usize,
    pub frame: Frame,
}

impl Fade {
    /// Fade `number` of a seed. In every second round there are blank places beside it, from one to as
    /// many as there may be.
    pub fn numbered(seed: u64, number: u64) -> Fade {
        let mut random = Random::new(seed, number);
        let round = number as usize / ROUND;
        let mut number = number as usize % ROUND;
        let mut next = |limit: usize| {
            let next = number % limit;
            number /= limit;
            next
        };
        let rate = RATES[next(RATES.len())];
        let left = LEFT[next(LEFT.len())];
        let (width, doubt) = match next(ROUND) {
            doubt if doubt <= DOUBTS[0] => (WIDTHS[0], doubt),
            more => (WIDTHS[1], more - DOUBTS[0] - 1),
        };
        let blanks = match round % 2 {
            0 => 0,
            _ => 1 + (round / 2 + doubt) % blank_limit(rate),
        };
        Fade::made(rate, width, left, [doubt, blanks], &mut random)
    }

    /// A fade of so many places with so many doubtful ones, which have the smallest gaps; the others of
    /// the fade have the next larger ones.
    pub fn made(
        rate: u64,
        width: usize,
        left: Left,
        [doubt, blanks]: [usize; 2],
        random: &mut Random,
    ) -> Fade {
        let code = Code::of_rate(rate).expect("a known rate");
        let reach = code
            .reach_with(blanks)
            .expect("no more blank places than may be");
        let sent = random_codeword(code, random);
        let first = random.below(PLACES - width + 1);
        let faded: Vec<u8> = (first..first + width).map(|place| place as u8).collect();
        let some = |count: usize, random: &mut Random| {
            let mut places = random.shuffled(faded.clone());
            places.truncate(count);
            places
        };
        let wrong = match left {
            Left::Noise => Vec::new(),
            Left::Reach => some(reach, random),
            Left::Beyond => some(reach + 1, random),
        };
        let mut doubtful = some(doubt, random);
        doubtful.sort_unstable();
        let mut columns = std::array::from_fn(|place| {
            let symbol = sent.get(place);
            let place = place as u8;
            let other = random.other_symbol(symbol);
            let (low, high) = match (faded.contains(&place), doubtful.contains(&place)) {
                (_, true) => (0, DOUBTFUL_GAP),
                (true, false) => (DOUBTFUL_GAP + 1, FADED_GAP),
                (false, false) => (FADED_GAP + 1, SETTLED_GAP),
            };
            let (best, second) = match left {
                _ if !faded.contains(&place) => (symbol, other),
                Left::Noise => any_two(random),
                _ if wrong.contains(&place) => other_two(symbol, random),
                _ if doubtful.contains(&place) && random.once_in(2) => (other, symbol),
                _ => (symbol, other),
            };
            column(best, second, random.between(low, high), random)
        });
        let others = (0..PLACES as u8).filter(|place| !faded.contains(place));
        for place in random.shuffled(others).into_iter().take(blanks) {
            columns[usize::from(place)] = blank_column(random);
        }
        Fade {
            width,
            left,
            blanks,
            frame: Frame {
                rate,
                doubtful,
                columns,
            },
        }
    }

    /// A session that is opened with the doubtful places, given all columns in random order, read, closed
    /// and written.
    pub fn calls(&self, random: &mut Random) -> Vec<Call> {
        let mut calls = vec![opening(&self.frame)];
        let arrivals = random.shuffled(0..PLACES as u8);
        calls.extend(arrivals.iter().map(|place| delivery(&self.frame, *place)));
        calls.extend(whole(&self.frame));
        calls
    }
}

/// Two symbols that differ.
pub(crate) fn any_two(random: &mut Random) -> (u8, u8) {
    let best = random.symbol();
    (best, random.other_symbol(best))
}

/// Two symbols that differ from each other and from this one.
pub(crate) fn other_two(symbol: u8, random: &mut Random) -> (u8, u8) {
    let best = random.other_symbol(symbol);
    let mut second = random.other_symbol(best);
    while second == symbol {
        second = random.other_symbol(best);
    }
    (best, second)
}

#[cfg(test)]
mod tests {
    use super::*;
    use crate::decode::decode;
    use crate::nearest::Finder;
    use crate::refusal::Refusal;
    use crate::soft::{best, blank_places, doubtful_places};

    /// Two rounds, one of them with blank places.
    fn fades() -> impl Iterator<Item = Fade> {
        (0..2 * ROUND as u64).map(|number| Fade::numbered(80, number))
    }

    #[test]
    fn numbers_go_round_every_sort() {
        let mut seen = std::collections::BTreeSet::new();
        for fade in fades() {
            let Frame { rate, doubtful, .. } = &fade.frame;
            seen.insert((*rate, fade.width, fade.left, doubtful.len(), fade.blanks));
            assert_eq!(fade, fade.clone());
        }
        assert_eq!(seen.len(), 2 * ROUND);
        assert_eq!(seen.iter().filter(|sort| sort.4 == 0).count(), ROUND);
    }

    /// The doubtful places have the smallest gaps and lie in the fade, and so do all wrong places.
    #[test]
    fn all_but_consecutive_places_are_right() {
        for fade in fades() {
            let Frame {
                doubtful, columns, ..
            } = &fade.frame;
            let blank = blank_places(columns);
            assert_eq!(blank.len(), fade.blanks);
            assert_eq!(doubtful_places(columns, doubtful.len()), *doubtful);
            let spread = |places: &[u8]| match (places.first(), places.last()) {
                (Some(first), Some(last)) => usize::from(last - first) + 1,
                _ => 0,
            };
            assert!(spread(doubtful) <= fade.width);
            let Ok(answer) = decode(Finder::of_rate(fade.frame.rate).unwrap(), columns, doubtful)
            else {
                continue;
            };
            let sent = Code::of_rate(fade.frame.rate)
                .unwrap()
                .codeword(&answer.message);
            let wrong = (0..PLACES as u8).filter(|place| {
                let at = usize::from(*place);
                !blank.contains(place) && best(&columns[at]) != sent.get(at)
            });
            assert!(spread(&wrong.collect::<Vec<u8>>()) <= fade.width);
        }
    }

    /// T wrong places are answered, T + 1 refused; of fades with noise alone hardly one is answered but
    /// for those of eight places at rate 39.
    #[test]
    fn fades_are_near_as_they_are_made_to_be() {
        let mut answered = 0;
        for fade in fades() {
            let Frame {
                rate,
                doubtful,
                columns,
            } = &fade.frame;
            let decoded = decode(Finder::of_rate(*rate).unwrap(), columns, doubtful);
            let near = decoded.is_ok();
            assert!(near || decoded == Err(Refusal::NoneNear));
            match fade.left {
                Left::Reach => assert!(near, "{fade:?}"),
                Left::Beyond => assert!(!near, "{fade:?}"),
                Left::Noise => {
                    assert!(!near || (*rate, fade.width) == (39, 8), "{fade:?}");
                    answered += u32::from(near);
                }
            }
        }
        assert!((1..18).contains(&answered), "{answered}");
    }
}
