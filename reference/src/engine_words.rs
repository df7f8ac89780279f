//! Calls of the elimination engine at every rate, around what decides there: how many places are wrong, how
//! many are blank, and which check refuses first.
//!
//! - [`Turn`], [`turns`]: what is tried at each rate.
//! - [`EngineWord`], [`EngineWord::made`]: a call, with the codeword that its word is made from;
//!   [`EngineWord::expected`]: the number that it is made to come to.
//! - [`ENGINE_FAULTS`], [`Flaw`]: what may be wrong with a call.
//! - [`measured_calls`]: calls for `bench/engines`.

use crate::code::{rates, Code};
use crate::curve::PLACES;
use crate::engine::EngineCall;
use crate::frames::{random_codeword, some_places, unknown_rate, UNKNOWN_RATES};
use crate::least::INTERPOLANT_BYTES;
use crate::light::lightest;
use crate::random::Random;
use crate::rates::rule;
use crate::row::Row;

/// The refusals in the order of their checks. Any of them together are a set: number n is bit n.
pub const ENGINE_FAULTS: [u8; 6] = [1, 2, 3, 4, 12, 9];

/// All sets of faults.
pub const FAULT_SETS: u8 = 1 << ENGINE_FAULTS.len();

/// The refusal of the first fault of a set, or 0.
pub fn first_of(faults: u8) -> u8 {
    let first = ENGINE_FAULTS.get(faults.trailing_zeros() as usize);
    first.copied().unwrap_or(0)
}

fn has(faults: u8, refusal: u8) -> bool {
    let number = ENGINE_FAULTS.iter().position(|fault| *fault == refusal);
    number.is_some_and(|number| faults >> number & 1 == 1)
}

/// What is tried. T is that of the number of blank places.
#[derive(Clone, Copy, Debug, PartialEq, Eq, PartialOrd, Ord)]
pub enum Turn {
    /// So many places are blank, and so many of the others wrong.
    Wrong { blanks: usize, wrong: usize },
    /// The word follows no codeword.
    Random { blanks: usize },
    /// The word is zero at every place.
    Zero { blanks: usize },
    /// The word has the symbols of two codewords at least distance, without blank places or with as many as
    /// there may be among those where they differ.
    Between { lean: Lean, faded: bool },
    /// All of these faults.
    Faults(u8),
    /// One fault, in each of its forms.
    Alone(Flaw),
}

/// How many places that are not blank have the other codeword's symbol, of those where the two differ.
#[derive(Clone, Copy, Debug, PartialEq, Eq, PartialOrd, Ord)]
pub enum Lean {
    /// T of them, and one more.
    Reach,
    Past,
    /// Half of them.
    Middle,
    /// All but T + 1, and all but T: then the other one is near.
    OtherPast,
    Other,
}

pub const LEANS: [Lean; 5] = [
    Lean::Reach,
    Lean::Past,
    Lean::Middle,
    Lean::OtherPast,
    Lean::Other,
];

impl Lean {
    /// How many that is, of so many places.
    fn places(self, differing: usize, reach: usize) -> usize {
        match self {
            Lean::Reach => reach,
            Lean::Past => reach + 1,
            Lean::Middle => differing / 2,
            Lean::OtherPast => differing - reach - 1,
            Lean::Other => differing - reach,
        }
    }

    /// Whether one of the two is near.
    pub fn is_near(self) -> bool {
        [Lean::Reach, Lean::Other].contains(&self)
    }
}

/// One fault.
#[derive(Clone, Copy, Debug, PartialEq, Eq, PartialOrd, Ord)]
pub enum Flaw {
    /// A rate that there is not.
    Rate(u64),
    /// A length of the word or of a buffer.
    Size(Buffer, usize),
    /// A number above 15 in the word, at a blank place or not.
    Symbol {
        symbol: u8,
        blank: bool,
    },
    List(List),
    /// A list of so many places that is not faulty, but too long.
    Blanks(usize),
}

/// What has a size of its own.
#[derive(Clone, Copy, Debug, PartialEq, Eq, PartialOrd, Ord)]
pub enum Buffer {
    Word,
    Codeword,
    Q,
}

/// A faulty list.
#[derive(Clone, Copy, Debug, PartialEq, Eq, PartialOrd, Ord)]
pub enum List {
    /// A place stands there twice.
    Repeated,
    /// Two places fall.
    Falling,
    /// The last place is above 63.
    Above(u8),
    /// So many places, more than there are.
    Longer(usize),
}

pub const LISTS: [List; 10] = [
    List::Repeated,
    List::Falling,
    List::Above(64),
    List::Above(128),
    List::Above(255),
    List::Longer(65),
    List::Longer(100),
    // In a byte these lengths are few.
    List::Longer(256),
    List::Longer(256 + 1),
    List::Longer(512),
];

/// Sizes of all buffers, the right ones among them, and those with the same low byte.
const SIZES: [usize; 14] = [
    0,
    1,
    39,
    63,
    PLACES,
    65,
    82,
    97,
    INTERPOLANT_BYTES,
    99,
    128,
    256,
    256 + PLACES,
    256 + INTERPOLANT_BYTES,
];

const WRONG_SYMBOLS: [u8; 4] = [16, 17, 128, 255];

impl Flaw {
    fn number(self) -> u8 {
        match self {
            Flaw::Rate(_) => 1,
            Flaw::Size(..) => 2,
            Flaw::Symbol { .. } => 3,
            Flaw::List(_) => 4,
            Flaw::Blanks(_) => 12,
        }
    }
}

/// The forms of each fault at a rate where so many places may be blank.
fn flaws(limit: usize) -> Vec<Flaw> {
    let mut flaws: Vec<Flaw> = UNKNOWN_RATES.map(Flaw::Rate).to_vec();
    for (buffer, right) in [
        (Buffer::Word, PLACES),
        (Buffer::Codeword, PLACES),
        (Buffer::Q, INTERPOLANT_BYTES),
    ] {
        let wrong = SIZES.into_iter().filter(|size| *size != right);
        flaws.extend(wrong.map(|size| Flaw::Size(buffer, size)));
    }
    for blank in [false, true] {
        if limit > 0 || !blank {
            flaws.extend(WRONG_SYMBOLS.map(|symbol| Flaw::Symbol { symbol, blank }));
        }
    }
    flaws.extend(LISTS.map(Flaw::List));
    let longer = [limit + 1, limit + 2, PLACES - 1, PLACES];
    flaws.extend(longer.map(Flaw::Blanks));
    flaws
}

/// What is tried at a rate: with each number of blank places each number of wrong ones up to T + 1, and
/// more; the other sorts of words; all sets of faults, and each form of each.
fn turns_of(rate: u64) -> Vec<Turn> {
    let code = code(rate);
    let limit = code.blank_limit();
    let mut turns = Vec::new();
    for blanks in 0..=limit {
        let past = reach(code, blanks) + 1;
        let more = past + 1 + (rate as usize + blanks) % 7;
        let wrongs = (0..=past).chain([more.min(PLACES - blanks)]);
        turns.extend(wrongs.map(|wrong| Turn::Wrong { blanks, wrong }));
    }
    let mut some = vec![0, limit / 2, limit];
    some.dedup();
    for blanks in some {
        turns.extend([Turn::Random { blanks }, Turn::Zero { blanks }]);
    }
    for faded in [false, true] {
        if limit > 0 || !faded {
            turns.extend(LEANS.map(|lean| Turn::Between { lean, faded }));
        }
    }
    turns.extend((0..FAULT_SETS).map(Turn::Faults));
    turns.extend(flaws(limit).into_iter().map(Turn::Alone));
    turns
}

/// Each turn comes so often, with blank places that are placed otherwise and other symbols there.
pub const ROUNDS: usize = 3;

/// The turns of all rates, one after the other.
pub fn turns() -> Vec<(u64, Turn)> {
    let of_rate = |rate| turns_of(rate).into_iter().map(move |turn| (rate, turn));
    rates().flat_map(of_rate).collect()
}

/// Where the blank places are.
#[derive(Clone, Copy, Debug, PartialEq, Eq, PartialOrd, Ord)]
pub enum Placed {
    First,
    Last,
    Spread,
}

pub const PLACED: [Placed; ROUNDS] = [Placed::First, Placed::Last, Placed::Spread];

impl Placed {
    fn places(self, count: usize, random: &mut Random) -> Vec<u8> {
        match self {
            Placed::First => (0..count as u8).collect(),
            Placed::Last => ((PLACES - count) as u8..PLACES as u8).collect(),
            Placed::Spread => some_places(count, random),
        }
    }
}

/// What the word has at blank places.
#[derive(Clone, Copy, Debug, PartialEq, Eq)]
enum Under {
    Wrong,
    Any,
    Right,
}

const UNDER: [Under; ROUNDS] = [Under::Wrong, Under::Any, Under::Right];

/// A call of the engine.
#[derive(Clone, Debug, PartialEq, Eq)]
pub struct EngineWord {
    /// The rate that the word is made for; a fault may put another one into the call.
    pub rate: u64,
    pub turn: Turn,
    pub placed: Placed,
    /// The codeword that the word is made from.
    pub sent: Row,
    pub call: EngineCall,
}

impl EngineWord {
    /// Word `number` of a seed; the number goes round these turns.
    pub fn made(turns: &[(u64, Turn)], seed: u64, number: u64) -> EngineWord {
        let mut random = Random::new(seed, number);
        let (round, at) = (number as usize / turns.len(), number as usize % turns.len());
        let (rate, turn) = turns[at];
        let placed = PLACED[(at + round) % ROUNDS];
        let under = UNDER[(at / ROUNDS + round) % ROUNDS];
        let code = code(rate);
        let sent = match turn {
            Turn::Zero { .. } => Row::default(),
            _ => random_codeword(code, &mut random),
        };
        let limit = code.blank_limit();
        let [blanks, wrong] = match turn {
            Turn::Wrong { blanks, wrong } => [blanks, wrong],
            Turn::Random { blanks } => [blanks, PLACES - blanks],
            Turn::Zero { blanks } => [blanks, 0],
            Turn::Between { lean, faded } => return between(rate, lean, faded, sent, &mut random),
            Turn::Faults(faults) => faulty_numbers(code, faults, &mut random),
            Turn::Alone(Flaw::Blanks(blanks)) => [blanks, 0],
            Turn::Alone(_) => [limit, reach(code, limit)],
        };
        let list = placed.places(blanks, &mut random);
        let mut word = damaged(&sent, &list, wrong, under, &mut random);
        if let Turn::Random { .. } = turn {
            word = word.map(|_| random.symbol());
        }
        let mut call = EngineCall::new(rate, word.to_vec(), list);
        match turn {
            Turn::Faults(faults) => spoil_all(&mut call, faults, &mut random),
            Turn::Alone(flaw) => spoil(&mut call, flaw, &mut random),
            _ => (),
        }
        EngineWord {
            rate,
            turn,
            placed,
            sent,
            call,
        }
    }

    /// The number that the call comes to.
    pub fn expected(&self) -> u8 {
        match self.turn {
            Turn::Wrong { blanks, wrong } => rule(self.rate, blanks, wrong),
            Turn::Random { .. } => 9,
            Turn::Zero { .. } => 0,
            Turn::Between { lean, .. } => [9, 0][usize::from(lean.is_near())],
            Turn::Faults(faults) => first_of(faults),
            Turn::Alone(flaw) => flaw.number(),
        }
    }

    /// In how many places that are not blank the word differs from a codeword.
    pub fn distance(&self, codeword: &[u8]) -> usize {
        let blanks = &self.call.blanks;
        let differing = differing(&self.call.word, codeword);
        differing
            .filter(|place| !blanks.contains(&(*place as u8)))
            .count()
    }
}

/// The places where two words differ.
pub fn differing<'a>(a: &'a [u8], b: &'a [u8]) -> impl Iterator<Item = usize> + 'a {
    let places = a.iter().zip(b).enumerate();
    places.filter(|(_, (a, b))| a != b).map(|(place, _)| place)
}

fn code(rate: u64) -> &'static Code {
    Code::of_rate(rate).expect("a known rate")
}

/// T, or 0 where too many are blank.
fn reach(code: &Code, blanks: usize) -> usize {
    code.reach_with(blanks).unwrap_or(0)
}

/// The codeword with so many wrong symbols at places that are not blank, and others at those that are.
fn damaged(
    sent: &Row,
    blanks: &[u8],
    wrong: usize,
    under: Under,
    random: &mut Random,
) -> [u8; PLACES] {
    let mut word = sent.elements();
    for place in blanks.iter().map(|place| usize::from(*place)) {
        word[place] = match under {
            Under::Wrong => random.other_symbol(word[place]),
            Under::Any => random.symbol(),
            Under::Right => word[place],
        };
    }
    let others = (0..PLACES).filter(|place| !blanks.contains(&(*place as u8)));
    for place in random.shuffled(others).into_iter().take(wrong) {
        word[place] = random.other_symbol(word[place]);
    }
    word
}

/// The word between a codeword and another one at least distance.
fn between(rate: u64, lean: Lean, faded: bool, sent: Row, random: &mut Random) -> EngineWord {
    let code = code(rate);
    let mut other = sent;
    other.add(&lightest(code, random));
    let (sent_symbols, other_symbols) = (sent.elements(), other.elements());
    let differing = random.shuffled(differing(&sent_symbols, &other_symbols));
    let blanks = if faded { code.blank_limit() } else { 0 };
    let (blank, counted) = differing.split_at(blanks);
    let mut word = sent_symbols;
    for place in blank {
        word[*place] = random.symbol();
    }
    let leaning = lean.places(counted.len(), reach(code, blanks));
    for place in &counted[..leaning] {
        word[*place] = other_symbols[*place];
    }
    let mut list: Vec<u8> = blank.iter().map(|place| *place as u8).collect();
    list.sort_unstable();
    EngineWord {
        rate,
        turn: Turn::Between { lean, faded },
        placed: Placed::Spread,
        sent,
        call: EngineCall::new(rate, word.to_vec(), list),
    }
}

/// How many places are blank and how many are wrong where there are these faults.
fn faulty_numbers(code: &Code, faults: u8, random: &mut Random) -> [usize; 2] {
    let limit = code.blank_limit();
    let blanks = match has(faults, 12) {
        true => random.between(limit + 1, PLACES),
        false => random.between(limit.min(2), limit),
    };
    let wrong = reach(code, blanks) + usize::from(has(faults, 9));
    [blanks, wrong.min(PLACES - blanks)]
}

/// Puts each of the faults but for the last two into a call, in one of its forms.
fn spoil_all(call: &mut EngineCall, faults: u8, random: &mut Random) {
    let wrong_size = |right: usize, random: &mut Random| loop {
        let size = random.one_of(&SIZES);
        if size != right {
            return size;
        }
    };
    if has(faults, 4) {
        spoil(call, Flaw::List(random.one_of(&LISTS)), random);
    }
    if has(faults, 3) {
        let symbol = random.one_of(&WRONG_SYMBOLS);
        let blank = random.once_in(2) && !call.blanks.is_empty();
        spoil(call, Flaw::Symbol { symbol, blank }, random);
    }
    if has(faults, 2) {
        let (buffer, right) = random.one_of(&[
            (Buffer::Word, PLACES),
            (Buffer::Codeword, PLACES),
            (Buffer::Q, INTERPOLANT_BYTES),
        ]);
        let size = wrong_size(right, random);
        spoil(call, Flaw::Size(buffer, size), random);
    }
    if has(faults, 1) {
        call.rate = unknown_rate(u64::MAX, random);
    }
}

fn spoil(call: &mut EngineCall, flaw: Flaw, random: &mut Random) {
    match flaw {
        Flaw::Rate(rate) => call.rate = rate,
        Flaw::Size(Buffer::Word, size) => {
            let symbols = call.word.iter().copied().cycle();
            call.word = symbols.take(size).collect();
        }
        Flaw::Size(Buffer::Codeword, size) => call.codeword = size,
        Flaw::Size(Buffer::Q, size) => call.q = size,
        Flaw::Symbol { symbol, blank } => {
            let so = |place: &usize| call.blanks.contains(&(*place as u8)) == blank;
            let mut places: Vec<usize> = (0..PLACES).filter(so).collect();
            // Where all places are blank, or none is, any will do.
            if places.is_empty() {
                places = (0..PLACES).collect();
            }
            call.word[random.one_of(&places)] = symbol;
        }
        Flaw::List(list) => spoil_list(&mut call.blanks, list, random),
        Flaw::Blanks(_) => (),
    }
}

/// Makes a list faulty; it is as long as before, where that is long enough for the fault.
fn spoil_list(places: &mut Vec<u8>, list: List, random: &mut Random) {
    let wanted = match list {
        List::Repeated | List::Falling => 2,
        List::Above(_) => 1,
        List::Longer(_) => 0,
    };
    if places.len() < wanted {
        *places = some_places(wanted, random);
    }
    let last = places.len().saturating_sub(1);
    let at = random.below(last.max(1));
    match list {
        List::Repeated => places[at + 1] = places[at],
        List::Falling => places.swap(at, at + 1),
        List::Above(place) => places[last] = place,
        List::Longer(length) => {
            *places = (0..length).map(|place| (place % PLACES) as u8).collect();
        }
    }
}

/// So many calls of a rate with so many blank places, spread and wrong, and so many wrong ones.
pub fn measured_calls(
    rate: u64,
    blanks: usize,
    wrong: usize,
    seed: u64,
    count: u64,
) -> Option<Vec<EngineCall>> {
    let code = Code::of_rate(rate).ok()?;
    if blanks + wrong > PLACES {
        return None;
    }
    let call = |number| {
        let mut random = Random::new(seed, number);
        let sent = random_codeword(code, &mut random);
        let list = some_places(blanks, &mut random);
        let word = damaged(&sent, &list, wrong, Under::Wrong, &mut random);
        EngineCall::new(rate, word.to_vec(), list)
    };
    Some((0..count).map(call).collect())
}

#[cfg(test)]
mod tests {
    use super::*;
    use crate::session::check_places;
    use std::collections::BTreeSet;

    fn words(seed: u64) -> Vec<EngineWord> {
        let turns = turns();
        let made = |at| EngineWord::made(&turns, seed, at);
        (0..turns.len() as u64).map(made).collect()
    }

    #[test]
    fn the_first_of_a_set_is_refused() {
        assert_eq!(first_of(0), 0);
        for (number, refusal) in ENGINE_FAULTS.into_iter().enumerate() {
            let alone = 1 << number;
            let with_later = !(alone - 1) & (FAULT_SETS - 1);
            for set in [alone, with_later] {
                assert_eq!(first_of(set), refusal);
                assert!(has(set, refusal));
            }
            assert!(!has(!alone, refusal));
        }
    }

    /// No turn comes twice at a rate, and every call is as its turn says.
    #[test]
    fn words_are_what_their_turns_say() {
        let mut seen = BTreeSet::new();
        for word in words(140) {
            assert!(seen.insert((word.rate, word.turn)), "{:?}", word.turn);
            let call = &word.call;
            let code = code(word.rate);
            let limit = code.blank_limit();
            match word.turn {
                Turn::Wrong { blanks, wrong } => {
                    assert_eq!(call.blanks.len(), blanks);
                    assert_eq!(word.distance(&word.sent.elements()), wrong);
                }
                Turn::Between { lean, faded } => {
                    let blanks = if faded { limit } else { 0 };
                    assert_eq!(call.blanks.len(), blanks);
                    let distance = word.distance(&word.sent.elements());
                    let reach = reach(code, blanks);
                    assert_eq!(distance <= reach, lean == Lean::Reach);
                }
                Turn::Alone(Flaw::Symbol { symbol, blank }) => {
                    let place = call.word.iter().position(|s| *s > 15).unwrap();
                    assert_eq!(call.word[place], symbol);
                    assert_eq!(call.blanks.contains(&(place as u8)), blank);
                }
                Turn::Alone(Flaw::List(_)) => assert!(check_places(&call.blanks).is_err()),
                Turn::Alone(Flaw::Blanks(blanks)) => {
                    assert!(check_places(&call.blanks).is_ok());
                    assert_eq!(call.blanks.len(), blanks);
                    assert!(blanks > limit);
                }
                Turn::Alone(Flaw::Size(Buffer::Word, size)) => assert_eq!(call.word.len(), size),
                _ => (),
            }
            let as_they_are = !matches!(word.turn, Turn::Alone(_) | Turn::Faults(_));
            if as_they_are {
                assert!(check_places(&call.blanks).is_ok() && call.blanks.len() <= limit);
                assert_eq!((call.word.len(), call.codeword, call.q), (64, 64, 98));
            }
        }
    }

    /// Each call comes to the number that it is made for, here at every seventh rate.
    #[test]
    fn words_come_to_their_numbers() {
        for word in words(141).into_iter().filter(|word| word.rate % 7 == 3) {
            assert_eq!(word.call.answer().number, word.expected(), "{word:?}");
        }
    }

    #[test]
    fn measured_calls_have_their_wrong_and_blank_places() {
        let calls = measured_calls(6, 10, 18, 3, 5).unwrap();
        assert_eq!(calls.len(), 5);
        assert!(calls.iter().all(|call| call.answer().number == 0));
        let calls = measured_calls(6, 10, 19, 3, 5).unwrap();
        assert!(calls.iter().all(|call| call.answer().number == 9));
        assert!(measured_calls(5, 0, 0, 3, 1).is_none());
        assert!(measured_calls(6, 40, 25, 3, 1).is_none());
    }
}
