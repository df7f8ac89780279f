//! Calls that build superframes and take them apart.
//!
//! - [`SuperCall`], [`SuperCall::numbered`]: a call for one of the [`turns`]; [`Given`]: its bytes.
//! - [`SuperAnswer`], [`SuperCall::answer`]: what comes of it; [`SuperCall::expected`]: what it is made to
//!   come to, without decoding.

use crate::code::Code;
use crate::curve::PLACES;
use crate::frames::{some_places, unknown_rate};
use crate::random::Random;
use crate::rates::far;
use crate::superframe::{build, FRAME_BYTES, HEAD_BYTES, SYMBOLS, WORDS};
use crate::superframe_turns::{reach, rooms, turns, Beyond, Flaw, Messages, Turn, LENGTHS, SIZES};
use crate::trials::Superframes;

/// Numbers that are no symbols.
const NO_SYMBOLS: [u8; 5] = [16, 17, 31, 128, 255];

/// A call.
#[derive(Clone, Debug, PartialEq, Eq)]
pub struct SuperCall {
    pub turn: Turn,
    /// The eight messages that it is made from.
    pub sent: Vec<u8>,
    /// How many symbols of each word are wrong.
    pub wrong: [usize; WORDS],
    pub given: Given,
}

/// What a call is given, and its lent buffers before it.
#[derive(Clone, Debug, PartialEq, Eq)]
pub enum Given {
    Build {
        rate: u64,
        messages: Vec<u8>,
        frame: Vec<u8>,
    },
    Take {
        frame: Vec<u8>,
        messages: Vec<u8>,
        status: u8,
    },
}

/// What a call returned, and its lent buffer afterwards.
#[derive(Clone, Debug, PartialEq, Eq)]
pub struct SuperAnswer {
    pub number: u8,
    /// None where the call builds.
    pub status: Option<u8>,
    pub bytes: Vec<u8>,
    /// What taking apart comes to, where a superframe was built.
    pub back: Option<Box<SuperAnswer>>,
}

impl SuperCall {
    /// Call `number` of a seed; the number goes round the turns.
    pub fn numbered(seed: u64, number: u64) -> SuperCall {
        let turn = turns()[number as usize % turns().len()];
        let mut random = Random::new(seed, number);
        let rate = turn.rate();
        let sent = sent_messages(turn, &mut random);
        let building = matches!(
            turn,
            Turn::Build { .. } | Turn::BuildFaults { .. } | Turn::BuildFlaw { .. }
        );
        let given = match building {
            true => Given::Build {
                rate,
                messages: sent.clone(),
                frame: bytes(FRAME_BYTES, &mut random),
            },
            false => Given::Take {
                frame: built(rate, &sent),
                messages: bytes(sent.len(), &mut random),
                status: random.number() as u8,
            },
        };
        let mut call = SuperCall {
            turn,
            sent,
            wrong: [0; WORDS],
            given,
        };
        match turn {
            Turn::Build { .. } => (),
            Turn::BuildFlaw { flaw, .. } | Turn::Flaw { flaw, .. } => call.spoil(flaw, &mut random),
            Turn::BuildFaults { faults, .. } => {
                for flaw in build_forms(rate, faults, &mut random) {
                    call.spoil(flaw, &mut random);
                }
            }
            Turn::Faults { faults, .. } => {
                for flaw in take_forms(rate, faults, &mut random) {
                    call.spoil(flaw, &mut random);
                }
            }
            Turn::Burst { long, start, .. } => {
                for symbol in start..SYMBOLS.min(start + long) {
                    call.alter(symbol, &mut random);
                }
            }
            Turn::Beyond { words, beyond, .. } => {
                for word in 0..WORDS {
                    let named = words >> word & 1 == 1;
                    call.alter_word(word, named.then_some(beyond), &mut random);
                }
            }
        }
        call
    }

    /// Another symbol at this one of the frame.
    fn alter(&mut self, symbol: usize, random: &mut Random) {
        let Given::Take { frame, .. } = &mut self.given else {
            return;
        };
        let byte = &mut frame[HEAD_BYTES + symbol];
        *byte = random.other_symbol(*byte);
        self.wrong[symbol % WORDS] += 1;
    }

    /// Wrong symbols in one word.
    fn alter_word(&mut self, word: usize, beyond: Option<Beyond>, random: &mut Random) {
        let rate = self.turn.rate();
        let reach = reach(rate);
        let wrong = match beyond {
            None => random.between(0, reach),
            Some(Beyond::Past) => reach + 1,
            Some(Beyond::Far) => random.between(reach + 2, *far(rate).end()),
            Some(Beyond::All) => PLACES,
        };
        for place in some_places(wrong, random) {
            self.alter(WORDS * usize::from(place) + word, random);
        }
    }

    /// Puts a fault into the call.
    fn spoil(&mut self, flaw: Flaw, random: &mut Random) {
        match &mut self.given {
            Given::Build {
                rate,
                messages,
                frame,
            } => match flaw {
                Flaw::Rate(unknown) => *rate = unknown,
                Flaw::Room(room) => *messages = repeated(messages, room),
                Flaw::Size(size) => *frame = bytes(size, random),
                Flaw::Symbol { at, symbol } => messages[at] = symbol,
                Flaw::Version(_) | Flaw::Length(_) => (),
            },
            Given::Take {
                frame, messages, ..
            } => match flaw {
                Flaw::Size(size) => *frame = repeated(frame, size),
                Flaw::Version(version) => frame[0] = version,
                Flaw::Length(length) => frame[1..3].copy_from_slice(&length),
                Flaw::Rate(unknown) => {
                    frame[3] = unknown as u8;
                    if random.once_in(2) {
                        *messages = bytes(WORDS * unknown as usize, random);
                    }
                }
                Flaw::Room(room) => *messages = bytes(room, random),
                Flaw::Symbol { at, symbol } => frame[HEAD_BYTES + at] = symbol,
            },
        }
    }

    /// Which words are beyond repair, word v as 2^v.
    pub fn beyond(&self) -> u8 {
        let reach = reach(self.turn.rate());
        let words = (0..WORDS).filter(|word| self.wrong[*word] > reach);
        words.map(|word| 1 << word).sum()
    }

    /// What comes of the call.
    pub fn answer(&self, library: &Superframes) -> SuperAnswer {
        match &self.given {
            Given::Build {
                rate,
                messages,
                frame,
            } => {
                let mut frame = frame.clone();
                let number = (library.build)(*rate, messages, &mut frame);
                let back = || taken(library, &frame, vec![99; messages.len()], 99);
                SuperAnswer {
                    number,
                    status: None,
                    back: (number == 0).then(|| Box::new(back())),
                    bytes: frame,
                }
            }
            Given::Take {
                frame,
                messages,
                status,
            } => taken(library, frame, messages.clone(), *status),
        }
    }

    /// What the call is made to come to: each word that is not beyond repair comes back.
    pub fn expected(&self) -> SuperAnswer {
        let number = self.turn.number();
        match (&self.given, number) {
            (Given::Build { .. }, 0) => SuperAnswer {
                number,
                status: None,
                bytes: laid_out(self.turn.rate(), &self.sent),
                back: Some(Box::new(SuperAnswer {
                    number,
                    status: Some(0),
                    bytes: self.sent.clone(),
                    back: None,
                })),
            },
            (Given::Build { frame, .. }, _) => SuperAnswer {
                number,
                status: None,
                bytes: frame.clone(),
                back: None,
            },
            (Given::Take { messages, .. }, 0) => {
                let status = self.beyond();
                let symbols = self.turn.rate() as usize;
                let mut bytes = messages.clone();
                let parts = bytes.chunks_exact_mut(symbols);
                for (word, (part, sent)) in parts.zip(self.sent.chunks_exact(symbols)).enumerate() {
                    if status >> word & 1 == 0 {
                        part.copy_from_slice(sent);
                    }
                }
                SuperAnswer {
                    number,
                    status: Some(status),
                    bytes,
                    back: None,
                }
            }
            (Given::Take { messages, .. }, _) => SuperAnswer {
                number,
                status: Some(0),
                bytes: messages.clone(),
                back: None,
            },
        }
    }
}

fn taken(library: &Superframes, frame: &[u8], lent: Vec<u8>, mut status: u8) -> SuperAnswer {
    let mut bytes = lent;
    let number = (library.take_apart)(frame, &mut bytes, &mut status);
    SuperAnswer {
        number,
        status: Some(status),
        bytes,
        back: None,
    }
}

fn code(rate: u64) -> &'static Code {
    Code::of_rate(rate).expect("a known rate")
}

/// The messages of a turn.
fn sent_messages(turn: Turn, random: &mut Random) -> Vec<u8> {
    let symbols = turn.rate() as usize;
    let kind = match turn {
        Turn::Build { messages, .. } => messages,
        _ => Messages::Random,
    };
    let symbol = |at: usize| match kind {
        Messages::Random => random.symbol(),
        Messages::Zero => 0,
        Messages::Highest => 15,
        Messages::Numbered => (at / symbols) as u8,
    };
    (0..WORDS * symbols).map(symbol).collect()
}

fn built(rate: u64, messages: &[u8]) -> Vec<u8> {
    let mut frame = vec![0; FRAME_BYTES];
    build(rate, messages, &mut frame).expect("eight messages");
    frame
}

/// The superframe symbol by symbol.
fn laid_out(rate: u64, messages: &[u8]) -> Vec<u8> {
    let parts = messages.chunks_exact(rate as usize);
    let words: Vec<[u8; PLACES]> = parts.map(|m| code(rate).codeword(m).elements()).collect();
    let symbols = (0..SYMBOLS).map(|symbol| words[symbol % WORDS][symbol / WORDS]);
    [1, 2, 1, rate as u8].into_iter().chain(symbols).collect()
}

fn bytes(length: usize, random: &mut Random) -> Vec<u8> {
    (0..length).map(|_| random.number() as u8).collect()
}

/// So many of these bytes, from the first on once more where they are too few.
fn repeated(bytes: &[u8], length: usize) -> Vec<u8> {
    bytes.iter().copied().cycle().take(length).collect()
}

fn has(faults: u8, number: usize) -> bool {
    faults >> number & 1 == 1
}

/// A fault of each sort in the set, in one of its forms, sizes last.
fn build_forms(rate: u64, faults: u8, random: &mut Random) -> Vec<Flaw> {
    let mut flaws = Vec::new();
    if has(faults, 2) {
        flaws.push(no_symbol(WORDS * rate as usize, random));
    }
    if has(faults, 1) {
        let flaw = match random.once_in(2) {
            true => Flaw::Room(random.one_of(&rooms(rate))),
            false => Flaw::Size(random.one_of(&SIZES)),
        };
        flaws.push(flaw);
    }
    if has(faults, 0) {
        flaws.push(Flaw::Rate(unknown_rate(u64::MAX, random)));
    }
    flaws
}

/// The same for taking apart.
fn take_forms(rate: u64, faults: u8, random: &mut Random) -> Vec<Flaw> {
    let mut flaws = Vec::new();
    if has(faults, 5) {
        flaws.push(no_symbol(SYMBOLS, random));
    }
    if has(faults, 3) {
        flaws.push(Flaw::Rate(unknown_rate(255, random)));
    }
    if has(faults, 4) {
        flaws.push(Flaw::Room(random.one_of(&rooms(rate))));
    }
    if has(faults, 2) {
        flaws.push(Flaw::Length(random.one_of(&LENGTHS)));
    }
    if has(faults, 1) {
        flaws.push(Flaw::Version(random.one_of(&[0, 2, 3, 128, 129, 255])));
    }
    if has(faults, 0) {
        flaws.push(Flaw::Size(random.one_of(&SIZES)));
    }
    flaws
}

fn no_symbol(symbols: usize, random: &mut Random) -> Flaw {
    Flaw::Symbol {
        at: random.below(symbols),
        symbol: random.one_of(&NO_SYMBOLS),
    }
}

#[cfg(test)]
mod tests {
    use super::*;
    use crate::trials::REFERENCE_SUPERFRAMES;

    /// A call of each turn, of some of the bursts and sets.
    fn some_calls(seed: u64) -> impl Iterator<Item = SuperCall> {
        let some = |number: &usize| match turns()[*number] {
            Turn::Burst { .. } => number.is_multiple_of(199),
            Turn::Beyond { .. } => number.is_multiple_of(7),
            _ => true,
        };
        let numbers = (0..turns().len()).filter(some);
        numbers.map(move |number| SuperCall::numbered(seed, number as u64))
    }

    #[test]
    fn calls_come_to_what_they_are_made_for() {
        for call in some_calls(163) {
            let answer = call.answer(&REFERENCE_SUPERFRAMES);
            assert_eq!(answer, call.expected(), "{:?}", call.turn);
        }
    }

    /// Bursts and wrong words are what their turns say.
    #[test]
    fn wrong_symbols_are_counted() {
        for call in some_calls(164) {
            let Given::Take { frame, .. } = &call.given else {
                continue;
            };
            if call.turn.number() != 0 {
                continue;
            }
            let sent = built(call.turn.rate(), &call.sent);
            let altered = |symbol: &usize| frame[4 + symbol] != sent[4 + symbol];
            let altered: Vec<usize> = (0..SYMBOLS).filter(altered).collect();
            let mut wrong = [0; WORDS];
            altered.iter().for_each(|symbol| wrong[symbol % 8] += 1);
            assert_eq!(wrong, call.wrong);
            match call.turn {
                Turn::Burst { long, start, .. } => {
                    assert_eq!(
                        altered,
                        (start..SYMBOLS.min(start + long)).collect::<Vec<_>>()
                    );
                }
                Turn::Beyond { words, .. } => assert_eq!(words, call.beyond()),
                _ => (),
            }
        }
    }
}
