//! The elimination engine's call, without its method: the codeword comes from an error locator
//! ([`crate::nearest`]), the least Q from Kötter's steps ([`crate::steps`]).
//!
//! - [`eliminate`]: document 02's call, with its checks; [`nodes`]: the places that Q vanishes at.
//! - [`EngineCall`], [`EngineCall::bytes`], [`EngineCall::read`]: a call as it stands in a stream.
//! - [`EngineCall::answer`], [`EngineAnswer::bytes`]: its answer, and what the tree answers beside it;
//!   [`answer_engine_calls`]: those of a stream.
//!
//! A program that is compared reads calls on its standard input and writes answers on its standard output.
//! A call is the rate in eight bytes, high first; the lengths of the word, the list of blank places, the
//! codeword buffer and the buffer for Q in two bytes each; the word; the list. Every byte of a buffer is
//! [`LENT`] before the call. The answer is the refusal's number or 0 and all bytes of both buffers; then what
//! the tree finds for the word alone, 0 and the 64 symbols of the codeword, 9 and as many bytes [`LENT`], or,
//! where the engine's own checks refuse the call, [`NOT_ASKED`] and as many.

use crate::calls::{LENT, MOST_BYTES};
use crate::code::{check_size, check_symbols, Code};
use crate::curve::PLACES;
use crate::least::INTERPOLANT_BYTES;
use crate::nearest::Finder;
use crate::refusal::{number, Refusal};
use crate::row::Row;
use crate::session::check_places;
use crate::steps::{least_by_steps, TermOrder};

/// The number that stands for the tree's where it is not asked.
pub const NOT_ASKED: u8 = 255;

/// "Refusals come in the order unknown rate, ill-sized buffer, symbol above 15, faulty list (as for a
/// doubtful list, but with no limit of length), too many blanks, none near."
pub fn eliminate(
    rate: u64,
    word: &[u8],
    blanks: &[u8],
    codeword: &mut [u8],
    q: &mut [u8],
) -> Result<(), Refusal> {
    let code = Code::of_rate(rate)?;
    check_size(word, PLACES)?;
    check_size(codeword, PLACES)?;
    check_size(q, INTERPOLANT_BYTES)?;
    check_symbols(word)?;
    check_places(blanks)?;
    let unblanked = Finder::of_rate(rate)?.unblanked(blanks);
    let unblanked = unblanked.ok_or(Refusal::TooBlank)?;
    let near = unblanked.nearest(&Row::from_elements(word.iter().copied()));
    let near = near.ok_or(Refusal::NoneNear)?;
    let least = least_by_steps(TermOrder::of_top(code.top), &nodes(word, blanks));
    codeword.copy_from_slice(&near.codeword.elements());
    q.copy_from_slice(&least.bytes());
    Ok(())
}

/// "The test word at all its unblanked places."
pub fn nodes(word: &[u8], blanks: &[u8]) -> Vec<(u8, u8)> {
    let places = (0..PLACES as u8).filter(|place| !blanks.contains(place));
    places
        .map(|place| (place, word[usize::from(place)]))
        .collect()
}

/// A call with the sizes of its lent buffers.
#[derive(Clone, Debug, PartialEq, Eq)]
pub struct EngineCall {
    pub rate: u64,
    pub word: Vec<u8>,
    pub blanks: Vec<u8>,
    pub codeword: usize,
    pub q: usize,
}

/// The number, and the lent buffers after the call.
#[derive(Clone, Debug, PartialEq, Eq)]
pub struct EngineAnswer {
    pub number: u8,
    pub codeword: Vec<u8>,
    pub q: Vec<u8>,
}

impl EngineCall {
    /// A call with buffers of the right sizes.
    pub fn new(rate: u64, word: Vec<u8>, blanks: Vec<u8>) -> EngineCall {
        EngineCall {
            rate,
            word,
            blanks,
            codeword: PLACES,
            q: INTERPOLANT_BYTES,
        }
    }

    /// The call as it stands in a stream.
    pub fn bytes(&self) -> Vec<u8> {
        let mut bytes = self.rate.to_be_bytes().to_vec();
        for length in [self.word.len(), self.blanks.len(), self.codeword, self.q] {
            assert!(length <= MOST_BYTES);
            bytes.extend((length as u16).to_be_bytes());
        }
        bytes.extend(&self.word);
        bytes.extend(&self.blanks);
        bytes
    }

    /// The first call of a stream, and the bytes after it; none where there is no whole call.
    pub fn read(stream: &[u8]) -> Option<(EngineCall, &[u8])> {
        let (rate, mut rest) = stream.split_first_chunk()?;
        let mut lengths = [0; 4];
        for length in &mut lengths {
            let (bytes, after) = rest.split_first_chunk()?;
            *length = usize::from(u16::from_be_bytes(*bytes));
            rest = after;
        }
        let [word, blanks, codeword, q] = lengths;
        let (word, rest) = rest.split_at_checked(word)?;
        let (blanks, rest) = rest.split_at_checked(blanks)?;
        let call = EngineCall {
            rate: u64::from_be_bytes(*rate),
            word: word.to_vec(),
            blanks: blanks.to_vec(),
            codeword,
            q,
        };
        Some((call, rest))
    }

    pub fn answer(&self) -> EngineAnswer {
        let (mut codeword, mut q) = (vec![LENT; self.codeword], vec![LENT; self.q]);
        let result = eliminate(self.rate, &self.word, &self.blanks, &mut codeword, &mut q);
        EngineAnswer {
            number: number(&result),
            codeword,
            q,
        }
    }
}

impl EngineAnswer {
    /// The answer as it stands in a stream, with the tree's, which is the same codeword or none too.
    pub fn bytes(&self) -> Vec<u8> {
        let (number, codeword) = match self.number {
            0 => (0, self.codeword.clone()),
            9 => (9, vec![LENT; PLACES]),
            _ => (NOT_ASKED, vec![LENT; PLACES]),
        };
        let mut bytes = vec![self.number];
        bytes.extend(&self.codeword);
        bytes.extend(&self.q);
        bytes.push(number);
        bytes.extend(codeword);
        bytes
    }
}

/// The answers to a stream of calls; none where it is not whole calls.
pub fn answer_engine_calls(stream: &[u8]) -> Option<Vec<u8>> {
    let mut rest = stream;
    let mut answers = Vec::new();
    while !rest.is_empty() {
        let (call, after) = EngineCall::read(rest)?;
        answers.extend(call.answer().bytes());
        rest = after;
    }
    Some(answers)
}

#[cfg(test)]
mod tests {
    use super::*;
    use crate::least::{least, Q1_START};

    /// "13 blanks at rate 39 leave T = 0", whatever the word has there; Q passes over them.
    #[test]
    fn a_codeword_comes_back_with_its_q() {
        let code = Code::of_rate(39).unwrap();
        let message: Vec<u8> = (0..39).map(|t| t % 16).collect();
        let sent = code.codeword(&message).elements();
        let mut word = sent.to_vec();
        let blanks: Vec<u8> = (3..16).collect();
        word[3..16].fill(9);
        let answer = EngineCall::new(39, word.clone(), blanks.clone()).answer();
        assert_eq!(answer.number, 0);
        assert_eq!(answer.codeword, sent);
        assert_eq!(answer.q[Q1_START], 1);
        assert!(answer.q[Q1_START + 1..].iter().all(|byte| *byte == 0));
        assert_eq!(answer.q, least(code, &nodes(&word, &blanks)));
        word[63] ^= 1;
        let answer = EngineCall::new(39, word.clone(), blanks).answer();
        assert_eq!(answer.number, 9);
        assert_eq!(answer.codeword, [LENT; 64]);
        assert_eq!(answer.q, [LENT; 98]);
        let blanks: Vec<u8> = (3..17).collect();
        assert_eq!(EngineCall::new(39, word, blanks).answer().number, 12);
    }

    /// Each fault beside all later ones.
    #[test]
    fn calls_are_checked_in_order() {
        let mut word = [0; 64];
        word[5] = 16;
        word[40..].fill(1);
        let long: Vec<u8> = (0..80).map(|place| place % 64).collect();
        let numbers = |rate, word: &[u8], blanks: &[u8], codeword, q| {
            let (mut codeword, mut q) = (vec![7; codeword], vec![7; q]);
            let result = eliminate(rate, word, blanks, &mut codeword, &mut q);
            assert!(codeword.iter().chain(&q).all(|byte| *byte == 7));
            number(&result)
        };
        assert_eq!(numbers(5, &word[1..], &long, 63, 82), 1);
        assert_eq!(numbers(39, &word[1..], &long, 64, 98), 2);
        assert_eq!(numbers(39, &word, &long, 63, 98), 2);
        assert_eq!(numbers(39, &word, &long, 64, 82), 2);
        assert_eq!(numbers(39, &word, &long, 64, 98), 3);
        assert_eq!(numbers(39, &word, &[5], 64, 98), 3);
        word[5] = 15;
        assert_eq!(numbers(39, &word, &long, 64, 98), 4);
        for list in [&[64][..], &[255], &[3, 3], &[4, 3], &long[..66]] {
            assert_eq!(numbers(39, &word, list, 64, 98), 4);
        }
        for count in 14..=64 {
            assert_eq!(numbers(39, &word, &long[..count], 64, 98), 12);
        }
        assert_eq!(numbers(39, &word, &long[..13], 64, 98), 9);
    }

    #[test]
    fn calls_and_answers_stand_in_a_stream() {
        let call = EngineCall {
            rate: (1 << 40) + 258,
            word: vec![1, 2, 3],
            blanks: vec![4, 5],
            codeword: 1,
            q: 260,
        };
        let head = [0, 0, 1, 0, 0, 0, 1, 2, 0, 3, 0, 2, 0, 1, 1, 4];
        let bytes = [&head[..], &[1, 2, 3, 4, 5]].concat();
        assert_eq!(call.bytes(), bytes);
        assert_eq!(EngineCall::read(&bytes), Some((call.clone(), &[][..])));
        assert_eq!(EngineCall::read(&bytes[..20]), None);
        let answer = call.answer().bytes();
        assert_eq!(answer.len(), 1 + 1 + 260 + 1 + 64);
        assert_eq!((answer[0], answer[262]), (1, NOT_ASKED));
        let answer = EngineCall::new(52, vec![0; 64], Vec::new()).answer();
        let bytes = answer.bytes();
        assert_eq!(bytes.len(), 228);
        assert_eq!((bytes[0], bytes[65 + Q1_START], bytes[163]), (0, 1, 0));
        assert_eq!(bytes[164..], [0; 64]);
        let mut word = vec![0; 64];
        word[9] = 2;
        let bytes = EngineCall::new(52, word, Vec::new()).answer().bytes();
        assert_eq!((bytes[0], bytes[163]), (9, 9));
        assert!(bytes[1..163].iter().all(|byte| *byte == LENT));
    }
}
