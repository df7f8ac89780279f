//! The code: encoding by summing monomials, reading back by linear solving.
//!
//! - [`Code`]: one code, with what elimination computes once for it; [`Code::of_rate`], [`rates`].
//! - [`Code::codeword`], [`Code::message`]: from message to word and back.
//! - [`Code::reach_with`], [`Code::blank_limit`]: T with blank places, and how many there may be.
//! - [`encode`], [`read_back`]: document 01's calls, with its checks.

use std::ops::RangeInclusive;
use std::sync::OnceLock;

use crate::curve::{monomials, GENUS, PLACES};
use crate::linear::Span;
use crate::refusal::Refusal;
use crate::row::Row;

/// "The rate becomes any k from 6 to 52."
pub const LEAST_RATE: u64 = 6;
pub const MOST_RATE: u64 = 52;

/// How many rates there are.
pub const RATE_COUNT: usize = (MOST_RATE - LEAST_RATE + 1) as usize;

/// All rates, which are also their numbers of message symbols.
pub fn rates() -> RangeInclusive<u64> {
    LEAST_RATE..=MOST_RATE
}

/// Which of the rates it is, from 0. "Other rates are unknown rates."
pub(crate) fn number_of_rate(rate: u64) -> Result<usize, Refusal> {
    match rates().contains(&rate) {
        true => Ok((rate - LEAST_RATE) as usize),
        false => Err(Refusal::Rate),
    }
}

/// All functions of order at most M, by their values at the 64 places.
pub struct Code {
    /// k, the number of message symbols.
    pub symbols: usize,
    /// M, the largest order.
    pub top: usize,
    /// T where no place is blank: a codeword is near a test word that differs from it in at most T
    /// places.
    pub reach: usize,
    /// The values of the monomials by rising order.
    pub monomials: Vec<Row>,
    /// The same monomials in echelon form.
    echelon: Span,
}

impl Code {
    /// The code of the functions of order at most `top`, which is below 58.
    pub fn new(top: usize) -> Code {
        let monomials: Vec<Row> = monomials(top).iter().map(|m| m.values()).collect();
        let mut echelon = Span::default();
        for (symbol, values) in monomials.iter().enumerate() {
            let dependent = echelon.add(symbol, *values);
            assert_eq!(dependent, None, "the monomials are independent");
        }
        Code {
            symbols: monomials.len(),
            top,
            reach: reach(top, 0).expect("M below 58"),
            monomials,
            echelon,
        }
    }

    /// The code of a rate, "with M = k + 5"; each is made when it is first asked for.
    pub fn of_rate(rate: u64) -> Result<&'static Code, Refusal> {
        static CODES: [OnceLock<Code>; RATE_COUNT] = [const { OnceLock::new() }; RATE_COUNT];
        let code = &CODES[number_of_rate(rate)?];
        Ok(code.get_or_init(|| Code::new(rate as usize + 5)))
    }

    /// T with so many blank places; none where they are too many.
    pub fn reach_with(&self, blanks: usize) -> Option<usize> {
        reach(self.top, blanks)
    }

    /// The most blank places with which there is a T.
    pub fn blank_limit(&self) -> usize {
        let some = (0..PLACES).take_while(|blanks| self.reach_with(*blanks).is_some());
        some.last().expect("M below 58")
    }

    /// "Message symbol number 0 multiplies the lowest order, and so on upwards. The codeword holds
    /// that function's value at each place."
    pub fn codeword(&self, message: &[u8]) -> Row {
        assert_eq!(message.len(), self.symbols);
        let mut word = Row::default();
        for (symbol, values) in message.iter().zip(&self.monomials) {
            word.add_scaled(*symbol, values);
        }
        word
    }

    /// The message of a codeword; none for every other word.
    pub fn message(&self, word: &Row) -> Option<Vec<u8>> {
        let combination = self.echelon.express(*word)?;
        Some(combination.elements()[..self.symbols].to_vec())
    }
}

/// "With b blank places T is the largest number with 2T + b < 64 − M − 6."
fn reach(top: usize, blanks: usize) -> Option<usize> {
    let limit = PLACES - GENUS - top;
    (0..limit).rev().find(|t| 2 * t + blanks < limit)
}

/// "Encode: rate; message of exactly k bytes and 64 bytes of the lent frame from a given start;
/// symbols. The codeword goes into the frame from that start, and the other bytes stay."
pub fn encode(rate: u64, message: &[u8], frame: &mut [u8], start: usize) -> Result<(), Refusal> {
    let code = Code::of_rate(rate)?;
    let part = frame
        .get_mut(start..)
        .and_then(|rest| rest.get_mut(..PLACES));
    let part = part.ok_or(Refusal::Size)?;
    check_size(message, code.symbols)?;
    check_symbols(message)?;
    part.copy_from_slice(&code.codeword(message).elements());
    Ok(())
}

/// "Read back: rate; word of 64 and message buffer of k bytes; symbols; codeword."
pub fn read_back(rate: u64, word: &[u8], message: &mut [u8]) -> Result<(), Refusal> {
    let code = Code::of_rate(rate)?;
    check_size(word, PLACES)?;
    check_size(message, code.symbols)?;
    check_symbols(word)?;
    let row = Row::from_elements(word.iter().copied());
    let found = code.message(&row).ok_or(Refusal::NotCodeword)?;
    message.copy_from_slice(&found);
    Ok(())
}

/// A lent buffer has exactly the size asked for.
pub fn check_size<T>(buffer: &[T], size: usize) -> Result<(), Refusal> {
    if buffer.len() == size {
        Ok(())
    } else {
        Err(Refusal::Size)
    }
}

pub(crate) fn check_symbols(symbols: &[u8]) -> Result<(), Refusal> {
    if symbols.iter().all(|symbol| *symbol <= 15) {
        Ok(())
    } else {
        Err(Refusal::Symbol)
    }
}

#[cfg(test)]
mod tests {
    use super::*;
    use crate::frames::UNKNOWN_RATES;
    use crate::random::Random;

    const RATES: [u64; 2] = [39, 49];

    #[test]
    fn rates_have_document_01s_numbers() {
        let numbers = RATES.map(|rate| {
            let code = Code::of_rate(rate).unwrap();
            (code.symbols, code.top, code.reach)
        });
        assert_eq!(numbers, [(39, 44, 6), (49, 54, 1)]);
    }

    /// "Rate 52 repairs nothing beyond its test words."
    #[test]
    fn every_rate_has_as_many_symbols_and_the_general_t() {
        for rate in rates() {
            let code = Code::of_rate(rate).unwrap();
            assert_eq!(code.symbols as u64, rate);
            assert_eq!(code.reach, (52 - rate as usize) / 2);
            assert_eq!(code.blank_limit(), 52 - rate as usize);
        }
        let ends = [LEAST_RATE, MOST_RATE].map(|rate| Code::of_rate(rate).unwrap().top);
        assert_eq!(ends, [11, 57]);
        for rate in UNKNOWN_RATES {
            assert_eq!(Code::of_rate(rate).err(), Some(Refusal::Rate));
        }
    }

    /// "13 blanks at rate 39 leave T = 0."
    #[test]
    fn blank_places_take_from_t() {
        let reaches = RATES.map(|rate| -> Vec<usize> {
            let code = Code::of_rate(rate).unwrap();
            assert_eq!(code.reach_with(0), Some(code.reach));
            assert_eq!(code.reach_with(code.blank_limit() + 1), None);
            let blanks = 0..=code.blank_limit();
            blanks.filter_map(|b| code.reach_with(b)).collect()
        });
        assert_eq!(reaches[0], [6, 6, 5, 5, 4, 4, 3, 3, 2, 2, 1, 1, 0, 0]);
        assert_eq!(reaches[1], [1, 1, 0, 0]);
        for top in 0..58 {
            let code = Code::new(top);
            assert_eq!(code.blank_limit(), 57 - top);
            for blanks in 0..=57 - top {
                let reach = code.reach_with(blanks).unwrap();
                assert!(2 * reach + blanks < 58 - top);
                assert!(2 * (reach + 1) + blanks >= 58 - top);
            }
        }
    }

    #[test]
    fn reading_back_inverts_encoding_and_refuses_damage() {
        let mut random = Random::new(4, 0);
        for round in 0..500 {
            for rate in rates().filter(|rate| round < 25 || RATES.contains(rate)) {
                let symbols = rate as usize;
                let sent: Vec<u8> = (0..symbols).map(|_| random.symbol()).collect();
                let mut word = [0; PLACES];
                assert_eq!(encode(rate, &sent, &mut word, 0), Ok(()));
                let mut read = vec![0; symbols];
                assert_eq!(read_back(rate, &word, &mut read), Ok(()));
                assert_eq!(read, sent);

                let place = random.below(PLACES);
                word[place] = random.other_symbol(word[place]);
                let before = vec![7; symbols];
                read.clone_from(&before);
                let damaged = read_back(rate, &word, &mut read);
                assert_eq!(damaged, Err(Refusal::NotCodeword));
                assert_eq!(read, before);
            }
        }
    }

    #[test]
    fn encoding_checks_rate_then_sizes_then_symbols() {
        let message = [16; 39];
        let mut frame = [99; 70];
        assert_eq!(
            encode(53, &message[1..], &mut frame, 70),
            Err(Refusal::Rate)
        );
        assert_eq!(encode(39, &message[1..], &mut frame, 0), Err(Refusal::Size));
        for start in [7, 70, 71, usize::MAX - 63, usize::MAX] {
            assert_eq!(encode(39, &message, &mut frame, start), Err(Refusal::Size));
        }
        assert_eq!(encode(39, &message, &mut frame, 6), Err(Refusal::Symbol));
        assert_eq!(frame, [99; 70]);
        assert_eq!(encode(39, &[0; 39], &mut frame, 6), Ok(()));
        assert_eq!(frame[..6], [99; 6]);
        assert_eq!(frame[6..], [0; 64]);
    }

    #[test]
    fn reading_back_checks_rate_then_sizes_then_symbols_then_the_word() {
        let mut message = [5; 39];
        let mut word = [0; 64];
        word[63] = 16;
        assert_eq!(read_back(5, &word[1..], &mut message), Err(Refusal::Rate));
        assert_eq!(read_back(39, &word[1..], &mut message), Err(Refusal::Size));
        assert_eq!(read_back(49, &word, &mut message), Err(Refusal::Size));
        assert_eq!(read_back(39, &word, &mut message), Err(Refusal::Symbol));
        word[63] = 15;
        assert_eq!(
            read_back(39, &word, &mut message),
            Err(Refusal::NotCodeword)
        );
        assert_eq!(message, [5; 39]);
    }
}
