//! Superframes: eight codewords of one rate in one frame, each row of it with one symbol of each.
//!
//! - [`build`], [`take_apart`]: document 02's calls, with their checks.
//! - [`interleaved`], [`separated`]: from eight words to 512 symbols and back. The symbols are a matrix of
//!   64 rows, and the words are its columns.

use crate::code::{check_size, check_symbols, Code};
use crate::curve::PLACES;
use crate::nearest::Finder;
use crate::refusal::Refusal;
use crate::row::Row;

/// "One product sends eight codewords of one rate together."
pub const WORDS: usize = 8;

/// "Version byte 1, two bytes of length (513), the rate, then 512 symbol bytes."
pub const VERSION: u8 = 1;
pub const LENGTH: u16 = 513;
pub const HEAD_BYTES: usize = 4;
pub const SYMBOLS: usize = WORDS * PLACES;

/// "14: total not 516 bytes".
pub const FRAME_BYTES: usize = HEAD_BYTES + SYMBOLS;

/// "Building takes 8k message symbols, those of word 0 first and so on upwards; it checks rate, buffers and
/// symbols in that order."
pub fn build(rate: u64, messages: &[u8], frame: &mut [u8]) -> Result<(), Refusal> {
    let code = Code::of_rate(rate)?;
    check_size(messages, WORDS * code.symbols)?;
    check_size(frame, FRAME_BYTES)?;
    check_symbols(messages)?;
    let mut parts = messages.chunks_exact(code.symbols);
    let words = std::array::from_fn(|_| {
        let message = parts.next().expect("eight messages");
        code.codeword(message).elements()
    });
    let [high, low] = LENGTH.to_be_bytes();
    let head = [VERSION, high, low, rate as u8];
    frame.copy_from_slice(&[&head[..], &interleaved(&words)].concat());
    Ok(())
}

/// "14: total not 516 bytes, or version or length wrong, in that order, first of all; an unknown rate,
/// ill-sized buffer and symbol above 15 follow." A column "with cost 0 for" the received symbol "and 1 for
/// the others, without doubt," has that symbol as its best, so the only test word is the word received. "A
/// word with none near leaves its part untouched and is named in the returned status byte, where word v
/// counts 2^v."
pub fn take_apart(frame: &[u8], messages: &mut [u8]) -> Result<u8, Refusal> {
    let (rate, symbols) = rate_and_symbols(frame).ok_or(Refusal::Superframe)?;
    let code = Code::of_rate(rate)?;
    check_size(messages, WORDS * code.symbols)?;
    check_symbols(symbols)?;
    let places = Finder::of_rate(rate)?.unblanked(&[]);
    let places = places.expect("T without blank places");
    let mut status = 0;
    let parts = messages.chunks_exact_mut(code.symbols);
    for (number, (word, part)) in separated(symbols).into_iter().zip(parts).enumerate() {
        match places.nearest(&Row::from_elements(word)) {
            Some(near) => part.copy_from_slice(&near.message),
            None => status |= 1 << number,
        }
    }
    Ok(status)
}

/// What follows a right version and length, in a frame of the right size.
fn rate_and_symbols(frame: &[u8]) -> Option<(u64, &[u8])> {
    let [VERSION, high, low, rate, symbols @ ..] = frame else {
        return None;
    };
    let right = symbols.len() == SYMBOLS && u16::from_be_bytes([*high, *low]) == LENGTH;
    right.then_some((u64::from(*rate), symbols))
}

/// "Place p of word v is symbol number 8p + v": row p has the symbols of place p.
pub fn interleaved(words: &[[u8; PLACES]; WORDS]) -> Vec<u8> {
    let row = |place: usize| words.map(|word| word[place]);
    (0..PLACES).flat_map(row).collect()
}

/// The words whose rows these symbols are.
pub fn separated(symbols: &[u8]) -> [Vec<u8>; WORDS] {
    let mut words: [Vec<u8>; WORDS] = Default::default();
    for row in symbols.chunks_exact(WORDS) {
        for (word, symbol) in words.iter_mut().zip(row) {
            word.push(*symbol);
        }
    }
    words
}

#[cfg(test)]
mod tests {
    use super::*;
    use crate::code::{encode, rates};
    use crate::decode::decode;
    use crate::random::Random;
    use crate::soft::Columns;

    fn random_messages(rate: u64, random: &mut Random) -> Vec<u8> {
        let symbols = WORDS * rate as usize;
        (0..symbols).map(|_| random.symbol()).collect()
    }

    fn built(rate: u64, messages: &[u8]) -> Vec<u8> {
        let mut frame = vec![99; FRAME_BYTES];
        assert_eq!(build(rate, messages, &mut frame), Ok(()));
        frame
    }

    #[test]
    fn words_are_the_columns() {
        let words: [[u8; PLACES]; WORDS] =
            std::array::from_fn(|v| std::array::from_fn(|p| (v * PLACES + p) as u8));
        let symbols = interleaved(&words);
        assert_eq!(symbols.len(), SYMBOLS);
        assert_eq!(symbols[..9], [0, 64, 128, 192, 0, 64, 128, 192, 1]);
        for (symbol, byte) in symbols.iter().enumerate() {
            assert_eq!(*byte, words[symbol % 8][symbol / 8]);
        }
        assert_eq!(separated(&symbols), words.map(|word| word.to_vec()));
    }

    /// The message of a 1 in symbol 1 of word 2 alone, the function x, and those of zero.
    #[test]
    fn a_frame_begins_with_its_head() {
        let mut messages = vec![0; 8 * 39];
        messages[2 * 39 + 1] = 1;
        let frame = built(39, &messages);
        assert_eq!(frame[..4], [1, 2, 1, 39]);
        for (at, byte) in frame[4..].iter().enumerate() {
            let x = (at / 8 / 4) as u8;
            assert_eq!(*byte, if at % 8 == 2 { x } else { 0 });
        }
    }

    #[test]
    fn what_is_built_comes_back_at_every_rate() {
        let mut random = Random::new(160, 0);
        for rate in rates() {
            let messages = random_messages(rate, &mut random);
            let frame = built(rate, &messages);
            for (v, message) in messages.chunks_exact(rate as usize).enumerate() {
                let mut word = [0; PLACES];
                encode(rate, message, &mut word, 0).unwrap();
                for (place, symbol) in word.into_iter().enumerate() {
                    assert_eq!(frame[4 + 8 * place + v], symbol);
                }
            }
            let mut back = vec![99; messages.len()];
            assert_eq!(take_apart(&frame, &mut back), Ok(0));
            assert_eq!(back, messages);
        }
    }

    /// "If at most 48 consecutive symbols are altered, still each 0 to 15, all eight messages come back."
    /// One more names a word, whose part stays, and no other.
    #[test]
    fn forty_eight_are_repaired_and_one_more_names_a_word() {
        let mut random = Random::new(161, 0);
        let messages = random_messages(39, &mut random);
        let sent = built(39, &messages);
        for start in (0..=SYMBOLS - 49).step_by(13) {
            let mut frame = sent.clone();
            for byte in &mut frame[4 + start..][..48] {
                *byte = random.other_symbol(*byte);
            }
            let mut back = vec![99; messages.len()];
            assert_eq!(take_apart(&frame, &mut back), Ok(0));
            assert_eq!(back, messages);
            let last = 4 + start + 48;
            frame[last] = random.other_symbol(frame[last]);
            let mut back = vec![99; messages.len()];
            let word = start % 8;
            assert_eq!(take_apart(&frame, &mut back), Ok(1 << word));
            let mut expected = messages.clone();
            expected[39 * word..][..39].fill(99);
            assert_eq!(back, expected);
        }
    }

    /// The columns of a word.
    fn hard_columns(word: &[u8]) -> Columns {
        std::array::from_fn(|place| {
            std::array::from_fn(|symbol| u16::from(usize::from(word[place]) != symbol))
        })
    }

    /// Each word by its columns, with the answers of table decoding.
    #[test]
    fn words_are_decoded_as_their_columns_are() {
        let mut random = Random::new(162, 0);
        for rate in rates() {
            let finder = Finder::of_rate(rate).unwrap();
            let symbols = rate as usize;
            let mut frame = built(rate, &random_messages(rate, &mut random));
            for byte in &mut frame[4..] {
                if random.below(PLACES) < finder.code().reach + 1 {
                    *byte = random.symbol();
                }
            }
            let before = vec![99; WORDS * symbols];
            let mut back = before.clone();
            let status = take_apart(&frame, &mut back).unwrap();
            for (v, word) in separated(&frame[4..]).iter().enumerate() {
                let part = &back[symbols * v..][..symbols];
                match decode(finder, &hard_columns(word), &[]) {
                    Ok(answer) => assert_eq!((part, status >> v & 1), (&answer.message[..], 0)),
                    Err(refusal) => {
                        assert_eq!(refusal, Refusal::NoneNear);
                        assert_eq!((part, status >> v & 1), (&before[..symbols], 1));
                    }
                }
            }
        }
    }

    #[test]
    fn building_checks_rate_then_sizes_then_symbols() {
        let wrong = vec![16; 8 * 39];
        let mut frame = vec![99; FRAME_BYTES + 1];
        for rate in [0, 5, 53, 255, 256 + 39, u64::MAX] {
            let refused = build(rate, &wrong[1..], &mut frame);
            assert_eq!(refused, Err(Refusal::Rate));
        }
        for room in [0, 39, 8 * 39 - 1] {
            let refused = build(39, &wrong[..room], &mut frame[..FRAME_BYTES]);
            assert_eq!(refused, Err(Refusal::Size));
        }
        for room in [0, 4, 512, 515, 517] {
            let refused = build(39, &wrong, &mut frame[..room]);
            assert_eq!(refused, Err(Refusal::Size));
        }
        let refused = build(39, &wrong, &mut frame[..FRAME_BYTES]);
        assert_eq!(refused, Err(Refusal::Symbol));
        assert_eq!(frame, [99; FRAME_BYTES + 1]);
    }

    #[test]
    fn taking_apart_checks_head_then_rate_then_size_then_symbols() {
        let mut frame = built(39, &vec![3; 8 * 39]);
        frame.push(0);
        frame[..4].copy_from_slice(&[2, 1, 2, 53]);
        frame[515] = 16;
        let taken = |frame: &[u8], room: usize| {
            let mut messages = vec![99; room];
            let taken = take_apart(frame, &mut messages);
            assert!(taken.is_ok() || messages == vec![99; room]);
            taken
        };
        for size in [0, 1, 3, 4, 515, 517] {
            let refused = taken(&frame[..size], 0);
            assert_eq!(refused, Err(Refusal::Superframe));
        }
        frame.pop();
        assert_eq!(taken(&frame, 0), Err(Refusal::Superframe));
        frame[0] = 1;
        for length in [[1, 2], [2, 0], [2, 2], [0, 1], [3, 1]] {
            frame[1..3].copy_from_slice(&length);
            assert_eq!(taken(&frame, 0), Err(Refusal::Superframe));
        }
        frame[1..3].copy_from_slice(&[2, 1]);
        assert_eq!(taken(&frame, 0), Err(Refusal::Rate));
        frame[3] = 39;
        assert_eq!(taken(&frame, 0), Err(Refusal::Size));
        assert_eq!(taken(&frame, 39), Err(Refusal::Size));
        assert_eq!(taken(&frame, 8 * 39), Err(Refusal::Symbol));
        frame[515] = 15;
        assert_eq!(taken(&frame, 8 * 39), Ok(0));
    }
}
