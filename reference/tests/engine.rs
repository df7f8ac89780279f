//! Document 02's sentences on the elimination engine, on random words.

use reference::code::Code;
use reference::curve::{points, PLACES};
use reference::decode::decode;
use reference::engine::{eliminate, EngineCall};
use reference::engine_words::{turns, EngineWord};
use reference::least::{INTERPOLANT_BYTES, Q1_START};
use reference::nearest::Finder;
use reference::refusal::{number, Refusal};
use reference::session::Session;
use reference::soft::Columns;

/// Cost 0 for the word's symbols, 1 for the others; blank columns at the blank places.
fn columns(call: &EngineCall) -> Columns {
    std::array::from_fn(|place| {
        let mut column = [1; 16];
        if !call.blanks.contains(&(place as u8)) {
            column[usize::from(call.word[place])] = 0;
        }
        column
    })
}

/// Words of every third turn whose call passes the checks.
fn words(seed: u64) -> impl Iterator<Item = EngineWord> {
    let turns = turns();
    let numbers = (0..turns.len() as u64).step_by(3);
    let words = numbers.map(move |number| EngineWord::made(&turns, seed, number));
    words.filter(|word| [0, 9].contains(&word.expected()))
}

/// "For every rate and test word it shall agree with the tree's branch on that codeword or its absence."
#[test]
fn the_engine_agrees_with_a_tree_of_one_test_word() {
    let mut seen = [0; 2];
    for EngineWord { call, .. } in words(1) {
        let answer = call.answer();
        let decoded = decode(Finder::of_rate(call.rate).unwrap(), &columns(&call), &[]);
        assert_eq!(number(&decoded), answer.number);
        seen[usize::from(decoded.is_ok())] += 1;
        match decoded {
            Ok(near) => {
                let codeword = Code::of_rate(call.rate).unwrap().codeword(&near.message);
                assert_eq!(answer.codeword, codeword.elements());
                assert_eq!((near.tests, near.margin), (1, None));
            }
            Err(refusal) => assert_eq!(refusal, Refusal::NoneNear),
        }
    }
    assert!(seen[0] > 800 && seen[1] > 3000, "{seen:?}");
}

/// "The Q it writes is the least one of document 01: the reading's rule applied to the test word at all its
/// unblanked places."
#[test]
fn q_is_the_reading_of_a_session_with_all_places_settled() {
    for EngineWord { call, .. } in words(2) {
        let answer = call.answer();
        if answer.number != 0 {
            continue;
        }
        let mut session = Session::open(call.rate, &[]).unwrap();
        for (place, column) in (0..).zip(columns(&call)) {
            session.deliver(place, column).unwrap();
        }
        let mut reading = [99; INTERPOLANT_BYTES];
        session.read_interpolant(&mut reading).unwrap();
        assert_eq!(answer.q, reading);
    }
}

/// The function x with one wrong symbol, at place 7: Q is (x + 1)(z + x), since x is 1 there.
#[test]
fn one_wrong_symbol_gives_its_locator() {
    let sent: Vec<u8> = points().iter().map(|point| point.x).collect();
    let mut word = sent.clone();
    word[7] ^= 5;
    let (mut codeword, mut q) = ([99; PLACES], [99; INTERPOLANT_BYTES]);
    assert_eq!(eliminate(39, &word, &[], &mut codeword, &mut q), Ok(()));
    assert_eq!(codeword[..], sent);
    let mut expected = [0; INTERPOLANT_BYTES];
    for order in [4, 8] {
        expected[order] = 1;
    }
    for order in [0, 4] {
        expected[Q1_START + order] = 1;
    }
    assert_eq!(q, expected);
    // Where the place is blank, x itself passes through all others.
    assert_eq!(eliminate(39, &word, &[7], &mut codeword, &mut q), Ok(()));
    assert_eq!(codeword[..], sent);
    expected = [0; INTERPOLANT_BYTES];
    expected[4] = 1;
    expected[Q1_START] = 1;
    assert_eq!(q, expected);
}
