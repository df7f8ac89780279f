//! The least Q = Q0 + Q1 z, by elimination over terms in rising order of key.
//!
//! - [`Term`], [`terms`]: the monomials without and with z, smallest first.
//! - [`least`]: the 98 bytes of the least Q for settled places and their best symbols.

use crate::code::Code;
use crate::curve::{monomials, Monomial, PLACES};
use crate::linear::Span;
use crate::row::Row;

/// "The interpolant reading becomes 98 bytes: Q0 for orders 0 to 64, Q1 for 0 to 32."
pub const INTERPOLANT_BYTES: usize = Q1_START + Q1_TOP + 1;
pub const Q1_START: usize = 65;
pub const Q1_TOP: usize = 32;

/// A monomial, times z or not.
#[derive(Clone, Copy, Debug, PartialEq, Eq)]
pub struct Term {
    pub monomial: Monomial,
    pub with_z: bool,
}

impl Term {
    /// "A term's weight is its order, plus M with z; of equal weights the term without z is
    /// smaller": twice the weight, plus one with z.
    fn key(self, top: usize) -> usize {
        let order = self.monomial.order();
        if self.with_z {
            2 * (order + top) + 1
        } else {
            2 * order
        }
    }

    /// Where the term's coefficient stands among the 98 bytes.
    fn byte(self) -> usize {
        let start = if self.with_z { Q1_START } else { 0 };
        start + self.monomial.order()
    }
}

/// The terms from the smallest up, with orders to 64.
pub fn terms(top: usize) -> Vec<Term> {
    let both = |monomial| [false, true].map(|with_z| Term { monomial, with_z });
    let mut terms: Vec<Term> = monomials(PLACES).into_iter().flat_map(both).collect();
    terms.sort_by_key(|term| term.key(top));
    terms
}

/// "The least Q = Q0 + Q1 z, not zero, that vanishes at every settled place taken, with z the best
/// symbol there. The least Q has the smallest highest term, with coefficient 1."
///
/// Its highest term is the first whose values at these places depend on those of smaller terms.
pub fn least(code: &Code, settled: &[(u8, u8)]) -> [u8; INTERPOLANT_BYTES] {
    let mut taken = Row::default();
    let mut z = Row::default();
    for (place, symbol) in settled {
        taken.set(usize::from(*place), 1);
        z.set(usize::from(*place), *symbol);
    }
    let terms = terms(code.top);
    let mut span = Span::default();
    for (highest, term) in terms.iter().enumerate() {
        let factor = if term.with_z { &z } else { &taken };
        let values = term.monomial.values().product(factor);
        if let Some(combination) = span.add(highest, values) {
            return bytes_of(&terms[..=highest], &combination);
        }
    }
    unreachable!("65 terms have dependent values at 64 places")
}

/// The last term with coefficient 1, the terms before it with those of the combination.
fn bytes_of(terms: &[Term], combination: &Row) -> [u8; INTERPOLANT_BYTES] {
    let mut bytes = [0; INTERPOLANT_BYTES];
    let (last, smaller) = terms.split_last().expect("a highest term");
    bytes[last.byte()] = 1;
    for (number, term) in smaller.iter().enumerate() {
        let coefficient = combination.get(number);
        if coefficient != 0 {
            bytes[term.byte()] = coefficient;
        }
    }
    bytes
}

#[cfg(test)]
mod tests {
    use super::*;
    use crate::code::{rates, LEAST_RATE, RATE_COUNT};
    use crate::curve::points;
    use crate::field::times;
    use crate::random::Random;

    /// The coefficients of the 98 bytes, smallest term first.
    fn coefficients(code: &Code, bytes: &[u8; INTERPOLANT_BYTES]) -> Vec<(Term, u8)> {
        let held = |term: &Term| !term.with_z || term.monomial.order() <= Q1_TOP;
        let terms = terms(code.top).into_iter().filter(held);
        terms.map(|term| (term, bytes[term.byte()])).collect()
    }

    #[test]
    fn least_vanishes_has_coefficient_one_and_one_condition_fewer_than_terms() {
        let mut random = Random::new(20, 0);
        for round in 0..10 * RATE_COUNT as u64 {
            let code = Code::of_rate(LEAST_RATE + round % RATE_COUNT as u64).unwrap();
            let places = random.shuffled(0..PLACES as u8);
            let count = random.between(0, PLACES);
            let settled: Vec<(u8, u8)> = places[..count]
                .iter()
                .map(|place| (*place, random.symbol()))
                .collect();
            let bytes = least(code, &settled);
            let coefficients = coefficients(code, &bytes);
            for (place, z) in &settled {
                let point = points()[usize::from(*place)];
                let value = coefficients.iter().fold(0, |sum, (term, coefficient)| {
                    let factor = if term.with_z { *z } else { 1 };
                    sum ^ times(*coefficient, times(term.monomial.value(point), factor))
                });
                assert_eq!(value, 0);
            }
            let (highest, (_, coefficient)) = coefficients
                .iter()
                .enumerate()
                .rfind(|(_, (_, c))| *c != 0)
                .unwrap();
            assert_eq!(*coefficient, 1);
            assert!(highest <= count);
            assert!([1, 2, 3, 6, 7, 11]
                .iter()
                .all(|n| bytes[*n] == 0 && bytes[Q1_START + n] == 0));
        }
    }

    /// The largest order of Q1, where all places are settled and follow no codeword: at rate 6 it takes
    /// the last byte, and from M = 42 on none above 16. Where M is large x^16 + x is less than any Q with
    /// z.
    #[test]
    fn the_bytes_hold_q1_at_every_rate() {
        let mut random = Random::new(23, 0);
        for rate in rates() {
            let code = Code::of_rate(rate).unwrap();
            let orders = [(); 8].map(|_| {
                let settled: Vec<(u8, u8)> = (0..64).map(|p| (p, random.symbol())).collect();
                let bytes = least(code, &settled);
                bytes[Q1_START..].iter().rposition(|byte| *byte != 0)
            });
            let most = orders.into_iter().flatten().max().unwrap_or(0);
            match rate {
                LEAST_RATE => assert_eq!(most, Q1_TOP),
                ..37 => assert!((17..Q1_TOP).contains(&most), "{most} at rate {rate}"),
                _ => assert!(most <= 16, "{most} at rate {rate}"),
            }
        }
    }

    #[test]
    fn least_does_not_depend_on_the_order_of_places() {
        let mut random = Random::new(21, 0);
        let code = Code::of_rate(39).unwrap();
        let settled: Vec<(u8, u8)> = (0..56).map(|place| (place, random.symbol())).collect();
        let shuffled = random.shuffled(settled.clone());
        assert_eq!(least(code, &settled), least(code, &shuffled));
    }

    /// All symbols from a codeword: Q1 z takes part as soon as M and the places allow.
    #[test]
    fn least_of_a_codeword_divides_to_its_message() {
        let mut random = Random::new(22, 0);
        let code = Code::of_rate(39).unwrap();
        let message: Vec<u8> = (0..39).map(|_| random.symbol()).collect();
        let word = code.codeword(&message).elements();
        let settled: Vec<(u8, u8)> = (0..64)
            .map(|place| (place, word[usize::from(place)]))
            .collect();
        let bytes = least(code, &settled);
        let mut expected = [0; INTERPOLANT_BYTES];
        expected[Q1_START] = 1;
        for (symbol, monomial) in message.iter().zip(monomials(44)) {
            expected[monomial.order()] = *symbol;
        }
        assert_eq!(bytes, expected);
    }
}
