//! Codewords of least weight, built as products of functions with known zeros.
//!
//! - [`lightest`]: one of them, or nearly, of [`light_weight`].
//! - [`light_pair`]: two of rate 39 or 49 whose difference is one too.

use crate::code::Code;
use crate::curve::{points, Point, PLACES};
use crate::field::times;
use crate::random::Random;
use crate::row::Row;

/// The weight of [`lightest`]: 64 − M, except that at rate 6, 48 and 52 no function of order M is such a
/// product, and the next lower order is taken.
pub fn light_weight(code: &Code) -> usize {
    let built = |order: &usize| factors(*order).is_some();
    let order = (0..=code.top).rev().find(built);
    PLACES - order.expect("order 0")
}

/// How many lines and how many factors x − a a product of this order has.
fn factors(order: usize) -> Option<(usize, usize)> {
    let lines = order % 4;
    let others = order.checked_sub(5 * lines)? / 4;
    let room = if lines == 0 { 16 } else { 11 };
    (others <= room).then_some((lines, others))
}

/// A codeword of [`light_weight`]: the values of a function of order m with m zeros among the places.
///
/// A factor x − a has order 4 and four zeros. Up to three parallel lines that meet the same five x in
/// five places each, of order 5, come on top where m is no multiple of 4, and the factors are those of
/// the eleven other x: eleven factors at rate 39, and two lines with them at rate 49.
pub fn lightest(code: &Code, random: &mut Random) -> Row {
    let weight = light_weight(code);
    let (lines, others) = factors(PLACES - weight).expect("an order of such a product");
    let mut word = Row::from_elements([random.other_symbol(0); PLACES]);
    let mut free = random.shuffled(0..16);
    if lines > 0 {
        let lines = &parallel_lines(random)[..lines];
        for line in lines {
            word = word.product(line);
        }
        let met = |x: &u8| (0..PLACES).any(|p| p / 4 == usize::from(*x) && lines[0].get(p) == 0);
        free.retain(|x| !met(x));
    }
    for x in free.into_iter().take(others) {
        word = word.product(&values(|point| point.x ^ x));
    }
    assert_eq!(word.weight(), weight);
    word
}

/// Four lines y − mx − b that are zero in five places each, above the same five x.
fn parallel_lines(random: &mut Random) -> Vec<Row> {
    let zeros = |line: &Row| -> Vec<usize> {
        (0..PLACES)
            .filter(|place| line.get(*place) == 0)
            .map(|place| place / 4)
            .collect()
    };
    loop {
        let slope = random.symbol();
        let start = random.symbol();
        let other = random.other_symbol(start);
        let line = |b: u8| values(|p| p.y ^ times(slope, p.x) ^ b);
        let met = zeros(&line(start));
        if met.len() == 5 && met == zeros(&line(other)) {
            let more = (0..16).filter(|b| ![start, other].contains(b));
            let all = [start, other].into_iter().chain(more).map(line);
            return all.filter(|line| zeros(line) == met).collect();
        }
    }
}

/// Two codewords of least weight whose difference is a third: they are alike in half of the places
/// where either is not zero.
///
/// Four parallel lines meet the same five x, in all places above them, and y − mx − b is constant on
/// each line but its own. Each word is zero on two of them, at rate 39 of two such fours with the
/// same slope, and has factors x − a for all other x: on the line where neither is zero they then
/// have a constant ratio, which is made 1.
pub fn light_pair(code: &Code, random: &mut Random) -> [Row; 2] {
    let starts: Vec<u8> = points().iter().filter(|p| p.x == 0).map(|p| p.y).collect();
    let starts = random.shuffled(starts);
    let lines = |slope: u8, b: u8| values(|p| p.y ^ times(slope, p.x) ^ b);
    let slope = random.symbol();
    let met = |b: u8| -> Vec<u8> {
        let line = lines(slope, b);
        let zeros = (0..PLACES).filter(|place| line.get(*place) == 0);
        zeros.map(|place| place as u8 / 4).collect()
    };
    let fours = if code.top == 54 { 1 } else { 2 };
    let mut chosen: Vec<(u8, Vec<u8>)> = Vec::new();
    for b in random.shuffled(0..16) {
        let met = met(b);
        let known = chosen.iter().any(|(_, others)| *others == met);
        if chosen.len() < fours && met.len() == 5 && !known {
            chosen.push((b, met));
        }
    }
    let mut others = Row::from_elements([random.other_symbol(0); PLACES]);
    for x in (0..16).filter(|x| chosen.iter().all(|(_, met)| !met.contains(x))) {
        others = others.product(&values(|point| point.x ^ x));
    }
    let zero_on = |numbers: [usize; 2]| {
        let mut word = others;
        for (b, _) in &chosen {
            for number in numbers {
                word = word.product(&lines(slope, b ^ starts[number]));
            }
        }
        word
    };
    let (first, second) = (zero_on([0, 1]), zero_on([0, 2]));
    let alike = |scaled: &Row| {
        let mut difference = first;
        difference.add(scaled);
        difference.weight() == PLACES - code.top
    };
    let scaled = (1..16).map(|scale| second.scaled(scale)).find(alike);
    [first, scaled.expect("a constant ratio")]
}

/// A function's value at each place.
fn values(function: impl Fn(Point) -> u8) -> Row {
    Row::from_elements(points().map(function))
}

#[cfg(test)]
mod tests {
    use super::*;
    use crate::code::rates;
    use crate::frames::RATES;

    #[test]
    fn every_rate_has_light_codewords() {
        let mut random = Random::new(32, 0);
        for rate in rates() {
            let code = Code::of_rate(rate).unwrap();
            let more = u64::from([6, 48, 52].contains(&rate));
            assert_eq!(light_weight(code) as u64, 59 - rate + more);
            for _ in 0..20 {
                let word = lightest(code, &mut random);
                assert_eq!(word.weight(), light_weight(code));
                assert!(code.message(&word).is_some());
            }
        }
    }

    #[test]
    fn lightest_words_are_codewords_of_least_weight() {
        let mut random = Random::new(31, 0);
        for rate in RATES {
            let code = Code::of_rate(rate).unwrap();
            for _ in 0..100 {
                let [first, second] = light_pair(code, &mut random);
                let mut difference = first;
                difference.add(&second);
                for word in [lightest(code, &mut random), first, second, difference] {
                    assert_eq!(word.weight(), PLACES - code.top);
                    assert!(code.message(&word).is_some());
                }
            }
        }
    }
}
