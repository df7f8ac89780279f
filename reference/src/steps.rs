//! The least Q = Q0 + Q1 z by Kötter's steps, place by place, on rows of coefficients.
//!
//! - [`TermOrder`]: which of two terms is higher.
//! - [`least_by_steps`]: the least Q through some places and their symbols, by that order.
//! - [`Polynomial::bytes`]: its 98 bytes; [`Polynomial::scaled_by_lowest`]: with another coefficient 1.
//!
//! Every Q is a sum of the eight monomials y^j and y^j z, j at most 3, with polynomials in x for
//! coefficients. For each of these classes one Q is kept: of those that vanish at the places so far and
//! have their highest term in the class, one whose highest term is least. At one place more the values of
//! all of them are taken off by the least one that has a value there, which itself is multiplied by x − a.

use crate::curve::points;
use crate::field::{inverse, times};
use crate::least::{INTERPOLANT_BYTES, Q1_START};
use crate::row::{Row, LANES};

/// y^0 to y^3, then the same with z.
const CLASSES: usize = 8;
const POWERS_OF_Y: usize = CLASSES / 2;

/// Which of two terms is higher.
#[derive(Clone, Copy, Debug, PartialEq, Eq)]
pub struct TermOrder {
    /// What z weighs.
    pub z: usize,
    /// Whether of equal weights the term with z is smaller.
    pub z_first: bool,
}

impl TermOrder {
    /// "A term's weight is its order, plus M with z; of equal weights the term without z is smaller."
    pub fn of_top(top: usize) -> TermOrder {
        TermOrder {
            z: top,
            z_first: false,
        }
    }

    /// Larger for the higher of two terms.
    fn key(self, term: Term) -> usize {
        let z = if term.with_z() { self.z } else { 0 };
        2 * (term.order() + z) + usize::from(term.with_z() != self.z_first)
    }
}

/// x to a power, times the monomial of a class.
#[derive(Clone, Copy, Debug, PartialEq, Eq)]
struct Term {
    class: usize,
    power: usize,
}

impl Term {
    fn with_z(self) -> bool {
        self.class >= POWERS_OF_Y
    }

    /// That of the monomial without z.
    fn order(self) -> usize {
        4 * self.power + 5 * (self.class % POWERS_OF_Y)
    }
}

/// A polynomial Q0 + Q1 z that is not zero.
#[derive(Clone, Copy, Debug, PartialEq, Eq)]
pub struct Polynomial {
    /// By class; lane i is the coefficient of x^i.
    parts: [Row; CLASSES],
    /// Its highest term.
    highest: Term,
}

/// A place and the symbol there.
struct Node {
    x: u8,
    /// The powers of x.
    powers: Row,
    /// The value of each class's monomial.
    classes: [u8; CLASSES],
}

impl Node {
    fn of((place, symbol): (u8, u8)) -> Node {
        let point = points()[usize::from(place)];
        let powers_of = |a: u8| std::iter::successors(Some(1), move |power| Some(times(*power, a)));
        let mut classes = [0; CLASSES];
        for (j, power) in powers_of(point.y).take(POWERS_OF_Y).enumerate() {
            classes[j] = power;
            classes[POWERS_OF_Y + j] = times(power, symbol);
        }
        Node {
            x: point.x,
            powers: Row::from_elements(powers_of(point.x).take(LANES)),
            classes,
        }
    }
}

impl Polynomial {
    /// The monomial of a class.
    fn start(class: usize) -> Polynomial {
        let mut parts = [Row::default(); CLASSES];
        parts[class].set(0, 1);
        let highest = Term { class, power: 0 };
        Polynomial { parts, highest }
    }

    fn value(&self, node: &Node) -> u8 {
        let of_classes = self.parts.iter().zip(node.classes);
        of_classes.fold(0, |sum, (part, class)| {
            sum ^ times(class, part.dot(&node.powers))
        })
    }

    /// Adds a multiple of another one, which has a smaller highest term where the scale is not zero.
    fn add_scaled(&mut self, scale: u8, other: &Polynomial) {
        for (part, added) in self.parts.iter_mut().zip(&other.parts) {
            part.add_scaled(scale, added);
        }
    }

    /// The product with x − a.
    fn raised(&self, a: u8) -> Polynomial {
        let parts = self.parts.map(|part| {
            let mut raised = part.shifted();
            raised.add_scaled(a, &part);
            raised
        });
        let highest = Term {
            power: self.highest.power + 1,
            ..self.highest
        };
        Polynomial { parts, highest }
    }

    fn coefficient(&self, term: Term) -> u8 {
        self.parts[term.class].get(term.power)
    }

    /// The multiple in which a term has coefficient 1.
    fn scaled_by(&self, term: Term) -> Polynomial {
        let scale = inverse(self.coefficient(term));
        Polynomial {
            parts: self.parts.map(|part| part.scaled(scale)),
            ..*self
        }
    }

    /// The multiple in which the lowest term that takes part has coefficient 1.
    pub fn scaled_by_lowest(&self, order: TermOrder) -> Polynomial {
        let lowest = self.terms().min_by_key(|term| order.key(*term));
        self.scaled_by(lowest.expect("a polynomial that is not zero"))
    }

    /// The terms that take part.
    fn terms(&self) -> impl Iterator<Item = Term> + '_ {
        let all = (0..CLASSES).flat_map(|class| (0..LANES).map(move |power| Term { class, power }));
        all.filter(|term| self.coefficient(*term) != 0)
    }

    /// The coefficients as the reading has them.
    pub fn bytes(&self) -> [u8; INTERPOLANT_BYTES] {
        let mut bytes = [0; INTERPOLANT_BYTES];
        for term in self.terms() {
            let start = if term.with_z() { Q1_START } else { 0 };
            assert!(
                term.with_z() || term.order() < Q1_START,
                "Q0 is of order 64 at most"
            );
            bytes[start + term.order()] = self.coefficient(term);
        }
        bytes
    }
}

/// "The least Q = Q0 + Q1 z, not zero," that vanishes at these places, with z the symbol there; its highest
/// term has coefficient 1.
pub fn least_by_steps(order: TermOrder, nodes: &[(u8, u8)]) -> Polynomial {
    let mut kept: [Polynomial; CLASSES] = std::array::from_fn(Polynomial::start);
    for node in nodes {
        let node = Node::of(*node);
        let values = kept.map(|polynomial| polynomial.value(&node));
        let of_value = (0..CLASSES).filter(|class| values[*class] != 0);
        let Some(least) = of_value.min_by_key(|class| order.key(kept[*class].highest)) else {
            continue;
        };
        let taken = kept[least];
        let scale = inverse(values[least]);
        for class in (0..CLASSES).filter(|class| *class != least) {
            kept[class].add_scaled(times(values[class], scale), &taken);
        }
        kept[least] = taken.raised(node.x);
    }
    let least = kept.iter().min_by_key(|kept| order.key(kept.highest));
    let least = least.expect("eight classes");
    least.scaled_by(least.highest)
}

#[cfg(test)]
mod tests {
    use super::*;
    use crate::code::{rates, Code};
    use crate::curve::PLACES;
    use crate::frames::{random_codeword, some_places};
    use crate::least::least;
    use crate::random::Random;

    /// What elimination over the terms finds, at every rate and with every number of places, for symbols
    /// that follow no codeword and for those of a codeword with some of them wrong.
    #[test]
    fn steps_lead_to_what_elimination_finds() {
        let mut random = Random::new(130, 0);
        for rate in rates() {
            let code = Code::of_rate(rate).unwrap();
            for count in (0..=PLACES).step_by(3).chain([PLACES; 4]) {
                let places = random.shuffled(some_places(count, &mut random.clone()));
                let mut word = random_codeword(code, &mut random);
                for place in random.shuffled(0..PLACES).into_iter().take(code.reach) {
                    word.set(place, random.symbol());
                }
                let near: Vec<(u8, u8)> = places
                    .iter()
                    .map(|place| (*place, word.get(usize::from(*place))))
                    .collect();
                let noise: Vec<(u8, u8)> = places
                    .iter()
                    .map(|place| (*place, random.symbol()))
                    .collect();
                for nodes in [near, noise] {
                    let found = least_by_steps(TermOrder::of_top(code.top), &nodes);
                    assert_eq!(found.bytes(), least(code, &nodes));
                }
            }
        }
    }

    /// x^16 + x vanishes everywhere, and so does every class's monomial times it: no power of x comes above.
    #[test]
    fn all_places_raise_no_class_above_16() {
        let mut random = Random::new(131, 0);
        for z in [0, 11, 44, 57] {
            for z_first in [false, true] {
                let nodes: Vec<(u8, u8)> =
                    (0..PLACES as u8).map(|p| (p, random.symbol())).collect();
                let found = least_by_steps(TermOrder { z, z_first }, &nodes);
                assert!(found.terms().all(|term| term.power <= 16));
                assert_eq!(found.coefficient(found.highest), 1);
                for node in &nodes {
                    assert_eq!(found.value(&Node::of(*node)), 0);
                }
            }
        }
    }

    /// With z first, Q0 of the same weight as Q1 z is the highest term, and is scaled to 1.
    #[test]
    fn other_orders_and_scales_lead_elsewhere() {
        let code = Code::of_rate(39).unwrap();
        let mut message = [3; 39];
        message[38] = 7;
        let word = code.codeword(&message);
        let nodes: Vec<(u8, u8)> = (0..64).map(|p| (p, word.get(usize::from(p)))).collect();
        let order = TermOrder::of_top(code.top);
        let right = least_by_steps(order, &nodes);
        assert_eq!((right.bytes()[44], right.bytes()[Q1_START]), (7, 1));
        let first = least_by_steps(
            TermOrder {
                z_first: true,
                ..order
            },
            &nodes,
        );
        let by_44 = inverse(7);
        assert_eq!((first.bytes()[44], first.bytes()[Q1_START]), (1, by_44));
        let lowest = right.scaled_by_lowest(order).bytes();
        assert_eq!((lowest[0], lowest[Q1_START]), (1, inverse(3)));
    }
}
