//! The curve y^4 + y = x^5: its points by place, its monomials by order.
//!
//! - [`points`]: the point of each place, by search over all (x, y).
//! - [`Monomial`], [`monomials`]: x^i y^j by rising order.
//! - [`Monomial::values`]: a monomial's value at each place.

use std::sync::OnceLock;

use crate::field::{power, times, SYMBOLS};
use crate::row::Row;

/// "It has 64 affine points and genus 6."
pub const PLACES: usize = 64;
pub const GENUS: usize = 6;

/// A point of the curve.
#[derive(Clone, Copy, Debug, PartialEq, Eq)]
pub struct Point {
    pub x: u8,
    pub y: u8,
}

impl Point {
    /// "The curve is y^4 + y = x^5."
    pub fn on_curve(self) -> bool {
        power(self.y, 4) ^ self.y == power(self.x, 5)
    }
}

/// "Place 4X + r is the point with x = X and the r-th smallest y, r from 0 to 3": the search goes
/// by rising x, and for each x by rising y. It is made once.
pub fn points() -> &'static [Point; PLACES] {
    static POINTS: OnceLock<[Point; PLACES]> = OnceLock::new();
    POINTS.get_or_init(|| {
        let symbols = 0..SYMBOLS as u8;
        let all = symbols
            .clone()
            .flat_map(|x| symbols.clone().map(move |y| Point { x, y }));
        let found: Vec<Point> = all.filter(|point| point.on_curve()).collect();
        found.try_into().expect("64 points")
    })
}

/// x^i y^j. "The monomials are x^i y^j with j at most 3."
#[derive(Clone, Copy, Debug, PartialEq, Eq)]
pub struct Monomial {
    pub i: usize,
    pub j: usize,
}

impl Monomial {
    /// "Monomial order is 4i + 5j."
    pub fn order(self) -> usize {
        4 * self.i + 5 * self.j
    }

    pub fn value(self, point: Point) -> u8 {
        times(power(point.x, self.i), power(point.y, self.j))
    }

    /// The value at each place.
    pub fn values(self) -> Row {
        Row::from_elements(points().map(|point| self.value(point)))
    }
}

/// The monomials of order at most `top`, by rising order.
pub fn monomials(top: usize) -> Vec<Monomial> {
    let all = (0..=top / 4).flat_map(|i| (0..=3).map(move |j| Monomial { i, j }));
    let mut chosen: Vec<Monomial> = all.filter(|monomial| monomial.order() <= top).collect();
    chosen.sort_by_key(|monomial| monomial.order());
    chosen
}

#[cfg(test)]
mod tests {
    use super::*;

    #[test]
    fn each_x_has_four_places() {
        for (place, point) in points().iter().enumerate() {
            assert_eq!(usize::from(point.x), place / 4);
        }
    }

    #[test]
    fn no_two_monomials_share_an_order_and_six_orders_are_missing() {
        let orders: Vec<usize> = monomials(75).iter().map(|m| m.order()).collect();
        let missing: Vec<usize> = (0..=75).filter(|n| !orders.contains(n)).collect();
        assert_eq!(missing, [1, 2, 3, 6, 7, 11]);
        assert!(orders.windows(2).all(|pair| pair[0] < pair[1]));
    }
}
