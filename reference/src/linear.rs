//! Gaussian elimination over the field.
//!
//! - [`Span`]: vectors added one by one, each with a name (a lane); the rows kept are in echelon
//!   form, each with the combination of added vectors that it is.
//! - [`Span::add`]: keeps a vector, or says how it depends on those kept before.
//! - [`Span::express`]: a vector as a combination of those kept, if it is one.

use crate::field;
use crate::row::Row;

/// A row that is 1 at `lane` and zero at the lanes of the pivots before it.
struct Pivot {
    lane: usize,
    row: Row,
    /// The row is the sum of the kept vectors, each times the lane of its name.
    combination: Row,
}

/// All combinations of the vectors kept so far.
#[derive(Default)]
pub struct Span {
    pivots: Vec<Pivot>,
}

impl Span {
    /// Adds a vector under a name of its own. If it depends on the vectors kept before, it is not
    /// kept, and the combination of them that equals it is returned, by name.
    pub fn add(&mut self, name: usize, vector: Row) -> Option<Row> {
        let (rest, mut combination) = self.reduce(vector);
        let Some(lane) = rest.lowest() else {
            return Some(combination);
        };
        combination.set(name, 1);
        let scale = field::inverse(rest.get(lane));
        self.pivots.push(Pivot {
            lane,
            row: rest.scaled(scale),
            combination: combination.scaled(scale),
        });
        None
    }

    /// The combination of kept vectors that equals the vector, by name.
    pub fn express(&self, vector: Row) -> Option<Row> {
        let (rest, combination) = self.reduce(vector);
        rest.lowest().is_none().then_some(combination)
    }

    /// A rest that is zero at every pivot's lane, and the combination that was taken off.
    fn reduce(&self, vector: Row) -> (Row, Row) {
        let mut rest = vector;
        let mut combination = Row::default();
        for pivot in &self.pivots {
            let scale = rest.get(pivot.lane);
            if scale != 0 {
                rest.add_scaled(scale, &pivot.row);
                combination.add_scaled(scale, &pivot.combination);
            }
        }
        (rest, combination)
    }
}

#[cfg(test)]
mod tests {
    use super::*;
    use crate::random::Random;

    #[test]
    fn combinations_are_found_again() {
        let mut random = Random::new(2, 0);
        for _ in 0..100 {
            let vectors: Vec<Row> = (0..20)
                .map(|_| Row::from_elements((0..40).map(|_| random.symbol())))
                .collect();
            let mut span = Span::default();
            for (name, vector) in vectors.iter().enumerate() {
                assert_eq!(span.add(name, *vector), None);
            }
            let scales = Row::from_elements((0..20).map(|_| random.symbol()));
            let mut sum = Row::default();
            for (name, vector) in vectors.iter().enumerate() {
                sum.add_scaled(scales.get(name), vector);
            }
            assert_eq!(span.express(sum), Some(scales));
            assert_eq!(span.add(20, sum), Some(scales));
            sum.set(50, 1);
            assert_eq!(span.express(sum), None);
        }
    }
}
