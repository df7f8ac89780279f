//! Rows of 64 field elements, four bits each, for words and for elimination.
//!
//! - [`Row`]: 64 elements by lane; a word has its places as lanes.
//! - [`Row::add_scaled`], [`Row::product`], [`Row::dot`]: arithmetic on all lanes at once, by the
//!   same bit rule as [`crate::field::times`]; [`Row::shifted`]: every element one lane up.

/// The number of lanes, which is also the number of places.
pub const LANES: usize = 64;

const LANES_PER_PART: usize = 16;
const LOW_BITS: u64 = 0x1111_1111_1111_1111;

/// 64 field elements.
#[derive(Clone, Copy, Debug, Default, PartialEq, Eq)]
pub struct Row([u64; LANES / LANES_PER_PART]);

impl Row {
    /// The row whose first lanes hold these elements; the others hold zero.
    pub fn from_elements(elements: impl IntoIterator<Item = u8>) -> Row {
        let mut row = Row::default();
        for (lane, element) in elements.into_iter().enumerate() {
            row.set(lane, element);
        }
        row
    }

    /// The elements by lane.
    pub fn elements(&self) -> [u8; LANES] {
        std::array::from_fn(|lane| self.get(lane))
    }

    pub fn get(&self, lane: usize) -> u8 {
        (self.0[lane / LANES_PER_PART] >> (lane % LANES_PER_PART * 4) & 15) as u8
    }

    pub fn set(&mut self, lane: usize, element: u8) {
        assert!(element < 16, "{element} is no field element");
        let shift = lane % LANES_PER_PART * 4;
        let part = &mut self.0[lane / LANES_PER_PART];
        *part = *part & !(15 << shift) | u64::from(element) << shift;
    }

    /// Adds `scale` times the other row: one shifted copy for each bit of `scale`.
    pub fn add_scaled(&mut self, scale: u8, other: &Row) {
        let mut shifted = *other;
        for bit in 0..4 {
            if scale >> bit & 1 == 1 {
                self.add(&shifted);
            }
            shifted = shifted.times_alpha();
        }
    }

    /// Adds the other row.
    pub fn add(&mut self, other: &Row) {
        for (part, added) in self.0.iter_mut().zip(other.0) {
            *part ^= added;
        }
    }

    /// The row times `scale`.
    pub fn scaled(&self, scale: u8) -> Row {
        let mut row = Row::default();
        row.add_scaled(scale, self);
        row
    }

    /// The products lane by lane.
    pub fn product(&self, other: &Row) -> Row {
        let mut shifted = *self;
        let mut product = Row::default();
        for bit in 0..4 {
            for (lane, part) in product.0.iter_mut().enumerate() {
                let chosen = (other.0[lane] >> bit & LOW_BITS) * 15;
                *part ^= shifted.0[lane] & chosen;
            }
            shifted = shifted.times_alpha();
        }
        product
    }

    /// The sum of the products lane by lane.
    pub fn dot(&self, other: &Row) -> u8 {
        let product = self.product(other);
        let mut sum = product.0.iter().fold(0, |sum, part| sum ^ part);
        for shift in [32, 16, 8, 4] {
            sum ^= sum >> shift;
        }
        (sum & 15) as u8
    }

    /// Each element in the next lane; the last one is zero.
    pub fn shifted(&self) -> Row {
        assert_eq!(self.get(LANES - 1), 0, "no lane for the last element");
        let mut row = Row::default();
        let mut carried = 0;
        for (part, from) in row.0.iter_mut().zip(self.0) {
            *part = from << 4 | carried;
            carried = from >> 60;
        }
        row
    }

    /// The lowest lane that is not zero.
    pub fn lowest(&self) -> Option<usize> {
        let part = self.0.iter().position(|part| *part != 0)?;
        Some(part * LANES_PER_PART + self.0[part].trailing_zeros() as usize / 4)
    }

    /// How many lanes are not zero.
    pub fn weight(&self) -> usize {
        let nonzero = |part: &u64| (part | part >> 1 | part >> 2 | part >> 3) & LOW_BITS;
        self.0
            .iter()
            .map(|part| nonzero(part).count_ones() as usize)
            .sum()
    }

    /// Each lane times α: a bit that leaves at the top comes back as α + 1.
    fn times_alpha(&self) -> Row {
        Row(self.0.map(|part| {
            let left = part >> 3 & LOW_BITS;
            (part & !(LOW_BITS * 8)) << 1 ^ left ^ left << 1
        }))
    }
}

#[cfg(test)]
mod tests {
    use super::*;
    use crate::field;
    use crate::random::Random;

    fn random_row(random: &mut Random) -> Row {
        Row::from_elements((0..LANES).map(|_| random.symbol()))
    }

    #[test]
    fn lanes_keep_what_is_set() {
        let mut row = Row::from_elements([15; LANES]);
        row.set(17, 6);
        assert_eq!((row.get(16), row.get(17), row.get(18)), (15, 6, 15));
        assert_eq!(Row::from_elements(row.elements()), row);
    }

    #[test]
    fn shifting_moves_every_element_one_lane_up() {
        let mut random = Random::new(5, 0);
        let mut row = random_row(&mut random);
        row.set(LANES - 1, 0);
        let shifted = row.shifted().elements();
        assert_eq!(shifted[0], 0);
        assert_eq!(shifted[1..], row.elements()[..LANES - 1]);
    }

    #[test]
    fn arithmetic_is_the_fields_in_each_lane() {
        let mut random = Random::new(1, 0);
        for _ in 0..200 {
            let (a, b) = (random_row(&mut random), random_row(&mut random));
            let scale = random.symbol();
            let mut sum = a;
            sum.add_scaled(scale, &b);
            let product = a.product(&b);
            for lane in 0..LANES {
                assert_eq!(
                    sum.get(lane),
                    a.get(lane) ^ field::times(scale, b.get(lane))
                );
                assert_eq!(product.get(lane), field::times(a.get(lane), b.get(lane)));
            }
            assert_eq!(
                a.dot(&b),
                product.elements().iter().fold(0, |sum, x| sum ^ x)
            );
            assert_eq!(a.weight(), a.elements().iter().filter(|x| **x != 0).count());
            assert_eq!(a.lowest(), a.elements().iter().position(|x| *x != 0));
        }
        assert_eq!(Row::default().lowest(), None);
    }
}
