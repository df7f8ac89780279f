//! Random numbers that are the same on every machine (splitmix64).
//!
//! - [`Random::new`]: the stream of one numbered thing of a run, so that frame 1,234 of seed 7 can
//!   be made again alone.

/// A stream of random numbers.
#[derive(Clone, Debug)]
pub struct Random {
    state: u64,
}

impl Random {
    /// The stream of a seed and a number.
    pub fn new(seed: u64, number: u64) -> Random {
        let mut random = Random { state: seed };
        random.state = random.number() ^ number;
        random.number();
        random
    }

    /// Any number of 64 bits.
    pub fn number(&mut self) -> u64 {
        self.state = self.state.wrapping_add(0x9e37_79b9_7f4a_7c15);
        let mut mixed = self.state;
        mixed = (mixed ^ mixed >> 30).wrapping_mul(0xbf58_476d_1ce4_e5b9);
        mixed = (mixed ^ mixed >> 27).wrapping_mul(0x94d0_49bb_1331_11eb);
        mixed ^ mixed >> 31
    }

    /// A number below the limit.
    pub fn below(&mut self, limit: usize) -> usize {
        (self.number() % limit as u64) as usize
    }

    /// A number from `low` to `high`, both included.
    pub fn between(&mut self, low: usize, high: usize) -> usize {
        low + self.below(high - low + 1)
    }

    /// True once in `times` on average.
    pub fn once_in(&mut self, times: usize) -> bool {
        self.below(times) == 0
    }

    /// A field element.
    pub fn symbol(&mut self) -> u8 {
        self.below(16) as u8
    }

    /// A field element other than the one given.
    pub fn other_symbol(&mut self, symbol: u8) -> u8 {
        symbol ^ self.between(1, 15) as u8
    }

    /// One of the items.
    pub fn one_of<T: Copy>(&mut self, items: &[T]) -> T {
        items[self.below(items.len())]
    }

    /// The items in random order.
    pub fn shuffled<T>(&mut self, items: impl IntoIterator<Item = T>) -> Vec<T> {
        let mut items: Vec<T> = items.into_iter().collect();
        for last in (1..items.len()).rev() {
            items.swap(last, self.below(last + 1));
        }
        items
    }
}

#[cfg(test)]
mod tests {
    use super::*;

    #[test]
    fn streams_repeat_and_differ() {
        let first: Vec<u64> = (0..4).map(|n| Random::new(7, n).number()).collect();
        let again: Vec<u64> = (0..4).map(|n| Random::new(7, n).number()).collect();
        assert_eq!(first, again);
        for (n, number) in first.iter().enumerate() {
            assert!(!first[n + 1..].contains(number));
        }
    }

    #[test]
    fn shuffling_keeps_the_items() {
        let mut shuffled = Random::new(3, 0).shuffled(0..64);
        assert_ne!(shuffled, (0..64).collect::<Vec<_>>());
        shuffled.sort_unstable();
        assert_eq!(shuffled, (0..64).collect::<Vec<_>>());
    }
}
