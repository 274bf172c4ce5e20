//! Numbers at random: the same ones for the same seed, on every machine.

use std::ops::RangeInclusive;

/// Draws numbers by the steps of splitmix64.
#[derive(Clone, Debug)]
pub struct Random(u64);

impl Random {
    pub fn seeded(seed: u64) -> Random {
        Random(seed)
    }

    /// Any number.
    pub fn number(&mut self) -> u64 {
        self.0 = self.0.wrapping_add(0x9e37_79b9_7f4a_7c15);
        let mixed = (self.0 ^ self.0 >> 30).wrapping_mul(0xbf58_476d_1ce4_e5b9);
        let mixed = (mixed ^ mixed >> 27).wrapping_mul(0x94d0_49bb_1331_11eb);
        mixed ^ mixed >> 31
    }

    /// Any number of 32 bits.
    pub fn word(&mut self) -> u32 {
        (self.number() >> 32) as u32
    }

    /// Any byte.
    pub fn byte(&mut self) -> u8 {
        (self.number() >> 56) as u8
    }

    /// A number below a bound, which is not 0.
    pub fn below(&mut self, bound: usize) -> usize {
        ((u128::from(self.number()) * bound as u128) >> 64) as usize
    }

    /// A number in a range, its ends included.
    pub fn within(&mut self, range: RangeInclusive<usize>) -> usize {
        range.start() + self.below(range.end() - range.start() + 1)
    }

    /// Yes or no.
    pub fn flag(&mut self) -> bool {
        self.below(2) == 1
    }

    /// One of these values.
    pub fn one_of<T: Copy>(&mut self, values: &[T]) -> T {
        values[self.below(values.len())]
    }
}

#[cfg(test)]
mod tests {
    use super::*;

    #[test]
    fn the_same_for_the_same_seed() {
        let drawn = |seed| {
            let mut random = Random::seeded(seed);
            [0; 8].map(|_| random.number())
        };
        assert_eq!(drawn(7), drawn(7));
        assert_ne!(drawn(7), drawn(8));
        // The first number that splitmix64 gives for seed 0.
        assert_eq!(drawn(0)[0], 0xe220_a839_7b1d_cdaf);
    }

    #[test]
    fn every_value_of_a_range_is_drawn_and_no_other() {
        let mut random = Random::seeded(0);
        let mut met = [0; 12];
        for _ in 0..10_000 {
            met[random.within(3..=9)] += 1;
        }
        assert!(met[3..=9].iter().all(|&count| count > 1000), "{met:?}");
        assert!(met[..3].iter().chain(&met[10..]).all(|&count| count == 0));
    }
}
