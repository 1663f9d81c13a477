//! A small seeded generator of numbers (splitmix64): the same seed always gives the same throws.

use std::ops::RangeInclusive;

/// The state of the generator.
pub struct Dice {
    state: u64,
}

impl Dice {
    /// Dice that begin from a seed.
    pub fn seeded(seed: u64) -> Dice {
        Dice { state: seed }
    }

    /// The next 64 bits.
    pub fn bits(&mut self) -> u64 {
        self.state = self.state.wrapping_add(0x9e37_79b9_7f4a_7c15);
        let mut z = self.state;
        z = (z ^ (z >> 30)).wrapping_mul(0xbf58_476d_1ce4_e5b9);
        z = (z ^ (z >> 27)).wrapping_mul(0x94d0_49bb_1331_11eb);
        z ^ (z >> 31)
    }

    /// A whole number from 0 to one less than `count`.
    pub fn below(&mut self, count: usize) -> usize {
        (self.bits() % count as u64) as usize
    }

    /// A whole number from `low` to `high`, ends included.
    pub fn between(&mut self, low: i32, high: i32) -> i32 {
        let count = (i64::from(high) - i64::from(low) + 1) as u64;
        (i64::from(low) + (self.bits() % count) as i64) as i32
    }

    /// A whole number of a range.
    pub fn within(&mut self, range: &RangeInclusive<i32>) -> i32 {
        self.between(*range.start(), *range.end())
    }

    /// True once in `times`.
    pub fn one_in(&mut self, times: usize) -> bool {
        self.below(times) == 0
    }

    /// One of several.
    pub fn pick<T: Copy>(&mut self, several: &[T]) -> T {
        several[self.below(several.len())]
    }

    /// Brings them into another order.
    pub fn shuffle<T>(&mut self, several: &mut [T]) {
        for place in (1..several.len()).rev() {
            several.swap(place, self.below(place + 1));
        }
    }
}

#[cfg(test)]
mod tests {
    use super::*;

    #[test]
    fn the_same_seed_gives_the_same_throws() {
        let (mut one, mut other) = (Dice::seeded(7), Dice::seeded(7));
        for _ in 0..100 {
            assert_eq!(one.bits(), other.bits());
        }
        // The first number of splitmix64 from 0, as published.
        assert_eq!(Dice::seeded(0).bits(), 0xe220_a839_7b1d_cdaf);
    }

    #[test]
    fn throws_stay_in_range_and_reach_both_ends() {
        let mut dice = Dice::seeded(3);
        let throws: Vec<i32> = (0..1_000).map(|_| dice.between(-2, 2)).collect();
        assert_eq!((throws.iter().min(), throws.iter().max()), (Some(&-2), Some(&2)));
        assert!((0..1_000).all(|_| dice.below(3) < 3));
        dice.between(i32::MIN, i32::MAX);
    }
}
