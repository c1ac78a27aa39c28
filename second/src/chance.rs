//! Random numbers that are the same for the same seed and case (splitmix64).

use std::ops::RangeInclusive;

const STEP: u64 = 0x9e37_79b9_7f4a_7c15;

pub struct Chance(u64);

impl Chance {
    /// The numbers of one case, so that it can be made again without the others.
    pub fn new(seed: u64, case: u64) -> Self {
        Self(mix(seed.wrapping_add(STEP)) ^ mix(!case))
    }

    fn next(&mut self) -> u64 {
        self.0 = self.0.wrapping_add(STEP);
        mix(self.0)
    }

    /// A number below `limit`, which is not 0.
    pub fn below(&mut self, limit: usize) -> usize {
        (self.next() % limit as u64) as usize
    }

    pub fn within(&mut self, range: RangeInclusive<u32>) -> u32 {
        let width = u64::from(range.end() - range.start()) + 1;
        range.start() + (self.next() % width) as u32
    }

    /// True once in `times`.
    pub fn one_in(&mut self, times: usize) -> bool {
        self.below(times) == 0
    }

    pub fn pick<'a, T>(&mut self, choices: &'a [T]) -> &'a T {
        &choices[self.below(choices.len())]
    }

    /// Exchanges two of the items, or one with itself.
    pub fn exchange<T>(&mut self, items: &mut [T]) {
        if !items.is_empty() {
            let (one, other) = (self.below(items.len()), self.below(items.len()));
            items.swap(one, other);
        }
    }

    pub fn byte(&mut self, range: RangeInclusive<u8>) -> u8 {
        self.within((*range.start()).into()..=(*range.end()).into()) as u8
    }

    pub fn bytes(&mut self, count: usize) -> Vec<u8> {
        (0..count).map(|_| self.byte(0..=255)).collect()
    }
}

fn mix(mut number: u64) -> u64 {
    number = (number ^ (number >> 30)).wrapping_mul(0xbf58_476d_1ce4_e5b9);
    number = (number ^ (number >> 27)).wrapping_mul(0x94d0_49bb_1331_11eb);
    number ^ (number >> 31)
}

#[cfg(test)]
mod tests {
    use super::Chance;

    #[test]
    fn same_for_the_same_seed_and_case_only() {
        let numbers = |seed, case| Chance::new(seed, case).bytes(8);
        assert_eq!(numbers(1, 2), numbers(1, 2));
        assert_ne!(numbers(1, 2), numbers(2, 1));
        assert_ne!(numbers(1, 2), numbers(1, 3));
    }

    #[test]
    fn stays_within_the_range() {
        let mut chance = Chance::new(1, 1);
        for _ in 0..1000 {
            assert!((3..=5).contains(&chance.within(3..=5)));
        }
        chance.within(0..=u32::MAX);
    }
}
