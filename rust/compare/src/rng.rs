//! Random numbers from a seed (SplitMix64). The same seed gives the same numbers everywhere.

/// A source of random numbers.
#[derive(Clone, Debug)]
pub struct Rng(u64);

impl Rng {
    /// A source that starts from this seed.
    pub fn new(seed: u64) -> Rng {
        Rng(seed)
    }

    /// The next 64 random bits.
    pub fn bits(&mut self) -> u64 {
        self.0 = self.0.wrapping_add(0x9e37_79b9_7f4a_7c15);
        let mut mixed = self.0;
        mixed = (mixed ^ (mixed >> 30)).wrapping_mul(0xbf58_476d_1ce4_e5b9);
        mixed = (mixed ^ (mixed >> 27)).wrapping_mul(0x94d0_49bb_1331_11eb);
        mixed ^ (mixed >> 31)
    }

    /// A number below `limit`; 0 where the limit is 0.
    pub fn below(&mut self, limit: u64) -> u64 {
        if limit == 0 {
            0
        } else {
            self.bits() % limit
        }
    }

    /// True in `percent` of 100 cases.
    pub fn chance(&mut self, percent: u64) -> bool {
        self.below(100) < percent
    }

    /// One of these.
    pub fn pick<T: Copy>(&mut self, choices: &[T]) -> T {
        choices[self.below(choices.len() as u64) as usize]
    }

    /// A 64-bit number of a kind that finds mistakes: zero, all ones, one bit, small, near a power of two, or any.
    pub fn number(&mut self) -> u64 {
        match self.below(8) {
            0 => 0,
            1 => u64::MAX,
            2 => 1 << self.below(64),
            3 => self.below(64),
            4 => !(1 << self.below(64)),
            5 => (1u64 << self.below(64)).wrapping_sub(self.below(9)),
            _ => self.bits(),
        }
    }
}

#[cfg(test)]
mod tests {
    use super::*;

    #[test]
    fn the_same_seed_gives_the_same_numbers() {
        let mut one = Rng::new(7);
        let mut other = Rng::new(7);
        let mut third = Rng::new(8);
        let numbers: Vec<u64> = (0..50).map(|_| one.bits()).collect();
        assert!(numbers.iter().all(|number| *number == other.bits()));
        assert!(numbers.iter().any(|number| *number != third.bits()));
    }

    #[test]
    fn limits_and_choices_hold() {
        let mut rng = Rng::new(1);
        for limit in [1, 2, 7, 1 << 40] {
            assert!((0..100).all(|_| rng.below(limit) < limit));
        }
        assert_eq!(rng.below(0), 0);
        assert!(!rng.chance(0));
        assert!(rng.chance(100));
        let picked: Vec<u8> = (0..100).map(|_| rng.pick(&[1, 2, 3])).collect();
        assert!([1, 2, 3].iter().all(|choice| picked.contains(choice)));
        for _ in 0..1000 {
            rng.number();
        }
    }
}
