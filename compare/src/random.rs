//! A small seeded generator (splitmix64): the same seed gives the same inputs on every machine.

#[derive(Clone)]
pub struct Random(u64);

impl Random {
    /// The generator of input number `index` of a family, under a run's seed.
    pub fn of(seed: u64, family: u64, index: u64) -> Random {
        let mut mixed = Random(seed ^ family.wrapping_mul(0xd6e8_feb8_6659_fd93));
        let first = mixed.next();
        Random(first ^ index.wrapping_mul(0xa076_1d64_78bd_642f))
    }

    pub fn next(&mut self) -> u64 {
        self.0 = self.0.wrapping_add(0x9e37_79b9_7f4a_7c15);
        let mut z = self.0;
        z = (z ^ (z >> 30)).wrapping_mul(0xbf58_476d_1ce4_e5b9);
        z = (z ^ (z >> 27)).wrapping_mul(0x94d0_49bb_1331_11eb);
        z ^ (z >> 31)
    }

    /// A number from 0 to `n` - 1.
    pub fn below(&mut self, n: usize) -> usize {
        ((u128::from(self.next()) * n as u128) >> 64) as usize
    }

    /// A number from `low` to `high`, both possible.
    pub fn between(&mut self, low: usize, high: usize) -> usize {
        low + self.below(high - low + 1)
    }

    /// True once in `n` times.
    pub fn once_in(&mut self, n: usize) -> bool {
        self.below(n) == 0
    }

    pub fn byte(&mut self) -> u8 {
        self.next() as u8
    }

    pub fn pick<T: Copy>(&mut self, from: &[T]) -> T {
        from[self.below(from.len())]
    }

    /// Appends `n` bytes.
    pub fn bytes(&mut self, n: usize, out: &mut Vec<u8>) {
        let mut left = n;
        while left > 0 {
            let word = self.next().to_le_bytes();
            let some = left.min(8);
            out.extend_from_slice(&word[..some]);
            left -= some;
        }
    }

    pub fn shuffle<T>(&mut self, list: &mut [T]) {
        for i in (1..list.len()).rev() {
            list.swap(i, self.below(i + 1));
        }
    }
}

#[cfg(test)]
mod tests {
    use super::*;

    #[test]
    fn same_seed_same_numbers() {
        let (mut a, mut b) = (Random::of(1, 2, 3), Random::of(1, 2, 3));
        assert!((0..100).all(|_| a.next() == b.next()));
        assert_ne!(Random::of(1, 2, 3).next(), Random::of(1, 2, 4).next());
        assert_ne!(Random::of(1, 2, 3).next(), Random::of(1, 3, 3).next());
    }

    #[test]
    fn below_stays_below_and_reaches_all() {
        let mut r = Random::of(1, 1, 1);
        let mut seen = [false; 7];
        for _ in 0..1000 {
            seen[r.below(7)] = true;
        }
        assert_eq!(seen, [true; 7]);
    }
}
