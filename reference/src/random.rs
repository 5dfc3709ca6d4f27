//! Repeatable random numbers for tests and benchmarks: SplitMix64, so that a seed gives the same cases everywhere.

/// A generator; two with the same seed give the same numbers.
#[derive(Clone, Debug)]
pub struct Random {
    state: u64,
}

impl Random {
    pub fn new(seed: u64) -> Random {
        Random { state: seed }
    }

    /// A number over all 64 bits.
    pub fn number(&mut self) -> u64 {
        self.state = self.state.wrapping_add(0x9E37_79B9_7F4A_7C15);
        let mut z = self.state;
        z = (z ^ (z >> 30)).wrapping_mul(0xBF58_476D_1CE4_E5B9);
        z = (z ^ (z >> 27)).wrapping_mul(0x94D0_49BB_1331_11EB);
        z ^ (z >> 31)
    }

    /// A number from 0 to `limit - 1`; `limit` is at least 1. Its bias is far below what a count of cases could show.
    pub fn below(&mut self, limit: u64) -> u64 {
        self.number() % limit
    }

    /// A number from `low` to `high`, both included.
    pub fn between(&mut self, low: u64, high: u64) -> u64 {
        match (high - low).checked_add(1) {
            Some(width) => low + self.below(width),
            None => self.number(),
        }
    }

    /// True in about `percent` of a hundred calls.
    pub fn chance(&mut self, percent: u64) -> bool {
        self.below(100) < percent
    }

    /// One of the given values.
    pub fn pick<T: Copy>(&mut self, values: &[T]) -> T {
        values[self.below(values.len() as u64) as usize]
    }
}

#[cfg(test)]
mod tests {
    use super::Random;

    /// The first outputs that SplitMix64's authors' code gives for the seed 1234567.
    #[test]
    fn gives_the_published_numbers() {
        let mut random = Random::new(1234567);
        let expected = [6457827717110365317, 3203168211198807973, 9817491932198370423, 4593380528125082431];
        for number in expected {
            assert_eq!(random.number(), number);
        }
    }

    #[test]
    fn keeps_to_its_bounds() {
        let mut random = Random::new(1);
        let mut seen = [false; 4];
        for _ in 0..1000 {
            let number = random.between(7, 10);
            assert!((7..=10).contains(&number));
            seen[number as usize - 7] = true;
        }
        assert_eq!(seen, [true; 4]);
        let mut whole = Random::new(2);
        assert_eq!(whole.between(0, u64::MAX), Random::new(2).number());
    }
}
