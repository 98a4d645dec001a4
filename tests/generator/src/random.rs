//! A small generator of pseudo-random numbers (splitmix64).

/// The state of the generator.
#[derive(Clone, Debug)]
pub struct Rng {
    state: u64,
}

impl Rng {
    /// The numbers of a seed and an index.
    pub fn new(seed: u64, index: u64) -> Rng {
        let mut rng = Rng { state: seed };
        rng.state = rng.next().wrapping_add(index);
        rng.state = rng.next();
        rng
    }

    /// The next 64 bits.
    #[allow(clippy::should_implement_trait)]
    pub fn next(&mut self) -> u64 {
        self.state = self.state.wrapping_add(0x9E37_79B9_7F4A_7C15);
        let mut z = self.state;
        z = (z ^ (z >> 30)).wrapping_mul(0xBF58_476D_1CE4_E5B9);
        z = (z ^ (z >> 27)).wrapping_mul(0x94D0_49BB_1331_11EB);
        z ^ (z >> 31)
    }

    /// A number from 0 to `end` - 1.
    pub fn below(&mut self, end: u32) -> u32 {
        (((self.next() >> 32) * u64::from(end)) >> 32) as u32
    }

    /// A number from `first` to `last`.
    pub fn between(&mut self, first: u32, last: u32) -> u32 {
        first + self.below(last - first + 1)
    }

    /// True `percent` times in a hundred.
    pub fn chance(&mut self, percent: u32) -> bool {
        self.below(100) < percent
    }

    /// One of several.
    pub fn pick<T: Copy>(&mut self, from: &[T]) -> T {
        from[self.below(from.len() as u32) as usize]
    }

    /// A word: often small, often near a border.
    pub fn word(&mut self) -> u32 {
        match self.below(6) {
            0 => 0,
            1 => self.below(16),
            2 => 0u32.wrapping_sub(self.below(16)),
            3 => 0x8000_0000u32.wrapping_add(self.below(16)).wrapping_sub(8),
            _ => self.next() as u32,
        }
    }
}
