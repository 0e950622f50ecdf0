//! A small seeded source of numbers (splitmix64), so that generated requests
//! are repeatable.

pub struct Random {
    state: u64,
}

/// The mixing step of splitmix64.
pub fn mix(value: u64) -> u64 {
    let value = value.wrapping_add(0x9E37_79B9_7F4A_7C15);
    let value = (value ^ (value >> 30)).wrapping_mul(0xBF58_476D_1CE4_E5B9);
    let value = (value ^ (value >> 27)).wrapping_mul(0x94D0_49BB_1331_11EB);
    value ^ (value >> 31)
}

impl Random {
    pub fn new(seed: u64) -> Random {
        Random { state: mix(seed) }
    }

    pub fn number(&mut self) -> u64 {
        self.state = self.state.wrapping_add(0x9E37_79B9_7F4A_7C15);
        mix(self.state)
    }

    /// From 0 to `end` - 1; 0 if `end` is 0.
    pub fn below(&mut self, end: usize) -> usize {
        (self.number() % end.max(1) as u64) as usize
    }

    /// From `least` to `greatest`, both possible.
    pub fn between(&mut self, least: i32, greatest: i32) -> i32 {
        let count = i64::from(greatest) - i64::from(least) + 1;
        (i64::from(least) + (self.number() % count as u64) as i64) as i32
    }

    /// True in `times` of `of` cases.
    pub fn chance(&mut self, times: usize, of: usize) -> bool {
        self.below(of) < times
    }

    pub fn pick<T: Clone>(&mut self, choices: &[T]) -> T {
        choices[self.below(choices.len())].clone()
    }

    /// From 1 to `greatest`, small ones far more often than large ones.
    pub fn size(&mut self, greatest: usize) -> usize {
        let bits = usize::BITS - greatest.max(1).leading_zeros();
        let limit = 1usize << (1 + self.below(bits as usize));
        1 + self.below(limit.min(greatest))
    }

    pub fn shuffle<T>(&mut self, items: &mut [T]) {
        for index in (1..items.len()).rev() {
            items.swap(index, self.below(index + 1));
        }
    }
}
