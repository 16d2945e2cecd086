//! Numbers that look random, the same each time.

/// Marsaglia's xorshift.
pub struct Random(u64);

impl Random {
    #[allow(clippy::new_without_default)]
    pub fn new() -> Self {
        Random(88_172_645_463_325_252)
    }

    /// 0 to `most`.
    pub fn to(&mut self, most: i64) -> i64 {
        self.0 ^= self.0 << 13;
        self.0 ^= self.0 >> 7;
        self.0 ^= self.0 << 17;
        (self.0 % (most as u64 + 1)) as i64
    }

    /// `least` to `most`.
    pub fn between(&mut self, least: i64, most: i64) -> i64 {
        least + self.to(most - least)
    }

    /// The same, each order of magnitude as often as another.
    pub fn of_any_size(&mut self, least: i64, most: i64) -> i64 {
        let most = most.min(least.saturating_mul(1 << self.between(1, 20)));
        self.between(least, most)
    }
}
