//! Numbers drawn in a fixed sequence.

/// A xorshift generator.
pub struct Dice(u64);

impl Dice {
    /// The same seed, not 0, gives the same numbers.
    pub fn new(seed: u64) -> Dice {
        assert_ne!(seed, 0);
        Dice(seed)
    }

    /// A number from `least` to `most`.
    pub fn draw(&mut self, least: i64, most: i64) -> i64 {
        self.0 ^= self.0 << 13;
        self.0 ^= self.0 >> 7;
        self.0 ^= self.0 << 17;
        let width = (most - least + 1) as u64;
        least + ((self.0 >> 16) % width) as i64
    }

    /// One of these.
    pub fn pick<T: Copy>(&mut self, from: &[T]) -> T {
        from[self.draw(0, from.len() as i64 - 1) as usize]
    }
}
