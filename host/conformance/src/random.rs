//! Numbers at random, the same ones for the same seed.

/// The xorshift64 generator. A seed of 0 is taken as 1, since 0 would stay 0.
#[derive(Clone)]
pub struct Xorshift(u64);

impl Xorshift {
    /// A generator; nearby seeds are driven apart first.
    pub fn new(seed: u64) -> Self {
        let mut generator = Xorshift(seed.wrapping_mul(0x9E37_79B9_7F4A_7C15).max(1));
        generator.next();
        generator.next();
        generator
    }

    /// The next 64 bits.
    #[allow(clippy::should_implement_trait)]
    pub fn next(&mut self) -> u64 {
        self.0 = step(self.0);
        self.0
    }

    /// A byte.
    pub fn byte(&mut self) -> u8 {
        (self.next() >> 32) as u8
    }

    /// A number below `limit`.
    pub fn below(&mut self, limit: usize) -> usize {
        ((self.next() >> 32) as usize * limit) >> 32
    }

    /// One of the values.
    pub fn pick<T: Copy>(&mut self, values: &[T]) -> T {
        values[self.below(values.len())]
    }

    /// Random bytes all through.
    pub fn fill(&mut self, bytes: &mut [u8]) {
        for group in bytes.chunks_mut(8) {
            let drawn = self.next().to_le_bytes();
            group.copy_from_slice(&drawn[..group.len()]);
        }
    }
}

/// One step of xorshift64.
pub fn step(mut x: u64) -> u64 {
    x ^= x << 13;
    x ^= x >> 7;
    x ^ x << 17
}
