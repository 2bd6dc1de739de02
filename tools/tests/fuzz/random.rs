//! A small source of random numbers (xorshift64).

pub struct Random(u64);

impl Random {
    /// Any seed but 0, which would stay 0.
    pub fn new(seed: u64) -> Random {
        Random(seed.max(1))
    }

    /// A seed far from this one.
    pub fn next_seed(&self) -> u64 {
        self.0.wrapping_mul(6_364_136_223_846_793_005).wrapping_add(1_442_695_040_888_963_407)
    }

    pub fn draw(&mut self) -> u64 {
        self.0 ^= self.0 << 13;
        self.0 ^= self.0 >> 7;
        self.0 ^= self.0 << 17;
        // The low bits of neighbouring states are alike.
        self.0.wrapping_mul(0x2545_F491_4F6C_DD1D) >> 16
    }

    /// A number from 0 to below a bound; 0 where the bound is 0.
    pub fn below(&mut self, bound: usize) -> usize {
        match bound {
            0 => 0,
            _ => usize::try_from(self.draw() % bound as u64).unwrap_or(0),
        }
    }

    pub fn pick<'i, T>(&mut self, items: &'i [T]) -> &'i T {
        &items[self.below(items.len())]
    }
}
