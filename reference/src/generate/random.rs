//! A small seeded source of random numbers (splitmix64).

pub struct Random(u64);

impl Random {
    pub fn new(seed: u64) -> Random {
        Random(seed)
    }

    pub fn draw(&mut self) -> u64 {
        self.0 = self.0.wrapping_add(0x9E37_79B9_7F4A_7C15);
        let mut z = self.0;
        z = (z ^ (z >> 30)).wrapping_mul(0xBF58_476D_1CE4_E5B9);
        z = (z ^ (z >> 27)).wrapping_mul(0x94D0_49BB_1331_11EB);
        z ^ (z >> 31)
    }

    /// A number from 0 to below a bound that is not 0.
    pub fn below(&mut self, bound: usize) -> usize {
        (self.draw() % bound as u64) as usize
    }

    /// A number between two, both included.
    pub fn between(&mut self, least: i64, most: i64) -> i64 {
        least + (self.draw() % (most - least + 1) as u64) as i64
    }

    /// A time from a first to a last, often one of these.
    pub fn time(&mut self, first: i64, last: i64) -> i64 {
        let any = self.between(first, last);
        self.pick(&[first, last, any])
    }

    /// True in so many of a hundred cases.
    pub fn chance(&mut self, percent: usize) -> bool {
        self.below(100) < percent
    }

    pub fn pick<T: Copy>(&mut self, from: &[T]) -> T {
        from[self.below(from.len())]
    }

    /// One of those there are, if any.
    pub fn any<T: Copy>(&mut self, from: &[T]) -> Option<T> {
        if from.is_empty() {
            None
        } else {
            Some(self.pick(from))
        }
    }

    /// An index, as often as its weight says; some weight is not 0.
    pub fn weighted(&mut self, weights: &[usize]) -> usize {
        let mut left = self.below(weights.iter().sum());
        for (index, weight) in weights.iter().enumerate() {
            if left < *weight {
                return index;
            }
            left -= weight;
        }
        unreachable!("the draw is below the sum of the weights")
    }

    /// A random part of a set of bits.
    pub fn subset(&mut self, bits: u32) -> u32 {
        self.draw() as u32 & bits
    }

    /// A number as agreements and readings like to have it: near nothing, near an end, or any.
    pub fn number(&mut self) -> i32 {
        const NUMBERS: [i32; 20] = [
            0,
            0,
            1,
            -1,
            2,
            -2,
            3,
            -3,
            5,
            7,
            -7,
            10,
            20,
            50,
            60,
            250,
            999_999_999,
            1_000_000_000,
            -999_999_999,
            -1_000_000_000,
        ];
        match self.below(10) {
            0 => self.between(-1_000_000_000, 1_000_000_000) as i32,
            1 | 2 => self.between(-300, 300) as i32,
            _ => self.pick(&NUMBERS),
        }
    }
}
