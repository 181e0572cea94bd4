//! A small seeded generator (xorshift) so that every run can be repeated.

/// The generator's state; never 0.
#[derive(Clone, Debug)]
pub struct Chance {
    word: u64,
}

impl Chance {
    /// A generator for a seed, a kind of case and a case number.
    pub fn new(seed: u64, kind: u64, case: u64) -> Chance {
        let mut word = seed ^ kind.wrapping_mul(0x9E37_79B9_7F4A_7C15) ^ case.wrapping_mul(0xD1B5_4A32_D192_ED03);
        for _ in 0..3 {
            word = (word ^ (word >> 31)).wrapping_mul(0xBF58_476D_1CE4_E5B9).wrapping_add(0x1234_5678_9ABC_DEF1);
        }
        Chance { word: word | 1 }
    }

    /// The next 64 bits.
    pub fn draw(&mut self) -> u64 {
        self.word ^= self.word << 13;
        self.word ^= self.word >> 7;
        self.word ^= self.word << 17;
        self.word.wrapping_mul(0x2545_F491_4F6C_DD1D)
    }

    /// A number below a bound, which is not 0.
    pub fn below(&mut self, bound: usize) -> usize {
        ((self.draw() >> 11) % bound as u64) as usize
    }

    /// A number from `low` to `high`, both included.
    pub fn between(&mut self, low: usize, high: usize) -> usize {
        low + self.below(high - low + 1)
    }

    /// True once in `k` times.
    pub fn one_in(&mut self, k: usize) -> bool {
        self.below(k) == 0
    }

    /// Any byte.
    pub fn byte(&mut self) -> u8 {
        (self.draw() >> 56) as u8
    }

    /// Some bytes.
    pub fn bytes(&mut self, count: usize) -> Vec<u8> {
        (0..count).map(|_| self.byte()).collect()
    }

    /// One of a list.
    pub fn pick<T: Copy>(&mut self, list: &[T]) -> T {
        list[self.below(list.len())]
    }
}
