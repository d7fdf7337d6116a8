//! Random numbers from a seed: the same seed gives the same books on every machine.
#![allow(dead_code)]

/// xorshift64*, by Marsaglia and Vigna.
#[derive(Clone)]
pub struct Rng(u64);

impl Rng {
    pub fn new(seed: u64) -> Rng {
        // Spread small seeds over all bits; the state may not be 0.
        Rng(seed.wrapping_add(1).wrapping_mul(0x9e37_79b9_7f4a_7c15) | 1)
    }

    fn next(&mut self) -> u64 {
        self.0 ^= self.0 >> 12;
        self.0 ^= self.0 << 25;
        self.0 ^= self.0 >> 27;
        self.0.wrapping_mul(0x2545_f491_4f6c_dd1d) >> 32
    }

    /// A number below `bound`, which is at least 1.
    pub fn below(&mut self, bound: usize) -> usize {
        (self.next() * bound as u64 >> 32) as usize
    }

    /// A number from `least` to `most`, both included.
    pub fn between(&mut self, least: usize, most: usize) -> usize {
        least + self.below(most - least + 1)
    }

    /// Eight numbers from `least` to `most`, both included, each greater than the one before.
    pub fn rising(&mut self, least: usize, most: usize) -> [u16; 8] {
        let mut numbers = [0; 8].map(|_| self.between(least, most - 7) as u16);
        numbers.sort();
        // Equal ones come apart.
        (0..).zip(&mut numbers).for_each(|(place, number)| *number += place);
        numbers
    }

    /// True once in `n` times.
    pub fn once_in(&mut self, n: usize) -> bool {
        self.below(n) == 0
    }
}
