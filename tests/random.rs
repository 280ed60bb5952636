// A small generator of numbers, the same on every run, for the tests and the benchmarks.
#![allow(dead_code)]

pub struct Random(pub u64);

impl Random {
    pub fn next(&mut self) -> u64 {
        self.0 ^= self.0 << 13;
        self.0 ^= self.0 >> 7;
        self.0 ^= self.0 << 17;
        self.0
    }

    pub fn within(&mut self, low: u64, high: u64) -> u64 {
        low + self.next() % (high - low + 1)
    }

    pub fn one(&mut self, of: &[u64]) -> u64 {
        of[self.within(0, of.len() as u64 - 1) as usize]
    }
}
