//! Numbers that depend on a seed alone.

use crate::vector::V3;

pub struct Random(u64);

impl Random {
    pub fn new(seed: u64) -> Self {
        Random(seed)
    }

    /// From 0 up to 1.
    pub fn part(&mut self) -> f64 {
        self.0 = self.0.wrapping_add(0x9e37_79b9_7f4a_7c15);
        let x = (self.0 ^ (self.0 >> 30)).wrapping_mul(0xbf58_476d_1ce4_e5b9);
        let x = (x ^ (x >> 27)).wrapping_mul(0x94d0_49bb_1331_11eb);
        ((x ^ (x >> 31)) >> 11) as f64 / (1u64 << 53) as f64
    }

    /// A whole number from 0 on, below n.
    pub fn below(&mut self, n: usize) -> usize {
        (self.part() * n as f64) as usize
    }

    pub fn range(&mut self, from: f64, to: f64) -> f64 {
        from + (to - from) * self.part()
    }

    /// Mean 0, deviation 1, near enough to normal: twelve parts less six.
    pub fn normal(&mut self) -> f64 {
        (0..12).map(|_| self.part()).sum::<f64>() - 6.0
    }

    pub fn normal3(&mut self, deviation: f64) -> V3 {
        std::array::from_fn(|_| deviation * self.normal())
    }
}
