//! A small seeded source of numbers; the same seed gives the same sheets everywhere.

use std::ops::RangeInclusive;

pub struct Random(u64);

impl Random {
    pub fn new(seed: u64) -> Self {
        Random(seed)
    }

    /// The next number, by splitmix64.
    fn number(&mut self) -> u64 {
        self.0 = self.0.wrapping_add(0x9E37_79B9_7F4A_7C15);
        let mut mixed = self.0;
        mixed = (mixed ^ (mixed >> 30)).wrapping_mul(0xBF58_476D_1CE4_E5B9);
        mixed = (mixed ^ (mixed >> 27)).wrapping_mul(0x94D0_49BB_1331_11EB);
        mixed ^ (mixed >> 31)
    }

    /// A number in the range, ends included.
    pub fn within(&mut self, range: RangeInclusive<u32>) -> u32 {
        let size = u64::from(*range.end() - *range.start()) + 1;
        range.start() + (self.number() % size) as u32
    }

    /// A place below a length.
    pub fn place(&mut self, length: usize) -> usize {
        (self.number() % length as u64) as usize
    }

    /// True this many times in a hundred.
    pub fn percent(&mut self, times: u32) -> bool {
        self.within(1..=100) <= times
    }

    pub fn pick<T: Copy>(&mut self, choices: &[T]) -> T {
        choices[self.place(choices.len())]
    }
}
