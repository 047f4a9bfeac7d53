//! A small generator of numbers (splitmix64): the same seed gives the same run.
#![allow(dead_code)]

pub struct Dice(u64);

impl Dice {
    pub fn new(seed: u64) -> Dice {
        Dice(seed)
    }

    /// A generator of its own for case `number` of a kind, whatever the number
    /// of cases before it.
    pub fn for_case(seed: u64, kind: u64, number: u64) -> Dice {
        let mut first = Dice(seed ^ kind.wrapping_mul(0xA076_1D64_78BD_642F));
        let base = first.next();
        let mut second = Dice(base ^ number.wrapping_mul(0xE703_7ED1_A0B4_28DB));
        Dice(second.next())
    }

    pub fn next(&mut self) -> u64 {
        self.0 = self.0.wrapping_add(0x9E37_79B9_7F4A_7C15);
        let mut x = self.0;
        x = (x ^ (x >> 30)).wrapping_mul(0xBF58_476D_1CE4_E5B9);
        x = (x ^ (x >> 27)).wrapping_mul(0x94D0_49BB_1331_11EB);
        x ^ (x >> 31)
    }

    /// 0 to n - 1.
    pub fn below(&mut self, n: usize) -> usize {
        ((u128::from(self.next()) * n as u128) >> 64) as usize
    }

    /// low to high, both included.
    pub fn within(&mut self, low: i64, high: i64) -> i64 {
        let count = (high as i128 - low as i128 + 1) as u128;
        (low as i128 + ((u128::from(self.next()) * count) >> 64) as i128) as i64
    }

    pub fn one_in(&mut self, n: usize) -> bool {
        self.below(n) == 0
    }

    pub fn of<T: Copy>(&mut self, choices: &[T]) -> T {
        choices[self.below(choices.len())]
    }
}
