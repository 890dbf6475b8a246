//! A small generator of pseudo-random numbers.

use std::ops::RangeInclusive;

/// The SplitMix64 generator: the same numbers for the same seed.
pub(crate) struct Random {
    state: u64,
}

impl Random {
    pub fn new(seed: u64) -> Self {
        Self { state: seed }
    }

    pub fn next(&mut self) -> u64 {
        self.state = self.state.wrapping_add(0x9E37_79B9_7F4A_7C15);
        let mut word = self.state;
        word = (word ^ (word >> 30)).wrapping_mul(0xBF58_476D_1CE4_E5B9);
        word = (word ^ (word >> 27)).wrapping_mul(0x94D0_49BB_1331_11EB);
        word ^ (word >> 31)
    }

    /// A number in a range.
    pub fn within(&mut self, range: RangeInclusive<u64>) -> u64 {
        let (least, most) = range.into_inner();
        match (most - least).checked_add(1) {
            Some(count) => least + self.next() % count,
            None => self.next(),
        }
    }

    /// A number from 1 to `count`, or 1 if there is none.
    pub fn one_of(&mut self, count: usize) -> u8 {
        self.within(1..=count.max(1) as u64) as u8
    }

    /// Whether a thing happens that does so with a chance in hundredths.
    pub fn chance(&mut self, hundredths: u64) -> bool {
        self.next() % 100 < hundredths
    }

    /// One of the choices, which must not be empty.
    pub fn pick<T: Copy>(&mut self, choices: &[T]) -> T {
        choices[self.within(0..=choices.len() as u64 - 1) as usize]
    }

    /// One of the choices, each with its weight.
    pub fn weighted<T: Copy>(&mut self, choices: &[(u64, T)]) -> T {
        let total: u64 = choices.iter().map(|choice| choice.0).sum();
        let mut left = self.within(0..=total - 1);
        for &(weight, choice) in choices {
            if left < weight {
                return choice;
            }
            left -= weight;
        }
        choices[choices.len() - 1].1
    }

    /// A number at a limit, or one beside it, within a range.
    pub fn beside(&mut self, limit: u64, range: RangeInclusive<u64>) -> u64 {
        let beside = match self.within(0..=9) {
            0 => limit.saturating_sub(1),
            1..=5 => limit,
            _ => limit.saturating_add(1),
        };
        beside.clamp(*range.start(), *range.end())
    }

    /// Some bytes.
    pub fn bytes(&mut self, count: usize) -> Vec<u8> {
        (0..count).map(|_| self.next() as u8).collect()
    }
}
