//! A small generator of random numbers (splitmix64), so that a seed repeats a run exactly.

use std::collections::hash_map::RandomState;
use std::hash::{BuildHasher, Hasher};
use std::time::{SystemTime, UNIX_EPOCH};

/// The state of the generator.
pub struct Random(u64);

/// A seed that differs from run to run, so that every run tries new cases.
pub fn fresh_seed() -> u64 {
    let mut hasher = RandomState::new().build_hasher();
    if let Ok(time) = SystemTime::now().duration_since(UNIX_EPOCH) {
        hasher.write_u128(time.as_nanos());
    }
    hasher.write_u32(std::process::id());
    hasher.finish()
}

impl Random {
    /// Each case has a stream of its own, so that it does not hang on the cases before it.
    pub fn of_case(seed: u64, number: usize) -> Random {
        let start = Random(seed).next();
        Random(start ^ Random(number as u64).next())
    }

    /// The next 64 random bits.
    pub fn next(&mut self) -> u64 {
        self.0 = self.0.wrapping_add(0x9E37_79B9_7F4A_7C15);
        let z = (self.0 ^ (self.0 >> 30)).wrapping_mul(0xBF58_476D_1CE4_E5B9);
        let z = (z ^ (z >> 27)).wrapping_mul(0x94D0_49BB_1331_11EB);
        z ^ (z >> 31)
    }

    /// A number below the bound; 0 where there is none, so that callers need no case for it.
    pub fn below(&mut self, bound: usize) -> usize {
        (self.next() >> 1) as usize % bound.max(1)
    }

    /// A number from low to high, both included.
    pub fn between(&mut self, low: usize, high: usize) -> usize {
        low + self.below(high.saturating_sub(low) + 1)
    }

    /// True once in so many times.
    pub fn one_in(&mut self, times: usize) -> bool {
        self.below(times) == 0
    }

    /// Any octet.
    pub fn octet(&mut self) -> u8 {
        self.next() as u8
    }

    /// An octet from low to high, both included.
    pub fn octet_between(&mut self, low: u8, high: u8) -> u8 {
        self.between(low.into(), high.into()) as u8
    }

    /// One of the things, of which there is at least one.
    pub fn pick<T: Copy>(&mut self, things: &[T]) -> T {
        things[self.below(things.len())]
    }

    /// Puts things into a random order.
    pub fn shuffle<T>(&mut self, things: &mut [T]) {
        for place in (1..things.len()).rev() {
            things.swap(place, self.below(place + 1));
        }
    }
}
