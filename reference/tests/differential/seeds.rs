//! The seeds of a run.

use crate::random::fresh_seed;

/// The seed that every run has.
const FIXED_SEED: u64 = 0x0CA5_EACC_E551_0001;

/// The seed that the environment names, or else the fixed one and a fresh one.
pub fn seeds() -> Vec<u64> {
    match std::env::var("DIFFERENTIAL_SEED") {
        Ok(text) => vec![parsed(&text)],
        Err(_) => vec![FIXED_SEED, fresh_seed()],
    }
}

/// A seed as it was printed, in hexadecimal digits with or without 0x.
fn parsed(text: &str) -> u64 {
    let digits = text.trim().trim_start_matches("0x");
    u64::from_str_radix(digits, 16).expect("DIFFERENTIAL_SEED is a hexadecimal number")
}
