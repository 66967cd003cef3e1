//! The median of some rounds, with the lowest and the highest.

use std::fmt;

/// What the rounds of one figure gave.
#[derive(Clone, Copy)]
pub struct Spread {
    pub median: f64,
    pub low: f64,
    pub high: f64,
}

impl Spread {
    /// Takes the figures of an odd number of rounds.
    pub fn of(mut rounds: Vec<f64>) -> Spread {
        rounds.sort_by(f64::total_cmp);
        Spread {
            median: rounds[rounds.len() / 2],
            low: rounds[0],
            high: rounds[rounds.len() - 1],
        }
    }
}

impl fmt::Display for Spread {
    /// The median, then lowest and highest in brackets.
    fn fmt(&self, out: &mut fmt::Formatter) -> fmt::Result {
        let (low, high) = (number(self.low), number(self.high));
        out.pad(&format!("{} ({low}-{high})", number(self.median)))
    }
}

/// A number with two or three digits that count.
pub fn number(value: f64) -> String {
    match value.abs() {
        0.0 => "0".to_string(),
        size if !(0.0005..1e7).contains(&size) => format!("{value:.1e}"),
        size if size < 0.01 => format!("{value:.4}"),
        size if size < 1.0 => format!("{value:.3}"),
        size if size < 10.0 => format!("{value:.2}"),
        size if size < 100.0 => format!("{value:.1}"),
        _ => format!("{value:.0}"),
    }
}
