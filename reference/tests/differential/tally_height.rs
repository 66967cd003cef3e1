//! What formulas at the limit of height and one above it (request 2026-05) came to, counted.

use crate::calls::TICKET;
use crate::cases::Case;
use crate::heights::{above_limit, at_limit, Found};
use crate::outcome::Outcome;
use crate::support::high_part::HIGH_PARTS;
use crate::support::HIGHEST;
use crate::table;
use crate::tally_tickets::{Setting, SETTINGS};

/// The columns: valid bundles, then answers by the setting of their call, then refused bundles.
const VALID: usize = 0;
const ANSWERS: usize = 1;
const REFUSED: usize = ANSWERS + SETTINGS.len();
const COLUMNS: usize = REFUSED + 1;

/// The counts, by `HIGH_PARTS` and column.
#[derive(Default)]
pub struct Heights([[u64; COLUMNS]; HIGH_PARTS.len()]);

impl Heights {
    /// Counts a valid bundle by its formulas at the limit, or a refused one by the formula that
    /// height alone puts out of range.
    pub fn bundle(&mut self, outcome: &Outcome, case: &Case) {
        if let Some(lines) = &case.valid {
            self.add(VALID, at_limit(lines));
        }
        if outcome.number() == 6 {
            let line = outcome.value as u32 as usize;
            if let Some(place) = above_limit(&case.text, line) {
                self.0[place][REFUSED] += 1;
            }
        }
    }

    /// Counts an answer to a question or ticket for which formulas may have been evaluated, by those
    /// of the principals' formulas that are at the limit.
    pub fn answer(&mut self, call: &[u8], answer: &[u8], setting: Setting) {
        let asks = (2..=TICKET).contains(&call[0]);
        if asks && matches!(answer[0], 0 | 17 | 20..=22) {
            self.add(ANSWERS + setting.column(), setting.at_limit);
        }
    }

    /// Counts all that were found, in one column.
    fn add(&mut self, column: usize, found: Found) {
        for (row, found) in self.0.iter_mut().zip(found) {
            row[column] += u64::from(found);
        }
    }

    /// Prints them.
    pub fn print(&self) {
        println!("\nformulas at the limit of height and one above it, by op and high part: valid");
        println!("bundles, answers where a principal has one, bundles refused (6) by it alone");
        table::print(&columns(), &names(), &self.0);
    }

    /// What occurred less often than it ought to.
    pub fn gaps(&self, least: u64) -> Vec<String> {
        let cells = table::cells("by height", &columns(), &names(), &self.0);
        let rare = cells.into_iter().filter(|(_, count)| *count < least);
        rare.map(|(name, count)| format!("only {count} times: {name}"))
            .collect()
    }
}

/// The names of the columns.
fn columns() -> [String; COLUMNS] {
    let mut names = [""; COLUMNS].map(str::to_string);
    names[VALID] = format!("height {HIGHEST}");
    names[REFUSED] = format!("height {}", HIGHEST + 1);
    for (name, setting) in names[ANSWERS..REFUSED].iter_mut().zip(SETTINGS) {
        *name = setting.to_string();
    }
    names
}

/// The names of the rows.
fn names() -> [&'static str; HIGH_PARTS.len()] {
    HIGH_PARTS.map(|part| part.name)
}
