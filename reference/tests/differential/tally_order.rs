//! What the order of sets (request 2026-06) came to, counted.

use crate::order::Shown;
use crate::table;
use crate::tally_tickets::{Setting, SETTINGS};

/// What answers show: how the set would be another, or how it was chosen.
const ANSWERS: [&str; 7] = [
    "eager, another set by members and number alone",
    "lazy, another set by members and number alone",
    "a role principal, though a larger set has none",
    "another set with as many role principals, the number decides",
    "another set if formulas that contain op 3 counted",
    "another set if formulas of op 3 counted, not principals",
    "lazy, other evaluations by members and number alone",
];

/// The counts, by answer and setting.
#[derive(Default)]
pub struct Order([[u64; SETTINGS.len()]; ANSWERS.len()]);

impl Order {
    /// Counts what the answer to a question shows.
    pub fn answer(&mut self, call: &[u8], setting: Setting, shown: Shown) {
        let is_lazy = call[0] == 3;
        let rows = [
            shown.by_roles && !is_lazy,
            shown.by_roles && is_lazy,
            shown.role_stays,
            shown.by_number,
            shown.contained,
            shown.shared,
            shown.evaluations,
        ];
        for (row, shown) in self.0.iter_mut().zip(rows) {
            row[setting.column()] += u64::from(shown);
        }
    }

    /// Prints them.
    pub fn print(&self) {
        println!("\nanswers that show the order of sets, by the record");
        table::print(&SETTINGS, &ANSWERS, &self.0);
    }

    /// What occurred less often than it ought to.
    pub fn gaps(&self, least: u64) -> Vec<String> {
        let cells = table::cells("by the order", &SETTINGS, &ANSWERS, &self.0);
        let rare = cells.into_iter().filter(|(_, count)| *count < least);
        rare.map(|(name, count)| format!("only {count} times: {name}"))
            .collect()
    }
}
