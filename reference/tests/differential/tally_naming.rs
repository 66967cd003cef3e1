//! What formulas that name a vertex (request 2026-03) came to, counted.

use crate::calls::TICKET;
use crate::cases::Case;
use crate::faults::{self, RULES};
use crate::outcome::Outcome;
use crate::shapes::{shapes, SHAPES};
use crate::table;
use crate::tally_tickets::{Setting, SETTINGS};
use crate::watch::Noted;

/// The answers that depend on a slot, two by two for the kinds of call from 2 on, and those of them
/// to questions that evaluated nothing.
const ANSWERS: [&str; 11] = [
    "eager, granted",
    "eager, denied",
    "lazy, granted",
    "lazy, denied",
    "liberal, yes",
    "liberal, no",
    "strict, yes",
    "strict, no",
    "ticket, accepted",
    "ticket, not accepted",
    "eager or lazy, from the memo alone",
];

/// The answers that an edit changed, by the kinds of call from 2 on.
const CHANGED: [&str; 5] = ["eager", "lazy", "liberal", "strict", "ticket"];

/// The counts.
#[derive(Default)]
pub struct Naming {
    shapes: [u64; SHAPES.len()],
    rules: [u64; RULES.len()],
    answers: [[u64; SETTINGS.len()]; ANSWERS.len()],
    /// In a replayed list, and on a lent record.
    changed: [[u64; 2]; CHANGED.len()],
}

impl Naming {
    /// Counts a bundle by its formulas, or by the rule that refused it.
    pub fn bundle(&mut self, outcome: &Outcome, case: &Case) {
        if let Some(lines) = &case.valid {
            let places = self.shapes.iter_mut().zip(shapes(lines));
            places.for_each(|(count, there)| *count += u64::from(there));
        }
        if outcome.number() == 6 {
            let line = outcome.value as u32 as usize;
            if let Some(rule) = faults::broken(&case.text, line) {
                self.rules[rule] += 1;
            }
        }
    }

    /// Counts an answer that depends on a slot, or that an edit changed so.
    pub fn answer(&mut self, call: &[u8], answer: &[u8], setting: Setting, noted: Noted) {
        let kind = call[0];
        if !(2..=TICKET).contains(&kind) {
            return;
        }
        let yes = match kind {
            4 | 5 => answer[3] == 1,
            _ => answer[0] == 0,
        };
        let row = usize::from(kind - 2);
        if noted.depends {
            self.answers[2 * row + usize::from(!yes)][setting.column()] += 1;
            let from_memo = kind < 4 && answer[4] == 0;
            self.answers[10][setting.column()] += u64::from(from_memo);
        }
        self.changed[row][usize::from(setting.lent)] += u64::from(noted.changed);
    }

    /// Prints them.
    pub fn print(&self) {
        println!("\nvalid bundles that name a vertex, by what they have");
        for (name, count) in SHAPES.iter().zip(self.shapes) {
            println!("{count:>9}  {name}");
        }
        println!("\nbundles refused (6) by a rule about ops 9 to 11 alone, that of height aside");
        for (name, count) in RULES.iter().zip(self.rules) {
            println!("{count:>9}  {name}");
        }
        println!("\nanswers that would be others with ops 10 and 11 false, by the record");
        table::print(&SETTINGS, &ANSWERS, &self.answers);
        println!("\nof these, others than before an accepted edit");
        table::print(&["replay", "lent"], &CHANGED, &self.changed);
    }

    /// What occurred less often than it ought to.
    pub fn gaps(&self, least: u64) -> Vec<String> {
        let shapes = SHAPES.iter().zip(self.shapes);
        let rules = RULES.iter().zip(self.rules);
        let mut counts: Vec<(String, u64)> = shapes
            .chain(rules)
            .map(|(name, count)| (name.to_string(), count))
            .collect();
        counts.extend(table::cells(
            "depends on a slot",
            &SETTINGS,
            &ANSWERS,
            &self.answers,
        ));
        let settings = ["replay", "lent"];
        counts.extend(table::cells("changed", &settings, &CHANGED, &self.changed));
        counts.retain(|(_, count)| *count < least);
        let gap = |(name, count): (String, u64)| format!("only {count} times: {name}");
        counts.into_iter().map(gap).collect()
    }
}
