//! What tickets were answered, counted by the setting of the call.

use crate::calls::TICKET;
use crate::heights::{at_limit_of_principals, Found};
use crate::support::principal_count;

/// What is known of the record that a call is answered on.
#[derive(Clone, Copy)]
pub struct Setting {
    /// Whether it is a lent one; if not, the call is in a replayed list.
    pub lent: bool,
    /// Whether an edit was accepted before.
    pub edited: bool,
    pub principal_count: usize,
    /// Which of the principals' formulas have the greatest height.
    pub at_limit: Found,
}

impl Setting {
    /// A record with the rules of a text that loads, before any edit; an empty text stands for a
    /// record that was never loaded.
    pub fn before_edits(lent: bool, text: &[u8]) -> Setting {
        Setting {
            lent,
            edited: false,
            principal_count: principal_count(text),
            at_limit: at_limit_of_principals(text),
        }
    }

    /// Its place among the settings that are told apart.
    pub fn column(self) -> usize {
        2 * usize::from(self.lent) + usize::from(self.edited)
    }
}

/// The answers, by number; 20 has two causes.
const ANSWERS: [(u8, &str); 9] = [
    (0, "accepted"),
    (14, "no such method"),
    (15, "no such object"),
    (16, "requestor isn't a user"),
    (19, "no bundle loads to this record"),
    (20, "a member is no principal"),
    (20, "a member isn't enabled"),
    (21, "the set isn't consistent"),
    (22, "guard not met"),
];

/// The settings that are told apart.
pub const SETTINGS: [&str; 4] = ["replay", "replay, edited", "lent", "lent, edited"];

/// The counts, by answer and setting.
#[derive(Default)]
pub struct Tickets([[u64; SETTINGS.len()]; ANSWERS.len()]);

impl Tickets {
    /// Counts the number that a call was answered with, if it is a ticket.
    pub fn add(&mut self, call: &[u8], number: u8, setting: Setting) {
        let row = ANSWERS.iter().position(|answer| answer.0 == number);
        let (TICKET, Some(row)) = (call[0], row) else {
            return;
        };
        let set = call[4..8]
            .iter()
            .fold(0, |set, &octet| set << 8 | u32::from(octet));
        let not_enabled = number == 20 && set >> setting.principal_count == 0;
        self.0[row + usize::from(not_enabled)][setting.column()] += 1;
    }

    /// Prints them.
    pub fn print(&self) {
        println!("\ntickets, by the record they were answered on");
        let heads = SETTINGS.map(|name| format!("{name:>15}"));
        println!("{}", heads.concat());
        for ((number, name), counts) in ANSWERS.iter().zip(self.0) {
            let counts = counts.map(|count| format!("{count:>15}"));
            println!("{}  {number:>2}  {name}", counts.concat());
        }
    }

    /// What was answered less often than it ought to be; 19 is for lent records alone, and none of
    /// those can be edited.
    pub fn gaps(&self, least: u64) -> Vec<String> {
        let mut gaps = Vec::new();
        for ((number, name), counts) in ANSWERS.iter().zip(self.0) {
            let rare = SETTINGS.iter().zip(counts).filter(|count| count.1 < least);
            let may_be = rare.filter(|count| *number != 19 || *count.0 == "lent");
            gaps.extend(may_be.map(|(setting, _)| {
                format!("fewer than {least} tickets answered {number}, {name} ({setting})")
            }));
        }
        gaps
    }
}
