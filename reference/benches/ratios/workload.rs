//! What is measured: a bundle, and what is done with it.

use crate::policy::Lines;
use crate::support::{self, Call};

/// The kinds of call.
pub const ADD: u8 = 0;
pub const REMOVE: u8 = 1;
pub const EAGER: u8 = 2;
pub const LAZY: u8 = 3;
pub const LIBERAL: u8 = 4;
pub const STRICT: u8 = 5;
pub const TICKET: u8 = 6;

/// The four kinds of question, by name.
pub const QUESTIONS: [(u8, &str); 4] = [
    (LAZY, "lazy"),
    (EAGER, "eager"),
    (LIBERAL, "liberal"),
    (STRICT, "strict"),
];

/// The longest list of calls that is timed at once.
pub const MOST_CALLS: usize = 10_000;

/// What the time is taken of.
pub enum Task {
    /// Loading, the whole time.
    Load,
    /// Writing, without the loading before it.
    Write,
    /// One call on a record that stays loaded.
    Answer(Calls),
}

/// Calls that each implementation answers in turn, over and over.
pub struct Calls {
    pub cycle: Vec<Call>,
    /// How often the engine goes through the cycle.
    pub engine: usize,
    /// How often the reference does: less where it is slow.
    pub reference: usize,
}

/// One row of the table.
pub struct Workload {
    pub name: String,
    pub bundle: Vec<u8>,
    pub task: Task,
    /// Whether it is done on a lent record, calls one at a time.
    pub lent: bool,
    /// The number that loading returns.
    pub number: u64,
}

impl Workload {
    /// The loading of a bundle.
    pub fn load(name: &str, bundle: &[u8]) -> Workload {
        Workload {
            name: format!("loading {name}"),
            bundle: bundle.to_vec(),
            task: Task::Load,
            lent: false,
            number: 0,
        }
    }

    /// The loading of a text that is refused with a number.
    pub fn refused(name: &str, text: &[u8], number: u64) -> Workload {
        Workload {
            name: format!("refused: {name} ({number})"),
            number,
            ..Workload::load(name, text)
        }
    }

    /// The writing of a bundle.
    pub fn write(name: &str, bundle: &[u8]) -> Workload {
        Workload {
            name: format!("writing {name}"),
            bundle: bundle.to_vec(),
            task: Task::Write,
            lent: false,
            number: 0,
        }
    }

    /// As many calls as are timed at once, the same list for both.
    pub fn calls(name: &str, lines: &Lines, cycle: Vec<Call>) -> Workload {
        let times = (MOST_CALLS / cycle.len()).max(1);
        Workload::slow(name, lines, cycle, times, times)
    }

    /// Calls that are slow, each implementation going so often through the cycle.
    pub fn slow(
        name: &str,
        lines: &Lines,
        cycle: Vec<Call>,
        engine: usize,
        reference: usize,
    ) -> Workload {
        Workload {
            name: name.to_string(),
            bundle: support::bundle(lines),
            task: Task::Answer(Calls {
                cycle,
                engine,
                reference,
            }),
            lent: false,
            number: 0,
        }
    }

    /// The same on a lent record.
    pub fn lent(self) -> Workload {
        Workload { lent: true, ..self }
    }
}
