//! What happened to lent records, counted.

/// Each must occur at least so often in a run.
const LEAST: u64 = 1_000;

/// What is counted.
#[derive(Clone, Copy)]
pub enum Event {
    Part,
    EmptyPart,
    PieceOfCall,
    ShortRoom,
    TicketsAlone,
    AsByReplay,
    SideBySide,
    Write,
    WriteAfterEdit,
    WriteTooShort,
    LoadedAgain,
    LoadOverRules,
    RefusedOverRules,
}

/// Their names, in that order.
const NAMES: [&str; 13] = [
    "parts of lists, of which",
    "were empty",
    "ended with a piece of a call",
    "had too little room for the answers",
    "were tickets alone, and left every octet of the record",
    "lists answered in parts as by one replay",
    "cases with two records side by side",
    "writes, of which",
    "came after an accepted edit and wrote another bundle",
    "had too little room (18)",
    "bundles written and loaded into another record",
    "bundles loaded over rules",
    "refused bundles over rules",
];

/// The counts, by event.
#[derive(Default)]
pub struct Counts([u64; NAMES.len()]);

impl Counts {
    /// Counts an event if it happened.
    pub fn add(&mut self, event: Event, happened: bool) {
        self.0[event as usize] += u64::from(happened);
    }

    /// Prints them.
    pub fn print(&self) {
        println!("\nlent records");
        for (name, count) in NAMES.iter().zip(self.0) {
            println!("{count:>9}  {name}");
        }
    }

    /// What happened too seldom.
    pub fn gaps(&self) -> impl Iterator<Item = String> + '_ {
        let rare = NAMES.iter().zip(self.0).filter(|count| count.1 < LEAST);
        rare.map(|(name, _)| format!("fewer than {LEAST} times: {name}"))
    }
}
