//! Calls whose grounds name a vertex: the example of request 2026-03.

use crate::support::{self, call};
use crate::workload::{Workload, QUESTIONS, TICKET};

/// The title of these rows.
pub const TITLE: &str = "ops 9 to 11: crown and implant scan, pairs alternating";

/// The example's users.
const ANA: u8 = 2;
const BEN: u8 = 3;

/// Each kind of question, and tickets.
pub fn workloads() -> Vec<Workload> {
    let questions = QUESTIONS.map(|(kind, name)| workload(kind, name));
    let mut workloads = Vec::from(questions);
    workloads.push(workload(TICKET, "ticket"));
    workloads
}

/// Each method by Ana, then by Ben, so that every call empties the memo, with the set that both are
/// granted, for tickets.
fn workload(kind: u8, name: &str) -> Workload {
    let methods = [(0, 0b001), (1, 0b010), (2, 0b011), (3, 0b100)];
    let both = |(method, set)| [ANA, BEN].map(|user| call([kind, method, 0, user], set));
    let cycle = methods.map(both).concat();
    Workload::calls(name, &support::implant_lines(), cycle)
}
