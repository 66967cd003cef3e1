//! Edits on a full graph and on the crown.

use crate::bundles::{self, of_kind};
use crate::policy::Lines;
use crate::support::{self, call, Call};
use crate::workload::{Workload, ADD, REMOVE};

/// Accepted and refused edits on both.
pub fn workloads() -> Vec<Workload> {
    let full = full_graph();
    let last = of_kind(&full, 3).len() - 1;
    let crown = support::crown_lines();
    vec![
        there_and_back("512 edges, at the start", &full, 0),
        full_in_the_middle("512 edges, in the middle"),
        there_and_back("512 edges, at the end", &full, last),
        Workload::calls("512 edges, refused", &full, refused(&full)),
        in_the_middle("crown, in the middle", &crown),
        Workload::calls("crown, refused", &crown, refused(&crown)),
    ]
}

/// The edge in the middle is added and removed.
pub fn in_the_middle(name: &str, lines: &Lines) -> Workload {
    let last = of_kind(lines, 3).len() - 1;
    there_and_back(name, lines, last / 2)
}

/// The same on the full graph.
pub fn full_in_the_middle(name: &str) -> Workload {
    in_the_middle(name, &full_graph())
}

/// The objects and edges of the full policy, without the rest, which edits leave alone.
fn full_graph() -> Lines {
    let mut lines = bundles::full();
    lines.retain(|line| matches!(line[0], 1 | 3));
    lines
}

/// The edge at a place is missing at first; it is added and removed in turn.
fn there_and_back(name: &str, lines: &Lines, place: usize) -> Workload {
    let edge = of_kind(lines, 3).swap_remove(place);
    let mut without = lines.clone();
    without.retain(|line| line[0] != 3 || line[1..] != edge);
    let cycle = vec![edit(ADD, &edge), edit(REMOVE, &edge)];
    Workload::calls(name, &without, cycle)
}

/// Adding an edge that is there, removing one that is not, and an object out of range.
fn refused(lines: &Lines) -> Vec<Call> {
    let edges = of_kind(lines, 3);
    let new = |edge: &Vec<u8>| !edges.contains(edge);
    let missing = (0..=2).map(|to| vec![1, 1, to]).find(new);
    vec![
        edit(ADD, &edges[edges.len() / 2]),
        edit(REMOVE, &missing.expect("some edge is not there")),
        call([ADD, 0, 0, 255], 0),
    ]
}

/// The call for an edit of an edge.
pub fn edit(kind: u8, edge: &[u8]) -> Call {
    call([kind, edge[0], edge[1], edge[2]], 0)
}
