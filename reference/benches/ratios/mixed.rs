//! Long lists of edits and questions of all kinds.

use crate::bundles::{self, of_kind};
use crate::edits::edit;
use crate::policy::Lines;
use crate::questions;
use crate::random::Random;
use crate::support::{self, Call};
use crate::workload::{Workload, ADD, MOST_CALLS, REMOVE};
use std::collections::BTreeSet;

/// The list on a policy of moderate size and on the crown.
pub fn workloads() -> Vec<Workload> {
    let (moderate, crown) = (bundles::moderate(), support::crown_lines());
    let on = |name: &str, lines: &Lines| Workload::calls(name, lines, list(lines));
    vec![
        on("60 objects, 200 edges, 8 principals", &moderate),
        on("crown", &crown),
    ]
}

/// A third of the calls are edits, most of them accepted.
fn list(lines: &Lines) -> Vec<Call> {
    let mut random = bundles::random(5);
    let mut edges: BTreeSet<Vec<u8>> = of_kind(lines, 3).into_iter().collect();
    let mut call = |_| match random.octet_between(0, 5) {
        0 | 1 => next_edit(&mut random, lines, &mut edges),
        kind => questions::any(&mut random, lines, kind),
    };
    (0..MOST_CALLS).map(&mut call).collect()
}

/// Adds a new edge or removes an old one, so that their number stays about the same.
fn next_edit(random: &mut Random, lines: &Lines, edges: &mut BTreeSet<Vec<u8>>) -> Call {
    let room = edges.len() < of_kind(lines, 3).len();
    let mut edge = any_edge(random, lines);
    if room {
        edges.insert(edge.clone());
        return edit(ADD, &edge);
    }
    edge = edges
        .range(edge..)
        .next()
        .or(edges.first())
        .cloned()
        .expect("an edge");
    edges.remove(&edge);
    edit(REMOVE, &edge)
}

/// A label in use and any two objects.
fn any_edge(random: &mut Random, lines: &Lines) -> Vec<u8> {
    let old = of_kind(lines, 3);
    let objects = lines[0][2].into();
    let label = old[random.below(old.len())][0];
    vec![
        label,
        random.below(objects) as u8,
        random.below(objects) as u8,
    ]
}
