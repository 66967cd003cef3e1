//! The worst case for evaluation: a tower of formulas over objects that are all joined.

use crate::policy::Lines;
use crate::support::{call, weights, HIGHEST};
use crate::workload::{Workload, EAGER};

/// So many objects, each joined with each and itself: 484 edges.
const OBJECTS: u8 = 22;

/// The title of these rows.
pub const TITLE: &str = "22 objects all joined, 484 edges, eager, pairs alternating";

/// Each height up to the greatest.
pub fn workloads() -> Vec<Workload> {
    (1..=HIGHEST).map(workload).collect()
}

/// Two objects asked about in turn, so that every call evaluates the tower. The reference is asked
/// less often the higher it is, as each height takes it 22 times the time of the one before.
fn workload(height: u8) -> Workload {
    let cycle = vec![call([EAGER, 0, 0, 0], 0), call([EAGER, 0, 1, 0], 0)];
    let reference = match height {
        1 => 500,
        2 => 50,
        3 => 5,
        _ => 1,
    };
    Workload::slow(
        &format!("height {height}"),
        &lines(height),
        cycle,
        500,
        reference,
    )
}

/// The policy: formula i says that some edge leads to where formula i - 1 is true.
fn lines(height: u8) -> Lines {
    let mut lines = vec![vec![1, 1, OBJECTS], vec![2, 0, 0, 0]];
    let to_all = |from: u8| (0..OBJECTS).map(move |to| vec![3, 0, from, to]);
    lines.extend((0..OBJECTS).flat_map(to_all));
    lines.push(vec![4, 3, 0, 0]);
    lines.extend((0..height).map(|below| vec![4, 7, 0, below]));
    lines.push(weights(&[5], 1));
    lines.push(vec![7, height, 0]);
    lines.push(weights(&[10, 1], 1));
    lines
}
