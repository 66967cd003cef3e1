//! Full graphs by label (request 2026-04): all labels used evenly, and one step at the object
//! itself.

use crate::policy::Lines;
use crate::questions;
use crate::support::{call, weights};
use crate::workload::{Workload, EAGER};

/// The titles of these rows.
pub const EVEN: &str = "labels: 512 edges over 16 of them, eager, pairs alternating";
pub const STEP: &str = "labels: one step at the object itself, eager, pairs alternating";

/// The highest formulas of the first rows.
const HIGHEST: u8 = 4;

/// So many objects are joined by 16 labels, so many by one.
const OVER_16: u8 = 16;
const OF_ONE: u8 = 22;

/// Two users: the first is joined to and from object 0 by the label of the step, the second is not.
const JOINED: u8 = 8;
const APART: u8 = 22;

/// Each height of chains over different labels. At height 0 there is no step to take: what that
/// question takes is to be taken off the others, so that the evaluation of steps is left.
pub fn even() -> Vec<Workload> {
    (0..=HIGHEST).map(chains).collect()
}

/// Steps forward and backward on both graphs.
pub fn steps() -> Vec<Workload> {
    let (many, one) = ("512 edges over 16 labels", "484 edges of one label");
    vec![
        forward(&format!("forward, {many}")),
        step(&format!("backward, {many}"), over_16(), [8, 7]),
        step(&format!("forward, {one}"), of_one(), [7, 0]),
        step(&format!("backward, {one}"), of_one(), [8, 0]),
    ]
}

/// The step forward on 16 labels, along one in the middle.
pub fn forward(name: &str) -> Workload {
    step(name, over_16(), [7, 7])
}

/// Each label from every object to two others: 32 edges of each.
fn over_16() -> Lines {
    let mut edges: Lines = (0..16)
        .flat_map(|label| (0..OVER_16).map(move |from| (label, from)))
        .flat_map(|(label, from)| {
            [0, 1].map(|more| vec![3, label, from, (from + label + more) % 16])
        })
        .collect();
    edges.sort_unstable();
    edges
}

/// One label from every object to every object.
fn of_one() -> Lines {
    let to_all = |from: u8| (0..OF_ONE).map(move |to| vec![3, 0, from, to]);
    (0..OF_ONE).flat_map(to_all).collect()
}

/// Head and users, then the edges.
fn graph(edges: Lines) -> Lines {
    let mut lines = vec![vec![1, 1, APART + 1]];
    lines.extend([JOINED, APART].map(|user| vec![2, user, 0, 0]));
    lines.extend(edges);
    lines
}

/// As many principals as there are labels, or as formulas allow, each with a chain of steps of its
/// own: the outermost along the principal's label, the next along the label after that, and so on
/// to a role that nobody holds. The empty set meets the guard, so that evaluation is all there is.
fn chains(height: u8) -> Workload {
    let principals = (63 / height.max(1)).min(16);
    let mut lines = graph(over_16());
    lines.push(vec![4, 3, 0, 0]);
    for principal in 0..principals {
        let top = height * principal + height;
        lines.extend((0..height).map(|step| {
            let below = if step == 0 { 0 } else { top - height + step };
            vec![4, 7, (principal + height - 1 - step) % 16, below]
        }));
    }
    lines.push(weights(&[5], 1));
    lines.extend((1..=principals).map(|principal| vec![7, height * principal, 0]));
    lines.push(weights(&[10, 1], 0));
    let cycle = vec![
        call([EAGER, 0, 0, JOINED], 0),
        call([EAGER, 0, 1, JOINED], 0),
    ];
    let name = format!("height {height}, {principals} principals");
    Workload::slow(
        &name,
        &lines,
        cycle,
        500,
        [500, 500, 200, 100, 50][usize::from(height)],
    )
}

/// "The designer of this crown": one step, forward (op 7) or backward (op 8), to the requestor, who
/// is in turn the one and the other user.
fn step(name: &str, edges: Lines, [op, label]: [u8; 2]) -> Workload {
    let mut lines = graph(edges);
    lines.extend([vec![4, 1, 0, 0], vec![4, op, label, 0]]);
    lines.push(weights(&[5], 1));
    lines.push(vec![7, 1, 0]);
    lines.push(weights(&[10, 1], 1));
    let cycle = [JOINED, APART]
        .map(|user| call([EAGER, 0, 0, user], 0))
        .to_vec();
    assert_eq!(questions::accepted(&lines, &cycle), 1, "one is granted");
    Workload::calls(name, &lines, cycle)
}
