//! Which limits of the contract a valid bundle reaches, in the order of `LIMITS`.

use crate::formulas::children;
use crate::policy::Lines;
use crate::sizes::LIMITS;
use crate::support::HIGHEST;

/// Whether each limit is reached; the last is whether all are (1 object aside).
pub fn reached(lines: &Lines) -> [bool; LIMITS.len()] {
    let count = |kind: u8| lines.iter().filter(|line| line[0] == kind).count();
    let any = |kind: u8, place: usize, least: u8| {
        let mut of_kind = lines.iter().filter(|line| line[0] == kind);
        of_kind.any(|line| line[place] >= least)
    };
    let role_asked = lines.contains(&vec![4, 3, 15, 0]);
    let mut reached = [
        lines[0][2] == 1,
        lines[0][2] == 255,
        count(2) == 255,
        count(3) == 512,
        count(4) == 64,
        highest(lines) == HIGHEST,
        count(5) == 20,
        count(6) == 190,
        count(7) == 20,
        count(8) == 190,
        count(9) == 190,
        count(10) == 32,
        any(3, 1, 15),
        any(2, 2, 128) && role_asked,
        any(5, 1, 128) && any(10, 2, 128),
        false,
    ];
    reached[15] = reached[1..15].iter().all(|&one| one);
    reached
}

/// The height of the highest formula.
fn highest(lines: &[Vec<u8>]) -> u8 {
    heights(lines).into_iter().max().unwrap_or(0)
}

/// The height of each formula, by number.
pub fn heights(lines: &[Vec<u8>]) -> Vec<u8> {
    let mut heights: Vec<u8> = Vec::new();
    for line in lines.iter().filter(|line| line[0] == 4) {
        let children = children([line[1], line[2], line[3]]);
        let below = children.iter().map(|&child| heights[usize::from(child)]);
        heights.push(below.max().map_or(0, |highest| 1 + highest));
    }
    heights
}
