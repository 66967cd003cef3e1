//! Formulas at the limit of height and one above it (request 2026-05), by the op and the part that
//! make them so high.

use crate::formulas::children;
use crate::frame;
use crate::limits::heights;
use crate::policy::Lines;
use crate::support::high_part::HIGH_PARTS;
use crate::support::HIGHEST;

/// Which of `HIGH_PARTS` are there.
pub type Found = [bool; HIGH_PARTS.len()];

/// Those of the formulas that have the greatest height, in valid lines.
pub fn at_limit(lines: &Lines) -> Found {
    at_limit_among(lines, |_| true)
}

/// The same, but only of formulas that principals have, so that questions and tickets evaluate
/// them; in a text that loads.
pub fn at_limit_of_principals(text: &[u8]) -> Found {
    let lines = frame::first_lines(text, usize::MAX);
    let principals = lines.iter().filter(|line| line[0] == 7);
    let own: Vec<u8> = principals.map(|line| line[1]).collect();
    at_limit_among(&lines, |number| own.contains(&number))
}

/// Those of the formulas of some numbers that have the greatest height.
fn at_limit_among(lines: &Lines, is_among: impl Fn(u8) -> bool) -> Found {
    let heights = heights(lines);
    let formulas = lines.iter().filter(|line| line[0] == 4);
    let mut found = [false; HIGH_PARTS.len()];
    for ((number, line), &height) in (0..).zip(formulas).zip(&heights) {
        if height == HIGHEST && is_among(number) {
            let place = place([line[1], line[2], line[3]], &heights);
            place.into_iter().for_each(|place| found[place] = true);
        }
    }
    found
}

/// The one of the line of a text, numbered from 1, where all lines before it passed and it is a
/// formula that height alone puts out of range.
pub fn above_limit(text: &[u8], line: usize) -> Option<usize> {
    let lines = frame::first_lines(text, line);
    let (last, before) = lines.split_last()?;
    let [4, op, a, b] = last[..] else {
        return None;
    };
    let heights = heights(before);
    let is_lower = |number: u8| usize::from(number) < heights.len();
    let others_pass = match op {
        4 => is_lower(a) && b == 0,
        5 | 6 => is_lower(a) && is_lower(b),
        7 | 8 => a <= 15 && is_lower(b),
        9 | 11 => a <= 3 && is_lower(b),
        _ => false,
    };
    let is_highest = |part: u8| heights[usize::from(part)] == HIGHEST;
    let too_high = others_pass && children([op, a, b]).into_iter().any(is_highest);
    too_high.then(|| place([op, a, b], &heights)).flatten()
}

/// The place in `HIGH_PARTS` of a formula, given the heights of lower ones; none if it has no part.
fn place([op, a, b]: [u8; 3], heights: &[u8]) -> Option<usize> {
    let height = |number: u8| heights[usize::from(number)];
    let high = match op {
        4 => [true, false],
        5 | 6 => [height(a) >= height(b), height(b) >= height(a)],
        _ => [false, true],
    };
    HIGH_PARTS
        .iter()
        .position(|part| part.op == op && part.high == high)
}
