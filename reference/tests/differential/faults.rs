//! By which rule of request 2026-03 a formula line is out of range.

use crate::frame;
use crate::limits::heights;
use crate::support::HIGHEST;

/// The rules but that of height, by what breaks them.
pub const RULES: [&str; 8] = [
    "op 12",
    "an op above 12",
    "op 9 on a slot above 3",
    "op 10 on a slot above 3",
    "op 11 on a slot above 3",
    "op 10 with b not 0",
    "op 9 with b not a lower formula",
    "op 11 with b not a lower formula",
];

/// The rule that the line of a text breaks, numbered from 1, where all lines before it passed; none
/// for a rule of document 01, or where it breaks several or is too high as well.
pub fn broken(text: &[u8], line: usize) -> Option<usize> {
    let lines = frame::first_lines(text, line);
    let (last, before) = lines.split_last()?;
    let [4, op, a, b] = last[..] else {
        return None;
    };
    let child = heights(before).get(usize::from(b)).copied();
    let (no_slot, no_child) = (a > 3, child.is_none());
    let too_high = matches!(op, 9 | 11) && child == Some(HIGHEST);
    let broken = [
        op == 12,
        op > 12,
        op == 9 && no_slot,
        op == 10 && no_slot,
        op == 11 && no_slot,
        op == 10 && b != 0,
        op == 9 && no_child,
        op == 11 && no_child,
    ];
    let only = !too_high && broken.iter().filter(|&&rule| rule).count() == 1;
    broken.into_iter().position(|rule| rule && only)
}
