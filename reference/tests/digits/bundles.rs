//! The bundles whose bytes are exchanged, as lines of kind and body.

use crate::support::weights;

/// The crown, as it is delivered.
pub const CROWN: &[u8] = include_bytes!("../../../examples/crown.hex");

/// Lines as kind and body, without the end line.
pub type Lines = Vec<Vec<u8>>;

/// A small bundle with lines of every kind, each digit among them. Lines of kinds that must rise
/// come in twos and close to each other, so that one altered digit may make them fall.
pub fn every_kind() -> Lines {
    let mut lines = vec![vec![1, 1, 0xF4]];
    lines.extend([[2, 0xA7, 0x80, 0x01], [2, 0xA8, 0x5A, 0xC7]].map(Vec::from));
    lines.extend([[3, 9, 0xA7, 0x36], [3, 9, 0xA7, 0x37]].map(Vec::from));
    lines.extend([[4, 1, 0, 0], [4, 7, 15, 0], [4, 3, 14, 0], [4, 5, 1, 2]].map(Vec::from));
    let privileges = [0x0123_4567_89AB_CDEF, 0x8000_0000_0000_0001, 6];
    lines.extend(privileges.map(|all| weights(&[5], all)));
    lines.extend([[6, 0, 1], [6, 1, 2]].map(Vec::from));
    lines.extend([[7, 1, 2], [7, 3, 1], [7, 0, 0]].map(Vec::from));
    lines.extend([[8, 0, 1], [8, 0, 2]].map(Vec::from));
    lines.extend([[9, 0, 1], [9, 1, 2]].map(Vec::from));
    lines.push(weights(&[10, 0], 0xFEDC_BA98_7654_3210));
    lines.push(weights(&[10, 1], 7));
    lines
}

/// The same with a circle in the hierarchy, which is found when all lines passed.
pub fn circle() -> Lines {
    let mut lines = every_kind();
    let principals = lines.iter().position(|line| line[0] == 7);
    lines.insert(principals.expect("it has principals"), vec![6, 2, 0]);
    lines
}

/// For each kind that is numbered by place, edges aside, a bundle whose last line is one over the
/// limit.
pub fn over_limits() -> [Lines; 4] {
    let (formula, demarcation) = (vec![4, 0, 0, 0], weights(&[5], 1));
    let both = [formula.clone(), demarcation.clone()];
    [
        repeated(&[], formula, 65),
        repeated(&[], demarcation, 21),
        repeated(&both, vec![7, 0, 0], 21),
        repeated(&[], weights(&[10, 1], 3), 33),
    ]
}

/// A head, the lines that are named, and one line so many times.
fn repeated(before: &[Vec<u8>], line: Vec<u8>, count: usize) -> Lines {
    let mut lines = vec![vec![1, 1, 1]];
    lines.extend_from_slice(before);
    lines.extend(vec![line; count]);
    lines
}
