//! A line sealer, and the bundles the tests start from.
#![allow(dead_code)]

pub mod high_part;

use reference::{Policy, CALL_OCTETS};

/// A call as octets.
pub type Call = [u8; CALL_OCTETS];

/// The call of a kind and three numbers, with a set number, the high octet first.
pub fn call([kind, x, y, z]: [u8; 4], set: u32) -> Call {
    let [a, b, c, d] = set.to_be_bytes();
    [kind, x, y, z, a, b, c, d]
}

/// The greatest height of a formula, for all tests and benchmarks. Request 2026-05: "The highest
/// formula in service has height 5. Make that the limit in place of 8. Height 6 is out of range".
pub const HIGHEST: u8 = 5;

/// The smallest bundle, as the contract prints it.
pub const SMALLEST: &[u8] = b"02010101FB\n06FF000100000100F9\n";

/// The octets of a line: length, then kind and body as given, then the check octet.
pub fn octets(line: &[u8]) -> Vec<u8> {
    let mut octets = vec![(line.len() - 1) as u8];
    octets.extend_from_slice(line);
    let sum: u32 = octets.iter().map(|&octet| u32::from(octet)).sum();
    octets.push(((256 - sum % 256) % 256) as u8);
    octets
}

/// The text of a line given as kind and body.
pub fn seal(line: &[u8]) -> Vec<u8> {
    let pairs: String = octets(line).iter().map(|o| format!("{o:02X}")).collect();
    (pairs + "\n").into_bytes()
}

/// The text of lines without an end line.
pub fn open(lines: &[Vec<u8>]) -> Vec<u8> {
    lines.iter().flat_map(|line| seal(line)).collect()
}

/// The end line, as kind and body, for these lines.
pub fn end(lines: &[Vec<u8>]) -> Vec<u8> {
    let all = lines.iter().flat_map(|line| octets(line));
    let sum: u32 = all.map(u32::from).sum();
    let mut end = vec![0xFF];
    end.extend((lines.len() as u16).to_be_bytes());
    end.extend(sum.to_be_bytes());
    end
}

/// The text of lines with their end line.
pub fn bundle(lines: &[Vec<u8>]) -> Vec<u8> {
    [open(lines), seal(&end(lines))].concat()
}

/// A line of the given beginning followed by 8 octets of privilege weights.
pub fn weights(beginning: &[u8], privileges: u64) -> Vec<u8> {
    [beginning, &privileges.to_be_bytes()].concat()
}

/// The lines of the section "The crown table".
pub fn crown_lines() -> Vec<Vec<u8>> {
    let mut lines = vec![vec![1, 1, 3], vec![2, 1, 0, 1], vec![2, 2, 0, 0]];
    lines.extend([[3, 0, 0, 1], [3, 1, 0, 1], [3, 1, 0, 2]].map(Vec::from));
    lines.extend([[4, 1, 0, 0], [4, 7, 0, 0], [4, 7, 1, 0], [4, 3, 0, 0]].map(Vec::from));
    lines.extend([1, 2, 4].map(|privileges| weights(&[5], privileges)));
    lines.push(vec![6, 0, 1]);
    lines.extend([[7, 1, 2], [7, 2, 1], [7, 3, 0]].map(Vec::from));
    lines.push(vec![8, 0, 1]);
    lines.push(vec![9, 2, 1]);
    lines.extend([(1, 3), (0, 4), (1, 0), (1, 7)].map(|(form, all)| weights(&[10, form], all)));
    lines
}

/// The crown's bundle.
pub fn crown() -> Vec<u8> {
    bundle(&crown_lines())
}

/// "the prescriber of this crown also prescribed the implant scan", said in two ways, and "the
/// prescriber of this crown also designed it". Objects 0 crown, 1 implant scan, 2 Ana (role 0, a
/// clinician), 3 Ben; label 0 from a work to who prescribed it, label 1 from a crown to the scan that
/// belongs to it, label 2 from a crown to who designed it. Ana prescribed both works and designed
/// the crown. Each sentence has a principal; methods ask for the first, for the second, for both of
/// these, and for the third.
pub fn implant_lines() -> Vec<Vec<u8>> {
    let mut lines = vec![vec![1, 1, 4], vec![2, 2, 0, 1], vec![2, 3, 0, 0]];
    lines.extend([[3, 0, 0, 2], [3, 0, 1, 2], [3, 1, 0, 1], [3, 2, 0, 2]].map(Vec::from));
    lines.extend(implant_formulas().map(|formula| [&[4], &formula[..]].concat()));
    lines.extend([1, 2, 4].map(|privileges| weights(&[5], privileges)));
    lines.extend([[7, 4, 0], [7, 8, 1], [7, 13, 2]].map(Vec::from));
    lines.extend([1, 2, 3, 4].map(|all| weights(&[10, 1], all)));
    lines
}

/// The crown is kept in slot 0 by the first two. The first is formula 4: some prescriber of it
/// prescribed a scan that belongs to the kept crown. The second, formula 8, goes the other way
/// round: its scan has a prescriber who prescribed the kept crown. The third is formula 13, of the
/// greatest height: the crown is kept in slot 1 and a prescriber of it in slot 0, then op 11 leads
/// back to the crown, and the person in slot 0 designed it.
pub fn implant_formulas() -> [[u8; 3]; 14] {
    [
        [10, 0, 0],
        [8, 1, 0],
        [8, 0, 1],
        [7, 0, 2],
        [9, 0, 3],
        [8, 0, 0],
        [7, 0, 5],
        [7, 1, 6],
        [9, 0, 7],
        [7, 2, 0],
        [11, 1, 9],
        [9, 0, 10],
        [7, 0, 11],
        [9, 1, 12],
    ]
}

/// How many principals a bundle that loads has: its lines of kind 07.
pub fn principal_count(text: &[u8]) -> usize {
    let kinds = text.split(|&byte| byte == b'\n').map(|line| line.get(2..4));
    kinds.filter(|kind| *kind == Some(b"07")).count()
}

/// A head of 32 objects and so many edges, rising.
pub fn many_edges(count: u16) -> Vec<Vec<u8>> {
    let edge = |n: u16| match n {
        512 => vec![3, 15, 1, 0],
        _ => vec![3, (n / 32) as u8, 0, (n % 32) as u8],
    };
    let mut lines = vec![vec![1, 1, 32]];
    lines.extend((0..count).map(edge));
    lines
}

/// Number and line of a refusal, or (0, 0) for a bundle that loads.
pub fn refused(text: &[u8]) -> (u8, usize) {
    match Policy::load(text) {
        Ok(_) => (0, 0),
        Err(refusal) => (refusal.number, refusal.line),
    }
}
