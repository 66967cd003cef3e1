//! Bytes exchanged under right checks, so that the later refusals are reached.

use crate::bundles::{self, Lines};
use crate::compare::Counts;
use crate::support;

/// A digit of a bundle: the line, the octet in it, and whether it is the low one.
#[derive(Clone, Copy)]
struct Place {
    line: usize,
    octet: usize,
    low: bool,
}

/// Each byte value as each digit of each line.
pub fn everywhere(lines: &Lines, counts: &mut Counts) {
    let octets = closed(lines);
    for line in 0..octets.len() {
        in_line(&octets, line, counts);
    }
}

/// Each byte value as each digit of the one line that is over its kind's limit.
pub fn over_limits(counts: &mut Counts) {
    for lines in bundles::over_limits() {
        in_line(&closed(&lines), lines.len() - 1, counts);
    }
}

/// The octets of each line, checks included, the end line last.
fn closed(lines: &Lines) -> Lines {
    let mut octets: Lines = lines.iter().map(|line| support::octets(line)).collect();
    octets.push(support::octets(&support::end(lines)));
    octets
}

/// Each byte value as each digit of a line.
fn in_line(octets: &Lines, line: usize, counts: &mut Counts) {
    for octet in 0..octets[line].len() {
        for low in [false, true] {
            let place = Place { line, octet, low };
            for byte in 0..=255 {
                counts.compare(&exchanged(octets, place, byte));
            }
        }
    }
}

/// The text with a byte as the digit at a place, and with the checks that are right if the byte is
/// a digit or taken for one.
fn exchanged(octets: &Lines, place: Place, byte: u8) -> Vec<u8> {
    let mut octets = octets.clone();
    let octet = &mut octets[place.line][place.octet];
    *octet = match place.low {
        false => *octet % 16 + 16 * taken_for(byte),
        true => *octet / 16 * 16 + taken_for(byte),
    };
    mend(&mut octets, place);
    let mut text = text(&octets);
    let before: usize = octets[..place.line]
        .iter()
        .map(|line| 2 * line.len() + 1)
        .sum();
    text[before + 2 * place.octet + usize::from(place.low)] = byte;
    text
}

/// The value of a digit; of any other byte the value that a mistaken loader might give it.
fn taken_for(byte: u8) -> u8 {
    match byte {
        b'A'..=b'F' => byte - b'A' + 10,
        b'a'..=b'f' => byte - b'a' + 10,
        _ => byte % 16,
    }
}

/// Puts right the check octet of a line in which another octet was altered, and the end line.
fn mend(octets: &mut Lines, place: Place) {
    let end = octets.len() - 1;
    if place.octet + 1 < octets[place.line].len() {
        seal(&mut octets[place.line]);
    }
    if place.line < end {
        let sum: u32 = octets[..end]
            .iter()
            .flatten()
            .map(|&octet| u32::from(octet))
            .sum();
        octets[end][4..8].copy_from_slice(&sum.to_be_bytes());
        seal(&mut octets[end]);
    }
}

/// Sets the check octet of a line.
fn seal(line: &mut [u8]) {
    if let Some((check, others)) = line.split_last_mut() {
        *check = others
            .iter()
            .fold(0, |sum: u8, &octet| sum.wrapping_sub(octet));
    }
}

/// The text of lines of octets.
fn text(octets: &Lines) -> Vec<u8> {
    let digits = b"0123456789ABCDEF";
    let mut text = Vec::new();
    for line in octets {
        let pairs = line.iter().flat_map(|&octet| [octet / 16, octet % 16]);
        text.extend(pairs.map(|value| digits[usize::from(value)]));
        text.push(b'\n');
    }
    text
}
