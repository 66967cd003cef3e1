//! A second line that is longer, or shorter, than its kind's, between a head and an end line.

use crate::compare::Counts;
use crate::support;

/// The known kinds with their body lengths, and some unknown ones.
const KINDS: [(u8, usize); 14] = [
    (0x00, 0),
    (0x01, 2),
    (0x02, 3),
    (0x03, 3),
    (0x04, 3),
    (0x05, 8),
    (0x06, 2),
    (0x07, 2),
    (0x08, 2),
    (0x09, 2),
    (0x0A, 9),
    (0x0B, 2),
    (0xFE, 6),
    (0xFF, 6),
];

/// Bytes at the borders of the digits, others that are near a digit in some way, and four digits.
const TELLING: &[u8] = b"/:@G`afg09AF \r\n\0\x7F\x80\xB0\xB9\xC1\xC6\xFF";

/// Known kinds with bodies of each length up to 400, and of their own length and a multiple of 256
/// more, which one octet cannot tell from it, or of 65,536 more.
pub fn lengths(counts: &mut Counts) {
    for (kind, own) in KINDS {
        let alike = [512, 768, 1_024, 65_536].map(|more| own + more);
        for length in (0..=400).chain(alike) {
            ways(kind, length, counts);
        }
    }
}

/// Each kind octet with bodies of some lengths.
pub fn kinds(counts: &mut Counts) {
    for kind in 0..=255 {
        for length in [0, 12, 13, 14, 16, 20, 253, 254, 255, 256, 258, 300] {
            ways(kind, length, counts);
        }
    }
}

/// Bodies of zeros, which may be right for the kind, and bodies whose octets differ.
fn ways(kind: u8, length: usize, counts: &mut Counts) {
    let zeros = vec![0; length];
    let others = (0..length).map(|place| (37 * place + 11) as u8).collect();
    for body in [zeros, others] {
        let line = [&[kind], &body[..]].concat();
        whole(&line, counts);
        spoilt(&line, counts);
    }
}

/// Right checks; a check octet that is wrong; a length octet that is wrong though the sum is zero.
fn whole(line: &[u8], counts: &mut Counts) {
    let right = around(line);
    counts.compare(&right);
    let start = HEAD.len();
    let last = start + 2 * line.len() + 3;
    let mut text = right.clone();
    text[last] = if text[last] == b'8' { b'7' } else { b'8' };
    counts.compare(&text);
    let octets = support::octets(line);
    let check = octets[octets.len() - 1];
    let mut text = right;
    put(&mut text, start, octets[0].wrapping_add(1));
    put(&mut text, last - 1, check.wrapping_sub(1));
    counts.compare(&text);
}

/// No digit as the last or the last but one, one digit fewer, no 0A between the line and the next,
/// or none after it as the text ends there or one digit before.
fn spoilt(line: &[u8], counts: &mut Counts) {
    let right = around(line);
    let end = HEAD.len() + 2 * line.len() + 4;
    for place in [end - 1, end - 2] {
        let mut text = right.clone();
        text[place] = b'G';
        counts.compare(&text);
    }
    for place in [end - 1, end] {
        let mut text = right.clone();
        text.remove(place);
        counts.compare(&text);
    }
    counts.compare(&right[..end]);
    counts.compare(&right[..end - 1]);
}

/// The first line.
const HEAD: &[u8] = b"02010101FB\n";

/// The text of a head, a line given as kind and body, and an end line with right numbers.
fn around(line: &[u8]) -> Vec<u8> {
    let text = support::bundle(&[vec![1, 1, 1], line.to_vec()]);
    assert!(text.starts_with(HEAD), "the head is the smallest bundle's");
    text
}

/// Puts the digits of an octet at a place.
fn put(text: &mut [u8], place: usize, octet: u8) {
    text[place..place + 2].copy_from_slice(format!("{octet:02X}").as_bytes());
}

/// Bytes at each place of long lines: each byte value where the line is not too long, and telling
/// ones where it is.
pub fn places(counts: &mut Counts) {
    let all: Vec<u8> = (0..=255).collect();
    for (length, bytes) in [
        (12, &all[..]),
        (20, &all),
        (253, TELLING),
        (255, TELLING),
        (259, TELLING),
        (400, TELLING),
    ] {
        let line = [&[2], &vec![0; length][..]].concat();
        let mut text = around(&line);
        for place in HEAD.len()..=HEAD.len() + 2 * line.len() + 4 {
            let old = text[place];
            for &byte in bytes {
                text[place] = byte;
                counts.compare(&text);
            }
            text[place] = old;
        }
    }
}
