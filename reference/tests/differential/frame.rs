//! Sealing lines into text, and damage to frames and end lines alone.

use crate::policy::Lines;
use crate::random::Random;
use crate::support;

/// A way of changing a bundle given as the octets of its lines, the end line last.
type Change = fn(&mut Random, &mut Lines);

/// Every way, by the name that a report gives it.
const WAYS: [(&str, Change); 9] = [
    ("a length octet wrong", wrong_length),
    ("a line of one or two octets", stub),
    ("a check octet wrong", wrong_check),
    ("a wrong count", wrong_count),
    ("a wrong sum", wrong_sum),
    ("an end line of another length", end_length),
    ("no end line", no_end),
    ("an end line before the end", early_end),
    ("a sealed line after the end", after_end),
];

/// The octets of lines given as kind and body, checks included.
pub fn octets(lines: &Lines) -> Lines {
    lines.iter().map(|line| support::octets(line)).collect()
}

/// Puts the end line for the octets so far.
pub fn close(octets: &mut Lines) {
    let sum: u32 = octets.iter().flatten().map(|&octet| u32::from(octet)).sum();
    let count = octets.len() as u16;
    octets.push(end_line(count, sum));
}

/// The octets of an end line.
fn end_line(count: u16, sum: u32) -> Vec<u8> {
    let line = [&[0xFF], &count.to_be_bytes()[..], &sum.to_be_bytes()].concat();
    support::octets(&line)
}

/// The text of lines of octets.
pub fn text(octets: &Lines) -> Vec<u8> {
    let pairs = |line: &Vec<u8>| line.iter().map(|o| format!("{o:02X}")).collect::<String>();
    let lines = octets.iter().map(|line| pairs(line) + "\n");
    lines.collect::<String>().into_bytes()
}

/// The first lines of a text, at most so many, as kind and body; the loader must have passed their
/// frames.
pub fn first_lines(text: &[u8], count: usize) -> Lines {
    let lines = text.split(|&byte| byte == b'\n').take(count);
    lines.map_while(kind_and_body).collect()
}

/// What stands between length and check octet of a line; none for the empty rest after the last 0A.
fn kind_and_body(line: &[u8]) -> Option<Vec<u8>> {
    let octet = |pair: &[u8]| {
        let digit = |byte: u8| char::from(byte).to_digit(16);
        Some((16 * digit(pair[0])? + digit(pair[1])?) as u8)
    };
    let octets: Vec<u8> = line.chunks_exact(2).map_while(octet).collect();
    let inner = octets.get(1..octets.len().checked_sub(1)?);
    inner.map(<[u8]>::to_vec)
}

/// Changes a closed bundle in a random way, and names the way.
pub fn change(random: &mut Random, octets: &mut Lines) -> &'static str {
    let (name, way) = random.pick(&WAYS);
    way(random, octets);
    name
}

/// Takes the end line off, changes the others, and puts the end line that then fits.
fn reclosed(octets: &mut Lines, change: impl FnOnce(&mut Lines)) {
    octets.pop();
    change(octets);
    close(octets);
}

/// Any line's length octet and check octet move against each other, so that its sum stays.
fn wrong_length(random: &mut Random, octets: &mut Lines) {
    let place = random.below(octets.len());
    let any = random.octet();
    let shift = random.pick(&[1, 255, 128, any]);
    let last = octets[place].len() - 1;
    octets[place][0] = octets[place][0].wrapping_add(shift);
    octets[place][last] = octets[place][last].wrapping_sub(shift);
    if place + 1 < octets.len() {
        reclosed(octets, |_| ());
    }
}

/// A line too short for length, kind and check, whose sum is zero.
fn stub(random: &mut Random, octets: &mut Lines) {
    let first: u8 = random.pick(&[0, 1, 255, 254]);
    let two = [first, first.wrapping_neg()];
    let line = random.pick(&[&[0][..], &two]);
    let place = random.below(octets.len());
    reclosed(octets, |others| others.insert(place, line.to_vec()));
}

/// One line's sum is not zero, though the end line, if it is another one, knows it.
fn wrong_check(random: &mut Random, octets: &mut Lines) {
    let place = random.below(octets.len());
    let last = octets[place].len() - 1;
    let shift = random.octet_between(1, 255);
    octets[place][last] = octets[place][last].wrapping_add(shift);
    if place + 1 < octets.len() {
        reclosed(octets, |_| ());
    }
}

/// The count and sum that the end line gives.
fn numbers(octets: &Lines) -> (u16, u32) {
    let end = &octets[octets.len() - 1];
    let sum = [end[4], end[5], end[6], end[7]];
    (
        u16::from_be_bytes([end[2], end[3]]),
        u32::from_be_bytes(sum),
    )
}

/// A sealed end line with another count.
fn wrong_count(random: &mut Random, octets: &mut Lines) {
    let (count, sum) = numbers(octets);
    let shift = random.pick(&[1, u16::MAX, 256, 0x8000]);
    octets.pop();
    octets.push(end_line(count.wrapping_add(shift), sum));
}

/// A sealed end line with another sum.
fn wrong_sum(random: &mut Random, octets: &mut Lines) {
    let (count, sum) = numbers(octets);
    let shift = 1 << random.below(32);
    octets.pop();
    octets.push(end_line(count, sum ^ shift));
}

/// A sealed end line with one octet too few or too many.
fn end_length(random: &mut Random, octets: &mut Lines) {
    if let Some(end) = octets.pop() {
        let mut line = end[1..end.len() - 1].to_vec();
        line.resize(random.pick(&[1, 6, 8]), 0);
        octets.push(support::octets(&line));
    }
}

/// The end line is missing.
fn no_end(_: &mut Random, octets: &mut Lines) {
    octets.pop();
}

/// An end line with right numbers for the lines before it, then the others and their own end.
fn early_end(random: &mut Random, octets: &mut Lines) {
    let place = random.below(octets.len());
    let mut before = octets[..place].to_vec();
    close(&mut before);
    let early = before.swap_remove(place);
    reclosed(octets, |others| others.insert(place, early));
}

/// Any of the lines once more, or an end line that counts the first one.
fn after_end(random: &mut Random, octets: &mut Lines) {
    if random.one_in(3) {
        close(octets);
    } else {
        octets.push(octets[random.below(octets.len())].clone());
    }
}
