//! Lines of another meaning under right checks: the line sums, the count and the sum of the end
//! line fit, so that the deeper refusals are reached.

use crate::policy::Lines;
use crate::random::Random;
use crate::support::high_part::HIGH_PARTS;
use crate::support::HIGHEST;
use std::collections::BTreeSet;

/// A way of changing lines given as kind and body.
type Change = fn(&mut Random, &mut Lines);

/// Every way but one, by the name that a report gives it.
const WAYS: [(&str, Change); 22] = [
    ("a wrong head", wrong_head),
    ("a body number altered", body_number),
    ("a body number altered", body_number),
    ("a thing named that is not there", names_nothing),
    ("a body of another length", body_length),
    ("a body longer by 256", body_longer_by_256),
    ("too many lines of a kind", too_many),
    ("too many edges", too_many_edges),
    ("a line twice", line_twice),
    ("neighbours exchanged", neighbours_exchanged),
    ("a line elsewhere", line_elsewhere),
    ("another kind", other_kind),
    ("a second head", second_head),
    ("no head", no_head),
    ("a circle", circle),
    ("an exclusion not p below q", falling_exclusion),
    ("a pair of one thing", pair_of_one),
    ("a formula of itself or a later one", formula_of_later),
    ("an unused a or b", unused_number),
    ("an op above 11", op_above_11),
    ("a slot above 3", slot_above_3),
    ("op 10 with a b", op_10_with_b),
];

/// The one that is taken oftener, as every op that has a part is to be met there.
const TOWER: (&str, Change) = ("the greatest height or one more", tower);

/// Changes lines in a random way, and names the way.
pub fn change(random: &mut Random, lines: &mut Lines) -> &'static str {
    let (name, way) = match random.one_in(5) {
        true => TOWER,
        false => random.pick(&WAYS),
    };
    way(random, lines);
    name
}

/// How many lines of a kind there are.
fn count(lines: &Lines, kind: u8) -> usize {
    lines.iter().filter(|line| line[0] == kind).count()
}

/// The place after the last line of a kind or of a lower one.
fn place_after(lines: &Lines, kind: u8) -> usize {
    let higher = lines.iter().position(|line| line[0] > kind);
    higher.unwrap_or(lines.len())
}

/// Puts a line among those of its kind, in order.
fn put_in_order(lines: &mut Lines, line: Vec<u8>) {
    let place = lines.iter().position(|other| *other > line);
    lines.insert(place.unwrap_or(lines.len()), line);
}

/// One octet of one body, unless it is empty, takes a value near a limit, near its old one, or any.
fn body_number(random: &mut Random, lines: &mut Lines) {
    let line = random.below(lines.len());
    let octet = 1 + random.below(lines[line].len() - 1);
    let Some(&old) = lines[line].get(octet) else {
        return;
    };
    let telling = [0, 1, 2, 3, 4, 8, 9, 11, 12, 15, 16, 19, 20, 64, 254, 255];
    let near = [old.wrapping_add(1), old.wrapping_sub(1), random.octet()];
    lines[line][octet] = if random.one_in(2) {
        random.pick(&near)
    } else {
        random.pick(&telling)
    };
}

/// Another version or no object, half the time with nothing after it.
fn wrong_head(random: &mut Random, lines: &mut Lines) {
    let objects = lines[0][2];
    let any = random.octet();
    lines[0] = random
        .pick(&[[1, 1, 0], [1, 0, objects], [1, 2, objects], [1, any, 0]])
        .to_vec();
    if random.one_in(2) {
        lines.truncate(1);
    }
}

/// A new line whose one number is the first that names nothing; the others are 0. After the lines
/// of its kind it mostly falls as well, and number 6 comes before 7.
fn names_nothing(random: &mut Random, lines: &mut Lines) {
    let objects = lines[0][2];
    let of = |kind: u8| count(lines, kind) as u8;
    let line = random.pick(&[
        [2, objects, 0, 0],
        [3, 0, objects, 0],
        [3, 0, 0, objects],
        [3, 16, 0, 0],
        [6, 0, of(5), 0],
        [6, of(5), 0, 0],
        [7, of(4), 0, 0],
        [7, 0, of(5), 0],
        [8, 0, of(7), 0],
        [9, 0, of(7), 0],
        [9, of(7), 0, 0],
    ]);
    let length = if line[0] < 5 { 4 } else { 3 };
    if random.one_in(2) {
        put_in_order(lines, line[..length].to_vec());
    } else {
        lines.insert(place_after(lines, line[0]), line[..length].to_vec());
    }
}

/// A body loses or gains octets.
fn body_length(random: &mut Random, lines: &mut Lines) {
    let place = random.below(lines.len());
    let length = lines[place].len();
    let other = match random.below(4) {
        0 => 1,
        1 => length.max(2) - 1,
        2 => length + 1,
        _ => random.between(1, 12),
    };
    lines[place].resize(other, random.octet());
}

/// The length octet then still fits modulo 256.
fn body_longer_by_256(random: &mut Random, lines: &mut Lines) {
    let place = random.below(lines.len());
    let length = lines[place].len();
    lines[place].resize(length + 256, random.octet());
}

/// One to three lines over the limit of a kind that is numbered by place.
fn too_many(random: &mut Random, lines: &mut Lines) {
    let (kind, limit) = random.pick(&[(4, 64), (5, 20), (7, 20), (10, 32)]);
    let most = limit + random.between(1, 3);
    let place = place_after(lines, kind);
    let line = lines[place - 1].clone();
    let missing = most.saturating_sub(count(lines, kind));
    lines.splice(place..place, vec![line; missing]);
}

/// 513 edges or a few more, rising.
fn too_many_edges(random: &mut Random, lines: &mut Lines) {
    lines[0][2] = 255;
    let most = random.between(513, 515);
    let own = lines.iter().filter(|line| line[0] == 3);
    let mut edges: BTreeSet<Vec<u8>> = own.cloned().collect();
    while edges.len() < most {
        let [label, from, to] = [15, 254, 254].map(|high| random.octet_between(0, high));
        edges.insert(vec![3, label, from, to]);
    }
    lines.retain(|line| line[0] != 3);
    let place = place_after(lines, 2);
    lines.splice(place..place, edges);
}

/// A line is said twice, which only the numbered kinds allow.
fn line_twice(random: &mut Random, lines: &mut Lines) {
    let place = random.below(lines.len());
    lines.insert(place, lines[place].clone());
}

/// Two neighbours of one kind change places, so that they fall where they rose.
fn neighbours_exchanged(random: &mut Random, lines: &mut Lines) {
    let kind = random.pick(&[2, 3, 6, 8, 9]);
    let first = place_after(lines, kind - 1);
    let last = place_after(lines, kind);
    if last - first >= 2 {
        let place = random.between(first, last - 2);
        lines.swap(place, place + 1);
    }
}

/// A line moves to any other place.
fn line_elsewhere(random: &mut Random, lines: &mut Lines) {
    let line = lines.remove(random.below(lines.len()));
    lines.insert(random.below(lines.len() + 1), line);
}

/// A line takes another kind, known or not.
fn other_kind(random: &mut Random, lines: &mut Lines) {
    let place = random.below(lines.len());
    let any = random.octet();
    lines[place][0] = random.pick(&[0, 3, 6, 8, 11, 12, 254, 255, any]);
}

/// The head, right or wrong, comes once more.
fn second_head(random: &mut Random, lines: &mut Lines) {
    let count = random.pick(&[0, lines[0][2], 255]);
    let place = random.between(1, lines.len());
    lines.insert(place, vec![1, 1, count]);
}

/// The head is missing.
fn no_head(_: &mut Random, lines: &mut Lines) {
    lines.remove(0);
}

/// A circle of two to five things in the hierarchy or the prerequisites, in order.
fn circle(random: &mut Random, lines: &mut Lines) {
    let (kind, of) = random.pick(&[(6, 5), (9, 7)]);
    let mut things: Vec<u8> = (0..count(lines, of) as u8).collect();
    random.shuffle(&mut things);
    things.truncate(random.between(2, 5));
    for place in 0..things.len() {
        let next = things[(place + 1) % things.len()];
        let line = vec![kind, things[place], next];
        if !lines.contains(&line) {
            put_in_order(lines, line);
        }
    }
}

/// An exclusion with p equal to q or above it.
fn falling_exclusion(random: &mut Random, lines: &mut Lines) {
    let p = random.below(count(lines, 7)) as u8;
    let q = random.octet_between(0, p);
    put_in_order(lines, vec![8, p, q]);
}

/// A hierarchy or prerequisite line that names one thing twice.
fn pair_of_one(random: &mut Random, lines: &mut Lines) {
    let (kind, of) = random.pick(&[(6, 5), (9, 7)]);
    let thing = random.below(count(lines, of)) as u8;
    put_in_order(lines, vec![kind, thing, thing]);
}

/// Puts a formula after the others.
fn put_formula(lines: &mut Lines, [op, a, b]: [u8; 3]) {
    lines.insert(place_after(lines, 4), vec![4, op, a, b]);
}

/// A formula whose child is itself, or above itself.
fn formula_of_later(random: &mut Random, lines: &mut Lines) {
    let own = count(lines, 4) as u8;
    let later = random.pick(&[own, own, own + 1, 255]);
    let formulas = [
        [4, later, 0],
        [5, later, 0],
        [5, 0, later],
        [6, later, 0],
        [6, 0, later],
        [7, 0, later],
        [8, 0, later],
        [9, 3, later],
        [11, 0, later],
    ];
    put_formula(lines, random.pick(&formulas));
}

/// A tower of the greatest height or, oftener, of one more; its highest formula is of any op that
/// has a part.
fn tower(random: &mut Random, lines: &mut Lines) {
    let height = random.pick(&[HIGHEST, HIGHEST + 1, HIGHEST + 1, HIGHEST + 1]);
    build(random, lines, height - 1);
    let before = count(lines, 4) as u8 - 1;
    let part = random.pick(&HIGH_PARTS);
    let other = match part.op {
        4..=6 => 0,
        _ => random.octet_between(0, 3),
    };
    put_formula(lines, part.over(before, other));
}

/// A leaf and so many formulas of which each has the one before as a child.
fn build(random: &mut Random, lines: &mut Lines, stories: u8) {
    let op = random.pick(&[0, 1, 2, 3, 10]);
    put_formula(lines, [op, 0, 0]);
    for _ in 0..stories {
        let before = count(lines, 4) as u8 - 1;
        let formulas = [
            [4, before, 0],
            [5, before, 0],
            [5, 0, before],
            [6, 0, before],
            [7, 15, before],
            [8, 0, before],
            [9, 1, before],
            [11, 3, before],
        ];
        put_formula(lines, random.pick(&formulas));
    }
}

/// A formula of op 0 to 4 with something where 0 belongs, or a role or label of 16 and above.
fn unused_number(random: &mut Random, lines: &mut Lines) {
    let other = random.octet_between(1, 255);
    let formulas = [
        [0, other, 0],
        [0, 0, other],
        [1, other, 0],
        [1, 0, other],
        [2, other, 0],
        [2, 0, other],
        [3, 0, other],
        [4, 0, other],
        [3, other | 16, 0],
        [7, other | 16, 0],
        [8, other | 16, 0],
    ];
    put_formula(lines, random.pick(&formulas));
}

/// A formula of an unknown op.
fn op_above_11(random: &mut Random, lines: &mut Lines) {
    let any = random.octet_between(13, 255);
    let op = random.pick(&[12, any]);
    put_formula(lines, [op, 0, 0]);
}

/// A formula of op 9 to 11 with a slot that is not there.
fn slot_above_3(random: &mut Random, lines: &mut Lines) {
    let op = random.octet_between(9, 11);
    let any = random.octet_between(4, 255);
    let slot = random.pick(&[4, 4, 5, 15, any]);
    put_formula(lines, [op, slot, 0]);
}

/// A formula of op 10 with something where 0 belongs.
fn op_10_with_b(random: &mut Random, lines: &mut Lines) {
    let any = random.octet_between(1, 255);
    let b = random.pick(&[1, any]);
    put_formula(lines, [10, random.octet_between(0, 3), b]);
}
