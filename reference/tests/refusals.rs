//! Hand-made bundles refused with 1 to 9.

mod support;

use support::high_part::HIGH_PARTS;
use support::{
    bundle, crown, crown_lines, end, many_edges, open, refused, seal, weights, HIGHEST, SMALLEST,
};

/// A head of 3 objects, then the given lines, then the end line.
fn small(lines: &[&[u8]]) -> Vec<u8> {
    let mut all = vec![vec![1, 1, 3]];
    all.extend(lines.iter().map(|line| line.to_vec()));
    bundle(&all)
}

/// A head, one line of a numbered kind so many times, and the lines it names before it.
fn repeated(before: &[Vec<u8>], line: Vec<u8>, count: usize) -> Vec<u8> {
    let mut all = vec![vec![1, 1, 1]];
    all.extend_from_slice(before);
    all.extend(vec![line; count]);
    bundle(&all)
}

/// The crown's lines with the line at a place (counted from 1) exchanged.
fn crown_with(place: usize, line: &[u8]) -> Vec<u8> {
    let mut lines = crown_lines();
    lines[place - 1] = line.to_vec();
    bundle(&lines)
}

#[test]
fn number_1_characters() {
    let cases: [(&[u8], usize); 9] = [
        (b"\n", 1),
        (b"02010101FB\n\n", 2),
        (b"02010101F\n", 1),
        (b"02010101fb\n", 1),
        (b"02010101FG\n", 1),
        (b" 02010101FB \n", 1),
        (b"02010101FB\r\n", 1),
        (b"02010101FB", 1),
        (b"02010101FB\n06FF000100000100F9", 2),
    ];
    for (text, line) in cases {
        assert_eq!(refused(text), (1, line));
    }
    assert_eq!(refused(&[SMALLEST, b"\n"].concat()), (1, 3));
    assert_eq!(refused(&[SMALLEST, b"0"].concat()), (1, 3));
}

#[test]
fn numbers_2_and_3_frame() {
    assert_eq!(refused(b"00\n"), (2, 1));
    assert_eq!(refused(b"FF01\n"), (2, 1));
    assert_eq!(refused(b"03010101FA\n"), (2, 1));
    assert_eq!(refused(b"01010101FC\n"), (2, 1));
    assert_eq!(
        refused(&[[b'0'; 2 * 259].as_slice(), b"\n"].concat()),
        (2, 1)
    );
    assert_eq!(refused(b"02010101FC\n"), (3, 1));
    assert_eq!(refused(b"02010101FB\n06FF000100000100F8\n"), (3, 2));
    assert_eq!(refused(&[SMALLEST, b"000000\n"].concat()), (4, 3));
}

#[test]
fn number_4_places() {
    assert_eq!(refused(&seal(&[0])), (4, 1));
    assert_eq!(refused(&seal(&[2, 0, 0, 0])), (4, 1));
    assert_eq!(refused(&seal(&end(&[]))), (4, 1));
    assert_eq!(refused(&seal(&[1, 1, 1, 1])), (4, 1));
    assert_eq!(refused(&small(&[&[1, 1, 3]])), (4, 2));
    assert_eq!(refused(&small(&[&[0x0B, 0, 0]])), (4, 2));
    assert_eq!(refused(&small(&[&[0xFE, 0, 0]])), (4, 2));
    assert_eq!(refused(&small(&[&[2, 0, 0]])), (4, 2));
    assert_eq!(refused(&small(&[&[3, 0, 0, 0], &[2, 0, 0, 0]])), (4, 3));
    assert_eq!(refused(&small(&[&[4, 0, 0, 0], &[1, 1, 3]])), (4, 3));
    let again = seal(&[1, 1, 1]);
    assert_eq!(refused(&[SMALLEST, &again].concat()), (4, 3));
    let second_end = seal(&end(&[vec![1, 1, 1]]));
    assert_eq!(refused(&[SMALLEST, &second_end].concat()), (4, 3));
    assert_eq!(refused(&[SMALLEST, b"02010101FC\n"].concat()), (3, 3));
}

#[test]
fn number_5_limits() {
    let formula = vec![4, 0, 0, 0];
    let demarcation = weights(&[5], u64::MAX);
    let both = [formula.clone(), demarcation.clone()];
    assert_eq!(refused(&bundle(&many_edges(512))), (0, 0));
    assert_eq!(refused(&bundle(&many_edges(513))), (5, 514));
    assert_eq!(refused(&repeated(&[], formula.clone(), 64)), (0, 0));
    assert_eq!(refused(&repeated(&[], formula, 65)), (5, 66));
    assert_eq!(refused(&repeated(&[], demarcation.clone(), 20)), (0, 0));
    assert_eq!(refused(&repeated(&[], demarcation, 21)), (5, 22));
    assert_eq!(refused(&repeated(&both, vec![7, 0, 0], 20)), (0, 0));
    assert_eq!(refused(&repeated(&both, vec![7, 0, 0], 21)), (5, 24));
    assert_eq!(refused(&repeated(&[], weights(&[10, 0], 0), 32)), (0, 0));
    assert_eq!(refused(&repeated(&[], weights(&[10, 2], 0), 1)), (6, 2));
    assert_eq!(refused(&repeated(&[], weights(&[10, 0], 0), 33)), (5, 34));
}

#[test]
fn number_6_heads_users_and_edges() {
    assert_eq!(refused(&seal(&[1, 2, 1])), (6, 1));
    assert_eq!(refused(&seal(&[1, 0, 1])), (6, 1));
    assert_eq!(refused(&seal(&[1, 1, 0])), (6, 1));
    assert_eq!(refused(&small(&[&[2, 3, 0, 0]])), (6, 2));
    assert_eq!(refused(&small(&[&[3, 16, 0, 0]])), (6, 2));
    assert_eq!(refused(&small(&[&[3, 0, 3, 0]])), (6, 2));
    assert_eq!(refused(&small(&[&[3, 0, 0, 3]])), (6, 2));
    let head = vec![1, 1, 255];
    assert_eq!(
        refused(&bundle(&[head.clone(), vec![2, 254, 0, 0]])),
        (0, 0)
    );
    assert_eq!(refused(&bundle(&[head, vec![2, 255, 0, 0]])), (6, 2));
}

#[test]
fn number_6_formulas() {
    let bad: [[u8; 4]; 21] = [
        [4, 12, 0, 0],
        [4, 255, 0, 0],
        [4, 0, 1, 0],
        [4, 0, 0, 1],
        [4, 1, 1, 0],
        [4, 1, 0, 1],
        [4, 2, 1, 0],
        [4, 2, 0, 1],
        [4, 3, 16, 0],
        [4, 3, 0, 1],
        [4, 4, 1, 0],
        [4, 4, 0, 1],
        [4, 5, 0, 1],
        [4, 5, 1, 0],
        [4, 6, 0, 1],
        [4, 6, 1, 0],
        [4, 7, 16, 0],
        [4, 7, 0, 1],
        [4, 8, 16, 0],
        [4, 8, 0, 1],
        [4, 8, 0, 255],
    ];
    for line in bad {
        assert_eq!(refused(&small(&[&[4, 0, 0, 0], &line])), (6, 3));
    }
}

#[test]
fn number_6_ops_above_11() {
    for op in 12..=255 {
        for formula in [[4, op, 0, 0], [4, op, 3, 0], [4, op, 0, 1]] {
            assert_eq!(refused(&small(&[&[4, 0, 0, 0], &formula])), (6, 3));
        }
    }
}

#[test]
fn number_6_slots() {
    for op in 9..=11 {
        for a in 0..=255 {
            let expected = if a <= 3 { (0, 0) } else { (6, 3) };
            assert_eq!(refused(&small(&[&[4, 0, 0, 0], &[4, op, a, 0]])), expected);
        }
    }
}

#[test]
fn number_6_op_10_has_no_b() {
    for b in 0..=255 {
        let expected = if b == 0 { (0, 0) } else { (6, 4) };
        let lines: [&[u8]; 3] = [&[4, 0, 0, 0], &[4, 0, 0, 0], &[4, 10, 3, b]];
        assert_eq!(refused(&small(&lines)), expected);
    }
    assert_eq!(refused(&small(&[&[4, 10, 0, 0]])), (0, 0));
}

#[test]
fn number_6_ops_9_and_11_name_a_lower_formula() {
    for op in [9, 11] {
        assert_eq!(refused(&small(&[&[4, op, 0, 0]])), (6, 2));
        for b in 0..=255 {
            let expected = if b <= 1 { (0, 0) } else { (6, 4) };
            let lines: [&[u8]; 3] = [&[4, 0, 0, 0], &[4, 10, 0, 0], &[4, op, 3, b]];
            assert_eq!(refused(&small(&lines)), expected);
        }
    }
}

/// A formula line.
fn formula_line([op, a, b]: [u8; 3]) -> Vec<u8> {
    vec![4, op, a, b]
}

#[test]
fn number_6_height() {
    for part in HIGH_PARTS {
        let story = |number: u8| {
            let other = match part.op {
                7 | 8 => 15,
                9 | 11 => number % 4,
                _ => 0,
            };
            formula_line(part.over(number, other))
        };
        let leaf = if part.op < 9 { 0 } else { 10 };
        let mut lines = vec![vec![1, 1, 1], vec![4, leaf, 0, 0]];
        lines.extend((0..HIGHEST).map(story));
        assert_eq!(refused(&bundle(&lines)), (0, 0), "{}", part.name);
        lines.push(story(HIGHEST));
        assert_eq!(refused(&bundle(&lines)), (6, lines.len()), "{}", part.name);
    }
}

/// Formula n has height n, the ops being mixed; then comes one over the highest of them, or over the
/// one below it, by every op with a part.
#[test]
fn number_6_height_of_a_mixed_tower() {
    let mut lines = vec![vec![1, 1, 1], vec![4, 10, 3, 0]];
    let above = [[9, 0], [7, 0], [11, 3], [8, 15], [9, 1], [11, 0], [7, 1]];
    let stories = (0..HIGHEST).zip(above.into_iter().cycle());
    lines.extend(stories.map(|(n, [op, a])| vec![4, op, a, n]));
    assert_eq!(refused(&bundle(&lines)), (0, 0));
    for part in HIGH_PARTS {
        let with = |number: u8| {
            let line = formula_line(part.over(number, 0));
            refused(&bundle(&[&lines[..], &[line]].concat()))
        };
        assert_eq!(with(HIGHEST - 1), (0, 0), "{}", part.name);
        assert_eq!(with(HIGHEST), (6, lines.len() + 1), "{}", part.name);
    }
    lines.push(vec![4, 10, 0, 0]);
    assert_eq!(refused(&bundle(&lines)), (0, 0));
}

#[test]
fn number_6_names() {
    let cases: [(usize, &[u8]); 13] = [
        (14, &[6, 0, 0]),
        (14, &[6, 0, 3]),
        (14, &[6, 3, 0]),
        (15, &[7, 4, 0]),
        (15, &[7, 0, 3]),
        (18, &[8, 0, 0]),
        (18, &[8, 1, 0]),
        (18, &[8, 0, 3]),
        (19, &[9, 1, 1]),
        (19, &[9, 0, 3]),
        (19, &[9, 3, 0]),
        (20, &[10, 2, 0, 0, 0, 0, 0, 0, 0, 0]),
        (20, &[10, 255, 0, 0, 0, 0, 0, 0, 0, 0]),
    ];
    for (place, line) in cases {
        assert_eq!(refused(&crown_with(place, line)), (6, place));
    }
}

#[test]
fn number_7_order() {
    let cases: [(usize, &[u8]); 5] = [
        (3, &[2, 1, 0, 0]),
        (3, &[2, 0, 255, 255]),
        (5, &[3, 0, 0, 1]),
        (5, &[3, 0, 0, 0]),
        (6, &[3, 0, 2, 2]),
    ];
    for (place, line) in cases {
        assert_eq!(refused(&crown_with(place, line)), (7, place));
    }
    assert_eq!(refused(&crown()), (0, 0));
    for (place, line) in [(14, [6, 0, 1]), (18, [8, 0, 1]), (19, [9, 2, 1])] {
        let mut lines = crown_lines();
        lines.insert(place, line.to_vec());
        assert_eq!(refused(&bundle(&lines)), (7, place + 1));
    }
}

#[test]
fn number_8_ends() {
    assert_eq!(refused(b""), (8, 1));
    assert_eq!(refused(b"02010101FB\n"), (8, 2));
    assert_eq!(refused(&open(&crown_lines())), (8, 24));
    let head = seal(&[1, 1, 1]);
    for (count, sum) in [(2, 256), (0, 256), (1, 255), (1, 0), (257, 256)] {
        let mut line = vec![0xFF];
        line.extend(u16::to_be_bytes(count));
        line.extend(u32::to_be_bytes(sum));
        assert_eq!(refused(&[head.clone(), seal(&line)].concat()), (8, 2));
    }
}

#[test]
fn number_9_circles() {
    let mut lines = crown_lines();
    lines.insert(14, vec![6, 1, 0]);
    assert_eq!(refused(&bundle(&lines)), (9, 25));
    assert_eq!(refused(&open(&lines)), (8, 25));
    assert_eq!(refused(&[bundle(&lines), b"\n".to_vec()].concat()), (1, 26));
    let mut lines = crown_lines();
    lines.splice(18..19, [vec![9, 0, 2], vec![9, 1, 0], vec![9, 2, 1]]);
    assert_eq!(refused(&bundle(&lines)), (9, 26));
    lines.remove(18);
    assert_eq!(refused(&bundle(&lines)), (0, 0));
}
