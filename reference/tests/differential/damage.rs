//! Damage to the text of a bundle, with no regard to checks.

use crate::random::Random;

/// A bundle as its bytes.
type Text = Vec<u8>;

/// A way of damaging a text.
type Damage = fn(&mut Random, &mut Text);

/// Every way, by the name that a report gives it.
const WAYS: [(&str, Damage); 18] = [
    ("one byte altered", one_byte),
    ("one digit altered", one_digit),
    ("several bytes altered", several_bytes),
    ("a byte put in", byte_put_in),
    ("a byte taken out", byte_taken_out),
    ("cut anywhere", cut),
    ("a line doubled", line_doubled),
    ("two lines exchanged", lines_exchanged),
    ("lines dropped", lines_dropped),
    ("lines reordered", lines_reordered),
    ("empty", empty),
    ("no final 0A", no_final_newline),
    ("an additional 0A", newline_put_in),
    ("one digit lower-case", one_lower),
    ("all digits lower-case", all_lower),
    ("a line after the end", line_after_end),
    ("0D before each 0A", carriage_returns),
    ("a very long tail", long_tail),
];

/// Damages a text in a random way, and names the way.
pub fn damage(random: &mut Random, text: &mut Text) -> &'static str {
    let (name, way) = random.pick(&WAYS);
    way(random, text);
    name
}

/// Any other value at any place.
fn one_byte(random: &mut Random, text: &mut Text) {
    let place = random.below(text.len());
    let change = random.octet_between(1, 255);
    text[place] ^= change;
}

/// A digit at any place, so that the frame, the sums and the line ends are what is damaged.
fn one_digit(random: &mut Random, text: &mut Text) {
    let place = random.below(text.len());
    text[place] = random.pick(b"0123456789ABCDEF");
}

/// Two to five bytes, each at any place.
fn several_bytes(random: &mut Random, text: &mut Text) {
    for _ in 0..random.between(2, 5) {
        if random.one_in(2) {
            one_byte(random, text);
        } else {
            one_digit(random, text);
        }
    }
}

/// One byte more, mostly a digit.
fn byte_put_in(random: &mut Random, text: &mut Text) {
    let place = random.below(text.len() + 1);
    let any = random.octet();
    text.insert(place, random.pick(&[b'0', b'F', b' ', b'G', any]));
}

/// One byte fewer.
fn byte_taken_out(random: &mut Random, text: &mut Text) {
    text.remove(random.below(text.len()));
}

/// Only a beginning is left, half the time one that ends with a line.
fn cut(random: &mut Random, text: &mut Text) {
    text.truncate(random.below(text.len()));
    while random.one_in(2) && !text.is_empty() && !text.ends_with(b"\n") {
        text.pop();
    }
}

/// The lines of a text, each with its 0A.
fn lines(text: &[u8]) -> Vec<Vec<u8>> {
    let pieces = text.split_inclusive(|&byte| byte == b'\n');
    pieces.map(<[u8]>::to_vec).collect()
}

/// One line twice in a row.
fn line_doubled(random: &mut Random, text: &mut Text) {
    let mut lines = lines(text);
    let place = random.below(lines.len());
    lines.insert(place, lines[place].clone());
    *text = lines.concat();
}

/// Two lines change places, half the time neighbours.
fn lines_exchanged(random: &mut Random, text: &mut Text) {
    let mut lines = lines(text);
    let place = random.below(lines.len());
    let other = if random.one_in(2) {
        random.below(lines.len())
    } else {
        (place + 1) % lines.len()
    };
    lines.swap(place, other);
    *text = lines.concat();
}

/// One to three lines are missing.
fn lines_dropped(random: &mut Random, text: &mut Text) {
    let mut lines = lines(text);
    for _ in 0..random.between(1, 3) {
        if !lines.is_empty() {
            lines.remove(random.below(lines.len()));
        }
    }
    *text = lines.concat();
}

/// Lines in a random order, half the time with head and end in place.
fn lines_reordered(random: &mut Random, text: &mut Text) {
    let mut lines = lines(text);
    let last = lines.len() - 1;
    if random.one_in(2) {
        random.shuffle(&mut lines[1..last]);
    } else {
        random.shuffle(&mut lines);
    }
    *text = lines.concat();
}

/// No text at all.
fn empty(_: &mut Random, text: &mut Text) {
    text.clear();
}

/// The last line is not ended.
fn no_final_newline(_: &mut Random, text: &mut Text) {
    text.pop();
}

/// One 0A more, at any place or at an end of the text.
fn newline_put_in(random: &mut Random, text: &mut Text) {
    let anywhere = random.below(text.len());
    let place = random.pick(&[0, anywhere, anywhere, text.len()]);
    text.insert(place, b'\n');
}

/// One capital, if there is one after a random place, is made small.
fn one_lower(random: &mut Random, text: &mut Text) {
    let start = random.below(text.len());
    let found = text[start..].iter().position(u8::is_ascii_uppercase);
    if let Some(distance) = found {
        text[start + distance].make_ascii_lowercase();
    }
}

/// All capitals are made small.
fn all_lower(_: &mut Random, text: &mut Text) {
    text.make_ascii_lowercase();
}

/// One of the bundle's own lines, or a piece of one, follows the end line.
fn line_after_end(random: &mut Random, text: &mut Text) {
    let lines = lines(text);
    let line = &lines[random.below(lines.len())];
    let length = if random.one_in(2) {
        line.len()
    } else {
        random.below(line.len())
    };
    text.extend_from_slice(&line[..length]);
}

/// Line ends as other systems write them.
fn carriage_returns(_: &mut Random, text: &mut Text) {
    *text = lines(text)
        .into_iter()
        .flat_map(|mut line| {
            line.insert(line.len() - 1, b'\r');
            line
        })
        .collect();
}

/// Far more bytes than a bundle has, most of the time without an 0A.
fn long_tail(random: &mut Random, text: &mut Text) {
    let byte = random.pick(b"00F\n");
    if random.one_in(2) {
        text.pop();
    }
    text.resize(text.len() + random.between(65_000, 67_000), byte);
}
