//! Bytes exchanged without regard to checks, and texts cut short.

use crate::bundles::{every_kind, CROWN};
use crate::compare::Counts;
use crate::support::{bundle, SMALLEST};

/// Each byte value at each place of a text.
pub fn everywhere(text: &[u8], counts: &mut Counts) {
    for place in 0..text.len() {
        exchanged(text, &[place], counts);
    }
}

/// Each byte value at several places of a text at once.
fn exchanged(text: &[u8], places: &[usize], counts: &mut Counts) {
    let mut text = text.to_vec();
    for byte in 0..=255 {
        places.iter().for_each(|&place| text[place] = byte);
        counts.compare(&text);
    }
}

/// Each two byte values as one octet of the smallest bundle: the object count, and the check octet
/// of the end line. A loader that joins the marks of both before it looks at them may lose one.
pub fn pairs(counts: &mut Counts) {
    for place in [6, SMALLEST.len() - 3] {
        let mut text = SMALLEST.to_vec();
        for high in 0..=255 {
            text[place] = high;
            exchanged(&text, &[place + 1], counts);
        }
    }
}

/// Each byte value at each two or more places in a row of a line of the smallest bundle, as marks
/// that are added up over a line may come to zero.
pub fn runs(counts: &mut Counts) {
    for line in [0..10, 11..29] {
        for start in line.clone() {
            for end in start + 2..=line.end {
                let places: Vec<usize> = (start..end).collect();
                exchanged(SMALLEST, &places, counts);
            }
        }
    }
}

/// A second line that is one byte value so many times, with and without its 0A.
pub fn alone(counts: &mut Counts) {
    let head = &SMALLEST[..11];
    for length in (1..=64).chain([128, 255, 256, 257, 258, 512, 514, 65_536]) {
        for byte in 0..=255 {
            let mut text = [head, &vec![byte; length]].concat();
            counts.compare(&text);
            text.push(b'\n');
            counts.compare(&text);
        }
    }
}

/// Every beginning of each bundle, and the same with an 0A behind it.
pub fn cuts(counts: &mut Counts) {
    for text in [SMALLEST, CROWN, &bundle(&every_kind())] {
        for length in 0..=text.len() {
            counts.compare(&text[..length]);
            counts.compare(&[&text[..length], b"\n"].concat());
        }
    }
}
