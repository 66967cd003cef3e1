//! Digits and lines by the engine and the reference: every byte at every place of some bundles, as
//! it stands and under right checks, pairs and runs of bytes, lines longer than any kind's, and
//! texts cut short.
//!
//! Nothing is random: every run has the same cases, and their number is known. A difference is
//! printed with its text and fails the test, and so does a number that came up too seldom.

#[cfg(not(engine))]
compile_error!("../target/staticlib/libcapi.a is missing: `tools/build library` makes it");

#[path = "digits/bundles.rs"]
mod bundles;
#[path = "digits/bytes.rs"]
mod bytes;
#[path = "digits/compare.rs"]
mod compare;
#[allow(dead_code)]
#[path = "differential/engine.rs"]
mod engine;
#[path = "digits/long.rs"]
mod long;
#[path = "digits/mended.rs"]
mod mended;
#[allow(dead_code)]
#[path = "differential/outcome.rs"]
mod outcome;
mod support;

use bundles::{circle, every_kind, CROWN};
use compare::Counts;
use support::SMALLEST;

/// So many texts are compared in a run.
const CASES: u64 = 835_296;

/// Each number from 1 to 9 must come up so often.
const LEAST: u64 = 50;

/// A part of the run: what is compared, and the cases.
type Section = (&'static str, fn(&mut Counts));

/// All parts, in turn.
const SECTIONS: [Section; 13] = [
    ("every byte everywhere: smallest bundle", |counts| {
        bytes::everywhere(SMALLEST, counts)
    }),
    ("every byte everywhere: crown", |counts| {
        bytes::everywhere(CROWN, counts)
    }),
    ("every byte everywhere: all kinds of line", |counts| {
        bytes::everywhere(&support::bundle(&every_kind()), counts)
    }),
    ("the same under right checks", |counts| {
        mended::everywhere(&every_kind(), counts)
    }),
    ("the same, with a circle", |counts| {
        mended::everywhere(&circle(), counts)
    }),
    ("the same, in a line over a limit", mended::over_limits),
    ("every pair of bytes as an octet", bytes::pairs),
    ("every byte several times in a row", bytes::runs),
    ("lines of one byte alone", bytes::alone),
    ("long lines: known kinds, every length", long::lengths),
    ("long lines: every kind, some lengths", long::kinds),
    ("long lines: bytes at every place", long::places),
    ("texts cut short", bytes::cuts),
];

/// Compares everything, prints the counts, and fails where there were too few cases.
fn main() {
    compare::head();
    let mut all = Counts::default();
    for (name, cases) in SECTIONS {
        let mut counts = Counts::default();
        cases(&mut counts);
        counts.print(name);
        all.add(&counts);
    }
    all.print("all");
    assert_eq!(all.sum(), CASES, "texts compared");
    for number in 1..=9 {
        let times = all.of(number);
        assert!(times >= LEAST, "number {number} came up {times} times");
    }
    println!("\nboth implementations agree on every text");
}
