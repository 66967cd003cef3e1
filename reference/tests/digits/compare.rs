//! Both implementations on one text, and the counts of what they returned.

use crate::engine::{self, Record};
use crate::outcome::Outcome;
use crate::support::SMALLEST;
use reference::Policy;

/// What the lent buffers are filled with.
const FILL: u8 = 0x5A;

/// How many texts there were, by the number that both returned.
#[derive(Default)]
pub struct Counts([u64; 10]);

impl Counts {
    /// Loads and rewrites a text by both, compares number, line and what is written, and counts it.
    pub fn compare(&mut self, text: &[u8]) {
        let (mut policy, mut record) = (Policy::zeroed(), Record::zeroed());
        let loaded = reference::load(&mut policy, text);
        must_agree("load", text, loaded, engine::load(&mut record, text));
        let rewritten = rewritten(text);
        let written = written(&policy, &record, text);
        if loaded == 0 {
            must_agree("rewrite and text", text, rewritten.buffer(), text);
            must_agree("write and text", text, written.buffer(), text);
        } else {
            must_agree("load and rewrite", text, loaded, rewritten.value);
            must_agree("refused, written", text, written.buffer(), SMALLEST);
        }
        self.0[(loaded >> 32) as usize] += 1;
    }

    /// Adds the counts of a part.
    pub fn add(&mut self, part: &Counts) {
        let both = self.0.iter_mut().zip(part.0);
        both.for_each(|(count, more)| *count += more);
    }

    /// How many texts had a number.
    pub fn of(&self, number: usize) -> u64 {
        self.0[number]
    }

    /// How many texts there were.
    pub fn sum(&self) -> u64 {
        self.0.iter().sum()
    }

    /// Prints them as a row.
    pub fn print(&self, name: &str) {
        let counts = self.0.map(|count| format!("{count:>8}"));
        println!("{name:<42}{:>9}{}", self.sum(), counts.concat());
    }
}

/// Prints the names of the columns.
pub fn head() {
    let numbers: String = (0..10).map(|number| format!("{number:>8}")).collect();
    println!("{:<42}{:>9}{numbers}", "texts by number", "texts");
}

/// Rewrites into a buffer as long as the text.
fn rewritten(text: &[u8]) -> Outcome {
    let reference = Outcome::of(text.len(), FILL, |out| reference::rewrite(text, out));
    let engine = Outcome::of(text.len(), FILL, |out| engine::rewrite(text, out));
    must_be_same("rewrite", text, reference, engine)
}

/// Writes the record that a text left, into a buffer as long as what is to be written.
fn written(policy: &Policy, record: &Record, text: &[u8]) -> Outcome {
    let length = policy.write().len();
    let reference = Outcome::of(length, FILL, |out| reference::write(policy, out));
    let engine = Outcome::of(length, FILL, |out| engine::write(record, out));
    must_be_same("write", text, reference, engine)
}

/// The outcome of both; stops where the values, the buffers or the bytes around them differ.
fn must_be_same(what: &str, text: &[u8], reference: Outcome, engine: Outcome) -> Outcome {
    must_agree(what, text, reference.value, engine.value);
    must_agree(what, text, reference.buffer(), engine.buffer());
    must_agree(what, text, reference.guards(), engine.guards());
    reference
}

/// Stops with the text where two results differ.
fn must_agree<T: PartialEq + std::fmt::Debug>(what: &str, text: &[u8], first: T, second: T) {
    assert!(
        first == second,
        "DIFFERENCE, {what}: {first:X?}, {second:X?}\ntext: {}",
        text.escape_ascii()
    );
}
