//! What stands here as well as in `include/case_access.h` is the same.

use crate::call::{ANSWER_OCTETS, CALL_OCTETS};
use crate::record::{Record, RECORD_OCTETS};
use crate::{Call, Edge, Question, Refused, Set, Ticket};
use std::mem::{align_of, size_of};

const HEADER: &str = include_str!("../../../include/case_access.h");

/// What the header defines a name as.
fn defined(name: &str) -> &'static str {
    let start = format!("#define {name} ");
    let mut found = HEADER.lines().filter_map(|line| line.strip_prefix(&start));
    found.next().expect("the header defines the name")
}

/// The number of a name of the header's enums.
fn number(name: &str) -> u8 {
    let start = format!("{name} = ");
    let mut found = HEADER
        .lines()
        .filter_map(|line| line.trim().strip_prefix(&start));
    let row = found.next().expect("an enum of the header has the name");
    let digits = row.split(|c: char| !c.is_ascii_digit()).next();
    digits
        .unwrap_or(row)
        .parse()
        .expect("a number follows the name")
}

/// The header's text for a name.
fn text(name: &str) -> &'static str {
    let case = format!("case {name}:");
    let mut lines = HEADER.lines().skip_while(|line| line.trim() != case);
    let text = lines.nth(1).expect("a text follows the name");
    text.trim()
        .trim_start_matches("return \"")
        .trim_end_matches("\";")
}

/// The header's name for a refusal: `ACCESS_WRONG_SUM` for `WrongSum { line: 1 }`.
fn name(refused: Refused) -> String {
    let debug = format!("{refused:?}");
    let variant = debug.split(' ').next().unwrap_or(&debug);
    let mut name = String::from("ACCESS");
    for letter in variant.chars() {
        if letter.is_ascii_uppercase() {
            name.push('_');
        }
        name.push(letter.to_ascii_uppercase());
    }
    name
}

#[test]
fn sizes_and_version() {
    assert_eq!(defined("ACCESS_RECORD_OCTETS"), RECORD_OCTETS.to_string());
    assert_eq!(size_of::<Record>(), RECORD_OCTETS);
    assert_eq!(align_of::<Record>(), 8);
    assert_eq!(defined("ACCESS_CALL_OCTETS"), CALL_OCTETS.to_string());
    assert_eq!(defined("ACCESS_ANSWER_OCTETS"), ANSWER_OCTETS.to_string());
    assert_eq!(
        defined("ACCESS_VERSION"),
        format!("{:?}", env!("CARGO_PKG_VERSION"))
    );
}

#[test]
fn kinds_of_calls() {
    let edge = Edge {
        label: 7,
        from: 8,
        to: 9,
    };
    let question = Question {
        method: 7,
        object: 8,
        requestor: 9,
    };
    assert_eq!(
        Call::Add(edge).octets(),
        [number("ACCESS_CALL_ADD"), 7, 8, 9, 0, 0, 0, 0]
    );
    assert_eq!(
        Call::Remove(edge).octets(),
        [number("ACCESS_CALL_REMOVE"), 7, 8, 9, 0, 0, 0, 0]
    );
    assert_eq!(
        Call::Eager(question).octets(),
        [number("ACCESS_CALL_EAGER"), 7, 8, 9, 0, 0, 0, 0]
    );
    assert_eq!(
        Call::Lazy(question).octets(),
        [number("ACCESS_CALL_LAZY"), 7, 8, 9, 0, 0, 0, 0]
    );
    assert_eq!(
        Call::Liberal(question).octets(),
        [number("ACCESS_CALL_LIBERAL"), 7, 8, 9, 0, 0, 0, 0]
    );
    assert_eq!(
        Call::Strict(question).octets(),
        [number("ACCESS_CALL_STRICT"), 7, 8, 9, 0, 0, 0, 0]
    );
    let ticket = Ticket {
        question,
        set: Set::of_number(0x0A0B_0C0D),
    };
    assert_eq!(
        Call::Ticket(ticket).octets(),
        [number("ACCESS_CALL_TICKET"), 7, 8, 9, 10, 11, 12, 13]
    );
}

#[test]
fn names_numbers_and_texts_of_refusals() {
    for refusal in (1..=16).chain(20..=22) {
        let refused = Refused::of_number(refusal, 1);
        assert_eq!(refused.number(), refusal);
        assert_eq!(number(&name(refused)), refusal);
        assert_eq!(refused.text(), text(&name(refused)));
        assert_eq!(refused.line(), (refusal <= 9).then_some(1));
    }
}
