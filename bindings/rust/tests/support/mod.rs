//! The crown of document 01, for the tests.

#![allow(dead_code)]

use case_access::{Decision, Edge, Engine, Question, Set, Ticket};

pub const CROWN: u8 = 0;
pub const ANA: u8 = 1;
pub const BEN: u8 = 2;

/// Ana checks the crown.
pub const ANA_CHECKS: Edge = Edge {
    label: 1,
    from: CROWN,
    to: ANA,
};

/// The crown's bundle.
pub const BUNDLE: &[u8] = include_bytes!("../../../../examples/crown.hex");

/// A fresh load of the crown.
pub fn crown() -> Engine {
    Engine::load(BUNDLE).expect("the crown loads")
}

/// A question about the crown.
pub fn question(method: u8, requestor: u8) -> Question {
    Question {
        method,
        object: CROWN,
        requestor,
    }
}

/// A ticket for a question about the crown, with these members.
pub fn ticket(method: u8, requestor: u8, members: &[u8]) -> Ticket {
    Ticket {
        question: question(method, requestor),
        set: Set::of_members(members.iter().copied()).expect("members up to 31"),
    }
}

/// Whether it grants exactly these principals, after so many evaluations.
pub fn grants(decision: Decision, principals: &[u8], count: u8) -> bool {
    matches!(decision, Decision::Granted { set, evaluations }
        if set.members().eq(principals.iter().copied()) && evaluations == count)
}

/// The crown's bundle with the line of this number replaced.
pub fn with_line(number: usize, line: &str) -> Vec<u8> {
    let text = std::str::from_utf8(BUNDLE).expect("a bundle is text");
    let lines = text.lines().enumerate();
    let lines = lines.map(|(i, old)| if i + 1 == number { line } else { old });
    lines
        .map(|line| format!("{line}\n"))
        .collect::<String>()
        .into_bytes()
}
