//! Which answers to a list of calls depend on what a slot holds, and what they show of the order of
//! sets.

use crate::calls::TICKET;
use crate::frame;
use crate::order::{self, Read, Shown};
use crate::support::{bundle, call, principal_count, Call};
use std::collections::BTreeMap;

/// Rules with more principals are not watched, since every set is weighed.
const MOST_PRINCIPALS: usize = 10;

/// The answers to a list of calls in turn, beside those of the same rules with ops 10 and 11 false.
/// The default notes nothing.
#[derive(Clone, Default)]
pub struct Watch {
    /// What those rules answer to the calls that are still to come, if that can differ at all.
    without: std::vec::IntoIter<[u8; 5]>,
    /// What the calls that are still to come show of the order of sets, if that was read.
    order: std::vec::IntoIter<Read>,
    /// Accepted edits so far.
    edits: usize,
    /// The last answer to each question and ticket.
    last: BTreeMap<Call, Last>,
}

/// An answer's number and set, whether it depends on a slot, and the edits accepted before it.
#[derive(Clone)]
struct Last {
    answer: [u8; 4],
    depends: bool,
    edits: usize,
}

/// What is noted of an answer.
#[derive(Clone, Copy, Default)]
pub struct Noted {
    /// With ops 10 and 11 false, number or set would be others.
    pub depends: bool,
    /// The same call had another answer before an accepted edit, and one of the two depends.
    pub changed: bool,
    /// What it shows of the order of sets.
    pub shown: Shown,
}

impl Watch {
    /// At the beginning of a list on the rules of a text that loads.
    pub fn of(text: &[u8], calls: &[Call]) -> Watch {
        let answers = |text: Vec<u8>| {
            let mut answers = vec![[0; 5]; calls.len()];
            reference::replay(&text, calls.as_flattened(), answers.as_flattened_mut());
            answers
        };
        let affordable = principal_count(text) <= MOST_PRINCIPALS;
        let without = affordable.then(|| without_slots(text)).flatten();
        let without = without.map(answers);
        let order = affordable.then(|| order::read(text, calls));
        Watch {
            without: without.unwrap_or_default().into_iter(),
            order: order.unwrap_or_default().into_iter(),
            edits: 0,
            last: BTreeMap::new(),
        }
    }

    /// Whether the questions have the sets and evaluations that the order of sets gives.
    pub fn is_in_order(&self, answers: &[u8]) -> bool {
        let read = self.order.as_slice().iter();
        let mut both = read.zip(answers.chunks_exact(5));
        both.all(|(read, answer)| read.answer.is_none_or(|expected| expected == answer))
    }

    /// Takes up the answer to the next call.
    pub fn note(&mut self, call: &Call, answer: &[u8]) -> Noted {
        let shown = self.order.next().unwrap_or_default().shown;
        let noted = Noted {
            shown,
            ..Noted::default()
        };
        let Some(without) = self.without.next() else {
            return noted;
        };
        if call[0] <= 1 {
            self.edits += usize::from(answer[0] == 0);
            return noted;
        }
        let new = Last {
            answer: [answer[0], answer[1], answer[2], answer[3]],
            depends: without[..4] != answer[..4],
            edits: self.edits,
        };
        let depends = new.depends;
        let old = self.last.get(&asked(call));
        let changed = old.is_some_and(|old| new.changes(old));
        self.last.insert(asked(call), new);
        Noted {
            depends,
            changed,
            shown,
        }
    }
}

/// A call without what it has no use for: the set number, unless it is a ticket.
fn asked(of: &Call) -> Call {
    match *of {
        [TICKET, ..] => *of,
        [kind, x, y, z, ..] => call([kind, x, y, z], 0),
    }
}

impl Last {
    /// Whether an edit came between, and another answer with it, of which a slot is part.
    fn changes(&self, old: &Last) -> bool {
        let edited = old.edits < self.edits;
        edited && old.answer != self.answer && (old.depends || self.depends)
    }
}

/// The same rules with ops 10 and 11 false: they look at a slot that no op 9 keeps. None where that
/// is so already, or where ops 9 keep all four.
fn without_slots(text: &[u8]) -> Option<Vec<u8>> {
    let mut lines = frame::first_lines(text, usize::MAX);
    lines.pop();
    let keeps = |slot: u8| {
        let mut formulas = lines.iter().filter(|line| line[0] == 4);
        formulas.any(|line| line[1] == 9 && line[2] == slot)
    };
    let unset = (0..4).find(|&slot| !keeps(slot))?;
    let looks = |line: &&mut Vec<u8>| line[0] == 4 && matches!(line[1], 10 | 11);
    let mut altered = false;
    for line in lines.iter_mut().filter(looks) {
        altered |= line[2] != unset;
        line[2] = unset;
    }
    altered.then(|| bundle(&lines))
}
