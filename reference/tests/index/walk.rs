//! A record from its load through lists of edits with questions between them. Its index is compared
//! after every call, and at some points altered in every way.

use crate::altered::{Given, WAYS};
use crate::calls::{Subject, TICKET};
use crate::fields::put_index;
use crate::pair::Pair;
use crate::policy::Lines;
use crate::random::Random;
use crate::shapes::Shape;
use crate::support::{bundle, call, Call};
use crate::tally::{Seen, Since, Tally};
use reference::Index;
use std::collections::BTreeSet;

/// A record on its way.
pub struct Walk<'a> {
    pair: Pair,
    lines: &'a Lines,
    shape: Shape,
    /// The edges as the accepted edits left them.
    edges: BTreeSet<[u8; 3]>,
    /// What changed them last.
    since: Since,
    /// The index before that; at first that of another record.
    before: Index,
    seen: Seen,
    random: &'a mut Random,
    tally: &'a mut Tally,
}

impl Walk<'_> {
    /// A record as it is loaded.
    pub fn start<'a>(
        name: String,
        lines: &'a Lines,
        shape: Shape,
        before: Index,
        random: &'a mut Random,
        tally: &'a mut Tally,
    ) -> Walk<'a> {
        let edges = lines.iter().filter(|line| line[0] == 3);
        Walk {
            pair: Pair::loaded(name, &bundle(lines)),
            lines,
            shape,
            edges: edges.map(|line| [line[1], line[2], line[3]]).collect(),
            since: Since::Load,
            before,
            seen: Seen::default(),
            random,
            tally,
        }
    }

    /// All the way; the last index.
    pub fn through(mut self) -> Index {
        self.look();
        self.check();
        for (count, adds) in self.shape.edits() {
            for _ in 0..count {
                self.edit(adds);
                self.maybe_ask();
            }
            self.check();
        }
        let length = self.random.between(4, 16);
        for call in Subject::of(self.lines).calls(self.random, length) {
            self.give(&[call]);
        }
        self.check();
        self.tally.record(&self.seen);
        self.pair.index().clone()
    }

    /// Notes what sort of record it is now.
    fn look(&mut self) {
        self.seen.look(self.pair.index(), self.since);
    }

    /// Gives calls to both, and takes up the edits that were accepted.
    fn give(&mut self, calls: &[Call]) {
        let before = self.pair.index().clone();
        let answers = self.pair.answer(calls);
        self.tally.answers += answers.len() as u64;
        for (&[kind, label, from, to, ..], answer) in calls.iter().zip(answers) {
            if kind <= 1 && answer[0] == 0 {
                self.edited(kind == 0, [label, from, to]);
                self.before.clone_from(&before);
            }
        }
        self.look();
    }

    /// Takes up an accepted edit.
    fn edited(&mut self, adds: bool, edge: [u8; 3]) {
        if adds {
            self.edges.insert(edge);
            self.since = Since::Addition;
        } else {
            self.edges.remove(&edge);
            self.since = Since::Removal;
        }
    }

    /// Adds an edge so many times in ten, or else removes one.
    fn edit(&mut self, adds: usize) {
        let edit = match self.random.below(10) < adds {
            true => self.addition(),
            false => self.removal(),
        };
        self.give(&[edit]);
    }

    /// An edge that is mostly new, with a label in use, or with any where there are all.
    fn addition(&mut self) -> Call {
        let old = self.any_edge();
        let any = self.random.octet_between(0, 15);
        let label = match (self.shape, old) {
            (Shape::OneLabel, Some([label, ..])) => label,
            (_, Some([label, ..])) => self.random.pick(&[label, any]),
            (_, None) => any,
        };
        call([0, label, self.object(), self.object()], 0)
    }

    /// An edge that is there, if there is any.
    fn removal(&mut self) -> Call {
        let [label, from, to] = self.any_edge().unwrap_or([0, 0, 0]);
        call([1, label, from, to], 0)
    }

    /// Any edge, oftener the first or the last one.
    fn any_edge(&mut self) -> Option<[u8; 3]> {
        let last = self.edges.len().checked_sub(1)?;
        let any = self.random.between(0, last);
        let place = self.random.pick(&[any, any, any, 0, last]);
        self.edges.iter().nth(place).copied()
    }

    /// Any object.
    fn object(&mut self) -> u8 {
        self.random.below(self.lines[0][2].into()) as u8
    }

    /// Two times in three a question or ticket.
    fn maybe_ask(&mut self) {
        if !self.random.one_in(3) {
            let kind = self.random.octet_between(2, TICKET);
            let question = self.question(kind);
            self.give(&[question]);
        }
    }

    /// A question or ticket of a kind, about the end of an edge mostly.
    fn question(&mut self, kind: u8) -> Call {
        let of = |kind: u8| self.lines.iter().filter(move |line| line[0] == kind);
        let users: Vec<u8> = of(2).map(|line| line[1]).collect();
        let (methods, principals) = (of(10).count(), of(7).count());
        let object = self.object();
        let object = match self.any_edge() {
            Some([_, from, to]) => self.random.pick(&[from, from, to, object]),
            None => object,
        };
        let requestor = match &users[..] {
            [] => object,
            users => self.random.pick(users),
        };
        let method = self.random.below(methods) as u8;
        let set = self.random.below(1 << principals) as u32;
        call([kind, method, object, requestor], set)
    }

    /// One call of each kind.
    fn each_kind(&mut self) -> Vec<Call> {
        let mut calls = vec![self.addition(), self.removal()];
        calls.extend((2..=TICKET).map(|kind| self.question(kind)));
        calls
    }

    /// Writes the record and loads it again. Then alters its index in every way, puts the right one
    /// back each time and asks something; in the end both answer the calls that were refused.
    fn check(&mut self) {
        self.pair.check_written();
        self.tally.written(self.since);
        let calls = self.each_kind();
        for (number, (_, way)) in WAYS.iter().enumerate() {
            let given = Given {
                right: self.pair.index(),
                other: &self.before,
            };
            let altered = way(self.random, &given);
            if altered == *given.right {
                continue;
            }
            let alter = |record: &mut _| put_index(record, &altered);
            self.pair
                .check_refused(format_args!("the index {altered:?}"), alter, &calls);
            self.tally.refused(number, self.since);
            let asked = self.random.pick(&calls[2..]);
            self.give(&[asked]);
        }
        self.give(&calls);
    }
}
