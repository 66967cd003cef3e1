//! The record: what a bundle says, and the memo.

use crate::relation::Relation;
use std::collections::{BTreeMap, BTreeSet};

/// "04 formula: op, a, b."
#[derive(Clone, Copy, Debug, PartialEq, Eq)]
pub struct Formula {
    pub op: u8,
    pub a: u8,
    pub b: u8,
}

/// "07 principal (a ground): formula, demarcation."
#[derive(Clone, Copy, Debug, PartialEq, Eq)]
pub struct Principal {
    pub formula: u8,
    pub demarcation: u8,
}

/// "0A method: form (0 one-of, 1 all-of), privileges (8 octets)."
#[derive(Clone, Copy, Debug, PartialEq, Eq)]
pub struct Method {
    pub all_of: bool,
    pub privileges: u64,
}

/// "a memo: one pair (object, requestor) and, for each formula, known or not and its value."
///
/// The default is the loaded memo: "the pair (0, 0) and knows nothing".
#[derive(Clone, Debug, Default, PartialEq, Eq)]
pub struct Memo {
    pub pair: (u8, u8),
    pub known: BTreeMap<u8, bool>,
}

/// "Loading yields a record by value with its edges in order, ... and a memo".
#[derive(Clone, Debug, PartialEq, Eq)]
pub struct Policy {
    /// N; "Objects are 0 to N-1."
    pub(crate) objects: u8,
    /// Roles by user; "An object with a user line is a user."
    pub(crate) users: BTreeMap<u8, u16>,
    /// Triples (label, from, to).
    pub(crate) edges: BTreeSet<(u8, u8, u8)>,
    /// "Numbered 0, 1, .. by place."
    pub(crate) formulas: Vec<Formula>,
    /// The privileges of each demarcation; "privilege k has weight 2^k".
    pub(crate) demarcations: Vec<u64>,
    /// Pairs (inferior, superior).
    pub(crate) hierarchy: Relation,
    pub(crate) principals: Vec<Principal>,
    /// Pairs (p, q) "with p < q".
    pub(crate) exclusions: Relation,
    /// Pairs (p, q); "q needs p".
    pub(crate) prerequisites: Relation,
    pub(crate) methods: Vec<Method>,
    pub(crate) memo: Memo,
}

impl Policy {
    /// "The blank record has one object and nothing else."
    pub fn blank() -> Policy {
        Policy {
            objects: 1,
            ..Policy::zeroed()
        }
    }

    /// A record that nothing was loaded into yet: zero everywhere.
    pub fn zeroed() -> Policy {
        Policy {
            objects: 0,
            users: BTreeMap::new(),
            edges: BTreeSet::new(),
            formulas: Vec::new(),
            demarcations: Vec::new(),
            hierarchy: Relation::new(),
            principals: Vec::new(),
            exclusions: Relation::new(),
            prerequisites: Relation::new(),
            methods: Vec::new(),
            memo: Memo::default(),
        }
    }

    /// Number 19 is the opposite, "no bundle loads to this record": "object count N (1 to 255)".
    /// Loading, edits and questions leave nothing else that a bundle could not say.
    pub(crate) fn is_loadable(&self) -> bool {
        self.objects >= 1
    }

    /// "Objects are 0 to N-1."
    pub(crate) fn is_object(&self, object: u8) -> bool {
        object < self.objects
    }

    /// "03 edge: label 0 to 15, from, to", both of them objects.
    pub(crate) fn edge_in_range(&self, label: u8, from: u8, to: u8) -> bool {
        label <= 15 && self.is_object(from) && self.is_object(to)
    }
}
