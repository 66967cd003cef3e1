//! The edits: adding and removing an edge.

use crate::kind::MOST_EDGES;
use crate::policy::{Memo, Policy};

impl Policy {
    /// "Adding an edge hands back the record with one edge more"; "19 comes first, then: add 10,
    /// 11, 13".
    pub fn add_edge(&mut self, label: u8, from: u8, to: u8) -> u8 {
        if !self.is_loadable() {
            return 19;
        }
        if !self.edge_in_range(label, from, to) {
            return 10;
        }
        if self.edges.contains(&(label, from, to)) {
            return 11;
        }
        if self.edges.len() >= MOST_EDGES {
            return 13;
        }
        self.edges.insert((label, from, to));
        self.empty_memo()
    }

    /// "removing, with one fewer"; "19 comes first, then: ... remove 10, 12".
    pub fn remove_edge(&mut self, label: u8, from: u8, to: u8) -> u8 {
        if !self.is_loadable() {
            return 19;
        }
        if !self.edge_in_range(label, from, to) {
            return 10;
        }
        if !self.edges.remove(&(label, from, to)) {
            return 12;
        }
        self.empty_memo()
    }

    /// "each empties the memo (pair (0, 0))"; "An accepted edit is one that returns number 0."
    fn empty_memo(&mut self) -> u8 {
        self.memo = Memo::default();
        0
    }
}
