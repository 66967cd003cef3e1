//! What formulas are evaluated on, read off a policy's lines for one object and one requestor.

use crate::formulas::children;
use crate::policy::Lines;

/// The graph and the formulas, with the object o and the requestor s.
pub struct Graph {
    pub objects: u8,
    pub formulas: Vec<[u8; 3]>,
    pub o: u8,
    pub s: u8,
    /// Label, from, to.
    edges: Vec<[u8; 3]>,
    /// The roles of s.
    roles: u16,
}

impl Graph {
    /// Reads it off the lines.
    pub fn of(lines: &Lines, o: u8, s: u8) -> Graph {
        let bodies = |kind: u8| lines.iter().filter(move |line| line[0] == kind);
        let threes = |kind: u8| bodies(kind).map(|line| [line[1], line[2], line[3]]);
        let user = bodies(2).find(|line| line[1] == s);
        Graph {
            objects: lines[0][2],
            formulas: threes(4).collect(),
            o,
            s,
            edges: threes(3).collect(),
            roles: user.map_or(0, |line| u16::from_be_bytes([line[2], line[3]])),
        }
    }

    /// Op, a and b of a formula.
    pub fn formula(&self, number: u8) -> [u8; 3] {
        self.formulas[usize::from(number)]
    }

    /// The numbers of all formulas.
    pub fn numbers(&self) -> std::ops::Range<u8> {
        0..self.formulas.len() as u8
    }

    /// "s holds role a".
    pub fn s_holds(&self, role: u8) -> bool {
        self.roles >> role & 1 == 1
    }

    /// Every v of an edge (label, here, v).
    pub fn ahead(&self, label: u8, here: u8) -> impl Iterator<Item = u8> + '_ {
        let edges = self.edges.iter();
        let from_here = edges.filter(move |edge| edge[..2] == [label, here]);
        from_here.map(|edge| edge[2])
    }

    /// Every v of an edge (label, v, here).
    pub fn behind(&self, label: u8, here: u8) -> impl Iterator<Item = u8> + '_ {
        let edges = self.edges.iter();
        let to_here = edges.filter(move |edge| edge[0] == label && edge[2] == here);
        to_here.map(|edge| edge[1])
    }

    /// Whether a formula has one of these ops, itself or in a formula that it uses.
    pub fn has(&self, number: u8, ops: &[u8]) -> bool {
        let formula = self.formula(number);
        let mut used = children(formula).into_iter();
        ops.contains(&formula[0]) || used.any(|child| self.has(child, ops))
    }
}
