//! The index of the edges, built anew from them. No answer of this implementation needs it: its
//! steps go through all edges. The tests compare it with the one that the engine keeps.

use crate::kind::MOST_EDGES;
use crate::policy::Policy;

/// "label 0 to 15".
const LABELS: u8 = 16;

/// Request 2026-04: "The record shall also hold, for each label, the first place (the number of
/// edges with a lower label) and number of its edges, and the places of the edges ordered by label,
/// then to, then from."
#[derive(Clone, Debug, PartialEq, Eq)]
pub struct Index {
    /// By label: "the first place (the number of edges with a lower label)".
    pub firsts: [u16; LABELS as usize],
    /// By label: the "number of its edges".
    pub counts: [u16; LABELS as usize],
    /// "the places of the edges ordered by label, then to, then from". An edge's place is its number
    /// among the edges "in order"; "unused places zero".
    pub places: [u16; MOST_EDGES],
}

impl Policy {
    /// "the index is the one that building anew would give": this is building anew.
    pub fn index(&self) -> Index {
        Index {
            firsts: self.for_each_label(|label, of| of < label),
            counts: self.for_each_label(|label, of| of == label),
            places: self.backward_places(),
        }
    }

    /// For each label, how many edges have a label that is in a relation to it.
    fn for_each_label(&self, related: impl Fn(u8, u8) -> bool) -> [u16; LABELS as usize] {
        let labels: Vec<u8> = self.edges.iter().map(|edge| edge.0).collect();
        let count = |label: u8| labels.iter().filter(|&&of| related(label, of)).count();
        std::array::from_fn(|label| count(label as u8) as u16)
    }

    /// The edges with their places, sorted "by label, then to, then from".
    fn backward_places(&self) -> [u16; MOST_EDGES] {
        let numbered = self.edges.iter().zip(0..);
        let mut backward: Vec<_> = numbered
            .map(|(&(label, from, to), place)| (label, to, from, place))
            .collect();
        backward.sort_unstable();
        let mut places = [0; MOST_EDGES];
        for (found, edge) in places.iter_mut().zip(backward) {
            *found = edge.3;
        }
        places
    }
}

#[cfg(test)]
mod tests {
    use super::{Index, Policy, MOST_EDGES};
    use std::collections::BTreeSet;

    /// The index of these edges alone.
    fn index(edges: &[(u8, u8, u8)]) -> Index {
        Policy {
            objects: 9,
            edges: BTreeSet::from_iter(edges.iter().copied()),
            ..Policy::blank()
        }
        .index()
    }

    /// Numbers, then zeros.
    fn row<const N: usize>(numbers: &[u16]) -> [u16; N] {
        let mut row = [0; N];
        row[..numbers.len()].copy_from_slice(numbers);
        row
    }

    #[test]
    fn no_edges() {
        let zeros = Index {
            firsts: [0; 16],
            counts: [0; 16],
            places: [0; MOST_EDGES],
        };
        assert_eq!(index(&[]), zeros);
        assert_eq!(Policy::blank().index(), zeros);
        assert_eq!(Policy::zeroed().index(), zeros);
    }

    /// Places 0 to 5 in the record's own order: by label, from, to.
    #[test]
    fn by_label_then_to_then_from() {
        let edges = [
            (1, 0, 2),
            (1, 3, 0),
            (1, 3, 2),
            (1, 8, 0),
            (15, 0, 8),
            (15, 7, 0),
        ];
        let firsts = [0, 0, 4, 4, 4, 4, 4, 4, 4, 4, 4, 4, 4, 4, 4, 4];
        let counts = [0, 4, 0, 0, 0, 0, 0, 0, 0, 0, 0, 0, 0, 0, 0, 2];
        let expected = Index {
            firsts,
            counts,
            places: row(&[1, 3, 0, 2, 5, 4]),
        };
        assert_eq!(index(&edges), expected);
    }

    #[test]
    fn an_edit_moves_the_places_behind_it() {
        let mut policy = Policy {
            objects: 9,
            edges: BTreeSet::from([(0, 2, 5), (0, 4, 1), (3, 1, 1)]),
            ..Policy::blank()
        };
        assert_eq!(policy.index().places, row(&[1, 0, 2]));
        assert_eq!(policy.add_edge(0, 3, 0), 0);
        assert_eq!(policy.index().places, row(&[1, 2, 0, 3]));
        assert_eq!(policy.index().firsts[1..5], [3, 3, 3, 4]);
        assert_eq!(policy.remove_edge(0, 2, 5), 0);
        assert_eq!(policy.index().places, row(&[0, 1, 2]));
        assert_eq!(policy.index().counts, row(&[2, 0, 0, 1]));
    }
}
