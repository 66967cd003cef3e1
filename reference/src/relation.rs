//! Binary relations between numbered things, and their closure.

use std::collections::BTreeSet;

/// A set of pairs.
pub type Relation = BTreeSet<(u8, u8)>;

/// The pairs (x, z) for which some (x, y) and (y, z) are in the relation.
fn joined(relation: &Relation) -> Relation {
    let mut result = Relation::new();
    for &(x, y) in relation {
        for &(_, z) in relation.iter().filter(|pair| pair.0 == y) {
            result.insert((x, z));
        }
    }
    result
}

/// "its reflexive and transitive closure": the transitive part, by joining until nothing is new.
pub fn transitive(relation: &Relation) -> Relation {
    let mut closed = relation.clone();
    loop {
        let before = closed.len();
        closed.extend(joined(&closed));
        if closed.len() == before {
            return closed;
        }
    }
}

/// The reflexive part on top of a transitively closed relation: the same thing, or a pair of it.
pub fn same_or_related(closed: &Relation, x: u8, y: u8) -> bool {
    x == y || closed.contains(&(x, y))
}

/// "neither may hold a circle": something leads back to itself.
pub fn has_circle(relation: &Relation) -> bool {
    transitive(relation).iter().any(|&(x, y)| x == y)
}
