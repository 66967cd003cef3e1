//! Formulas by putting vertices in the place of slots: there are no slots while they are evaluated.

use crate::graph::Graph;

/// A formula written out, with the formulas that it uses inside it.
#[derive(Clone)]
enum Tree {
    /// Of op 0 to 3.
    Leaf(u8, u8),
    Not(Box<Tree>),
    And(Box<Tree>, Box<Tree>),
    Or(Box<Tree>, Box<Tree>),
    /// Op 7 or 8 with its label.
    Step(u8, u8, Box<Tree>),
    /// Ops 9, 10 and 11 on a slot.
    Keep(u8, Box<Tree>),
    IsSlot(u8),
    AtSlot(u8, Box<Tree>),
    /// Here is a certain vertex.
    IsVertex(u8),
    /// True at a certain vertex.
    AtVertex(u8, Box<Tree>),
}

use Tree::*;

/// The truth of a formula at a vertex.
pub fn is_true(graph: &Graph, number: u8, here: u8) -> bool {
    written_out(graph, number).is_true(graph, here)
}

/// The formula of a number with all that it uses.
fn written_out(graph: &Graph, number: u8) -> Tree {
    let [op, a, b] = graph.formula(number);
    let inner = |number: u8| Box::new(written_out(graph, number));
    match op {
        0..=3 => Leaf(op, a),
        4 => Not(inner(a)),
        5 => And(inner(a), inner(b)),
        6 => Or(inner(a), inner(b)),
        7 | 8 => Step(op, a, inner(b)),
        9 => Keep(a, inner(b)),
        10 => IsSlot(a),
        _ => AtSlot(a, inner(b)),
    }
}

impl Tree {
    /// Op 9 puts here into its formula before that is evaluated. A slot that is then still there is
    /// in no op 9 of its own: "An unset slot makes 10 and 11 false."
    fn is_true(&self, graph: &Graph, here: u8) -> bool {
        match self {
            Leaf(0, _) => true,
            Leaf(1, _) => here == graph.s,
            Leaf(2, _) => here == graph.o,
            Leaf(_, role) => graph.s_holds(*role),
            Not(inner) => !inner.is_true(graph, here),
            And(one, other) => one.is_true(graph, here) && other.is_true(graph, here),
            Or(one, other) => one.is_true(graph, here) || other.is_true(graph, here),
            Step(7, label, inner) => graph.ahead(*label, here).any(|v| inner.is_true(graph, v)),
            Step(_, label, inner) => graph.behind(*label, here).any(|v| inner.is_true(graph, v)),
            Keep(slot, inner) => inner.with(*slot, here).is_true(graph, here),
            IsSlot(_) | AtSlot(_, _) => false,
            IsVertex(vertex) => here == *vertex,
            AtVertex(vertex, inner) => inner.is_true(graph, *vertex),
        }
    }

    /// The same with a vertex in the place of a slot; "an inner op 9 on the same slot hides the
    /// outer", so that nothing changes in there.
    fn with(&self, slot: u8, vertex: u8) -> Tree {
        let inside = |inner: &Tree| Box::new(inner.with(slot, vertex));
        match self {
            IsSlot(own) if *own == slot => IsVertex(vertex),
            AtSlot(own, inner) if *own == slot => AtVertex(vertex, inside(inner)),
            Keep(own, _) if *own == slot => self.clone(),
            Leaf(_, _) | IsSlot(_) | IsVertex(_) => self.clone(),
            Not(inner) => Not(inside(inner)),
            And(one, other) => And(inside(one), inside(other)),
            Or(one, other) => Or(inside(one), inside(other)),
            Step(op, label, inner) => Step(*op, *label, inside(inner)),
            Keep(own, inner) => Keep(*own, inside(inner)),
            AtSlot(own, inner) => AtSlot(*own, inside(inner)),
            AtVertex(own, inner) => AtVertex(*own, inside(inner)),
        }
    }
}
