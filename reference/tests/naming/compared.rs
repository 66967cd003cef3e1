//! Random policies: the reference's values beside those of other ways to evaluate.

use crate::graph::Graph;
use crate::mistakes::{Reading, MISTAKES};
use crate::policy::{policy, Lines};
use crate::random::Random;
use crate::sizes::Sizes;
use crate::substitution;
use crate::support::{bundle, weights};
use crate::tables::Tables;
use reference::Policy;

/// So many random policies are tried.
const POLICIES: usize = 600;

/// So many pairs of object and requestor on each.
const PAIRS: usize = 3;

/// So often true and false must each come up.
const LEAST: usize = 500;

/// So many values each mistake must change.
const LEAST_MISTAKEN: usize = 50;

/// A graph with formulas, and the record in which principal p has formula p.
struct Drawn {
    lines: Lines,
    record: Policy,
}

impl Drawn {
    /// A random graph of few objects, with formulas on so many slots.
    fn of(random: &mut Random, slots: usize) -> Drawn {
        let sizes = Sizes {
            objects: random.between(1, 5),
            labels: random.between(1, 2),
            edges: random.between(0, 20),
            formulas: random.between(8, 19),
            slots,
            ..Sizes::small(random)
        };
        let mut lines = policy(random, &sizes);
        lines.retain(|line| line[0] <= 4);
        Drawn::with(lines)
    }

    /// The record of these lines up to the formulas: every guard is met, so that a ticket for one
    /// principal is accepted exactly when its formula is true.
    fn with(lines: Lines) -> Drawn {
        let formulas = lines.iter().filter(|line| line[0] == 4).count() as u8;
        let mut all = lines.clone();
        all.push(weights(&[5], 0));
        all.extend((0..formulas).map(|number| vec![7, number, 0]));
        all.push(weights(&[10, 1], 0));
        let record = Policy::load(&bundle(&all)).expect("it loads");
        Drawn { lines, record }
    }

    /// Some object and some user.
    fn graph(&self, random: &mut Random) -> Graph {
        let users = self.lines.iter().filter(|line| line[0] == 2);
        let users: Vec<u8> = users.map(|line| line[1]).collect();
        let object = random.below(self.lines[0][2].into()) as u8;
        Graph::of(&self.lines, object, random.pick(&users))
    }

    /// The reference's value of a formula at the object.
    fn value(&self, graph: &Graph, number: u8) -> bool {
        match self.record.check_ticket(0, graph.o, graph.s, 1 << number) {
            0 => true,
            20 => false,
            other => panic!("a ticket was answered {other}"),
        }
    }
}

/// Random policies in turn, with some pairs on each.
fn each_graph(slots: &[usize], mut look: impl FnMut(&Drawn, &Graph)) {
    for place in 0..POLICIES {
        let mut random = Random::of_case(0x2026_0003, place);
        let slots = random.pick(slots);
        let drawn = Drawn::of(&mut random, slots);
        for _ in 0..PAIRS {
            let graph = drawn.graph(&mut random);
            look(&drawn, &graph);
        }
    }
}

/// Neither was seen too seldom.
fn assert_seen(times: [usize; 2]) {
    assert!(times.iter().all(|&seen| seen >= LEAST), "{times:?}");
}

#[test]
fn values_are_those_of_whole_tables() {
    let mut seen = [0; 2];
    each_graph(&[1, 2, 3, 4], |drawn, graph| {
        let tables = Tables::of(graph);
        for number in graph.numbers() {
            let value = drawn.value(graph, number);
            assert_eq!(value, tables.is_true(number, graph.o));
            let names = graph.has(number, &[9]) && graph.has(number, &[10, 11]);
            seen[usize::from(value)] += usize::from(names);
        }
    });
    assert_seen(seen);
}

#[test]
fn values_are_those_of_vertices_in_the_place_of_slots() {
    each_graph(&[1, 2, 3, 4], |drawn, graph| {
        for number in graph.numbers() {
            let value = drawn.value(graph, number);
            assert_eq!(value, substitution::is_true(graph, number, graph.o));
        }
    });
}

#[test]
fn formulas_of_ops_0_to_8_have_the_values_of_document_01() {
    let mut seen = [0; 2];
    each_graph(&[0, 1, 2], |drawn, graph| {
        let old = |number: &u8| !graph.has(*number, &[9, 10, 11]);
        for number in graph.numbers().filter(old) {
            let value = drawn.value(graph, number);
            assert_eq!(value, graph.is_true_in_document_01(number, graph.o));
            seen[usize::from(value)] += 1;
        }
    });
    assert_seen(seen);
}

#[test]
fn a_formula_without_op_10_or_11_does_not_depend_on_the_slots() {
    let mut seen = [0; 2];
    each_graph(&[1, 2, 3, 4], |_, graph| {
        let tables = Tables::of(graph);
        for number in graph.numbers() {
            let free = !graph.has(number, &[10, 11]);
            let ignores = tables.ignores_slots(number);
            assert!(ignores || !free);
            seen[usize::from(ignores)] += 1;
        }
    });
    assert_seen(seen);
}

#[test]
fn op_9_around_a_formula_without_op_10_or_11_changes_nothing() {
    let mut seen = [0; 2];
    each_graph(&[2], |drawn, graph| {
        let free = |number: &u8| !graph.has(*number, &[10, 11]);
        for number in graph.numbers().filter(free) {
            let mut lines = drawn.lines.clone();
            lines.push(vec![4, 9, number % 4, number]);
            let is_in_range = Policy::load(&bundle(&lines)).is_ok();
            if is_in_range {
                let value = drawn.value(graph, number);
                let last = graph.numbers().end;
                assert_eq!(Drawn::with(lines).value(graph, last), value);
                seen[usize::from(value)] += 1;
            }
        }
    });
    assert_seen(seen);
}

#[test]
fn mistaken_readings_have_other_values() {
    let mut shown = MISTAKES.map(|mistake| (mistake, 0));
    each_graph(&[1, 1, 2, 3, 4], |drawn, graph| {
        for number in graph.numbers() {
            let value = drawn.value(graph, number);
            let read = |mistake| Reading { graph, mistake }.is_true(number, graph.o);
            assert_eq!(value, read(None));
            for (mistake, times) in &mut shown {
                *times += usize::from(read(Some(*mistake)) != value);
            }
        }
    });
    let seldom = |&(_, times): &(_, usize)| times < LEAST_MISTAKEN;
    assert!(!shown.iter().any(seldom), "{shown:?}");
}
