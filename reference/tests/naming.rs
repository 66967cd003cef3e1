//! Formulas that name a vertex, request 2026-03: sentence by sentence on small policies, its own
//! example, and random policies beside other ways to evaluate.

#[path = "naming/base.rs"]
mod base;
#[path = "naming/compared.rs"]
mod compared;
#[allow(dead_code)]
#[path = "differential/formulas.rs"]
mod formulas;
#[path = "naming/graph.rs"]
mod graph;
#[path = "naming/mistakes.rs"]
mod mistakes;
#[allow(dead_code)]
#[path = "differential/policy.rs"]
mod policy;
#[allow(dead_code)]
#[path = "differential/random.rs"]
mod random;
#[allow(dead_code)]
#[path = "differential/sizes.rs"]
mod sizes;
#[path = "naming/substitution.rs"]
mod substitution;
mod support;
#[path = "naming/tables.rs"]
mod tables;

use reference::{Answer, Policy};
use support::{bundle, implant_formulas, implant_lines, refused, weights, HIGHEST};

const TRUE: [u8; 3] = [0, 0, 0];
const IS_REQUESTOR: [u8; 3] = [1, 0, 0];
const IS_OBJECT: [u8; 3] = [2, 0, 0];

/// A step along an edge of the ring, and one against it.
const ON: (u8, u8) = (7, 4);
const BACK: (u8, u8) = (8, 4);

/// Loads lines that must pass.
fn loaded(lines: &[Vec<u8>]) -> Policy {
    Policy::load(&bundle(lines)).expect("it loads")
}

/// Object 0 is asked about by requestor 1. Label 4 makes a ring of 0, 1 and 2; label 5 leads from 0
/// to 1 and to 2.
fn ring(formulas: &[[u8; 3]]) -> Vec<Vec<u8>> {
    let mut lines = vec![vec![1, 1, 3], vec![2, 1, 0, 0]];
    let edges = [[4, 0, 1], [4, 1, 2], [4, 2, 0], [5, 0, 1], [5, 0, 2]];
    lines.extend(edges.map(|edge| [&[3], &edge[..]].concat()));
    lines.extend(formulas.iter().map(|formula| [&[4], &formula[..]].concat()));
    lines
}

/// Whether the last of the formulas is true on the ring. All calls say the same.
fn holds(formulas: &[[u8; 3]]) -> bool {
    let mut lines = ring(formulas);
    lines.push(weights(&[5], 1));
    lines.push(vec![7, formulas.len() as u8 - 1, 0]);
    lines.push(weights(&[10, 0], 1));
    let record = loaded(&lines);
    let strict = record.strict(0, 0, 1) == Ok(true);
    let (number, set) = if strict { (0, 1) } else { (17, 0) };
    assert_eq!(record.clone().ask_eager(0, 0, 1), answer(number, set, 1));
    assert_eq!(record.clone().ask_lazy(0, 0, 1), answer(number, set, 1));
    assert_eq!(record.liberal(0, 0, 1), Ok(strict));
    let ticket = if strict { 0 } else { 20 };
    assert_eq!(record.check_ticket(0, 0, 1, 1), ticket);
    strict
}

/// An answer written shortly.
fn answer(number: u8, set: u32, evaluations: u8) -> Answer {
    Answer {
        number,
        set,
        evaluations,
    }
}

/// Formulas of which each has the one before as its b: the ops and their a from the outermost on,
/// then the innermost formula.
fn way(outer: &[(u8, u8)], innermost: [u8; 3]) -> Vec<[u8; 3]> {
    let mut formulas = vec![innermost];
    for &(op, a) in outer.iter().rev() {
        formulas.push([op, a, formulas.len() as u8 - 1]);
    }
    formulas
}

#[test]
fn op_9_keeps_here_and_op_10_is_true_when_the_slot_holds_here() {
    for (slot, step) in [(0, ON), (1, BACK), (2, BACK), (3, ON)] {
        for steps in 0..usize::from(HIGHEST) {
            let outer = [vec![(9, slot)], vec![step; steps]].concat();
            assert_eq!(holds(&way(&outer, [10, slot, 0])), steps % 3 == 0);
        }
        let there_and_back_twice = [(9, slot), ON, BACK, ON, BACK];
        for outer in [&there_and_back_twice[..3], &there_and_back_twice] {
            assert!(holds(&way(outer, [10, slot, 0])));
        }
    }
}

#[test]
fn here_is_kept_and_not_the_object() {
    assert!(holds(&way(&[ON, (9, 0), ON, ON, ON], [10, 0, 0])));
    assert!(!holds(&way(&[ON, (9, 0), ON, ON], [10, 0, 0])));
    assert!(holds(&way(&[(7, 5), (9, 0), (8, 5), (7, 5)], [10, 0, 0])));
}

#[test]
fn op_11_evaluates_b_at_the_vertex_in_the_slot() {
    assert!(!holds(&way(&[(9, 0), ON, ON], IS_OBJECT)));
    assert!(holds(&way(&[(9, 0), ON, ON, (11, 0)], IS_OBJECT)));
    assert!(!holds(&way(&[ON, (9, 2), ON], IS_REQUESTOR)));
    assert!(holds(&way(&[ON, (9, 2), ON, (11, 2)], IS_REQUESTOR)));
    assert!(holds(&way(&[(9, 3), ON, ON, (11, 3), ON], IS_REQUESTOR)));
    assert!(!holds(&way(&[(9, 3), ON, ON, (11, 3), BACK], IS_REQUESTOR)));
}

#[test]
fn the_slots_stay_while_op_11_evaluates_b() {
    assert!(holds(&way(&[(9, 0), ON, (11, 0)], [10, 0, 0])));
    assert!(!holds(&way(&[(9, 0), ON, (11, 0), ON], [10, 0, 0])));
    let at_outer = [(9, 0), ON, (9, 1), (11, 0)];
    let with = |last| [&at_outer[..], &[last]].concat();
    assert!(holds(&way(&with(ON), [10, 1, 0])));
    assert!(!holds(&way(&with(BACK), [10, 1, 0])));
    assert!(!holds(&way(&at_outer, IS_REQUESTOR)));
    assert!(holds(&way(&with((11, 1)), IS_REQUESTOR)));
}

#[test]
fn an_unset_slot_makes_10_and_11_false() {
    for slot in 0..4 {
        assert!(!holds(&[[10, slot, 0]]));
        assert!(holds(&[[10, slot, 0], [4, 0, 0]]));
        assert!(!holds(&[TRUE, [11, slot, 0]]));
        assert!(holds(&[TRUE, [11, slot, 0], [4, 1, 0]]));
        assert!(!holds(&[[10, slot, 0], [4, 0, 0], [11, slot, 1]]));
        assert!(!holds(&way(&[ON], [10, slot, 0])));
        assert!(!holds(&way(&[ON, (11, slot)], TRUE)));
        for other in (0..4).filter(|&other| other != slot) {
            assert!(!holds(&way(&[(9, other)], [10, slot, 0])));
            assert!(!holds(&way(&[(9, other), (11, slot)], TRUE)));
        }
    }
}

#[test]
fn a_slot_is_set_only_while_its_op_9_evaluates_b() {
    let formulas = [TRUE, [9, 0, 0], [10, 0, 0], [11, 0, 0], [4, 1, 0]];
    let with = |last: [u8; 3]| holds(&[&formulas[..], &[last]].concat());
    for beside in [2, 3] {
        assert!(!with([5, 1, beside]));
        assert!(!with([5, beside, 1]));
        assert!(!with([6, 4, beside]));
        assert!(!with([6, beside, 4]));
    }
    assert!(with([6, 1, 2]));
    assert!(with([6, 2, 1]));
}

#[test]
fn a_slot_set_behind_one_edge_is_unset_behind_the_next() {
    let mut formulas = vec![IS_REQUESTOR, [11, 0, 0], TRUE, [4, 2, 0], [9, 0, 3]];
    for either in [[6, 1, 4], [6, 4, 1]] {
        formulas.truncate(5);
        formulas.extend([either, [7, 5, 5]]);
        assert!(!holds(&formulas));
    }
}

#[test]
fn an_inner_op_9_on_the_same_slot_hides_the_outer() {
    let inner_on = |slot: u8| [(9, 0), ON, (9, slot), ON, ON];
    assert!(!holds(&way(&inner_on(0), [10, 0, 0])));
    assert!(holds(&way(&inner_on(1), [10, 0, 0])));
    assert!(holds(&way(&[(9, 0), ON, (9, 0)], [10, 0, 0])));
    assert!(holds(&way(
        &[(9, 0), ON, (9, 0), ON, (11, 0)],
        IS_REQUESTOR
    )));
    assert!(!holds(&way(&[(9, 0), ON, (9, 0), ON, (11, 0)], IS_OBJECT)));
    assert!(holds(&way(&[(9, 0), ON, (9, 1), ON, (11, 0)], IS_OBJECT)));
    let third_on = |slot: u8| [(9, 2), ON, (9, 2), ON, (9, slot)];
    assert!(holds(&way(&third_on(2), [10, 2, 0])));
    assert!(!holds(&way(&third_on(1), [10, 2, 0])));
    let thrice = [(9, 2), (9, 2), ON, (9, 2), (11, 2)];
    assert!(!holds(&way(&thrice, IS_OBJECT)));
    assert!(holds(&way(&thrice, IS_REQUESTOR)));
}

#[test]
fn when_the_inner_op_9_ends_the_outer_is_back() {
    let inner = [TRUE, [9, 0, 0], [4, 1, 0]];
    let back = [IS_OBJECT, [11, 0, 3]];
    for both in [[5, 1, 4], [5, 4, 1], [6, 2, 4], [6, 4, 2]] {
        let outer = [both, [7, 4, 5], [9, 0, 6]];
        assert!(holds(&[&inner[..], &back, &outer].concat()));
        let other_slot = [both, [7, 4, 5], [9, 1, 6]];
        assert!(!holds(&[&inner[..], &back, &other_slot].concat()));
    }
}

#[test]
fn the_slots_are_independent() {
    let pairs = (0..4).flat_map(|x| (0..4).map(move |y| (x, y)));
    for (x, y) in pairs.filter(|(x, y)| x != y) {
        let two_kept = [(9, x), ON, (9, y), ON];
        for slot in 0..4 {
            let around = [&two_kept[..], &[ON]].concat();
            assert_eq!(holds(&way(&around, [10, slot, 0])), slot == x);
            let jump = [&two_kept[..], &[(11, slot)]].concat();
            assert_eq!(holds(&way(&jump, IS_OBJECT)), slot == x);
            assert_eq!(holds(&way(&jump, IS_REQUESTOR)), slot == y);
            assert_eq!(holds(&way(&jump, TRUE)), slot == x || slot == y);
        }
    }
}

/// A record on the ring with a principal for each of the formulas, the first with privilege 0, the
/// second with privilege 1; methods ask for one of 0, of 1, and of both.
fn two_principals(formulas: &[[u8; 3]], first: u8, second: u8) -> Policy {
    let mut lines = ring(formulas);
    lines.extend([1, 2].map(|privileges| weights(&[5], privileges)));
    lines.extend([vec![7, first, 0], vec![7, second, 1]]);
    lines.extend([1, 2, 3].map(|all| weights(&[10, 0], all)));
    loaded(&lines)
}

#[test]
fn all_slots_are_unset_at_the_start_of_an_evaluation() {
    let mut record = two_principals(&[TRUE, [9, 0, 0], [10, 0, 0]], 1, 2);
    assert_eq!(record.ask_eager(1, 0, 1), answer(17, 0, 2));
    assert_eq!(record.ask_eager(0, 0, 1), answer(0, 0b01, 0));
    assert_eq!(record.check_ticket(2, 0, 1, 0b01), 0);
    assert_eq!(record.check_ticket(2, 0, 1, 0b11), 20);
}

#[test]
fn the_memo_has_a_formulas_value_with_the_slots_unset() {
    let formulas = [[10, 0, 0], [9, 0, 0]];
    for (first, second, enabled) in [(0, 1, 0b10), (1, 0, 0b01)] {
        let record = two_principals(&formulas, first, second);
        let mut eager = record.clone();
        assert_eq!(eager.ask_eager(2, 0, 1), answer(0, enabled, 2));
        assert_eq!(eager.ask_lazy(2, 0, 1), answer(0, enabled, 0));
        for method in [0, 1] {
            let granted = enabled == 1 << method;
            let expected = if granted { (0, enabled) } else { (17, 0) };
            let asked = eager.ask_lazy(method, 0, 1);
            assert_eq!((asked.number, asked.set), expected);
            assert_eq!(asked.evaluations, 0);
        }
        let evaluations = if enabled == 0b10 { 2 } else { 1 };
        let mut lazy = record;
        assert_eq!(lazy.ask_lazy(2, 0, 1), answer(0, enabled, evaluations));
    }
}

const CROWN: u8 = 0;
const SCAN: u8 = 1;
const ANA: u8 = 2;
const BEN: u8 = 3;

/// Who did one thing and who another, such as prescribing crown and scan, in every way, and whether
/// somebody did both.
fn doers() -> Vec<(&'static [u8], &'static [u8], bool)> {
    let people: [&[u8]; 4] = [&[], &[ANA], &[BEN], &[ANA, BEN]];
    let both = |one: &[u8], other: &[u8]| one.iter().any(|person| other.contains(person));
    let with = |one| people.map(|other| (one, other, both(one, other)));
    people.map(with).concat()
}

/// The request's example with these prescribers of crown and scan.
fn implant(crown: &[u8], scan: &[u8]) -> Vec<Vec<u8>> {
    let by = |work: u8| move |&person: &u8| vec![3, 0, work, person];
    let crown = crown.iter().map(by(CROWN));
    let mut lines = implant_lines();
    put_edges(&mut lines, 0, crown.chain(scan.iter().map(by(SCAN))));
    lines
}

/// The example with these prescribers and designers of the crown.
fn designed(prescribers: &[u8], designers: &[u8]) -> Vec<Vec<u8>> {
    let mut lines = implant(prescribers, &[]);
    let by = designers.iter().map(|&person| vec![3, 2, CROWN, person]);
    put_edges(&mut lines, 2, by);
    lines
}

/// Puts the edges of a label, rising, in the place of those that are there.
fn put_edges(lines: &mut Vec<Vec<u8>>, label: u8, edges: impl Iterator<Item = Vec<u8>>) {
    lines.retain(|line| line[..2] != [3, label]);
    let place = lines.partition_point(|line| line[..2] < [3, label][..]);
    lines.splice(place..place, edges);
}

/// All calls grant a set of principals for a method on the crown, or no one is enabled.
fn assert_decided(record: &Policy, method: u8, set: u32, granted: bool) {
    for requestor in [ANA, BEN] {
        let expected = if granted { (0, set) } else { (17, 0) };
        let eager = record.clone().ask_eager(method, CROWN, requestor);
        let lazy = record.clone().ask_lazy(method, CROWN, requestor);
        assert_eq!((eager.number, eager.set), expected);
        assert_eq!((lazy.number, lazy.set), expected);
        assert_eq!(record.liberal(method, CROWN, requestor), Ok(granted));
        let alone = granted && set.count_ones() == 1;
        assert_eq!(record.strict(method, CROWN, requestor), Ok(alone));
        let ticket = record.check_ticket(method, CROWN, requestor, set);
        assert_eq!(ticket, if granted { 0 } else { 20 });
    }
}

#[test]
fn the_prescriber_of_this_crown_also_prescribed_the_implant_scan() {
    for (crown, scan, both) in doers() {
        let record = loaded(&implant(crown, scan));
        assert_decided(&record, 0, 0b01, both);
        assert_decided(&record, 1, 0b10, both);
        assert_decided(&record, 2, 0b11, both);
    }
}

#[test]
fn the_prescriber_of_this_crown_also_designed_it() {
    for (prescribers, designers, both) in doers() {
        let record = loaded(&designed(prescribers, designers));
        assert_decided(&record, 3, 0b100, both);
    }
}

/// The crown being the object, ops 0 to 8 can say it too: some prescriber of it prescribed what
/// belongs to the object. Here this is the first principal's formula.
#[test]
fn the_example_agrees_with_ops_0_to_8() {
    let count = implant_formulas().len() as u8;
    let formulas = [
        [4, 2, 0, 0],
        [4, 8, 1, count],
        [4, 8, 0, count + 1],
        [4, 7, 0, count + 2],
    ];
    for (crown, scan, both) in doers() {
        let mut lines = implant(crown, scan);
        let place = lines.partition_point(|line| line[0] <= 4);
        lines.splice(place..place, formulas.map(Vec::from));
        let principal = lines.partition_point(|line| line[0] < 7);
        lines[principal][1] = count + 3;
        let record = loaded(&lines);
        assert_decided(&record, 0, 0b01, both);
        assert_decided(&record, 2, 0b11, both);
    }
}

#[test]
fn an_edit_changes_the_examples_answer() {
    let mut record = loaded(&implant_lines());
    assert_decided(&record, 2, 0b11, true);
    assert_eq!(record.remove_edge(0, SCAN, ANA), 0);
    assert_decided(&record, 2, 0b11, false);
    assert_eq!(record.add_edge(0, SCAN, BEN), 0);
    assert_decided(&record, 2, 0b11, false);
    assert_eq!(record.add_edge(0, CROWN, BEN), 0);
    assert_decided(&record, 2, 0b11, true);
    assert_eq!(record.remove_edge(1, CROWN, SCAN), 0);
    assert_decided(&record, 2, 0b11, false);
    assert_eq!(record.add_edge(1, SCAN, SCAN), 0);
    assert_decided(&record, 2, 0b11, false);
    assert_decided(&record, 3, 0b100, true);
    assert_eq!(record.remove_edge(0, CROWN, ANA), 0);
    assert_decided(&record, 3, 0b100, false);
    assert_eq!(record.add_edge(2, CROWN, BEN), 0);
    assert_decided(&record, 3, 0b100, true);
}

#[test]
fn the_example_is_loaded_and_written_and_one_altered_byte_is_refused() {
    let text = bundle(&implant_lines());
    assert_eq!(loaded(&implant_lines()).write(), text);
    for place in 0..text.len() {
        for byte in 0..=255 {
            let mut altered = text.clone();
            altered[place] = byte;
            assert_eq!(refused(&altered) == (0, 0), byte == text[place]);
        }
    }
}
