//! The order of sets (request 2026-06) at both implementations, on policies made for it.
//!
//! All sets of up to six principals are granted one by one, by the engine and by the reference, and
//! must come in the same order, which is also that of a plain sort. Then small policies in which some
//! principals are not enabled, edited and asked with the memo at work, and ones of 20 principals:
//! numbers, sets and evaluations must be equal.

#[cfg(not(engine))]
compile_error!("../target/staticlib/libcapi.a is missing: `tools/build library` makes it");

#[allow(dead_code)]
#[path = "differential/engine.rs"]
mod engine;
#[allow(dead_code)]
#[path = "index/fields.rs"]
mod fields;
#[allow(dead_code)]
#[path = "index/pair.rs"]
mod pair;
#[allow(dead_code)]
#[path = "differential/random.rs"]
mod random;
#[path = "order/rules.rs"]
mod rules;
mod support;

use pair::Pair;
use random::Random;
use rules::*;
use std::collections::BTreeSet;
use support::{call, Call};

/// The kinds of call.
const ADD: u8 = 0;
const REMOVE: u8 = 1;
const EAGER: u8 = 2;
const LAZY: u8 = 3;

/// True formulas: two of op 3, of which principals may share one, one that contains op 3, and one
/// without it.
const SORTS: [u8; 4] = [ROLE, OTHER_ROLE, AROUND_ROLE[1], TRUE];

/// A question about the object by the user.
fn question(kind: u8, method: u8) -> Call {
    call([kind, method, OBJECT, USER], 0)
}

/// The set of an answer, if it is granted.
fn granted([number, high, middle, low, _]: [u8; 5]) -> Option<u32> {
    (number == 0).then(|| u32::from_be_bytes([0, high, middle, low]))
}

/// All sets of principals with these formulas, in the order in which both implementations grant them
/// by a kind of question.
fn order(formulas: &[u8], kind: u8) -> Vec<u32> {
    one_by_one(formulas, |text| {
        let mut pair = Pair::loaded(format!("{formulas:?}"), text);
        granted(pair.answer(&[question(kind, 0)])[0])
    })
}

/// All sets, sorted by members, role principals and number.
fn sorted(formulas: &[u8]) -> Vec<u32> {
    let roles = |set: u32| {
        let members = (0..formulas.len()).filter(|p| set >> p & 1 == 1);
        members.filter(|&p| is_role(formulas[p])).count()
    };
    let mut sets: Vec<u32> = (0..1 << formulas.len()).collect();
    sets.sort_by_key(|&set| (set.count_ones(), roles(set), set));
    sets
}

/// Both kinds of question go by the order.
fn check_order(formulas: &[u8]) {
    for kind in [EAGER, LAZY] {
        assert_eq!(order(formulas, kind), sorted(formulas), "{formulas:?}");
    }
}

#[test]
fn all_sets_of_up_to_four_principals_are_granted_in_order() {
    for count in 1..=4 {
        for code in 0..4usize.pow(count) {
            let sort = |place: u32| SORTS[code / 4usize.pow(place) % 4];
            check_order(&(0..count).map(sort).collect::<Vec<u8>>());
        }
    }
}

#[test]
fn all_sets_of_five_and_six_principals_are_granted_in_order() {
    for number in 0..60 {
        let mut random = Random::of_case(0x2026_0006, number);
        let count = random.pick(&[5, 6]);
        let formulas: Vec<u8> = (0..count).map(|_| random.pick(&SORTS)).collect();
        check_order(&formulas);
    }
}

/// Each method by both kinds of question, on the graph as it is and with the object joined to the
/// user; every edit empties the memo. Then all methods in a row, so that the memo is used.
fn calls() -> Vec<Call> {
    let join = |kind: u8| call([kind, 0, OBJECT, USER], 0);
    let both = |method: u8| [LAZY, EAGER].map(|kind| question(kind, method));
    let mut calls = Vec::new();
    for method in 0..METHODS {
        for edit in [join(ADD), join(REMOVE)] {
            calls.extend(both(method));
            calls.push(edit);
        }
    }
    calls.extend((0..METHODS).map(|method| question(LAZY, method)));
    calls
}

#[test]
fn all_policies_of_four_principals_are_answered_alike() {
    let calls = calls();
    for (formulas, text) in all_of_four() {
        Pair::loaded(format!("{formulas:?}"), &text).answer(&calls);
    }
}

/// 20 principals, half of them role principals, of few formulas. Each gives two of eight privileges.
fn twenty(random: &mut Random) -> Vec<u8> {
    let roles = [ROLE, OTHER_ROLE, NO_ROLE];
    let others = [
        TRUE,
        ALSO_TRUE,
        FALSE,
        RELATION,
        AROUND_ROLE[0],
        AROUND_ROLE[5],
    ];
    let principal = |place: usize| {
        let formula = match place % 2 {
            0 => random.pick(&roles),
            _ => random.pick(&others),
        };
        (formula, 1 << random.below(8) | 1 << random.below(8))
    };
    let mut principals: Vec<(u8, u64)> = (0..20).map(principal).collect();
    random.shuffle(&mut principals);
    let mut pair = || [8, random.octet_between(0, 9), random.octet_between(10, 19)];
    let pairs: BTreeSet<[u8; 3]> = (0..20).map(|_| pair()).collect();
    let pairs: Vec<[u8; 3]> = pairs.into_iter().collect();
    text(&principals, &pairs, &[(ALL_OF, 0xFF), (ALL_OF, 0x0F)])
}

#[test]
fn policies_of_20_principals_are_answered_alike() {
    for number in 0..10 {
        let mut random = Random::of_case(0x2026_0020, number);
        let text = twenty(&mut random);
        let mut pair = Pair::loaded(format!("policy {number}"), &text);
        let edit = call([ADD, 0, OBJECT, USER], 0);
        let [wide, narrow] = [0, 1].map(|method| question(LAZY, method));
        let eager = question(EAGER, 0);
        pair.answer(&[wide, edit, narrow, wide, eager]);
    }
}
