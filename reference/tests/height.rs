//! The limit of height in records handed in (request 2026-05): "Height 6 is out of range, in a bundle
//! and in a record handed in."
//!
//! The formulas in the octets of a lent record, fresh or edited, are altered so that one of them is
//! at the limit or one above it, by each op that has a part. What the reference says of a bundle with
//! these formulas decides. Where it loads, the altered record is the one that the bundle gives, and
//! all calls are answered as by the reference. Where it is refused, every call is refused with 19 and
//! leaves every octet.

#[cfg(not(engine))]
compile_error!("../target/staticlib/libcapi.a is missing: `tools/build library` makes it");

#[path = "differential/calls.rs"]
mod calls;
#[allow(dead_code)]
#[path = "differential/engine.rs"]
mod engine;
#[allow(dead_code)]
#[path = "index/fields.rs"]
mod fields;
#[path = "differential/formulas.rs"]
mod formulas;
#[allow(dead_code)]
#[path = "index/pair.rs"]
mod pair;
#[path = "differential/policy.rs"]
mod policy;
#[allow(dead_code)]
#[path = "differential/random.rs"]
mod random;
#[allow(dead_code)]
#[path = "differential/sizes.rs"]
mod sizes;
mod support;
#[path = "differential/tickets.rs"]
mod tickets;
#[path = "height/tower.rs"]
mod tower;

use calls::{Subject, TICKET};
use engine::Record;
use fields::put_formulas;
use pair::Pair;
use policy::Lines;
use random::Random;
use support::high_part::HIGH_PARTS;
use support::{bundle, call, refused, weights, Call, HIGHEST};
use tower::{lines_with, Tower, RISES};

/// So many policies are tried, each with a tower that is one below the limit and one that is at it.
const POLICIES: usize = 100;

/// The edit that makes a record an edited one: the edge (0, 0, 0) goes out, or in if it is not there.
fn edit(tower: &Tower) -> Call {
    let is_there = tower.lines.contains(&vec![3, 0, 0, 0]);
    call([u8::from(is_there), 0, 0, 0], 0)
}

/// One call of each kind, then a list of edits, questions and tickets.
fn calls(tower: &Tower, random: &mut Random) -> Vec<Call> {
    let user = tower.lines.iter().find(|line| line[0] == 2);
    let user = user.map_or(0, |line| line[1]);
    let mut calls: Vec<Call> = (0..=TICKET)
        .map(|kind| call([kind, 0, 0, user], 1))
        .collect();
    calls.extend(Subject::of(&tower.lines).calls(random, 8));
    calls.retain(|call| call[0] <= TICKET);
    calls
}

/// Formulas to be put into a record, and the height of the highest.
struct Altered {
    name: String,
    formulas: Vec<[u8; 3]>,
    height: u8,
}

/// Puts formulas into the record of some lines. Up to the limit it is then the record of a bundle,
/// and all calls are answered; above it, the bundle is refused with 6 and the record with 19.
fn check(pair: &mut Pair, lines: &Lines, altered: &Altered, calls: &[Call]) {
    let text = bundle(&lines_with(lines, &altered.formulas));
    let alter = |record: &mut Record| put_formulas(record, &altered.formulas);
    if altered.height > HIGHEST {
        assert_eq!(refused(&text).0, 6, "{}", altered.name);
        pair.check_refused(&altered.name, alter, calls);
    } else {
        let mut pair = pair.altered(&text, alter);
        pair.check_written();
        pair.answer(calls);
        pair.check_written();
    }
}

/// Each way to make the tower of so many stories one higher in a record.
fn raise(tower: &Tower, stories: u8, pair: &mut Pair, calls: &[Call]) {
    let rises = RISES.iter();
    for ((name, rise), part) in rises.flat_map(|rise| HIGH_PARTS.map(|part| (rise, part))) {
        let altered = Altered {
            name: format!("{name}, {}", part.name),
            formulas: rise(tower, part),
            height: stories + 1,
        };
        check(pair, &tower.lines, &altered, calls);
    }
}

#[test]
fn one_formula_above_the_limit_makes_19_and_one_at_the_limit_does_not() {
    for number in 0..POLICIES {
        let mut random = Random::of_case(0x2026_0005, number);
        for stories in [HIGHEST - 1, HIGHEST] {
            let tower = Tower::of(&mut random, stories);
            let calls = calls(&tower, &mut random);
            let name = format!("policy {number} with {stories} stories");
            let mut pair = Pair::loaded(name, &bundle(&tower.lines));
            raise(&tower, stories, &mut pair, &calls);
            assert_eq!(pair.answer(&[edit(&tower)]), [[0; 5]]);
            raise(&tower, stories, &mut pair, &calls);
            pair.answer(&calls);
        }
    }
}

/// All 64 formulas are leaves, and the one principal has the last; then the last ones are a tower of
/// each height in turn, up to the highest that 64 formulas can make.
#[test]
fn every_height_above_the_limit_makes_19() {
    let mut lines = vec![vec![1, 1, 1], vec![2, 0, 0, 0], vec![3, 0, 0, 0]];
    lines.extend(vec![vec![4, 0, 0, 0]; 64]);
    lines.extend([weights(&[5], 1), vec![7, 63, 0], weights(&[10, 1], 1)]);
    let mut pair = Pair::loaded("64 leaves".to_string(), &bundle(&lines));
    let calls: Vec<Call> = (0..=TICKET).map(|kind| call([kind, 0, 0, 0], 1)).collect();
    for part in HIGH_PARTS {
        for height in 1..64 {
            let leaves = (0..64 - height).map(|_| [0, 0, 0]);
            let stories = (64 - height..64).map(|number| part.over(number - 1, 0));
            let altered = Altered {
                name: format!("height {height}, {}", part.name),
                formulas: leaves.chain(stories).collect(),
                height,
            };
            check(&mut pair, &lines, &altered, &calls);
        }
    }
}
