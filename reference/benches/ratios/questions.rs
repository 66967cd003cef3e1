//! Questions on the crown and on a full policy.

use crate::bundles::{self, of_kind};
use crate::engine;
use crate::policy::Lines;
use crate::random::Random;
use crate::support::{self, call, Call};
use crate::workload::{Workload, EAGER, LAZY, MOST_CALLS, QUESTIONS};

/// The crown's users.
pub const ANA: u8 = 1;
pub const BEN: u8 = 2;

/// So many different questions on the full policy keep the reference busy for long enough.
const SLOW: usize = 100;

/// The crown's questions, with the memo's help and without it.
pub fn crown() -> Vec<Workload> {
    let mut workloads = Vec::new();
    for (kind, name) in QUESTIONS {
        if matches!(kind, LAZY | EAGER) {
            workloads.push(crown_repeated(name, kind));
        }
        workloads.push(crown_alternating(name, kind));
    }
    workloads
}

/// The crown's lazy questions alone, under names that begin otherwise.
pub fn crown_lazy(beginning: &str) -> [Workload; 2] {
    let name = format!("{beginning}lazy");
    [crown_repeated(&name, LAZY), crown_alternating(&name, LAZY)]
}

/// The crown's questions where the memo helps.
fn crown_repeated(name: &str, kind: u8) -> Workload {
    let name = format!("{name}, pair repeated");
    Workload::calls(&name, &support::crown_lines(), repeated(kind))
}

/// The crown's questions where it does not.
fn crown_alternating(name: &str, kind: u8) -> Workload {
    let name = format!("{name}, pairs alternating");
    Workload::calls(&name, &support::crown_lines(), alternating(kind))
}

/// Half the calls by Ana, then half by Ben, methods in turn.
fn repeated(kind: u8) -> Vec<Call> {
    let by = |requestor: u8| {
        let calls = [0, 1, 2, 3].map(|method| call([kind, method, 0, requestor], 0));
        calls.repeat(MOST_CALLS / 8)
    };
    [by(ANA), by(BEN)].concat()
}

/// Each method by Ana, then by Ben, so that every call empties the memo.
fn alternating(kind: u8) -> Vec<Call> {
    let both = |method: u8| [ANA, BEN].map(|requestor| call([kind, method, 0, requestor], 0));
    (0..4).flat_map(both).collect()
}

/// Random questions of each kind on the full policy.
pub fn full() -> Vec<Workload> {
    let lines = bundles::full();
    QUESTIONS.map(|kind| full_kind(&lines, kind)).into()
}

/// The lazy questions on the full policy alone, under a name that begins otherwise.
pub fn full_lazy(beginning: &str) -> Workload {
    full_kind(&bundles::full(), (LAZY, &format!("{beginning}lazy")))
}

/// Random questions of one kind: few where the reference weighs every set.
fn full_kind(lines: &Lines, (kind, name): (u8, &str)) -> Workload {
    let slow = matches!(kind, LAZY | EAGER);
    let count = if slow { SLOW } else { 1_000 };
    let mut random = bundles::random(3);
    let cycle: Vec<Call> = (0..count).map(|_| any(&mut random, lines, kind)).collect();
    if !slow {
        return Workload::calls(name, lines, cycle);
    }
    let name = format!("{name} ({} of {SLOW} granted)", accepted(lines, &cycle));
    Workload::slow(&name, lines, cycle, 10, 1)
}

/// A question of a kind with any method, object and user.
pub fn any(random: &mut Random, lines: &Lines, kind: u8) -> Call {
    let users = of_kind(lines, 2);
    let method = random.below(of_kind(lines, 10).len()) as u8;
    let object = random.below(lines[0][2].into()) as u8;
    let requestor = users[random.below(users.len())][0];
    call([kind, method, object, requestor], 0)
}

/// How many of the calls are answered with number 0.
pub fn accepted(lines: &Lines, cycle: &[Call]) -> usize {
    let answers = answers(lines, cycle);
    answers.iter().filter(|answer| answer[0] == 0).count()
}

/// What the engine answers to the calls.
pub fn answers(lines: &Lines, cycle: &[Call]) -> Vec<[u8; 5]> {
    let mut answers = vec![[0; 5]; cycle.len()];
    let bundle = support::bundle(lines);
    engine::replay(&bundle, &cycle.concat(), answers.as_flattened_mut());
    answers
}
