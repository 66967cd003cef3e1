//! The worst case for the search: many privileges wanted, few givers of each.

use crate::bundles;
use crate::longest::Longest;
use crate::policy::Lines;
use crate::random::Random;
use crate::support::{call, weights, Call};
use crate::workload::{Workload, EAGER, LAZY};

/// So many instances are drawn, and the slowest ones taken.
const INSTANCES: usize = 100;

/// The number of principals, each with a formula and a demarcation of its own.
const PRINCIPALS: usize = 20;

/// Rows of a title, by the formulas that their principals have.
pub struct Cover {
    pub title: &'static str,
    /// The formula line of a place, true or not.
    formula: fn(usize, bool) -> Vec<u8>,
}

/// Every principal is a role principal.
pub const ALL_ROLES: Cover = Cover {
    title: "sparse cover: 64 privileges wanted, 20 principals, pairs alternating",
    formula: role,
};

/// The same instances, but every other formula is not of op 3 (request 2026-06).
pub const HALF_ROLES: Cover = Cover {
    title: "roles: sparse cover, 20 principals, half of them role principals, pairs alternating",
    formula: role_or_other,
};

/// An instance with the engine's time and the number it answers.
struct Tried {
    micros: f64,
    number: u8,
    workload: Workload,
}

impl Cover {
    /// The slowest instance for the engine, of each kind of question, granted and denied.
    pub fn workloads(&self, longest: &mut Longest) -> Vec<Workload> {
        let mut random = bundles::random(4);
        let instance = |_| instance(&mut random, self.formula);
        let instances: Vec<Lines> = (0..INSTANCES).map(instance).collect();
        let mut workloads = Vec::new();
        for (kind, name) in [(LAZY, "lazy"), (EAGER, "eager")] {
            let tried = instances
                .iter()
                .map(|lines| self.tried(name, lines, kind, longest));
            let (granted, denied) = tried.partition(|tried: &Tried| tried.number == 0);
            workloads.extend(slowest(&format!("{name}, granted"), granted));
            workloads.extend(slowest(&format!("{name}, denied"), denied));
        }
        workloads
    }

    /// Asks the engine once about an instance.
    fn tried(&self, name: &str, lines: &Lines, kind: u8, longest: &mut Longest) -> Tried {
        let workload = Workload::slow(name, lines, cycle(kind), 50, 1);
        let question = call([kind, 0, 0, 0], 0);
        let (micros, number) = longest.question(self.title, &workload, question);
        Tried {
            micros,
            number,
            workload,
        }
    }
}

/// A formula of op 3: of a role that the user holds, or of another.
fn role(_: usize, is_true: bool) -> Vec<u8> {
    vec![4, 3, u8::from(!is_true), 0]
}

/// In turn a formula of op 3 and another: true, or a slot that is unset.
fn role_or_other(place: usize, is_true: bool) -> Vec<u8> {
    match (place % 2, is_true) {
        (0, _) => role(place, is_true),
        (_, true) => vec![4, 0, 0, 0],
        (_, false) => vec![4, 10, 0, 0],
    }
}

/// The slowest one, if there is any.
fn slowest(sort: &str, tried: Vec<Tried>) -> Option<Workload> {
    let name = format!("{sort}, slowest of {}", tried.len());
    let slowest = tried
        .into_iter()
        .max_by(|a, b| a.micros.total_cmp(&b.micros))?;
    Some(Workload {
        name,
        ..slowest.workload
    })
}

/// The question about two objects in turn.
fn cycle(kind: u8) -> Vec<Call> {
    vec![call([kind, 0, 0, 0], 0), call([kind, 0, 1, 0], 0)]
}

/// A policy with one user, two objects and one method that wants all 64 privileges; up to two
/// formulas are not true.
fn instance(random: &mut Random, formula: fn(usize, bool) -> Vec<u8>) -> Lines {
    let mut lines = vec![vec![1, 1, 2], vec![2, 0, 0, 1]];
    let off = random.pick(&[0, 0, 1, 2]);
    lines.extend((0..PRINCIPALS).map(|place| formula(place, place >= off)));
    lines.extend(given(random).map(|all| weights(&[5], all)));
    let mut places: Vec<u8> = (0..PRINCIPALS as u8).collect();
    random.shuffle(&mut places);
    let principal = |&place: &u8| vec![7, place, place];
    lines.extend(places.iter().map(principal));
    let (excluded, needed) = (random.between(0, 24), random.between(0, 8));
    lines.extend(pairs(random, 8, excluded));
    lines.extend(pairs(random, 9, needed));
    lines.push(weights(&[10, 1], u64::MAX));
    lines
}

/// What each demarcation lists, each privilege being in 2 to 5 of them.
fn given(random: &mut Random) -> [u64; PRINCIPALS] {
    let mut given = [0; PRINCIPALS];
    let mut places: Vec<usize> = (0..PRINCIPALS).collect();
    for privilege in 0..64 {
        random.shuffle(&mut places);
        for &place in &places[..random.between(2, 5)] {
            given[place] |= 1 << privilege;
        }
    }
    given
}

/// So many pairs of principals, rising, as lines of a kind.
fn pairs(random: &mut Random, kind: u8, count: usize) -> Lines {
    let above = |p: u8| (p + 1..PRINCIPALS as u8).map(move |q| vec![kind, p, q]);
    let mut pairs: Lines = (0..PRINCIPALS as u8).flat_map(above).collect();
    random.shuffle(&mut pairs);
    pairs.truncate(count);
    pairs.sort_unstable();
    pairs
}
