//! Valid policies, as lists of lines: each is its kind and body, without the end line.

use crate::formulas::{children, contain_roles, Formulas};
use crate::random::Random;
use crate::sizes::Sizes;
use crate::support::weights;
use std::collections::BTreeSet;

/// Lines as kind and body.
pub type Lines = Vec<Vec<u8>>;

/// A policy of the given sizes, its lines in the order that the loader asks for.
pub fn policy(random: &mut Random, sizes: &Sizes) -> Lines {
    let mut lines = vec![vec![1, 1, sizes.objects as u8]];
    lines.extend(graph(random, sizes));
    let sorts = Sorts::of(&lines);
    lines.extend(grounds(random, sizes, &sorts));
    lines
}

/// The lines of users, edges and formulas.
fn graph(random: &mut Random, sizes: &Sizes) -> Lines {
    let pool = pool(random, sizes);
    let labels = labels(random, sizes);
    let slots = slots(random, sizes);
    let edges = edges(random, sizes, &pool, &labels);
    let mut lines = users(random, sizes, &pool);
    lines.extend(edges.iter().map(|edge| [&[3], &edge[..]].concat()));
    lines.extend(Formulas::over(&edges, &labels, &slots).lines(random, sizes));
    lines
}

/// The lines from demarcations to methods, given the formulas by sort.
fn grounds(random: &mut Random, sizes: &Sizes, sorts: &Sorts) -> Lines {
    let in_use = privileges(random, sizes);
    let given: Vec<u64> = (0..sizes.demarcations)
        .map(|place| demarcation(random, sizes, &in_use, place) | top_weight(sizes, place))
        .collect();
    let principals = principals(random, sizes, sorts);
    let count = principals.len();
    let mut lines: Lines = given.iter().map(|&all| weights(&[5], all)).collect();
    lines.extend(order(random, 6, sizes.demarcations, sizes.hierarchy));
    lines.extend(principals);
    lines.extend(exclusions(random, count, sizes.exclusions));
    lines.extend(order(random, 9, count, sizes.prerequisites));
    let asked = if sizes.joint { given } else { in_use };
    lines.extend((0..sizes.methods).map(|place| method(random, sizes, &asked, place)));
    lines
}

/// The objects that edges and users are drawn from: few, so that they meet, unless many are asked.
fn pool(random: &mut Random, sizes: &Sizes) -> Vec<u8> {
    let mut objects: Vec<u8> = (0..sizes.objects as u8).collect();
    if sizes.edges <= 100 && sizes.users <= 10 {
        random.shuffle(&mut objects);
        objects.truncate(6);
    }
    objects
}

/// The labels in use, with 15 among them where the top values are asked for.
fn labels(random: &mut Random, sizes: &Sizes) -> Vec<u8> {
    let mut labels: Vec<u8> = (0..15).collect();
    random.shuffle(&mut labels);
    labels.truncate(sizes.labels);
    if sizes.top || sizes.labels == 16 {
        labels.push(15);
    }
    labels
}

/// The slots in use. Where there are none, nothing is drawn.
fn slots(random: &mut Random, sizes: &Sizes) -> Vec<u8> {
    let mut slots: Vec<u8> = (0..4).collect();
    if sizes.slots > 0 {
        random.shuffle(&mut slots);
    }
    slots.truncate(sizes.slots);
    slots
}

/// The privileges in use, as weights, with 2^63 among them where the top values are asked for.
fn privileges(random: &mut Random, sizes: &Sizes) -> Vec<u64> {
    let mut privileges: Vec<u64> = (0..63).map(|k| 1 << k).collect();
    random.shuffle(&mut privileges);
    privileges.truncate(sizes.privileges);
    if sizes.top {
        privileges.push(1 << 63);
    }
    privileges
}

/// User lines for some objects of the pool, each with random roles, with more of them where many
/// principals ask for one.
fn users(random: &mut Random, sizes: &Sizes, pool: &[u8]) -> Lines {
    let mut objects = pool.to_vec();
    random.shuffle(&mut objects);
    objects.truncate(sizes.users);
    objects.sort_unstable();
    let top = if sizes.top { 128 } else { 0 };
    let mut roles = || match sizes.roles {
        true => random.octet() | random.octet(),
        false => random.octet(),
    };
    let mut user = |object: u8| vec![2, object, roles() | top, roles()];
    objects.into_iter().map(&mut user).collect()
}

/// Edges between objects of the pool, all different and rising; fewer where there is no room.
fn edges(random: &mut Random, sizes: &Sizes, pool: &[u8], labels: &[u8]) -> Vec<[u8; 3]> {
    let mut edges = BTreeSet::new();
    if sizes.top && sizes.edges > 0 {
        edges.insert([15, random.pick(pool), random.pick(pool)]);
    }
    for _ in 0..20 * sizes.edges {
        if edges.len() == sizes.edges {
            break;
        }
        edges.insert([random.pick(labels), random.pick(pool), random.pick(pool)]);
    }
    edges.into_iter().collect()
}

/// The weight of privilege 63 in the first line where the top values are asked for.
fn top_weight(sizes: &Sizes, place: usize) -> u64 {
    u64::from(sizes.top && place == 0) << 63
}

/// The privileges of a demarcation: few of those in use, and only one where sets are to grow; among
/// role principals the next one, and half the time all of them in the last demarcation.
fn demarcation(random: &mut Random, sizes: &Sizes, privileges: &[u64], place: usize) -> u64 {
    if sizes.joint {
        return random.pick(privileges);
    }
    if sizes.roles {
        let is_last = place + 1 == sizes.demarcations;
        return match is_last && random.one_in(2) {
            true => privileges.iter().sum(),
            false => privileges[place % privileges.len()],
        };
    }
    let most = random.pick(&[1, 1, 1, 2, 3]);
    listed(random, privileges, most)
}

/// A method with few of the privileges asked, or all-of several where sets are to grow.
fn method(random: &mut Random, sizes: &Sizes, asked: &[u64], place: usize) -> Vec<u8> {
    if sizes.roles {
        return method_of_some(random, asked);
    }
    let form = u8::from(sizes.joint || !random.one_in(3));
    let most = if sizes.joint { 6 } else { 4 };
    let all = listed(random, asked, most) | top_weight(sizes, place);
    weights(&[10, form], all)
}

/// A method with one to three different ones of the privileges asked, mostly all-of.
fn method_of_some(random: &mut Random, asked: &[u64]) -> Vec<u8> {
    let form = u8::from(!random.one_in(5));
    let mut some = asked.to_vec();
    random.shuffle(&mut some);
    some.truncate(random.pick(&[1, 2, 2, 2, 3]));
    weights(&[10, form], some.iter().sum())
}

/// Up to so many of the weights together; rarely any 64 bits.
fn listed(random: &mut Random, weights: &[u64], most: usize) -> u64 {
    if random.one_in(40) || weights.is_empty() {
        return random.next();
    }
    let least = usize::from(!random.one_in(8));
    let count = random.between(least, most);
    (0..count).fold(0, |all, _| all | random.pick(weights))
}

/// Formulas by what is looked for among them.
struct Sorts {
    /// Those that no other one uses.
    whole: Vec<u8>,
    /// Those of op 3.
    roles: Vec<u8>,
    /// Those of another op that contain one of op 3.
    around_roles: Vec<u8>,
}

impl Sorts {
    /// Sorts the formulas of some lines.
    fn of(lines: &Lines) -> Sorts {
        let formulas = lines.iter().filter(|line| line[0] == 4);
        let formulas: Vec<[u8; 3]> = formulas.map(|line| [line[1], line[2], line[3]]).collect();
        let used: BTreeSet<u8> = formulas.iter().copied().flat_map(children).collect();
        let contain = contain_roles(&formulas);
        let such = |is_such: &dyn Fn(u8) -> bool| {
            let numbers = 0..formulas.len() as u8;
            numbers.filter(|&number| is_such(number)).collect()
        };
        let is_role = |number: u8| formulas[usize::from(number)][0] == 3;
        Sorts {
            whole: such(&|number| !used.contains(&number)),
            roles: such(&is_role),
            around_roles: such(&|number| contain[usize::from(number)] && !is_role(number)),
        }
    }
}

/// Principals with any formula and demarcation; none where there is nothing to name. With slots,
/// half of them have a whole formula, as these are where slots are set.
fn principals(random: &mut Random, sizes: &Sizes, sorts: &Sorts) -> Lines {
    if sizes.formulas == 0 || sizes.demarcations == 0 {
        return Vec::new();
    }
    let mut principal = || match sizes.roles {
        true => principal_about_roles(random, sizes, sorts),
        false => {
            let formula = formula(random, sizes, sorts);
            vec![7, formula, random.below(sizes.demarcations) as u8]
        }
    };
    (0..sizes.principals).map(|_| principal()).collect()
}

/// Any formula, or a whole one.
fn formula(random: &mut Random, sizes: &Sizes, sorts: &Sorts) -> u8 {
    match sizes.slots > 0 && random.one_in(2) {
        true => random.pick(&sorts.whole),
        false => random.below(sizes.formulas) as u8,
    }
}

/// Half the time a formula of op 3 with any demarcation; else one that contains such a formula, or a
/// whole one, with any demarcation but the last.
fn principal_about_roles(random: &mut Random, sizes: &Sizes, sorts: &Sorts) -> Vec<u8> {
    let (formula, demarcations) = match random.below(8) {
        0..=3 => (random.pick(&sorts.roles), sizes.demarcations),
        4 | 5 => (random.pick(&sorts.around_roles), sizes.demarcations - 1),
        _ => (random.pick(&sorts.whole), sizes.demarcations - 1),
    };
    vec![7, formula, random.below(demarcations) as u8]
}

/// So many exclusions, if there are so many pairs.
fn exclusions(random: &mut Random, principals: usize, count: usize) -> Lines {
    let numbers: Vec<u8> = (0..principals as u8).collect();
    some_pairs(random, 8, &numbers, count)
}

/// So many pairs without a circle: each goes forward in a random order of the things.
fn order(random: &mut Random, kind: u8, things: usize, count: usize) -> Lines {
    let mut numbers: Vec<u8> = (0..things as u8).collect();
    random.shuffle(&mut numbers);
    some_pairs(random, kind, &numbers, count)
}

/// So many pairs (an earlier number, a later number), rising, as lines of a kind.
fn some_pairs(random: &mut Random, kind: u8, numbers: &[u8], count: usize) -> Lines {
    let later = |place: usize| numbers[place + 1..].iter();
    let mut pairs: Lines = (0..numbers.len())
        .flat_map(|place| later(place).map(move |&other| vec![kind, numbers[place], other]))
        .collect();
    random.shuffle(&mut pairs);
    pairs.truncate(count);
    pairs.sort_unstable();
    pairs
}
