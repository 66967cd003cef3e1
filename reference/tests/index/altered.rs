//! Ways to make an index disagree with the edges.

use crate::random::Random;
use reference::Index;

/// What a way is given: the right index, and another one, of the record as it was before its last
/// edit or of another record.
pub struct Given<'a> {
    pub right: &'a Index,
    pub other: &'a Index,
}

/// A way gives an index with other numbers, or the right one where there is nothing to alter.
type Way = fn(&mut Random, &Given) -> Index;

/// Every way, by name.
pub const WAYS: [(&str, Way); 11] = [
    ("one first place is another number", first),
    ("one number of edges is another", count),
    ("first places begin with the next label's", firsts_of_next),
    ("an edge is counted under another label", counted_elsewhere),
    ("two places are exchanged", exchanged),
    ("a place stands twice", doubled),
    ("a place is not below the number of edges", past_edges),
    ("a place is 512 or above", past_all),
    ("an unused place is not zero", unused),
    ("places in the order of the edges", own_order),
    ("the index before the edit, or another's", other),
];

/// How many edges there are.
fn edges(index: &Index) -> usize {
    index.counts.iter().map(|&count| usize::from(count)).sum()
}

/// Another number: one more, one less, or any.
fn another(random: &mut Random, number: u16) -> u16 {
    let any = random.between(1, 0xFFFF) as u16;
    number.wrapping_add(random.pick(&[1, 0xFFFF, any]))
}

fn first(random: &mut Random, given: &Given) -> Index {
    let mut index = given.right.clone();
    let label = random.below(16);
    index.firsts[label] = another(random, index.firsts[label]);
    index
}

fn count(random: &mut Random, given: &Given) -> Index {
    let mut index = given.right.clone();
    let label = random.below(16);
    index.counts[label] = another(random, index.counts[label]);
    index
}

/// The number of edges with no higher label, instead of a lower one.
fn firsts_of_next(_: &mut Random, given: &Given) -> Index {
    let mut index = given.right.clone();
    let counts = index.counts;
    let both = index.firsts.iter_mut().zip(counts);
    both.for_each(|(first, count)| *first += count);
    index
}

/// Counts and first places fit each other, and are those of other edges.
fn counted_elsewhere(random: &mut Random, given: &Given) -> Index {
    let mut index = given.right.clone();
    let used: Vec<usize> = (0..16).filter(|&label| index.counts[label] > 0).collect();
    if used.is_empty() {
        return index;
    }
    let label = random.pick(&used);
    index.counts[label] -= 1;
    index.counts[(label + random.between(1, 15)) % 16] += 1;
    let mut sum = 0;
    for (first, count) in index.firsts.iter_mut().zip(index.counts) {
        *first = sum;
        sum += count;
    }
    index
}

/// Two different numbers below a bound, half the time neighbours.
fn two_below(random: &mut Random, bound: usize) -> Option<(usize, usize)> {
    if bound < 2 {
        return None;
    }
    let one = random.below(bound);
    let far = random.between(1, bound - 1);
    Some((one, (one + random.pick(&[1, far])) % bound))
}

fn exchanged(random: &mut Random, given: &Given) -> Index {
    let mut index = given.right.clone();
    if let Some((one, other)) = two_below(random, edges(&index)) {
        index.places.swap(one, other);
    }
    index
}

fn doubled(random: &mut Random, given: &Given) -> Index {
    let mut index = given.right.clone();
    if let Some((one, other)) = two_below(random, edges(&index)) {
        index.places[one] = index.places[other];
    }
    index
}

fn past_edges(random: &mut Random, given: &Given) -> Index {
    let mut index = given.right.clone();
    let edges = edges(&index);
    if (1..512).contains(&edges) {
        let any = random.between(edges, 511);
        index.places[random.below(edges)] = random.pick(&[edges, any, 511]) as u16;
    }
    index
}

fn past_all(random: &mut Random, given: &Given) -> Index {
    let mut index = given.right.clone();
    let edges = edges(&index);
    if edges > 0 {
        let any = random.between(512, 0xFFFF);
        index.places[random.below(edges)] = random.pick(&[512, any, 0xFFFF]) as u16;
    }
    index
}

fn unused(random: &mut Random, given: &Given) -> Index {
    let mut index = given.right.clone();
    let edges = edges(&index);
    if edges < 512 {
        let any = random.between(edges, 511);
        let value = random.between(1, 0xFFFF);
        index.places[random.pick(&[edges, any, 511])] = random.pick(&[1, value]) as u16;
    }
    index
}

/// By label, from and to: as the edges stand.
fn own_order(_: &mut Random, given: &Given) -> Index {
    let mut index = given.right.clone();
    let edges = edges(&index);
    let places = index.places[..edges].iter_mut().zip(0..);
    places.for_each(|(place, number)| *place = number);
    index
}

fn other(_: &mut Random, given: &Given) -> Index {
    given.other.clone()
}
