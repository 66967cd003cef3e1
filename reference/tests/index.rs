//! The index of the edges (request 2026-04), read out of the octets of lent records.
//!
//! From random bundles, and after lists of edits with questions between them, it must be the one
//! that the reference builds anew. With an index that disagrees with the edges every call is
//! refused with 19 and leaves every octet; with the old one it answers as the reference does.
//! What is written has no index: loaded again, it gives the same record, index included.
//!
//! A run has two seeds, one fixed and one fresh, and prints both. To repeat one of them alone:
//!
//! ```sh
//! DIFFERENTIAL_SEED=0x0123456789ABCDEF cargo test --release --test index
//! ```
//!
//! A difference is printed with its seed, its bundle and its calls, and fails the test. So does a
//! sort of record, or of altered index, that came up too seldom.

#[cfg(not(engine))]
compile_error!("../target/staticlib/libcapi.a is missing: `tools/build library` makes it");

#[path = "index/altered.rs"]
mod altered;
#[path = "differential/calls.rs"]
mod calls;
#[allow(dead_code)]
#[path = "differential/engine.rs"]
mod engine;
#[allow(dead_code)]
#[path = "index/fields.rs"]
mod fields;
#[path = "differential/formulas.rs"]
mod formulas;
#[allow(dead_code)]
#[path = "index/pair.rs"]
mod pair;
#[path = "differential/policy.rs"]
mod policy;
#[path = "differential/random.rs"]
mod random;
#[path = "differential/seeds.rs"]
mod seeds;
#[path = "index/shapes.rs"]
mod shapes;
#[allow(dead_code)]
#[path = "differential/sizes.rs"]
mod sizes;
mod support;
#[path = "index/tally.rs"]
mod tally;
#[path = "differential/tickets.rs"]
mod tickets;
#[path = "index/walk.rs"]
mod walk;

use random::Random;
use reference::Index;
use tally::Tally;

/// So many bundles for each seed.
const BUNDLES: usize = 400;

/// Compares everything, prints the counts, and fails where something came up too seldom.
fn main() {
    let mut tally = Tally::default();
    for seed in seeds::seeds() {
        println!("seed {seed:#018X}: {BUNDLES} bundles");
        let mut before = reference::Policy::blank().index();
        for number in 0..BUNDLES {
            before = bundle(seed, number, before, &mut tally);
        }
    }
    tally.print();
    let gaps = tally.gaps();
    assert!(gaps.is_empty(), "TOO NARROW: {}", gaps.join("; "));
    println!("\nevery index is the one that building anew gives");
}

/// A bundle and all that is done with its record; the index of the record that was before it makes
/// a wrong one for this. The last index.
fn bundle(seed: u64, number: usize, before: Index, tally: &mut Tally) -> Index {
    let mut random = Random::of_case(seed, number);
    let shape = shapes::of_number(number);
    let sizes = shape.sizes(&mut random);
    let lines = policy::policy(&mut random, &sizes);
    let name = format!("bundle {number} of seed {seed:#018X}");
    walk::Walk::start(name, &lines, shape, before, &mut random, tally).through()
}
