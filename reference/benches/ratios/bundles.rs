//! The bundles that several workloads start from, and their loading and writing.

use crate::limits;
use crate::policy::{self, Lines};
use crate::random::Random;
use crate::sizes::{Sizes, LIMITS};
use crate::support;
use crate::workload::Workload;

/// Every generated bundle and list comes from this seed.
const SEED: u64 = 0x0CA5_EACC_E551_0002;

/// A stream of random numbers for one purpose.
pub fn random(purpose: usize) -> Random {
    Random::of_case(SEED, purpose)
}

/// The loading and writing of the largest bundle and of the crown, and the loading of two texts that
/// are refused at their end. In the second of these the reference looks for the 0A first, and reads
/// no digit; the engine reads them all.
pub fn workloads() -> Vec<Workload> {
    let (largest, crown) = (support::bundle(&largest()), support::crown());
    vec![
        Workload::load("the largest bundle", &largest),
        Workload::load("the crown", &crown),
        Workload::refused("the largest bundle, last check", &wrong_check(&largest), 3),
        Workload::refused("65,536 digits without 0A", &[b'7'; 65_536], 1),
        Workload::write("the largest bundle", &largest),
        Workload::write("the crown", &crown),
    ]
}

/// A text whose last digit, of the last line's check octet, is another one.
fn wrong_check(text: &[u8]) -> Vec<u8> {
    let mut text = text.to_vec();
    let last = text.len() - 2;
    text[last] = if text[last] == b'0' { b'1' } else { b'0' };
    text
}

/// A bundle at every limit of the contract.
fn largest() -> Lines {
    let mut random = random(0);
    let last = LIMITS.len() - 1;
    let sizes = Sizes::at_limit(&mut random, last);
    let lines = policy::policy(&mut random, &sizes);
    assert!(limits::reached(&lines)[last], "the bundle is at all limits");
    lines
}

/// A policy with all edges, formulas and principals, whose questions are now granted, now denied.
pub fn full() -> Lines {
    let mut random = random(1);
    let sizes = Sizes {
        hierarchy: 20,
        exclusions: 30,
        prerequisites: 10,
        joint: true,
        ..Sizes::at_limit(&mut random, LIMITS.len() - 1)
    };
    policy::policy(&mut random, &sizes)
}

/// A policy of moderate size.
pub fn moderate() -> Lines {
    let mut random = random(2);
    let sizes = Sizes {
        objects: 60,
        users: 20,
        labels: 4,
        edges: 200,
        formulas: 24,
        demarcations: 8,
        hierarchy: 6,
        principals: 8,
        exclusions: 5,
        prerequisites: 4,
        methods: 8,
        privileges: 8,
        ..Sizes::at_limit(&mut random, LIMITS.len() - 1)
    };
    policy::policy(&mut random, &sizes)
}

/// The bodies of the lines of a kind.
pub fn of_kind(lines: &Lines, kind: u8) -> Vec<Vec<u8>> {
    let of = lines.iter().filter(|line| line[0] == kind);
    of.map(|line| line[1..].to_vec()).collect()
}
