//! Small policies for single sentences about formulas, grounds and sets.

mod support;

use reference::{Answer, Policy};
use support::{bundle, weights};

/// Loads lines that must pass.
fn loaded(lines: &[Vec<u8>]) -> Policy {
    Policy::load(&bundle(lines)).expect("it loads")
}

/// One user, one true formula, principals with a demarcation each, then the given lines.
fn grounds(privileges: &[u64], pairs: &[[u8; 3]], form: u8, asked: u64) -> Policy {
    let mut lines = vec![vec![1, 1, 1], vec![2, 0, 0, 0], vec![4, 0, 0, 0]];
    let of_kind = |kind: u8| pairs.iter().filter(move |pair| pair[0] == kind);
    lines.extend(privileges.iter().map(|&listed| weights(&[5], listed)));
    lines.extend(of_kind(6).map(|pair| pair.to_vec()));
    lines.extend((0..privileges.len()).map(|number| vec![7, 0, number as u8]));
    lines.extend(of_kind(8).map(|pair| pair.to_vec()));
    lines.extend(of_kind(9).map(|pair| pair.to_vec()));
    lines.push(weights(&[10, form], asked));
    loaded(&lines)
}

/// The number and set of both forms of the one question, which agree.
fn outcome(policy: Policy) -> (u8, u32) {
    let eager = policy.clone().ask_eager(0, 0, 0);
    let lazy = policy.clone().ask_lazy(0, 0, 0);
    assert_eq!((eager.number, eager.set), (lazy.number, lazy.set));
    assert!(lazy.evaluations <= eager.evaluations);
    (lazy.number, lazy.set)
}

/// Role principals come between; there is none here, and `tests/order.rs` is about them.
#[test]
fn least_is_fewest_members_then_smallest_number() {
    assert_eq!(outcome(grounds(&[1, 1, 2, 2], &[], 1, 3)), (0, 0b0101));
    let apart = [[8, 0, 2], [8, 1, 3]];
    assert_eq!(outcome(grounds(&[1, 1, 2, 2], &apart, 1, 3)), (0, 0b0110));
    assert_eq!(outcome(grounds(&[1, 2, 4, 7], &[], 1, 7)), (0, 0b1000));
}

#[test]
fn privileges_flow_up_the_hierarchy_through_every_step() {
    let chain = [[6, 0, 1], [6, 1, 2]];
    assert_eq!(outcome(grounds(&[1, 2, 4], &chain, 1, 7)), (0, 0b100));
    assert_eq!(outcome(grounds(&[1, 2, 4], &chain, 1, 3)), (0, 0b010));
    assert_eq!(outcome(grounds(&[1, 2, 4], &chain, 0, 4)), (0, 0b100));
}

#[test]
fn prerequisites_join_the_set_through_every_step() {
    let chain = [[9, 0, 1], [9, 1, 2]];
    assert_eq!(outcome(grounds(&[1, 2, 4], &chain, 1, 4)), (0, 0b111));
    let torn = [[8, 0, 2], [9, 0, 1], [9, 1, 2]];
    assert_eq!(outcome(grounds(&[1, 2, 4], &torn, 1, 4)), (17, 0));
}

#[test]
fn empty_guards() {
    assert_eq!(outcome(grounds(&[u64::MAX], &[], 0, 0)), (17, 0));
    assert_eq!(outcome(grounds(&[u64::MAX], &[], 1, 0)), (0, 0));
    assert_eq!(outcome(grounds(&[1 << 63], &[], 0, 1 << 63)), (0, 1));
    assert_eq!(grounds(&[], &[], 1, 0).liberal(0, 0, 0), Ok(true));
    assert_eq!(grounds(&[], &[], 1, 0).strict(0, 0, 0), Ok(false));
}

/// Whether the last of the formulas is true for object 0 and requestor 1, who holds role 15.
fn holds(formulas: &[[u8; 4]]) -> bool {
    let mut lines = vec![vec![1, 1, 3], vec![2, 1, 128, 0]];
    lines.extend([[3, 4, 0, 2], [3, 5, 1, 0], [3, 5, 1, 2]].map(Vec::from));
    lines.extend(formulas.iter().map(|line| line.to_vec()));
    lines.push(weights(&[5], 1));
    lines.push(vec![7, formulas.len() as u8 - 1, 0]);
    lines.push(weights(&[10, 0], 1));
    let mut policy = loaded(&lines);
    let strict = policy.strict(0, 0, 1) == Ok(true);
    let set = u32::from(strict);
    let number = if strict { 0 } else { 17 };
    let expected = Answer {
        number,
        set,
        evaluations: 1,
    };
    assert_eq!(policy.ask_lazy(0, 0, 1), expected);
    strict
}

#[test]
fn formulas_by_op() {
    assert!(holds(&[[4, 0, 0, 0]]));
    assert!(!holds(&[[4, 1, 0, 0]]));
    assert!(holds(&[[4, 2, 0, 0]]));
    assert!(holds(&[[4, 3, 15, 0]]));
    assert!(!holds(&[[4, 3, 7, 0]]));
    assert!(holds(&[[4, 1, 0, 0], [4, 4, 0, 0]]));
    assert!(!holds(&[[4, 1, 0, 0], [4, 2, 0, 0], [4, 5, 0, 1]]));
    assert!(holds(&[[4, 1, 0, 0], [4, 2, 0, 0], [4, 6, 0, 1]]));
}

#[test]
fn formulas_along_edges() {
    let me = [4, 1, 0, 0];
    assert!(!holds(&[me, [4, 7, 5, 0]]));
    assert!(holds(&[me, [4, 8, 5, 0]]));
    assert!(!holds(&[me, [4, 8, 4, 0]]));
    assert!(holds(&[me, [4, 8, 5, 0], [4, 7, 4, 1]]));
    assert!(!holds(&[me, [4, 8, 5, 0], [4, 8, 4, 1]]));
    assert!(holds(&[[4, 2, 0, 0], [4, 8, 4, 0], [4, 7, 4, 1]]));
}
