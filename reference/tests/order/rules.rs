//! Small policies about the order of sets: one user, one object that is asked about, formulas of
//! every sort, and principals that have them.

use crate::support::{bundle, weights};

/// Who asks, holding roles 0 and 1, and what is asked about. The object is joined to itself by label
/// 1; label 0 joins nothing until an edit joins the object and the user.
pub const USER: u8 = 1;
pub const OBJECT: u8 = 0;

/// Formulas of op 3: two that are true, and one of a role that the user does not hold.
pub const ROLE: u8 = 0;
pub const OTHER_ROLE: u8 = 1;
pub const NO_ROLE: u8 = 2;

/// Formulas without op 3: two that are true, two that are not, and one that is true once the object
/// is joined to the user by label 0.
pub const TRUE: u8 = 3;
pub const ALSO_TRUE: u8 = 4;
pub const FALSE: u8 = 5;
pub const ALSO_FALSE: u8 = 6;
pub const RELATION: u8 = 7;

/// True formulas that contain op 3: not, and, or, steps, kept, kept and looked at, not not.
pub const AROUND_ROLE: [u8; 8] = [8, 9, 10, 11, 12, 13, 15, 17];

/// All formulas, by number.
const FORMULAS: [[u8; 3]; 18] = [
    [3, 0, 0],
    [3, 1, 0],
    [3, 2, 0],
    [0, 0, 0],
    [2, 0, 0],
    [4, TRUE, 0],
    [1, 0, 0],
    [7, 0, ALSO_FALSE],
    [4, NO_ROLE, 0],
    [5, ROLE, OTHER_ROLE],
    [6, NO_ROLE, ROLE],
    [7, 1, ROLE],
    [8, 1, ROLE],
    [9, 0, ROLE],
    [11, 2, ROLE],
    [9, 2, 14],
    [4, ROLE, 0],
    [4, 16, 0],
];

/// The forms of a method.
pub const ONE_OF: u8 = 0;
pub const ALL_OF: u8 = 1;

/// So many methods has each of the policies below.
pub const METHODS: u8 = 4;

/// Whether a formula is of op 3 itself.
pub fn is_role(formula: u8) -> bool {
    FORMULAS[usize::from(formula)][0] == 3
}

/// The text of a policy: principals as a formula and what they give, lines of kinds 8 and 9, and
/// methods as a form and what they ask for.
pub fn text(principals: &[(u8, u64)], pairs: &[[u8; 3]], methods: &[(u8, u64)]) -> Vec<u8> {
    let mut lines = vec![
        vec![1, 1, 2],
        vec![2, USER, 0, 3],
        vec![3, 1, OBJECT, OBJECT],
    ];
    lines.extend(FORMULAS.map(|formula| [&[4], &formula[..]].concat()));
    lines.extend(principals.iter().map(|&(_, gives)| weights(&[5], gives)));
    let numbered = (0..).zip(principals);
    lines.extend(numbered.map(|(number, &(formula, _))| vec![7, formula, number]));
    lines.extend(pairs.iter().map(|pair| pair.to_vec()));
    let method = |&(form, asked): &(u8, u64)| weights(&[10, form], asked);
    lines.extend(methods.iter().map(method));
    bundle(&lines)
}

/// The sets in the order in which they are granted: each time, those that were granted before are
/// left out, until the question is denied.
pub fn one_by_one(formulas: &[u8], mut ask: impl FnMut(&[u8]) -> Option<u32>) -> Vec<u32> {
    let mut sets = Vec::new();
    while let Some(set) = ask(&text_without(formulas, &sets)) {
        assert!(!sets.contains(&set), "{set:b} was left out");
        sets.push(set);
    }
    sets
}

/// Principals with these formulas, and an all-of method that the sets left out do not meet: for each
/// of them there is a privilege that exactly the principals outside it give. Every other set with as
/// many members, and every larger one, has one of these principals.
fn text_without(formulas: &[u8], left_out: &[u32]) -> Vec<u8> {
    let numbered = || (0..).zip(left_out);
    let gives = |p: usize| {
        let outside = numbered().filter(|(_, set)| *set >> p & 1 == 0);
        outside.fold(0, |all, (privilege, _)| all | 1u64 << privilege)
    };
    let formulas = formulas.iter().enumerate();
    let principals: Vec<(u8, u64)> = formulas.map(|(p, &of)| (of, gives(p))).collect();
    let asked = numbered().fold(0, |all, (privilege, _)| all | 1u64 << privilege);
    text(&principals, &[], &[(ALL_OF, asked)])
}

/// Four principals of each of seven sorts, in three ways to give privileges, with and without
/// constraints: their formulas, and the text.
pub fn all_of_four() -> impl Iterator<Item = ([u8; 4], Vec<u8>)> {
    let around = AROUND_ROLE[2];
    let sorts = [ROLE, OTHER_ROLE, NO_ROLE, TRUE, FALSE, RELATION, around];
    let all = (0..7 * 7 * 7 * 7).map(move |code| [1, 7, 49, 343].map(|of| sorts[code / of % 7]));
    all.flat_map(|formulas| texts_of_four(formulas).map(move |text| (formulas, text)))
}

/// The texts of four principals with these formulas.
fn texts_of_four(formulas: [u8; 4]) -> [Vec<u8>; 6] {
    let asked = [(ALL_OF, 3), (ONE_OF, 3), (ALL_OF, 1), (ALL_OF, 7)];
    let text = |gives: [u64; 4], pairs: &[[u8; 3]]| {
        let principals: Vec<(u8, u64)> = formulas.into_iter().zip(gives).collect();
        text(&principals, pairs, &asked)
    };
    let pairs = [[8, 0, 2], [9, 3, 1]];
    [
        text([1, 1, 2, 2], &[]),
        text([1, 1, 2, 2], &pairs),
        text([3, 1, 2, 1], &[]),
        text([3, 1, 2, 1], &pairs),
        text([1, 2, 4, 7], &[]),
        text([1, 2, 4, 7], &pairs),
    ]
}
