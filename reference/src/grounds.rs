//! Sets of principals: their order, their privileges, and whether they are consistent.

use crate::policy::{Method, Policy, Principal};
use crate::relation::{same_or_related, transitive};
use std::iter::{from_fn, successors};

/// What each principal brings, needs and excludes, by principal number.
pub struct Grounds {
    privileges: Vec<u64>,
    needs: Vec<u32>,
    excludes: Vec<u32>,
}

impl Grounds {
    /// Reads the grounds off a policy.
    pub fn of(policy: &Policy) -> Grounds {
        Grounds {
            privileges: privileges(policy),
            needs: needs(policy),
            excludes: excludes(policy),
        }
    }

    /// "It is consistent if it holds no excluded pair and, with each member, all that member's
    /// prerequisites."
    pub fn consistent(&self, set: u32) -> bool {
        members(set).all(|p| self.excludes[p] & set == 0 && self.needs[p] & !set == 0)
    }

    /// "One-of needs at least one listed privilege; all-of needs every one."
    pub fn meets(&self, set: u32, method: Method) -> bool {
        let held = members(set).fold(0, |held, p| held | self.privileges[p]);
        if method.all_of {
            method.privileges & !held == 0
        } else {
            method.privileges & held != 0
        }
    }
}

/// "has privilege k if some member's demarcation is, or is above, one that lists k."
fn privileges(policy: &Policy) -> Vec<u64> {
    let below = transitive(&policy.hierarchy);
    let of = |superior: u8| {
        (0u8..)
            .zip(&policy.demarcations)
            .filter(|&(inferior, _)| same_or_related(&below, inferior, superior))
            .fold(0, |all, (_, listed)| all | listed)
    };
    policy
        .principals
        .iter()
        .map(|principal| of(principal.demarcation))
        .collect()
}

/// "q needs p", through the "reflexive and transitive closure, as do prerequisites".
fn needs(policy: &Policy) -> Vec<u32> {
    let mut needs = vec![0; policy.principals.len()];
    for (p, q) in transitive(&policy.prerequisites) {
        needs[usize::from(q)] |= 1 << p;
    }
    needs
}

/// "08 exclusion: p, q": each of the two excludes the other.
fn excludes(policy: &Policy) -> Vec<u32> {
    let mut excludes = vec![0; policy.principals.len()];
    for &(p, q) in &policy.exclusions {
        excludes[usize::from(p)] |= 1 << q;
        excludes[usize::from(q)] |= 1 << p;
    }
    excludes
}

/// The members of a set in rising number; "A set's number is the sum of 2^p over its members."
pub fn members(set: u32) -> impl Iterator<Item = usize> {
    let mut rest = set;
    from_fn(move || {
        let lowest = rest.trailing_zeros();
        rest &= rest.checked_sub(1)?;
        Some(lowest as usize)
    })
}

/// All sets of the principals, least first: "fewest members", and by request 2026-06 "Among
/// satisfying sets with equally few members, the one with fewer role principals (formula of op 3)
/// now comes first, and then the smaller set number." The sets of a size are made once it is reached.
pub fn least_first(policy: &Policy) -> impl Iterator<Item = u32> {
    let principals = policy.principals.len();
    let role_principals = role_principals(policy);
    (0..=principals).flat_map(move |size| {
        let mut by_roles = vec![Vec::new(); size + 1];
        for set in of_size(size, principals) {
            let roles = (set & role_principals).count_ones();
            by_roles[roles as usize].push(set);
        }
        by_roles.into_iter().flatten()
    })
}

/// The set of all "role principals (formula of op 3)": the principal's own formula is of op 3. A
/// formula that contains one of op 3 is itself of another op.
fn role_principals(policy: &Policy) -> u32 {
    let own = |principal: &Principal| policy.formulas[usize::from(principal.formula)];
    (0..)
        .zip(&policy.principals)
        .filter(|(_, principal)| own(principal).op == 3)
        .fold(0, |set, (p, _)| set | 1 << p)
}

/// All sets with so many members of so many principals, by rising set number.
fn of_size(size: usize, principals: usize) -> impl Iterator<Item = u32> {
    let first = (1u32 << size) - 1;
    successors(Some(first), |&set| next_of_size(set)).take_while(move |&set| set < 1 << principals)
}

/// The next larger set number with as many members; the empty set has none.
fn next_of_size(set: u32) -> Option<u32> {
    if set == 0 {
        return None;
    }
    let lowest = set & set.wrapping_neg();
    let carried = set + lowest;
    Some(carried | (((carried ^ set) / lowest) >> 2))
}
