//! The bodies of lines: limits, ranges, order, and what they put into the record.

use crate::kind::*;
use crate::line::number;
use crate::policy::{Formula, Method, Policy, Principal};
use std::collections::BTreeSet;

/// Number 5, "one line over a kind's limit": the kind already has as many lines as it may.
pub fn is_full(policy: &Policy, kind: u8) -> bool {
    match kind {
        EDGE => policy.edges.len() >= MOST_EDGES,
        FORMULA => policy.formulas.len() >= 64,
        DEMARCATION => policy.demarcations.len() >= 20,
        PRINCIPAL => policy.principals.len() >= 20,
        METHOD => policy.methods.len() >= 32,
        _ => false,
    }
}

/// Number 6 is the opposite: "a body number out of range or naming nothing".
pub fn in_range(policy: &Policy, kind: u8, body: &[u8]) -> bool {
    match (kind, body) {
        (HEAD, &[version, count]) => version == 1 && count >= 1,
        (USER, &[object, _, _]) => policy.is_object(object),
        (EDGE, &[label, from, to]) => policy.edge_in_range(label, from, to),
        (FORMULA, &[op, a, b]) => policy.formula_in_range(Formula { op, a, b }),
        (HIERARCHY, &[low, high]) => {
            low != high && names(&policy.demarcations, low) && names(&policy.demarcations, high)
        }
        (PRINCIPAL, &[formula, demarcation]) => {
            names(&policy.formulas, formula) && names(&policy.demarcations, demarcation)
        }
        (EXCLUSION, &[p, q]) => p < q && names(&policy.principals, q),
        (PREREQUISITE, &[p, q]) => {
            p != q && names(&policy.principals, p) && names(&policy.principals, q)
        }
        (METHOD, &[form, ..]) => form <= 1,
        _ => true,
    }
}

/// Things are "numbered by place": a number names one if it is below their count.
fn names<T>(things: &[T], number: u8) -> bool {
    usize::from(number) < things.len()
}

/// Number 7 is the opposite, "not rising"; "Rising means strictly."
pub fn rises(policy: &Policy, kind: u8, body: &[u8]) -> bool {
    match (kind, body) {
        (USER, &[object, _, _]) => policy.users.keys().all(|&user| user < object),
        (EDGE, &[label, from, to]) => above_last(&policy.edges, (label, from, to)),
        (HIERARCHY, &[low, high]) => above_last(&policy.hierarchy, (low, high)),
        (EXCLUSION, &[p, q]) => above_last(&policy.exclusions, (p, q)),
        (PREREQUISITE, &[p, q]) => above_last(&policy.prerequisites, (p, q)),
        _ => true,
    }
}

/// The new one is above the last one so far, if there is one.
fn above_last<T: Ord>(set: &BTreeSet<T>, new: T) -> bool {
    set.last().is_none_or(|last| *last < new)
}

/// Puts a line that passed into the record.
pub fn store(policy: &mut Policy, kind: u8, body: &[u8]) {
    match (kind, body) {
        (HEAD, &[_, count]) => policy.objects = count,
        (USER, &[object, high, low]) => {
            policy.users.insert(object, number(&[high, low]) as u16);
        }
        (EDGE, &[label, from, to]) => {
            policy.edges.insert((label, from, to));
        }
        (FORMULA, &[op, a, b]) => policy.formulas.push(Formula { op, a, b }),
        (DEMARCATION, privileges) => policy.demarcations.push(number(privileges)),
        (PRINCIPAL, &[formula, demarcation]) => policy.principals.push(Principal {
            formula,
            demarcation,
        }),
        (METHOD, &[form, ref privileges @ ..]) => policy.methods.push(Method {
            all_of: form == 1,
            privileges: number(privileges),
        }),
        (_, &[x, y]) => store_pair(policy, kind, (x, y)),
        _ => {}
    }
}

/// Puts a hierarchy, exclusion or prerequisite line that passed into the record.
fn store_pair(policy: &mut Policy, kind: u8, pair: (u8, u8)) {
    match kind {
        HIERARCHY => policy.hierarchy.insert(pair),
        EXCLUSION => policy.exclusions.insert(pair),
        PREREQUISITE => policy.prerequisites.insert(pair),
        _ => false,
    };
}
