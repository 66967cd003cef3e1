//! The cases of a run: which bundle and which calls belong to a number.

use crate::calls::Subject;
use crate::damage::damage;
use crate::frame;
use crate::policy::{policy, Lines};
use crate::random::Random;
use crate::sealed;
use crate::sizes::{Sizes, LIMITS};
use crate::support::Call;

/// How many cases a seed has.
pub const CASES: usize = 41_800;

/// How often each limit is reached by the first cases of a seed.
const TIMES_AT_LIMIT: usize = 20;

/// How many cases with role principals come next.
const ROLE_PRINCIPALS: usize = 1_800;

/// A bundle with a list of calls.
pub struct Case {
    /// How the bundle was made.
    pub kind: String,
    /// The lines of a valid bundle; none if it was damaged, so that it may be refused.
    pub valid: Option<Lines>,
    pub text: Vec<u8>,
    pub calls: Vec<Call>,
}

/// The case of a number: first those at the limits, then those with role principals, then all kinds
/// in turn.
pub fn case(random: &mut Random, number: usize) -> Case {
    let at_limits = LIMITS.len() * TIMES_AT_LIMIT;
    if number < at_limits {
        let limit = number % LIMITS.len();
        let sizes = Sizes::at_limit(random, limit);
        return valid(random, &sizes, LIMITS[limit]);
    }
    if number < at_limits + ROLE_PRINCIPALS {
        return role_principals(random);
    }
    match number % 16 {
        0..=7 => any_valid(random),
        8..=10 => damaged(random),
        _ => resealed(random),
    }
}

/// A valid bundle of any size, mostly small.
fn any_valid(random: &mut Random) -> Case {
    let (kind, sizes) = match random.below(100) {
        0..=3 => ("crowded", Sizes::crowded(random)),
        4..=6 => ("wide", Sizes::wide(random)),
        7..=16 => ("sparse", Sizes::sparse(random)),
        _ => ("small", Sizes::small(random)),
    };
    valid(random, &sizes, kind)
}

/// A valid bundle in which the order among sets with equally few members decides.
fn role_principals(random: &mut Random) -> Case {
    let sizes = Sizes::role_principals(random);
    valid(random, &sizes, "role principals")
}

/// A small valid bundle with few calls, to stand beside a case.
pub fn beside(random: &mut Random) -> Case {
    let sizes = Sizes::small(random).naming(random);
    let lines = policy(random, &sizes);
    Case {
        kind: "valid, beside a case".to_string(),
        text: sealed_text(&lines),
        calls: few_calls(random, &lines),
        valid: Some(lines),
    }
}

/// A valid bundle and a list of calls.
fn valid(random: &mut Random, sizes: &Sizes, kind: &str) -> Case {
    let sizes = sizes.naming(random);
    let lines = policy(random, &sizes);
    let length = random.between(4, 24);
    Case {
        kind: format!("valid, {kind}"),
        text: sealed_text(&lines),
        calls: Subject::of(&lines).calls(random, length),
        valid: Some(lines),
    }
}

/// A text damaged without regard to its checks, with few calls.
fn damaged(random: &mut Random) -> Case {
    let sizes = base(random);
    let lines = policy(random, &sizes);
    let mut text = sealed_text(&lines);
    let kind = damage(random, &mut text);
    Case {
        kind: format!("damaged text, {kind}"),
        valid: None,
        text,
        calls: few_calls(random, &lines),
    }
}

/// Lines of another meaning, mostly one, under right checks, sometimes with a damaged frame too.
fn resealed(random: &mut Random) -> Case {
    let sizes = base(random);
    let mut lines = policy(random, &sizes);
    let calls = few_calls(random, &lines);
    let frame_only = random.one_in(4);
    let mut names = Vec::new();
    if !frame_only {
        names.push(sealed::change(random, &mut lines));
    }
    if !frame_only && random.one_in(5) && lines[0][0] == 1 && lines[0].len() == 3 {
        names.push(sealed::change(random, &mut lines));
    }
    let mut octets = frame::octets(&lines);
    frame::close(&mut octets);
    if frame_only || random.one_in(8) {
        names.push(frame::change(random, &mut octets));
    }
    Case {
        kind: format!("right checks, {}", names.join(", ")),
        valid: None,
        text: frame::text(&octets),
        calls,
    }
}

/// The policy to be damaged: mostly a small one with all kinds of lines.
fn base(random: &mut Random) -> Sizes {
    if random.one_in(60) {
        let limit = random.below(LIMITS.len());
        return Sizes::at_limit(random, limit).naming(random);
    }
    Sizes::rich(random).naming(random)
}

/// A short list, for a bundle that will mostly be refused or stands beside another one.
fn few_calls(random: &mut Random, lines: &Lines) -> Vec<Call> {
    let length = random.below(6);
    Subject::of(lines).calls(random, length)
}

/// The text of lines with their end line.
fn sealed_text(lines: &Lines) -> Vec<u8> {
    let mut octets = frame::octets(lines);
    frame::close(&mut octets);
    frame::text(&octets)
}
