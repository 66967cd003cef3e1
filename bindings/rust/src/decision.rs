//! What the eager and the lazy question answer.

use crate::Set;
use std::fmt;

/// The answer to a question that could be put.
///
/// `Ok` from [`Engine::eager`](crate::Engine::eager) or [`Engine::lazy`](crate::Engine::lazy) says only
/// that there is a decision; ask [`is_granted`](Decision::is_granted) for which.
#[derive(Clone, Copy, Debug, PartialEq, Eq, Hash)]
#[must_use]
pub enum Decision {
    /// Some set of grounds will do (number 0).
    Granted {
        /// The least such set: fewest members, then fewest role principals, then the smallest set
        /// number.
        set: Set,
        /// How many formulas were evaluated.
        evaluations: u8,
    },
    /// No set of grounds will do (number 17).
    Denied {
        /// How many formulas were evaluated.
        evaluations: u8,
    },
}

impl Decision {
    /// Whether it is a grant.
    pub fn is_granted(self) -> bool {
        matches!(self, Decision::Granted { .. })
    }

    /// The set granted, or `None` for a denial. The empty set is a grant too.
    pub fn set(self) -> Option<Set> {
        match self {
            Decision::Granted { set, .. } => Some(set),
            Decision::Denied { .. } => None,
        }
    }

    /// How many formulas were evaluated.
    pub fn evaluations(self) -> u8 {
        match self {
            Decision::Granted { evaluations, .. } | Decision::Denied { evaluations } => evaluations,
        }
    }
}

/// As in `granted {1, 2}, evaluations 2` and `denied, evaluations 1`.
impl fmt::Display for Decision {
    fn fmt(&self, f: &mut fmt::Formatter<'_>) -> fmt::Result {
        match self {
            Decision::Granted { set, evaluations } => {
                write!(f, "granted {set}, evaluations {evaluations}")
            }
            Decision::Denied { evaluations } => write!(f, "denied, evaluations {evaluations}"),
        }
    }
}
