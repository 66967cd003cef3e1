//! Sets of principals.

use std::fmt;

/// A set of principals, the grounds of a grant. It may name principals that the rules do not have; a ticket
/// with such a set is refused.
#[derive(Clone, Copy, Default, PartialEq, Eq, Hash)]
pub struct Set(u32);

impl Set {
    /// The set that has this number.
    pub fn of_number(number: u32) -> Set {
        Set(number)
    }

    /// The set of these members; `None` if one is above 31, which no set number has room for.
    pub fn of_members(members: impl IntoIterator<Item = u8>) -> Option<Set> {
        let mut number = 0;
        for principal in members {
            number |= 1u32.checked_shl(u32::from(principal))?;
        }
        Some(Set(number))
    }

    /// Document 01's set number: the sum of 2^p over the members.
    pub fn number(self) -> u32 {
        self.0
    }

    /// The members, rising.
    pub fn members(self) -> impl Iterator<Item = u8> {
        (0..32).filter(move |&principal| self.contains(principal))
    }

    /// Whether the principal is a member.
    pub fn contains(self, principal: u8) -> bool {
        principal < 32 && self.0 >> principal & 1 == 1
    }

    /// How many members there are.
    pub fn len(self) -> usize {
        self.0.count_ones() as usize
    }

    /// Whether there is no member. The empty set may be granted, by a guard that asks for nothing.
    pub fn is_empty(self) -> bool {
        self.0 == 0
    }
}

/// The members in braces, as in `{1, 2}`.
impl fmt::Display for Set {
    fn fmt(&self, f: &mut fmt::Formatter<'_>) -> fmt::Result {
        f.debug_set().entries(self.members()).finish()
    }
}

impl fmt::Debug for Set {
    fn fmt(&self, f: &mut fmt::Formatter<'_>) -> fmt::Result {
        fmt::Display::fmt(self, f)
    }
}
