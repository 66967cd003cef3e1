//! The two predicates, liberal and strict.

use crate::grounds::{members, Grounds};
use crate::policy::Policy;

/// "Both evaluate afresh without the memo, ignore constraints, return yes or no, and leave the
/// record."
impl Policy {
    /// "Liberal (definition 10) asks whether all enabled principals together meet the guard".
    pub fn liberal(&self, method: u8, object: u8, requestor: u8) -> Result<bool, u8> {
        let method = self.checked(method, object, requestor)?;
        let enabled = self.enabled_afresh(object, requestor);
        Ok(Grounds::of(self).meets(enabled, method))
    }

    /// "strict (definition 11), whether one alone does."
    pub fn strict(&self, method: u8, object: u8, requestor: u8) -> Result<bool, u8> {
        let method = self.checked(method, object, requestor)?;
        let enabled = self.enabled_afresh(object, requestor);
        let grounds = Grounds::of(self);
        let mut alone = members(enabled).map(|p| 1 << p);
        Ok(alone.any(|set| grounds.meets(set, method)))
    }

    /// All principals that are enabled.
    fn enabled_afresh(&self, o: u8, s: u8) -> u32 {
        (0..self.principals.len())
            .filter(|&p| self.is_enabled_afresh(p, o, s))
            .fold(0, |set, p| set | 1 << p)
    }

    /// "A principal is enabled when its formula is true at o", here "afresh without the memo".
    pub(crate) fn is_enabled_afresh(&self, principal: usize, o: u8, s: u8) -> bool {
        self.is_true(self.principals[principal].formula, o, o, s)
    }
}
