//! Grant tickets: the check of a set that somebody proposed.

use crate::grounds::{members, Grounds};
use crate::policy::Policy;

impl Policy {
    /// Request 2026-01: "accept a ticket that passes 19 and 14 to 16 exactly when every member is a
    /// principal and enabled, the set is consistent, and it meets the guard, whoever proposed it";
    /// "20 for a member that is no principal or isn't enabled, 21 for a set that isn't consistent,
    /// 22 for a guard not met, tested in that order after 19 and 14 to 16". It "returns the number
    /// alone and leaves the record, memo included".
    pub fn check_ticket(&self, method: u8, object: u8, requestor: u8, set: u32) -> u8 {
        let method = match self.checked(method, object, requestor) {
            Ok(method) => method,
            Err(number) => return number,
        };
        if !members(set).all(|p| self.is_enabled_principal(p, object, requestor)) {
            return 20;
        }
        let grounds = Grounds::of(self);
        if !grounds.consistent(set) {
            return 21;
        }
        if !grounds.meets(set, method) {
            return 22;
        }
        0
    }

    /// "every member is a principal and enabled"; "The checker evaluates afresh".
    fn is_enabled_principal(&self, member: usize, o: u8, s: u8) -> bool {
        member < self.principals.len() && self.is_enabled_afresh(member, o, s)
    }
}

#[cfg(test)]
mod tests {
    use crate::policy::{Formula, Memo, Method, Policy, Principal};
    use std::collections::BTreeMap;

    /// "A record built by hand may hold any memo": the two formulas are true and false, and the
    /// memo of the ticket's own pair says the opposite of both.
    fn with_a_wrong_memo() -> Policy {
        let formula = |op| Formula { op, a: 0, b: 0 };
        let principal = |formula| Principal {
            formula,
            demarcation: 0,
        };
        Policy {
            users: BTreeMap::from([(0, 0)]),
            formulas: vec![formula(0), formula(3)],
            demarcations: vec![1],
            principals: vec![principal(0), principal(1)],
            methods: vec![Method {
                all_of: true,
                privileges: 1,
            }],
            memo: Memo {
                pair: (0, 0),
                known: BTreeMap::from([(0, false), (1, true)]),
            },
            ..Policy::blank()
        }
    }

    #[test]
    fn a_ticket_is_evaluated_afresh_and_leaves_the_memo() {
        let record = with_a_wrong_memo();
        let before = record.clone();
        assert_eq!(record.check_ticket(0, 0, 0, 0b01), 0);
        assert_eq!(record.check_ticket(0, 0, 0, 0b10), 20);
        assert_eq!(record, before);
        assert_eq!(record.clone().ask_lazy(0, 0, 0).set, 0b10);
    }
}
