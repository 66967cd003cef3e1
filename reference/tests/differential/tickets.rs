//! The sets that tickets propose: what a question grants, something near it, and anything else.

use crate::random::Random;
use reference::Policy;

/// What the sets for the tickets of one question are drawn from.
pub struct Proposals {
    principal_count: usize,
    /// The set of all enabled principals.
    enabled: u32,
    /// The set that the question grants, if that was looked for and there is one.
    granted: Option<u32>,
}

/// The set of all enabled principals; where the question is refused with 14 to 16, all of them.
pub fn enabled(record: &Policy, question: [u8; 3], principal_count: usize) -> u32 {
    let [method, object, requestor] = question;
    let alone = |p: &usize| record.check_ticket(method, object, requestor, 1 << p);
    let enabled = (0..principal_count).filter(|p| alone(p) != 20);
    enabled.fold(0, |set, p| set | 1 << p)
}

impl Proposals {
    /// Those of a question on a record; what it grants is looked for only if that is affordable.
    pub fn of(
        record: &Policy,
        [method, object, requestor]: [u8; 3],
        principal_count: usize,
        affordable: bool,
    ) -> Proposals {
        let granted = affordable
            .then(|| record.clone().ask_lazy(method, object, requestor))
            .filter(|answer| answer.number == 0);
        Proposals {
            principal_count,
            enabled: enabled(record, [method, object, requestor], principal_count),
            granted: granted.map(|answer| answer.set),
        }
    }

    /// Mostly a set near one that is accepted, and now and then any number at all.
    pub fn set(&self, random: &mut Random) -> u32 {
        let any = random.next() as u32;
        let enabled = self.enabled & any;
        let near = self.granted.unwrap_or(enabled);
        match random.below(10) {
            0..=2 => near,
            3 | 4 => near ^ self.principal(random),
            5 | 6 => enabled,
            7 => enabled & random.next() as u32,
            8 => any,
            _ => random.pick(&[0, near, enabled]) | self.no_principal(random),
        }
    }

    /// Any one principal, whether it is enabled or not.
    fn principal(&self, random: &mut Random) -> u32 {
        1 << random.below(self.principal_count)
    }

    /// A single bit at or above the count of principals.
    fn no_principal(&self, random: &mut Random) -> u32 {
        let first = self.principal_count;
        let any = random.between(first, 31);
        1 << random.pick(&[first, any, 31])
    }
}
