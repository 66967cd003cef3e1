//! The questions, eager and lazy.

use crate::grounds::{least_first, members, Grounds};
use crate::policy::{Memo, Method, Policy};
use std::collections::BTreeMap;

/// "Both return the set and the evaluations", and the number.
#[derive(Clone, Copy, Debug, PartialEq, Eq)]
pub struct Answer {
    pub number: u8,
    pub set: u32,
    pub evaluations: u8,
}

impl Policy {
    /// "Eager: each principal in rising number has its formula evaluated unless known; the answer
    /// is the least consistent set of enabled principals that meets the guard."
    pub fn ask_eager(&mut self, method: u8, object: u8, requestor: u8) -> Answer {
        self.ask(method, object, requestor, Policy::eager_set)
    }

    /// "Lazy: candidates are the consistent sets that meet the guard, from all principals, least
    /// first. ... The first candidate that survives is the answer."
    pub fn ask_lazy(&mut self, method: u8, object: u8, requestor: u8) -> Answer {
        self.ask(method, object, requestor, Policy::lazy_set)
    }

    /// "19 comes first, then: ... questions 14, 15, 16", the same for liberal and strict and for
    /// tickets; otherwise the method named.
    pub(crate) fn checked(&self, method: u8, object: u8, requestor: u8) -> Result<Method, u8> {
        if !self.is_loadable() {
            return Err(19);
        }
        let method = *self.methods.get(usize::from(method)).ok_or(14)?;
        if !self.is_object(object) {
            return Err(15);
        }
        if !self.users.contains_key(&requestor) {
            return Err(16);
        }
        Ok(method)
    }

    /// "the evaluations: the number of formulas known after and not known before (before is
    /// counted after the emptying)"; "no set will do" is 17.
    fn ask(
        &mut self,
        method: u8,
        object: u8,
        requestor: u8,
        search: fn(&mut Policy, Method) -> Option<u32>,
    ) -> Answer {
        let method = match self.checked(method, object, requestor) {
            Ok(method) => method,
            Err(number) => return refused(number),
        };
        self.memo.turn_to((object, requestor));
        let before = self.memo.known.len();
        let found = search(self, method);
        Answer {
            number: if found.is_some() { 0 } else { 17 },
            set: found.unwrap_or(0),
            evaluations: (self.memo.known.len() - before) as u8,
        }
    }

    /// Evaluates every principal, then takes the least set there is.
    fn eager_set(&mut self, method: Method) -> Option<u32> {
        let mut enabled = 0;
        for p in 0..self.principals.len() {
            if self.enabled(p) {
                enabled |= 1 << p;
            }
        }
        let grounds = Grounds::of(self);
        least_first(self).find(|&set| {
            set & !enabled == 0 && grounds.consistent(set) && grounds.meets(set, method)
        })
    }

    /// Goes through the candidates, evaluating only what each one asks for. Request 2026-06: "The
    /// lazy order of candidates follows."
    fn lazy_set(&mut self, method: Method) -> Option<u32> {
        let grounds = Grounds::of(self);
        least_first(self)
            .filter(|&set| grounds.consistent(set) && grounds.meets(set, method))
            .find(|&candidate| self.survives(candidate))
    }

    /// "A candidate with a member whose formula is known false is passed over. Otherwise members
    /// are taken in rising number and evaluated unless known. The first member not enabled ends
    /// that candidate."
    fn survives(&mut self, candidate: u32) -> bool {
        let known_false = members(candidate).any(|p| {
            let formula = self.principals[p].formula;
            self.memo.known.get(&formula) == Some(&false)
        });
        !known_false && members(candidate).all(|p| self.enabled(p))
    }

    /// "evaluated unless known"; "Evaluated values stay in the memo. Only principals' own formulas
    /// enter it".
    fn enabled(&mut self, principal: usize) -> bool {
        let formula = self.principals[principal].formula;
        if let Some(&value) = self.memo.known.get(&formula) {
            return value;
        }
        let (o, s) = self.memo.pair;
        let value = self.is_true(formula, o, o, s);
        self.memo.known.insert(formula, value);
        value
    }
}

impl Memo {
    /// "If the memo's pair differs, the memo is first emptied and takes the new pair."
    fn turn_to(&mut self, pair: (u8, u8)) {
        if self.pair != pair {
            let known = BTreeMap::new();
            *self = Memo { pair, known };
        }
    }
}

/// "number, empty set, 0".
fn refused(number: u8) -> Answer {
    Answer {
        number,
        set: 0,
        evaluations: 0,
    }
}
