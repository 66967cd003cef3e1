//! What decides a ticket, sentence by sentence, read off a policy's lines for one object and one
//! requestor. Nothing of the reference is used.

use crate::policy::Lines;

/// A policy's lines, with the object o and the requestor s.
pub struct Sentences<'a> {
    lines: &'a Lines,
    o: u8,
    s: u8,
}

impl Sentences<'_> {
    /// The sentences about an object and a requestor.
    pub fn of(lines: &Lines, o: u8, s: u8) -> Sentences<'_> {
        Sentences { lines, o, s }
    }

    /// How many principals there are.
    pub fn principal_count(&self) -> usize {
        self.of_kind(7).len()
    }

    /// "20 for a member that is no principal or isn't enabled, 21 for a set that isn't consistent,
    /// 22 for a guard not met, tested in that order".
    pub fn number(&self, method: u8, set: u32) -> u8 {
        let members: Vec<u8> = (0..32).filter(|p| set >> p & 1 == 1).collect();
        let count = self.principal_count();
        let is_principal = |p: u8| usize::from(p) < count;
        if !members
            .iter()
            .all(|&p| is_principal(p) && self.is_enabled(p))
        {
            20
        } else if !self.is_consistent(&members) {
            21
        } else if !self.is_met(method, &members) {
            22
        } else {
            0
        }
    }

    /// Where a set stands in the order: "fewest members", then of "equally few members, the one with
    /// fewer role principals (formula of op 3) now comes first, and then the smaller set number".
    pub fn place(&self, set: u32) -> (u32, usize, u32) {
        let (formulas, principals) = (self.of_kind(4), self.of_kind(7));
        let is_role = |p: usize| formulas[usize::from(principals[p][0])][0] == 3;
        let members = (0..principals.len()).filter(|p| set >> p & 1 == 1);
        let roles = members.filter(|&p| is_role(p)).count();
        (set.count_ones(), roles, set)
    }

    /// The bodies of the lines of a kind, by number.
    fn of_kind(&self, kind: u8) -> Vec<&[u8]> {
        let of = self.lines.iter().filter(|line| line[0] == kind);
        of.map(|line| &line[1..]).collect()
    }

    /// "A principal is enabled when its formula is true at o"; "All slots are unset at the start of
    /// an evaluation."
    fn is_enabled(&self, p: u8) -> bool {
        let formula = self.of_kind(7)[usize::from(p)][0];
        self.is_true(formula, self.o, &[])
    }

    /// "Each is evaluated at a vertex "here", for an object o and a requestor s." What ops 9 keep
    /// is a list of slots with their vertices, the innermost last.
    fn is_true(&self, formula: u8, here: u8, kept: &[(u8, u8)]) -> bool {
        let body = self.of_kind(4)[usize::from(formula)];
        let (a, b) = (body[1], body[2]);
        let edges = self.of_kind(3);
        let holds = |formula: u8, here: u8| self.is_true(formula, here, kept);
        let inner = kept.iter().rfind(|(slot, _)| *slot == a);
        match body[0] {
            0 => true,
            1 => here == self.s,
            2 => here == self.o,
            3 => self.holds_role(a),
            4 => !holds(a, here),
            5 => holds(a, here) && holds(b, here),
            6 => holds(a, here) || holds(b, here),
            7 => {
                let mut from = edges.iter().filter(|edge| edge[..2] == [a, here]);
                from.any(|edge| holds(b, edge[2]))
            }
            8 => {
                let mut to = edges.iter().filter(|edge| edge[0] == a && edge[2] == here);
                to.any(|edge| holds(b, edge[1]))
            }
            9 => self.is_true(b, here, &[kept, &[(a, here)]].concat()),
            10 => inner.is_some_and(|&(_, vertex)| vertex == here),
            _ => inner.is_some_and(|&(_, vertex)| holds(b, vertex)),
        }
    }

    /// "s holds role a".
    fn holds_role(&self, a: u8) -> bool {
        let user = self.of_kind(2).into_iter().find(|user| user[0] == self.s);
        user.is_some_and(|user| u16::from_be_bytes([user[1], user[2]]) >> a & 1 == 1)
    }

    /// "the reflexive and transitive closure" of the pairs of a kind.
    fn reaches(&self, kind: u8, first: u8, last: u8) -> bool {
        let pairs = self.of_kind(kind);
        let mut next = pairs.iter().filter(|pair| pair[0] == first);
        first == last || next.any(|pair| self.reaches(kind, pair[1], last))
    }

    /// "It is consistent if it holds no excluded pair and, with each member, all that member's
    /// prerequisites."
    fn is_consistent(&self, members: &[u8]) -> bool {
        let pairs = self.of_kind(8);
        let excluded = pairs
            .iter()
            .any(|pair| members.contains(&pair[0]) && members.contains(&pair[1]));
        let complete = |&q: &u8| {
            let mut needed = (0..20).filter(|&p| self.reaches(9, p, q));
            needed.all(|p| members.contains(&p))
        };
        !excluded && members.iter().all(complete)
    }

    /// "A set of principals has privilege k if some member's demarcation is, or is above, one that
    /// lists k."
    fn has(&self, members: &[u8], k: u32) -> bool {
        let (principals, demarcations) = (self.of_kind(7), self.of_kind(5));
        members.iter().any(|&p| {
            let above = principals[usize::from(p)][1];
            (0u8..)
                .zip(&demarcations)
                .any(|(below, body)| self.reaches(6, below, above) && weights(body) >> k & 1 == 1)
        })
    }

    /// "One-of needs at least one listed privilege; all-of needs every one."
    fn is_met(&self, method: u8, members: &[u8]) -> bool {
        let body = self.of_kind(10)[usize::from(method)];
        let mut listed = (0..64).filter(|k| weights(&body[1..]) >> k & 1 == 1);
        match body[0] {
            0 => listed.any(|k| self.has(members, k)),
            _ => listed.all(|k| self.has(members, k)),
        }
    }
}

/// "privileges (8 octets; privilege k has weight 2^k)".
fn weights(octets: &[u8]) -> u64 {
    octets
        .iter()
        .fold(0, |sum, &octet| sum << 8 | u64::from(octet))
}
