//! The formulas: their ranges, their height, and their truth.

use crate::policy::{Formula, Policy};

/// The vertex that each slot holds; none for an "unset slot". "In all three, a is 0 to 3."
type Slots = [Option<u8>; 4];

/// Request 2026-05: "The highest formula in service has height 5. Make that the limit in place of 8.
/// Height 6 is out of range, in a bundle and in a record handed in."
const HIGHEST: u8 = 5;

impl Policy {
    /// "An op is now out of range above 11"; "Formula numbers used are below the line's own";
    /// "Unused a or b is 0; anything else there is out of range"; the height is at most `HIGHEST`.
    ///
    /// Request 2026-03, of 9 to 11: "In all three, a is 0 to 3. In 9 and 11, b is a lower formula
    /// number"; op 10 "with b = 0".
    pub(crate) fn formula_in_range(&self, formula: Formula) -> bool {
        let Formula { op, a, b } = formula;
        let own = self.formulas.len();
        let below = |number: u8| usize::from(number) < own;
        let fits = match op {
            0..=2 => a == 0 && b == 0,
            3 => a <= 15 && b == 0,
            4 => below(a) && b == 0,
            5 | 6 => below(a) && below(b),
            7 | 8 => a <= 15 && below(b),
            9 | 11 => a <= 3 && below(b),
            10 => a <= 3 && b == 0,
            _ => false,
        };
        fits && self.height(formula) <= HIGHEST
    }

    /// "Height: 0 for ops 0 to 3, else one more than its highest child"; "In 9 and 11, ... the
    /// height is one more than b's; op 10 has height 0."
    fn height(&self, formula: Formula) -> u8 {
        let child = |number: u8| self.height(self.formulas[usize::from(number)]);
        match formula.op {
            4 => 1 + child(formula.a),
            5 | 6 => 1 + child(formula.a).max(child(formula.b)),
            7 | 8 | 9 | 11 => 1 + child(formula.b),
            _ => 0,
        }
    }

    /// "Each is evaluated at a vertex "here", for an object o and a requestor s"; "All slots are
    /// unset at the start of an evaluation."
    pub(crate) fn is_true(&self, number: u8, here: u8, o: u8, s: u8) -> bool {
        self.is_true_with([None; 4], number, here, (o, s))
    }

    /// The list under "Formulas", then that of request 2026-03: "Op 10 is true when slot a holds
    /// here, with b = 0. Op 11 evaluates b at the vertex in slot a. An unset slot makes 10 and 11
    /// false."
    fn is_true_with(&self, slots: Slots, number: u8, here: u8, (o, s): (u8, u8)) -> bool {
        let Formula { op, a, b } = self.formulas[usize::from(number)];
        let holds = |number: u8, vertex: u8| self.is_true_with(slots, number, vertex, (o, s));
        let mut edges = self.edges.iter();
        match op {
            0 => true,
            1 => here == s,
            2 => here == o,
            3 => self.holds_role(s, a),
            4 => !holds(a, here),
            5 => holds(a, here) && holds(b, here),
            6 => holds(a, here) || holds(b, here),
            7 => edges.any(|&(label, from, v)| label == a && from == here && holds(b, v)),
            8 => edges.any(|&(label, v, to)| label == a && to == here && holds(b, v)),
            9 => self.is_true_with(keeping(slots, a, here), b, here, (o, s)),
            10 => slots[usize::from(a)] == Some(here),
            11 => slots[usize::from(a)].is_some_and(|kept| holds(b, kept)),
            _ => unreachable!("the loader refuses an op above 11"),
        }
    }

    /// "3 s holds role a"; "role r, 0 to 15, has weight 2^r".
    fn holds_role(&self, s: u8, role: u8) -> bool {
        self.users
            .get(&s)
            .is_some_and(|roles| (roles >> role) & 1 == 1)
    }
}

/// "Op 9 keeps here in slot a (0 to 3) while b is evaluated; an inner op 9 on the same slot hides
/// the outer": b has slots of its own, and those outside stay as they are.
fn keeping(mut slots: Slots, a: u8, here: u8) -> Slots {
    slots[usize::from(a)] = Some(here);
    slots
}

#[cfg(test)]
mod tests {
    use super::{Formula, Policy, Slots};
    use std::collections::{BTreeMap, BTreeSet};

    /// Three objects in a ring of label 0; object 1 is a user with role 0. Formulas 0 to 12 use no
    /// op 10 or 11.
    fn ring() -> Policy {
        let formulas = [
            [0, 0, 0],
            [1, 0, 0],
            [2, 0, 0],
            [3, 0, 0],
            [4, 1, 0],
            [5, 2, 3],
            [6, 1, 2],
            [7, 0, 1],
            [8, 0, 6],
            [9, 0, 7],
            [7, 0, 9],
            [9, 1, 10],
            [5, 11, 8],
            [10, 2, 0],
            [11, 2, 2],
            [9, 2, 13],
        ];
        Policy {
            objects: 3,
            users: BTreeMap::from([(1, 1)]),
            edges: BTreeSet::from([(0, 0, 1), (0, 1, 2), (0, 2, 0)]),
            formulas: formulas.map(|[op, a, b]| Formula { op, a, b }).to_vec(),
            ..Policy::blank()
        }
    }

    /// Whatever the slots may hold on three objects.
    fn all_slots() -> impl Iterator<Item = Slots> {
        let vertex = |code: u8| code.checked_sub(1);
        (0..=255).map(move |code: u8| [6, 4, 2, 0].map(|shift| vertex(code >> shift & 3)))
    }

    #[test]
    fn a_formula_without_op_10_or_11_does_not_depend_on_the_slots() {
        let policy = ring();
        for (number, here) in (0..13).flat_map(|number| (0..3).map(move |here| (number, here))) {
            let unset = policy.is_true(number, here, 0, 1);
            for slots in all_slots() {
                let found = policy.is_true_with(slots, number, here, (0, 1));
                assert_eq!(found, unset, "{number} at {here} with {slots:?}");
            }
        }
    }

    #[test]
    fn ops_10_and_11_depend_on_their_own_slot_alone() {
        let policy = ring();
        for (slots, here) in all_slots().flat_map(|slots| (0..3).map(move |here| (slots, here))) {
            let holds = |number: u8| policy.is_true_with(slots, number, here, (0, 1));
            assert_eq!(holds(13), slots[2] == Some(here));
            assert_eq!(holds(14), slots[2] == Some(0));
            assert!(holds(15));
        }
    }
}
