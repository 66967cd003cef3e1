//! Which formulas of request 2026-03 a valid bundle has.

use crate::formulas::children;
use crate::policy::Lines;

/// What is looked for, by name.
pub const SHAPES: [&str; 6] = [
    "op 9",
    "op 10",
    "op 11",
    "op 9 inside op 9 on the same slot",
    "op 9 inside op 9 on another slot",
    "op 11 inside a step inside op 9 on the same slot",
];

/// The formulas of a bundle, each with those that it uses, directly or through others.
struct Formulas {
    formulas: Vec<[u8; 3]>,
    /// A set of formulas by number, itself included.
    inside: Vec<u64>,
}

/// Whether each shape is there.
pub fn shapes(lines: &Lines) -> [bool; SHAPES.len()] {
    let all = Formulas::of(lines);
    let mut shapes = [false; SHAPES.len()];
    for &[op, slot, b] in &all.formulas {
        shapes[0] |= op == 9;
        shapes[1] |= op == 10;
        shapes[2] |= op == 11;
        if op == 9 {
            shapes[3] |= all.inside(b).any(|[op, a, _]| op == 9 && a == slot);
            shapes[4] |= all.inside(b).any(|[op, a, _]| op == 9 && a != slot);
            shapes[5] |= all.returns(b, slot);
        }
    }
    shapes
}

impl Formulas {
    /// Reads them off the lines.
    fn of(lines: &Lines) -> Formulas {
        let mut all = Formulas {
            formulas: Vec::new(),
            inside: Vec::new(),
        };
        for line in lines.iter().filter(|line| line[0] == 4) {
            let formula = [line[1], line[2], line[3]];
            let used = children(formula).into_iter();
            let itself = 1 << all.formulas.len();
            let inside = used.fold(itself, |set, child| set | all.inside[usize::from(child)]);
            all.inside.push(inside);
            all.formulas.push(formula);
        }
        all
    }

    /// The formulas inside one, itself included.
    fn inside(&self, number: u8) -> impl Iterator<Item = [u8; 3]> + '_ {
        let set = self.inside[usize::from(number)];
        let numbers = (0..self.formulas.len()).filter(move |number| set >> number & 1 == 1);
        numbers.map(|number| self.formulas[number])
    }

    /// Whether an op 11 on this slot is inside a step inside this formula.
    fn returns(&self, number: u8, slot: u8) -> bool {
        let to_slot = |[op, a, _]: [u8; 3]| op == 11 && a == slot;
        self.inside(number)
            .any(|[op, _, b]| matches!(op, 7 | 8) && self.inside(b).any(to_slot))
    }
}
