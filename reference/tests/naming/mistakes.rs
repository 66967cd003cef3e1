//! Mistaken readings of request 2026-03, to see that random policies tell them from the right one.

use crate::graph::Graph;

/// What the slots hold; one set of them, which op 9 changes and puts right again.
type Slots = [Option<u8>; 4];

/// The ways to be mistaken.
#[derive(Clone, Copy, Debug, PartialEq)]
pub enum Mistake {
    KeepsNothing,
    KeepsTheObject,
    OuterIsNotHidden,
    OuterDoesNotComeBack,
    SlotStaysSetBehindOp9,
    AllSlotsAreOne,
    UnsetSlotHoldsHere,
    UnsetSlotStaysHere,
    Op11StaysHere,
    Op11UnsetsTheSlots,
}

use Mistake::*;

/// All of them.
pub const MISTAKES: [Mistake; 10] = [
    KeepsNothing,
    KeepsTheObject,
    OuterIsNotHidden,
    OuterDoesNotComeBack,
    SlotStaysSetBehindOp9,
    AllSlotsAreOne,
    UnsetSlotHoldsHere,
    UnsetSlotStaysHere,
    Op11StaysHere,
    Op11UnsetsTheSlots,
];

/// Evaluation with one mistake, or with none.
pub struct Reading<'a> {
    pub graph: &'a Graph,
    pub mistake: Option<Mistake>,
}

impl Reading<'_> {
    /// The truth of a formula at a vertex, all slots unset.
    pub fn is_true(&self, number: u8, here: u8) -> bool {
        self.holds(number, here, &mut [None; 4])
    }

    /// The truth of a formula at a vertex.
    fn holds(&self, number: u8, here: u8, slots: &mut Slots) -> bool {
        let [op, a, b] = self.graph.formula(number);
        let slot = match self.mistake {
            Some(AllSlotsAreOne) => 0,
            _ => usize::from(a & 3),
        };
        match op {
            0 => true,
            1 => here == self.graph.s,
            2 => here == self.graph.o,
            3 => self.graph.s_holds(a),
            4 => !self.holds(a, here, slots),
            5 => self.holds(a, here, slots) && self.holds(b, here, slots),
            6 => self.holds(a, here, slots) || self.holds(b, here, slots),
            7 => self.graph.ahead(a, here).any(|v| self.holds(b, v, slots)),
            8 => self.graph.behind(a, here).any(|v| self.holds(b, v, slots)),
            9 => self.keep(slot, b, here, slots),
            10 => self.is_slot(slots[slot], here),
            _ => self.at_slot(slots[slot], b, here, slots),
        }
    }

    /// Op 9.
    fn keep(&self, slot: usize, b: u8, here: u8, slots: &mut Slots) -> bool {
        let outer = slots[slot];
        slots[slot] = match self.mistake {
            Some(KeepsNothing) => outer,
            Some(KeepsTheObject) => Some(self.graph.o),
            Some(OuterIsNotHidden) => outer.or(Some(here)),
            _ => Some(here),
        };
        let value = self.holds(b, here, slots);
        slots[slot] = match self.mistake {
            Some(OuterDoesNotComeBack) => None,
            Some(SlotStaysSetBehindOp9) => slots[slot],
            _ => outer,
        };
        value
    }

    /// Op 10.
    fn is_slot(&self, kept: Option<u8>, here: u8) -> bool {
        kept == Some(here) || kept.is_none() && self.mistake == Some(UnsetSlotHoldsHere)
    }

    /// Op 11.
    fn at_slot(&self, kept: Option<u8>, b: u8, here: u8, slots: &mut Slots) -> bool {
        let vertex = match self.mistake {
            Some(UnsetSlotStaysHere) => kept.or(Some(here)),
            Some(Op11StaysHere) => kept.and(Some(here)),
            _ => kept,
        };
        match (vertex, self.mistake) {
            (None, _) => false,
            (Some(v), Some(Op11UnsetsTheSlots)) => self.holds(b, v, &mut [None; 4]),
            (Some(v), _) => self.holds(b, v, slots),
        }
    }
}
