//! Document 01's ops: the truth of formulas of ops 0 to 8, as it was before request 2026-03.

use crate::graph::Graph;

impl Graph {
    /// "Each is evaluated at a vertex "here", for an object o and a requestor s."
    pub fn is_true_in_document_01(&self, number: u8, here: u8) -> bool {
        let [op, a, b] = self.formula(number);
        let holds = |number: u8, here: u8| self.is_true_in_document_01(number, here);
        match op {
            0 => true,
            1 => here == self.s,
            2 => here == self.o,
            3 => self.s_holds(a),
            4 => !holds(a, here),
            5 => holds(a, here) && holds(b, here),
            6 => holds(a, here) || holds(b, here),
            7 => self.ahead(a, here).any(|v| holds(b, v)),
            8 => self.behind(a, here).any(|v| holds(b, v)),
            _ => unreachable!("document 01 has no op above 8"),
        }
    }
}
