//! Formulas by whole tables: for each, its truth at every vertex with every content of the slots,
//! made from the tables of the formulas below it.

use crate::graph::Graph;

/// What the slots hold, as a number: in base N + 1 the digit of slot a is 0 if it is unset, and
/// else one more than its vertex.
type Content = usize;

/// The tables of a graph's formulas.
pub struct Tables<'a> {
    graph: &'a Graph,
    /// By formula, then by content and vertex.
    tables: Vec<Vec<bool>>,
}

impl Tables<'_> {
    /// Makes the tables in rising number; "Formula numbers used are below the line's own."
    pub fn of(graph: &Graph) -> Tables<'_> {
        let mut tables = Tables {
            graph,
            tables: Vec::new(),
        };
        for &formula in &graph.formulas {
            let rows = (0..tables.contents()).flat_map(|slots| tables.row(formula, slots));
            let table = rows.collect();
            tables.tables.push(table);
        }
        tables
    }

    /// "All slots are unset at the start of an evaluation."
    pub fn is_true(&self, number: u8, here: u8) -> bool {
        self.at(number, here, 0)
    }

    /// Whether a formula is the same at each vertex whatever the slots hold.
    pub fn ignores_slots(&self, number: u8) -> bool {
        let rows = self.tables[usize::from(number)].chunks(self.graph.objects.into());
        let first: &[bool] = &self.tables[usize::from(number)][..self.graph.objects.into()];
        rows.into_iter().all(|row| row == first)
    }

    /// How many contents the four slots have.
    fn contents(&self) -> usize {
        self.weight(4)
    }

    /// What slot a's digit counts.
    fn weight(&self, a: u8) -> usize {
        (usize::from(self.graph.objects) + 1).pow(a.into())
    }

    /// The vertex in slot a, if it is set.
    fn kept(&self, slots: Content, a: u8) -> Option<u8> {
        let digit = slots % self.weight(a + 1) / self.weight(a);
        (digit as u8).checked_sub(1)
    }

    /// The content with a vertex in slot a, whatever was there.
    fn keeping(&self, slots: Content, a: u8, vertex: u8) -> Content {
        let old = self.kept(slots, a).map_or(0, |old| usize::from(old) + 1);
        slots + (usize::from(vertex) + 1) * self.weight(a) - old * self.weight(a)
    }

    /// What the table of a lower formula says.
    fn at(&self, number: u8, here: u8, slots: Content) -> bool {
        let place = slots * usize::from(self.graph.objects) + usize::from(here);
        self.tables[usize::from(number)][place]
    }

    /// The truth of a formula at every vertex with one content of the slots.
    fn row(&self, [op, a, b]: [u8; 3], slots: Content) -> Vec<bool> {
        let graph = self.graph;
        let truth = |here: u8| match op {
            0 => true,
            1 => here == graph.s,
            2 => here == graph.o,
            3 => graph.s_holds(a),
            4 => !self.at(a, here, slots),
            5 => self.at(a, here, slots) & self.at(b, here, slots),
            6 => self.at(a, here, slots) | self.at(b, here, slots),
            7 => graph.ahead(a, here).any(|v| self.at(b, v, slots)),
            8 => graph.behind(a, here).any(|v| self.at(b, v, slots)),
            9 => self.at(b, here, self.keeping(slots, a, here)),
            10 => self.kept(slots, a) == Some(here),
            _ => self.kept(slots, a).is_some_and(|v| self.at(b, v, slots)),
        };
        (0..graph.objects).map(truth).collect()
    }
}
