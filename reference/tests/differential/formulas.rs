//! Valid formula lines whose plain evaluation stays cheap.

use crate::policy::Lines;
use crate::random::Random;
use crate::sizes::Sizes;
use crate::support::high_part::{HighPart, HIGH_PARTS};
use crate::support::HIGHEST;

/// Above this many visits of an edge or formula, a formula is not taken up.
const COSTLIEST: u64 = 20_000;

/// The formulas so far, with their heights and the worst cost of evaluating each one.
pub struct Formulas<'a> {
    edges: &'a [[u8; 3]],
    labels: &'a [u8],
    slots: &'a [u8],
    lines: Lines,
    heights: Vec<u8>,
    costs: Vec<u64>,
}

/// The formulas that a formula names.
pub fn children([op, a, b]: [u8; 3]) -> Vec<u8> {
    match op {
        4 => vec![a],
        5 | 6 => vec![a, b],
        7 | 8 | 9 | 11 => vec![b],
        _ => Vec::new(),
    }
}

/// Whether each formula is of op 3 or contains one that is, directly or through others.
pub fn contain_roles(formulas: &[[u8; 3]]) -> Vec<bool> {
    let mut contain = Vec::new();
    for &formula in formulas {
        let mut parts = children(formula).into_iter();
        let inside = parts.any(|part| contain[usize::from(part)]);
        contain.push(formula[0] == 3 || inside);
    }
    contain
}

impl Formulas<'_> {
    /// No formulas yet, to be evaluated over these edges, with ops 9 to 11 on these slots.
    pub fn over<'a>(edges: &'a [[u8; 3]], labels: &'a [u8], slots: &'a [u8]) -> Formulas<'a> {
        Formulas {
            edges,
            labels,
            slots,
            lines: Vec::new(),
            heights: Vec::new(),
            costs: Vec::new(),
        }
    }

    /// As many formula lines as asked, with a tower of the greatest height first where it is asked
    /// for.
    pub fn lines(mut self, random: &mut Random, sizes: &Sizes) -> Lines {
        let top = usize::from(HIGHEST);
        if sizes.roles {
            self.about_roles(random, sizes);
        }
        while self.lines.len() < sizes.formulas {
            let own = self.lines.len();
            let in_tower = sizes.tower && (1..=top).contains(&own);
            if own > 0 && !in_tower && self.has_slots() && random.one_in(2) {
                self.sentence(random);
                continue;
            }
            let formula = match own {
                0 if sizes.top => [3, 15, 0],
                0 => self.leaf(random, sizes),
                _ if in_tower && own == top => self.over_last(random),
                _ if in_tower => self.compound(random, own - 1),
                _ if random.one_in(3) => self.leaf(random, sizes),
                _ => {
                    let child = random.below(own).max(random.below(own));
                    self.compound(random, child)
                }
            };
            // Where even a negation on top would be too costly, the tower begins anew.
            if !self.take(formula) && in_tower && !self.take([4, own as u8 - 1, 0]) {
                self.take([0, 0, 0]);
            }
        }
        self.lines.truncate(sizes.formulas);
        self.lines
    }

    /// One to three formulas of op 3, then some that contain one of them under another op, then one
    /// that is true and a step to the requestor.
    fn about_roles(&mut self, random: &mut Random, sizes: &Sizes) {
        for place in 0..random.between(1, 3) {
            let any = random.octet_between(0, 15);
            let role = if sizes.top && place == 0 { 15 } else { any };
            self.add([3, role, 0]);
        }
        let roles = self.lines.len();
        for _ in 0..random.between(2, 4) {
            let role = random.below(roles);
            let formula = self.compound(random, role);
            self.add(formula);
        }
        self.add([0, 0, 0]);
        let requestor = self.add([1, 0, 0]);
        let op = random.pick(&[7, 8]);
        self.add([op, random.pick(self.labels), requestor]);
    }

    /// Whether ops 9 to 11 are drawn. Where they are not, nothing is drawn for their sake.
    fn has_slots(&self) -> bool {
        !self.slots.is_empty()
    }

    /// A formula of op 0 to 3, oftener true where sets are to grow; with slots, now and then op 10.
    fn leaf(&self, random: &mut Random, sizes: &Sizes) -> [u8; 3] {
        if self.has_slots() && random.one_in(3) {
            return [10, random.pick(self.slots), 0];
        }
        match random.below(6) {
            0 => [0, 0, 0],
            1 | 2 if sizes.joint => [0, 0, 0],
            1 | 2 => [1, 0, 0],
            3 => [2, 0, 0],
            _ => [3, random.octet_between(0, 15), 0],
        }
    }

    /// A formula of op 4 to 8 with this child, and any other where it has two; with slots, now and
    /// then op 9 or 11.
    fn compound(&self, random: &mut Random, child: usize) -> [u8; 3] {
        let other = random.below(self.lines.len()) as u8;
        let child = child as u8;
        if self.has_slots() && random.one_in(3) {
            let op = random.pick(&[9, 9, 11]);
            return [op, random.pick(self.slots), child];
        }
        match random.octet_between(4, 9) {
            4 => [4, child, 0],
            5 => [5, child, other],
            6 => [6, other, child],
            op => [op.min(8), random.pick(self.labels), child],
        }
    }

    /// The last formula as the high part of another, by every op that has a part; ops 9 and 11 only
    /// with slots.
    fn over_last(&self, random: &mut Random) -> [u8; 3] {
        let last = self.lines.len() as u8 - 1;
        let all = HIGH_PARTS.into_iter();
        let usable: Vec<HighPart> = all.filter(|part| part.op < 9 || self.has_slots()).collect();
        let part = random.pick(&usable);
        let other = match part.op {
            7 | 8 => random.pick(self.labels),
            9 | 11 => random.pick(self.slots),
            _ => 0,
        };
        part.over(last, other)
    }

    /// Formulas that say together: a vertex is kept, and some steps on it is asked for. On the way
    /// another one may be kept, around what follows or beside it. What is inside leaves height for
    /// the ops around it.
    fn sentence(&mut self, random: &mut Random) {
        let slot = random.pick(self.slots);
        let looked = self.look(random, slot);
        let inside = match random.below(3) {
            0 => self.inner_around(random, slot, looked),
            1 => self.inner_beside(random, slot, looked),
            _ => self.steps(random, looked, HIGHEST - 1),
        };
        let kept = self.add([9, slot, inside]);
        self.steps(random, kept, HIGHEST);
    }

    /// Another vertex is kept around steps to a formula.
    fn inner_around(&mut self, random: &mut Random, slot: u8, looked: u8) -> u8 {
        let number = self.steps(random, looked, HIGHEST - 2);
        let inner_slot = self.near(random, slot);
        let inner = self.add([9, inner_slot, number]);
        self.steps(random, inner, HIGHEST - 1)
    }

    /// Another vertex is kept beside steps to a formula, and looked at in there.
    fn inner_beside(&mut self, random: &mut Random, slot: u8, looked: u8) -> u8 {
        let number = self.steps(random, looked, HIGHEST - 2);
        let inner_slot = self.near(random, slot);
        let other = self.look(random, inner_slot);
        let inner = self.add([9, inner_slot, other]);
        let op = random.pick(&[5, 6]);
        let pair = random.pick(&[[inner, number], [number, inner]]);
        let both = self.add([op, pair[0], pair[1]]);
        self.steps(random, both, HIGHEST - 1)
    }

    /// A slot is looked at: whether it holds here, or what is true at its vertex; or the opposite.
    fn look(&mut self, random: &mut Random, slot: u8) -> u8 {
        let slot = self.near(random, slot);
        let look = if random.one_in(2) {
            self.add([10, slot, 0])
        } else {
            let other = self.near(random, slot);
            let leaf = self.add(random.pick(&[[1, 0, 0], [2, 0, 0], [10, other, 0]]));
            self.add([11, slot, leaf])
        };
        match random.one_in(3) {
            true => self.add([4, look, 0]),
            false => look,
        }
    }

    /// Mostly this slot, or else any.
    fn near(&self, random: &mut Random, slot: u8) -> u8 {
        let any = random.pick(self.slots);
        random.pick(&[slot, slot, any])
    }

    /// None to two steps around a formula, as long as the whole is at most so high.
    fn steps(&mut self, random: &mut Random, number: u8, most: u8) -> u8 {
        let steps = random.pick(&[0, 1, 1, 2]);
        (0..steps).fold(number, |number, _| {
            if self.heights[usize::from(number)] >= most {
                return number;
            }
            self.add([random.pick(&[7, 8]), random.pick(self.labels), number])
        })
    }

    /// The number of a formula that is taken up, or else of the last one.
    fn add(&mut self, formula: [u8; 3]) -> u8 {
        self.take(formula);
        self.lines.len() as u8 - 1
    }

    /// Takes a formula up unless it is too high or too costly.
    fn take(&mut self, formula: [u8; 3]) -> bool {
        let (height, cost) = self.measures(formula);
        let fits = height <= HIGHEST && cost <= COSTLIEST;
        if fits {
            self.heights.push(height);
            self.costs.push(cost);
            self.lines.push([&[4], &formula[..]].concat());
        }
        fits
    }

    /// Height and worst cost: a step looks at every edge, and follows those of its label.
    fn measures(&self, [op, a, b]: [u8; 3]) -> (u8, u64) {
        let (first, second) = (usize::from(a), usize::from(b));
        match op {
            4 => (1 + self.heights[first], 1 + self.costs[first]),
            5 | 6 => (
                1 + self.heights[first].max(self.heights[second]),
                1 + self.costs[first] + self.costs[second],
            ),
            7 | 8 => (
                1 + self.heights[second],
                1 + self.edges.len() as u64 + self.degree(op, a) * self.costs[second],
            ),
            9 | 11 => (1 + self.heights[second], 1 + self.costs[second]),
            _ => (0, 1),
        }
    }

    /// The most edges of a label that leave (op 7) or enter (op 8) one object.
    fn degree(&self, op: u8, label: u8) -> u64 {
        let end = usize::from(op) - 6;
        let mut counts = [0; 256];
        for edge in self.edges.iter().filter(|edge| edge[0] == label) {
            counts[usize::from(edge[end])] += 1;
        }
        counts.into_iter().max().unwrap_or(0)
    }
}
