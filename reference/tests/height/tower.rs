//! Random policies with a tower among their formulas, and ways to make it one higher.

use crate::policy::{policy, Lines};
use crate::random::Random;
use crate::sizes::Sizes;
use crate::support::high_part::{HighPart, HIGH_PARTS};

/// A policy whose last formulas are a tower: a leaf, and stories of which each has the one before as
/// a part. The formulas of special use are known by number.
pub struct Tower {
    pub lines: Lines,
    /// Between the leaf and the lowest story, and as high as that.
    spare: u8,
    lowest: u8,
    highest: u8,
    /// After the highest story; it is true, and has no part.
    last: u8,
    /// A label in use, if there is any.
    label: u8,
}

/// A way to make the tower one higher, by the op and the part that do it: the altered formulas.
type Rise = fn(&Tower, HighPart) -> Vec<[u8; 3]>;

/// Every way, by name. In the last one all stories rise, though only the lowest is altered.
pub const RISES: [(&str, Rise); 3] = [
    ("one formula more, over the highest story", |tower, part| {
        tower.with(tower.last + 1, part, tower.highest)
    }),
    ("the last formula over the highest story", |tower, part| {
        tower.with(tower.last, part, tower.highest)
    }),
    ("the lowest story over the spare one", |tower, part| {
        tower.with(tower.lowest, part, tower.spare)
    }),
];

impl Tower {
    /// A small policy with a tower of so many stories. Some principals have its last formula, some
    /// the highest story.
    pub fn of(random: &mut Random, stories: u8) -> Tower {
        let small = Sizes::small(random).naming(random);
        let sizes = Sizes {
            edges: small.edges.min(14),
            formulas: small.formulas.min(20),
            principals: small.principals.min(6),
            ..small
        };
        let lines = policy(random, &sizes);
        let own = formulas(&lines).len() as u8;
        let label = lines.iter().find(|line| line[0] == 3);
        let mut tower = Tower {
            spare: own + 1,
            lowest: own + 2,
            highest: own + 1 + stories,
            last: own + 2 + stories,
            label: label.map_or(0, |line| line[1]),
            lines,
        };
        tower.build(random);
        tower.give_to_principals();
        tower
    }

    /// Puts the leaf, the spare formula, the stories and the last formula after the policy's own.
    fn build(&mut self, random: &mut Random) {
        let leaf = self.spare - 1;
        let mut all = formulas(&self.lines);
        all.push(random.pick(&[[0, 0, 0], [1, 0, 0], [2, 0, 0], [10, 0, 0]]));
        for number in self.spare..=self.highest {
            let is_low = number <= self.lowest;
            let below = if is_low { leaf } else { number - 1 };
            all.push(self.over(random.pick(&HIGH_PARTS), below));
        }
        all.push([0, 0, 0]);
        self.lines = lines_with(&self.lines, &all);
    }

    /// Of three principals the first has the last formula and the second the highest story.
    fn give_to_principals(&mut self) {
        let principals = self.lines.iter_mut().filter(|line| line[0] == 7);
        for (place, line) in principals.enumerate() {
            line[1] = [self.last, self.highest, line[1]][place % 3];
        }
    }

    /// A formula over another one, with a label in use, slot 0, or formula 0, which is a leaf.
    fn over(&self, part: HighPart, below: u8) -> [u8; 3] {
        let is_step = matches!(part.op, 7 | 8);
        part.over(below, if is_step { self.label } else { 0 })
    }

    /// The formulas with one over another in the place of a number, or after all of them.
    fn with(&self, number: u8, part: HighPart, below: u8) -> Vec<[u8; 3]> {
        let number = usize::from(number);
        let mut all = formulas(&self.lines);
        all.resize(all.len().max(number + 1), [0; 3]);
        all[number] = self.over(part, below);
        all
    }
}

/// The lines of a policy with other formulas.
pub fn lines_with(lines: &Lines, formulas: &[[u8; 3]]) -> Lines {
    let mut lines = lines.clone();
    lines.retain(|line| line[0] != 4);
    let place = lines.partition_point(|line| line[0] < 4);
    let formulas = formulas.iter().map(|formula| [&[4], &formula[..]].concat());
    lines.splice(place..place, formulas);
    lines
}

/// The formulas of a policy, by number.
fn formulas(lines: &Lines) -> Vec<[u8; 3]> {
    let of = lines.iter().filter(|line| line[0] == 4);
    of.map(|line| [line[1], line[2], line[3]]).collect()
}
