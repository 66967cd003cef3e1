//! The bundles of a run, by the edges that they have.

use crate::random::Random;
use crate::sizes::Sizes;

/// What the edges of a bundle are like.
#[derive(Clone, Copy)]
pub enum Shape {
    Small,
    Empty,
    OneLabel,
    AllLabels,
    NearlyFull,
    Full,
}

/// The shapes in turn.
pub fn of_number(number: usize) -> Shape {
    let shapes = [
        Shape::Small,
        Shape::Empty,
        Shape::OneLabel,
        Shape::AllLabels,
        Shape::NearlyFull,
        Shape::Full,
    ];
    shapes[number % shapes.len()]
}

impl Shape {
    /// The sizes of a bundle; principals are few, since the reference weighs every set.
    pub fn sizes(self, random: &mut Random) -> Sizes {
        let small = Sizes::small(random).naming(random);
        let mut sizes = Sizes {
            principals: small.principals.min(6),
            ..small
        };
        match self {
            Shape::Small => (),
            Shape::Empty => sizes.edges = 0,
            Shape::OneLabel => {
                sizes.objects = random.between(23, 255);
                sizes.edges = random.pick(&[3, 30, 200, 400, 511, 512]);
                sizes.top = random.one_in(4);
                sizes.labels = usize::from(!sizes.top);
            }
            Shape::AllLabels => {
                sizes.objects = random.between(8, 60);
                (sizes.labels, sizes.edges) = (16, random.between(150, 500));
            }
            Shape::NearlyFull => {
                sizes.objects = random.between(8, 255);
                (sizes.labels, sizes.edges) = (16, random.between(504, 511));
            }
            Shape::Full => {
                sizes.objects = random.between(8, 255);
                (sizes.labels, sizes.edges) = (random.pick(&[8, 16]), 512);
            }
        }
        sizes
    }

    /// How many edits are made, and how many in ten of them add an edge, first and then.
    pub fn edits(self) -> [(usize, usize); 2] {
        match self {
            Shape::Small => [(20, 0), (12, 8)],
            Shape::Empty => [(12, 10), (12, 2)],
            Shape::OneLabel | Shape::AllLabels => [(12, 8), (12, 3)],
            Shape::NearlyFull => [(12, 10), (8, 4)],
            Shape::Full => [(8, 3), (16, 9)],
        }
    }
}
