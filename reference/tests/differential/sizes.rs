//! How large a generated policy is: small ones, and ones at each limit of the contract.

use crate::random::Random;
use crate::support::HIGHEST;

/// How many lines of each kind, and from how many values they are drawn.
#[derive(Clone, Copy)]
pub struct Sizes {
    pub objects: usize,
    pub users: usize,
    pub labels: usize,
    pub edges: usize,
    pub formulas: usize,
    /// Whether the first formulas form a tower of the greatest height.
    pub tower: bool,
    /// From how many slots ops 9 to 11 are drawn; with 0 there are none of these ops.
    pub slots: usize,
    pub demarcations: usize,
    pub hierarchy: usize,
    pub principals: usize,
    pub exclusions: usize,
    pub prerequisites: usize,
    pub methods: usize,
    pub privileges: usize,
    /// Whether label 15, role 15 and privilege 63 are used.
    pub top: bool,
    /// Whether one demarcation gives little and methods ask for much, so that sets grow.
    pub joint: bool,
    /// Whether about half of the principals have a formula of op 3, and others one that contains it.
    pub roles: bool,
}

/// The limits, by name; `Sizes::at_limit` takes the place in this list.
pub const LIMITS: [&str; 16] = [
    "1 object",
    "255 objects",
    "255 users",
    "512 edges",
    "64 formulas",
    "the greatest height",
    "20 demarcations",
    "190 hierarchy pairs",
    "20 principals",
    "190 exclusions",
    "190 prerequisites",
    "32 methods",
    "label 15",
    "role 15",
    "privilege 63",
    "all of these (with 255 objects)",
];

impl Sizes {
    /// Mostly small, since the reference weighs every set of principals.
    pub fn small(random: &mut Random) -> Sizes {
        let objects = match random.below(8) {
            0 => random.between(1, 255),
            _ => random.between(1, 7),
        };
        let wide = random.one_in(8);
        let joint = random.one_in(3);
        let least = if joint { 4 } else { 1 };
        let principals = random.between(least, if wide { 12 } else { 7 });
        Sizes {
            objects,
            users: random.between(1, 5),
            labels: random.between(1, 3),
            edges: random.between(0, if wide { 90 } else { 14 }),
            formulas: random.between(1, if wide { 30 } else { 9 }),
            tower: random.one_in(12),
            slots: 0,
            demarcations: random.between(least, 6),
            hierarchy: random.below(4),
            principals,
            exclusions: random.below(principals),
            prerequisites: random.below(principals),
            methods: random.between(1, 6),
            privileges: random.between(least, 6),
            top: random.one_in(6),
            joint,
            roles: false,
        }
    }

    /// Now and then the same, oftener where sets are to grow; else with ops 9 to 11, mostly on few
    /// slots, so that they meet, and with some formulas more, if there are any.
    pub fn naming(mut self, random: &mut Random) -> Sizes {
        self.slots = match self.joint && random.one_in(2) {
            true => 0,
            false => random.pick(&[0, 0, 1, 1, 1, 2, 2, 3, 4]),
        };
        if self.slots > 0 && self.formulas > 0 {
            self.formulas = 64.min(self.formulas + random.between(2, 8));
        }
        self
    }

    /// Now and then a kind of line is missing altogether.
    pub fn sparse(random: &mut Random) -> Sizes {
        let mut sizes = Sizes::small(random);
        match random.below(6) {
            0 => sizes.users = 0,
            1 => sizes.edges = 0,
            2 => sizes.formulas = 0,
            3 => sizes.demarcations = 0,
            4 => sizes.principals = 0,
            _ => sizes.methods = 0,
        }
        sizes
    }

    /// More principals than is usual, short of the limit.
    pub fn wide(random: &mut Random) -> Sizes {
        let mut sizes = Sizes::small(random);
        sizes.principals = random.between(12, 17);
        sizes.formulas = random.between(8, 40);
        sizes.demarcations = random.between(3, 20);
        sizes.hierarchy = random.below(30);
        sizes.exclusions = random.below(40);
        sizes.prerequisites = random.below(20);
        sizes.privileges = random.between(3, 9);
        sizes.joint = !random.one_in(3);
        sizes
    }

    /// Many role principals, of few formulas, and each privilege given by several principals, so
    /// that many sets with equally few members meet a guard.
    pub fn role_principals(random: &mut Random) -> Sizes {
        let most = if random.one_in(12) { 14 } else { 10 };
        let principals = random.between(5, most);
        Sizes {
            users: random.between(2, 5),
            formulas: random.between(10, 14),
            tower: false,
            demarcations: random.between(4, 5),
            hierarchy: random.below(2),
            principals,
            exclusions: random.below(6),
            prerequisites: random.below(3),
            privileges: 3,
            joint: false,
            roles: true,
            ..Sizes::small(random)
        }
    }

    /// A graph that is full, or will be after a few edges more.
    pub fn crowded(random: &mut Random) -> Sizes {
        let mut sizes = Sizes::small(random);
        sizes.objects = random.between(8, 60);
        (sizes.labels, sizes.edges) = (16, random.between(508, 512));
        sizes
    }

    /// At least three of everything, so that each kind of line can be damaged.
    pub fn rich(random: &mut Random) -> Sizes {
        let mut sizes = Sizes::small(random);
        sizes.objects = sizes.objects.max(4);
        sizes.users = sizes.users.max(3);
        sizes.edges = sizes.edges.clamp(3, 20);
        sizes.formulas = sizes.formulas.max(3);
        sizes.demarcations = sizes.demarcations.max(4);
        sizes.hierarchy = sizes.hierarchy.max(3);
        sizes.principals = sizes.principals.clamp(4, 7);
        sizes.exclusions = sizes.exclusions.max(2);
        sizes.prerequisites = sizes.prerequisites.max(3);
        sizes
    }

    /// A small policy with one number raised to its limit, or all of them together.
    pub fn at_limit(random: &mut Random, limit: usize) -> Sizes {
        let small = Sizes::small(random);
        match limit {
            0..=5 => small.graph_limit(random, limit),
            6..=11 => small.ground_limit(random, limit),
            12..=14 => Sizes { top: true, ..small },
            _ => Sizes::full(),
        }
    }

    /// The limits of objects, users, edges and formulas.
    fn graph_limit(mut self, random: &mut Random, limit: usize) -> Sizes {
        match limit {
            0 => self.objects = 1,
            1 => self.objects = 255,
            2 => (self.objects, self.users) = (255, 255),
            3 => {
                (self.labels, self.edges) = (16, 512);
                self.objects = random.between(8, 60);
            }
            4 => self.formulas = 64,
            _ => {
                self.formulas = self.formulas.max(usize::from(HIGHEST) + 1);
                self.tower = true;
            }
        }
        self
    }

    /// The limits of demarcations, principals, their pairs, and methods.
    fn ground_limit(mut self, random: &mut Random, limit: usize) -> Sizes {
        match limit {
            6 => self.demarcations = 20,
            7 => (self.demarcations, self.hierarchy) = (20, 190),
            8 => self.principals = 20,
            9 => (self.principals, self.exclusions) = (20, 190),
            10 => (self.principals, self.prerequisites) = (20, 190),
            _ => self.methods = 32,
        }
        if random.one_in(2) {
            self.formulas = self.formulas.max(12);
        }
        self
    }

    /// Every limit in one bundle.
    fn full() -> Sizes {
        Sizes {
            objects: 255,
            users: 255,
            labels: 16,
            edges: 512,
            formulas: 64,
            tower: true,
            slots: 0,
            demarcations: 20,
            hierarchy: 190,
            principals: 20,
            exclusions: 190,
            prerequisites: 190,
            methods: 32,
            privileges: 12,
            top: true,
            joint: false,
            roles: false,
        }
    }
}
