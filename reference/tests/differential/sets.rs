//! The sets of a policy's principals, read off its lines: which of them are candidates for a method,
//! and their order. Nothing of the reference is used.

use crate::formulas::contain_roles;
use crate::policy::Lines;

/// What is known of each principal, by its number, and of pairs of them and of methods.
pub struct Sets {
    /// The number of its formula.
    pub formulas: Vec<u8>,
    /// The privileges of its demarcation and of all that are below it.
    gives: Vec<u64>,
    /// The set of all that it needs.
    needs: Vec<u32>,
    /// Each excluded pair, as a set.
    exclusions: Vec<u32>,
    /// All-of or not, and the privileges.
    methods: Vec<(bool, u64)>,
    /// The set of principals with a formula of op 3.
    pub roles: u32,
    /// The set of principals with a formula of another op that contains op 3.
    pub around_roles: u32,
}

/// What an order looks at between the number of members and the set number.
pub type Between = fn(&Sets, u32) -> u32;

impl Sets {
    /// Reads them off lines that load.
    pub fn of(lines: &Lines) -> Sets {
        let of = |kind: u8| lines.iter().filter(move |line| line[0] == kind);
        let formulas: Vec<[u8; 3]> = of(4).map(|line| [line[1], line[2], line[3]]).collect();
        let contain = contain_roles(&formulas);
        let own: Vec<u8> = of(7).map(|line| line[1]).collect();
        let is_role = |formula: u8| formulas[usize::from(formula)][0] == 3;
        let is_around = |formula: u8| contain[usize::from(formula)] && !is_role(formula);
        let gives = privileges(lines);
        Sets {
            gives: of(7).map(|line| gives[usize::from(line[2])]).collect(),
            needs: needs(lines, own.len()),
            exclusions: of(8).map(|line| 1 << line[1] | 1 << line[2]).collect(),
            methods: of(10)
                .map(|line| (line[1] == 1, weight(&line[2..])))
                .collect(),
            roles: set_of(&own, is_role),
            around_roles: set_of(&own, is_around),
            formulas: own,
        }
    }

    /// "candidates are the consistent sets that meet the guard, from all principals".
    pub fn candidates(&self, method: u8) -> Vec<u32> {
        let (all_of, asked) = self.methods[usize::from(method)];
        let meets = |set: u32| {
            let held = members(set).fold(0, |held, p| held | self.gives[p]);
            if all_of {
                asked & !held == 0
            } else {
                asked & held != 0
            }
        };
        let sets = 0..1 << self.formulas.len();
        sets.filter(|&set| self.is_consistent(set) && meets(set))
            .collect()
    }

    /// "It is consistent if it holds no excluded pair and, with each member, all that member's
    /// prerequisites."
    fn is_consistent(&self, set: u32) -> bool {
        let excluded = self.exclusions.iter().any(|pair| pair & !set == 0);
        !excluded && members(set).all(|p| self.needs[p] & !set == 0)
    }

    /// The place of a set in an order: by members, by what is between, by number.
    pub fn place(&self, between: Between, set: u32) -> (u32, u32, u32) {
        (set.count_ones(), between(self, set), set)
    }

    /// The order before the request: nothing is between.
    pub fn nothing(&self, _: u32) -> u32 {
        0
    }

    /// The order of the request: "fewer role principals (formula of op 3)".
    pub fn role_principals(&self, set: u32) -> u32 {
        (set & self.roles).count_ones()
    }

    /// Mistaken: principals whose formula is of op 3 or contains it.
    pub fn containing(&self, set: u32) -> u32 {
        (set & (self.roles | self.around_roles)).count_ones()
    }

    /// Mistaken: the different formulas of op 3.
    pub fn role_formulas(&self, set: u32) -> u32 {
        let numbers = members(set & self.roles).map(|p| self.formulas[p]);
        numbers
            .fold(0u64, |all, number| all | 1 << number)
            .count_ones()
    }
}

/// The members of a set in rising number.
pub fn members(set: u32) -> impl Iterator<Item = usize> {
    let end = u32::BITS - set.leading_zeros();
    (0..end as usize).filter(move |p| set >> p & 1 == 1)
}

/// The set of those principals whose formula is such a one.
fn set_of(own: &[u8], is_such: impl Fn(u8) -> bool) -> u32 {
    let such = (0..own.len()).filter(|&p| is_such(own[p]));
    such.fold(0, |set, p| set | 1 << p)
}

/// The privileges of each demarcation with those of all that are below it.
fn privileges(lines: &Lines) -> Vec<u64> {
    let of = |kind: u8| lines.iter().filter(move |line| line[0] == kind);
    let mut gives: Vec<u64> = of(5).map(|line| weight(&line[1..])).collect();
    for _ in 0..gives.len() {
        for line in of(6) {
            gives[usize::from(line[2])] |= gives[usize::from(line[1])];
        }
    }
    gives
}

/// What each of so many principals needs, through all steps.
fn needs(lines: &Lines, count: usize) -> Vec<u32> {
    let mut needs = vec![0; count];
    for _ in 0..count {
        for line in lines.iter().filter(|line| line[0] == 9) {
            needs[usize::from(line[2])] |= 1 << line[1] | needs[usize::from(line[1])];
        }
    }
    needs
}

/// "privileges (8 octets; privilege k has weight 2^k)".
fn weight(octets: &[u8]) -> u64 {
    octets
        .iter()
        .fold(0, |sum, &octet| sum << 8 | u64::from(octet))
}
