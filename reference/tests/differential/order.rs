//! The order of sets (request 2026-06): how the questions of a list are answered by it, and which of
//! the answers would be others by another order.

use crate::frame;
use crate::sets::{members, Between, Sets};
use crate::support::Call;
use crate::tickets::enabled;
use reference::Policy;

/// What an answer may show of the order.
#[derive(Clone, Copy, Default)]
pub struct Shown {
    /// By members and number alone, another set would be granted.
    pub by_roles: bool,
    /// It has a role principal, though a larger set has none.
    pub role_stays: bool,
    /// It has a role principal, and another set has as many of them and as few members.
    pub by_number: bool,
    /// A member's formula contains op 3; were this a role principal, another set would be granted.
    pub contained: bool,
    /// If formulas of op 3 counted and not their principals, another set would be granted.
    pub shared: bool,
    /// By members and number alone, there would be more or fewer evaluations.
    pub evaluations: bool,
}

/// The answer to a call and what it shows; no answer where the call is no question or is refused with
/// 14 to 16.
#[derive(Clone, Copy, Default)]
pub struct Read {
    pub answer: Option<[u8; 5]>,
    pub shown: Shown,
}

/// What a list of calls comes to on the rules of a text that loads; nothing if all principals or none
/// are role principals.
pub fn read(text: &[u8], calls: &[Call]) -> Vec<Read> {
    let sets = Sets::of(&frame::first_lines(text, usize::MAX));
    if sets.roles == 0 || sets.roles.count_ones() as usize == sets.formulas.len() {
        return Vec::new();
    }
    let mut list = List {
        sets,
        record: Policy::load(text).expect("the text loads"),
        pair: (0, 0),
        known: 0,
    };
    calls.iter().map(|call| list.read(call)).collect()
}

/// A list of calls on its way.
struct List {
    sets: Sets,
    /// The record, edited but not asked: what its memo knows stands here.
    record: Policy,
    pair: (u8, u8),
    /// The set of known formulas.
    known: u64,
}

/// A question: its candidates, and the set of enabled principals.
struct Question<'a> {
    sets: &'a Sets,
    candidates: Vec<u32>,
    enabled: u32,
}

impl List {
    /// The next call.
    fn read(&mut self, call: &Call) -> Read {
        let [kind, x, y, z, ..] = *call;
        let number = match kind {
            0 => self.record.add_edge(x, y, z),
            1 => self.record.remove_edge(x, y, z),
            2 | 3 => return self.question(kind == 3, [x, y, z]),
            _ => return Read::default(),
        };
        if number == 0 {
            (self.pair, self.known) = ((0, 0), 0);
        }
        Read::default()
    }

    /// A question, eager or lazy.
    fn question(&mut self, lazy: bool, asked: [u8; 3]) -> Read {
        let [method, object, requestor] = asked;
        let number = self.record.check_ticket(method, object, requestor, 0);
        if matches!(number, 14..=16) {
            return Read::default();
        }
        if self.pair != (object, requestor) {
            (self.pair, self.known) = ((object, requestor), 0);
        }
        let question = Question {
            sets: &self.sets,
            candidates: self.sets.candidates(method),
            enabled: enabled(&self.record, asked, self.sets.formulas.len()),
        };
        let (read, known) = question.read(lazy, self.known);
        self.known = known;
        read
    }
}

impl Question<'_> {
    /// The answer and what it shows, and the formulas that are known then.
    fn read(&self, lazy: bool, known: u64) -> (Read, u64) {
        let least = self.least(Sets::role_principals);
        let [after, before_request] = match lazy {
            true => [Sets::role_principals, Sets::nothing].map(|by| self.known_by_lazy(by, known)),
            false => [self.known_by_eager(known); 2],
        };
        let [_, high, middle, low] = least.unwrap_or(0).to_be_bytes();
        let number = if least.is_some() { 0 } else { 17 };
        let evaluations = (after & !known).count_ones();
        let shown = least.map_or_else(Shown::default, |granted| self.shown(granted));
        let read = Read {
            answer: Some([number, high, middle, low, evaluations as u8]),
            shown: Shown {
                evaluations: evaluations != (before_request & !known).count_ones(),
                ..shown
            },
        };
        (read, after)
    }

    /// The candidates without a member that is not enabled.
    fn satisfying(&self) -> impl Iterator<Item = u32> + '_ {
        let all = self.candidates.iter().copied();
        all.filter(|set| set & !self.enabled == 0)
    }

    /// The first of these in an order.
    fn least(&self, between: Between) -> Option<u32> {
        self.satisfying()
            .min_by_key(|&set| self.sets.place(between, set))
    }

    /// What the granted set shows, evaluations aside. A set without role principals that comes after
    /// one with them is larger.
    fn shown(&self, granted: u32) -> Shown {
        let roles = |set: u32| self.sets.role_principals(set);
        let size = granted.count_ones();
        let has_role = roles(granted) > 0;
        let alike = |set: u32| set.count_ones() == size && roles(set) == roles(granted);
        let contains = granted & self.sets.around_roles != 0;
        let other_by = |between: Between| self.least(between) != Some(granted);
        Shown {
            by_roles: other_by(Sets::nothing),
            role_stays: has_role && self.satisfying().any(|set| roles(set) == 0),
            by_number: has_role && self.satisfying().any(|set| set != granted && alike(set)),
            contained: contains && other_by(Sets::containing),
            shared: other_by(Sets::role_formulas),
            evaluations: false,
        }
    }

    /// "each principal in rising number has its formula evaluated unless known".
    fn known_by_eager(&self, known: u64) -> u64 {
        let formulas = self.sets.formulas.iter();
        formulas.fold(known, |known, formula| known | 1 << formula)
    }

    /// "A candidate with a member whose formula is known false is passed over. Otherwise members are
    /// taken in rising number and evaluated unless known. The first member not enabled ends that
    /// candidate. The first candidate that survives is the answer."
    fn known_by_lazy(&self, between: Between, mut known: u64) -> u64 {
        let mut candidates = self.candidates.clone();
        candidates.sort_unstable_by_key(|&set| self.sets.place(between, set));
        let formula = |p: usize| 1 << self.sets.formulas[p];
        let is_enabled = |p: usize| self.enabled >> p & 1 == 1;
        for set in candidates {
            let is_false = |p: usize| known & formula(p) != 0 && !is_enabled(p);
            if members(set).any(is_false) {
                continue;
            }
            let mut evaluated = |p: usize| {
                known |= formula(p);
                is_enabled(p)
            };
            if members(set).all(&mut evaluated) {
                break;
            }
        }
        known
    }
}
