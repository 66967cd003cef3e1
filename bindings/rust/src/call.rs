//! Calls and answers, and their octets.

use crate::{Decision, Refused, Set};

/// How many octets a call has.
pub(crate) const CALL_OCTETS: usize = 8;

/// How many octets an answer has.
pub(crate) const ANSWER_OCTETS: usize = 5;

/// An edge of the relationship graph.
#[derive(Clone, Copy, Debug, PartialEq, Eq, Hash)]
pub struct Edge {
    /// The relation, 0 to 15.
    pub label: u8,
    /// The object that the edge leaves.
    pub from: u8,
    /// The object that it leads to.
    pub to: u8,
}

/// Who asks to do what with which object.
#[derive(Clone, Copy, Debug, PartialEq, Eq, Hash)]
pub struct Question {
    /// The method to be used.
    pub method: u8,
    /// The object to use it on.
    pub object: u8,
    /// The user who asks.
    pub requestor: u8,
}

/// A grant that somebody proposes: the answer to a question, to be checked.
#[derive(Clone, Copy, Debug, PartialEq, Eq, Hash)]
pub struct Ticket {
    /// What is to be granted, and to whom.
    pub question: Question,
    /// The grounds it is to be granted on.
    pub set: Set,
}

/// One call of a list, for [`Engine::answer`](crate::Engine::answer).
#[derive(Clone, Copy, Debug, PartialEq, Eq, Hash)]
pub enum Call {
    /// Adds an edge.
    Add(Edge),
    /// Removes an edge.
    Remove(Edge),
    /// Asks eagerly: every ground is evaluated.
    Eager(Question),
    /// Asks lazily: grounds are evaluated as candidates need them.
    Lazy(Question),
    /// Asks whether all enabled grounds together meet the guard.
    Liberal(Question),
    /// Asks whether one enabled ground alone meets the guard.
    Strict(Question),
    /// Checks a proposed grant.
    Ticket(Ticket),
}

/// The answer to one call of a list.
#[derive(Clone, Copy, Debug, PartialEq, Eq, Hash)]
pub enum Answer {
    /// To [`Call::Add`] and [`Call::Remove`].
    Edit(Result<(), Refused>),
    /// To [`Call::Eager`] and [`Call::Lazy`].
    Decision(Result<Decision, Refused>),
    /// To [`Call::Liberal`] and [`Call::Strict`]: yes or no.
    Verdict(Result<bool, Refused>),
    /// To [`Call::Ticket`]: accepted, or why not.
    Ticket(Result<(), Refused>),
}

impl Call {
    /// Kind, three numbers, then a ticket's set number in 4 octets with the high one first.
    pub(crate) fn octets(self) -> [u8; CALL_OCTETS] {
        match self {
            Call::Add(edge) => edge.octets(0),
            Call::Remove(edge) => edge.octets(1),
            Call::Eager(question) => question.octets(2),
            Call::Lazy(question) => question.octets(3),
            Call::Liberal(question) => question.octets(4),
            Call::Strict(question) => question.octets(5),
            Call::Ticket(ticket) => ticket.octets(6),
        }
    }

    /// What the answer's octets say to this call.
    pub(crate) fn answer(self, octets: [u8; ANSWER_OCTETS]) -> Answer {
        match self {
            Call::Add(_) | Call::Remove(_) => Answer::Edit(accepted(octets)),
            Call::Eager(_) | Call::Lazy(_) => Answer::Decision(decision(octets)),
            Call::Liberal(_) | Call::Strict(_) => Answer::Verdict(verdict(octets)),
            Call::Ticket(_) => Answer::Ticket(accepted(octets)),
        }
    }
}

impl Edge {
    fn octets(self, kind: u8) -> [u8; CALL_OCTETS] {
        call(kind, [self.label, self.from, self.to], Set::default())
    }
}

impl Question {
    fn octets(self, kind: u8) -> [u8; CALL_OCTETS] {
        self.with(kind, Set::default())
    }

    fn with(self, kind: u8, set: Set) -> [u8; CALL_OCTETS] {
        call(kind, [self.method, self.object, self.requestor], set)
    }
}

impl Ticket {
    fn octets(self, kind: u8) -> [u8; CALL_OCTETS] {
        self.question.with(kind, self.set)
    }
}

/// The octets of a call; the set is of use in a ticket alone.
fn call(kind: u8, [x, y, z]: [u8; 3], set: Set) -> [u8; CALL_OCTETS] {
    let [highest, high, low, lowest] = set.number().to_be_bytes();
    [kind, x, y, z, highest, high, low, lowest]
}

/// The answer to an edit or a ticket.
pub(crate) fn accepted(octets: [u8; ANSWER_OCTETS]) -> Result<(), Refused> {
    match octets[0] {
        0 => Ok(()),
        number => Err(Refused::of_number(number, 0)),
    }
}

/// The answer to an eager or lazy question: number 17 is a denial.
pub(crate) fn decision(octets: [u8; ANSWER_OCTETS]) -> Result<Decision, Refused> {
    let evaluations = octets[4];
    match octets[0] {
        0 => Ok(Decision::Granted {
            set: set(octets),
            evaluations,
        }),
        17 => Ok(Decision::Denied { evaluations }),
        number => Err(Refused::of_number(number, 0)),
    }
}

/// The answer to liberal or strict: 1 for yes.
pub(crate) fn verdict(octets: [u8; ANSWER_OCTETS]) -> Result<bool, Refused> {
    match octets[0] {
        0 => Ok(!set(octets).is_empty()),
        number => Err(Refused::of_number(number, 0)),
    }
}

/// The set number, in 3 octets with the high one first.
fn set(octets: [u8; ANSWER_OCTETS]) -> Set {
    Set::of_number(u32::from_be_bytes([0, octets[1], octets[2], octets[3]]))
}
