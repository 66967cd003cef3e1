//! The engine: a record, and the calls on it.

use crate::call::{accepted, decision, verdict, ANSWER_OCTETS, CALL_OCTETS};
use crate::record::Record;
use crate::{Answer, Call, Decision, Edge, Question, Refused, Ticket};
use std::fmt;

/// The rules of a bundle, the edges as they were edited since, their index, and the memo of the last question.
///
/// A clone is a snapshot: what happens to one does not happen to the other. To replace the rules, load the
/// new bundle and keep the old engine until it is accepted: `engine = Engine::load(&bundle)?`.
///
/// Questions and edits change the record and take `&mut self`. Different engines may be used at the same
/// time by different threads.
#[derive(Clone)]
pub struct Engine {
    record: Box<Record>,
}

impl Engine {
    /// Loads a bundle, or says what is wrong with it and in which line (numbers 1 to 9).
    pub fn load(bundle: &[u8]) -> Result<Engine, Refused> {
        let mut record = Record::zero();
        let result = record.load(bundle);
        match result.number {
            0 => Ok(Engine { record }),
            number => Err(Refused::of_number(number, result.value as u32)),
        }
    }

    /// Adds an edge. Refused with 10, 11 or 13; then nothing changes.
    pub fn add(&mut self, edge: Edge) -> Result<(), Refused> {
        accepted(self.record.answered(Call::Add(edge)))
    }

    /// Removes an edge. Refused with 10 or 12; then nothing changes.
    pub fn remove(&mut self, edge: Edge) -> Result<(), Refused> {
        accepted(self.record.answered(Call::Remove(edge)))
    }

    /// Decides, with every ground evaluated unless the memo knows it. Refused with 14, 15 or 16.
    pub fn eager(&mut self, question: Question) -> Result<Decision, Refused> {
        decision(self.record.answered(Call::Eager(question)))
    }

    /// Decides as [`eager`](Engine::eager) does, by the same set, with no more grounds evaluated than the
    /// candidates ask for. Refused with 14, 15 or 16.
    pub fn lazy(&mut self, question: Question) -> Result<Decision, Refused> {
        decision(self.record.answered(Call::Lazy(question)))
    }

    /// Whether all enabled grounds together meet the guard, constraints ignored. Refused with 14, 15 or 16.
    pub fn liberal(&self, question: Question) -> Result<bool, Refused> {
        verdict(self.copy().answered(Call::Liberal(question)))
    }

    /// Whether one enabled ground alone meets the guard, constraints ignored. Refused with 14, 15 or 16.
    pub fn strict(&self, question: Question) -> Result<bool, Refused> {
        verdict(self.copy().answered(Call::Strict(question)))
    }

    /// Accepts a proposed grant exactly when every member of its set is a principal and enabled, the set is
    /// consistent, and it meets the guard: whoever proposed it, and whether or not another set is less.
    /// Everything is evaluated afresh. Refused with 14, 15 or 16, then 20, 21 or 22, the first that applies.
    pub fn ticket(&self, ticket: Ticket) -> Result<(), Refused> {
        accepted(self.copy().answered(Call::Ticket(ticket)))
    }

    /// Answers a list of calls, each on the record that those before it left. It is quicker than one call
    /// after another, and answers the same.
    pub fn answer(&mut self, calls: &[Call]) -> Vec<Answer> {
        let asked: Vec<u8> = calls.iter().flat_map(|call| call.octets()).collect();
        let mut answers = vec![0; calls.len() * ANSWER_OCTETS];
        let count = self.record.answer(&asked, &mut answers);
        assert_eq!(count, calls.len() as u64, "every call has an answer");
        let octets = answers.chunks_exact(ANSWER_OCTETS);
        let octets = octets.map(|answer| answer.try_into().expect("an answer has 5 octets"));
        let answered = calls.iter().zip(octets);
        answered.map(|(call, octets)| call.answer(octets)).collect()
    }

    /// The rules as a bundle, with the edges as they are now. Index and memo are not written.
    pub fn write(&self) -> Vec<u8> {
        let needed = self.record.write(&mut []);
        let mut bundle = vec![0; needed.value];
        let written = self.record.write(&mut bundle);
        assert_eq!(written.number, 0, "a record that was loaded can be written");
        bundle
    }

    /// A copy to ask of, where the record stays.
    fn copy(&self) -> Record {
        self.record.as_ref().clone()
    }
}

impl Record {
    /// The octets of the answer to one call.
    fn answered(&mut self, call: Call) -> [u8; ANSWER_OCTETS] {
        let asked: [u8; CALL_OCTETS] = call.octets();
        let mut answer = [0; ANSWER_OCTETS];
        let count = self.answer(&asked, &mut answer);
        assert_eq!(count, 1, "one call has one answer");
        answer
    }
}

impl fmt::Debug for Engine {
    fn fmt(&self, f: &mut fmt::Formatter<'_>) -> fmt::Result {
        f.debug_struct("Engine").finish_non_exhaustive()
    }
}
