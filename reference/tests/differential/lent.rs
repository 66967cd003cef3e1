//! A lent record at both implementations, and the three functions on it.

use crate::engine::{self, Record};
use crate::outcome::{same_if, Checked, Difference, Outcome, Step};
use reference::{Policy, CALL_OCTETS};

/// So many bytes before and after the engine's record must stay.
const GUARD: usize = 32;

/// What those bytes are.
const AROUND: [u8; GUARD] = [0xA5; GUARD];

/// The engine's record with the bytes around it.
#[repr(C)]
struct Guarded {
    before: [u8; GUARD],
    record: Record,
    after: [u8; GUARD],
}

/// The same record at both, and what was done with it.
pub struct Lent {
    reference: Policy,
    engine: Box<Guarded>,
    steps: Vec<Step>,
}

impl Lent {
    /// A record that nothing was loaded into yet.
    pub fn zeroed() -> Lent {
        Lent {
            reference: Policy::zeroed(),
            engine: guarded(Record::zeroed()),
            steps: Vec::new(),
        }
    }

    /// A record that a bundle was loaded into.
    pub fn loaded(text: &[u8]) -> Checked<Lent> {
        let mut lent = Lent::zeroed();
        lent.load(text)?;
        Ok(lent)
    }

    /// Copies the engine's record to another place, where it goes on.
    pub fn moved(&mut self) {
        self.engine = guarded(self.engine.record.clone());
    }

    /// Loads a bundle; the value.
    pub fn load(&mut self, text: &[u8]) -> Checked<u64> {
        self.steps.push(Step::Load(text.to_vec()));
        let reference = Outcome::of(0, 0, |_| reference::load(&mut self.reference, text));
        let engine = Outcome::of(0, 0, |_| engine::load(&mut self.engine.record, text));
        let outcome = self.both("load", reference, engine)?;
        self.must_be_indexed("load: another index than that of the edges", &outcome)?;
        Ok(outcome.value)
    }

    /// Answers calls into a buffer of a length and a filling; where none of them is an edit or a
    /// question, both records stay, the engine's to the last bit.
    pub fn answer(&mut self, calls: &[u8], (length, fill): (usize, u8)) -> Checked<Outcome> {
        self.steps.push(Step::Answer(calls.to_vec(), length));
        let mut kinds = calls.chunks_exact(CALL_OCTETS).map(|call| call[0]);
        let before = kinds.all(|kind| kind >= 4).then(|| self.records());
        let (old, new) = (&mut self.reference, &mut self.engine.record);
        let reference = Outcome::of(length, fill, |out| reference::answer(old, calls, out));
        let engine = Outcome::of(length, fill, |out| engine::answer(new, calls, out));
        let stay = before.is_none_or(|before| before == self.records());
        let outcome = self.both("answer", reference, engine)?;
        self.must(stay, "answer: a record changed", &outcome, &outcome)?;
        self.must_be_indexed("answer: another index than that of the edges", &outcome)?;
        Ok(outcome)
    }

    /// Stops unless the index in the engine's record is the one that building anew gives.
    fn must_be_indexed(&self, what: &str, outcome: &Outcome) -> Checked<()> {
        let same = engine::index(&self.engine.record) == self.reference.index();
        self.must(same, what, outcome, outcome)
    }

    /// Both records as they are now.
    fn records(&self) -> (Policy, Record) {
        (self.reference.clone(), self.engine.record.clone())
    }

    /// Writes into a buffer of a length and a filling; the engine's record stays to the last bit.
    pub fn write(&mut self, (length, fill): (usize, u8)) -> Checked<Outcome> {
        self.steps.push(Step::Write(length));
        let before = self.engine.record.clone();
        let reference = Outcome::of(length, fill, |out| reference::write(&self.reference, out));
        let engine = Outcome::of(length, fill, |out| engine::write(&self.engine.record, out));
        let stays = before == self.engine.record;
        let outcome = self.both("write", reference, engine)?;
        self.must(stays, "write: the record changed", &outcome, &outcome)?;
        Ok(outcome)
    }

    /// Stops with a difference unless a condition holds.
    pub fn must(
        &self,
        holds: bool,
        what: &str,
        expected: &Outcome,
        found: &Outcome,
    ) -> Checked<()> {
        if holds {
            return Ok(());
        }
        Err(Box::new(Difference {
            what: what.to_string(),
            sides: [("expected", expected.clone()), ("found", found.clone())],
            steps: self.steps.clone(),
        }))
    }

    /// What both did, if it is the same and the bytes around the record stayed.
    fn both(&self, what: &str, reference: Outcome, engine: Outcome) -> Checked<Outcome> {
        let Guarded { before, after, .. } = &*self.engine;
        let stay = *before == AROUND && *after == AROUND;
        let around = if stay {
            ""
        } else {
            ": bytes around the record changed"
        };
        let same = stay && reference == engine;
        same_if(same, format!("{what}{around}"), reference, engine).map_err(|mut difference| {
            difference.steps.clone_from(&self.steps);
            difference
        })
    }
}

/// A record between bytes that must stay.
fn guarded(record: Record) -> Box<Guarded> {
    Box::new(Guarded {
        before: AROUND,
        record,
        after: AROUND,
    })
}
