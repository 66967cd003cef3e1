//! A lent record at both implementations, which must agree on it.

use crate::engine::{self, Record};
use crate::fields::Fields;
use crate::support::{call, Call};
use reference::{Index, Policy};
use std::fmt::Display;

/// What a lent buffer is filled with.
const FILL: u8 = 0x5A;

/// The record at both, and what was done with it.
pub struct Pair {
    /// Its seed and number, for a report.
    name: String,
    text: Vec<u8>,
    calls: Vec<Call>,
    reference: Policy,
    /// The reference's index, built anew after each call.
    index: Index,
    engine: Box<Record>,
}

impl Pair {
    /// A record that a bundle was loaded into.
    pub fn loaded(name: String, text: &[u8]) -> Pair {
        let (mut reference, mut engine) = (Policy::zeroed(), Box::new(Record::zeroed()));
        let values = [
            reference::load(&mut reference, text),
            engine::load(&mut engine, text),
        ];
        let pair = Pair {
            name,
            text: text.to_vec(),
            calls: Vec::new(),
            index: reference.index(),
            reference,
            engine,
        };
        pair.must(values == [0, 0], || "the bundle is refused");
        pair.must_be_indexed("loading");
        pair
    }

    /// Answers calls; the answers.
    pub fn answer(&mut self, calls: &[Call]) -> Vec<[u8; 5]> {
        self.calls.extend(calls);
        let mut answers = [vec![[0; 5]; calls.len()], vec![[0; 5]; calls.len()]];
        let [old, new] = &mut answers;
        reference::answer(
            &mut self.reference,
            calls.as_flattened(),
            old.as_flattened_mut(),
        );
        engine::answer(
            &mut self.engine,
            calls.as_flattened(),
            new.as_flattened_mut(),
        );
        let [old, new] = answers;
        self.index = self.reference.index();
        self.must(old == new, || format!("answers {old:?} and {new:?}"));
        self.must_be_indexed("an answer");
        new
    }

    /// The index, which is the same in both.
    pub fn index(&self) -> &Index {
        &self.index
    }

    /// The index in the engine's record is the one that building anew gives.
    fn must_be_indexed(&self, after: &str) {
        let found = engine::index(&self.engine);
        let what = || format!("after {after} the index {found:?} is not {:?}", self.index);
        self.must(found == self.index, what);
    }

    /// What is written, loaded into another record, gives the same one, but for the memo.
    pub fn check_written(&self) {
        let text = self.reference.write();
        let mut out = vec![FILL; text.len()];
        let value = engine::write(&self.engine, &mut out);
        self.must(value == text.len() as u64 && out == text, || {
            "what is written"
        });
        let mut again = Record::zeroed();
        let value = engine::load(&mut again, &out);
        self.must(value == 0, || "what was written is refused");
        let loaded = Fields::of(&again);
        let written = Fields::of(&self.engine).with_memo_emptied();
        self.must(loaded == written, || {
            "a record changed by writing and loading"
        });
    }

    /// The rules of another text that loads, with the edits so far: the engine's record is this one,
    /// with octets altered so that it is the same as the one that is loaded and edited.
    pub fn altered(&self, text: &[u8], alter: impl FnOnce(&mut Record)) -> Pair {
        let mut pair = Pair::loaded(self.name.clone(), text);
        pair.answer(&self.calls);
        let loaded = Fields::of(&pair.engine);
        pair.engine.clone_from(&self.engine);
        alter(&mut pair.engine);
        let same = Fields::of(&pair.engine) == loaded;
        pair.must(same, || "an altered record is not the one that is loaded");
        pair
    }

    /// With the engine's record altered every call is refused with 19 and leaves every octet; then
    /// the right ones are put back.
    pub fn check_refused(
        &mut self,
        altered: impl Display,
        alter: impl FnOnce(&mut Record),
        calls: &[Call],
    ) {
        let right = self.engine.clone();
        alter(&mut self.engine);
        let wrong = self.engine.clone();
        for call in calls {
            let answer = self.answer_by_engine(&[*call]);
            let refused = answer == [[19, 0, 0, 0, 0]] && self.engine == wrong;
            let what = || format!("{call:?} with {altered}: {answer:?}, or the record");
            self.must(refused, what);
        }
        self.check_list_refused(calls);
        self.check_write_refused();
        let stays = self.engine == wrong;
        let what = || format!("a list or a write with {altered}, the record");
        self.must(stays, what);
        self.engine = right;
    }

    /// The calls in one list, with one of a kind that there is not, which is answered with 4.
    fn check_list_refused(&mut self, calls: &[Call]) {
        let mut list = calls.to_vec();
        list.insert(calls.len() / 2, call([7, 0, 0, 0], 0));
        let numbers = list.iter().map(|call| if call[0] < 7 { 19 } else { 4 });
        let expected: Vec<[u8; 5]> = numbers.map(|number| [number, 0, 0, 0, 0]).collect();
        let answers = self.answer_by_engine(&list);
        self.must(answers == expected, || format!("a list: {answers:?}"));
    }

    /// Writing, with room and without.
    fn check_write_refused(&self) {
        for room in [self.reference.write().len(), 0] {
            let mut out = vec![FILL; room];
            let value = engine::write(&self.engine, &mut out);
            self.must(value == 19 << 32, || "writing an altered record");
            let stays = out.iter().all(|&byte| byte == FILL);
            self.must(stays, || "writing an altered record, the buffer");
        }
    }

    /// What the engine alone answers.
    fn answer_by_engine(&mut self, calls: &[Call]) -> Vec<[u8; 5]> {
        let mut answers = vec![[FILL; 5]; calls.len()];
        let places = answers.as_flattened_mut();
        let count = engine::answer(&mut self.engine, calls.as_flattened(), places);
        self.must(count == calls.len() as u64, || "the number of answers");
        answers
    }

    /// Stops with all that is needed to look into it by hand unless a condition holds.
    fn must<T: Display>(&self, holds: bool, what: impl FnOnce() -> T) {
        assert!(
            holds,
            "DIFFERENCE in {}: {}\nbundle: {}\ncalls: {:?}",
            self.name,
            what(),
            self.text.escape_ascii(),
            self.calls
        );
    }
}
