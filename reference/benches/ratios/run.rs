//! One implementation at work on one workload.

use crate::clock;
use crate::side::{Lent, Side};
use crate::workload::{Task, Workload};
use reference::CALL_OCTETS;
use std::hint::black_box;

/// Work is repeated until so many microseconds have passed.
const LEAST: f64 = 10_000.0;

/// An implementation with its workload, and the record and buffers lent to it.
pub struct Run<'a> {
    side: Side,
    workload: &'a Workload,
    record: Box<dyn Lent>,
    calls: Vec<u8>,
    answers: Vec<u8>,
    out: Vec<u8>,
}

impl Run<'_> {
    /// A run that goes so many times through the workload's calls, if it has any.
    pub fn of(side: Side, workload: &Workload, times: usize) -> Run<'_> {
        let calls = match &workload.task {
            Task::Answer(calls) => calls.cycle.repeat(times).concat(),
            _ => Vec::new(),
        };
        let mut record = (side.record)();
        record.load(&workload.bundle);
        Run {
            side,
            workload,
            record,
            answers: vec![0; calls.len() / CALL_OCTETS * 5],
            out: vec![0; workload.bundle.len()],
            calls,
        }
    }

    /// The microseconds of the workload's task: of one loading, one writing or one call.
    pub fn round(&mut self) -> f64 {
        let count = (self.calls.len() / CALL_OCTETS) as f64;
        match (&self.workload.task, self.workload.lent) {
            (Task::Load, false) => self.each(Run::load),
            (Task::Write, false) => self.beyond_loading(Run::write),
            (Task::Answer(_), false) => self.beyond_loading(Run::answer) / count,
            (Task::Load, true) => self.each(Run::load_lent),
            (Task::Write, true) => self.each(Run::write_lent),
            (Task::Answer(_), true) => self.each(Run::answer_singly) / count,
        }
    }

    /// What loading and writing return, what is written, and what the first calls are answered, to
    /// be compared.
    pub fn results(&mut self, answers: usize) -> ([u64; 2], Vec<u8>, Vec<u8>) {
        let values = if self.workload.lent {
            let loaded = self.load_lent();
            self.answer_singly();
            [loaded, self.write_lent()]
        } else {
            let loaded = self.load();
            self.answer();
            [loaded, self.write()]
        };
        (values, self.out.clone(), self.answers[..answers].to_vec())
    }

    /// Loads and answers nothing.
    fn load(&mut self) -> u64 {
        (self.side.replay)(&self.workload.bundle, &[], &mut [])
    }

    /// Loads and writes.
    fn write(&mut self) -> u64 {
        (self.side.rewrite)(&self.workload.bundle, &mut self.out)
    }

    /// Loads and answers all calls.
    fn answer(&mut self) -> u64 {
        (self.side.replay)(&self.workload.bundle, &self.calls, &mut self.answers)
    }

    /// Loads into the lent record.
    fn load_lent(&mut self) -> u64 {
        self.record.load(&self.workload.bundle)
    }

    /// Writes the lent record.
    fn write_lent(&mut self) -> u64 {
        self.record.write(&mut self.out)
    }

    /// Answers all calls on the lent record, each by itself.
    fn answer_singly(&mut self) -> u64 {
        let calls = self.calls.chunks_exact(CALL_OCTETS);
        let places = self.answers.chunks_exact_mut(5);
        calls
            .zip(places)
            .map(|(call, place)| self.record.answer(call, place))
            .sum()
    }

    /// The microseconds of one go, over ever larger batches until enough time has passed.
    fn each(&mut self, work: fn(&mut Self) -> u64) -> f64 {
        let (mut goes, mut batch) = (0, 1);
        let start = clock::micros();
        loop {
            for _ in 0..batch {
                black_box(work(black_box(&mut *self)));
            }
            goes += batch;
            batch = goes;
            let spent = clock::micros() - start;
            if spent >= LEAST {
                return spent / f64::from(goes);
            }
        }
    }

    /// The microseconds of one go without its loading, which is timed alone in turn with it.
    fn beyond_loading(&mut self, work: fn(&mut Self) -> u64) -> f64 {
        let (mut goes, mut beyond) = (0.0, 0.0);
        let first = clock::micros();
        loop {
            let start = clock::micros();
            black_box(work(black_box(self)));
            let between = clock::micros();
            black_box(black_box(&mut *self).load());
            let end = clock::micros();
            beyond += (between - start) - (end - between);
            goes += 1.0;
            if end - first >= LEAST {
                return beyond / goes;
            }
        }
    }
}
