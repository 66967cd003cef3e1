//! The longest single question that the engine was asked.

use crate::clock;
use crate::engine;
use crate::spread::number;
use crate::support::Call;
use crate::workload::{Task, Workload, ADD, REMOVE, TICKET};
use std::collections::BTreeSet;

/// No question should take longer than so many microseconds.
const GOAL: f64 = 100_000.0;

/// At most so many different questions of a workload are asked singly.
const MOST: usize = 300;

/// Each is asked so many times, and the least time taken, as other jobs disturb single ones.
const TRIES: usize = 3;

/// The longest one so far, and how many there were.
#[derive(Default)]
pub struct Longest {
    micros: f64,
    place: String,
    asked: usize,
}

impl Longest {
    /// Asks the different questions of a workload one by one; those on lent records were among them.
    pub fn consider(&mut self, title: &str, workload: &Workload) {
        let Task::Answer(calls) = &workload.task else {
            return;
        };
        if workload.lent {
            return;
        }
        let questions: BTreeSet<Call> = calls.cycle.iter().copied().collect();
        let questions = questions
            .into_iter()
            .filter(|call| !matches!(call[0], ADD | REMOVE | TICKET));
        for question in questions.take(MOST) {
            self.question(title, workload, question);
        }
    }

    /// The time of one question on a fresh record, and the number answered.
    pub fn question(&mut self, title: &str, workload: &Workload, question: Call) -> (f64, u8) {
        let tries = (0..TRIES).map(|_| single(&workload.bundle, question));
        let (micros, number) = tries.min_by(|a, b| a.0.total_cmp(&b.0)).expect("a try");
        self.asked += 1;
        if micros > self.micros {
            self.micros = micros;
            self.place = format!("{title}: {}", workload.name);
        }
        (micros, number)
    }

    /// Says which one it was, if any was asked.
    pub fn print(&self) {
        if self.asked == 0 {
            return;
        }
        let (asked, micros, place) = (self.asked, number(self.micros), &self.place);
        let verdict = if self.micros <= GOAL { "met" } else { "missed" };
        println!(
            "\nThe engine's longest single question of {asked}, each on a fresh record, with its \
             loading, best of {TRIES}:\n  {micros} µs ({place}).\n  Goal: none above 100 ms, \
             {verdict}."
        );
    }
}

/// Microseconds of loading and one answer, and the number answered.
fn single(bundle: &[u8], question: Call) -> (f64, u8) {
    let mut answer = [0; 5];
    let start = clock::micros();
    engine::replay(bundle, &question, &mut answer);
    (clock::micros() - start, answer[0])
}
