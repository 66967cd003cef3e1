//! Rounds in which both implementations take turns.

use crate::run::Run;
use crate::side::{ENGINE, REFERENCE};
use crate::spread::Spread;
use crate::workload::{Task, Workload};

/// So many rounds are measured, an odd number.
const ROUNDS: usize = 15;

/// What was measured of a workload.
pub struct Row {
    pub name: String,
    /// The times of both, in microseconds.
    pub engine: Spread,
    pub reference: Spread,
    /// The rounds' ratios.
    pub ratio: Spread,
    /// Whether it is loading or writing, which may take longer than the reference, within bounds.
    pub bytes: bool,
}

/// Both implementations in alternating rounds, each first in every other one.
pub fn row(workload: &Workload) -> Row {
    let (mut engine, mut reference) = runs(workload);
    let mut rounds = Vec::new();
    for round in 0..ROUNDS {
        rounds.push(if round % 2 == 0 {
            let first = engine.round();
            (first, reference.round())
        } else {
            let first = reference.round();
            (engine.round(), first)
        });
    }
    let figure = |of: fn(&(f64, f64)) -> f64| Spread::of(rounds.iter().map(of).collect());
    Row {
        name: workload.name.clone(),
        engine: figure(|both| both.0),
        reference: figure(|both| both.1),
        ratio: figure(|both| both.0 / both.1),
        bytes: !matches!(workload.task, Task::Answer(_)),
    }
}

/// Both runs, once it is certain that they load, write and answer the same.
fn runs(workload: &Workload) -> (Run<'_>, Run<'_>) {
    let (engine, reference) = times(workload);
    let answers = match &workload.task {
        Task::Answer(calls) => calls.cycle.len() * engine.min(reference) * 5,
        _ => 0,
    };
    let mut runs = (
        Run::of(ENGINE, workload, engine),
        Run::of(REFERENCE, workload, reference),
    );
    let (first, second) = (runs.0.results(answers), runs.1.results(answers));
    let [loaded, written] = first.0.map(|value| value >> 32);
    assert_eq!(loaded, workload.number, "loading: {}", workload.name);
    assert!(loaded > 0 || written == 0, "writing: {}", workload.name);
    assert!(first == second, "the answers differ: {}", workload.name);
    runs
}

/// How often engine and reference go through the calls.
fn times(workload: &Workload) -> (usize, usize) {
    match &workload.task {
        Task::Answer(calls) => (calls.engine, calls.reference),
        _ => (0, 0),
    }
}
