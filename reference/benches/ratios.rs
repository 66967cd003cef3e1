//! How fast the engine is beside the reference, as ratios from one run.
//!
//! Both are called through the same functions on bytes, in turn within each round, so that both see
//! the same machine. Times are processor time in microseconds: the median of the rounds, with
//! the lowest and the highest one. A ratio below 1 means that the engine is faster. Nothing fails
//! because of time; it fails where the answers differ, since such times would mean nothing. Words
//! after `cargo bench --` measure only the sections that have one of them in their title.

#[cfg(not(engine))]
compile_error!("../target/staticlib/libcapi.a is missing: `tools/build library` makes it");

#[path = "ratios/bundles.rs"]
mod bundles;
#[path = "ratios/clock.rs"]
mod clock;
#[path = "ratios/cover.rs"]
mod cover;
#[path = "ratios/edits.rs"]
mod edits;
#[path = "ratios/labels.rs"]
mod labels;
#[path = "ratios/lent.rs"]
mod lent;
#[path = "ratios/longest.rs"]
mod longest;
#[path = "ratios/measure.rs"]
mod measure;
#[path = "ratios/mixed.rs"]
mod mixed;
#[path = "ratios/naming.rs"]
mod naming;
#[path = "ratios/questions.rs"]
mod questions;
#[path = "ratios/run.rs"]
mod run;
#[path = "ratios/side.rs"]
mod side;
#[path = "ratios/spread.rs"]
mod spread;
#[path = "ratios/table.rs"]
mod table;
#[path = "ratios/tickets.rs"]
mod tickets;
#[path = "ratios/tower.rs"]
mod tower;
#[path = "ratios/workload.rs"]
mod workload;

#[allow(dead_code)]
#[path = "../tests/differential/engine.rs"]
mod engine;
#[path = "../tests/differential/formulas.rs"]
mod formulas;
#[path = "../tests/differential/limits.rs"]
mod limits;
#[path = "../tests/differential/policy.rs"]
mod policy;
#[allow(dead_code)]
#[path = "../tests/differential/random.rs"]
mod random;
#[allow(dead_code)]
#[path = "../tests/differential/sizes.rs"]
mod sizes;
#[path = "../tests/support/mod.rs"]
mod support;

use longest::Longest;
use measure::Row;
use std::time::Instant;
use workload::Workload;

/// What one role check of a general role-only library took, in microseconds.
const ROLE_CHECK: f64 = 5.6;

/// Measures everything and prints the table as it grows.
fn main() {
    let start = Instant::now();
    let mut longest = Longest::default();
    table::head();
    section("loading and writing", bundles::workloads, &mut longest);
    let crown = section("crown: questions", questions::crown, &mut longest);
    section("full policy", questions::full, &mut longest);
    section(tower::TITLE, tower::workloads, &mut longest);
    section(labels::EVEN, labels::even, &mut longest);
    section(labels::STEP, labels::steps, &mut longest);
    for cover in [cover::ALL_ROLES, cover::HALF_ROLES] {
        let covers = is_wanted(cover.title).then(|| cover.workloads(&mut longest));
        section(cover.title, || covers.unwrap_or_default(), &mut longest);
    }
    section(tickets::TITLE, tickets::workloads, &mut longest);
    section(naming::TITLE, naming::workloads, &mut longest);
    section("edits", edits::workloads, &mut longest);
    section("10,000 mixed calls", mixed::workloads, &mut longest);
    let lent = section(lent::TITLE, lent::workloads, &mut longest);
    longest.print();
    crowns_question("in a list", &crown, "");
    crowns_question("by itself", &lent, "crown, ");
    println!("  One role check of a general role-only library took {ROLE_CHECK} µs.");
    println!("The run took {:.0} s.", start.elapsed().as_secs_f64());
}

/// Whether one of the command's words, if there are any, is in the title of a section.
fn is_wanted(title: &str) -> bool {
    let words = std::env::args()
        .skip(1)
        .filter(|word| !word.starts_with('-'));
    let mut words = words.peekable();
    words.peek().is_none() || words.any(|word| title.contains(&word))
}

/// Measures and prints workloads under a title, and gives their rows.
fn section(
    title: &str,
    workloads: impl FnOnce() -> Vec<Workload>,
    longest: &mut Longest,
) -> Vec<Row> {
    if !is_wanted(title) {
        return Vec::new();
    }
    table::title(title);
    let mut rows = Vec::new();
    for workload in workloads() {
        longest.consider(title, &workload);
        let row = measure::row(&workload);
        table::print(&row);
        rows.push(row);
    }
    rows
}

/// Says how long the crown's lazy questions took, in rows whose names begin so.
fn crowns_question(place: &str, rows: &[Row], beginning: &str) {
    let lazy = format!("{beginning}lazy");
    for row in rows.iter().filter(|row| row.name.starts_with(&lazy)) {
        let name = &row.name[beginning.len()..];
        let micros = spread::number(row.engine.median);
        println!("The crown's question {place}, {name}: {micros} µs.");
    }
}
