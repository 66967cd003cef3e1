//! The table as it is printed.

use crate::measure::Row;

/// The widths of the columns but the last.
const NAME: usize = 46;
const TIME: usize = 27;

/// The line of column names.
pub fn head() {
    println!("Times in microseconds of processor time, as median (low-high) of the rounds.");
    line(
        "workload",
        "engine µs",
        "reference µs",
        "engine/reference",
        "goal",
    );
    if is_markdown() {
        println!("|---|---|---|---|---|");
    }
}

/// Whether the command asks for a table in Markdown.
fn is_markdown() -> bool {
    std::env::args().any(|word| word == "--markdown")
}

/// The name of a group of rows.
pub fn title(text: &str) {
    if is_markdown() {
        println!("| **{text}** | | | | |");
    } else {
        println!("{text}");
    }
}

/// A row.
pub fn print(row: &Row) {
    let name = format!("  {}", row.name);
    let [engine, reference, ratio] =
        [row.engine, row.reference, row.ratio].map(|of| of.to_string());
    let goal = goal(row.bytes, row.ratio.median);
    line(&name, &engine, &reference, &ratio, &goal);
}

/// The goal of a row and whether its ratio keeps it.
fn goal(bytes: bool, ratio: f64) -> String {
    let (goal, kept) = match bytes {
        true => ("≤ 1.5", ratio <= 1.5),
        false => ("< 1", ratio < 1.0),
    };
    format!("{goal:<5} {}", if kept { "met" } else { "missed" })
}

/// One line of columns.
fn line(name: &str, engine: &str, reference: &str, ratio: &str, goal: &str) {
    if is_markdown() {
        let goal = goal.split_whitespace().collect::<Vec<_>>().join(" ");
        println!(
            "| {} | {engine} | {reference} | {ratio} | {goal} |",
            name.trim()
        );
        return;
    }
    println!("{name:<NAME$} {engine:<TIME$} {reference:<TIME$} {ratio:<TIME$} {goal}");
}
