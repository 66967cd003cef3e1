//! What is printed of a difference: all that is needed to look into it by hand.

use crate::cases::Case;
use crate::outcome::{Difference, Outcome, Step};
use reference::CALL_OCTETS;

/// Prints the seed, the case, what was done before and both results.
pub fn print(seed: u64, number: usize, case: &Case, difference: &Difference) {
    println!("\nDIFFERENCE in case {number} of seed {seed:#018X}");
    println!("{}: {}", case.kind, difference.what);
    println!("\nbundle of {} bytes:", case.text.len());
    print_text(&case.text);
    println!("\ncalls: {:?}", case.calls);
    difference.steps.iter().for_each(print_step);
    for (name, outcome) in &difference.sides {
        print_outcome(name, outcome, difference.of_answers());
    }
    let [(_, first), (_, second)] = &difference.sides;
    let kept = first.guards() == second.guards();
    println!("\nbytes around the buffer are the same in both: {kept}");
}

/// Prints text by its lines, with other characters escaped.
fn print_text(text: &[u8]) {
    for line in text.split_inclusive(|&byte| byte == b'\n') {
        println!("{}", line.escape_ascii());
    }
}

/// Prints one thing that was done with the lent record.
fn print_step(step: &Step) {
    match step {
        Step::Load(text) => {
            println!("\nlent record: load of {} bytes:", text.len());
            print_text(text);
        }
        Step::Answer(calls, room) => {
            let calls: Vec<&[u8]> = calls.chunks(CALL_OCTETS).collect();
            println!("\nlent record: answer into {room} bytes: {calls:?}");
        }
        Step::Write(room) => println!("\nlent record: write into {room} bytes"),
    }
}

/// Prints one result: answers as numbers, five by five, and what was written as text.
fn print_outcome(name: &str, outcome: &Outcome, of_answers: bool) {
    let value = outcome.value & u64::from(u32::MAX);
    println!("\n{name}: number {}, value {value}", outcome.number());
    if of_answers {
        let answers: Vec<&[u8]> = outcome.buffer().chunks(5).collect();
        println!("answers: {answers:?}");
    } else {
        print_text(outcome.buffer());
    }
}
