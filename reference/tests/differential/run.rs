//! All cases of a run, one seed after the other.

use crate::cases;
use crate::compare;
use crate::random::Random;
use crate::report;
use crate::seeds;
use crate::tally::Tally;

/// Runs all seeds and prints the counts; false on a difference or a gap.
pub fn agrees() -> bool {
    let seeds = seeds::seeds();
    for seed in &seeds {
        println!("seed {seed:#018X}: {} cases", cases::CASES);
    }
    let mut tally = Tally::default();
    for seed in seeds {
        if !run(seed, &mut tally) {
            return false;
        }
    }
    tally.print();
    let gaps = tally.gaps();
    for gap in &gaps {
        println!("\nTOO NARROW: {gap}");
    }
    gaps.is_empty()
}

/// Compares all cases of a seed; false after the first difference, which is printed.
fn run(seed: u64, tally: &mut Tally) -> bool {
    for number in 0..cases::CASES {
        let mut random = Random::of_case(seed, number);
        let case = cases::case(&mut random, number);
        if let Err(difference) = compare::compare(&case, &mut random, tally) {
            report::print(seed, number, &case, &difference);
            return false;
        }
    }
    true
}
