//! The differential test: the reference and the engine on the same random bundles and calls.
//!
//! A run has two seeds, one fixed and one fresh, and prints both. To repeat one of them alone:
//!
//! ```sh
//! DIFFERENTIAL_SEED=0x0123456789ABCDEF cargo test --release --test differential
//! ```
//!
//! Each case depends on the seed and its number only. A difference is printed with its seed, its
//! bundle, its calls and both results, and fails the test. So does a refusal that occurred too
//! seldom, or an answer that depends on a slot or shows the order of sets, or a formula at the limit
//! of height or one above it, or a limit that no bundle reached.

#[cfg(not(engine))]
compile_error!("../target/staticlib/libcapi.a is missing: `tools/build library` makes it");

#[path = "differential/calls.rs"]
mod calls;
#[path = "differential/cases.rs"]
mod cases;
#[path = "differential/compare.rs"]
mod compare;
#[path = "differential/damage.rs"]
mod damage;
#[path = "differential/engine.rs"]
mod engine;
#[path = "differential/faults.rs"]
mod faults;
#[path = "differential/formulas.rs"]
mod formulas;
#[path = "differential/frame.rs"]
mod frame;
#[path = "differential/heights.rs"]
mod heights;
#[path = "differential/lent.rs"]
mod lent;
#[path = "differential/limits.rs"]
mod limits;
#[path = "differential/order.rs"]
mod order;
#[path = "differential/outcome.rs"]
mod outcome;
#[path = "differential/parts.rs"]
mod parts;
#[path = "differential/policy.rs"]
mod policy;
#[path = "differential/random.rs"]
mod random;
#[path = "differential/report.rs"]
mod report;
#[path = "differential/run.rs"]
mod run;
#[path = "differential/sealed.rs"]
mod sealed;
#[path = "differential/seeds.rs"]
mod seeds;
#[path = "differential/sets.rs"]
mod sets;
#[path = "differential/shapes.rs"]
mod shapes;
#[path = "differential/sizes.rs"]
mod sizes;
mod support;
#[path = "differential/table.rs"]
mod table;
#[path = "differential/tally.rs"]
mod tally;
#[path = "differential/tally_height.rs"]
mod tally_height;
#[path = "differential/tally_lent.rs"]
mod tally_lent;
#[path = "differential/tally_naming.rs"]
mod tally_naming;
#[path = "differential/tally_order.rs"]
mod tally_order;
#[path = "differential/tally_tickets.rs"]
mod tally_tickets;
#[path = "differential/tickets.rs"]
mod tickets;
#[path = "differential/watch.rs"]
mod watch;

use std::process::ExitCode;

/// Runs all seeds.
fn main() -> ExitCode {
    if !run::agrees() {
        return ExitCode::FAILURE;
    }
    println!("\nboth implementations agree on every case");
    ExitCode::SUCCESS
}
