//! Tickets on the crown and on a full policy.

use crate::bundles::{self, of_kind};
use crate::policy::Lines;
use crate::questions::{self, ANA, BEN};
use crate::support::{self, call, Call};
use crate::workload::{Workload, LAZY, TICKET};

/// The title of these rows.
pub const TITLE: &str = "tickets, pairs alternating";

/// So many different tickets on the full policy.
const TICKETS: usize = 1_000;

/// Both rows.
pub fn workloads() -> Vec<Workload> {
    vec![crown(), full()]
}

/// Each method by Ana, then by Ben, with the set that Ana is granted; with all principals for the
/// last method, which she is denied.
pub fn crown() -> Workload {
    let sets = [0b110, 0b001, 0, 0b111];
    let by = |requestor: u8| {
        let methods = (0..).zip(sets);
        methods.map(move |(method, set)| call([TICKET, method, 0, requestor], set))
    };
    let cycle = by(ANA).zip(by(BEN)).flat_map(<[Call; 2]>::from).collect();
    workload("crown", &support::crown_lines(), cycle)
}

/// Random questions on the full policy: what each is granted, or any set where it is denied.
pub fn full() -> Workload {
    let lines = bundles::full();
    let mut random = bundles::random(3);
    let asked: Vec<Call> = (0..TICKETS)
        .map(|_| questions::any(&mut random, &lines, LAZY))
        .collect();
    let principal_count = of_kind(&lines, 7).len();
    let answers = questions::answers(&lines, &asked);
    let cycle = asked.iter().zip(answers).map(|(asked, answer)| {
        let any = random.below(1 << principal_count) as u32;
        let [number, high, middle, low, _] = answer;
        let granted = u32::from_be_bytes([0, high, middle, low]);
        let set = if number == 0 { granted } else { any };
        call([TICKET, asked[1], asked[2], asked[3]], set)
    });
    let cycle = cycle.collect();
    workload("full policy", &lines, cycle)
}

/// The tickets, under a name that says how many are accepted.
fn workload(policy: &str, lines: &Lines, cycle: Vec<Call>) -> Workload {
    let (accepted, count) = (questions::accepted(lines, &cycle), cycle.len());
    let name = format!("{policy}, ticket ({accepted} of {count} accepted)");
    Workload::calls(&name, lines, cycle)
}
