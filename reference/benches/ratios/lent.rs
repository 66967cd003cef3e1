//! A lent record: loading into it, writing from it, and calls one at a time.

use crate::bundles;
use crate::edits;
use crate::labels;
use crate::questions;
use crate::support;
use crate::tickets;
use crate::workload::Workload;

/// The title of these rows.
pub const TITLE: &str = "lent record: each call by itself, with its test for 19";

/// Loading and writing, then questions, tickets and edits on the crown and on the full policy, then
/// a step and an edit on a full graph alone.
pub fn workloads() -> Vec<Workload> {
    let (crown, full) = (support::crown_lines(), bundles::full());
    let mut workloads = bundles::workloads();
    workloads.extend(questions::crown_lazy("crown, "));
    workloads.push(tickets::crown());
    workloads.push(edits::in_the_middle("crown, edit", &crown));
    workloads.push(questions::full_lazy("full policy, "));
    workloads.push(tickets::full());
    workloads.push(edits::in_the_middle("full policy, edit", &full));
    workloads.push(labels::forward("512 edges over 16 labels, one step"));
    workloads.push(edits::full_in_the_middle("512 edges, edit"));
    workloads.into_iter().map(Workload::lent).collect()
}
