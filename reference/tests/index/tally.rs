//! What the run came across, counted.

use crate::altered::WAYS;
use reference::Index;

/// Each sort of record, and each way to alter an index, must come up so often.
const LEAST: u64 = 50;

/// What changed a record's edges last.
#[derive(Clone, Copy)]
pub enum Since {
    Load,
    Addition,
    Removal,
}

/// The names of these.
const SINCE: [&str; 3] = ["fresh", "after addition", "after removal"];

/// The sorts of record, by the edges.
const SORTS: [&str; 5] = [
    "any edges",
    "no edges",
    "512 edges",
    "edges of one label",
    "edges of all 16 labels",
];

/// The sorts that a record was at some point, by what changed its edges last.
#[derive(Default)]
pub struct Seen([[bool; SINCE.len()]; SORTS.len()]);

impl Seen {
    /// Notes what a record with this index is.
    pub fn look(&mut self, index: &Index, since: Since) {
        let edges: u16 = index.counts.iter().sum();
        let labels = index.counts.iter().filter(|&&count| count > 0).count();
        let is = [true, edges == 0, edges == 512, labels == 1, labels == 16];
        for (row, is) in self.0.iter_mut().zip(is) {
            row[since as usize] |= is;
        }
    }
}

/// The counts.
#[derive(Default)]
pub struct Tally {
    /// Records by what they were at some point.
    records: [[u64; SINCE.len()]; SORTS.len()],
    /// Answers that both gave.
    pub answers: u64,
    /// Altered indexes, by the way and by whether the record was fresh or edited.
    refused: [[u64; 2]; WAYS.len()],
    /// Records written and loaded again, fresh and edited.
    written: [u64; 2],
}

impl Tally {
    /// Counts a record.
    pub fn record(&mut self, seen: &Seen) {
        let rows = self.records.iter_mut().zip(seen.0);
        for (count, seen) in rows.flat_map(|(counts, seen)| counts.iter_mut().zip(seen)) {
            *count += u64::from(seen);
        }
    }

    /// Counts an altered index with which every call was refused.
    pub fn refused(&mut self, way: usize, since: Since) {
        self.refused[way][edited(since)] += 1;
    }

    /// Counts a record that was written and loaded again.
    pub fn written(&mut self, since: Since) {
        self.written[edited(since)] += 1;
    }

    /// Prints them.
    pub fn print(&self) {
        println!("\nrecords by what they were, each with the index that building anew gives");
        print(&SINCE, &SORTS.map(str::to_string), &self.records);
        println!("\n{:>9}  answers, with that index after each", self.answers);
        let [fresh, edited] = self.written;
        println!("\nrecords equal when written and loaded again: {fresh} fresh, {edited} edited");
        println!(
            "\nother indexes, with which add, remove, eager, lazy, liberal, strict, ticket and"
        );
        println!("write were refused (19), the record left, and what was asked then answered");
        let ways = WAYS.map(|(name, _)| name.to_string());
        print(&["fresh", "edited"], &ways, &self.refused);
    }

    /// What came up too seldom.
    pub fn gaps(&self) -> Vec<String> {
        let mut gaps = Vec::new();
        for (sort, counts) in SORTS.iter().zip(self.records) {
            for (since, count) in SINCE.iter().zip(counts) {
                let never = matches!(
                    (*sort, *since),
                    ("no edges", "after addition") | ("512 edges", "after removal")
                );
                if count < LEAST && !never {
                    gaps.push(format!("{count} records, {since}, with {sort}"));
                }
            }
        }
        for ((way, _), [fresh, edited]) in WAYS.iter().zip(self.refused) {
            if fresh.min(edited) < LEAST {
                gaps.push(format!("{fresh} and {edited} times: {way}"));
            }
        }
        if self.written.iter().any(|&count| count < LEAST) {
            gaps.push(format!("{:?} records written", self.written));
        }
        gaps
    }
}

/// Whether edges were changed since the load, as a place.
fn edited(since: Since) -> usize {
    usize::from(!matches!(since, Since::Load))
}

/// Prints rows of counts under the names of their columns.
fn print<const N: usize>(columns: &[&str; N], names: &[String], rows: &[[u64; N]]) {
    println!("{}", columns.map(|name| format!("{name:>16}")).concat());
    for (name, row) in names.iter().zip(rows) {
        let counts = row.map(|count| format!("{count:>16}"));
        println!("{}  {name}", counts.concat());
    }
}
