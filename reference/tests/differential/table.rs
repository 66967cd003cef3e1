//! Counts as a table: printed, and one by one.

use std::fmt::Display;

/// Prints counts under the names of their columns.
pub fn print<const N: usize>(columns: &[impl Display; N], names: &[&str], rows: &[[u64; N]]) {
    let heads = columns.iter().map(|name| format!("{name:>15}"));
    println!("{}", heads.collect::<String>());
    for (name, row) in names.iter().zip(rows) {
        let counts = row.map(|count| format!("{count:>15}"));
        println!("{}  {name}", counts.concat());
    }
}

/// The counts of a table, each with what it is of.
pub fn cells<const N: usize>(
    what: &str,
    columns: &[impl Display; N],
    names: &[&str],
    rows: &[[u64; N]],
) -> Vec<(String, u64)> {
    let of_row = |(name, row): (&&str, &[u64; N])| -> Vec<(String, u64)> {
        let cells = columns.iter().zip(row);
        cells
            .map(|(column, &count)| (format!("{name}, {what} ({column})"), count))
            .collect()
    };
    names.iter().zip(rows).flat_map(of_row).collect()
}
