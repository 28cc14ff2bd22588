//! Instructions, counted by callgrind: it runs this program with every row
//! called once, and writes a file after each call.

use crate::implementation::ALL;
use crate::measure::{Calls, Row};
use std::fs;
use std::hint::black_box;
use std::path::Path;

/// The function whose instructions callgrind counts; `bin/bench` names it.
/// Callgrind sees its end only if it does not end with the call.
#[inline(never)]
fn counted(calls: &mut Calls) {
    calls(black_box(1));
    black_box(());
}

/// Whether each implementation of a row is counted.
fn present<'a>(row: &'a Row) -> impl Iterator<Item = bool> + 'a {
    let pairs = row.calls.iter().zip(ALL);
    pairs.map(|(calls, implementation)| calls.is_some() && implementation.counted)
}

/// Calls what is counted, in order.
pub fn run(rows: &mut [Row]) {
    for row in rows {
        let present: Vec<bool> = present(row).collect();
        for (calls, present) in row.calls.iter_mut().zip(present) {
            if let (Some(calls), true) = (calls, present) {
                counted(calls);
            }
        }
    }
}

/// The count in a file of callgrind.
fn count(path: &Path) -> Option<u64> {
    let text = fs::read_to_string(path).ok()?;
    let line = text
        .lines()
        .find_map(|line| line.strip_prefix("totals: "))?;
    line.trim().parse().ok()
}

/// The counts of all rows and implementations, from the files `counts.1`,
/// `counts.2`, .. of a directory, which callgrind wrote in the order of `run`.
/// None where there is no such file.
pub fn counts(rows: &[Row], directory: &Path) -> Vec<Vec<Option<u64>>> {
    let mut file = 0;
    let mut next = || {
        file += 1;
        count(&directory.join(format!("counts.{file}")))
    };
    let of_row = |row| {
        present(row)
            .map(|present| if present { next() } else { None })
            .collect()
    };
    rows.iter().map(of_row).collect()
}
