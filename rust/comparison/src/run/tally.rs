//! How many inputs reached each answer, and each cell of a table.

use crate::case::{Case, Cell, Entry, Least, Table};
use crate::slices::{M, N};
use std::collections::BTreeMap;
use std::fmt::Display;

/// How many inputs reached each answer.
pub type Tally = BTreeMap<u32, usize>;

/// How many inputs reached each cell.
pub type Cells = BTreeMap<Cell, usize>;

/// How many inputs of each n and m reached each answer.
#[derive(Default)]
pub struct OfSizes(BTreeMap<(usize, usize, u32), usize>);

impl OfSizes {
    /// Counts a case with this answer.
    pub fn count(&mut self, case: &Case, answer: u32) {
        if let Some(&n) = case.numbers.get(N) {
            let m = case.numbers.get(M).copied().unwrap_or(0);
            *self.0.entry((n, m, answer)).or_default() += 1;
        }
    }

    /// How many inputs with this n, and this m where one is given, reached an
    /// answer.
    fn reached(&self, n: usize, m: Option<usize>, answer: u32) -> usize {
        let of = |key: &(usize, usize, u32)| {
            key.0 == n && m.is_none_or(|m| key.1 == m) && key.2 == answer
        };
        let counts = self.0.iter().filter(|(key, _)| of(key));
        counts.map(|(_, count)| count).sum()
    }

    /// The sizes of which fewer inputs than the least number reached an answer.
    pub fn faults(&self, least: &Least) -> Vec<String> {
        let Least { answer, count, .. } = *least;
        let mut sizes: Vec<(usize, Option<usize>)> = Vec::new();
        for &n in &least.n {
            match &least.m[..] {
                [] => sizes.push((n, None)),
                list => sizes.extend(list.iter().map(|&m| (n, Some(m)))),
            }
        }
        let mut faults = Vec::new();
        for (n, m) in sizes {
            let found = self.reached(n, m, answer);
            let of_m = m.map_or_else(String::new, |m| format!(", m = {m}"));
            if found < count {
                faults.push(format!(
                    "{found} inputs with n = {n}{of_m} reached {answer}, at least {count} must"
                ));
            }
        }
        faults
    }
}

/// The numbers of a tally as text.
pub fn answers<T: Display>(tally: &BTreeMap<T, usize>) -> String {
    let list: Vec<String> = tally
        .iter()
        .map(|(answer, count)| format!("{answer}: {count}"))
        .collect();
    if list.is_empty() {
        "none".to_string()
    } else {
        list.join(", ")
    }
}

/// The answers that no input reached, and those that the entry doesn't have.
pub fn answer_faults(entry: &Entry, total: &Tally) -> Vec<String> {
    let mut faults = Vec::new();
    for (answer, &count) in total {
        let refusal = entry
            .refusals
            .iter()
            .any(|refusal| refusal.number() == *answer);
        if count == 0 {
            faults.push(format!("no input reached {answer}"));
        } else if !refusal && !entry.done.contains(answer) {
            faults.push(format!("{answer} is no answer of this entry"));
        }
    }
    faults
}

/// The lines of a table, and the cells that are not as the table states.
pub fn table_lines(name: &str, table: &Table, cells: &Cells) -> (Vec<String>, Vec<String>) {
    let mut lines = Vec::new();
    let mut faults = Vec::new();
    let line = |row: &str, cells: &[String]| {
        let cells: String = cells.iter().map(|cell| format!("{cell:>8}")).collect();
        format!("{name}, all groups, {row:>8}{cells}")
    };
    let columns = (table.columns)();
    let rows = (table.rows)();
    lines.push(line(table.of, &columns));
    for (row, reachable) in &rows {
        let cell = |column: &String| match cells.get(&(row.clone(), column.clone())) {
            Some(count) => count.to_string(),
            None if reachable.contains(column) => "0".to_string(),
            None => "-".to_string(),
        };
        let counts: Vec<String> = columns.iter().map(cell).collect();
        lines.push(line(row, &counts));
        for column in reachable {
            if !cells.contains_key(&(row.clone(), column.clone())) {
                faults.push(format!("no input reached {column} of {row}"));
            }
        }
    }
    for (row, column) in cells.keys() {
        let known =
            |(name, reachable): &(String, Vec<String>)| name == row && reachable.contains(column);
        if !rows.iter().any(known) {
            faults.push(format!("{column} of {row} cannot be reached"));
        }
    }
    (lines, faults)
}
