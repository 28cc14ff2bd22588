//! The table of write package: what y is and how long the serial is, with the
//! answers and how long the output is.

use super::{package_length, serial_length, WritePackage, OUT};
use crate::case::{Case, Cell, Rows, Table};
use crate::entries::keyed::{self, TARGETS};
use crate::entries::{texts, DONE, SHORT};

/// The table.
pub const TABLE: Table = Table {
    of: "y",
    columns: || columns_for(TARGETS[0]),
    rows,
    cell,
};

/// The columns of done calls: the output has the length of the package, or more.
const DONE_COLUMNS: [&str; 2] = ["exact", "longer"];

/// The columns of 13: an output that is empty, a byte too short, or between.
const SHORT_COLUMNS: [&str; 3] = ["13 none", "13 by 1", "13"];

/// The columns that a call with such a y can have.
fn columns_for(target: &str) -> Vec<String> {
    let answers = keyed::answers_for::<WritePackage>(target).into_iter();
    let columns = answers.flat_map(|answer| match answer.as_str() {
        "0" => texts(&DONE_COLUMNS),
        "13" => texts(&SHORT_COLUMNS),
        _ => vec![answer],
    });
    columns.collect()
}

/// The name of a row: what y is and, where that may be written, the bytes that
/// the serial takes.
fn row(target: &str, serial: usize) -> String {
    let [zero, nonzero, ..] = TARGETS;
    match [zero, nonzero].contains(&target) {
        true => format!("{target}, {serial}"),
        false => target.to_string(),
    }
}

/// The rows with the columns that they can have.
fn rows() -> Rows {
    let of_target = |target| [2, 4].map(|serial| (row(target, serial), columns_for(target)));
    let mut rows: Rows = TARGETS.into_iter().flat_map(of_target).collect();
    rows.dedup();
    rows
}

/// The row and the column of a call.
fn cell(answer: u32, case: &Case) -> Cell {
    let [exact, longer] = DONE_COLUMNS;
    let [none, by_one, between] = SHORT_COLUMNS;
    let (len, needed) = (case.outputs[OUT].len(), package_length(case));
    let column = match answer {
        DONE if len == needed => exact.to_string(),
        DONE => longer.to_string(),
        SHORT if len == 0 => none.to_string(),
        SHORT if len + 1 == needed => by_one.to_string(),
        SHORT => between.to_string(),
        _ => answer.to_string(),
    };
    let target = keyed::target_of(case);
    (row(target, serial_length(case)), column)
}
