//! The entry quick look: the index of the first position that is no column or
//! came before, or that there is none.
//!
//! - [`groups`]: the groups of cases that are not refused;
//! - [`refused`]: those of refusals, and of the index before a call;
//! - [`tops`]: quick look beside the column polynomials of constraints.

pub mod groups;
pub mod refused;
pub mod tops;

use super::keyed::{self, sizes};
use super::{stated, texts, DONE, OFFENDER};
use crate::case::{Case, Cell, Entry, Rows, Table, Taken};
use crate::lent::Lent;
use crate::library;
use crate::named::Named;
use crate::slices::{N, POSITIONS};
use reference::samples::Generator;
use reference::Refusal;
use std::collections::BTreeSet;

/// The index that is written.
pub const INDEX: &str = "index";

/// Looks at the positions for n, and writes the index of an offender; the answer.
pub type Look = fn(usize, &[u8], &mut usize) -> u32;

/// The entry quick look.
pub const QUICK_LOOK: Entry = Entry {
    name: "quick look",
    done: &[DONE, OFFENDER],
    refusals: &[Refusal::SizeN, Refusal::SliceLength],
    library: |taken, outputs| looked(library::quick_look, taken, outputs),
    reference: |taken, outputs| looked(by_reference, taken, outputs),
    rows: None,
    table: Some(Table {
        of: "place",
        columns: || texts(&[OFFENDERS.as_slice(), &OTHERS].concat()),
        rows,
        cell,
    }),
    groups: || [groups::all(), refused::all()].concat(),
    least: || [groups::least(), refused::least()].concat(),
    ..keyed::ENTRY
};

/// The look of the reference.
pub fn by_reference(n: usize, positions: &[u8], index: &mut usize) -> u32 {
    match reference::quick_look(n, positions) {
        Ok(None) => DONE,
        Ok(Some(offender)) => {
            *index = offender;
            OFFENDER
        }
        Err(refusal) => refusal.number(),
    }
}

/// Looks with what a case has.
pub fn looked(look: Look, taken: &Taken, outputs: &mut Named<Lent>) -> u32 {
    let index = outputs[INDEX].size_mut();
    look(taken.numbers[N], taken.bytes(POSITIONS), index)
}

/// The index of the first offender among n positions, by counting: the first k
/// positions have none exactly when k columns are among them.
fn first_offender(n: usize, positions: &[u8]) -> Option<usize> {
    let columns = |k: usize| {
        let columns = positions[..k].iter().filter(|&&p| usize::from(p) < n);
        columns.collect::<BTreeSet<_>>().len()
    };
    (0..positions.len()).find(|&index| columns(index + 1) <= index)
}

/// The columns of offenders: the position came before, is a spare code, or is too
/// large.
const OFFENDERS: [&str; 3] = ["before", "spare", "large"];

/// The columns of the other answers.
const OTHERS: [&str; 3] = ["well", "1", "3"];

/// The rows: where the offender is.
const PLACES: [&str; 4] = ["first", "between", "last", "none"];

/// The rows with the columns that they can have.
fn rows() -> Rows {
    let [first, between, last, none] = PLACES.map(str::to_string);
    vec![
        (first, texts(&OFFENDERS[1..])),
        (between, texts(&OFFENDERS)),
        (last, texts(&OFFENDERS)),
        (none, texts(&OTHERS)),
    ]
}

/// The row and the column of a call.
fn cell(answer: u32, case: &Case) -> Cell {
    let (n, positions) = (case.numbers[N], case.bytes(POSITIONS));
    let [first, between, last, none] = PLACES;
    let [before, spare, large] = OFFENDERS;
    let index = match answer {
        OFFENDER => first_offender(n, positions),
        _ => None,
    };
    let Some(index) = index else {
        let column = match answer {
            DONE => OTHERS[0].to_string(),
            _ => answer.to_string(),
        };
        return (none.to_string(), column);
    };
    let row = match index {
        0 => first,
        _ if index == n - 1 => last,
        _ => between,
    };
    let column = match usize::from(positions[index]) {
        position if position < n => before,
        position if position < 1 << sizes(n, 1).d => spare,
        _ => large,
    };
    (row.to_string(), column.to_string())
}

/// A case with these positions.
fn case(n: usize, positions: &[u8], generator: &mut Generator) -> Case {
    let inputs = Named::from([(POSITIONS, Lent::with_bytes(positions, generator))]);
    let outputs = Named::from([(INDEX, Lent::any_size(generator))]);
    Case::new(Named::from([(N, n)]), inputs, outputs)
}

/// A case with an order.
fn well(order: &[u8], generator: &mut Generator) -> Case {
    case(order.len(), order, generator).answering(Some(DONE))
}

/// A case of n positions whose first offender has this index.
fn offending(positions: &[u8], index: usize, generator: &mut Generator) -> Case {
    let mut case = case(positions.len(), positions, generator).answering(Some(OFFENDER));
    case.stated = Some(vec![stated(INDEX, 0, index as u64)]);
    case
}

/// A case of n positions, with the answer and the index that counting gives.
fn counted(positions: &[u8], generator: &mut Generator) -> Case {
    match first_offender(positions.len(), positions) {
        Some(index) => offending(positions, index, generator),
        None => well(positions, generator),
    }
}
