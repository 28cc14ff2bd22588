//! The rank of H by elimination, and the form that H is cleared to.
//!
//! Rows move here: a row that is taken leaves the list of unused ones, and in
//! the end all rows are put back by their numbers. Factors are quotients, by
//! tables of logarithms.

use crate::logarithms::OF_F;
use crate::small_field::F;

/// A row with its number.
type Numbered = (usize, Vec<F>);

/// H after the elimination.
#[derive(Clone, Debug, PartialEq, Eq)]
pub struct Cleared {
    /// The rows, in the order in which they were: "No rows change places."
    pub rows: Vec<Vec<F>>,
    /// The rows that were taken, first one first, each as its number and the
    /// column that it was taken for.
    pub taken: Vec<(usize, usize)>,
}

impl Cleared {
    /// The rank: the number of rows that were taken.
    pub fn rank(&self) -> usize {
        self.taken.len()
    }
}

/// Adds a multiple of the row taken, "by adding multiples of the row taken", so
/// that the entry in this column, which is not zero in that row, becomes zero.
fn clear(row: &mut [F], taken: &[F], column: usize) {
    let quotient = OF_F.quotient(row[column], taken[column]);
    let factor = quotient.expect("the entry of the row taken isn't zero");
    if factor == F::ZERO {
        return;
    }
    for (entry, &other) in row.iter_mut().zip(taken) {
        *entry = *entry + OF_F.product(factor, other);
    }
}

/// The elimination: "For each column, lowest first, take the lowest-numbered
/// unused row that has a non-zero entry there, and clear that column in the
/// unused rows below it". All rows have the same length.
pub fn cleared(rows: &[Vec<F>]) -> Cleared {
    let mut unused: Vec<Numbered> = rows.iter().cloned().enumerate().collect();
    let mut used: Vec<Numbered> = Vec::new();
    let mut taken = Vec::new();
    for column in 0..rows.first().map_or(0, Vec::len) {
        // The list is in the order of the numbers.
        let place = unused.iter().position(|(_, row)| row[column] != F::ZERO);
        let Some(place) = place else { continue };
        let (number, row) = unused.remove(place);
        for (_, below) in &mut unused[place..] {
            clear(below, &row, column);
        }
        taken.push((number, column));
        used.push((number, row));
    }
    used.append(&mut unused);
    used.sort_by_key(|&(number, _)| number);
    let rows = used.into_iter().map(|(_, row)| row).collect();
    Cleared { rows, taken }
}

/// Whether "some coefficients from F, not all zero, combine the rows of H to
/// zero": the rank is below the number of rows then.
pub fn dependent(rows: &[Vec<F>]) -> bool {
    cleared(rows).rank() < rows.len()
}
