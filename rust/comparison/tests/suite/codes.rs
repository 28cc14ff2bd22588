//! The groups of positions find entries that take spare codes for columns, or
//! columns for spare codes, and that decide in another order. Each stands in the
//! place of the library.

use crate::common::finds;
use comparison::case::{Call, Group, Taken};
use comparison::entries::codes::{ONE_SPARE, ONE_TOO_LARGE, TAKEN};
use comparison::entries::constraints::CONSTRAINTS;
use comparison::entries::prove::PROVE;
use comparison::slices::{N, POSITIONS};

/// Whether spare codes find this function in the place of the library's prove.
fn spare_codes_find(library: Call) -> bool {
    finds(ONE_SPARE, PROVE, library)
}

/// Whether positions that are too large do.
fn too_large_find(library: Call) -> bool {
    finds(ONE_TOO_LARGE, PROVE, library)
}

/// One in four of the spare codes that constraints takes.
const SOME_TAKEN: Group = TAKEN[0].with_cases(|generator, each| {
    TAKEN[0].one_in(4, generator, each);
});

/// Whether spare codes find this function in the place of the library's
/// constraints.
fn taken_codes_find(library: Call) -> bool {
    finds(SOME_TAKEN, CONSTRAINTS, library)
}

/// The positions of a call that are n or more, and n.
fn no_columns(taken: &Taken) -> (Vec<usize>, usize) {
    let n = taken.numbers[N];
    let positions = taken.bytes(POSITIONS).iter().map(|&p| usize::from(p));
    (positions.filter(|&position| position >= n).collect(), n)
}

#[test]
fn no_fault() {
    assert!(!spare_codes_find(PROVE.reference));
    assert!(!too_large_find(PROVE.reference));
    assert!(!taken_codes_find(
        CONSTRAINTS.packed.expect("an entry of packed")
    ));
}

#[test]
fn n_taken_for_a_column() {
    assert!(spare_codes_find(|taken, outputs| {
        let (others, n) = no_columns(taken);
        match (PROVE.reference)(taken, outputs) {
            16 if others.iter().all(|&position| position == n) => 8,
            answer => answer,
        }
    }));
}

#[test]
fn a_spare_code_in_the_last_place_not_seen() {
    assert!(spare_codes_find(|taken, outputs| {
        let (others, n) = no_columns(taken);
        let last = usize::from(taken.bytes(POSITIONS)[n - 1]);
        match (PROVE.reference)(taken, outputs) {
            16 if others == [last] => 8,
            answer => answer,
        }
    }));
}

#[test]
fn a_spare_code_before_one_too_large() {
    assert!(too_large_find(|taken, outputs| {
        let (others, _) = no_columns(taken);
        match (PROVE.reference)(taken, outputs) {
            7 if others[0] < others[others.len() - 1] => 16,
            answer => answer,
        }
    }));
}

#[test]
fn the_top_before_a_spare_code() {
    assert!(spare_codes_find(|taken, outputs| {
        match (PROVE.reference)(taken, outputs) {
            16 => 8,
            answer => answer,
        }
    }));
}

#[test]
fn constraints_refuses_spare_codes() {
    assert!(taken_codes_find(|taken, outputs| {
        match no_columns(taken).0.is_empty() {
            true => (CONSTRAINTS.reference)(taken, outputs),
            false => 16,
        }
    }));
}
