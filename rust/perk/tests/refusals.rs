//! The refusals of the functions of a key: each of them, for every slice, and
//! the order in which they are tried.

mod common;

use common::Case;
use perk::{Refusal, Verdict};

/// Makes one fault in a case.
type Fault = fn(&mut Case);

/// One function of a key.
struct Entry {
    name: &'static str,
    call: fn(&mut Case) -> Result<(), Refusal>,
    /// The numbers of its refusals, in the order in which they are tried.
    order: &'static [u32],
    /// Its faults with their numbers.
    faults: Vec<(u32, Fault)>,
}

impl Entry {
    /// The place of a number in the order.
    fn place(&self, number: u32) -> usize {
        let place = self.order.iter().position(|other| *other == number);
        place.expect("a number of the entry")
    }
}

/// The last element is missing, there is one more, or there is none.
macro_rules! lengths {
    ($($slice:ident)*) => {
        [$(
            (3, (|case| case.$slice.truncate(case.$slice.len() - 1)) as Fault),
            (3, (|case| case.$slice.push(case.$slice[0])) as Fault),
            (3, (|case| case.$slice = Vec::new()) as Fault),
        )*]
    };
}

/// The first or the last element has this value.
macro_rules! elements {
    ($number:literal, $value:literal, $($slice:ident)*) => {
        [$(
            ($number, (|case| case.$slice[0] = $value) as Fault),
            ($number, (|case| {
                let last = case.$slice.len() - 1;
                case.$slice[last] = $value;
            }) as Fault),
        )*]
    };
}

/// Sizes that are refused.
const SIZES: [(u32, Fault); 8] = [
    (2, |case| case.m = 0),
    (2, |case| case.m = case.n),
    (2, |case| case.m = case.n + 1),
    (2, |case| case.m = usize::MAX),
    (1, |case| case.n = 0),
    (1, |case| case.n = 1),
    (1, |case| case.n = 65),
    (1, |case| case.n = usize::MAX),
];

/// The faults of a key. Its one row leans where it is all zero.
fn of_key() -> Vec<(u32, Fault)> {
    [
        &[(15, (|case| case.h.fill(0)) as Fault)],
        &SIZES[..],
        &lengths![h x y],
        &elements![4, 2048, h x y],
        &elements![4, 65535, h x y],
    ]
    .concat()
}

/// The five functions of a key.
fn entries() -> [Entry; 5] {
    [
        Entry {
            name: "constraints",
            call: Case::constraints,
            order: &[1, 2, 3, 4, 15, 5, 6, 7],
            faults: [
                &elements![7, 4, positions][..],
                &elements![7, 255, positions],
                &elements![6, 2048, v],
                &elements![5, 2, u],
                &of_key(),
                &lengths![positions u v t_out polynomials],
            ]
            .concat(),
        },
        Entry {
            name: "values",
            call: Case::values,
            order: &[1, 2, 3, 4, 15, 5, 6],
            faults: [
                &elements![6, 2048, q delta][..],
                &elements![5, 2, t],
                &of_key(),
                &lengths![t q delta values],
            ]
            .concat(),
        },
        Entry {
            name: "prove",
            call: Case::prove,
            order: &[1, 2, 3, 4, 15, 5, 6, 7, 16, 8],
            faults: [
                &[
                    (8, (|case| case.positions = vec![1, 1, 1]) as Fault),
                    (8, |case| case.h[0] = 3),
                    (8, |case| case.y[0] = 1),
                ],
                &elements![16, 3, positions][..],
                &elements![7, 4, positions],
                &elements![7, 255, positions],
                &elements![6, 2048, v r s alpha],
                &elements![5, 2, u],
                &of_key(),
                &lengths![positions u v r s alpha t_out a_out],
            ]
            .concat(),
        },
        Entry {
            name: "verify",
            call: |case| case.verify().map(|_| ()),
            order: &[1, 2, 3, 4, 15, 5, 6],
            faults: [
                &elements![6, 2048, q delta masks alpha a][..],
                &elements![5, 2, t],
                &of_key(),
                &lengths![t q delta masks alpha a],
            ]
            .concat(),
        },
        Entry {
            name: "write_package",
            call: |case| case.write_package().map(|_| ()),
            order: &[1, 2, 3, 4, 15, 5, 6, 13],
            faults: [
                &[
                    (13, (|case| _ = case.package.pop()) as Fault),
                    (13, |case| case.package = Vec::new()),
                    // no room for the field of a target, or for a longer serial
                    (13, |case| case.y[0] = 1),
                    (13, |case| case.serial = 65536),
                ],
                &elements![6, 2048, a][..],
                &elements![6, 65535, a],
                &elements![5, 2, t],
                &elements![5, 255, t],
                &of_key(),
                &lengths![t a],
            ]
            .concat(),
        },
    ]
}

/// The function refuses with this number and writes nothing.
fn refuses(entry: &Entry, mut case: Case, number: u32, faults: &str) {
    let answer = (entry.call)(&mut case);
    let found = answer.map_err(Refusal::number);
    assert_eq!(found, Err(number), "{}, {faults}", entry.name);
    assert!(case.nothing_written(), "{}, {faults}", entry.name);
}

#[test]
fn without_a_fault_all_are_done() {
    for entry in entries() {
        assert_eq!((entry.call)(&mut Case::three()), Ok(()), "{}", entry.name);
    }
}

#[test]
fn each_fault_is_refused() {
    for entry in entries() {
        for (index, (number, fault)) in entry.faults.iter().enumerate() {
            let mut case = Case::three();
            fault(&mut case);
            refuses(&entry, case, *number, &format!("fault {index}"));
        }
    }
}

// The fault that is refused later is made first, so that one that shortens a
// slice is made after one that sets an element.
#[test]
fn of_two_faults_the_first_in_order_is_the_answer() {
    for entry in entries() {
        let mut faults = entry.faults.clone();
        faults.sort_by_key(|(number, _)| entry.place(*number));
        for (first, (number, earlier)) in faults.iter().enumerate() {
            for (second, (other, later)) in faults.iter().enumerate().skip(first) {
                // a second length can undo the first
                if (*number, *other) == (3, 3) {
                    continue;
                }
                let mut case = Case::three();
                later(&mut case);
                earlier(&mut case);
                let faults = format!("faults {first} and {second}");
                refuses(&entry, case, *number, &faults);
            }
        }
    }
}

#[test]
fn every_refusal_of_the_order_has_a_fault() {
    for entry in entries() {
        let mut places: Vec<usize> = entry.faults.iter().map(|(n, _)| entry.place(*n)).collect();
        places.sort();
        places.dedup();
        assert!(
            places.into_iter().eq(0..entry.order.len()),
            "{}",
            entry.name
        );
    }
}

#[test]
fn all_slices_may_be_empty() {
    for (n, m, number) in [(3, 1, 3), (1, 1, 1), (3, 0, 2)] {
        for entry in entries() {
            let empty = Case {
                n,
                m,
                ..Case::default()
            };
            let label = format!("all slices empty, n = {n}, m = {m}");
            refuses(&entry, empty, number, &label);
        }
    }
}

// The names are those of the reference.
#[test]
fn names() {
    let reference = include_str!("../../reference/src/refusal.rs");
    for refusal in Refusal::ALL {
        let numbered = format!("Refusal::{refusal:?} => {},", refusal.number());
        assert!(reference.contains(&numbered), "{numbered}");
    }
}

#[test]
fn numbers_and_words() {
    let numbers = Refusal::ALL.map(Refusal::number);
    assert_eq!(
        numbers,
        [1, 2, 3, 4, 5, 6, 7, 8, 9, 10, 11, 12, 13, 14, 15, 16, 19, 20, 21, 22]
    );
    let error: &dyn std::error::Error = &Refusal::Position;
    assert_eq!(error.to_string(), "a position is 2^d or more");
    let mut texts: Vec<String> = Refusal::ALL.iter().map(Refusal::to_string).collect();
    texts.sort();
    texts.dedup();
    assert_eq!(texts.len(), Refusal::ALL.len());
    assert_eq!(Verdict::Accepted.to_string(), "accepted");
    assert_eq!(Verdict::Rejected.to_string(), "rejected");
}
