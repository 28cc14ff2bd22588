//! The groups of cases with wrong lengths, for every entry that takes a key.

use super::faults::{with_faults, Fault, TRIED};
use super::keyed::{sizes, Keyed};
use crate::case::{Case, Group};
use crate::slices::Elements;
use reference::key::Sizes;
use reference::large_field::COORDINATES;
use reference::Refusal;
use std::collections::BTreeSet;

/// Sizes near these, of other n, m or d.
fn other_sizes(Sizes { n, m, d }: Sizes) -> Vec<Sizes> {
    let power = n.next_power_of_two();
    let mut list: Vec<Sizes> = [
        (n - 1, m),
        (n + 1, m),
        (n / 2, m),
        (2 * n, m),
        (power, m),
        (2, m),
        (64, m),
        (n, m - 1),
        (n, m + 1),
        (n, n - 1),
        (n, n),
        (m, n),
        (m, m),
        (n + m, m),
    ]
    .map(|(n, m)| sizes(n, m))
    .to_vec();
    let fewer = (d - 1).max(1);
    list.extend([fewer, d + 1, 1, 6, n].map(|d| Sizes { n, m, d }));
    list.extend([fewer, d + 1].map(|d| Sizes { n: 1 << d, m, d }));
    list
}

/// Each slice alone with the length of other sizes, or with that of elements of
/// K with another number of coordinates.
fn one_slice<E: Keyed>(sizes: Sizes) -> Vec<Vec<Fault>> {
    let mut list = Vec::new();
    for slice in E::slices() {
        let len = (slice.length)(sizes);
        let others = other_sizes(sizes).into_iter();
        let mut lengths: BTreeSet<usize> = others.map(slice.length).collect();
        if slice.elements == Elements::Coordinates {
            let elements = len / COORDINATES;
            lengths.extend([1, 6, 11, 13, 16, 23].map(|count| count * elements));
        }
        lengths.remove(&len);
        list.extend(
            lengths
                .into_iter()
                .map(|len| vec![Fault::Length(slice.name, len)]),
        );
    }
    list
}

/// All slices of other sizes, or all but one.
fn all_slices<E: Keyed>(sizes: Sizes) -> Vec<Vec<Fault>> {
    let slices = E::slices();
    let mut list = Vec::new();
    for other in other_sizes(sizes) {
        for kept in 0..=slices.len() {
            let faults: Vec<Fault> = (slices.iter().enumerate())
                .filter(|&(index, _)| index != kept)
                .filter(|(_, slice)| (slice.length)(other) != (slice.length)(sizes))
                .map(|(_, slice)| Fault::Length(slice.name, (slice.length)(other)))
                .collect();
            if !faults.is_empty() {
                list.push(faults);
            }
        }
    }
    list
}

/// An element less in one slice and an element more in another.
fn two_slices<E: Keyed>(sizes: Sizes) -> Vec<Vec<Fault>> {
    let slices = E::slices();
    let mut list = Vec::new();
    for shorter in &slices {
        for longer in slices.iter().filter(|longer| longer.name != shorter.name) {
            let less = (shorter.length)(sizes).saturating_sub(1);
            let more = (longer.length)(sizes) + 1;
            list.push(vec![
                Fault::Length(shorter.name, less),
                Fault::Length(longer.name, more),
            ]);
        }
    }
    list
}

/// Lengths that are right for another n, m or d, or for elements of K with
/// another number of coordinates.
pub fn other_lengths<E: Keyed>() -> Group {
    Group::new("lengths of other sizes", |generator, each| {
        for (n, m) in TRIED {
            let sizes = sizes(n, m);
            let case = E::right(sizes, generator);
            for list in [one_slice::<E>, all_slices::<E>, two_slices::<E>] {
                for faults in list(sizes) {
                    each(with_faults::<E>(&case, sizes.d, &faults, generator));
                }
            }
        }
    })
}

/// Empty slices with dangling pointers, in each set of slices.
pub fn empty_slices<E: Keyed>() -> Group {
    Group::new("empty slices", |generator, each| {
        for (n, m) in [(2, 1), (5, 2)] {
            let sizes = sizes(n, m);
            let right = E::right(sizes, generator);
            for set in 1..1 << E::slices().len() {
                each(with_empty::<E>(&right, sizes, set));
            }
        }
    })
}

/// The case with this set of slices empty. With one digit the mask slices are
/// empty anyway.
pub fn with_empty<E: Keyed>(right: &Case, sizes: Sizes, set: usize) -> Case {
    let mut case = right.clone();
    for (index, slice) in E::slices().iter().enumerate() {
        if set >> index & 1 == 1 {
            *case.slice_mut(slice.name) = slice.dangling();
            if (slice.length)(sizes) > 0 {
                case.answer = Some(Refusal::SliceLength.number());
            }
        }
    }
    case
}
