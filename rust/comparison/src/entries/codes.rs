//! Positions that are columns, spare codes or too large: each code of every n,
//! and one that is too large beside spare codes.

use super::constraints::Constraints;
use super::keyed::{self, sizes, Keyed};
use super::prove::Prove;
use super::{DONE, SPARE};
use crate::case::{Case, Group, Least};
use crate::slices::POSITIONS;
use reference::key::Sizes;
use reference::samples::Generator;
use reference::Refusal;

/// The sizes n at which a code stands in each place; at the others in one.
const EVERY_PLACE: [usize; 5] = [3, 5, 33, 50, 63];

/// The spare codes: "n to 2^d - 1".
fn spare_codes(sizes: Sizes) -> std::ops::Range<usize> {
    sizes.n..1 << sizes.d
}

/// The places that are tried for n.
fn places(n: usize, generator: &mut Generator) -> Vec<usize> {
    match EVERY_PLACE.contains(&n) {
        true => (0..n).collect(),
        false => vec![generator.below(n)],
    }
}

/// The case with this position in this place, and its answer.
fn with_position(case: &Case, place: usize, position: usize, answer: u32) -> Case {
    let mut case = case.clone();
    case.inputs[POSITIONS].set(place, position as u16);
    case.answering(Some(answer))
}

/// A case of prove that no refusal applies to, for each n, with its sizes.
fn each_key(generator: &mut Generator, each: &mut dyn FnMut(Sizes, Case, &mut Generator)) {
    for n in keyed::EVERY_N {
        let sizes = sizes(n, keyed::some_m(n, generator)[n % 3]);
        let case = Prove::right(sizes, generator);
        each(sizes, case, generator);
    }
}

/// Prove is lent one spare code.
pub const ONE_SPARE: Group = Group::new("every n, each spare code", |generator, each| {
    each_key(generator, &mut |sizes, case, generator| {
        for code in spare_codes(sizes) {
            for place in places(sizes.n, generator) {
                each(with_position(&case, place, code, SPARE));
            }
        }
    });
});

/// The cases of that group with 16: each code in each place that is tried.
pub fn least() -> Vec<Least> {
    let of_n = |n| {
        let codes = spare_codes(sizes(n, 1)).len();
        let places = if EVERY_PLACE.contains(&n) { n } else { 1 };
        Least {
            group: ONE_SPARE.name,
            n: vec![n],
            m: Vec::new(),
            answer: SPARE,
            count: codes * places,
        }
    };
    let with_spare_codes = keyed::EVERY_N.filter(|n| !n.is_power_of_two());
    with_spare_codes.map(of_n).collect()
}

/// Prove is lent a position that is too large: alone, beside one spare code, and
/// where all others are spare codes.
pub const ONE_TOO_LARGE: Group = Group::new(
    "every n, a position too large beside spare codes",
    |generator, each| {
        let too_large = Refusal::Position.number();
        each_key(generator, &mut |sizes, case, generator| {
            let Sizes { n, d, .. } = sizes;
            let codes = spare_codes(sizes);
            for place in places(n, generator) {
                let position = match generator.below(3) {
                    0 => 1 << d,
                    _ => (1 << d) + generator.below(256 - (1 << d)),
                };
                let case = with_position(&case, place, position, too_large);
                each(case.clone());
                if codes.is_empty() {
                    continue;
                }
                let other = (place + 1 + generator.below(n - 1)) % n;
                let code = codes.start + generator.below(codes.len());
                each(with_position(&case, other, code, too_large));
                let mut all = case;
                for i in (0..n).filter(|&i| i != place) {
                    let code = codes.start + generator.below(codes.len());
                    all = with_position(&all, i, code, too_large);
                }
                each(all);
            }
        });
    },
);

/// Hands over cases of constraints for these n, each with an order in which one
/// position is a spare code, which is taken.
fn taken(n: impl Iterator<Item = usize>, generator: &mut Generator, each: &mut dyn FnMut(Case)) {
    for n in n {
        let sizes = sizes(n, keyed::some_m(n, generator)[n % 3]);
        let mut case = Constraints::right(sizes, generator);
        for code in spare_codes(sizes) {
            case.set_bytes(POSITIONS, &generator.order(n));
            let place = generator.below(n);
            each(with_position(&case, place, code, DONE));
        }
    }
}

/// The largest n for which constraints is compared with the reference here.
const OF_REFERENCE: usize = 32;

/// Constraints is lent one spare code.
pub const TAKEN: [Group; 2] = [
    Group::new("n to 32, each spare code", |generator, each| {
        taken(2..=OF_REFERENCE, generator, each);
    }),
    Group::new(
        "n from 33 on, each spare code, by packed",
        |generator, each| {
            let last = *keyed::EVERY_N.end();
            taken(OF_REFERENCE + 1..=last, generator, each);
        },
    )
    .by_packed(),
];
