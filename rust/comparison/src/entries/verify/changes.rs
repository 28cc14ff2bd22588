//! Accepted cases of verify with one element changed.

use super::{elements, honest_at};
use crate::case::{Case, Group};
use crate::entries::keyed::{self, bits_of, changed};
use crate::entries::{DONE, REJECTED};
use crate::kinds::Kind;
use crate::slices::{A, ALPHA, DELTA, H, MASKS, T, Y};
use reference::large_field::{COORDINATES, K};
use reference::samples::{independent, Generator};

/// The answer to an accepted case with another element of this input, where it
/// is known without the reference: K has no zero divisors, so a change of a or
/// of a mask number is seen, unless the challenge is zero and the power isn't;
/// and one of y, unless the challenge or the weight of its row is zero.
fn answer_to_change(case: &Case, input: &str, index: usize) -> Option<u32> {
    let zero = elements(&case.inputs[DELTA])[0] == K::ZERO;
    let unseen = match input {
        A | MASKS => zero && index >= COORDINATES,
        Y => zero || elements(&case.inputs[ALPHA])[case.key().n + index] == K::ZERO,
        _ => return None,
    };
    Some(if unseen { DONE } else { REJECTED })
}

/// Whether the rows of H do not depend on each other.
fn has_independent_rows(case: &Case) -> bool {
    let key = case.key();
    independent(key.h, key.n)
}

/// The accepted case with one bit changed in this element of an input. The rows
/// of H do not depend on each other afterwards.
pub fn with_bit_changed(case: &Case, input: &str, index: usize, generator: &mut Generator) -> Case {
    loop {
        let bit = generator.below(bits_of(input));
        let changed = changed(case, input, index, bit);
        if input != H || has_independent_rows(&changed) {
            return changed.answering(answer_to_change(case, input, index));
        }
    }
}

/// The accepted case with one bit changed in any element of an input; none when
/// the input is empty.
pub fn with_any_change(case: &Case, input: &str, generator: &mut Generator) -> Option<Case> {
    let len = case.inputs[input].len();
    (len > 0).then(|| {
        let index = generator.below(len);
        with_bit_changed(case, input, index, generator)
    })
}

/// One bit of an honest proof changed.
pub const CHANGED: Group = Group::new(
    "every n, one bit of an honest proof changed, in each slice",
    |generator, each| {
        for n in keyed::EVERY_N {
            let m = keyed::some_m(n, generator)[n % 3];
            let case = honest_at(keyed::sizes(n, m), Kind::Random, generator);
            for (turn, input) in case.inputs.names().into_iter().enumerate() {
                if n <= keyed::ALL_VARIANTS || (n + turn) % 4 == 0 {
                    with_any_change(&case, input, generator)
                        .into_iter()
                        .for_each(&mut *each);
                }
            }
        }
    },
);

/// Every element of every input with each of its bits.
fn all_bits(case: &Case) -> Vec<(&'static str, usize, usize)> {
    let mut list = Vec::new();
    for (input, lent) in case.inputs.iter() {
        for index in 0..lent.len() {
            list.extend((0..bits_of(input)).map(|bit| (input, index, bit)));
        }
    }
    list
}

/// An honest proof of these sizes. Whatever bit of H is changed, the rows do not
/// depend on each other.
fn honest_with_bits(n: usize, m: usize, generator: &mut Generator) -> Case {
    loop {
        let case = honest_at(keyed::sizes(n, m), Kind::Random, generator);
        let bits = all_bits(&case)
            .into_iter()
            .filter(|&(input, ..)| input == H);
        let mut others = bits.map(|(input, index, bit)| changed(&case, input, index, bit));
        if others.all(|other| has_independent_rows(&other)) {
            return case;
        }
    }
}

/// Every bit of an honest proof changed.
pub const EVERY_BIT: Group = Group::new(
    "every bit of an honest proof changed, for n = 2, 3; every word for n = 5",
    |generator, each| {
        for (n, m) in [(2, 1), (3, 2), (5, 2)] {
            let honest = honest_with_bits(n, m, generator);
            let mut only = 0;
            for (input, index, bit) in all_bits(&honest) {
                if bit == 0 {
                    only = generator.below(bits_of(input));
                }
                if n < 5 || bit == only {
                    let case = changed(&honest, input, index, bit);
                    each(case.answering(answer_to_change(&honest, input, index)));
                }
            }
        }
    },
);

/// At the challenge zero, each word of y, of a and of the mask numbers changed.
pub const CHALLENGE_ZERO: Group = Group::new(
    "challenge zero, each word of y, of a and of the mask numbers changed",
    |generator, each| {
        for (n, m) in [(2, 1), (3, 1), (5, 2), (9, 4)] {
            let case = honest_at(keyed::sizes(n, m), Kind::Zero, generator);
            for input in [Y, MASKS, A] {
                for index in 0..case.inputs[input].len() {
                    each(with_bit_changed(&case, input, index, generator));
                }
            }
        }
    },
);

/// An honest proof with each other t.
pub const ALL_T: Group = Group::new("all t for n = 2, 3, 4", |generator, each| {
    for n in 2..=4 {
        for m in 1..n {
            let sizes = keyed::sizes(n, m);
            let case = honest_at(sizes, Kind::Random, generator);
            for t in keyed::all_lists(sizes.bit_bytes(), 2) {
                let mut case = case.clone();
                case.set_bytes(T, &t);
                each(case.answering(None));
            }
        }
    }
});
