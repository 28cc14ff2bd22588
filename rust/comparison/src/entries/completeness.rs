//! Completeness of the library itself: verify accepts what prove writes.
//!
//! It is run as an entry, which takes the key, positions, u, v, r, s, α and Δ,
//! and the number of a word of a that is changed, counted from 1; 0 is none. It
//! calls prove of the library, then verify with the t and the a that prove
//! wrote, honest numbers and honest mask numbers. It writes what prove writes,
//! and answers as verify does, or the refusal of prove. In the place of the
//! reference the answer follows from the positions, the key, the number and Δ
//! alone: 16 when a position is a spare code, else 8 when the positions don't
//! solve the key, Accepted without a changed word, else Rejected, unless Δ is zero
//! and the word isn't of coefficient 0.

use super::keyed::{self, of_sample, Keyed};
use super::witnesses::{self, OnWitness, Witness};
use super::{prove, DONE, REFUSED, REJECTED, SPARE, TOP};
use crate::case::{Case, Entry, Group, Taken};
use crate::lent::Lent;
use crate::library;
use crate::named::Named;
use crate::slices::{A, ALPHA, DELTA, POSITIONS, R, S, T, U, V};
use reference::large_field::COORDINATES;
use reference::samples::{honest_masks, honest_q, Generator, Sample};
use reference::Refusal;

/// The slices.
pub struct Completeness;

impl Keyed for Completeness {
    const READS: &'static [&'static str] = &[POSITIONS, U, V, R, S, ALPHA, DELTA];
    const WRITES: &'static [&'static str] = &[T, A];
    const DONE: &'static [u32] = &[DONE, REJECTED, SPARE, TOP];
    const REFUSALS: &'static [Refusal] = &[];
}

/// The number of the changed word.
const CHANGED: &str = "changed";

/// Completeness as an entry.
pub const COMPLETENESS: Entry = Entry {
    name: "completeness",
    done: Completeness::DONE,
    refusals: Completeness::REFUSALS,
    library: prove_and_verify,
    reference: by_the_key,
    table: Some(keyed::table::<Completeness>()),
    groups: || {
        vec![
            SOLVING,
            EVERY_WORD,
            witnesses::others::<Completeness>(),
            witnesses::all_positions::<Completeness>(),
        ]
    },
    ..keyed::ENTRY
};

/// The side of the library.
fn prove_and_verify(taken: &Taken, outputs: &mut Named<Lent>) -> u32 {
    let answer = prove::call(library::prove, taken, outputs);
    if answer != DONE {
        return answer;
    }
    let delta = taken.words(DELTA);
    let q = honest_q(taken.bytes(U), taken.words(V), delta).expect("coordinates up to 2047");
    let masks = honest_masks(taken.words(R), taken.words(S), delta).expect("coordinates");
    let mut a = outputs[A].words().to_vec();
    if let Some(index) = taken.numbers[CHANGED].checked_sub(1) {
        a[index] ^= 1;
    }
    let t = outputs[T].bytes();
    let alpha = taken.words(ALPHA);
    match library::verify(taken.key(), t, &q, delta, &masks, alpha, &a) {
        verdict @ (DONE | REJECTED) => verdict,
        refusal => REFUSED + refusal,
    }
}

/// The other side: t and a are the library's, the answer follows from the
/// positions, the key, the changed word and Δ.
fn by_the_key(taken: &Taken, outputs: &mut Named<Lent>) -> u32 {
    prove::call(library::prove, taken, outputs);
    let zero = taken.words(DELTA).iter().all(|&word| word == 0);
    match taken.numbers[CHANGED] {
        _ if witnesses::has_spare_code(taken) => SPARE,
        _ if !witnesses::solves(taken) => TOP,
        0 => DONE,
        changed if zero && changed > COORDINATES => DONE,
        _ => REJECTED,
    }
}

/// A case with this word of a changed. One in four of u, v, r and s, α and Δ is
/// all 0, and one in four of the largest value or, for Δ, one.
fn case((sample, answer): &Witness, word: usize, generator: &mut Generator) -> Case {
    let mut case = of_sample::<Completeness>(sample, generator);
    case.numbers.push(CHANGED, word);
    keyed::fill_any(
        &mut case,
        &[&[U], &[V], &[R, S], &[ALPHA], &[DELTA]],
        generator,
    );
    // A changed word leaves no answer but that of the positions.
    case.answering(answer.filter(|answer| word == 0 || [SPARE, TOP].contains(answer)))
}

impl OnWitness for Completeness {
    fn of_witness(witness: &Witness, generator: &mut Generator) -> Case {
        case(witness, 0, generator)
    }
}

/// The words of a.
fn words_of_proof(sample: &Sample) -> usize {
    COORDINATES * sample.d
}

const SOLVING: Group = Group::new(
    "every n, orders that solve the key, with and without a changed word",
    |generator, each| {
        for n in keyed::EVERY_N {
            for witness in witnesses::solving_keys(n, generator) {
                each(case(&witness, 0, generator));
                let word = 1 + generator.below(words_of_proof(&witness.0));
                each(case(&witness, word, generator));
            }
        }
    },
);

const EVERY_WORD: Group = Group::new("n to 9, each word of a changed", |generator, each| {
    for n in 2..=9 {
        for m in 1..n {
            let witness = (Sample::solving(n, m, generator), Some(DONE));
            for word in 0..=words_of_proof(&witness.0) {
                each(case(&witness, word, generator));
            }
        }
    }
});
