//! The rounds at the largest size find faults that are there alone, and for one
//! value in eight; a few of them are enough. That they find none where there is
//! none is shown for values; for the others it is the comparison itself that shows
//! it.

use crate::common::finds;
use comparison::case::{Call, Group, Taken};
use comparison::entries::constraints::{Constraints, CONSTRAINTS};
use comparison::entries::prove::{Prove, PROVE};
use comparison::entries::rounds::{at_largest, rounds_at_largest, InRounds};
use comparison::entries::values::{Values, VALUES};
use comparison::entries::verify::{Verify, VERIFY};
use comparison::lent::Lent;
use comparison::named::Named;
use comparison::slices::{self, N};
use reference::large_field::COORDINATES;

/// The first of the many rounds at the largest size.
const fn first_rounds<E: InRounds>() -> Group {
    at_largest::<E>().with_cases(|generator, each| rounds_at_largest::<E>(20, generator, each))
}

/// Whether a word is one of the eighth that the faults are for.
fn in_the_eighth(word: u64) -> bool {
    word % 8 == 5
}

/// The answer of the library, with one bit of a word of an output changed for
/// one value in eight at n = 64. The word is counted from the last.
fn wrong_word(
    call: Call,
    taken: &Taken,
    outputs: &mut Named<Lent>,
    (name, from_last): (&str, usize),
) -> u32 {
    let answer = call(taken, outputs);
    let index = outputs[name].len() - 1 - from_last;
    if taken.numbers[N] == 64 && in_the_eighth(outputs[name].element(index)) {
        outputs[name].change(index, 3);
    }
    answer
}

#[test]
fn no_fault() {
    assert!(!finds(first_rounds::<Values>(), VALUES, VALUES.library));
}

#[test]
fn wrong_last_word_of_values() {
    let wrong: Call =
        |taken, outputs| wrong_word(VALUES.library, taken, outputs, (slices::VALUES, 0));
    assert!(finds(first_rounds::<Values>(), VALUES, wrong));
}

#[test]
fn wrong_last_word_of_polynomials() {
    // The last word below the top coefficient, which is an element of F.
    let wrong: Call = |taken, outputs| {
        let word = (slices::POLYNOMIALS, COORDINATES);
        wrong_word(CONSTRAINTS.library, taken, outputs, word)
    };
    assert!(finds(first_rounds::<Constraints>(), CONSTRAINTS, wrong));
}

#[test]
fn wrong_last_word_of_a() {
    let wrong: Call = |taken, outputs| wrong_word(PROVE.library, taken, outputs, (slices::A, 0));
    assert!(finds(first_rounds::<Prove>(), PROVE, wrong));
}

#[test]
fn wrong_verdict() {
    // One accepted proof in eight is rejected.
    let wrong: Call = |taken, outputs| {
        let last = taken.words(slices::A).last();
        let rejected = taken.numbers[N] == 64 && in_the_eighth((*last.unwrap_or(&0)).into());
        match (VERIFY.library)(taken, outputs) {
            0 if rejected => 255,
            answer => answer,
        }
    };
    assert!(finds(first_rounds::<Verify>(), VERIFY, wrong));
}

#[test]
fn every_rejected_proof_accepted() {
    let wrong: Call = |taken, outputs| match (VERIFY.library)(taken, outputs) {
        255 if taken.numbers[N] == 64 => 0,
        answer => answer,
    };
    assert!(finds(first_rounds::<Verify>(), VERIFY, wrong));
}
