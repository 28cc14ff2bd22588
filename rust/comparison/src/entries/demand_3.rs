//! Demand 3 of the library itself: what constraints and values write, taken
//! together.
//!
//! It is run as an entry, which takes the key, positions, u, v and Δ. It calls
//! constraints of the library, then values with the t that constraints wrote
//! and honest numbers. It writes what both write, and answers 0 when the top
//! coefficients of all polynomials are zero, else 8, as prove does. In the
//! place of the reference the values are the library's polynomials at Δ, by the
//! field of the reference, and the answer says whether the positions solve the
//! key, by the positions and the field alone.

use super::keyed::{self, of_sample, sizes_of, Keyed};
use super::witnesses::{self, OnWitness, Witness};
use super::{constraints, DONE, REFUSED, SPARE, TOP};
use crate::case::{Case, Entry, Taken};
use crate::lent::Lent;
use crate::library;
use crate::named::Named;
use crate::slices::{DELTA, POLYNOMIALS, POSITIONS, T, U, V, VALUES};
use reference::key::{elements_of_k, rows};
use reference::large_field::K;
use reference::polynomial::Polynomial;
use reference::samples::{honest_q, Generator};
use reference::Refusal;

/// The slices.
pub struct BothFacts;

impl Keyed for BothFacts {
    const READS: &'static [&'static str] = &[POSITIONS, U, V, DELTA];
    const WRITES: &'static [&'static str] = &[VALUES, T, POLYNOMIALS];
    const DONE: &'static [u32] = &[DONE, TOP];
    const REFUSALS: &'static [Refusal] = &[];
}

/// Demand 3 as an entry.
pub const BOTH_FACTS: Entry = Entry {
    name: "demand 3",
    done: BothFacts::DONE,
    refusals: BothFacts::REFUSALS,
    library: values_and_tops,
    reference: polynomials_at_delta,
    table: Some(keyed::table::<BothFacts>()),
    groups: || {
        vec![
            witnesses::all_positions::<BothFacts>(),
            witnesses::solving::<BothFacts>(),
            witnesses::others::<BothFacts>(),
        ]
    },
    ..keyed::ENTRY
};

/// Calls constraints of the library, and gives the polynomials that it wrote.
/// Otherwise its refusal, or 6 for a word that it wrote.
fn polynomials(taken: &Taken, outputs: &mut Named<Lent>) -> Result<Vec<Vec<K>>, u32> {
    let answer = constraints::call(library::constraints, taken, outputs);
    if answer != DONE {
        return Err(answer);
    }
    let coefficients = elements_of_k(outputs[POLYNOMIALS].words()).map_err(Refusal::number)?;
    Ok(rows(&coefficients, sizes_of(taken).d + 1))
}

/// The side of the library: the values for the t that constraints wrote and
/// honest numbers, and the answer by the tops.
fn values_and_tops(taken: &Taken, outputs: &mut Named<Lent>) -> u32 {
    let delta = taken.words(DELTA);
    let q = honest_q(taken.bytes(U), taken.words(V), delta).expect("coordinates up to 2047");
    let written = match polynomials(taken, outputs) {
        Ok(written) => written,
        Err(refusal) => return REFUSED + refusal,
    };
    let [t, values] = outputs.each_mut([T, VALUES]);
    let answer = library::values(taken.key(), t.bytes(), &q, delta, values.words_mut());
    let mut tops = written.iter().map(|polynomial| polynomial.last());
    match answer {
        DONE if tops.all(|top| top == Some(&K::ZERO)) => DONE,
        DONE => TOP,
        refusal => REFUSED + refusal,
    }
}

/// The other side: the library's polynomials at Δ, and the answer by the
/// positions and the key.
fn polynomials_at_delta(taken: &Taken, outputs: &mut Named<Lent>) -> u32 {
    let delta = elements_of_k(taken.words(DELTA)).expect("coordinates up to 2047")[0];
    if let Ok(written) = polynomials(taken, outputs) {
        let at_delta: Vec<u16> = written
            .into_iter()
            .flat_map(|coefficients| Polynomial::new(coefficients).at(delta).words())
            .collect();
        outputs[VALUES].words_mut().copy_from_slice(&at_delta);
    }
    if witnesses::solves(taken) {
        DONE
    } else {
        TOP
    }
}

impl OnWitness for BothFacts {
    /// One in four of u, v and Δ is all 0, and one in four of the largest value
    /// or, for Δ, one.
    fn of_witness((sample, answer): &Witness, generator: &mut Generator) -> Case {
        let mut case = of_sample::<BothFacts>(sample, generator);
        keyed::fill_any(&mut case, &[&[U], &[V], &[DELTA]], generator);
        // Constraints takes spare codes, and then some top is not zero.
        let by_tops = |answer| if answer == SPARE { TOP } else { answer };
        case.answering(answer.map(by_tops))
    }
}
