//! Quick look of the library itself beside the column polynomials that
//! constraints writes: all is well exactly when no position is too large and the
//! tops of all n are zero.
//!
//! It is run as an entry, which takes the key, positions, u and v. It calls quick
//! look and constraints of the library. It writes the index, and answers as quick
//! look does, or 7 as constraints does where quick look finds an offender; another
//! number where one of them does not follow from the other. On the other side the
//! reference looks, and 7 follows from the positions.

use super::{looked, Look, INDEX};
use crate::case::{Case, Entry, Group, Least, Taken};
use crate::entries::keyed::{self, all_lists, of_sizes, sizes_of, some_m, Keyed};
use crate::entries::{DONE, OFFENDER, TOO_LARGE};
use crate::lent::Lent;
use crate::library;
use crate::named::Named;
use crate::slices::{positions_below, POSITIONS, U, V};
use reference::key::Sizes;
use reference::large_field::COORDINATES;
use reference::samples::Generator;
use reference::Refusal;

/// The slices.
pub struct BesideTops;

impl Keyed for BesideTops {
    const READS: &'static [&'static str] = &[POSITIONS, U, V];
    const WRITES: &'static [&'static str] = &[];
    const SIZES: &'static [&'static str] = &[INDEX];
    const DONE: &'static [u32] = &[DONE, TOO_LARGE, OFFENDER];
    const REFUSALS: &'static [Refusal] = &[];
}

/// Quick look beside the column polynomials, as an entry.
pub const BESIDE_TOPS: Entry = Entry {
    name: "quick look beside column tops",
    done: BesideTops::DONE,
    refusals: BesideTops::REFUSALS,
    library: |taken, outputs| beside_tops(library::quick_look, taken, outputs),
    reference: by_positions,
    table: Some(keyed::table::<BesideTops>()),
    groups: || vec![ALL_POSITIONS, SOME_N],
    least,
    ..keyed::ENTRY
};

/// Added to the answer of a look that constraints does not agree with.
const OTHERWISE: u32 = 300;

/// Looks, and calls constraints of the library.
pub fn beside_tops(look: Look, taken: &Taken, outputs: &mut Named<Lent>) -> u32 {
    let answer = looked(look, taken, outputs);
    match (answer, tops_are_zero(taken)) {
        (DONE, Ok(true)) => DONE,
        (OFFENDER, Ok(false)) => OFFENDER,
        (OFFENDER, Err(TOO_LARGE)) => TOO_LARGE,
        _ => OTHERWISE + answer,
    }
}

/// Whether the tops of all n column polynomials that constraints of the library
/// writes are zero; or its refusal.
fn tops_are_zero(taken: &Taken) -> Result<bool, u32> {
    let sizes = sizes_of(taken);
    // No top that is left as it was is zero.
    let mut t = vec![9; sizes.bit_bytes()];
    let mut polynomials = vec![9; sizes.polynomial_words()];
    let (positions, u, v) = (taken.bytes(POSITIONS), taken.bytes(U), taken.words(V));
    let answer = library::constraints(taken.key(), positions, u, v, &mut t, &mut polynomials);
    if answer != DONE {
        return Err(answer);
    }
    let mut columns = polynomials
        .chunks((sizes.d + 1) * COORDINATES)
        .take(sizes.n);
    let top_is_zero = |polynomial: &[u16]| {
        let top = &polynomial[sizes.d * COORDINATES..];
        top.iter().all(|&word| word == 0)
    };
    Ok(columns.all(top_is_zero))
}

/// The other side: the look of the reference, and 7 where a position is too large.
fn by_positions(taken: &Taken, outputs: &mut Named<Lent>) -> u32 {
    let answer = looked(super::by_reference, taken, outputs);
    let limit = 1 << sizes_of(taken).d;
    let mut positions = taken.bytes(POSITIONS).iter();
    match positions.any(|&position| usize::from(position) >= limit) {
        true => TOO_LARGE,
        false => answer,
    }
}

/// The case with these positions and this answer. One in four of u and v is all 0,
/// and one in four of the largest value.
fn with_positions(case: &Case, positions: &[u8], answer: u32, generator: &mut Generator) -> Case {
    let mut case = case.clone();
    case.set_bytes(POSITIONS, positions);
    keyed::fill_any(&mut case, &[&[U], &[V]], generator);
    case.answering(Some(answer))
}

/// Whether positions are an order: sorted they are 0 to n - 1.
fn is_order(positions: &[u8]) -> bool {
    let mut sorted = positions.to_vec();
    sorted.sort_unstable();
    sorted.into_iter().eq(0..positions.len() as u8)
}

/// The answer for positions of which none is too large.
fn answer_below(positions: &[u8]) -> u32 {
    match is_order(positions) {
        true => DONE,
        false => OFFENDER,
    }
}

/// All positions below 2^d of small keys.
pub const ALL_POSITIONS: Group = Group::new(
    "all positions below 2^d for n = 2, 3, 4",
    |generator, each| {
        for n in 2..=4 {
            for m in 1..n {
                let sizes = keyed::sizes(n, m);
                let key = of_sizes::<BesideTops>(sizes, generator);
                for positions in all_lists(n, 1 << sizes.d) {
                    let answer = answer_below(&positions);
                    each(with_positions(&key, &positions, answer, generator));
                }
            }
        }
    },
);

/// The sizes n of the other group.
const TRIED: [usize; 13] = [2, 3, 4, 5, 8, 9, 16, 17, 31, 32, 33, 63, 64];

/// The rounds for each of these.
const ROUNDS: usize = 6;

/// Positions: an order, one with a column twice, all the same column, one with a
/// spare code, and any below 2^d.
fn below_limit(sizes: Sizes, generator: &mut Generator) -> Vec<Vec<u8>> {
    let Sizes { n, d, .. } = sizes;
    let order = generator.order(n);
    let mut twice = order.clone();
    let place = 1 + generator.below(n - 1);
    twice[place] = twice[generator.below(place)];
    let same = vec![order[0]; n];
    let mut lists = vec![twice, same, positions_below(n, 1 << d, generator)];
    if n < 1 << d {
        let mut spare = order.clone();
        spare[generator.below(n)] = (n + generator.below((1 << d) - n)) as u8;
        lists.push(spare);
    }
    lists.push(order);
    lists
}

/// Keys of some n, each in rounds with other keys, u and v.
pub const SOME_N: Group = Group::new(
    "some n, orders, columns twice, spare codes, positions too large",
    |generator, each| {
        for n in TRIED {
            for round in 0..ROUNDS {
                let sizes = keyed::sizes(n, some_m(n, generator)[round % 3]);
                let key = of_sizes::<BesideTops>(sizes, generator);
                for mut positions in below_limit(sizes, generator) {
                    let answer = answer_below(&positions);
                    each(with_positions(&key, &positions, answer, generator));
                    let limit = 1 << sizes.d;
                    let large = limit + generator.below(256 - limit);
                    positions[generator.below(n)] = large as u8;
                    each(with_positions(&key, &positions, TOO_LARGE, generator));
                }
            }
        }
    },
);

/// The cases of that group: an order, others, and one too large, in each round.
fn least() -> Vec<Least> {
    let least = |answer, count| Least {
        group: SOME_N.name,
        n: TRIED.to_vec(),
        m: Vec::new(),
        answer,
        count,
    };
    vec![
        least(DONE, ROUNDS),
        least(OFFENDER, 2 * ROUNDS),
        least(TOO_LARGE, 4 * ROUNDS),
    ]
}
