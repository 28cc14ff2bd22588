//! Keys whose rows of H lean on each other, and keys whose rows nearly do, for
//! every entry that takes a key.

use super::keyed::{self, sizes, Keyed};
use super::DEPENDENT;
use crate::case::{Case, Group, Least};
use crate::slices::{H, M, N};
use reference::key::Sizes;
use reference::samples::{combination, independent, Generator, Leaning};

/// The groups of an entry.
pub fn groups<E: Keyed>() -> Vec<Group> {
    vec![every_n::<E>(), each_row::<E>(), nearly::<E>()]
}

/// The name of the group of every n.
const EVERY_N: &str = "every n, rows of H that lean";

/// Every n, and each way in which the rows can lean.
pub fn every_n<E: Keyed>() -> Group {
    Group::new(EVERY_N, |generator, each| {
        keyed::every_size(generator, &mut |sizes, _, generator| {
            for leaning in Leaning::of(sizes.m) {
                each(E::leaning(sizes, leaning, generator).answering(Some(DEPENDENT)));
            }
        });
    })
    .with_any_rows()
}

/// The cases of that group with 15: a row of zeros, and all of them.
pub fn least() -> Vec<Least> {
    vec![Least {
        group: EVERY_N,
        n: keyed::EVERY_N.collect(),
        m: Vec::new(),
        answer: DEPENDENT,
        count: 2,
    }]
}

/// The sizes at which each row leans.
const EACH_ROW: [(usize, usize); 6] = [(2, 1), (3, 2), (5, 4), (9, 3), (17, 16), (64, 63)];

/// The factors of the rows, of which row e becomes their sum: none, one other
/// row, all others, the row before, and the first and the last of the others.
fn ways(m: usize, e: usize, generator: &mut Generator) -> Vec<Vec<u16>> {
    let others: Vec<usize> = (0..m).filter(|&other| other != e).collect();
    let mut lists = vec![Vec::new(), others.clone()];
    if let [first, .., last] = others[..] {
        lists.push(vec![first, last]);
    }
    if !others.is_empty() {
        lists.push(vec![others[generator.below(others.len())]]);
        lists.push(vec![others[e.saturating_sub(1)]]);
    }
    let factors = lists.into_iter().map(|list| {
        let mut factors = vec![0; m];
        for row in list {
            factors[row] = 1 + generator.below(2047) as u16;
        }
        factors
    });
    factors.collect()
}

/// The case with the sum of the rows of H, each times its factor, as row e.
fn with_sum(case: &Case, e: usize, factors: &[u16]) -> Case {
    let mut case = case.clone();
    let n = case.numbers[N];
    let h = case.inputs[H].words_mut();
    let row = combination(h, n, factors);
    h[n * e..n * (e + 1)].copy_from_slice(&row);
    case
}

/// The rows that are tried: all, or of many the first, one in the middle and the
/// last.
fn tried(m: usize) -> Vec<usize> {
    if m <= 16 {
        return (0..m).collect();
    }
    vec![0, m / 2, m - 1]
}

/// Each row in turn: the sum of multiples of some others, of all, or zero.
pub fn each_row<E: Keyed>() -> Group {
    Group::new("each row of H leans on others", |generator, each| {
        for (n, m) in EACH_ROW {
            let case = E::right(sizes(n, m), generator);
            for e in tried(m) {
                for factors in ways(m, e, generator) {
                    each(with_sum(&case, e, &factors).answering(Some(DEPENDENT)));
                }
            }
        }
    })
    .with_any_rows()
}

/// Rows that lean but for one bit: no refusal of the rows applies. What an entry
/// answers then is left to the other side.
pub fn nearly<E: Keyed>() -> Group {
    Group::new(
        "each row of H leans on others but for one bit",
        |generator, each| {
            for (n, m) in EACH_ROW {
                let case = E::right(sizes(n, m), generator);
                for e in tried(m) {
                    for factors in ways(m, e, generator) {
                        each(nearly_leaning(&case, e, &factors, generator));
                    }
                }
            }
        },
    )
}

/// The case with the sum of the rows as row e, and one bit of it changed, so that
/// the rows do not lean.
fn nearly_leaning(case: &Case, e: usize, factors: &[u16], generator: &mut Generator) -> Case {
    let leaning = with_sum(case, e, factors);
    let n = case.numbers[N];
    loop {
        let (column, bit) = (generator.below(n), generator.below(11));
        let other = keyed::changed(&leaning, H, n * e + column, bit);
        if independent(other.words(H), n) {
            return other;
        }
    }
}

/// A case that no refusal before 15 applies to, with rows that lean in this way.
pub fn of_right<E: Keyed>(sizes: Sizes, leaning: Leaning, generator: &mut Generator) -> Case {
    let mut case = E::right(sizes, generator);
    debug_assert_eq!((case.numbers[N], case.numbers[M]), (sizes.n, sizes.m));
    leaning.make(case.inputs[H].words_mut(), sizes.n, generator);
    case.stated = None;
    case
}
