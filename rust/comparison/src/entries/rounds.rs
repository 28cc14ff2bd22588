//! Rounds at the largest size, and at sizes just above a power of two, where
//! many of the 2^d columns have no weight: the sizes, what each slice holds, and
//! the groups. Many more rounds from n = 33 on are compared with the package
//! packed, since the reference takes about a hundred times as long there.

use super::keyed::{self, Keyed};
use super::DONE;
use crate::case::{Case, Group, Least};
use crate::kinds::Kind;
use reference::key::Sizes;
use reference::samples::Generator;

/// The largest n.
pub const LARGEST: usize = 64;

/// The sizes n just above a power of two.
pub const ABOVE_A_POWER: [usize; 5] = [33, 17, 9, 5, 3];

/// The rounds in which any two slices hold all pairs of kinds.
const PAIRS: usize = 25;

/// The rounds at the largest size that are compared with the reference.
const OF_REFERENCE: usize = 40;

/// The sizes m of many rounds at the largest size.
const MANY_M: [usize; 3] = [1, 27, 63];

/// The rounds for each of these.
const MANY: usize = 200;

/// The other large sizes, all with the most digits.
const LARGE: std::ops::Range<usize> = 33..LARGEST;

/// The rounds for each of these.
const AT_LARGE: usize = 4;

/// One round: its number, the sizes, and the kinds of six slices.
pub struct Round {
    /// The number, from 0 on.
    pub number: usize,
    /// The sizes.
    pub sizes: Sizes,
    /// What each of six slices holds.
    pub kinds: [Kind; 6],
}

/// An entry with a case for each round.
pub trait InRounds: Keyed {
    /// Hands over the cases with the slices of a round, one of them done.
    fn in_round(round: &Round, generator: &mut Generator, each: &mut dyn FnMut(Case));
}

/// The names of the groups.
const NAMES: [&str; 4] = [
    "n = 64, any m, words of all kinds",
    "n just above a power of two, words of all kinds",
    "n = 64, m = 1, 27 and 63, many rounds, by packed",
    "n = 33 to 63, any m, by packed",
];

/// The groups of an entry with a case for each round.
pub fn groups<E: InRounds>() -> Vec<Group> {
    vec![
        Group::new(NAMES[0], |generator, each| {
            for number in 0..OF_REFERENCE {
                E::in_round(&round(LARGEST, number), generator, each);
            }
        }),
        Group::new(NAMES[1], |generator, each| {
            for n in ABOVE_A_POWER {
                for number in 0..PAIRS {
                    E::in_round(&round(n, number), generator, each);
                }
            }
        }),
        at_largest::<E>(),
        Group::new(NAMES[3], |generator, each| {
            for n in LARGE {
                for turn in 0..AT_LARGE {
                    E::in_round(&round(n, n + 31 * turn), generator, each);
                }
            }
        })
        .by_packed(),
    ]
}

/// Many rounds at the largest size, with few, some and most rows.
pub const fn at_largest<E: InRounds>() -> Group {
    Group::new(NAMES[2], |generator, each| {
        rounds_at_largest::<E>(MANY, generator, each);
    })
    .by_packed()
}

/// So many rounds at the largest size, for each of some m.
pub fn rounds_at_largest<E: InRounds>(
    count: usize,
    generator: &mut Generator,
    each: &mut dyn FnMut(Case),
) {
    for m in MANY_M {
        for number in 0..count {
            let sizes = keyed::sizes(LARGEST, m);
            let round = Round {
                sizes,
                ..round(LARGEST, number)
            };
            E::in_round(&round, generator, each);
        }
    }
}

/// The done calls that each of these groups must have.
pub fn least() -> Vec<Least> {
    let done = |name, n: &[usize], m: &[usize], count| Least {
        group: name,
        n: n.to_vec(),
        m: m.to_vec(),
        answer: DONE,
        count,
    };
    vec![
        done(NAMES[0], &[LARGEST], &[], OF_REFERENCE),
        done(NAMES[1], &ABOVE_A_POWER, &[], PAIRS),
        done(NAMES[2], &[LARGEST], &MANY_M, MANY),
        done(NAMES[3], &LARGE.collect::<Vec<_>>(), &[], AT_LARGE),
    ]
}

/// What the slices hold: all pairs of kinds first, then random words and those
/// of the edges.
fn kinds(number: usize) -> [Kind; 6] {
    let (a, b) = (number % 5, number / 5);
    let kinds = if number < PAIRS {
        [a, a + b, a + 2 * b, a + 3 * b, a + 4 * b, b].map(|kind| kind % 5)
    } else {
        [0, 1, 2, 3, 4, 5].map(|slice| number >> slice & 1)
    };
    kinds.map(|kind| Kind::ALL[kind])
}

/// A round with this number. In every eighth m is n - 1; else it goes on by
/// steps that have no factor in common with n - 1, from 1 to n - 1.
pub fn round(n: usize, number: usize) -> Round {
    let m = match number % 8 {
        7 => n - 1,
        _ => 1 + 5 * number % (n - 1),
    };
    Round {
        number,
        sizes: keyed::sizes(n, m),
        kinds: kinds(number),
    }
}
