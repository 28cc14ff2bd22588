//! The groups of cases of quick look that are refused, and of the index before a
//! call, which stays where no offender is found.

use super::{case, offending, well, INDEX};
use crate::case::{Case, Group, Least};
use crate::entries::keyed::EVERY_N;
use crate::entries::DONE;
use crate::lent::Lent;
use crate::slices::POSITIONS;
use reference::samples::Generator;
use reference::Refusal;
use std::collections::BTreeSet;

/// The groups.
pub fn all() -> Vec<Group> {
    vec![WRONG_N, WRONG_LENGTH, BOTH_WRONG, EMPTY, INDEX_BEFORE]
}

/// The least numbers of cases.
pub fn least() -> Vec<Least> {
    let least = |group: &Group, n: Vec<usize>, answer, count| Least {
        group: group.name,
        n,
        m: Vec::new(),
        answer,
        count,
    };
    let length = Refusal::SliceLength.number();
    let size = Refusal::SizeN.number();
    vec![
        least(&WRONG_N, SMALL_WRONG_N.to_vec(), size, 2),
        least(&WRONG_LENGTH, EVERY_N.collect(), length, 8),
        least(&BOTH_WRONG, wrong_n(), size, 4),
        least(&INDEX_BEFORE, EVERY_N.collect(), DONE, 8),
        least(&INDEX_BEFORE, EVERY_N.collect(), length, 16),
    ]
}

/// Other n than 2 to 64, that a slice can have as its length.
const SMALL_WRONG_N: [usize; 5] = [0, 1, 65, 66, 128];

/// These, others that no slice here is as long as, and some that are right in
/// their lowest 8, 16, 32 or 63 bits.
fn wrong_n() -> Vec<usize> {
    let half = 1 << (usize::BITS - 1);
    let mut list = SMALL_WRONG_N.to_vec();
    list.extend([256, 1 << 16, 1 << 32, half, usize::MAX - 1, usize::MAX]);
    list.extend([256 + 5, (1 << 16) + 5, (1 << 32) + 5, half + 5]);
    list
}

/// So many positions: an order, as far as there are bytes.
fn rising(len: usize) -> Vec<u8> {
    (0..len).map(|position| position as u8).collect()
}

/// Positions of this length: an order, an offender in the last place, and none
/// that is a column.
fn contents(len: usize) -> [Vec<u8>; 3] {
    let order = rising(len);
    let mut last = order.clone();
    if let Some(position) = last.last_mut() {
        *position = u8::MAX;
    }
    [order, last, vec![u8::MAX; len]]
}

/// A case that is refused.
fn refused(n: usize, positions: &[u8], refusal: Refusal, generator: &mut Generator) -> Case {
    case(n, positions, generator).answering(Some(refusal.number()))
}

/// n is wrong, and the length is n.
pub const WRONG_N: Group = Group::new("wrong n, as many positions", |generator, each| {
    for n in SMALL_WRONG_N {
        for positions in contents(n) {
            each(refused(n, &positions, Refusal::SizeN, generator));
        }
    }
});

/// Other lengths than n.
fn wrong_lengths(n: usize) -> BTreeSet<usize> {
    // The last two are right in their lowest 8 and 16 bits.
    let lengths = [0, 1, n - 1, n + 1, 2 * n, 63, 64, 65, n + 256, n + 65_536];
    let mut lengths = BTreeSet::from(lengths);
    lengths.remove(&n);
    lengths
}

/// The longest slices are lent for these n alone.
const LONGEST: [usize; 3] = [2, 33, 64];

/// The length is wrong, and n is right.
pub const WRONG_LENGTH: Group = Group::new("every n, wrong lengths", |generator, each| {
    for n in EVERY_N {
        for len in wrong_lengths(n) {
            if len > 65_536 && !LONGEST.contains(&n) {
                continue;
            }
            for positions in contents(len) {
                each(refused(n, &positions, Refusal::SliceLength, generator));
            }
        }
    }
});

/// n and the length are wrong: 1 comes before 3.
pub const BOTH_WRONG: Group = Group::new("wrong n and wrong lengths", |generator, each| {
    for n in wrong_n() {
        for len in [0, 1, 2, 5, 64, 65].into_iter().filter(|&len| len != n) {
            for positions in contents(len) {
                each(refused(n, &positions, Refusal::SizeN, generator));
            }
        }
    }
});

/// No positions, at a dangling pointer.
const EMPTY: Group = Group::new("no positions", |generator, each| {
    for n in EVERY_N.chain(wrong_n()) {
        let refusal = match EVERY_N.contains(&n) {
            true => Refusal::SliceLength,
            false => Refusal::SizeN,
        };
        let mut case = refused(n, &[], refusal, generator);
        case.inputs[POSITIONS] = Lent::no_bytes();
        each(case);
    }
});

/// The case with this index before the call.
fn with_index(case: &Case, index: usize) -> Case {
    let mut case = case.clone();
    *case.outputs[INDEX].size_mut() = index;
    case
}

/// Indices of positions and others, before calls that find no offender, find one
/// in the last place, and are refused.
pub const INDEX_BEFORE: Group =
    Group::new("every n, the index before a call", |generator, each| {
        for n in EVERY_N {
            let order = generator.order(n);
            let longer = [&order[..], &[0]].concat();
            let mut twice = order.clone();
            twice[n - 1] = twice[0];
            let cases = [
                well(&order, generator),
                offending(&twice, n - 1, generator),
                refused(n, &order[..n - 1], Refusal::SliceLength, generator),
                refused(n, &longer, Refusal::SliceLength, generator),
                refused(n + 63, &order, Refusal::SizeN, generator),
                refused(usize::from(n > 32), &order, Refusal::SizeN, generator),
            ];
            for index in [0, 1, n - 2, n - 1, n, 255, 1 << 32, usize::MAX] {
                cases.iter().for_each(|case| each(with_index(case, index)));
            }
        }
    });
