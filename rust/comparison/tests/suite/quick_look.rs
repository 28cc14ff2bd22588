//! The groups of quick look, and of quick look beside column tops, find wrong
//! looks. Each stands in the place of the library's.

use crate::common::{finds, passes};
use comparison::case::{Call, Entry};
use comparison::entries::quick_look::groups::{
    ALL_LISTS, BITS, BYTES, EACH_PLACE, EDGES, EQUAL, ORDERS, TWINS, TWO,
};
use comparison::entries::quick_look::refused::{BOTH_WRONG, INDEX_BEFORE, WRONG_LENGTH, WRONG_N};
use comparison::entries::quick_look::tops::{beside_tops, ALL_POSITIONS, BESIDE_TOPS, SOME_N};
use comparison::entries::quick_look::{by_reference, looked, QUICK_LOOK};

/// Whether a group finds this look.
macro_rules! found {
    ($look:expr, $group:expr) => {
        finds($group, QUICK_LOOK, |taken, outputs| {
            looked($look, taken, outputs)
        })
    };
}

/// Whether a group of quick looks beside column tops finds this one.
macro_rules! found_by_tops {
    ($look:expr, $group:expr) => {
        finds($group, BESIDE_TOPS, |taken, outputs| {
            beside_tops($look, taken, outputs)
        })
    };
}

/// Whether a position offends, given n, all positions and its index.
type Offends = fn(usize, &[u8], usize) -> bool;

/// The refusal of the reference, where it has one.
fn refusal(n: usize, positions: &[u8]) -> Option<u32> {
    reference::quick_look(n, positions)
        .err()
        .map(|r| r.number())
}

/// The indices of the positions that offend.
fn offenders(n: usize, positions: &[u8], offends: Offends) -> Vec<usize> {
    let indices = 0..positions.len();
    indices.filter(|&i| offends(n, positions, i)).collect()
}

/// Whether the position is no column or came before.
fn right(n: usize, positions: &[u8], index: usize) -> bool {
    usize::from(positions[index]) >= n || positions[..index].contains(&positions[index])
}

/// 2^d for n.
fn limit(n: usize) -> usize {
    n.next_power_of_two()
}

/// A look that answers one of these offenders, or that all is well.
fn answered(index: &mut usize, offender: Option<usize>) -> u32 {
    match offender {
        Some(offender) => {
            *index = offender;
            255
        }
        None => 0,
    }
}

/// A look at positions that offend otherwise.
macro_rules! offending {
    ($offends:expr) => {
        |n, positions, index| match refusal(n, positions) {
            Some(number) => number,
            None => answered(index, offenders(n, positions, $offends).first().copied()),
        }
    };
}

/// A look that chooses another offender among all, which are given with the
/// positions.
macro_rules! choosing {
    ($choose:expr) => {
        |n, positions, index| {
            let choose: fn(&[u8], &[usize]) -> usize = $choose;
            let found = match refusal(n, positions) {
                Some(number) => return number,
                None => offenders(n, positions, right),
            };
            let chosen = (!found.is_empty()).then(|| choose(positions, &found));
            answered(index, chosen)
        }
    };
}

/// A look at each position as another number. It compares these numbers.
macro_rules! as_others {
    ($other:expr) => {
        offending!(|n, positions, index| {
            let other: fn(usize, usize) -> usize = $other;
            let others = positions.iter().map(|&p| other(n, p.into()));
            let others: Vec<usize> = others.collect();
            others[index] >= n || others[..index].contains(&others[index])
        })
    };
}

/// The look of the reference, with another answer where it has this one and the
/// condition on n, the positions and the index holds.
macro_rules! answering {
    ($answer:expr, $other:expr, $condition:expr) => {
        |n, positions, index| {
            let condition: fn(usize, &[u8], usize) -> bool = $condition;
            match by_reference(n, positions, index) {
                $answer if condition(n, positions, *index) => $other,
                answer => answer,
            }
        }
    };
}

/// The look of the reference, which writes an index too where it has this answer.
macro_rules! written_on {
    ($answer:expr, $index:expr) => {
        |n, positions, index| {
            let other: fn(usize, &[u8]) -> usize = $index;
            let answer = by_reference(n, positions, index);
            if answer == $answer {
                *index = other(n, positions);
            }
            answer
        }
    };
}

#[test]
fn no_fault() {
    for group in [
        ALL_LISTS,
        ORDERS,
        EACH_PLACE,
        TWO,
        TWINS,
        EQUAL,
        EDGES,
        BITS,
        BYTES,
        WRONG_N,
        WRONG_LENGTH,
        BOTH_WRONG,
        INDEX_BEFORE,
    ] {
        assert!(!found!(by_reference, group), "{}", group.name);
        assert!(!found!(offending!(right), group), "{}", group.name);
    }
    for group in [ALL_POSITIONS, SOME_N] {
        assert!(!found_by_tops!(by_reference, group), "{}", group.name);
    }
}

#[test]
fn every_answer_and_every_cell_reached() {
    assert!(passes(
        &Entry {
            library: QUICK_LOOK.reference,
            ..QUICK_LOOK
        },
        None
    ));
    let beside: Call = |taken, outputs| beside_tops(by_reference, taken, outputs);
    assert!(passes(
        &Entry {
            library: beside,
            ..BESIDE_TOPS
        },
        None
    ));
}

#[test]
fn index_of_the_second_offender() {
    assert!(found!(choosing!(|_, all| all[all.len().min(2) - 1]), TWO));
    assert!(found!(
        choosing!(|_, all| all[all.len().min(2) - 1]),
        ALL_LISTS
    ));
    // Of the last.
    assert!(found!(choosing!(|_, all| all[all.len() - 1]), TWO));
    // Of the first that is no column, where there is one.
    assert!(found!(
        choosing!(|positions, all| {
            let no_column = |i: &&usize| usize::from(positions[**i]) >= positions.len();
            *all.iter().find(no_column).unwrap_or(&all[0])
        }),
        TWO
    ));
    // Of the first that came before, where there is one.
    assert!(found!(
        choosing!(|positions, all| {
            let before = |i: &&usize| positions[..**i].contains(&positions[**i]);
            *all.iter().find(before).unwrap_or(&all[0])
        }),
        TWO
    ));
}

#[test]
fn index_of_the_earlier_twin() {
    macro_rules! earlier {
        () => {
            choosing!(|positions, all| {
                let twin = positions.iter().position(|&p| p == positions[all[0]]);
                twin.unwrap_or(all[0])
            })
        };
    }
    assert!(found!(earlier!(), TWINS));
    assert!(found!(earlier!(), ALL_LISTS));
    assert!(found!(earlier!(), EQUAL));
}

#[test]
fn another_index() {
    // From 1, and not written.
    assert!(found!(choosing!(|_, all| all[0] + 1), EACH_PLACE));
    assert!(found!(
        |n, positions, _| by_reference(n, positions, &mut 0),
        EACH_PLACE
    ));
    // In its lowest byte alone.
    assert!(found!(
        |n, positions, index| {
            let mut offender = 0;
            let answer = by_reference(n, positions, &mut offender);
            if answer == 255 {
                *index = *index & !255 | offender;
            }
            answer
        },
        EACH_PLACE
    ));
}

#[test]
fn set_not_updated() {
    macro_rules! no_column {
        () => {
            offending!(|n, positions, i| usize::from(positions[i]) >= n)
        };
    }
    assert!(found!(no_column!(), TWINS));
    assert!(found!(no_column!(), ALL_LISTS));
    assert!(found_by_tops!(no_column!(), ALL_POSITIONS));
    assert!(found_by_tops!(no_column!(), SOME_N));
}

#[test]
fn only_some_repeats_found() {
    // Adjacent ones.
    assert!(found!(
        offending!(|n, positions, i| {
            usize::from(positions[i]) >= n || i > 0 && positions[i - 1] == positions[i]
        }),
        TWINS
    ));
    // All but adjacent ones.
    assert!(found!(
        offending!(|n, positions, i| {
            usize::from(positions[i]) >= n || i > 0 && positions[..i - 1].contains(&positions[i])
        }),
        TWINS
    ));
    // Of the first position, and of all others.
    assert!(found!(
        offending!(|n, positions, i| {
            usize::from(positions[i]) >= n || i > 0 && positions[0] == positions[i]
        }),
        TWINS
    ));
    assert!(found!(
        offending!(|n, positions, i| {
            usize::from(positions[i]) >= n || i > 0 && positions[1..i].contains(&positions[i])
        }),
        TWINS
    ));
}

#[test]
fn set_of_too_few_bits() {
    // Repeats from column 32 on are not seen, and that of column 63.
    assert!(found!(
        offending!(
            |n, positions, i| right(n, positions, i) && !(32..n).contains(&positions[i].into())
        ),
        EDGES
    ));
    assert!(found!(
        offending!(|n, positions, i| right(n, positions, i) && (n < 64 || positions[i] != 63)),
        EDGES
    ));
    // Columns 31 and 63 are one, as a shift by 32 bits or more takes them.
    macro_rules! of_32_bits {
        () => {
            offending!(|n, positions, i| {
                let mut before = positions[..i].iter();
                usize::from(positions[i]) >= n || before.any(|&p| p % 32 == positions[i] % 32)
            })
        };
    }
    assert!(found!(of_32_bits!(), ORDERS));
    assert!(found!(of_32_bits!(), EDGES));
}

#[test]
fn n_taken_for_a_column() {
    macro_rules! above_n {
        () => {
            offending!(|n, positions, i| {
                usize::from(positions[i]) > n || positions[..i].contains(&positions[i])
            })
        };
    }
    assert!(found!(above_n!(), ALL_LISTS));
    assert!(found!(above_n!(), EACH_PLACE));
    assert!(found!(above_n!(), BYTES));
    assert!(found_by_tops!(above_n!(), ALL_POSITIONS));
}

#[test]
fn spare_codes_taken_for_columns() {
    macro_rules! from_limit {
        () => {
            offending!(|n, positions, i| {
                usize::from(positions[i]) >= limit(n) || positions[..i].contains(&positions[i])
            })
        };
    }
    assert!(found!(from_limit!(), ALL_LISTS));
    assert!(found!(from_limit!(), EACH_PLACE));
    assert!(found_by_tops!(from_limit!(), ALL_POSITIONS));
    assert!(found_by_tops!(from_limit!(), SOME_N));
}

#[test]
fn too_large_wraps() {
    assert!(found!(as_others!(|_, position| position % 64), BITS));
    assert!(found!(as_others!(|_, position| position % 64), BYTES));
    assert!(found!(as_others!(|n, position| position % limit(n)), BITS));
    assert!(found!(
        as_others!(|n, position| position % limit(n)),
        ALL_LISTS
    ));
    assert!(found_by_tops!(
        as_others!(|n, position| position % limit(n)),
        SOME_N
    ));
    // The highest bit is lost, and all from n on.
    assert!(found!(as_others!(|_, position| position % 128), BITS));
    assert!(found!(as_others!(|n, position| position % n), BYTES));
}

#[test]
fn refusals_of_other_entries() {
    macro_rules! too_large_7 {
        () => {
            answering!(255, 7, |n, positions, index| usize::from(positions[index])
                >= limit(n))
        };
    }
    macro_rules! spare_16 {
        () => {
            answering!(255, 16, |n, positions, index| {
                (n..limit(n)).contains(&positions[index].into())
            })
        };
    }
    assert!(found!(too_large_7!(), EACH_PLACE));
    assert!(found!(too_large_7!(), ALL_LISTS));
    assert!(found!(spare_16!(), EACH_PLACE));
    assert!(found!(spare_16!(), ALL_LISTS));
    // 7 where one too large comes after the first offender.
    assert!(found!(
        answering!(255, 7, |n, positions, index| {
            let mut after = positions[index + 1..].iter();
            after.any(|&p| usize::from(p) >= limit(n))
        }),
        TWO
    ));
    // 8, as prove answers.
    assert!(found!(answering!(255, 8, |_, _, _| true), TWINS));
}

#[test]
fn another_answer() {
    assert!(found!(answering!(255, 254, |_, _, _| true), EACH_PLACE));
    assert!(found!(answering!(255, 1, |_, _, _| true), EACH_PLACE));
    assert!(found!(answering!(255, 0, |_, _, _| true), EACH_PLACE));
    assert!(found!(answering!(0, 255, |_, _, _| true), ORDERS));
    assert!(found_by_tops!(answering!(0, 255, |_, _, _| true), SOME_N));
    // One n alone.
    assert!(found!(answering!(0, 255, |n, _, _| n == 64), ORDERS));
    assert!(found!(answering!(255, 0, |n, _, _| n == 63), EACH_PLACE));
}

#[test]
fn index_written_where_all_is_well() {
    assert!(found!(written_on!(0, |n, _| n), ORDERS));
    assert!(found!(written_on!(0, |n, _| n), INDEX_BEFORE));
    assert!(found!(written_on!(0, |_, _| 0), INDEX_BEFORE));
    assert!(found!(written_on!(0, |n, _| n - 1), INDEX_BEFORE));
    // Where an index of a position stands there.
    assert!(found!(
        |n, positions, index| {
            let answer = by_reference(n, positions, index);
            if answer == 0 && *index < n {
                *index = n;
            }
            answer
        },
        INDEX_BEFORE
    ));
}

#[test]
fn index_written_on_a_refusal() {
    assert!(found!(written_on!(1, |_, _| 0), WRONG_N));
    assert!(found!(written_on!(1, |n, _| n), INDEX_BEFORE));
    assert!(found!(written_on!(3, |_, _| 0), WRONG_LENGTH));
    assert!(found!(
        written_on!(3, |_, positions| positions.len()),
        INDEX_BEFORE
    ));
    // That of an offender, though the length is wrong.
    assert!(found!(
        written_on!(3, |n, positions| {
            let found = offenders(n, positions, right);
            found.first().copied().unwrap_or(n)
        }),
        WRONG_LENGTH
    ));
}

#[test]
fn one_after_three() {
    macro_rules! three_first {
        () => {
            |n, positions, index| match positions.len() == n {
                true => by_reference(n, positions, index),
                false => 3,
            }
        };
    }
    assert!(found!(three_first!(), BOTH_WRONG));
    assert!(found!(three_first!(), INDEX_BEFORE));
    // Where there are no positions.
    assert!(found!(
        answering!(1, 3, |n, positions, _| n > 0 && positions.is_empty()),
        BOTH_WRONG
    ));
}

#[test]
fn a_refusal_left_out() {
    // An offender, or an order, of other lengths, or of other n.
    macro_rules! without {
        ($number:expr) => {
            |n, positions, index| match by_reference(n, positions, index) {
                $number => answered(index, offenders(n, positions, right).first().copied()),
                answer => answer,
            }
        };
    }
    assert!(found!(without!(3), WRONG_LENGTH));
    assert!(found!(without!(1), WRONG_N));
    assert!(found!(without!(1), BOTH_WRONG));
    // n = 0, 1 and 65 alone, and n in its lowest 32 bits.
    assert!(found!(answering!(1, 0, |n, _, _| n == 0), WRONG_N));
    assert!(found!(answering!(1, 0, |n, _, _| n == 1), WRONG_N));
    assert!(found!(answering!(1, 0, |n, _, _| n == 65), WRONG_N));
    assert!(found!(
        |n, positions, index| by_reference(n as u32 as usize, positions, index),
        BOTH_WRONG
    ));
    // A length in its lowest byte, and longer ones.
    assert!(found!(
        answering!(3, 0, |n, positions, _| positions.len() % 256 == n),
        WRONG_LENGTH
    ));
    assert!(found!(
        answering!(3, 0, |n, positions, _| positions.len() > n),
        WRONG_LENGTH
    ));
}

#[test]
fn refusals_of_right_calls() {
    assert!(found!(answering!(0, 1, |n, _, _| n == 2), ORDERS));
    assert!(found!(answering!(0, 1, |n, _, _| n == 64), ORDERS));
    assert!(found!(answering!(255, 3, |n, _, _| n == 64), EACH_PLACE));
    // An offender before 3, and before 1.
    assert!(found!(
        answering!(3, 255, |n, positions, _| !offenders(n, positions, right)
            .is_empty()),
        WRONG_LENGTH
    ));
    assert!(found!(
        answering!(1, 255, |n, positions, _| !offenders(n, positions, right)
            .is_empty()),
        WRONG_N
    ));
}

#[test]
fn a_position_not_read() {
    // The last.
    macro_rules! without_last {
        () => {
            offending!(|n, positions, i| i + 1 < n && right(n, positions, i))
        };
    }
    assert!(found!(without_last!(), EACH_PLACE));
    assert!(found!(without_last!(), ALL_LISTS));
    assert!(found!(without_last!(), TWINS));
    assert!(found_by_tops!(without_last!(), ALL_POSITIONS));
    // The first.
    assert!(found!(
        offending!(|n, positions, i| i > 0 && right(n, positions, i)),
        EACH_PLACE
    ));
}
