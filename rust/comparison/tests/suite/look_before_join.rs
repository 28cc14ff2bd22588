//! The groups of look before join, of joins that are looked at first and of joins
//! in outputs of the length told find wrong looks. Each stands in the place of the
//! library's.

use crate::common::finds;
use crate::join_bundles::{SMALL_DIFFERING, SMALL_KEYS, SMALL_SHAPES};
use crate::joining::{Check, Join, JOIN};
use comparison::case::{Call, Entry};
use comparison::entries::bundles::join::{by_reference as joined, JOIN_BUNDLES};
use comparison::entries::bundles::join_groups::OUTPUTS;
use comparison::entries::bundles::look::{
    by_reference, looked, looked_and_joined, told_and_joined, LENT_AS_TOLD, LOOK_BEFORE_JOIN,
};
use comparison::entries::bundles::look_groups::{
    BY_HAND, JOINED_SHAPES, OF_BESIDE_OTHERS, OF_DIFFERING, OF_EACH_TWO, OF_OTHER_KEYS, OF_SHAPES,
    POWERS,
};
use comparison::entries::bundles::parts::Bundle;
use comparison::entries::bundles::refused::EACH_TWO;

/// Whether a group of looks finds this one.
macro_rules! found {
    ($look:expr, $group:expr) => {
        finds($group, LOOK_BEFORE_JOIN, |taken, outputs| {
            looked($look, taken, outputs)
        })
    };
}

/// Whether a group of joins finds this look, before each of them.
macro_rules! found_before_joins {
    ($look:expr, $group:expr) => {
        finds($group, JOIN_BUNDLES, |taken, outputs| {
            looked_and_joined($look, joined, taken, outputs)
        })
    };
}

/// Whether a group of joins in outputs of the length told finds this look.
macro_rules! found_by_length {
    ($look:expr) => {
        finds(JOINED_SHAPES, LENT_AS_TOLD, |taken, outputs| {
            told_and_joined($look, taken, outputs)
        })
    };
}

/// A look with other parts.
macro_rules! look {
    ($($name:ident: $part:expr),* $(,)?) => {
        |lent, room, numbers| {
            const OTHER: Join = Join { $($name: $part,)* ..JOIN };
            OTHER.look(lent, room, numbers)
        }
    };
}

/// The look of the reference, with other numbers where it is done.
macro_rules! changed {
    ($change:expr) => {
        |lent, room, [length, groups]| {
            let change: fn([&[u8]; 2], &mut usize, &mut usize) = $change;
            let answer = by_reference(lent, room, [&mut *length, &mut *groups]);
            if answer == 0 {
                change(lent, length, groups);
            }
            answer
        }
    };
}

/// The look of the reference, for an output of another length.
macro_rules! for_room {
    ($other:expr) => {
        |lent, room, numbers| {
            let other: fn(usize) -> usize = $other;
            by_reference(lent, other(room), numbers)
        }
    };
}

/// The look of the reference, which writes the numbers of the joined bundle, or
/// zeros, where it is refused with this number.
macro_rules! written_on {
    ($refusal:expr) => {
        |lent, room, [length, groups]| {
            let answer = by_reference(lent, room, [&mut *length, &mut *groups]);
            if answer == $refusal {
                (*length, *groups) = (0, 0);
                by_reference(lent, usize::MAX, [length, groups]);
            }
            answer
        }
    };
}

/// The largest number with a sign.
const SIGNED: usize = isize::MAX as usize;

/// The number of groups of the two bundles.
fn counts(lent: [&[u8]; 2]) -> [usize; 2] {
    lent.map(|bytes| Bundle::walked(bytes).groups.len())
}

#[test]
fn no_fault() {
    for group in [
        BY_HAND,
        OF_SHAPES,
        POWERS,
        OF_DIFFERING,
        OF_OTHER_KEYS,
        OF_EACH_TWO,
        OF_BESIDE_OTHERS,
    ] {
        assert!(!found!(by_reference, group), "{}", group.name);
        assert!(!found!(look!(), group), "{}", group.name);
    }
    for group in [SMALL_SHAPES, SMALL_DIFFERING, SMALL_KEYS, OUTPUTS, EACH_TWO] {
        assert!(!found_before_joins!(by_reference, group), "{}", group.name);
    }
    assert!(!found_by_length!(by_reference));
}

#[test]
fn thirteen_left_out() {
    use Check::{First, Groups, Key, Second};
    assert!(found!(
        look!(order: [First, Second, Key, Groups, Groups]),
        BY_HAND
    ));
    assert!(found!(
        look!(order: [First, Second, Key, Groups, Groups]),
        OF_SHAPES
    ));
    assert!(found_before_joins!(
        look!(order: [First, Second, Key, Groups, Groups]),
        OUTPUTS
    ));
    // Where there is no room at all.
    assert!(found!(
        look!(short: |room, length| room > 0 && room < length),
        BY_HAND
    ));
}

#[test]
fn thirteen_before_others() {
    use Check::{First, Groups, Key, Room, Second};
    assert!(found!(
        look!(order: [First, Second, Key, Room, Groups]),
        OF_DIFFERING
    ));
    assert!(found_before_joins!(
        look!(order: [First, Second, Key, Room, Groups]),
        SMALL_DIFFERING
    ));
    assert!(found!(
        look!(order: [First, Second, Room, Key, Groups]),
        OF_OTHER_KEYS
    ));
    assert!(found!(
        look!(order: [First, Room, Second, Key, Groups]),
        OF_BESIDE_OTHERS
    ));
}

#[test]
fn refusals_left_out() {
    assert!(found!(look!(same_key: |_, _| true), OF_OTHER_KEYS));
    assert!(found_before_joins!(
        look!(same_key: |_, _| true),
        SMALL_KEYS
    ));
    assert!(found!(look!(same: |_, _| true), OF_DIFFERING));
    assert!(found_before_joins!(
        look!(same: |_, _| true),
        SMALL_DIFFERING
    ));
}

#[test]
fn refusals_of_the_second_before_those_of_the_first() {
    use Check::{First, Groups, Key, Room, Second};
    assert!(found!(
        look!(order: [Second, First, Key, Groups, Room]),
        OF_EACH_TWO
    ));
    assert!(found_before_joins!(
        look!(order: [Second, First, Key, Groups, Room]),
        EACH_TWO
    ));
    // 22 before 21.
    assert!(found!(
        look!(order: [First, Second, Groups, Key, Room]),
        OF_OTHER_KEYS
    ));
}

#[test]
fn another_length() {
    // That of the second, that of both, a byte less and a byte more.
    assert!(found!(
        changed!(|lent, length, _| *length = lent[1].len()),
        OF_SHAPES
    ));
    assert!(found!(
        changed!(|lent, length, _| *length = lent.concat().len()),
        OF_SHAPES
    ));
    assert!(found!(changed!(|_, length, _| *length -= 1), BY_HAND));
    assert!(found!(changed!(|_, length, _| *length += 1), BY_HAND));
    assert!(found_before_joins!(
        changed!(|lent, length, _| *length = lent.concat().len()),
        SMALL_SHAPES
    ));
    assert!(found_by_length!(changed!(
        |lent, length, _| *length = lent[1].len()
    )));
    assert!(found_by_length!(changed!(
        |lent, length, _| *length = lent.concat().len()
    )));
    assert!(found_by_length!(changed!(|_, length, _| *length -= 1)));
    assert!(found_by_length!(changed!(|_, length, _| *length += 1)));
}

#[test]
fn another_number_of_groups() {
    // That of the first, that of both, and those of one alone.
    assert!(found!(
        changed!(|lent, _, groups| *groups = counts(lent)[0]),
        OF_SHAPES
    ));
    assert!(found!(
        changed!(|lent, _, groups| *groups = counts(lent).iter().sum()),
        OF_SHAPES
    ));
    assert!(found!(
        changed!(|lent, _, groups| *groups = 2 * *groups - counts(lent).iter().sum::<usize>()),
        OF_SHAPES
    ));
    assert!(found_before_joins!(
        changed!(|lent, _, groups| *groups = counts(lent)[0]),
        SMALL_SHAPES
    ));
    assert!(found_by_length!(changed!(|_, _, groups| *groups += 1)));
}

#[test]
fn equal_groups_counted_twice() {
    assert!(found!(
        look!(kept: |one, other| vec![one.clone(), other.clone()]),
        BY_HAND
    ));
}

#[test]
fn numbers_written_on_a_refusal() {
    assert!(found!(written_on!(13), BY_HAND));
    assert!(found!(written_on!(22), OF_DIFFERING));
    assert!(found!(written_on!(21), OF_OTHER_KEYS));
    assert!(found!(written_on!(20), OF_EACH_TWO));
    assert!(found_before_joins!(written_on!(13), OUTPUTS));
    assert!(found_before_joins!(written_on!(22), SMALL_DIFFERING));
    assert!(found_before_joins!(written_on!(9), EACH_TWO));
}

#[test]
fn numbers_not_written() {
    assert!(found!(
        |lent, room, _| by_reference(lent, room, [&mut 0, &mut 0]),
        BY_HAND
    ));
}

#[test]
fn rooms_compared_otherwise() {
    // One byte too short, and not the length itself.
    assert!(found!(
        look!(short: |room, length| room < length - 1),
        BY_HAND
    ));
    assert!(found!(look!(short: |room, length| room <= length), BY_HAND));
    assert!(found_before_joins!(
        look!(short: |room, length| room < length - 1),
        OUTPUTS
    ));
    // Room for both bundles.
    assert!(found!(
        |lent, room, numbers| match by_reference(lent, room, numbers) {
            0 if room < lent.concat().len() => 13,
            answer => answer,
        },
        OF_SHAPES
    ));
}

/// Whether what is known of bundles whose bytes are written out finds this look,
/// where it stands in the place of the reference's too.
macro_rules! found_on_both_sides {
    ($look:expr) => {{
        let call: Call = |taken, outputs| looked($look, taken, outputs);
        let entry = Entry {
            reference: call,
            ..LOOK_BEFORE_JOIN
        };
        finds(BY_HAND, entry, call)
    }};
}

#[test]
fn the_reference_wrong_too() {
    use Check::{First, Groups, Key, Second};
    assert!(!found_on_both_sides!(look!()));
    assert!(found_on_both_sides!(
        look!(order: [First, Second, Key, Groups, Groups])
    ));
    assert!(found_on_both_sides!(changed!(|_, length, _| *length += 1)));
    assert!(found_on_both_sides!(changed!(|_, _, groups| *groups -= 1)));
    assert!(found_on_both_sides!(look!(same_key: |_, _| true)));
    assert!(found_on_both_sides!(look!(same: |_, _| true)));
    assert!(found_on_both_sides!(
        look!(short: |room, length| room < length - 1)
    ));
    assert!(found_on_both_sides!(for_room!(|room| if room > SIGNED {
        0
    } else {
        room
    })));
}

#[test]
fn large_rooms_taken_for_others() {
    // Negative, from the largest number with a sign on and above it; one room alone.
    for group in [BY_HAND, POWERS] {
        assert!(found!(
            for_room!(|room| if room >= SIGNED { 0 } else { room }),
            group
        ));
        assert!(found!(
            for_room!(|room| if room > SIGNED { 0 } else { room }),
            group
        ));
        assert!(found!(
            for_room!(|room| if room == SIGNED { 0 } else { room }),
            group
        ));
        assert!(found!(
            for_room!(|room| if room == SIGNED + 1 { 0 } else { room }),
            group
        ));
        assert!(found!(
            for_room!(|room| if room == usize::MAX { 0 } else { room }),
            group
        ));
    }
    assert!(found_by_length!(for_room!(|room| if room > SIGNED {
        0
    } else {
        room
    })));
    // The lower 32 bits, with a sign too, the lower 16, and one more.
    assert!(found!(for_room!(|room| room as u32 as usize), POWERS));
    assert!(found!(
        for_room!(|room| (room as i32).max(0) as usize),
        POWERS
    ));
    assert!(found!(for_room!(|room| room as u16 as usize), POWERS));
    assert!(found!(for_room!(|room| room.wrapping_add(1)), BY_HAND));
}

/// The look of the reference, which answers otherwise in the place of a refusal
/// for this room.
macro_rules! in_place_of {
    ($refusal:expr, $room:expr, $other:expr) => {
        |lent, room, numbers| match by_reference(lent, room, numbers) {
            $refusal if room == $room => $other,
            answer => answer,
        }
    };
}

#[test]
fn refusals_for_some_rooms_alone() {
    assert!(found!(in_place_of!(22, 0, 13), OF_DIFFERING));
    assert!(found!(in_place_of!(22, usize::MAX, 0), OF_DIFFERING));
    assert!(found!(in_place_of!(21, 0, 13), OF_OTHER_KEYS));
    assert!(found!(in_place_of!(21, usize::MAX, 0), OF_OTHER_KEYS));
    assert!(found!(in_place_of!(20, 0, 13), OF_EACH_TWO));
    assert!(found!(in_place_of!(20, usize::MAX, 0), OF_EACH_TWO));
    assert!(found!(in_place_of!(9, 0, 13), OF_BESIDE_OTHERS));
    assert!(found!(in_place_of!(9, usize::MAX, 0), OF_BESIDE_OTHERS));
}
