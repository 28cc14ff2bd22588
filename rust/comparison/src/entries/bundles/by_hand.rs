//! Bundles of key A whose bytes are written out.

use super::join::{self, stated_bytes};
use super::{read, SERIAL_ORDER};
use crate::case::{Case, Group};
use crate::entries::files::groups::{LONG_SERIAL, MISSING};
use crate::entries::write::by_hand::{KEY_A, SERIALS, TARGETS, T_AND_A};
use crate::entries::{DONE, GROUPS_DIFFER, OTHER_KEY, SHORT};
use reference::samples::Generator;

/// The bytes of key A with this field of y and groups of these serials, of which
/// the list has the fields.
fn bundle(target: &[u8], serials: &[&[u8]]) -> Vec<u8> {
    let groups = serials
        .iter()
        .flat_map(|serial| [serial, T_AND_A[0], T_AND_A[1]]);
    let key = KEY_A.into_iter().chain([target]);
    key.chain(groups).flatten().copied().collect()
}

/// The fields of all serials, which rise.
fn all() -> Vec<&'static [u8]> {
    SERIALS.map(|(_, field)| field).to_vec()
}

/// No group, one, two in each order, three, and all.
pub const READ: Group = Group::new("by hand", |generator, each| {
    for (_, target) in TARGETS {
        each(read::of_bytes(&bundle(target, &[]), MISSING, generator));
        each(read::of_bytes(&bundle(target, &all()), DONE, generator));
        for (index, first) in all().into_iter().enumerate() {
            each(read::of_bytes(&bundle(target, &[first]), DONE, generator));
            for (place, second) in all().into_iter().enumerate() {
                let two = bundle(target, &[first, second]);
                let answer = if index < place { DONE } else { SERIAL_ORDER };
                each(read::of_bytes(&two, answer, generator));
                let three = bundle(target, &[first, second, first]);
                each(read::of_bytes(&three, SERIAL_ORDER, generator));
            }
            // 1 in four bytes, below the one before and above it.
            let long = bundle(target, &[first, &[0x05, 0, 4, 0, 0, 0, 1]]);
            each(read::of_bytes(&long, LONG_SERIAL, generator));
        }
    }
});

/// A join of groups of these serials that is done, in outputs that are exact,
/// longer and short.
fn joined(
    target: &[u8],
    [first, second, joined]: [&[&[u8]]; 3],
    generator: &mut Generator,
    each: &mut dyn FnMut(Case),
) {
    let [first, second, bytes] = [first, second, joined].map(|list| bundle(target, list));
    let groups = joined.len();
    for room in [bytes.len(), bytes.len() + 1, bytes.len() + 40] {
        let case = join::case(&first, &second, room, Some(DONE), generator);
        let stated = Some(stated_bytes(&bytes, groups));
        each(Case { stated, ..case });
    }
    for room in [0, bytes.len() - 1] {
        each(join::case(&first, &second, room, Some(SHORT), generator));
    }
}

/// The same groups with another t, another a and another y.
fn refused(all: &[&[u8]], generator: &mut Generator, each: &mut dyn FnMut(Case)) {
    let right = bundle(&[], all);
    let last = right.len() - 1;
    // Both bits of the last t, then the last word of the last a.
    for at in [last - 28, last - 27, last - 1, last] {
        let mut other = right.clone();
        other[at] = if at < last - 1 { 1 - other[at] } else { 1 };
        for room in [0, right.len() - 1, right.len(), 2 * right.len()] {
            each(join::case(
                &right,
                &other,
                room,
                Some(GROUPS_DIFFER),
                generator,
            ));
        }
    }
    let targets = TARGETS.map(|(_, target)| bundle(target, all));
    for (index, first) in targets.iter().enumerate() {
        for second in (0..3).filter(|&place| place != index) {
            for room in [0, first.len(), 2 * right.len()] {
                let second = &targets[second];
                each(join::case(first, second, room, Some(OTHER_KEY), generator));
            }
        }
    }
}

/// Each two serials, all of them parted in each way, and joins that are refused.
pub const JOIN: Group = Group::new("by hand", |generator, each| {
    let all = all();
    for (_, target) in TARGETS {
        for (index, &first) in all.iter().enumerate() {
            for (place, &second) in all.iter().enumerate() {
                let mut both = vec![all[index.min(place)], all[index.max(place)]];
                both.dedup();
                joined(target, [&[first], &[second], &both], generator, each);
            }
        }
        for set in 1_usize..1 << all.len() {
            let chosen = |wanted: usize| -> Vec<&[u8]> {
                let places = (0..all.len()).filter(|place| set >> place & 1 == wanted);
                places.map(|place| all[place]).collect()
            };
            joined(target, [&all, &chosen(1), &all], generator, each);
            if !chosen(0).is_empty() {
                joined(target, [&chosen(0), &chosen(1), &all], generator, each);
            }
        }
    }
    refused(&all, generator, each);
});
