//! The groups of join bundles, and of joined bundles that are read back, find
//! wrong joins. Each stands in the place of the library.

use crate::common::finds;
use crate::joining::{put, Check, Join, JOIN};
use comparison::case::{Call, Case, Group, Taken};
use comparison::entries::bundles::join::{bundles_of, FIRST, JOIN_BUNDLES};
use comparison::entries::bundles::join_groups::{
    DIFFERING, EACH_VALUE, OTHER_KEYS, OTHER_SIZES, OUTPUTS, SERIALS, SHAPES, SMALL_N,
};
use comparison::entries::bundles::parts::{serial_of, Bundle, Fields, In, Pair};
use comparison::entries::bundles::read_back::{self, joined_and_read};
use comparison::entries::bundles::refused::{BESIDE_OTHERS, EACH_TWO, REFUSED_BUNDLES};
use comparison::entries::bundles::{by_hand, GROUPS};
use comparison::entries::package_field::LENGTH;
use comparison::entries::write::OUT;
use comparison::lent::Lent;
use comparison::named::Named;
use reference::package::{tag, WrittenField};
use reference::samples::Generator;
use std::cmp::Ordering;

/// Hands over the cases of a group up to this n.
fn up_to(n: u8, group: &Group, generator: &mut Generator, each: &mut dyn FnMut(Case)) {
    (group.cases)(generator, &mut |case| {
        if case.bytes(FIRST)[3] <= n {
            each(case);
        }
    });
}

/// Small bundles with parts of themselves and with others.
pub const SMALL_SHAPES: Group = Group::new("shapes", |generator, each| {
    up_to(4, &SHAPES, generator, each);
});

/// Small bundles with groups that differ, and with other keys.
pub const SMALL_DIFFERING: Group = Group::new("groups that differ", |generator, each| {
    up_to(4, &DIFFERING, generator, each);
});
pub const SMALL_KEYS: Group = Group::new("other keys", |generator, each| {
    up_to(5, &OTHER_KEYS, generator, each);
});

/// One in nine of the pairs of serials.
const SOME_SERIALS: Group = Group::new("serials", |generator, each| {
    SERIALS.one_in(9, generator, each);
});

/// One in five of the random bundles of small sizes.
const SOME_SMALL: Group = SMALL_N.with_cases(|generator, each| {
    SMALL_N.one_in(5, generator, each);
});

/// Whether small bundles with parts of themselves and with others find this
/// function in the place of the library.
fn shapes_find(library: Call) -> bool {
    finds(SMALL_SHAPES, JOIN_BUNDLES, library)
}

/// Whether pairs of serials do.
fn serials_find(library: Call) -> bool {
    finds(SOME_SERIALS, JOIN_BUNDLES, library)
}

/// Whether bundles whose bytes are written out do.
fn by_hand_finds(library: Call) -> bool {
    finds(by_hand::JOIN, JOIN_BUNDLES, library)
}

/// Whether groups that differ do.
fn differing_find(library: Call) -> bool {
    finds(SMALL_DIFFERING, JOIN_BUNDLES, library)
}

/// Whether groups of which each value is changed do.
fn each_value_finds(library: Call) -> bool {
    finds(EACH_VALUE, JOIN_BUNDLES, library)
}

/// Whether other keys do.
fn keys_find(library: Call) -> bool {
    finds(SMALL_KEYS, JOIN_BUNDLES, library)
}

/// Whether bundles of other sizes do.
fn sizes_find(library: Call) -> bool {
    finds(OTHER_SIZES, JOIN_BUNDLES, library)
}

/// Whether outputs of all lengths do.
fn outputs_find(library: Call) -> bool {
    finds(OUTPUTS, JOIN_BUNDLES, library)
}

/// Whether each two refusals of the bundles do.
fn each_two_find(library: Call) -> bool {
    finds(EACH_TWO, REFUSED_BUNDLES, library)
}

/// Whether each refusal of a bundle beside 21, 22 and 13 does.
fn beside_finds(library: Call) -> bool {
    finds(BESIDE_OTHERS, REFUSED_BUNDLES, library)
}

/// Whether what this function joins is not read back.
macro_rules! read_back_finds {
    ($join:expr) => {
        finds(
            read_back::OF_SHAPES,
            read_back::READ_BACK,
            |taken, outputs| joined_and_read($join, taken, outputs),
        )
    };
}

/// The answer of the reference, and what it writes.
fn right(taken: &Taken, outputs: &mut Named<Lent>) -> u32 {
    (JOIN_BUNDLES.reference)(taken, outputs)
}

/// A join with other parts.
macro_rules! join {
    ($($name:ident: $part:expr),* $(,)?) => {
        |taken, outputs| {
            const OTHER: Join = Join { $($name: $part,)* ..JOIN };
            OTHER.call(taken, outputs)
        }
    };
}

#[test]
fn no_fault() {
    for finds in [
        shapes_find,
        serials_find,
        by_hand_finds,
        differing_find,
        each_value_finds,
        keys_find,
        sizes_find,
        outputs_find,
        each_two_find,
        beside_finds,
    ] {
        assert!(!finds(right));
        assert!(!finds(join!()));
    }
    assert!(!read_back_finds!(right));
}

#[test]
fn equal_groups_twice() {
    let twice: Call = join!(kept: |one, other| vec![one.clone(), other.clone()]);
    assert!(shapes_find(twice));
    assert!(read_back_finds!(
        join!(kept: |one, other| vec![one.clone(), other.clone()])
    ));
    // Neither.
    assert!(shapes_find(join!(kept: |_, _| Vec::new())));
}

#[test]
fn groups_that_differ_not_looked_for() {
    // Not at all, with the groups of either kept; in field 06 or 07 alone.
    assert!(each_value_finds(join!(same: |_, _| true)));
    assert!(each_value_finds(join!(
        same: |_, _| true,
        kept: |_, other| vec![other.clone()],
    )));
    assert!(each_value_finds(
        join!(same: |one, other| one[1] == other[1])
    ));
    assert!(each_value_finds(
        join!(same: |one, other| one[2] == other[2])
    ));
    // All but the first or the last byte of a field.
    assert!(each_value_finds(join!(same: |one, other| {
        one[1].content[1..] == other[1].content[1..] && one[2] == other[2]
    })));
    assert!(each_value_finds(join!(same: |one, other| {
        let last = one[2].content.len().min(other[2].content.len()) - 2;
        one[1] == other[1] && one[2].content[..last] == other[2].content[..last]
    })));
    // Their lengths and the lower bytes.
    assert!(each_value_finds(join!(same: |one, other| {
        let lower = |group: &Fields| -> Vec<u8> {
            group[2].content.iter().skip(1).step_by(2).copied().collect()
        };
        one[1] == other[1] && lower(one) == lower(other)
    })));
}

#[test]
fn serials_compared_otherwise() {
    // By their bytes, by their last bytes, as numbers with a sign.
    assert!(serials_find(
        join!(order_of: |one, other| one[0].content.cmp(&other[0].content))
    ));
    assert!(serials_find(join!(order_of: |one, other| {
        (serial_of(one) as u16).cmp(&(serial_of(other) as u16))
    })));
    assert!(serials_find(join!(order_of: |one, other| {
        (serial_of(one) as i32).cmp(&(serial_of(other) as i32))
    })));
    assert!(read_back_finds!(
        join!(order_of: |one, other| one[0].content.cmp(&other[0].content))
    ));
    // The groups of the first before those of the second, and the reverse.
    assert!(serials_find(join!(order_of: |one, other| {
        match one[0] == other[0] {
            true => Ordering::Equal,
            false => Ordering::Less,
        }
    })));
    assert!(serials_find(join!(order_of: |_, _| Ordering::Greater)));
}

#[test]
fn refusals_in_another_order() {
    use Check::{First, Groups, Key, Room, Second};
    // The second bundle before the first.
    assert!(each_two_find(
        join!(order: [Second, First, Key, Groups, Room])
    ));
    // 21, 22 and 13 before the second bundle, and before both.
    assert!(beside_finds(
        join!(order: [First, Key, Second, Groups, Room])
    ));
    assert!(beside_finds(
        join!(order: [First, Groups, Second, Key, Room])
    ));
    assert!(beside_finds(
        join!(order: [First, Room, Second, Key, Groups])
    ));
    assert!(each_two_find(
        join!(order: [Key, First, Second, Groups, Room])
    ));
    assert!(each_two_find(
        join!(order: [Room, First, Second, Key, Groups])
    ));
    // 22 before 21, 13 before 22 and before both.
    assert!(sizes_find(join!(order: [First, Second, Groups, Key, Room])));
    assert!(differing_find(
        join!(order: [First, Second, Key, Room, Groups])
    ));
    assert!(by_hand_finds(
        join!(order: [First, Second, Room, Key, Groups])
    ));
}

#[test]
fn one_bundle_not_read() {
    use Check::{First, Groups, Key, Room, Second};
    assert!(beside_finds(
        join!(order: [First, First, Key, Groups, Room])
    ));
    assert!(each_two_find(
        join!(order: [Second, Second, Key, Groups, Room])
    ));
    // 20 of the second left out.
    assert!(beside_finds(|taken, outputs| {
        let first = reference::read_bundle(bundles_of(taken)[0]);
        match right(taken, outputs) {
            20 if first.is_ok() => 0,
            answer => answer,
        }
    }));
}

/// The fields of a key without those of this tag.
fn without(key: &[WrittenField], tag: u8) -> Vec<&WrittenField> {
    key.iter().filter(|field| field.tag != tag).collect()
}

#[test]
fn keys_compared_otherwise() {
    // Not at all, and without one of the fields.
    assert!(keys_find(join!(same_key: |_, _| true)));
    assert!(keys_find(join!(same_key: |one, other| {
        without(one, tag::H) == without(other, tag::H)
    })));
    assert!(keys_find(join!(same_key: |one, other| {
        without(one, tag::X) == without(other, tag::X)
    })));
    assert!(keys_find(join!(same_key: |one, other| {
        without(one, tag::Y) == without(other, tag::Y)
    })));
    // The sizes alone, y where both have it, as many fields as the first or the
    // second has.
    assert!(keys_find(join!(same_key: |one, other| one[0] == other[0])));
    assert!(keys_find(join!(same_key: |one, other| {
        let both = one.len() == other.len();
        one == other || !both && without(one, tag::Y) == without(other, tag::Y)
    })));
    assert!(keys_find(
        join!(same_key: |one, other| one.starts_with(other))
    ));
    assert!(keys_find(
        join!(same_key: |one, other| other.starts_with(one))
    ));
    // The lengths of the fields alone.
    assert!(keys_find(join!(same_key: |one, other| {
        let lengths = |key: &[WrittenField]| -> Vec<u16> {
            key.iter().map(|field| field.length).collect()
        };
        lengths(one) == lengths(other)
    })));
}

/// The answer of the reference, and then a change of the outputs of a done call.
fn changed(
    taken: &Taken,
    outputs: &mut Named<Lent>,
    change: fn(&Taken, &mut [u8], &mut usize, &mut usize),
) -> u32 {
    let answer = right(taken, outputs);
    if answer == 0 {
        let [out, length, groups] = outputs.each_mut([OUT, LENGTH, GROUPS]);
        change(taken, out.bytes_mut(), length.size_mut(), groups.size_mut());
    }
    answer
}

/// A join with such a change.
macro_rules! change {
    ($change:expr) => {
        |taken, outputs| changed(taken, outputs, $change)
    };
}

/// The number of groups of the two bundles.
fn counts(taken: &Taken) -> [usize; 2] {
    bundles_of(taken).map(|bytes| Bundle::walked(bytes).groups.len())
}

#[test]
fn bytes_beyond_the_length_changed() {
    // Cleared, the next one, the last, and as far as both bundles go.
    for library in [
        change!(|_, out, len, _| out[*len..].fill(0)) as Call,
        change!(|_, out, len, _| {
            if let Some(next) = out.get_mut(*len) {
                *next = 0;
            }
        }),
        change!(|_, out, len, _| {
            if out.len() > *len {
                out[out.len() - 1] = 0;
            }
        }),
        change!(|taken, out, len, _| {
            let [first, second] = bundles_of(taken);
            let end = out.len().min(first.len() + second.len());
            out[*len..end.max(*len)].fill(0);
        }),
    ] {
        assert!(outputs_find(library));
    }
}

#[test]
fn another_number_of_groups() {
    for library in [
        change!(|_, _, _, groups| *groups -= 1) as Call,
        change!(|taken, _, _, groups| *groups = counts(taken).iter().sum()),
        change!(|taken, _, _, groups| *groups = counts(taken)[0]),
        change!(|taken, _, _, groups| *groups = counts(taken)[1]),
        change!(|_, _, length, groups| *groups = *length),
    ] {
        assert!(shapes_find(library));
    }
    assert!(read_back_finds!(change!(|_, _, _, groups| *groups += 1)));
}

#[test]
fn another_length() {
    for library in [
        change!(|_, _, length, _| *length -= 1) as Call,
        change!(|taken, _, length, _| *length = bundles_of(taken)[0].len()),
        change!(|taken, _, length, _| *length = bundles_of(taken)[1].len()),
        change!(|taken, _, length, _| *length = bundles_of(taken).concat().len()),
        change!(|_, out, length, _| *length = out.len()),
    ] {
        assert!(shapes_find(library));
    }
    assert!(read_back_finds!(change!(|_, _, length, _| *length -= 1)));
    // Neither number is written.
    assert!(shapes_find(|taken, outputs| {
        let numbers = [LENGTH, GROUPS].map(|name| outputs[name].clone());
        let answer = right(taken, outputs);
        let [length, groups] = numbers;
        outputs[LENGTH] = length;
        outputs[GROUPS] = groups;
        answer
    }));
}

/// The reference's bundle with other groups, or another key.
fn other_bundle(taken: &Taken, outputs: &mut Named<Lent>, change: fn(&mut Bundle)) -> u32 {
    let before = outputs.clone();
    let answer = right(taken, outputs);
    if answer == 0 {
        let length = *outputs[LENGTH].size_mut();
        let mut bundle = Bundle::walked(&outputs[OUT].bytes()[..length]);
        *outputs = before;
        change(&mut bundle);
        put(&bundle.bytes(), bundle.groups.len(), outputs);
    }
    answer
}

/// A join that writes another bundle.
macro_rules! other {
    ($change:expr) => {
        |taken, outputs| other_bundle(taken, outputs, $change)
    };
}

#[test]
fn other_groups() {
    // The last one, or the first of several, left out; the t of the first in
    // all.
    assert!(shapes_find(other!(|bundle| {
        let count = bundle.groups.len();
        bundle.groups.truncate(1.max(count - 1));
    })));
    assert!(shapes_find(other!(|bundle| {
        if bundle.groups.len() > 3 {
            bundle.groups.remove(0);
        }
    })));
    assert!(shapes_find(other!(|bundle| {
        let t = bundle.groups[0][1].clone();
        bundle
            .groups
            .iter_mut()
            .for_each(|group| group[1] = t.clone());
    })));
}

#[test]
fn other_fields() {
    // y left out, and a serial of two bytes in four.
    assert!(shapes_find(other!(|bundle| {
        bundle.key.retain(|field| field.tag != tag::Y);
    })));
    assert!(shapes_find(other!(|bundle| {
        for group in &mut bundle.groups {
            if group[0].length == 2 {
                let content = [&[0, 0], &group[0].content[..]].concat();
                group[0] = WrittenField::new(tag::SERIAL, content);
            }
        }
    })));
}

/// The reference's answer, or another number where the lengths of the output,
/// of the joined bundle and of the two together are so; nothing is written
/// then.
fn refused_where(
    taken: &Taken,
    outputs: &mut Named<Lent>,
    number: u32,
    where_so: fn([usize; 3]) -> bool,
) -> u32 {
    let before = outputs.clone();
    let answer = right(taken, outputs);
    let together = bundles_of(taken).concat().len();
    let lengths = [outputs[OUT].len(), *outputs[LENGTH].size_mut(), together];
    if answer == 0 && where_so(lengths) {
        *outputs = before;
        return number;
    }
    answer
}

#[test]
fn right_outputs_refused() {
    // Longer ones, exact ones, and those that have no room for both bundles.
    assert!(outputs_find(|taken, outputs| {
        refused_where(taken, outputs, 3, |[out, len, _]| out > len)
    }));
    assert!(outputs_find(|taken, outputs| {
        refused_where(taken, outputs, 13, |[out, len, _]| out == len)
    }));
    assert!(outputs_find(|taken, outputs| {
        refused_where(taken, outputs, 13, |[out, _, both]| out < both)
    }));
    assert!(outputs_find(|taken, outputs| {
        refused_where(taken, outputs, 13, |[out, len, _]| out > len + 65_000)
    }));
}

#[test]
fn short_outputs_written() {
    use Check::{First, Groups, Key, Second};
    // As much as there is room for.
    let cut: Call = join!(order: [First, Second, Key, Groups, Groups]);
    assert!(outputs_find(cut));
    // All but the last byte.
    assert!(outputs_find(|taken, outputs| {
        let mut longer = outputs.clone();
        let len = outputs[OUT].len();
        longer[OUT] = Lent::any_bytes(len + 1, &mut Generator::new(1));
        match (right(taken, outputs), right(taken, &mut longer)) {
            (13, 0) => {
                put(longer[OUT].bytes(), 1, outputs);
                0
            }
            (answer, _) => answer,
        }
    }));
}

/// The answer of the reference, and a change of the outputs where it is this
/// one.
fn changed_on(
    refusal: u32,
    taken: &Taken,
    outputs: &mut Named<Lent>,
    change: fn(&Taken, &mut Named<Lent>),
) -> u32 {
    let answer = right(taken, outputs);
    if answer == refusal {
        change(taken, outputs);
    }
    answer
}

/// Writes as much of the first bundle as there is room for.
fn copy_first(taken: &Taken, outputs: &mut Named<Lent>) {
    let first = bundles_of(taken)[0];
    let out = outputs[OUT].bytes_mut();
    let len = first.len().min(out.len());
    out[..len].copy_from_slice(&first[..len]);
}

#[test]
fn outputs_changed_on_a_refusal() {
    assert!(differing_find(|taken, outputs| {
        changed_on(22, taken, outputs, copy_first)
    }));
    assert!(sizes_find(|taken, outputs| {
        changed_on(21, taken, outputs, copy_first)
    }));
    assert!(outputs_find(|taken, outputs| {
        changed_on(13, taken, outputs, copy_first)
    }));
    assert!(each_two_find(|taken, outputs| {
        changed_on(20, taken, outputs, copy_first)
    }));
    // The length that is needed, and the groups.
    assert!(outputs_find(|taken, outputs| {
        changed_on(13, taken, outputs, |_, outputs| {
            *outputs[LENGTH].size_mut() = 0;
        })
    }));
    assert!(differing_find(|taken, outputs| {
        changed_on(22, taken, outputs, |taken, outputs| {
            *outputs[GROUPS].size_mut() = counts(taken)[0];
        })
    }));
}

#[test]
fn one_slice_twice() {
    // Refused, and taken for a single bundle.
    assert!(shapes_find(|taken, outputs| {
        let [first, second] = bundles_of(taken).map(<[u8]>::as_ptr);
        match first == second {
            true => 3,
            false => right(taken, outputs),
        }
    }));
}

#[test]
fn one_order_alone() {
    // The groups of the second below those of the first are lost, and those
    // above.
    assert!(shapes_find(|taken, outputs| {
        lost(taken, outputs, |serial, first| serial < first[0])
    }));
    assert!(shapes_find(|taken, outputs| {
        lost(taken, outputs, |serial, first| {
            first.last().is_some_and(|&last| serial > last)
        })
    }));
}

/// The join with those groups of the second left out whose serials lie so to
/// those of the first.
fn lost(taken: &Taken, outputs: &mut Named<Lent>, is_lost: fn(u32, &[u32]) -> bool) -> u32 {
    let [first, second] = bundles_of(taken).map(Bundle::walked);
    let serials = first.serials();
    let left = second.part(|index| !is_lost(serial_of(&second.groups[index]), &serials));
    let joined = first.and(&left);
    put(&joined.bytes(), joined.groups.len(), outputs);
    0
}

#[test]
fn random_bundles_of_small_sizes() {
    let small_n_finds = |library| finds(SOME_SMALL, JOIN_BUNDLES, library);
    assert!(!small_n_finds(right));
    // More than 32 groups.
    assert!(small_n_finds(|taken, outputs| {
        match right(taken, outputs) {
            0 if *outputs[GROUPS].size_mut() > 32 => 13,
            answer => answer,
        }
    }));
}

#[test]
fn two_bundles_and_what_they_are_together() {
    let generator = &mut Generator::new(1);
    for count in (1..=6).cycle().take(200) {
        let pair = Pair::any(3, 2, count, generator);
        let [first, second] = [&pair.first, &pair.second].map(Bundle::bytes);
        let joined = pair.joined.bytes();
        let mut out = vec![0; joined.len()];
        let found = reference::join_bundles(&first, &second, &mut out).expect("a join");
        assert_eq!((found.length, found.groups), (joined.len(), count));
        assert_eq!(out, joined);
        assert_eq!(pair.first.and(&pair.second), pair.joined);
    }
    let whole = Bundle::any(2, 1, 1, generator);
    for place in [In::First, In::Second, In::Both] {
        let pair = Pair::parted(whole.clone(), |_| place);
        assert_eq!([&pair.first, &pair.second], [&whole, &whole]);
    }
}
