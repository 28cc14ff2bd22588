//! The groups of cases of read bundle.

use super::damage::{damaged_bundle, Pool};
use super::parts::{any_key, rising, serial_of, Bundle};
use super::read::{case, of_bytes, of_right};
use super::{by_hand, SERIAL_ORDER};
use crate::case::{Case, Group};
use crate::entries::files::faults::{
    faulty_fields, serial_up_to, set_value, spots_of_fields, Draft,
};
use crate::entries::files::fields::{
    elements, lean, may_have_length, serial_field, serial_in_four, serials_about_powers,
    value_refusals, HEAD,
};
use crate::entries::files::groups::{LENGTH, LONG_SERIAL, MISSING, TAG};
use crate::entries::{keyed, DEPENDENT, DONE};
use crate::lent::Lent;
use reference::package::{check_fields, join, tag, WrittenField};
use reference::samples::Generator;
use std::slice;

/// All groups.
pub fn all() -> Vec<Group> {
    vec![
        by_hand::READ,
        EVERY_N,
        SMALL_N,
        SERIALS,
        PREFIXES,
        ONE_FAULT,
        TWO_FAULTS,
        EACH_VALUE,
        HEADS,
        ORDER,
        FOLLOWING,
        LEANING,
        ONE_BYTE,
        DAMAGED,
        MANY,
    ]
}

/// The most groups of a random bundle.
pub const MOST: usize = 40;

/// The sizes of small bundles.
pub const SMALL: [(usize, usize); 8] = [
    (2, 1),
    (3, 1),
    (3, 2),
    (4, 3),
    (5, 2),
    (6, 4),
    (8, 3),
    (9, 4),
];

const EVERY_N: Group = Group::new("every n, 1 to 40 groups", |generator, each| {
    for n in keyed::EVERY_N {
        for m in keyed::some_m(n, generator) {
            let key = any_key(n, m, generator);
            for count in [1, 2, MOST, 1 + generator.below(MOST)] {
                let serials = rising(count, generator);
                let bundle = Bundle::of_key(key.clone(), &serials, generator);
                each(of_right(&bundle, generator));
            }
        }
    }
});

/// Random bundles of small sizes.
pub const SMALL_N: Group = Group::new("n to 9, every m, 1 to 40 groups", |generator, each| {
    keyed::small_sizes(20, &mut |sizes, round| {
        let count = 1 + (2 * round + generator.below(2)) % MOST;
        let bundle = Bundle::any(sizes.n, sizes.m, count, generator);
        each(of_right(&bundle, generator));
    });
});

/// The serials about powers, which rise.
pub fn rising_about_powers() -> Vec<u32> {
    let mut serials = serials_about_powers();
    serials.sort_unstable();
    serials.dedup();
    serials
}

/// Each two serials about powers, in two groups or after a further one of 0.
pub const SERIALS: Group = Group::new(
    "each two serials, the second after the first",
    |generator, each| {
        let serials = rising_about_powers();
        let key = any_key(2, 1, generator);
        for &before in &serials {
            for &serial in &serials {
                let mut list = vec![before, serial];
                if before > 0 && generator.below(4) == 0 {
                    list.insert(0, 0);
                }
                let bundle = Bundle::of_key(key.clone(), &list, generator);
                let answer = if before < serial { DONE } else { SERIAL_ORDER };
                each(of_bytes(&bundle.bytes(), answer, generator));
            }
        }
    },
);

/// Where a bundle may end: after each of its groups.
pub fn ends(bundle: &Bundle) -> Vec<usize> {
    let mut end = bundle.key_length();
    let groups = bundle.groups.iter();
    let ends = groups.map(|group| {
        end += join(group).len();
        end
    });
    ends.collect()
}

/// Every shorter part of some bundles, followed in the memory by what was cut,
/// or by anything.
pub const PREFIXES: Group = Group::new("every prefix", |generator, each| {
    let longer = [(17, 8), (33, 12)];
    for (round, (n, m)) in SMALL.into_iter().chain(longer).enumerate() {
        let bundle = Bundle::any(n, m, 2 + round % 3, generator);
        let (bytes, ends) = (bundle.bytes(), ends(&bundle));
        for len in 0..=bytes.len() {
            let answer = match ends.contains(&len) {
                true => DONE,
                false => MISSING,
            };
            let (part, next) = bytes.split_at(len);
            let followed = Lent::with_bytes_before(part, next, generator);
            each(case(followed, Some(answer), generator));
            if n < 10 {
                each(of_bytes(part, answer, generator));
            }
        }
    }
});

/// One fault at each place of each field.
pub const ONE_FAULT: Group = Group::new(
    "every n, one fault at each place of each field",
    |generator, each| {
        for n in keyed::EVERY_N {
            let m = keyed::some_m(n, generator)[(n + 1) % 3];
            let fields = Bundle::any(n, m, 1 + n % 4, generator).fields();
            for spot in spots_of_fields(&fields) {
                for _ in 0..if n < 10 { 6 } else { 1 } {
                    let (bytes, number) = faulty_fields(&fields, &[spot], generator);
                    each(of_bytes(&bytes, number, generator));
                }
            }
        }
    },
)
.with_any_rows();

/// Two faults at each pair of places: the first in the order of the fields and
/// their places decides.
pub const TWO_FAULTS: Group =
    Group::new("two faults, at each pair of places", |generator, each| {
        for (n, m) in SMALL[1..6].repeat(2) {
            let count = 2 + generator.below(2);
            let fields = Bundle::any(n, m, count, generator).fields();
            let spots = spots_of_fields(&fields);
            for (round, &first) in spots.iter().enumerate() {
                for &second in &spots[round + 1..] {
                    let (bytes, number) = faulty_fields(&fields, &[first, second], generator);
                    each(of_bytes(&bytes, number, generator));
                }
            }
        }
    })
    .with_any_rows();

/// Each bit of t and each word of a in each group: the largest value or one
/// above it, in a whole bundle and in one that is cut in that field.
const EACH_VALUE: Group = Group::new(
    "each value of t and a, about the largest",
    |generator, each| {
        for (round, (n, m)) in SMALL[..5].iter().copied().enumerate() {
            let bundle = Bundle::any(n, m, 3, generator);
            let fields = bundle.fields();
            let of_groups = fields.iter().enumerate().skip(bundle.key.len());
            for (index, field) in of_groups.filter(|(_, field)| field.tag != tag::SERIAL) {
                let above = value_refusals(field.tag)[0].number();
                for at in 0..elements(field) {
                    let right = (at + round) % 4 == 0;
                    let mut draft = Draft::of(&fields);
                    set_value(&mut draft.fields, index, at, right, generator);
                    let answer = if right { DONE } else { above };
                    each(of_bytes(&draft.bytes(), answer, generator));
                    draft.cut(index, HEAD + field.content.len() - 1);
                    each(of_bytes(&draft.bytes(), MISSING, generator));
                }
            }
        }
    },
);

/// Every other tag and many other lengths of the fields of a further group.
const HEADS: Group = Group::new(
    "a further group, every other tag, other lengths",
    |generator, each| {
        for (n, m) in SMALL[..3].iter().copied() {
            let bundle = Bundle::any(n, m, 2, generator);
            let fields = bundle.fields();
            for index in bundle.key.len() + 3..fields.len() {
                let right = &fields[index];
                for other in (0..=255).filter(|&other| other != right.tag) {
                    let mut draft = Draft::of(&fields);
                    draft.fields[index].tag = other;
                    each(of_bytes(&draft.bytes(), TAG, generator));
                }
                let lengths = (0..16).map(|bit| right.length ^ (1 << bit)).chain(0..300);
                for other in lengths.filter(|&other| !may_have_length(right, other)) {
                    let mut draft = Draft::of(&fields);
                    draft.fields[index].length = other;
                    if other % 2 == 1 {
                        draft.fields[index].content.resize(other.into(), 0);
                    }
                    each(of_bytes(&draft.bytes(), LENGTH, generator));
                }
            }
        }
    },
);

/// A bundle whose groups are exchanged, repeated, left out or in another order,
/// each with its answer.
fn other_groups(bundle: &Bundle) -> Vec<(Bundle, u32)> {
    let count = bundle.groups.len();
    let mut list = Vec::new();
    for index in 0..count {
        let without = bundle.part(|other| other != index);
        list.push((without, if count == 1 { MISSING } else { DONE }));
        for place in 0..=count {
            let mut twice = bundle.clone();
            twice.groups.insert(place, bundle.groups[index].clone());
            list.push((twice, SERIAL_ORDER));
        }
        for other in 0..index {
            let mut exchanged = bundle.clone();
            exchanged.groups.swap(index, other);
            list.push((exchanged, SERIAL_ORDER));
        }
    }
    let mut backwards = bundle.clone();
    backwards.groups.reverse();
    list.push((backwards, if count == 1 { DONE } else { SERIAL_ORDER }));
    list
}

/// A bundle with a field of a group left out, repeated, or exchanged with the
/// next, and with each further field after each group; each with its answer.
fn other_fields(bundle: &Bundle, generator: &mut Generator) -> Vec<(Vec<WrittenField>, u32)> {
    let fields = bundle.fields();
    let last = fields.len() - 1;
    let mut list = Vec::new();
    for index in bundle.key.len()..=last {
        let mut without = fields.clone();
        without.remove(index);
        list.push((without, if index == last { MISSING } else { TAG }));
        let mut twice = fields.clone();
        twice.insert(index, fields[index].clone());
        list.push((twice, TAG));
        if index < last {
            let mut exchanged = fields.clone();
            exchanged.swap(index, index + 1);
            list.push((exchanged, TAG));
        }
    }
    let of_check_file = check_fields(&[0; 12], &[], &generator.words(12), &[0; 12]);
    for further in bundle.key.iter().chain(&of_check_file) {
        for place in (bundle.key.len() + 3..=last + 1).step_by(3) {
            let mut more = fields.clone();
            more.insert(place, further.clone());
            list.push((more, TAG));
        }
    }
    list
}

/// Groups and their fields exchanged, repeated or left out, and two bundles one
/// after the other.
pub const ORDER: Group = Group::new(
    "groups and fields exchanged, repeated or left out",
    |generator, each| {
        for (n, m) in SMALL {
            for count in 1..=4 {
                let bundle = Bundle::any(n, m, count, generator);
                for (other, answer) in other_groups(&bundle) {
                    each(of_bytes(&other.bytes(), answer, generator));
                }
                for (fields, answer) in other_fields(&bundle, generator) {
                    each(of_bytes(&join(&fields), answer, generator));
                }
                let twice = bundle.bytes().repeat(2);
                each(of_bytes(&twice, TAG, generator));
            }
        }
    },
);

/// The serial field of a further group alone, and with the next byte or two: of
/// a serial that is above the one before, of one that is not, and of a long
/// one.
fn serial_alone(before: u32, generator: &mut Generator) -> Vec<(Vec<u8>, u32)> {
    let mut fields = vec![
        (serial_up_to(before, generator), SERIAL_ORDER),
        (serial_field(before), SERIAL_ORDER),
        (serial_in_four(before as u16), LONG_SERIAL),
        (serial_in_four(u16::MAX), LONG_SERIAL),
    ];
    let above = before.checked_add(1).map(|above| [above, u32::MAX]);
    let above = above.into_iter().flatten().map(serial_field);
    fields.extend(above.map(|field| (field, MISSING)));
    let mut list = Vec::new();
    for (field, answer) in fields {
        for more in [&[][..], &[0], &[tag::T, 0]] {
            let bytes = [&join(slice::from_ref(&field))[..], more].concat();
            list.push((bytes, answer));
        }
    }
    list
}

/// What follows a key or a group: nothing, any byte alone, with one or two more,
/// and a serial.
pub const FOLLOWING: Group = Group::new("all that can follow a group", |generator, each| {
    for (n, m) in SMALL[..3].iter().copied() {
        for count in 0..=2 {
            let bundle = Bundle::any(n, m, count, generator);
            let start = bundle.bytes();
            each(of_bytes(
                &start,
                if count == 0 { MISSING } else { DONE },
                generator,
            ));
            let mut tails = Vec::new();
            // After a key 04 is the tag of y.
            let first = (0..=255).filter(|&first| count > 0 || first != tag::Y);
            for first in first {
                tails.push((vec![first], MISSING));
                tails.push((vec![first, 0], MISSING));
                let answer = if first == tag::SERIAL { LENGTH } else { TAG };
                tails.push((vec![first, 0, 0], answer));
                let answer = if first == 2 || first == 4 {
                    MISSING
                } else {
                    LENGTH
                };
                tails.push((vec![tag::SERIAL, 0, first], answer));
            }
            if let Some(last) = bundle.groups.last() {
                tails.extend(serial_alone(serial_of(last), generator));
            }
            for (tail, answer) in tails {
                let bytes = [&start[..], &tail].concat();
                each(of_bytes(&bytes, answer, generator));
            }
        }
    }
});

/// Rows of H that lean: 15 comes before every fault of a group.
const LEANING: Group = Group::new("every n, rows of H that lean", |generator, each| {
    for n in keyed::EVERY_N {
        let m = keyed::some_m(n, generator)[n % 3];
        let mut bundle = Bundle::any(n, m, 1 + n % 3, generator);
        assert!(
            lean(&mut bundle.key, generator),
            "the sizes and H are right"
        );
        let fields = bundle.fields();
        each(of_bytes(&join(&fields), DEPENDENT, generator));
        each(of_bytes(&join(&bundle.key), DEPENDENT, generator));
        let spots = spots_of_fields(&fields).into_iter();
        for spot in spots.filter(|spot| spot.0 > bundle.key.len()) {
            let (bytes, _) = faulty_fields(&fields, &[spot], generator);
            each(of_bytes(&bytes, DEPENDENT, generator));
        }
    }
})
.with_any_rows();

/// One byte changed, each byte of some bundles: each bit, all bits, and any.
pub const ONE_BYTE: Group = Group::new("each byte changed", |generator, each| {
    for (round, (n, m)) in SMALL[..6].iter().copied().enumerate() {
        let bytes = Bundle::any(n, m, 2 + round % 2, generator).bytes();
        for at in 0..bytes.len() {
            let any = 1 + generator.below(255) as u8;
            let bits = (0..8).map(|bit| 1 << bit);
            for change in bits.chain([255, any]) {
                let mut changed = bytes.clone();
                changed[at] ^= change;
                let lent = Lent::with_bytes(&changed, generator);
                each(case(lent, None, generator));
            }
        }
    }
})
.with_any_rows();

/// The number of damaged bundles.
const COUNT: usize = 30_000;

const DAMAGED: Group = Group::new("damaged bundles", |generator, each| {
    let pool = Pool::new(generator);
    for _ in 0..COUNT {
        let bytes = damaged_bundle(pool.any(generator), generator);
        let lent = Lent::with_bytes(&bytes, generator);
        each(case(lent, None, generator));
    }
})
.with_any_rows();

/// The bundle of a small key with this many groups, whose serials go on by one,
/// from one of two bytes on.
pub fn many(count: u32, generator: &mut Generator) -> Bundle {
    let serials: Vec<u32> = (65_000..65_000 + count).collect();
    Bundle::with_serials((2, 1), &serials, generator)
}

/// Hands over a bundle of many groups, and the same with a fault at its end.
fn with_ends(bundle: &Bundle, generator: &mut Generator, each: &mut dyn FnMut(Case)) {
    let fields = bundle.fields();
    each(of_right(bundle, generator));
    let spots = spots_of_fields(&fields);
    for &spot in &spots[spots.len() - 15..] {
        let (bytes, number) = faulty_fields(&fields, &[spot], generator);
        each(of_bytes(&bytes, number, generator));
    }
}

/// More groups, and more bytes, than two bytes count.
pub const MANY: Group = Group::new("1,000 groups and more", |generator, each| {
    for count in [1_000, 1_024, 3_000] {
        with_ends(&many(count, generator), generator, each);
    }
    let most = many(65_600, generator);
    each(of_right(&most, generator));
    let mut twice = most.bytes();
    twice.extend(join(&most.groups[65_599]));
    each(of_bytes(&twice, SERIAL_ORDER, generator));
});
