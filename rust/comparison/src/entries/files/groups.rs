//! The groups of cases of an entry that takes the bytes of a file.

use super::damage::{damaged_file, Pool};
use super::faults::{any_of, faulty, following, set_value, spots, Draft};
use super::fields::{
    any_fields, both_forms, content_mut, elements, holds, may_come_next, may_have_length,
    serial_field, serial_in_four, serials_about_powers, set_serial, set_target, value_refusals,
    Holds, HEAD,
};
use super::leaning;
use super::{case, File, Reader};
use crate::case::{decided, Case, Group};
use crate::entries::{keyed, DONE};
use crate::lent::Lent;
use reference::package::{
    field_of, index_of, join, stated_of, tag, y_field, WrittenField, SERIAL_LENGTHS,
};
use reference::samples::Generator;
use reference::small_field::F;
use reference::Refusal;

/// 4: an element of the key is above 2047.
pub const KEY_ELEMENT: u32 = 4;
/// 9: bytes are missing.
pub const MISSING: u32 = 9;
/// 10: "not the tag that comes next".
pub const TAG: u32 = 10;
/// 11: "not the length stated above".
pub const LENGTH: u32 = 11;
/// 12: "bytes follow the last field".
pub const FOLLOW: u32 = 12;
/// 14: "field 04 is present and all its elements are zero".
pub const ZERO_TARGET: u32 = 14;
/// 19: "a four-byte serial is below 65,536".
pub const LONG_SERIAL: u32 = 19;

/// The groups of an entry that answers refusals.
pub fn fault_groups<R: Reader>() -> Vec<Group> {
    vec![
        prefixes::<R>(),
        appended::<R>(),
        one_fault::<R>(),
        sizes::<R>(),
        each_value::<R>(),
        serials::<R>(),
        targets::<R>(),
        leaning::whole_files::<R>(),
        leaning::beside_other_faults::<R>(),
        leaning::after_x::<R>(),
        leaning::prefixes::<R>(),
        two_faults::<R>(),
        order::<R>(),
        short::<R>(),
        other_kind::<R>(),
        damaged::<R>(),
    ]
}

/// The bytes of the file in the list of a check file.
fn file<R: Reader>(fields: &[WrittenField]) -> Vec<u8> {
    join(R::FILE.part(fields))
}

/// Right files.
pub const fn every_n<R: Reader>() -> Group {
    Group::new("every n, right files", |generator, each| {
        for n in keyed::EVERY_N {
            for m in keyed::some_m(n, generator) {
                for _ in 0..3 {
                    let fields = R::fields(n, m, generator);
                    each(case::<R>(&file::<R>(&fields), Some(DONE), generator));
                }
            }
        }
    })
}

/// The sizes of longer files of which every prefix is taken.
const LONG: &[(usize, usize)] = &[(17, 8), (33, 12), (64, 63)];

/// Every shorter part of a file, followed in the memory by what was cut, and in
/// a small file also by anything.
fn prefixes_of<R: Reader>(
    bytes: &[u8],
    small: bool,
    generator: &mut Generator,
    each: &mut dyn FnMut(Case),
) {
    for len in 0..bytes.len() {
        let (part, next) = bytes.split_at(len);
        if small {
            each(case::<R>(part, Some(MISSING), generator));
        }
        let lent = Lent::with_bytes_before(part, next, generator);
        each(R::case(lent, Some(MISSING), generator));
    }
}

/// Every shorter part of some files.
pub const fn prefixes<R: Reader>() -> Group {
    Group::new("every prefix", |generator, each| {
        for &(n, m) in R::SMALL {
            let bytes = file::<R>(&R::fields(n, m, generator));
            prefixes_of::<R>(&bytes, true, generator, each);
        }
        for &(n, m) in LONG {
            let bytes = file::<R>(&any_fields(n, m, generator));
            prefixes_of::<R>(&bytes, false, generator, each);
        }
    })
}

/// Right files with further bytes: any, the same file again, a field again,
/// many bytes.
pub const fn appended<R: Reader>() -> Group {
    Group::new("every n, bytes appended", |generator, each| {
        for n in keyed::EVERY_N {
            let m = keyed::some_m(n, generator)[n % 3];
            let fields = any_fields(n, m, generator);
            let bytes = file::<R>(&fields);
            let last = R::FILE.part(&fields).last().cloned();
            let mut tails = vec![bytes.clone(), join(last.as_slice())];
            tails.extend((1..=8).map(|len| vec![0; len]));
            tails.extend((0..8).map(|_| following(generator)));
            if n % 16 == 0 {
                tails.extend([40_000, 65_536, 70_000].map(|len| vec![0x77; len]));
            }
            for tail in tails {
                let longer = [&bytes[..], &tail].concat();
                each(case::<R>(&longer, Some(FOLLOW), generator));
            }
        }
    })
}

/// One fault at each place of each field.
pub const fn one_fault<R: Reader>() -> Group {
    Group::new(
        "every n, one fault at each place of each field",
        |generator, each| {
            for n in keyed::EVERY_N {
                let m = keyed::some_m(n, generator)[(n + 1) % 3];
                let fields = any_fields(n, m, generator);
                for spot in spots::<R>(&fields) {
                    for _ in 0..if n < 10 { 8 } else { 2 } {
                        let (bytes, number) = faulty::<R>(&fields, &[spot], generator);
                        each(case::<R>(&bytes, Some(number), generator));
                    }
                }
            }
        },
    )
    .with_any_rows()
}

/// Every other tag and many other lengths of each field.
pub const fn heads<R: Reader>() -> Group {
    Group::new("every other tag, other lengths", |generator, each| {
        let forms = |&(n, m)| both_forms(n, m, generator);
        let files: Vec<_> = R::SMALL[..3].iter().flat_map(forms).collect();
        for fields in files {
            for (index, field) in R::FILE.part(&fields).iter().enumerate() {
                for other in (0..=255).filter(|&other| !may_come_next(&fields, index, other)) {
                    let mut draft = Draft::new::<R>(&fields);
                    draft.fields[index].tag = other;
                    each(case::<R>(&draft.bytes(), Some(TAG), generator));
                }
                let bits = (0..16).map(|bit| field.length ^ (1 << bit));
                let lengths = bits.chain(0..300);
                for other in lengths.filter(|&other| !may_have_length(field, other)) {
                    let mut draft = Draft::new::<R>(&fields);
                    draft.fields[index].length = other;
                    if other % 2 == 1 {
                        draft.fields[index].content.resize(other.into(), 0);
                    }
                    each(case::<R>(&draft.bytes(), Some(LENGTH), generator));
                }
            }
        }
    })
}

/// The refusals that apply to these sizes where those of H are (3, 2).
fn of_other_sizes(n: u8, m: u8) -> u32 {
    let mut list = Vec::new();
    if !keyed::EVERY_N.contains(&n.into()) {
        list.push(Refusal::SizeN);
    }
    if m == 0 || m >= n {
        list.push(Refusal::SizeM);
    }
    match list[..] {
        [] => LENGTH,
        _ => decided(value_refusals(tag::SIZES), &list).number(),
    }
}

/// Sizes that are refused, and others that make the length of H wrong.
pub const fn sizes<R: Reader>() -> Group {
    Group::new("other sizes", |generator, each| {
        let fields = any_fields(3, 2, generator);
        for n in (0_u8..=66).chain([127, 128, 129, 130, 191, 192, 193, 254, 255]) {
            let about_n = [0, 1, 2, n.saturating_sub(1), n, n.saturating_add(1)];
            for m in about_n.into_iter().chain([64, 127, 128, 129, 254, 255]) {
                if (n, m) != (3, 2) {
                    let mut draft = Draft::new::<R>(&fields);
                    *content_mut(&mut draft.fields, tag::SIZES) = vec![n, m];
                    let answer = of_other_sizes(n, m);
                    each(case::<R>(&draft.bytes(), Some(answer), generator));
                }
            }
        }
    })
}

/// Each word and each bit of small files: the largest value or one above it, in
/// a whole file and in one that is cut in that field.
pub const fn each_value<R: Reader>() -> Group {
    Group::new("each value, about the largest", |generator, each| {
        for (round, &(n, m)) in R::SMALL[..5].iter().enumerate() {
            let fields = R::fields(n, m, generator);
            for (index, field) in R::FILE.part(&fields).iter().enumerate() {
                if !matches!(holds(field.tag), Some(Holds::Words | Holds::Bits)) {
                    continue;
                }
                let above = value_refusals(field.tag)[0].number();
                for at in 0..elements(field) {
                    let right = (at + round) % 4 == 0;
                    let mut draft = Draft::new::<R>(&fields);
                    set_value(&mut draft.fields, index, at, right, generator);
                    let answer = if right { DONE } else { above };
                    each(case::<R>(&draft.bytes(), Some(answer), generator));
                    // In a cut field the bytes are missing first.
                    draft.cut(index, HEAD + field.content.len() - 1);
                    each(case::<R>(&draft.bytes(), Some(MISSING), generator));
                }
            }
        }
    })
}

/// Lengths that a serial may not have, and some of them with as much content.
fn lengths_of_serial<R: Reader>(
    fields: &[WrittenField],
    generator: &mut Generator,
    each: &mut dyn FnMut(Case),
) {
    let lengths = (0..=255).flat_map(|high| SERIAL_LENGTHS.map(|low| high << 8 | low as u16));
    for length in lengths.chain(0..=255) {
        let mut draft = Draft::new::<R>(fields);
        let field = field_of(&mut draft.fields, tag::SERIAL);
        if may_have_length(field, length) {
            continue;
        }
        field.length = length;
        each(case::<R>(&draft.bytes(), Some(LENGTH), generator));
        if length < 1500 {
            content_mut(&mut draft.fields, tag::SERIAL).resize(length.into(), 0);
            each(case::<R>(&draft.bytes(), Some(LENGTH), generator));
        }
    }
}

/// Serials about powers in the form that they have, in four bytes where they fit
/// two, and with the other of the two lengths.
pub const fn serials<R: Reader>() -> Group {
    Group::new(
        "serials of two and of four bytes, other lengths",
        |generator, each| {
            for &(n, m) in &R::SMALL[..3] {
                let mut fields = R::fields(n, m, generator);
                for serial in serials_about_powers() {
                    set_serial(&mut fields, serial_field(serial));
                    each(case::<R>(&file::<R>(&fields), Some(DONE), generator));
                    for length in SERIAL_LENGTHS {
                        // The next head is content, or content the next head.
                        let mut draft = Draft::new::<R>(&fields);
                        field_of(&mut draft.fields, tag::SERIAL).length = length as u16;
                        each(case::<R>(&draft.bytes(), None, generator));
                    }
                    if let Ok(short) = serial.try_into() {
                        let mut draft = Draft::new::<R>(&fields);
                        set_serial(&mut draft.fields, serial_in_four(short));
                        each(case::<R>(&draft.bytes(), Some(LONG_SERIAL), generator));
                    }
                }
                for serial in [7, 65_535, 65_536, u32::MAX] {
                    set_serial(&mut fields, serial_field(serial));
                    lengths_of_serial::<R>(&fields, generator, each);
                }
            }
        },
    )
}

/// y as it is and is not allowed: zeros, each bit alone, other lengths, cut, and
/// in other places.
pub const fn targets<R: Reader>() -> Group {
    Group::new(
        "y of zeros, each bit of y, other lengths and places",
        |generator, each| {
            for &(n, m) in &R::SMALL[..5] {
                let [without, with] = both_forms(n, m, generator);
                values_of_target::<R>(&with, m, generator, each);
                lengths_of_target::<R>(&with, m, generator, each);
                places_of_target::<R>(&without, &with, generator, each);
                ends_at_target::<R>(&with, generator, each);
            }
        },
    )
}

/// y of zeros, and with each bit alone.
fn values_of_target<R: Reader>(
    fields: &[WrittenField],
    m: usize,
    generator: &mut Generator,
    each: &mut dyn FnMut(Case),
) {
    let mut lists = vec![(vec![0; m], ZERO_TARGET)];
    for (at, bit) in (0..m).flat_map(|at| (0..16).map(move |bit| (at, bit))) {
        let mut y = vec![0; m];
        y[at] = 1 << bit;
        lists.push((
            y.clone(),
            if y[at] > F::LARGEST {
                KEY_ELEMENT
            } else {
                DONE
            },
        ));
    }
    for (y, answer) in lists {
        let mut draft = Draft::new::<R>(fields);
        set_target(&mut draft.fields, &y);
        each(case::<R>(&draft.bytes(), Some(answer), generator));
        // In a cut field the bytes are missing first.
        let index = index_of(&draft.fields, tag::Y);
        draft.cut(index, HEAD + 2 * m - 1);
        each(case::<R>(&draft.bytes(), Some(MISSING), generator));
    }
}

/// Other lengths of y than 2m, of zeros too, with as much content and without.
fn lengths_of_target<R: Reader>(
    fields: &[WrittenField],
    m: usize,
    generator: &mut Generator,
    each: &mut dyn FnMut(Case),
) {
    for length in (0..200).filter(|&length| usize::from(length) != 2 * m) {
        for zero in [false, true] {
            let mut draft = Draft::new::<R>(fields);
            let field = field_of(&mut draft.fields, tag::Y);
            field.length = length;
            if zero {
                field.content.fill(0);
            }
            each(case::<R>(&draft.bytes(), Some(LENGTH), generator));
            content_mut(&mut draft.fields, tag::Y).resize(length.into(), 0);
            each(case::<R>(&draft.bytes(), Some(LENGTH), generator));
        }
    }
}

/// y in each place but after x, in a file without it and besides.
fn places_of_target<R: Reader>(
    without: &[WrittenField],
    with: &[WrittenField],
    generator: &mut Generator,
    each: &mut dyn FnMut(Case),
) {
    let y = &with[index_of(with, tag::Y)];
    for fields in [without, with] {
        let right = R::FILE.part(fields);
        each(case::<R>(&join(right), Some(DONE), generator));
        let after_x = index_of(right, tag::X) + 1;
        for place in (0..=right.len()).filter(|&place| place != after_x) {
            // Zeros are not looked at there.
            for y in [y.clone(), y_field(&vec![0; y.content.len() / 2])] {
                let mut list = right.to_vec();
                list.insert(place, y);
                let answer = if place == right.len() { FOLLOW } else { TAG };
                each(case::<R>(&join(&list), Some(answer), generator));
            }
        }
    }
}

/// A file that ends where y stands: after each byte of it, and after one, two or
/// three other bytes.
fn ends_at_target<R: Reader>(
    fields: &[WrittenField],
    generator: &mut Generator,
    each: &mut dyn FnMut(Case),
) {
    let index = index_of(fields, tag::Y);
    let start = join(&fields[..index]);
    let y = join(&fields[index..=index]);
    for len in 0..=y.len() {
        let bytes = [&start[..], &y[..len]].concat();
        each(case::<R>(&bytes, Some(MISSING), generator));
    }
    for first in 0..=255 {
        let head = [first, 0, 0];
        for len in [1, 2, 3] {
            let answer = match first {
                _ if len < HEAD => MISSING,
                tag::Y | tag::SERIAL => LENGTH,
                _ => TAG,
            };
            let bytes = [&start[..], &head[..len]].concat();
            each(case::<R>(&bytes, Some(answer), generator));
        }
    }
}

/// Two faults, at each pair of places: the first in the order of the table
/// decides.
pub const fn two_faults<R: Reader>() -> Group {
    Group::new("two faults, at each pair of places", |generator, each| {
        for (n, m) in R::SMALL[1..7].repeat(3) {
            let fields = any_fields(n, m, generator);
            let spots = spots::<R>(&fields);
            for (round, &first) in spots.iter().enumerate() {
                for &second in &spots[round + 1..] {
                    let (bytes, number) = faulty::<R>(&fields, &[first, second], generator);
                    each(case::<R>(&bytes, Some(number), generator));
                }
            }
        }
    })
    .with_any_rows()
}

/// The file with this field left out, put before each other, and exchanged with
/// those before it, each with its answer. Without y the file is right.
fn other_orders(fields: &[WrittenField], index: usize) -> Vec<(Vec<WrittenField>, u32)> {
    let last = fields.len() - 1;
    let mut without = fields.to_vec();
    let gone = without.remove(index);
    let answer = match index {
        _ if stated_of(gone.tag).optional => DONE,
        _ if index == last => MISSING,
        _ => TAG,
    };
    let mut list = vec![(without, answer)];
    for place in 0..=fields.len() {
        let mut twice = fields.to_vec();
        twice.insert(place, gone.clone());
        // The last field twice is followed by itself.
        let follows = place > last || (place == last && index == last);
        list.push((twice, if follows { FOLLOW } else { TAG }));
    }
    for other in 0..index {
        let mut exchanged = fields.to_vec();
        exchanged.swap(index, other);
        list.push((exchanged, TAG));
    }
    list
}

/// Fields that are exchanged, repeated or left out.
pub const fn order<R: Reader>() -> Group {
    Group::new(
        "fields exchanged, repeated or left out",
        |generator, each| {
            let forms = |&(n, m)| both_forms(n, m, generator);
            let files: Vec<_> = R::SMALL.iter().flat_map(forms).collect();
            for fields in files {
                let fields = R::FILE.part(&fields);
                for index in 0..fields.len() {
                    for (list, answer) in other_orders(fields, index) {
                        each(case::<R>(&join(&list), Some(answer), generator));
                    }
                }
            }
        },
    )
}

/// One or two bytes after each field, with another tag than the next.
fn after_each_field<R: Reader>(generator: &mut Generator, each: &mut dyn FnMut(Case)) {
    for &(n, m) in R::SMALL {
        let all = any_fields(n, m, generator);
        let fields = R::FILE.part(&all);
        for index in 0..=fields.len() {
            let start = join(&fields[..index]);
            let end = index == fields.len();
            let answer = if end { FOLLOW } else { MISSING };
            for len in [1, 2] {
                let tag = all.get(index).map_or(0, |field| field.tag ^ 0x80);
                let bytes = [&start[..], &[tag, 0][..len]].concat();
                each(case::<R>(&bytes, Some(answer), generator));
            }
        }
    }
}

/// Short inputs: none, all of one byte, some of two, and any bytes.
pub const fn short<R: Reader>() -> Group {
    Group::new("empty, short and random inputs", |generator, each| {
        each(R::case(Lent::no_bytes(), Some(MISSING), generator));
        each(case::<R>(&[], Some(MISSING), generator));
        for first in 0..=255 {
            each(case::<R>(&[first], Some(MISSING), generator));
            let second = generator.number() as u8;
            each(case::<R>(&[first, second], Some(MISSING), generator));
            each(case::<R>(&[tag::SIZES, first], Some(MISSING), generator));
            let answer = if first == tag::SIZES { MISSING } else { TAG };
            each(case::<R>(&[first, 0, 2], Some(answer), generator));
        }
        for _ in 0..1_000 {
            let len = generator.below(60);
            let bytes: Vec<u8> = (0..len)
                .map(|_| any_of(&[0, 1, 2, 3, generator.number() as u8], generator))
                .collect();
            each(case::<R>(&bytes, None, generator));
        }
        after_each_field::<R>(generator, each);
    })
}

/// A package where a check file is read, and the reverse.
pub const fn other_kind<R: Reader>() -> Group {
    Group::new("every n, the other kind of file", |generator, each| {
        for n in keyed::EVERY_N {
            for m in keyed::some_m(n, generator) {
                let fields = any_fields(n, m, generator);
                let (other, answer) = match R::FILE {
                    File::Package => (File::CheckFile, FOLLOW),
                    File::CheckFile => (File::Package, MISSING),
                };
                let bytes = join(other.part(&fields));
                each(case::<R>(&bytes, Some(answer), generator));
            }
        }
    })
}

/// Files with one to three changes, of H too.
pub const fn damaged<R: Reader>() -> Group {
    Group::new("damaged files", |generator, each| {
        let pool = Pool::new::<R>(generator);
        for _ in 0..R::DAMAGED {
            let bytes = damaged_file::<R>(&pool, generator);
            each(case::<R>(&bytes, None, generator));
        }
    })
    .with_any_rows()
}
