//! Reading bundles: those of key A, as the specification writes its fields in
//! hexadecimal, and one fault or two in each place.

mod common;

use common::bundles::{bundle, key_fields, of_sizes, Group};
use common::Case;
use perk::{read_bundle, read_package, Bundle, Refusal};

/// The fields of a bundle, tag, length, content: key A's, and those of three
/// groups. "0.." is 22 zero bytes.
const FIELDS: [&str; 12] = [
    "01 0002 0201",
    "02 0004 0002 0001",
    "03 0004 0001 0002",
    "05 0002 0007",
    "06 0002 0101",
    "07 0018 0005 0..",
    "05 0002 ffff",
    "06 0002 0001",
    "07 0018 0.. 07ff",
    "05 0004 00010000",
    "06 0002 0000",
    "07 0018 07ff 0..",
];

/// The fields of the key, and of a group, are so many.
const OF_KEY: usize = 3;
const OF_GROUP: usize = 3;

/// The bytes of fields in text.
fn bytes(text: &str) -> Vec<u8> {
    let digits = text.replace("0..", &"00".repeat(22)).replace(' ', "");
    let digit = |c: u8| (c as char).to_digit(16).expect("a digit") as u8;
    let pairs = digits.as_bytes().chunks(2);
    pairs.map(|p| 16 * digit(p[0]) + digit(p[1])).collect()
}

/// The bundle, with the fields at some places replaced.
fn with(replaced: &[(usize, &str)]) -> Vec<u8> {
    let fields = FIELDS.iter().enumerate().flat_map(|(place, field)| {
        let other = replaced.iter().find(|(other, _)| *other == place);
        bytes(other.map_or(*field, |(_, other)| *other))
    });
    fields.collect()
}

/// The bytes of the first so many fields.
fn before(place: usize) -> Vec<u8> {
    bytes(&FIELDS[..place].concat())
}

/// The answer, a refusal as its number.
fn read(bytes: &[u8]) -> Result<Bundle, u32> {
    read_bundle(bytes).map_err(Refusal::number)
}

/// What the reader answers for so many groups of key A.
fn groups(groups: usize) -> Result<Bundle, u32> {
    Ok(Bundle { n: 2, m: 1, groups })
}

#[test]
fn one_group_and_more() {
    for count in 1..=3 {
        assert_eq!(read(&before(OF_KEY + OF_GROUP * count)), groups(count));
    }
    assert_eq!(with(&[]).len(), 19 + 37 + 37 + 39);
}

// A bundle of one group is a package, and one of more is none.
#[test]
fn packages() {
    let package = &include_bytes!("../../../vectors/key_a.check")[..56];
    assert_eq!(before(OF_KEY + OF_GROUP), package);
    assert_eq!(read(package), groups(1));
    let serial = read_package(package).expect("a package").serial;
    assert_eq!(serial, 7);
    for count in 2..=3 {
        let bundle = before(OF_KEY + OF_GROUP * count);
        assert_eq!(read_package(&bundle), Err(Refusal::BytesFollow));
    }
    // a check file goes on with another tag than 05
    let file = include_bytes!("../../../vectors/key_a.check");
    assert_eq!(read(file), Err(10));
}

// A bundle ends after each group, and nowhere else.
#[test]
fn every_part() {
    let bundle = with(&[]);
    let ends = [1, 2, 3].map(|count| before(OF_KEY + OF_GROUP * count).len());
    for len in 0..=bundle.len() {
        let count = ends.iter().position(|end| *end == len);
        let stated = count.map_or(Err(9), |count| groups(count + 1));
        assert_eq!(read(&bundle[..len]), stated, "{len}");
    }
    assert_eq!(read(&before(OF_KEY)), Err(9));
}

// One byte or two are too few for a field, whatever they are; a third shows the tag.
#[test]
fn bytes_after_a_group() {
    for count in 1..=3 {
        let bundle = before(OF_KEY + OF_GROUP * count);
        let followed = |more: &[u8]| read(&[&bundle[..], more].concat());
        for byte in 0..=255 {
            assert_eq!(followed(&[byte]), Err(9));
            assert_eq!(followed(&[byte, 0]), Err(9));
            let number = if byte == 5 { 9 } else { 10 };
            assert_eq!(followed(&[byte, 0, 2]), Err(number));
            assert_eq!(followed(&[byte, 0, 4]), Err(number));
            assert_eq!(followed(&[byte, 0, 2, 0]), Err(number));
            let number = if byte == 5 { 11 } else { 10 };
            assert_eq!(followed(&[byte, 0, 3]), Err(number));
            assert_eq!(followed(&[byte; 1000]), Err(number));
        }
        // the key again, and other fields
        assert_eq!(followed(&before(OF_KEY)), Err(10));
        assert_eq!(followed(&bytes("04 0002 0005")), Err(10));
        assert_eq!(followed(&bytes("06 0002 0101")), Err(10));
    }
}

/// A serial's field.
fn serial(serial: u32) -> String {
    match serial {
        0..=65535 => format!("05 0002 {serial:04x}"),
        _ => format!("05 0004 {serial:08x}"),
    }
}

/// Serials of both lengths, rising; as bytes, some of four would come before some
/// of two.
const SERIALS: [u32; 14] = [
    0, 1, 255, 256, 257, 32768, 65535, 65536, 65537, 131071, 16777216, 16909060, 2147483648,
    4294967295,
];

// Each serial must be above the one before it, as a number.
#[test]
fn pairs_of_serials() {
    for first in SERIALS {
        for second in SERIALS {
            let stated = if second > first { groups(2) } else { Err(20) };
            let bytes = |first: u32, second: u32| {
                let fields = [&serial(first), FIELDS[4], FIELDS[5], &serial(second)];
                bytes(&[&FIELDS[..3], &fields, &FIELDS[4..6]].concat().concat())
            };
            assert_eq!(read(&bytes(first, second)), stated, "{first} {second}");
        }
    }
}

// The one before counts, and not the first or the greatest.
#[test]
fn the_serial_before() {
    let read = |serials: &[u32]| {
        let groups = serials.iter().map(|serial| Group::with(2, *serial));
        read(&bundle(&Case::key_a(), &groups.collect::<Vec<_>>()))
    };
    assert_eq!(read(&SERIALS), groups(14));
    for place in 1..14 {
        let mut serials = SERIALS;
        serials[place] = serials[place - 1];
        assert_eq!(read(&serials), Err(20), "{place}");
        serials.swap(place - 1, place);
        assert_eq!(read(&serials), Err(20), "{place}");
        serials = SERIALS;
        serials.swap(place - 1, place);
        assert_eq!(read(&serials), Err(20), "{place}");
        serials[place] = 0;
        assert_eq!(read(&serials), Err(20), "{place}");
    }
    for (serials, stated) in [
        (&[5, 9, 7][..], Err(20)),
        (&[5, 9, 9], Err(20)),
        (&[5, 9, 5], Err(20)),
        (&[5, 4, 9], Err(20)),
        (&[5, 5, 9], Err(20)),
        (&[0, 0, 0], Err(20)),
        (&[0, 1, 2], groups(3)),
        (&[65536, 65535, 65537], Err(20)),
        (&[65535, 65536, 4294967295], groups(3)),
        (&[4294967295], groups(1)),
        (&[4294967295, 4294967295], Err(20)),
        (&[4294967295, 0], Err(20)),
    ] {
        assert_eq!(read(serials), stated, "{serials:?}");
    }
}

/// A fault: its field's place, the text that stands there, and the number.
type Fault = (usize, &'static str, u32);

/// Faults of the key's fields, all of which are tried before those of groups.
const KEY: [Fault; 15] = [
    (0, "ff 0002 0201", 10),
    (0, "01 0003 0201", 11),
    (0, "01 0002 4100", 1),
    (0, "01 0002 0202", 2),
    (1, "03 0004 0002 0001", 10),
    (1, "02 0006 0002 0001", 11),
    (1, "02 0004 0002 0800", 4),
    (2, "02 0004 0001 0002", 10),
    (2, "03 0002 0001 0002", 11),
    (2, "03 0004 0001 0800", 4),
    (2, "03 0004 0001 0002 04 0004 0005", 11),
    (2, "03 0004 0001 0002 04 0002 0800", 4),
    (2, "03 0004 0001 0002 04 0002 0000", 14),
    (1, "02 0004 0000 0000", 15),
    (2, "03 0004 0001 0002 04 0002 0005 04 0002 0005", 10),
];

/// Faults of the groups, in the order in which they are tried.
const GROUPS: [Fault; 39] = [
    (3, "06 0002 0007", 10),
    (3, "05 0003 0007", 11),
    (3, "05 0000", 11),
    (3, "05 0202 0007", 11),
    (3, "05 0004 0000 0007", 19),
    (4, "05 0002 0101", 10),
    (4, "06 0003 0101", 11),
    (4, "06 0002 0201", 5),
    (4, "06 0002 01ff", 5),
    (5, "06 0018 0005 0..", 10),
    (5, "07 0030 0005 0..", 11),
    (5, "07 0018 0800 0..", 6),
    (5, "07 0018 0.. ffff", 6),
    (6, "04 0002 ffff", 10),
    (6, "05 0001 ffff", 11),
    (6, "05 0004 0000 ffff", 19),
    (6, "05 0004 0000 0007", 19),
    (6, "05 0002 0007", 20),
    (6, "05 0002 0006", 20),
    (6, "05 0002 0000", 20),
    (7, "07 0002 0001", 10),
    (7, "06 0102 0001", 11),
    (7, "06 0002 0002", 5),
    (7, "06 0002 8000", 5),
    (8, "05 0018 0.. 07ff", 10),
    (8, "07 0016 0.. 07ff", 11),
    (8, "07 0018 0.. 0800", 6),
    (9, "11 0004 00010000", 10),
    (9, "05 0005 00010000", 11),
    (9, "05 0004 0000ffff", 19),
    (9, "05 0002 ffff", 20),
    (9, "05 0002 fffe", 20),
    (9, "05 0002 0008", 20),
    (10, "00 0002 0000", 10),
    (10, "06 0000", 11),
    (10, "06 0002 0010", 5),
    (11, "08 0018 07ff 0..", 10),
    (11, "07 0017 07ff 0..", 11),
    (11, "07 0018 0fff 0..", 6),
];

#[test]
fn a_fault_in_each_place() {
    for (place, text, number) in KEY.into_iter().chain(GROUPS) {
        assert_eq!(read(&with(&[(place, text)])), Err(number), "{text}");
    }
}

// Of two faults the one that is tried first is the answer; what follows the
// bundle, or is missing from its end, comes after every fault.
#[test]
fn two_faults() {
    for (first, (place, text, number)) in GROUPS.into_iter().enumerate() {
        for (other, later, _) in GROUPS.into_iter().skip(first) {
            if other == place {
                continue;
            }
            let bytes = with(&[(place, text), (other, later)]);
            assert_eq!(read(&bytes), Err(number), "{text}, {later}");
        }
        for (other, earlier, number) in KEY {
            let bytes = with(&[(place, text), (other, earlier)]);
            assert_eq!(read(&bytes), Err(number), "{text}, {earlier}");
        }
        let bytes = [with(&[(place, text)]), vec![0; 9]].concat();
        assert_eq!(read(&bytes), Err(number), "{text} and bytes that follow");
        let whole = [before(place), bytes_of(text)].concat();
        assert_eq!(read(&whole), Err(number), "{text} and nothing after it");
    }
}

/// The bytes of a field; of one whose stated length is longer than its text, with
/// zeros up to it.
fn bytes_of(text: &str) -> Vec<u8> {
    let mut bytes = bytes(text);
    let length = 3 + usize::from(u16::from_be_bytes([bytes[1], bytes[2]]));
    bytes.resize(bytes.len().max(length), 0);
    bytes
}

// The content of a field must be there before its values are looked at.
#[test]
fn a_fault_in_a_field_that_is_cut() {
    for (place, text, number) in GROUPS {
        let field = bytes_of(text);
        let start = before(place);
        // at the start of a later group the bundle before it is whole
        let whole = match place {
            6 => groups(1),
            9 => groups(2),
            _ => Err(9),
        };
        assert_eq!(read(&start), whole, "{text}");
        for len in 1..field.len() {
            let head = matches!(number, 10 | 11) && len >= 3;
            let stated = if head { number } else { 9 };
            let part = [&start[..], &field[..len]].concat();
            assert_eq!(read(&part), Err(stated), "{text}, {len} bytes");
        }
    }
}

// 19, then 20, then the fields after the serial's.
#[test]
fn the_place_of_the_order() {
    for order in ["05 0002 0007", "05 0002 0006"] {
        for later in [
            (7, ""),
            (7, "06"),
            (7, "ff 0002 0001"),
            (7, "06 0003 0001"),
            (7, "06 0002 0201"),
            (8, "07 0018 0800 0.."),
            (9, "05 0004 0000 0007"),
            (9, "05 0002 0001"),
        ] {
            assert_eq!(read(&with(&[(6, order), later])), Err(20), "{later:?}");
        }
        // a fault of the group before
        assert_eq!(read(&with(&[(6, order), (4, "06 0002 0002")])), Err(5));
        assert_eq!(read(&with(&[(6, order), (5, "07 0018 0800 0..")])), Err(6));
    }
    // four bytes for a number that fits two, above the serial before or not
    for (first, second) in [(7, 7), (7, 6), (7, 8), (65535, 65535)] {
        let long = format!("05 0004 {second:08x}");
        let bytes = with(&[(3, &serial(first)), (6, &long)]);
        assert_eq!(read(&bytes), Err(19), "{first} {second}");
    }
}

// 15 comes directly after the key's fields, before a group that is missing or wrong.
#[test]
fn rows_that_lean() {
    let leaning = (1, "02 0004 0000 0000");
    let start = &with(&[leaning])[..19];
    for after in ["", "00", "05", "05 0003", "06 0002 0101", "ff ff ff"] {
        let bytes = [start, &bytes(after)].concat();
        assert_eq!(read(&bytes), Err(15), "{after}");
    }
    // where 04 follows, after all its refusals
    for (y, number) in [
        ("04", 9),
        ("04 00", 9),
        ("04 0002", 9),
        ("04 0002 00", 9),
        ("04 0003 00", 11),
        ("04 0002 0800", 4),
        ("04 0002 0000", 14),
        ("04 0002 0005", 15),
        ("04 0002 0005 06", 15),
    ] {
        let bytes = [start, &bytes(y)].concat();
        assert_eq!(read(&bytes), Err(number), "{y}");
    }
}

#[test]
fn a_target() {
    for y in ["04 0002 0005", "04 0002 0100", "04 0002 07ff"] {
        let x = format!("{} {y}", FIELDS[2]);
        assert_eq!(read(&with(&[(2, &x)])), groups(3), "{y}");
        // the key's fields alone, and parts of 04
        let start = &with(&[(2, &x)])[..24];
        for len in 19..=24 {
            assert_eq!(read(&start[..len]), Err(9), "{y}, {len} bytes");
        }
        // 04 after a group
        let group = format!("{y} {}", FIELDS[6]);
        assert_eq!(read(&with(&[(2, &x), (6, &group)])), Err(10));
    }
}

// The lengths are those of the sizes.
#[test]
fn every_n() {
    for n in 2..=64 {
        let mut sizes = vec![1, n / 2, n - 1];
        sizes.dedup();
        for m in sizes {
            for target in [false, true] {
                let key = of_sizes(n, m, target);
                let list = [65534, 65535, 65536].map(|serial| Group::with(n, serial));
                let bytes = bundle(&key, &list);
                assert_eq!(read(&bytes), Ok(Bundle { n, m, groups: 3 }));
                assert_eq!(read(&bytes[..bytes.len() - 1]), Err(9));
                assert_eq!(read(&[&bytes[..], &[5]].concat()), Err(9));
                assert_eq!(read(&[&bytes[..], &list[2].fields()].concat()), Err(20));
                assert_eq!(read(&key_fields(&key)), Err(9));
            }
        }
    }
}

#[test]
fn many_groups() {
    let list: Vec<Group> = (0..5000).map(|i| Group::with(3, i * 17)).collect();
    let bytes = bundle(&Case::three(), &list);
    let stated = |groups| Ok(Bundle { n: 3, m: 1, groups });
    assert_eq!(read(&bytes), stated(5000));
    let last = list[4999].fields().len();
    assert_eq!(read(&bytes[..bytes.len() - last]), stated(4999));
    // the last group again, its last coordinate above 2047, and a byte more
    let again = [&bytes[..], &list[4999].fields()].concat();
    assert_eq!(read(&again), Err(20));
    let mut above = bytes.clone();
    above[bytes.len() - 2] = 8;
    assert_eq!(read(&above), Err(6));
    assert_eq!(read(&[&bytes[..], &[5]].concat()), Err(9));
}
