//! The reader of bundles: bundles by hand, a second reader, every fault and every
//! two of them in order, serials, and where a bundle ends. The join stands in
//! `join`.

use crate::bytes_of;
use reference::key::Sizes;
use reference::package::{
    bundle_bytes, join, package_bytes, package_fields, serial_bytes, tag, Group, WrittenField, HEAD,
};
use reference::samples::{bundle_faults, Generator, Material, Sample, WrittenBundle};
use reference::vectors::Cases;
use reference::{
    judge_bundle, judge_package, read_bundle, read_package, Bundle, BundleContents, Place, Refusal,
    Refused,
};
use std::collections::{BTreeMap, BTreeSet};
use std::slice;

/// Key A and the fields of its groups with the serials 7 and 65,536, as the
/// specification writes fields.
pub const KEY_A: &str = "01 0002 0201  02 0004 0002 0001  03 0004 0001 0002";
pub const GROUP_7: &str = "05 0002 0007  06 0002 0101  07 0018 0005 0..";
pub const GROUP_65536: &str = "05 0004 00010000  06 0002 0001  07 0018 0006 0..";

/// Bytes in hexadecimal, one part after another.
pub fn bytes_of_all(parts: &[&str]) -> Vec<u8> {
    bytes_of(&parts.join(" "))
}

/// A key of these sizes, with a target or without.
pub fn key_of(n: usize, m: usize, target: bool, generator: &mut Generator) -> Sample {
    Material::of_package(n, m, target, generator).sample
}

/// The sizes of a key.
pub fn sizes_of(sample: &Sample) -> Sizes {
    sample.key().sizes().expect("sizes that are not refused")
}

/// Groups with these serials and random contents.
pub fn groups_of(sample: &Sample, serials: &[u32], generator: &mut Generator) -> Vec<Group> {
    let sizes = sizes_of(sample);
    let group = |&serial| generator.group(sizes, serial);
    serials.iter().map(group).collect()
}

/// The number of a refusal of the reader; 0 when the bundle is accepted.
pub fn number_of(bytes: &[u8]) -> u32 {
    read_bundle(bytes).map_or_else(Refusal::number, |_| 0)
}

#[test]
fn bundles_by_hand() {
    let read = |parts: &[&str]| {
        let answer = read_bundle(&bytes_of_all(parts));
        let numbers = |BundleContents { n, m, groups }| (n, m, groups);
        answer.map(numbers).map_err(Refusal::number)
    };
    assert_eq!(read(&[KEY_A, GROUP_7]), Ok((2, 1, 1)));
    assert_eq!(read(&[KEY_A, GROUP_65536]), Ok((2, 1, 1)));
    assert_eq!(read(&[KEY_A, GROUP_7, GROUP_65536]), Ok((2, 1, 2)));
    let y = "04 0002 0005";
    assert_eq!(read(&[KEY_A, y, GROUP_7, GROUP_65536]), Ok((2, 1, 2)));
    let last = "05 0004 ffffffff  06 0002 0000  07 0018 0000 0..";
    assert_eq!(read(&[KEY_A, GROUP_7, GROUP_65536, last]), Ok((2, 1, 3)));

    assert_eq!(read(&[]), Err(9));
    assert_eq!(read(&[KEY_A]), Err(9));
    assert_eq!(read(&[KEY_A, y]), Err(9));
    assert_eq!(read(&[KEY_A, GROUP_65536, GROUP_7]), Err(20));
    assert_eq!(read(&[KEY_A, GROUP_7, GROUP_7]), Err(20));
    assert_eq!(read(&[KEY_A, GROUP_7, KEY_A, GROUP_65536]), Err(10));
    assert_eq!(read(&[KEY_A, GROUP_7, y, GROUP_65536]), Err(10));
    assert_eq!(read(&[KEY_A, GROUP_7, "11 0030"]), Err(10));
    assert_eq!(read(&[GROUP_7]), Err(10));
}

/// What is read of a bundle, group by group, and its bytes again.
#[test]
fn the_groups_of_a_bundle() {
    let generator = &mut Generator::new(80);
    let mut long_serials = 0;
    for (n, m) in [(2, 1), (3, 2), (5, 2), (9, 8), (17, 8), (33, 2), (64, 27)] {
        for target in [false, true] {
            let sample = key_of(n, m, target, generator);
            for count in [1, 2, 3, 10, 40] {
                let groups = groups_of(&sample, &generator.serials(count), generator);
                let bytes = bundle_bytes(sample.key(), &groups);
                let long = groups.iter().filter(|group| group.serial > 65_535).count();
                let key = 5 + 3 + 2 * m * n + 3 + 2 * n + usize::from(target) * (3 + 2 * m);
                let d = sizes_of(&sample).d;
                let group = 3 + 2 + 3 + n * d + 3 + 24 * d;
                assert_eq!(bytes.len(), key + count * group + 2 * long);
                long_serials += long;

                let bundle = Bundle::judged(&bytes).expect("an accepted bundle");
                assert_eq!(bundle.groups, groups);
                assert_eq!(bundle.bytes(), bytes);
                assert_eq!(bundle.key.len(), 3 + usize::from(target));
                let contents = BundleContents {
                    n,
                    m,
                    groups: count,
                };
                assert_eq!(read_bundle(&bytes), Ok(contents));
            }
        }
    }
    assert!((100..700).contains(&long_serials), "{long_serials}");
}

/// The bytes of a group of two bytes for the serial at n = 2 and at n = 64.
#[test]
fn lengths_of_groups() {
    let generator = &mut Generator::new(81);
    for (n, length) in [(2, 37), (64, 539)] {
        let sample = key_of(n, 1, false, generator);
        let length_of = |serials: &[u32], generator: &mut Generator| {
            bundle_bytes(sample.key(), &groups_of(&sample, serials, generator)).len()
        };
        let one = length_of(&[7], generator);
        assert_eq!(length_of(&[7, 8], generator), one + length);
        assert_eq!(length_of(&[7, 65_535], generator), one + length);
        assert_eq!(length_of(&[7, 65_536], generator), one + length + 2);
    }
}

/// The end of the key fields of bytes that begin with a whole key.
fn end_of_key(bytes: &[u8]) -> usize {
    let mut end = 0;
    for tag in [tag::SIZES, tag::H, tag::X, tag::Y] {
        if bytes.get(end) == Some(&tag) {
            let length = u16::from_be_bytes([bytes[end + 1], bytes[end + 2]]);
            end += HEAD + usize::from(length);
        }
    }
    end
}

/// The answer for a group that stands after the key, which is not refused, and
/// after a group with the serial `before`: its serial.
fn one_group(key: &[u8], group: &[u8], before: Option<u64>) -> Result<u64, Refused> {
    let mut package = [key, group].concat();
    if before.is_some() && group[0] == tag::Y {
        // This field stands with the key alone.
        package[key.len()] = 0xff;
    }
    let answer = judge_package(&package);
    let of_serial = |refused: &Refused| refused.tag == Some(tag::SERIAL);
    if let Some(refused) = answer.err().filter(of_serial) {
        return Err(refused);
    }
    let content = &group[HEAD..HEAD + usize::from(group[2])];
    let bytes = content.iter();
    let serial = bytes.fold(0, |number, &byte| number << 8 | u64::from(byte));
    if before.is_some_and(|before| before >= serial) {
        return Err(Refused {
            refusal: Refusal::SerialOrder,
            place: Place::Values,
            tag: Some(tag::SERIAL),
        });
    }
    answer.map(|_| serial)
}

/// A second reader for comparison: each group, after the key, is read as a
/// package. 20 comes after the refusals of field 05.
fn group_by_group(bytes: &[u8]) -> Result<BundleContents, Refused> {
    let of_key = [tag::SIZES, tag::H, tag::X, tag::Y].map(Some);
    let whole = judge_package(bytes);
    if let Some(refused) = whole.err().filter(|refused| of_key.contains(&refused.tag)) {
        return Err(refused);
    }
    let (key, mut rest) = bytes.split_at(end_of_key(bytes));
    let (n, m) = (usize::from(key[3]), usize::from(key[4]));
    let d = (1..7).find(|&d| 1 << d >= n).expect("n is at most 64");
    let (mut before, mut groups) = (None, 0);
    loop {
        let long = rest.get(1..3) == Some(&[0, 4]);
        let length = 3 + if long { 4 } else { 2 } + 3 + n * d + 3 + 24 * d;
        let (group, others) = rest.split_at(length.min(rest.len()));
        before = Some(one_group(key, group, before)?);
        groups += 1;
        rest = others;
        if rest.is_empty() {
            return Ok(BundleContents { n, m, groups });
        }
    }
}

/// Samples of some sizes with bundles of one to five groups.
fn bundles(generator: &mut Generator) -> Vec<WrittenBundle> {
    let mut list = Vec::new();
    for (n, m) in [(2, 1), (3, 2), (4, 1), (5, 2), (9, 4)] {
        for target in [false, true] {
            let sample = key_of(n, m, target, generator);
            for count in [1, 2, 3, 5] {
                let groups = groups_of(&sample, &generator.serials(count), generator);
                list.push(WrittenBundle::new(sample.key(), &groups));
            }
        }
    }
    list
}

/// A random change of the fields of a bundle.
fn change_fields(fields: &mut Vec<WrittenField>, generator: &mut Generator) {
    let chosen = generator.below(fields.len());
    let other = generator.below(fields.len());
    match generator.below(8) {
        0 => fields.swap(chosen, other),
        1 => drop(fields.remove(chosen)),
        2 => {
            let twice = fields[chosen].clone();
            fields.insert(other, twice);
        }
        3 => fields.truncate(chosen + 1),
        4 => fields[chosen].content.fill(0),
        5 => fields[chosen] = WrittenField::new(tag::SERIAL, vec![0; 4]),
        _ => {
            let serial = fields.iter().rposition(|field| field.tag == tag::SERIAL);
            if let Some(serial) = serial {
                let number = generator.serial();
                fields[serial] = WrittenField::new(tag::SERIAL, serial_bytes(number));
            }
        }
    }
}

/// A random change of the bytes of a bundle.
fn change_bytes(bytes: &mut Vec<u8>, generator: &mut Generator) {
    let length = bytes.len();
    if length == 0 {
        return;
    }
    let at = generator.below(length);
    match generator.below(8) {
        0 => bytes.truncate(at),
        1 => bytes.resize(length + 1 + generator.below(4), 5),
        2 => bytes.insert(at, generator.below(256) as u8),
        3 => drop(bytes.remove(at)),
        4 => bytes[at] = generator.below(256) as u8,
        5 => bytes[at] ^= 1,
        6 => bytes[at] = bytes[at].wrapping_add(1),
        _ => bytes[at] = 8,
    }
}

#[test]
fn the_reader_agrees_with_a_second_reader() {
    let generator = &mut Generator::new(82);
    let mut answers: BTreeMap<u32, usize> = BTreeMap::new();
    for bundle in bundles(generator) {
        for _ in 0..1_500 {
            let mut fields = bundle.fields.clone();
            for _ in 0..generator.below(3) {
                if !fields.is_empty() {
                    change_fields(&mut fields, generator);
                }
            }
            let mut bytes = join(&fields);
            for _ in 0..generator.below(3) {
                change_bytes(&mut bytes, generator);
            }
            let answer = judge_bundle(&bytes);
            assert_eq!(answer, group_by_group(&bytes), "{bytes:?}");
            let number = answer.map_or_else(|refused| refused.refusal.number(), |_| 0);
            *answers.entry(number).or_default() += 1;
        }
    }
    let numbers: BTreeSet<u32> = answers.keys().copied().collect();
    let stated = BTreeSet::from([0, 1, 2, 4, 5, 6, 9, 10, 11, 14, 15, 19, 20]);
    assert_eq!(numbers, stated, "{answers:?}");
    assert!(answers.values().all(|&count| count >= 50), "{answers:?}");
}

/// Each byte of bundles changed to every other value, and every prefix, which is
/// accepted exactly where a group ends.
#[test]
fn every_byte_and_every_prefix() {
    let generator = &mut Generator::new(83);
    for target in [false, true] {
        let sample = Sample {
            y: vec![5 * u16::from(target)],
            ..Sample::key_a()
        };
        let groups = groups_of(&sample, &[7, 65_535, 65_536], generator);
        let bytes = bundle_bytes(sample.key(), &groups);
        for place in 0..bytes.len() {
            for byte in 0..=255 {
                let mut other = bytes.clone();
                other[place] = byte;
                let answer = judge_bundle(&other);
                assert_eq!(answer, group_by_group(&other), "{place} {byte}");
            }
        }
        let ends = [1, 2, 3].map(|count| bundle_bytes(sample.key(), &groups[..count]).len());
        for length in 0..=bytes.len() {
            let answer = number_of(&bytes[..length]);
            assert_eq!(answer == 0, ends.contains(&length), "{length}");
            assert!([0, 9].contains(&answer), "{length}");
        }
    }
}

/// Bundles of two groups of key A and of other sizes, with all faults.
fn faulty() -> Vec<WrittenBundle> {
    let generator = &mut Generator::new(84);
    let mut list = Vec::new();
    for (n, m) in [(2, 1), (5, 3)] {
        for target in [false, true] {
            let sample = key_of(n, m, target, generator);
            for serials in [[7, 65_536], [65_536, 65_537], [65_534, 65_535], [0, 1]] {
                let groups = groups_of(&sample, &serials, generator);
                list.push(WrittenBundle::new(sample.key(), &groups));
            }
        }
    }
    list
}

#[test]
fn every_fault() {
    let mut seen = BTreeSet::new();
    for bundle in faulty() {
        assert_eq!(number_of(&bundle.bytes()), 0);
        for fault in bundle_faults(&bundle) {
            let mut wrong = bundle.clone();
            (fault.change)(&mut wrong);
            let answer = read_bundle(&wrong.bytes());
            assert_eq!(answer, Err(fault.refusal), "{}", fault.name);
            seen.insert(fault.refusal.number());
        }
    }
    let stated = BTreeSet::from([1, 2, 4, 5, 6, 9, 10, 11, 14, 15, 19, 20]);
    assert_eq!(seen, stated);
}

/// Two faults at once: the one that is judged first is the answer. It is made
/// last, since it may end the bytes.
#[test]
fn every_two_faults() {
    let mut pairs = BTreeSet::new();
    for bundle in faulty() {
        let faults = bundle_faults(&bundle);
        for (place, early) in faults.iter().enumerate() {
            for late in &faults[place + 1..] {
                let mut wrong = bundle.clone();
                (late.change)(&mut wrong);
                (early.change)(&mut wrong);
                let answer = read_bundle(&wrong.bytes());
                assert_eq!(answer, Err(early.refusal), "{} {}", early.name, late.name);
                pairs.insert((early.refusal.number(), late.refusal.number()));
            }
        }
    }
    // Of the fields of a group: 19 before 20 before 5 before 6, and in the next
    // group the other way round.
    for pair in [
        (19, 20),
        (20, 5),
        (20, 6),
        (5, 6),
        (6, 20),
        (5, 19),
        (15, 20),
    ] {
        assert!(pairs.contains(&pair), "{pair:?}");
    }
    assert!(pairs.len() >= 110, "{} pairs", pairs.len());
}

/// Two groups with any two of these serials: accepted exactly where the second is
/// above the first, whatever the bytes of the two are.
#[test]
fn serials_rise_by_value() {
    const SERIALS: [u32; 16] = [
        0,
        1,
        2,
        255,
        256,
        257,
        32_768,
        65_534,
        65_535,
        65_536,
        65_537,
        131_071,
        16_777_216,
        2_147_483_647,
        2_147_483_648,
        u32::MAX,
    ];
    let generator = &mut Generator::new(85);
    let sample = Sample::key_a();
    let mut accepted = 0;
    for first in SERIALS {
        for second in SERIALS {
            for third in SERIALS {
                let groups = groups_of(&sample, &[first, second, third], generator);
                let bytes = bundle_bytes(sample.key(), &groups);
                let rising = first < second && second < third;
                let expected = if rising { 0 } else { 20 };
                assert_eq!(number_of(&bytes), expected, "{first} {second} {third}");
                accepted += usize::from(rising);
            }
        }
    }
    assert_eq!(accepted, 16 * 15 * 14 / 6);
}

/// A four-byte serial below 65,536 is refused before its order is looked at, and
/// the order before field 06.
#[test]
fn the_place_of_20() {
    let generator = &mut Generator::new(86);
    let sample = Sample::key_a();
    let groups = groups_of(&sample, &[9, 7], generator);
    let mut bundle = WrittenBundle::new(sample.key(), &groups);
    let refused = |bundle: &WrittenBundle| judge_bundle(&bundle.bytes()).map(|_| ());
    let at_05 = |refusal| {
        let (place, tag) = (Place::Values, Some(tag::SERIAL));
        Err(Refused {
            refusal,
            place,
            tag,
        })
    };
    assert_eq!(refused(&bundle), at_05(Refusal::SerialOrder));
    // The fields 06 and 07 of the second group.
    let right = bundle.clone();
    for wrong in [7, 8] {
        bundle = right.clone();
        bundle.fields[wrong].tag = 0x55;
        assert_eq!(refused(&bundle), at_05(Refusal::SerialOrder));
        bundle.fields[wrong].content.fill(9);
        assert_eq!(refused(&bundle), at_05(Refusal::SerialOrder));
        bundle.end_in(wrong, 0);
        assert_eq!(refused(&bundle), at_05(Refusal::SerialOrder));
    }
    for content in [[0, 0, 0, 7], [0, 0, 0, 9], [0, 0, 0, 10], [0, 0, 255, 255]] {
        bundle = right.clone();
        bundle.fields[6] = WrittenField::new(tag::SERIAL, content.to_vec());
        assert_eq!(refused(&bundle), at_05(Refusal::LongSerial));
    }
}

/// After a group: one or two bytes of any value get 9, and another tag than 05
/// with two bytes or more after it gets 10.
#[test]
fn what_follows_a_group() {
    let groups: [&[&str]; 3] = [
        &[KEY_A, GROUP_7],
        &[KEY_A, GROUP_7, GROUP_65536],
        &[KEY_A, "04 0002 0005", GROUP_7],
    ];
    for bundle in groups.map(bytes_of_all) {
        for byte in 0..=255 {
            let with = |rest: &[u8]| number_of(&[&bundle[..], rest].concat());
            assert_eq!(with(&[byte]), 9, "{byte}");
            assert_eq!(with(&[byte, byte]), 9, "{byte}");
            assert_eq!(with(&[byte, 0]), 9, "{byte}");
            let other = if byte == tag::SERIAL { 11 } else { 10 };
            assert_eq!(with(&[byte, 0, 0]), other, "{byte}");
            assert_eq!(with(&[byte, 255, 255, 0]), other, "{byte}");
            let content = if byte == tag::SERIAL { 9 } else { 10 };
            assert_eq!(with(&[byte, 0, 2]), content, "{byte}");
            assert_eq!(with(&[byte, 0, 4, 255, 255, 255]), content, "{byte}");
        }
    }
}

/// A key without a group, with and without a target, and with one or two bytes
/// after it.
#[test]
fn a_key_without_a_group() {
    let generator = &mut Generator::new(87);
    for target in [false, true] {
        for (n, m) in [(2, 1), (9, 4), (64, 63)] {
            let key = bundle_bytes(key_of(n, m, target, generator).key(), &[]);
            let refused = |rest: &[u8]| judge_bundle(&[&key[..], rest].concat()).map(|_| ());
            let head = Err(Refused {
                refusal: Refusal::BytesMissing,
                place: Place::Head,
                tag: Some(tag::SERIAL),
            });
            for rest in [&[][..], &[5], &[5, 0], &[6], &[255, 255]] {
                assert_eq!(refused(rest), head, "{n} {m} {rest:?}");
            }
        }
    }
}

/// Both readers accept packages, and give the same refusals but for 12, where a
/// bundle goes on.
#[test]
fn both_readers_on_the_cases_of_perkcheck() {
    let (mut packages, mut longer, mut others) = (0, 0, 0);
    for case in Cases::all().list() {
        match (judge_package(&case.bytes), judge_bundle(&case.bytes)) {
            (Ok(package), Ok(bundle)) => {
                assert_eq!((bundle.n, bundle.m), (package.n, package.m));
                assert_eq!(bundle.groups, 1);
                packages += 1;
            }
            (Err(refused), answer) if refused.refusal == Refusal::BytesFollow => {
                let numbers = [9, 10, 11, 19, 20];
                let number = answer.map_or_else(|refused| refused.refusal.number(), |_| 0);
                assert!(numbers.contains(&number), "{}: {number}", case.name);
                longer += 1;
            }
            (package, bundle) => {
                assert_eq!(package.err(), bundle.err(), "{}", case.name);
                others += 1;
            }
        }
    }
    assert!(
        packages >= 1 && longer >= 100 && others >= 100,
        "{packages}, {longer}, {others}"
    );
}

/// A package is a bundle of one group, and a bundle of one group a package; of two
/// groups it is none.
#[test]
fn packages_are_bundles_of_one_group() {
    let generator = &mut Generator::new(88);
    for n in 2..=64 {
        for target in [false, true] {
            let m = 1 + generator.below(n - 1);
            let Material { sample, t, a } = Material::of_package(n, m, target, generator);
            let package = package_bytes(sample.key(), sample.serial, &t, &a);
            let groups = 1;
            assert_eq!(read_bundle(&package), Ok(BundleContents { n, m, groups }));
            let serial = sample.serial;
            let group = Group { serial, t, a };
            let bundle = bundle_bytes(sample.key(), slice::from_ref(&group));
            assert_eq!(bundle, package);
            if let Some(serial) = serial.checked_add(1) {
                let two = [group.clone(), Group { serial, ..group }];
                let bytes = bundle_bytes(sample.key(), &two);
                assert_eq!(read_package(&bytes), Err(Refusal::BytesFollow));
                assert_eq!(number_of(&bytes), 0);
            }
        }
    }
}

/// No bytes after a bundle give 12: a check file, fields of any tags, and the
/// bundle again.
#[test]
fn twelve_is_never_answered() {
    let sample = Sample::key_a();
    let (t, a) = sample.proof().expect("key A is solved");
    let package = join(&package_fields(sample.key(), 7, &t, &a));
    assert_eq!(
        number_of(&sample.check_file().expect("key A is solved")),
        10
    );
    assert_eq!(number_of(&package.repeat(2)), 10);
    for tag in 0..=255 {
        let field = WrittenField::new(tag, vec![0, 9]);
        let mut bytes = package.clone();
        bytes.extend(join(&[field]));
        let expected = if tag == tag::SERIAL { 9 } else { 10 };
        assert_eq!(number_of(&bytes), expected, "{tag}");
    }
    let generator = &mut Generator::new(89);
    for _ in 0..20_000 {
        let mut bytes = package.clone();
        let length = 1 + generator.below(60);
        bytes.extend((0..length).map(|_| generator.below(9) as u8));
        assert_ne!(number_of(&bytes), 12);
    }
}
