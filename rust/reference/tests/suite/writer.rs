//! The entry write package: packages by hand, the room that it is lent, serials
//! and targets, what the readers read back, and accepted packages that are
//! written again. Its refusals stand with those of the other entries.

use crate::bytes_of;
use reference::package::{package_of, tag, words, HEAD};
use reference::samples::{elements, Generator, Material, Sample};
use reference::vectors::Cases;
use reference::{field, field_range, read_package, write_package, Contents, Key, Refusal};

/// The bytes of the longest package: n = 64, m = 63, with a target and a serial
/// of four bytes.
const LONGEST: usize = 5 + (3 + 8064) + (3 + 128) + (3 + 126) + (3 + 4) + (3 + 384) + (3 + 144);

/// What an output holds before a call.
fn before(length: usize) -> Vec<u8> {
    (0..length).map(|i| 0xc0 ^ i as u8).collect()
}

/// What the entry answers for an output of this length, and the output
/// afterwards.
fn written_to(length: usize, material: &Material) -> (Result<usize, Refusal>, Vec<u8>) {
    let Material { sample, t, a } = material;
    let mut out = before(length);
    let answer = write_package(sample.key(), sample.serial, t, a, &mut out);
    (answer, out)
}

/// The package.
fn written(material: &Material) -> Vec<u8> {
    let (answer, mut out) = written_to(LONGEST, material);
    out.truncate(answer.expect("no refusal applies"));
    out
}

/// The material of n = 3, m = 2 that is written by hand below.
fn by_hand() -> Material {
    Material {
        sample: Sample {
            n: 3,
            m: 2,
            d: 2,
            h: vec![2, 1, 0, 0, 1024, 2047],
            x: vec![256, 2, 4],
            y: vec![0, 1792],
            serial: 305_419_896,
            ..Sample::default()
        },
        t: vec![1, 0, 0, 1, 1, 1],
        a: elements(&[5, 2046]),
    }
}

#[test]
fn packages_by_hand() {
    let key_a = Material::of(Sample::key_a());
    let package = bytes_of(
        "01 0002 0201  02 0004 0002 0001  03 0004 0001 0002  05 0002 0007 \
         06 0002 0101  07 0018 0005 0..",
    );
    assert_eq!(package.len(), 56);
    assert_eq!(written(&key_a), package);

    let mut with_target = Material::of(Sample::key_a_with_target());
    with_target.sample.serial = 65_536;
    let package = bytes_of(
        "01 0002 0201  02 0004 0002 0001  03 0004 0001 0002  04 0002 0005 \
         05 0004 00010000  06 0002 0000  07 0018 0005 0..",
    );
    assert_eq!(package.len(), 63);
    assert_eq!(written(&with_target), package);

    let package = bytes_of(
        "01 0002 0302  02 000c 0002 0001 0000 0000 0400 07ff  03 0006 0100 0002 0004 \
         04 0004 0000 0700  05 0004 12345678  06 0006 010000010101 \
         07 0030 0005 0.. 07fe 0..",
    );
    assert_eq!(package.len(), 103);
    assert_eq!(written(&by_hand()), package);
}

/// Tries outputs of these lengths: 13 below the length of the package, and
/// otherwise the package with the bytes beyond it as they were.
fn rooms(material: &Material, lengths: impl IntoIterator<Item = usize>) {
    let package = written(material);
    let (mut short, mut long) = (0, 0);
    for length in lengths {
        let (answer, out) = written_to(length, material);
        let mut expected = before(length);
        if length < package.len() {
            assert_eq!(answer, Err(Refusal::ShortOutput), "{length}");
            short += 1;
        } else {
            assert_eq!(answer, Ok(package.len()), "{length}");
            expected[..package.len()].copy_from_slice(&package);
            long += 1;
        }
        assert_eq!(out, expected, "{length}");
    }
    assert!(short > 0 && long > 0);
}

#[test]
fn the_room_of_the_output() {
    for (sample, length) in [(Sample::key_a(), 56), (Sample::key_a_with_target(), 61)] {
        let material = Material::of(sample);
        assert_eq!(written(&material).len(), length);
        rooms(&material, 0..length + 30);
    }
    rooms(&by_hand(), 0..140);
    let generator = &mut Generator::new(70);
    for (n, m) in [(5, 2), (17, 8), (64, 27), (64, 63)] {
        for target in [false, true] {
            let material = Material::of_package(n, m, target, generator);
            let length = written(&material).len();
            let lengths = [0, 1, length / 2, length - 1, length, length + 1, 2 * length];
            rooms(&material, lengths);
        }
    }
}

#[test]
fn the_longest_package() {
    assert_eq!(LONGEST, 8873);
    let generator = &mut Generator::new(71);
    let mut material = Material::of_package(64, 63, true, generator);
    material.sample.serial = u32::MAX;
    assert_eq!(written(&material).len(), LONGEST);
    rooms(&material, [LONGEST - 1, LONGEST, LONGEST + 1]);
}

/// The serials at the ends of both forms, with field 05 as it is written.
#[test]
fn serials() {
    for sample in [Sample::key_a(), Sample::key_a_with_target()] {
        let mut material = Material::of(sample);
        let start = if material.sample.has_target() { 24 } else { 19 };
        let seven = written(&material);
        assert_eq!(seven[start..start + 5], [5, 0, 2, 0, 7]);
        for (serial, written_field) in [
            (0, &[5, 0, 2, 0, 0][..]),
            (1, &[5, 0, 2, 0, 1]),
            (256, &[5, 0, 2, 1, 0]),
            (65_535, &[5, 0, 2, 255, 255]),
            (65_536, &[5, 0, 4, 0, 1, 0, 0]),
            (65_537, &[5, 0, 4, 0, 1, 0, 1]),
            (16_777_216, &[5, 0, 4, 1, 0, 0, 0]),
            (305_419_896, &[5, 0, 4, 0x12, 0x34, 0x56, 0x78]),
            (4_294_967_295, &[5, 0, 4, 255, 255, 255, 255]),
        ] {
            material.sample.serial = serial;
            let package = [&seven[..start], written_field, &seven[start + 5..]].concat();
            assert_eq!(written(&material), package, "{serial}");
            rooms(&material, [package.len() - 1, package.len()]);
        }
    }
}

/// A y of zeros is left out; one that has a single element that is not zero, at
/// any place, stands between x and the serial.
#[test]
fn targets() {
    let generator = &mut Generator::new(72);
    for (n, m) in [(2, 1), (3, 2), (9, 8), (64, 63)] {
        let mut material = Material::of_package(n, m, false, generator);
        let without = written(&material);
        let after_x = 5 + (HEAD + 2 * m * n) + (HEAD + 2 * n);
        assert_eq!(without[after_x], tag::SERIAL);
        for place in 0..m {
            for word in [1, 255, 256, 2047] {
                material.sample.y.fill(0);
                material.sample.y[place] = word;
                let mut expected = vec![4, 0, 2 * m as u8];
                expected.resize(HEAD + 2 * m, 0);
                expected[HEAD + 2 * place] = (word / 256) as u8;
                expected[HEAD + 2 * place + 1] = (word % 256) as u8;
                let (start, rest) = without.split_at(after_x);
                assert_eq!(written(&material), [start, &expected, rest].concat());
            }
        }
    }
}

/// Reads a written package back, field by field.
fn read_back(material: &Material) {
    let Material { sample, t, a } = material;
    let Sample { n, m, serial, .. } = *sample;
    let package = written(material);
    assert_eq!(read_package(&package), Ok(Contents { n, m, serial }));
    assert_eq!(field(&package, tag::SIZES), [n as u8, m as u8]);
    for (tag, list) in [(tag::H, &sample.h), (tag::X, &sample.x), (tag::A, a)] {
        assert_eq!(&words(field(&package, tag)), list);
    }
    let y = if sample.has_target() {
        &sample.y[..]
    } else {
        &[]
    };
    assert_eq!(words(field(&package, tag::Y)), y);
    assert_eq!(field(&package, tag::T), t);
    let number = field(&package, tag::SERIAL).iter();
    let number = number.fold(0, |number, &byte| 256 * number + u64::from(byte));
    assert_eq!(number, u64::from(serial));
    // The last field ends with the package.
    assert_eq!(field_range(&package, tag::A).end, package.len());
}

#[test]
fn written_packages_are_read_back() {
    let generator = &mut Generator::new(73);
    let (mut targets, mut long_serials) = (0, 0);
    for n in 2..=64 {
        for m in [1, 1 + generator.below(n - 1), n - 1] {
            for target in [false, true] {
                let material = Material::of_package(n, m, target, generator);
                read_back(&material);
                targets += usize::from(material.sample.has_target());
                long_serials += usize::from(material.sample.serial > 65_535);
            }
        }
    }
    assert_eq!(targets, 189);
    assert!((100..278).contains(&long_serials), "{long_serials}");
    for n in 2..=12 {
        for m in 1..n {
            read_back(&Material::of(Sample::solving(n, m, generator)));
        }
    }
}

/// Writes the fields of an accepted package again, into an output of its length.
fn written_again(package: &[u8]) {
    let Contents { n, m, serial } = read_package(package).expect("an accepted package");
    let [h, x, y, a] = [tag::H, tag::X, tag::Y, tag::A].map(|tag| words(field(package, tag)));
    let y = if y.is_empty() { vec![0; m] } else { y };
    let key = Key {
        n,
        m,
        h: &h,
        x: &x,
        y: &y,
    };
    let mut out = before(package.len());
    let answer = write_package(key, serial, field(package, tag::T), &a, &mut out);
    assert_eq!(answer, Ok(package.len()));
    assert_eq!(out, package);
}

#[test]
fn accepted_packages_are_written_again() {
    let mut count = 0;
    for case in Cases::all().list() {
        let of_file = package_of(&case.bytes);
        for package in [of_file, &case.bytes] {
            if read_package(package).is_ok() {
                written_again(package);
                count += 1;
            }
        }
    }
    assert!(count >= 100, "{count} packages of cases");

    let generator = &mut Generator::new(74);
    for n in 2..=64 {
        for target in [false, true] {
            let m = 1 + generator.below(n - 1);
            written_again(&written(&Material::of_package(n, m, target, generator)));
        }
    }
}

/// Packages with one byte changed to every other value, and with some bytes
/// changed at random: those that are accepted are written again.
#[test]
fn changed_packages_are_written_again() {
    let generator = &mut Generator::new(75);
    let mut packages = vec![written(&by_hand())];
    for (sample, serial) in [
        (Sample::key_a(), 7),
        (Sample::key_a_with_target(), 65_536),
        (Sample::three(), 65_535),
        (Sample::three_with_target(), u32::MAX),
    ] {
        packages.push(written(&Material::of(Sample { serial, ..sample })));
    }
    let (mut accepted, mut refused) = (0, 0);
    let mut judge = |package: &[u8]| match read_package(package) {
        Ok(_) => {
            written_again(package);
            accepted += 1;
        }
        Err(_) => refused += 1,
    };
    for package in &packages {
        for place in 0..package.len() {
            for byte in 0..=255 {
                let mut other = package.clone();
                other[place] = byte;
                judge(&other);
            }
        }
        for _ in 0..2000 {
            let mut other = package.clone();
            for _ in 0..2 + generator.below(3) {
                let place = generator.below(other.len());
                other[place] ^= 1 << generator.below(8);
            }
            judge(&other);
        }
    }
    assert!(
        accepted >= 10_000 && refused >= 10_000,
        "{accepted}, {refused}"
    );
}
