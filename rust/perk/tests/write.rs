//! Writing packages: the bytes that the reference wrote, those worked out by hand
//! and, for other keys, by the table of fields; outputs that are too short, exact
//! and longer; and what is read back. tests/refusals.rs has the refusals.

mod common;

use common::{words, Case, BYTE};
use perk::Refusal::ShortOutput;
use perk::{field, read_package, write_package, Contents, Key, Refusal, LARGEST_PACKAGE_BYTES};
use std::{fs, str};

/// The check file of key A, whose first 56 bytes are the package with the serial 7.
const KEY_A: &[u8] = include_bytes!("../../../vectors/key_a.check");

/// Keys with their inputs and check files, in text.
const TEXTS: [&str; 7] = [
    include_str!("../../../vectors/n02_m01.txt"),
    include_str!("../../../vectors/n03_m01.txt"),
    include_str!("../../../vectors/n05_m02.txt"),
    include_str!("../../../vectors/n08_m03.txt"),
    include_str!("../../../vectors/n17_m08.txt"),
    include_str!("../../../vectors/n33_m16.txt"),
    include_str!("../../../vectors/n64_m27.txt"),
];

/// The cases of perkcheck: check files in `data`, their names in `args`, and what
/// perkcheck prints for each in `stdout`.
const CASES: &str = concat!(env!("CARGO_MANIFEST_DIR"), "/../../crates/perkcheck_cases");

/// The answer for an output of this length, filled with this byte, and the output.
fn written(case: &Case, length: usize, fill: u8) -> (Result<usize, Refusal>, Vec<u8>) {
    let mut case = Case {
        package: vec![fill; length],
        ..case.clone()
    };
    (case.write_package(), case.package)
}

/// Exactly these bytes are written to an output as long as they are, or longer; an
/// output that is shorter is refused and keeps its content.
fn writes(case: &Case, package: &[u8]) {
    let exact = package.len();
    for fill in [BYTE, !BYTE] {
        for more in [0, 1, 2, 24, LARGEST_PACKAGE_BYTES] {
            let (answer, out) = written(case, exact + more, fill);
            assert_eq!(answer, Ok(exact));
            assert_eq!(out[..exact], *package);
            assert_eq!(out[exact..], vec![fill; more]);
        }
        for length in [exact - 1, exact - 2, exact - 24, exact / 2, 5, 1, 0] {
            let (answer, out) = written(case, length, fill);
            assert_eq!(answer, Err(ShortOutput));
            assert_eq!(out, vec![fill; length]);
        }
    }
}

/// The bytes of words, highest first.
fn bytes(words: &[u16]) -> Vec<u8> {
    words.iter().flat_map(|word| word.to_be_bytes()).collect()
}

/// The fields of a package, tag and content, as its table states them.
fn fields(case: &Case) -> Vec<(u8, Vec<u8>)> {
    let mut fields = vec![
        (0x01, vec![case.n as u8, case.m as u8]),
        (0x02, bytes(&case.h)),
        (0x03, bytes(&case.x)),
    ];
    if case.y.iter().any(|element| *element != 0) {
        fields.push((0x04, bytes(&case.y)));
    }
    let serial = case.serial.to_be_bytes();
    let unused = if case.serial < 65536 { 2 } else { 0 };
    fields.push((0x05, serial[unused..].to_vec()));
    fields.push((0x06, case.t.clone()));
    fields.push((0x07, bytes(&case.a)));
    fields
}

/// The package of these fields.
fn joined(fields: &[(u8, Vec<u8>)]) -> Vec<u8> {
    let fields = fields.iter().flat_map(|(tag, content)| {
        let length = (content.len() as u16).to_be_bytes();
        [&[*tag][..], &length, content].concat()
    });
    fields.collect()
}

/// The package of these fields is written, and read back as them.
fn writes_fields(case: &Case) {
    let fields = fields(case);
    let package = joined(&fields);
    writes(case, &package);
    let (_, written) = written(case, package.len(), BYTE);
    let contents = Contents {
        n: case.n,
        m: case.m,
        serial: case.serial,
    };
    assert_eq!(read_package(&written), Ok(contents));
    for tag in (0x00..=0x15).chain([0xFF]) {
        let stated = fields.iter().find(|(other, _)| *other == tag);
        let content = stated.map_or(&[][..], |(_, content)| content);
        assert_eq!(field(&written, tag), content);
    }
}

/// The part of a check file before its field 11.
fn package_in(file: &[u8]) -> &[u8] {
    let mut at = 0;
    while file[at] != 0x11 {
        at += 3 + usize::from(u16::from_be_bytes([file[at + 1], file[at + 2]]));
    }
    &file[..at]
}

#[test]
fn key_a() {
    writes(&Case::key_a(), &KEY_A[..56]);
    writes_fields(&Case::key_a());
}

// Every shorter output is refused, and every longer one keeps its last bytes.
#[test]
fn every_length_of_the_output() {
    for length in 0..200 {
        let (answer, out) = written(&Case::key_a(), length, BYTE);
        if length < 56 {
            assert_eq!(answer, Err(ShortOutput), "{length}");
            assert_eq!(out, vec![BYTE; length]);
        } else {
            assert_eq!(answer, Ok(56), "{length}");
            assert_eq!(out[..56], KEY_A[..56]);
            assert_eq!(out[56..], vec![BYTE; length - 56]);
        }
    }
}

#[test]
fn nothing_beside_the_output_is_written() {
    let mut case = Case::key_a();
    let mut buffer = [BYTE; 3 * 56];
    let key = Key {
        n: 2,
        m: 1,
        h: &case.h,
        x: &case.x,
        y: &case.y,
    };
    let answer = write_package(key, 7, &case.t, &case.a, &mut buffer[56..112]);
    assert_eq!(answer, Ok(56));
    assert_eq!(buffer[..56], [BYTE; 56]);
    assert_eq!(buffer[56..112], KEY_A[..56]);
    assert_eq!(buffer[112..], [BYTE; 56]);
    // h and x may be the same memory
    let key = Key { x: &case.h, ..key };
    let answer = write_package(key, 7, &case.t, &case.a, &mut buffer[56..112]);
    assert_eq!(answer, Ok(56));
    case.x = case.h.clone();
    assert_eq!(buffer[56..112], joined(&fields(&case)));
}

// Two bytes up to 65535, four from 65536 on.
#[test]
fn serials() {
    for (serial, text) in [
        (0, &[5, 0, 2, 0, 0][..]),
        (1, &[5, 0, 2, 0, 1]),
        (255, &[5, 0, 2, 0, 255]),
        (256, &[5, 0, 2, 1, 0]),
        (32768, &[5, 0, 2, 128, 0]),
        (65535, &[5, 0, 2, 255, 255]),
        (65536, &[5, 0, 4, 0, 1, 0, 0]),
        (65537, &[5, 0, 4, 0, 1, 0, 1]),
        (16777215, &[5, 0, 4, 0, 255, 255, 255]),
        (16777216, &[5, 0, 4, 1, 0, 0, 0]),
        (16909060, &[5, 0, 4, 1, 2, 3, 4]),
        (2147483648, &[5, 0, 4, 128, 0, 0, 0]),
        (4294967295, &[5, 0, 4, 255, 255, 255, 255]),
    ] {
        // x ends at 19, and t starts at 24
        let package = [&KEY_A[..19], text, &KEY_A[24..56]].concat();
        let case = Case {
            serial,
            ..Case::key_a()
        };
        writes(&case, &package);
        writes_fields(&case);
        writes_fields(&Case {
            serial,
            ..Case::key_a_with_target()
        });
    }
}

// y = 5 has a field after that of x, and y = 0 has none.
#[test]
fn one_element_of_a_target() {
    let rest = [&[5, 0, 2, 0, 7, 6, 0, 2, 0, 0][..], &KEY_A[29..56]].concat();
    let package = [&KEY_A[..19], &[4, 0, 2, 0, 5], &rest].concat();
    writes(&Case::key_a_with_target(), &package);
    let file = fs::read(format!("{CASES}/data/target")).expect("a case");
    assert_eq!(package_in(&file), package);
    writes_fields(&Case::key_a_with_target());
    let without = Case {
        y: vec![0],
        ..Case::key_a_with_target()
    };
    writes(&without, &[&KEY_A[..19], &rest].concat());
    for y in [1, 255, 256, 1024, 2047] {
        let case = Case {
            y: vec![y],
            ..Case::key_a()
        };
        let target = [4, 0, 2, (y >> 8) as u8, (y & 255) as u8];
        let package = [&KEY_A[..19], &target, &KEY_A[19..56]].concat();
        writes(&case, &package);
    }
}

/// n = 3, m = 2 with unit rows, x = (0 256 2) and this y.
fn two_rows(y: [u16; 2]) -> Case {
    Case {
        n: 3,
        m: 2,
        h: vec![1, 0, 0, 0, 1, 0],
        x: vec![0, 256, 2],
        y: y.to_vec(),
        t: vec![1, 0, 0, 0, 0, 1],
        a: words(&[2047, 256]),
        serial: 7,
        ..Case::default()
    }
}

// y is left out where both elements are zero, and only there.
#[test]
fn two_elements_of_a_target() {
    for (y, target) in [
        ([0, 0], &[][..]),
        ([0, 256], &[4, 0, 4, 0, 0, 1, 0]),
        ([256, 0], &[4, 0, 4, 1, 0, 0, 0]),
        ([0, 1], &[4, 0, 4, 0, 0, 0, 1]),
        ([1, 0], &[4, 0, 4, 0, 1, 0, 0]),
        ([2047, 2047], &[4, 0, 4, 7, 255, 7, 255]),
    ] {
        let a = bytes(&words(&[2047, 256]));
        let package = [
            &[1, 0, 2, 3, 2][..],
            &[2, 0, 12, 0, 1, 0, 0, 0, 0, 0, 0, 0, 1, 0, 0],
            &[3, 0, 6, 0, 0, 1, 0, 0, 2],
            target,
            &[5, 0, 2, 0, 7],
            &[6, 0, 6, 1, 0, 0, 0, 0, 1],
            &[7, 0, 48],
            &a,
        ]
        .concat();
        writes(&two_rows(y), &package);
        writes_fields(&two_rows(y));
    }
}

// It does not verify: t may be any bits, and a any coordinates within the limit.
#[test]
fn any_witness_and_any_proof() {
    for t in [[0, 0], [0, 1], [1, 0], [1, 1]] {
        for a in [vec![0; 12], vec![2047; 12], (0..12).collect(), words(&[4])] {
            writes_fields(&Case {
                t: t.to_vec(),
                a,
                ..Case::key_a()
            });
        }
    }
    // words at the limit in the key
    writes_fields(&Case {
        h: vec![2047; 2],
        x: vec![2047; 2],
        y: vec![2047],
        a: vec![2047; 12],
        ..Case::key_a()
    });
}

#[test]
fn a_key_with_masks() {
    writes_fields(&Case::three());
    writes_fields(&Case::three_with_target());
    // what prove writes goes into the package
    for mut case in [Case::three(), Case::three_with_target()] {
        assert_eq!(case.prove(), Ok(()));
        let package = joined(&fields(&case));
        (case.t, case.a) = (case.t_out.clone(), case.a_out.clone());
        writes(&case, &package);
    }
}

/// A key of these sizes with unit rows, and x, y, t and a of different numbers.
fn of_sizes(n: usize, m: usize, target: bool, serial: u32) -> Case {
    let d = perk::digits(n);
    let mut h = vec![0; m * n];
    h.iter_mut().step_by(n + 1).for_each(|entry| *entry = 1);
    let numbers = |count: usize, factor: usize| -> Vec<u16> {
        let numbers = (0..count).map(|i| ((i + n) * factor % 2048) as u16);
        numbers.collect()
    };
    Case {
        n,
        m,
        h,
        x: numbers(n, 37),
        y: vec![if target { 2047 } else { 0 }; m],
        t: numbers(n * d, 5)
            .iter()
            .map(|bit| (bit & 1) as u8)
            .collect(),
        a: numbers(12 * d, 91),
        serial,
        ..Case::default()
    }
}

#[test]
fn every_n() {
    for n in 2..=64 {
        let mut sizes = vec![1, n / 2, n - 1];
        sizes.dedup();
        for m in sizes {
            for serial in [65535, 65536] {
                writes_fields(&of_sizes(n, m, false, serial));
                writes_fields(&of_sizes(n, m, true, serial));
            }
        }
    }
}

#[test]
fn the_largest_package() {
    let case = of_sizes(64, 63, true, u32::MAX);
    let package = joined(&fields(&case));
    assert_eq!(package.len(), LARGEST_PACKAGE_BYTES);
    writes(&case, &package);
    let file = fs::read(format!("{CASES}/data/largest")).expect("a case");
    assert_eq!(package_in(&file).len(), LARGEST_PACKAGE_BYTES);
}

/// The values of the lines with this name in a text of vectors, after the words
/// that come first: the number of the line, or none.
fn values<'a>(text: &'a str, name: &'a str, first: usize) -> impl Iterator<Item = &'a str> {
    let lines = text.lines();
    let lines = lines.filter_map(move |line| line.strip_prefix(name)?.strip_prefix(' '));
    lines.flat_map(move |line| line.split(' ').skip(first))
}

/// The one value of a name, in decimal digits.
fn number(text: &str, name: &str) -> u32 {
    let mut numbers = values(text, name, 0).map(|value| value.parse().expect("a number"));
    numbers.next().expect("a line")
}

/// Numbers of so many hexadecimal digits each.
fn hexadecimal<'a>(values: impl Iterator<Item = &'a str>, digits: usize) -> Vec<u16> {
    let numbers = values.flat_map(|value| value.as_bytes().chunks(digits));
    let numbers = numbers.map(|number| str::from_utf8(number).expect("digits"));
    let numbers = numbers.map(|number| u16::from_str_radix(number, 16).expect("a number"));
    numbers.collect()
}

// The key, t, a and the serial of each text make the package in its check file.
#[test]
fn packages_of_the_vectors() {
    for text in TEXTS {
        let t = values(text, "t", 1).map(|bit| bit.parse().expect("a bit"));
        let case = Case {
            n: number(text, "n") as usize,
            m: number(text, "m") as usize,
            h: hexadecimal(values(text, "h", 1), 4),
            x: hexadecimal(values(text, "x", 0), 4),
            y: hexadecimal(values(text, "y", 0), 4),
            t: t.collect(),
            a: hexadecimal(values(text, "a", 1), 4),
            serial: number(text, "serial"),
            ..Case::default()
        };
        let file = hexadecimal(values(text, "file", 0), 2);
        let file: Vec<u8> = file.iter().map(|byte| *byte as u8).collect();
        writes(&case, package_in(&file));
        writes_fields(&case);
    }
}

/// The words in the content of a field.
fn words_in(package: &[u8], tag: u8) -> Vec<u16> {
    let pairs = field(package, tag).chunks(2);
    pairs
        .map(|pair| u16::from_be_bytes([pair[0], pair[1]]))
        .collect()
}

// The fields of each file that the reference accepts or rejects make its package again.
#[test]
fn packages_are_written_again() {
    let read = |name: &str| fs::read_to_string(format!("{CASES}/{name}")).expect("a text");
    let (names, answers) = (read("args"), read("stdout"));
    let mut count = 0;
    for (name, answer) in names.lines().zip(answers.lines()) {
        if answer.starts_with("refused") {
            continue;
        }
        let file = fs::read(format!("{CASES}/data/{name}")).expect("a case");
        let package = package_in(&file);
        let contents = read_package(package).expect(name);
        let y = match words_in(package, 0x04) {
            absent if absent.is_empty() => vec![0; contents.m],
            y => y,
        };
        let case = Case {
            n: contents.n,
            m: contents.m,
            h: words_in(package, 0x02),
            x: words_in(package, 0x03),
            y,
            t: field(package, 0x06).to_vec(),
            a: words_in(package, 0x07),
            serial: contents.serial,
            ..Case::default()
        };
        writes(&case, package);
        count += 1;
    }
    assert!(count > 100, "{count} files");
}
