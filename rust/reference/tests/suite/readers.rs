//! The readers, the field of a package, and perkcheck's line.

use reference::package::{
    check_file_bytes, check_file_field, field_of, head_start, index_of, join, package_bytes,
    package_of, package_part, serial_bytes, tag, words, y_field, WrittenField, CHECK_FILE_TAGS,
    HEAD, PACKAGE_TAGS,
};
use reference::samples::{independent, Generator, Leaning, Sample};
use reference::vectors::Cases;
use reference::{
    check, field, field_range, judge_check_file, judge_package, perkcheck_line, read_check_file,
    read_package, Contents, Refusal, Refused, Verdict,
};
use std::collections::{BTreeMap, BTreeSet};

/// What a reader answers: n, m and the serial, or the number of the refusal,
/// the number of its place and the tag of the field; 0 for no field.
type Plain = Result<(usize, usize, u32), (u32, u32, u8)>;

/// A second reader for comparison: it walks along the bytes and judges each
/// field where it stands.
fn walk(bytes: &[u8], check_file: bool) -> Plain {
    let (mut n, mut m, mut d, mut serial) = (0, 0, 0, 0);
    let mut h = Vec::new();
    let mut at = 0;
    let mut next = Some(tag::SIZES);
    while let Some(stated) = next {
        let length = match stated {
            tag::SERIAL if bytes.get(at + 1..at + 3) == Some(&[0, 4]) => 4,
            tag::SIZES | tag::SERIAL => 2,
            tag::H => 2 * m * n,
            tag::X => 2 * n,
            tag::Y => 2 * m,
            tag::T => n * d,
            tag::A => 24 * d,
            tag::Q => 24 * n * d,
            tag::MASKS => 24 * d - 24,
            tag::DELTA => 24,
            _ => 24 * (n + m),
        };
        let head = bytes.get(at..at + 3).ok_or((9, 1, stated))?;
        if head[0] != stated {
            return Err((10, 2, stated));
        }
        if usize::from(head[1]) * 256 + usize::from(head[2]) != length {
            return Err((11, 3, stated));
        }
        let content = bytes.get(at + 3..at + 3 + length).ok_or((9, 4, stated))?;
        // A word is above 2047 when its high byte is above 7.
        let high = content.iter().step_by(2).any(|&byte| byte > 7);
        match stated {
            tag::SIZES => {
                (n, m) = (usize::from(content[0]), usize::from(content[1]));
                if !(2..65).contains(&n) {
                    return Err((1, 5, stated));
                }
                if m < 1 || m >= n {
                    return Err((2, 5, stated));
                }
                d = (1..7).find(|&d| 1 << d >= n).expect("n is at most 64");
            }
            tag::H | tag::X | tag::Y if high => return Err((4, 5, stated)),
            tag::Y if content.iter().all(|&byte| byte == 0) => return Err((14, 5, stated)),
            tag::H => h = words(content),
            tag::X | tag::Y => {}
            tag::SERIAL => match *content {
                [0, 0, _, _] => return Err((19, 5, stated)),
                [a, b, c, d] => serial = u32::from_be_bytes([a, b, c, d]),
                _ => serial = u32::from(content[0]) << 8 | u32::from(content[1]),
            },
            tag::T if content.iter().any(|&byte| byte > 1) => return Err((5, 5, stated)),
            tag::T => {}
            _ if high => return Err((6, 5, stated)),
            _ => {}
        }
        at += 3 + length;
        next = after(stated, check_file);
        if stated == tag::X && bytes.get(at) == Some(&tag::Y) {
            next = Some(tag::Y);
        }
        // The key ends here.
        let of_key = [tag::X, tag::Y].contains(&stated);
        if of_key && next == Some(tag::SERIAL) && !independent(&h, n) {
            return Err((15, 5, stated));
        }
    }
    if at < bytes.len() {
        return Err((12, 6, 0));
    }
    Ok((n, m, serial))
}

/// The tag that must come after another.
fn after(stated: u8, check_file: bool) -> Option<u8> {
    match stated {
        tag::SIZES => Some(tag::H),
        tag::H => Some(tag::X),
        tag::X | tag::Y => Some(tag::SERIAL),
        tag::SERIAL => Some(tag::T),
        tag::T => Some(tag::A),
        tag::A => check_file.then_some(tag::Q),
        tag::Q => Some(tag::MASKS),
        tag::MASKS => Some(tag::DELTA),
        tag::DELTA => Some(tag::ALPHA),
        _ => None,
    }
}

fn plain(answer: Result<Contents, Refused>) -> Plain {
    answer
        .map(|contents| (contents.n, contents.m, contents.serial))
        .map_err(|refused| {
            let place = 1 + refused.place as u32;
            (refused.refusal.number(), place, refused.tag.unwrap_or(0))
        })
}

/// Samples of some sizes with small files, some with a serial of two bytes and
/// some with one of four, with a target and without.
fn samples() -> Vec<Sample> {
    let mut generator = Generator::new(40);
    let mut samples = vec![Sample::key_a(), Sample::key_a_with_target()];
    for (n, m, serial) in [
        (2, 1, 40_000),
        (3, 2, 65_536),
        (4, 1, u32::MAX),
        (5, 2, 0),
        (9, 4, 305_419_896),
    ] {
        for of in [Sample::without_target, Sample::with_target] {
            let sample = of(n, m, &mut generator);
            samples.push(Sample { serial, ..sample });
        }
    }
    samples
}

/// Sets the content of the field of the serial, and its length.
fn set_serial(fields: &mut [WrittenField], content: &[u8]) {
    *field_of(fields, tag::SERIAL) = WrittenField::new(tag::SERIAL, content.to_vec());
}

/// Sets the content of the field y, and its length; it stands after x.
fn set_y(fields: &mut Vec<WrittenField>, content: Vec<u8>) {
    fields.retain(|field| field.tag != tag::Y);
    let place = index_of(fields, tag::X) + 1;
    fields.insert(place, WrittenField::new(tag::Y, content));
}

/// Sets the content of the field H to rows that lean on each other; the length
/// stays.
fn set_leaning(fields: &mut [WrittenField], n: usize, generator: &mut Generator) {
    let field = field_of(fields, tag::H);
    let mut h = words(&field.content);
    let ways: Vec<Leaning> = Leaning::of(h.len() / n).collect();
    ways[generator.below(ways.len())].make(&mut h, n, generator);
    field.content = h.iter().flat_map(|word| word.to_be_bytes()).collect();
}

/// Serials with their only form.
const SERIALS: [(u32, &[u8]); 12] = [
    (0, &[0, 0]),
    (1, &[0, 1]),
    (255, &[0, 255]),
    (256, &[1, 0]),
    (32_768, &[128, 0]),
    (65_535, &[255, 255]),
    (65_536, &[0, 1, 0, 0]),
    (65_537, &[0, 1, 0, 1]),
    (16_777_215, &[0, 255, 255, 255]),
    (16_777_216, &[1, 0, 0, 0]),
    (2_147_483_648, &[128, 0, 0, 0]),
    (4_294_967_295, &[255, 255, 255, 255]),
];

/// A random change of a file.
fn change(bytes: &mut Vec<u8>, starts: &[usize], generator: &mut Generator) {
    let length = bytes.len();
    if length == 0 {
        return;
    }
    let at = match generator.below(3) {
        // Near the head of a field.
        0 => (starts[generator.below(starts.len())] + generator.below(6)).min(length - 1),
        _ => generator.below(length),
    };
    match generator.below(8) {
        0 => bytes.truncate(at),
        1 => bytes.resize(length + 1 + generator.below(4), 0),
        2 => bytes.insert(at, generator.below(256) as u8),
        3 => drop(bytes.remove(at)),
        4 => bytes[at] = generator.below(256) as u8,
        5 => bytes[at] ^= 1,
        6 => bytes[at] = bytes[at].wrapping_add(1),
        _ => bytes[at] = 8,
    }
}

#[test]
fn both_readers_agree_with_a_second_reader() {
    let mut generator = Generator::new(41);
    let mut package_answers: BTreeMap<u32, usize> = BTreeMap::new();
    let mut check_answers = package_answers.clone();
    for sample in samples() {
        let fields = sample.fields().expect("the sample is solved");
        for round in 0..6_000 {
            let check_file = round % 2 == 1;
            let part = if check_file {
                &fields
            } else {
                package_part(&fields)
            };
            let mut part = part.to_vec();
            match generator.below(16) {
                0 => set_serial(&mut part, &[0, 0, generator.below(256) as u8, 9]),
                1 => set_serial(&mut part, &serial_bytes(generator.serial())),
                2 => set_y(&mut part, vec![0; 2 * sample.m]),
                3 => {
                    let y = (0..2 * sample.m).map(|_| generator.below(2) as u8);
                    set_y(&mut part, y.collect());
                }
                4 => set_leaning(&mut part, sample.n, &mut generator),
                5 => {
                    set_leaning(&mut part, sample.n, &mut generator);
                    set_y(&mut part, vec![0; 2 * sample.m]);
                }
                _ => {}
            }
            let starts: Vec<usize> = part.iter().map(|f| head_start(&part, f.tag)).collect();
            let mut bytes = join(&part);
            for _ in 0..generator.below(4) {
                change(&mut bytes, &starts, &mut generator);
            }
            assert_eq!(plain(judge_package(&bytes)), walk(&bytes, false));
            assert_eq!(plain(judge_check_file(&bytes)), walk(&bytes, true));
            let answer = walk(&bytes, check_file).map_or_else(|(number, ..)| number, |_| 0);
            let answers = if check_file {
                &mut check_answers
            } else {
                &mut package_answers
            };
            *answers.entry(answer).or_default() += 1;
        }
    }
    for answers in [package_answers, check_answers] {
        let numbers: BTreeSet<u32> = answers.keys().copied().collect();
        let stated = BTreeSet::from([0, 1, 2, 4, 5, 6, 9, 10, 11, 12, 14, 15, 19]);
        assert_eq!(numbers, stated, "{answers:?}");
        assert!(answers.values().all(|&count| count >= 30), "{answers:?}");
    }
}

#[test]
fn random_bytes_agree_with_a_second_reader() {
    let mut generator = Generator::new(42);
    for _ in 0..20_000 {
        let length = generator.below(40);
        let mut bytes: Vec<u8> = (0..length).map(|_| generator.below(256) as u8).collect();
        for (byte, right) in bytes.iter_mut().zip([1, 0, 2, 2, 1, 2, 0, 4]) {
            if generator.below(8) > 0 {
                *byte = right;
            }
        }
        assert_eq!(plain(judge_package(&bytes)), walk(&bytes, false));
        assert_eq!(plain(judge_check_file(&bytes)), walk(&bytes, true));
    }
}

#[test]
fn every_written_file_is_read_back() {
    for sample in samples() {
        let (t, a) = sample.proof().expect("the sample is solved");
        let Sample { n, m, serial, .. } = sample;
        let contents = Contents { n, m, serial };
        let package = package_bytes(sample.key(), serial, &t, &a);
        assert_eq!(read_package(&package), Ok(contents));
        let file = check_file_bytes(
            sample.key(),
            serial,
            &t,
            &a,
            &sample.q,
            &sample.masks,
            &sample.delta,
            &sample.alpha,
        );
        assert_eq!(file, sample.check_file().unwrap());
        assert_eq!(read_check_file(&file), Ok(contents));
        assert_eq!(check(&file), Ok((contents, Verdict::Accepted)));
    }
}

#[test]
fn a_serial_has_one_form() {
    let fields = Sample::key_a().fields().expect("key A is solved");
    let read = |content: &[u8]| {
        let mut fields = fields.clone();
        set_serial(&mut fields, content);
        let package = join(package_part(&fields));
        let answer = read_package(&package).map_err(Refusal::number);
        let of_file = read_check_file(&join(&fields)).map_err(Refusal::number);
        assert_eq!(answer, of_file);
        if answer.is_ok() {
            assert_eq!(field(&package, tag::SERIAL), content);
        }
        answer.map(|contents| contents.serial)
    };
    for (serial, content) in SERIALS {
        assert_eq!(serial_bytes(serial), content);
        assert_eq!(read(content), Ok(serial));
        let lower = [content[content.len() - 2], content[content.len() - 1]];
        assert_eq!(read(&[0, 0, lower[0], lower[1]]), Err(19));
    }
    for serial in 0..=65_535_u16 {
        let [high, low] = serial.to_be_bytes();
        assert_eq!(read(&[high, low]), Ok(serial.into()));
        assert_eq!(read(&[0, 0, high, low]), Err(19));
    }
}

#[test]
fn only_two_and_four_are_lengths_of_a_serial() {
    let fields = Sample::key_a().fields().expect("key A is solved");
    for content in [&[0, 7][..], &[0, 0, 0, 7], &[0, 1, 0, 7]] {
        for length in (0..=65_535).filter(|&length| length != 2 && length != 4) {
            let mut fields = package_part(&fields).to_vec();
            set_serial(&mut fields, content);
            field_of(&mut fields, tag::SERIAL).length = length;
            let answer = judge_package(&join(&fields));
            assert_eq!(plain(answer), Err((11, 3, tag::SERIAL)), "{length}");
        }
    }
    for length in [0, 1, 3, 5, 6, 8, 256, 258, 260, 512, 516, 1024, 1028] {
        let mut fields = fields.clone();
        set_serial(&mut fields, &vec![1; length]);
        assert_eq!(
            plain(judge_check_file(&join(&fields))),
            Err((11, 3, tag::SERIAL))
        );
    }
}

/// y: present where the byte after x is 04, and not all zero then.
#[test]
fn a_target_is_there_or_not() {
    let sample = Sample::with_target(5, 3, &mut Generator::new(44));
    let fields = sample.fields().expect("the sample is solved");
    let read = |content: &[u8]| {
        let mut fields = fields.clone();
        set_y(&mut fields, content.to_vec());
        let package = join(package_part(&fields));
        let answer = plain(judge_package(&package));
        assert_eq!(answer, plain(judge_check_file(&join(&fields))));
        if answer.is_ok() {
            assert_eq!(field(&package, tag::Y), content);
        }
        answer.map(|_| ())
    };
    // One bit of six bytes.
    for bit in 0..48 {
        let mut content = [0; 6];
        content[bit / 8] = 1 << (bit % 8);
        let above = bit / 8 % 2 == 0 && bit % 8 > 2;
        let stated = if above { Err((4, 5, tag::Y)) } else { Ok(()) };
        assert_eq!(read(&content), stated, "bit {bit}");
    }
    assert_eq!(read(&[0; 6]), Err((14, 5, tag::Y)));
    // The lengths 0, 2n and others.
    for length in (0..20).filter(|&length| length != 6) {
        assert_eq!(read(&vec![0; length]), Err((11, 3, tag::Y)), "{length}");
        assert_eq!(read(&vec![1; length]), Err((11, 3, tag::Y)), "{length}");
    }

    let [package, whole] = [package_part(&fields), &fields].map(join);
    let start = head_start(&fields, tag::Y);
    for length in start + 1..start + 9 {
        let stated = if length < start + 3 { 1 } else { 4 };
        for part in [&package[..length], &whole[..length]] {
            assert_eq!(plain(judge_package(part)), Err((9, stated, tag::Y)));
            assert_eq!(plain(judge_check_file(part)), Err((9, stated, tag::Y)));
        }
    }
    for length in [start, start + 9] {
        let answer = judge_package(&package[..length]);
        assert_eq!(plain(answer), Err((9, 1, tag::SERIAL)));
    }

    // In every other place, alone and besides.
    let y = fields[index_of(&fields, tag::Y)].clone();
    let mut rest = fields.clone();
    rest.retain(|field| field.tag != tag::Y);
    assert_eq!(field(&join(package_part(&rest)), tag::Y), []);
    for list in [&rest, &fields] {
        let after_x = index_of(list, tag::X) + 1;
        for place in (0..=list.len()).filter(|&place| place != after_x) {
            let mut other = list.clone();
            other.insert(place, y.clone());
            let number = if place < list.len() { 10 } else { 12 };
            let answer = judge_check_file(&join(&other)).map_err(|refused| refused.refusal);
            assert_eq!(answer.map_err(Refusal::number), Err(number), "{place}");
        }
    }
    assert!(perkcheck_line(&join(&fields)).ends_with(" accepted\n"));
    assert!(perkcheck_line(&join(&rest)).ends_with(" rejected\n"));
}

/// 15 where the key ends: after x, or after y where the byte after x is 04.
#[test]
fn leaning_rows_are_refused_where_the_key_ends() {
    let mut generator = Generator::new(45);
    let mut ways = 0;
    for (n, m) in [(2, 1), (3, 2), (5, 3), (9, 8)] {
        for (leaning, target) in Leaning::of(m).flat_map(|one| [(one, false), (one, true)]) {
            let sample = Sample::solving(n, m, &mut generator).leaning(leaning, &mut generator);
            let (t, a) = sample.unjudged_proof().expect("words up to 2047");
            let mut fields = sample.fields_with(&t, &a);
            fields.retain(|field| field.tag != tag::Y);
            let last = if target {
                fields.insert(index_of(&fields, tag::X) + 1, y_field(&generator.target(m)));
                tag::Y
            } else {
                tag::X
            };
            let file = join(&fields);
            let answers = |bytes: &[u8]| [judge_package(bytes), judge_check_file(bytes)].map(plain);
            let refused = |bytes: &[u8], number, place, tag| {
                let stated = Err((number, place, tag));
                assert_eq!(
                    answers(bytes),
                    [stated, stated],
                    "{leaning:?}, {bytes:02x?}"
                );
            };
            let leans = |bytes: &[u8]| refused(bytes, 15, 5, last);
            leans(&file);
            leans(&join(package_part(&fields)));
            assert_eq!(perkcheck_line(&file), "refused 15\n");
            assert_eq!(field_range(&join(package_part(&fields)), tag::X), 0..0);
            // The bytes end at the key or later, other than by a lone 04.
            let end = head_start(&fields, tag::SERIAL);
            for length in end..file.len() {
                leans(&file[..length]);
            }
            for byte in (0..=255).filter(|&byte| target || byte != tag::Y) {
                for rest in [&[byte][..], &[byte, 0], &[byte, 0, 2], &[byte, 255, 255, 0]] {
                    leans(&[&file[..end], rest].concat());
                }
            }
            // The bytes end before: 9 of the field that is cut, but for the end of x.
            let after_x = head_start(&fields, tag::X) + HEAD + 2 * n;
            for length in (0..end).filter(|&length| length != after_x) {
                let [Err((9, _, tag)), _] = answers(&file[..length]) else {
                    panic!("{leaning:?}, {length} bytes");
                };
                assert!(head_start(&fields, tag) <= length);
            }
            let key = &file[..after_x];
            refused(key, 15, 5, tag::X);
            // Field 04 before the rows: its head, length, content and values.
            let with = |rest: &[u8]| [key, rest].concat();
            let length = [0, 2 * m as u8];
            let zeros = vec![0; 2 * m - 1];
            refused(&with(&[4]), 9, 1, tag::Y);
            refused(&with(&[4, 0]), 9, 1, tag::Y);
            refused(&with(&[4, 0, 0]), 11, 3, tag::Y);
            refused(
                &with(&[&[4, 0, 2 * n as u8][..], &[0; 9]].concat()),
                11,
                3,
                tag::Y,
            );
            refused(&with(&[&[4][..], &length, &zeros].concat()), 9, 4, tag::Y);
            refused(
                &with(&[&[4][..], &length, &zeros, &[0]].concat()),
                14,
                5,
                tag::Y,
            );
            refused(
                &with(&[&[4][..], &length, &[8], &zeros].concat()),
                4,
                5,
                tag::Y,
            );
            refused(
                &with(&[&[4][..], &length, &zeros, &[1]].concat()),
                15,
                5,
                tag::Y,
            );
            // Another tag there is none of the key.
            refused(
                &with(&[&[0x84][..], &length, &zeros].concat()),
                15,
                5,
                tag::X,
            );
            ways += 1;
        }
    }
    assert_eq!(ways, 2 * (2 + 3 + 4 + 4));
}

#[test]
fn fields_of_packages() {
    for sample in samples() {
        let fields = sample.fields().expect("the sample is solved");
        let package = join(package_part(&fields));
        let mut end = 0;
        let mut found = 0;
        for tag in 0..=255 {
            let range = field_range(&package, tag);
            let part = field(&package, tag);
            assert!(std::ptr::eq(part, &package[range.clone()]));
            if PACKAGE_TAGS.contains(&tag) && (tag != tag::Y || sample.has_target()) {
                // The parts follow one another, with the heads between them.
                assert_eq!(range.start, end + 3);
                assert_eq!(package[end], tag);
                assert_eq!(part, fields[index_of(&fields, tag)].content);
                end = range.end;
                found += 1;
            } else {
                assert_eq!(range, 0..0);
            }
        }
        let absent = usize::from(!sample.has_target());
        assert_eq!((found, end), (PACKAGE_TAGS.len() - absent, package.len()));
    }
}

#[test]
fn fields_of_refused_packages_are_empty() {
    for sample in samples() {
        let fields = sample.fields().expect("the sample is solved");
        let package = join(package_part(&fields));
        let mut refused = vec![Vec::new(), join(&fields)];
        refused.extend((0..package.len()).map(|length| package[..length].to_vec()));
        refused.push([package.clone(), vec![0]].concat());
        let mut large = package.clone();
        large[head_start(&fields, tag::H) + HEAD] = 8;
        refused.push(large);
        for bytes in refused {
            assert!(read_package(&bytes).is_err());
            for tag in 0..=255 {
                assert_eq!(field_range(&bytes, tag), 0..0);
                assert!(std::ptr::eq(field(&bytes, tag), &bytes[0..0]));
            }
        }
    }
}

#[test]
fn fields_of_check_files() {
    for sample in samples() {
        let fields = sample.fields().expect("the sample is solved");
        let file = join(&fields);
        let tags: Vec<u8> = fields.iter().map(|field| field.tag).collect();
        let written = |tag: &u8| *tag != tag::Y || sample.has_target();
        assert!(CHECK_FILE_TAGS.into_iter().filter(written).eq(tags.clone()));
        for written in &fields {
            assert_eq!(check_file_field(&file, written.tag), written.content);
        }
        let absent = (0..=255).filter(|tag| !tags.contains(tag));
        for tag in absent {
            assert_eq!(check_file_field(&file, tag), []);
        }
        let package = join(package_part(&fields));
        assert_eq!(check_file_field(&package, tag::H), []);
        assert_eq!(package_of(&file), package);
        assert_eq!(package_of(&package), []);
    }
}

#[test]
fn the_largest_file() {
    let mut generator = Generator::new(43);
    let without = Sample::without_target(64, 63, &mut generator);
    let with = Sample::with_target(64, 63, &mut generator);
    for (sample, serial, package, whole) in [
        (&without, 65_535, 8_742, 21_162),
        (&without, u32::MAX, 8_744, 21_164),
        (&with, 65_535, 8_871, 21_291),
        (&with, u32::MAX, 8_873, 21_293),
    ] {
        let sample = Sample {
            serial,
            ..sample.clone()
        };
        let fields = sample.fields().expect("the sample is solved");
        assert_eq!(join(package_part(&fields)).len(), package);
        let file = join(&fields);
        assert_eq!(file.len(), whole);
        let line = format!("serial {serial} n 64 m 63 accepted\n");
        assert_eq!(perkcheck_line(&file), line);
    }
}

#[test]
fn the_line_reads_32768_bytes() {
    // Bytes after the limit are not read: the lines are those of the part.
    let file = Sample::key_a().check_file().unwrap();
    for length in [32_767, 32_768, 32_769, 70_000] {
        let mut bytes = file.clone();
        bytes.resize(length, 0x77);
        assert_eq!(perkcheck_line(&bytes), "refused 12\n");
        assert_eq!(perkcheck_line(&bytes), perkcheck_line(&bytes[..32_767]));
    }
}

#[test]
fn the_cases_have_every_answer() {
    // Each case compares its stated line with the one that is printed.
    let cases = Cases::all();
    let mut answers: BTreeMap<String, usize> = BTreeMap::new();
    for case in cases.list() {
        let words: Vec<&str> = case.line.trim_end().split(' ').collect();
        let answer = match words[..] {
            ["refused", number] => number.to_string(),
            ["serial", _, "n", _, "m", _, verdict] => verdict.to_string(),
            _ => panic!("{}", case.line),
        };
        *answers.entry(answer).or_default() += 1;
    }
    for answer in [
        "1", "2", "4", "5", "6", "9", "10", "11", "12", "14", "15", "19",
    ] {
        assert!(answers[answer] >= 5, "{answer}: {answers:?}");
    }
    assert!(answers["accepted"] >= 5 && answers["rejected"] >= 5);
    assert_eq!(answers.len(), 14, "{answers:?}");
    let cuts = cases
        .list()
        .iter()
        .filter(|case| case.name.starts_with("cut_"));
    assert_eq!(cuts.count(), 212);
    // The longest file that is accepted.
    let accepted = cases.list().iter();
    let accepted = accepted.filter(|case| case.line.ends_with(" accepted\n"));
    let longest = accepted
        .max_by_key(|case| case.bytes.len())
        .expect("a case");
    assert_eq!(
        (&longest.name[..], longest.bytes.len()),
        ("largest", 21_293)
    );
}
