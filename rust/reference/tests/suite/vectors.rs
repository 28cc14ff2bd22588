//! The files of `vectors/` and the cases of `perkcheck`: they are the ones
//! that the program writes, and they hold what the entries answer.

use crate::large;
use crate::quick_look::by_sets;
use reference::large_field::COORDINATES;
use reference::package::{tag, words, CHECK_FILE_TAGS};
use reference::samples::{honest_masks, honest_q, independent, joined_rows, solved, Sample};
use reference::vectors::{all, bundle, quick_look, rank, text_name, write, Cases, SIZES, TARGETS};
use reference::{
    judge_check_file, perkcheck_line, read_package, BundleContents, Contents, Joined, Key, Refusal,
    Refused,
};
use std::collections::{BTreeMap, BTreeSet};
use std::fs;
use std::path::{Path, PathBuf};

fn directory() -> PathBuf {
    Path::new(env!("CARGO_MANIFEST_DIR")).join("../../vectors")
}

/// The cases stand with the program that runs them, beside its code.
fn program(name: &str) -> PathBuf {
    let crates = Path::new(env!("CARGO_MANIFEST_DIR")).join("../../crates");
    crates.join(name)
}

/// The files below a directory, by their paths from there.
fn stored(directory: &Path, prefix: &str, files: &mut BTreeMap<String, Vec<u8>>) {
    for entry in fs::read_dir(directory).expect("vectors/ is there") {
        let path = entry.expect("an entry of vectors/").path();
        let name = path.file_name().unwrap().to_str().unwrap();
        let name = format!("{prefix}{name}");
        if path.is_dir() {
            stored(&path, &format!("{name}/"), files);
        } else {
            files.insert(name, fs::read(&path).expect("a readable file"));
        }
    }
}

#[test]
fn the_stored_files_are_the_written_ones() {
    let mut files = BTreeMap::new();
    stored(&directory(), "", &mut files);
    let data = program("perkcheck_cases").join("data");
    stored(&data, "perkcheck_cases/data/", &mut files);
    for (crate_name, name) in [
        ("perkcheck_cases", "args"),
        ("perkcheck_cases", "stdout"),
        ("field_cases", "stdin"),
        ("field_cases", "stdout"),
    ] {
        let bytes = fs::read(program(crate_name).join(name)).expect("a readable file");
        files.insert(format!("{crate_name}/{name}"), bytes);
    }
    let written: BTreeMap<String, Vec<u8>> = all().into_iter().collect();
    let names: Vec<&String> = files.keys().collect();
    assert_eq!(names, written.keys().collect::<Vec<_>>());
    for (name, bytes) in &written {
        assert!(files[name] == *bytes, "{name} differs");
    }
    let total: usize = written.values().map(Vec::len).sum();
    assert!(total < 2_200_000, "{total} bytes");
}

/// The lines of a text file: for each name, the words of its lines.
fn parse(text: &str) -> BTreeMap<String, Vec<Vec<String>>> {
    let mut lines: BTreeMap<String, Vec<Vec<String>>> = BTreeMap::new();
    for line in text.lines() {
        assert!(line.len() < 512, "a line of {} bytes", line.len());
        let mut words = line.split(' ').map(str::to_string);
        let name = words.next().expect("a name");
        lines.entry(name).or_default().push(words.collect());
    }
    lines
}

struct Text(BTreeMap<String, Vec<Vec<String>>>);

/// A stored text file.
fn stored_text(name: &str) -> String {
    fs::read_to_string(directory().join(name)).expect("the text file is there")
}

impl Text {
    /// The stored file of a size.
    fn of(n: usize, m: usize) -> Text {
        Text(parse(&stored_text(&text_name(n, m))))
    }

    fn lines(&self, name: &str) -> &[Vec<String>] {
        self.0.get(name).map_or(&[], |lines| lines)
    }

    fn number(&self, name: &str) -> usize {
        self.lines(name)[0][0].parse().expect("a decimal number")
    }

    /// The values of the lines with numbers 0, 1, 2 and so on.
    fn rows(&self, name: &str) -> Vec<String> {
        let mut values = Vec::new();
        for (index, line) in self.lines(name).iter().enumerate() {
            assert_eq!(line[0], index.to_string());
            values.extend(line[1..].iter().cloned());
        }
        values
    }

    fn bytes(values: &[String]) -> Vec<u8> {
        values.iter().map(|value| value.parse().unwrap()).collect()
    }

    fn words(values: &[String]) -> Vec<u16> {
        let digits = values.concat();
        (0..digits.len() / 4)
            .map(|i| u16::from_str_radix(&digits[4 * i..4 * i + 4], 16).unwrap())
            .collect()
    }

    fn file(&self, name: &str) -> Vec<u8> {
        let digits: String = self.lines(name).iter().map(|line| line.concat()).collect();
        (0..digits.len() / 2)
            .map(|i| u8::from_str_radix(&digits[2 * i..2 * i + 2], 16).unwrap())
            .collect()
    }

    fn sample(&self) -> Sample {
        Sample {
            n: self.number("n"),
            m: self.number("m"),
            d: self.number("d"),
            h: Text::words(&self.rows("h")),
            x: Text::words(&self.lines("x")[0]),
            y: Text::words(&self.lines("y")[0]),
            positions: Text::bytes(&self.lines("positions")[0]),
            u: Text::bytes(&self.rows("u")),
            v: Text::words(&self.rows("v")),
            r: Text::words(&self.rows("r")),
            s: Text::words(&self.rows("s")),
            alpha: Text::words(&self.rows("alpha")),
            delta: Text::words(&self.lines("delta")[0]),
            q: Text::words(&self.rows("q")),
            masks: Text::words(&self.rows("mask")),
            serial: self.number("serial") as u32,
        }
    }

    /// Compares t, polynomials and values with what the entries write.
    fn compare(&self, sample: &Sample, prefix: &str) {
        let (t, polynomials) = crate::constraints_of(sample);
        assert_eq!(Text::bytes(&self.rows(&format!("{prefix}t"))), t);
        let words = Text::words(&self.rows(&format!("{prefix}polynomial")));
        assert_eq!(large(&words), polynomials.concat());
        let words = Text::words(&self.rows(&format!("{prefix}value")));
        assert_eq!(large(&words), crate::values_of(sample, &t));
    }
}

impl Text {
    /// Compares rank and matrix with what the entry rank answers and writes.
    fn compare_rank(&self, sample: &Sample, prefix: &str) {
        let rank = self.number(&format!("{prefix}rank"));
        let matrix = Text::words(&self.rows(&format!("{prefix}matrix")));
        assert_eq!(joined_rows(&sample.h, sample.n), rank);
        assert_eq!(sample.rank(), Ok((rank, matrix)));
    }
}

/// The kinds of parts, in the order of the file `bundle.txt`, which has all of them.
const KINDS: [&str; 6] = [
    "case",
    "refused",
    "join",
    "join_refused",
    "look",
    "look_refused",
];

/// The place of the kind of a part among all kinds, by its first line.
fn kind_of(line: &str) -> Option<usize> {
    let first = line.split(' ').next();
    KINDS.iter().position(|&kind| first == Some(kind))
}

/// The parts of a file, each from the line with its kind and its name to the next
/// such line, with that line.
fn parts(file: &str) -> Vec<(String, Text)> {
    let text = stored_text(file);
    let mut parts: Vec<String> = Vec::new();
    for line in text.lines() {
        if kind_of(line).is_some() {
            parts.push(String::new());
        }
        let part = parts.last_mut().expect("the file begins with a part");
        *part += &format!("{line}\n");
    }
    let named = |part: String| {
        let name = part.lines().next().expect("a line").to_string();
        (name, Text(parse(&part)))
    };
    parts.into_iter().map(named).collect()
}

#[test]
fn the_file_of_ranks_holds_the_answers() {
    let (mut cases, mut short) = (0, 0);
    let mut refused: BTreeMap<u32, usize> = BTreeMap::new();
    let mut names = Vec::new();
    for (name, text) in parts(rank::NAME) {
        let (n, m) = (text.number("n"), text.number("m"));
        let before = |length: usize| vec![0xabcd; length];
        if name.starts_with("case ") {
            let h = Text::words(&text.rows("h"));
            let matrix = Text::words(&text.rows("matrix"));
            assert_eq!((h.len(), matrix.len()), (m * n, m * n), "{name}");
            let mut written = before(m * n);
            let rank = reference::rank(n, m, &h, &mut written);
            assert_eq!(rank, Ok(text.number("rank")), "{name}");
            assert_eq!(written, matrix, "{name}");
            assert_eq!(rank, Ok(joined_rows(&h, n)), "{name}");
            cases += 1;
            short += usize::from(rank != Ok(m));
        } else {
            let h = Text::words(&text.lines("h_words").concat());
            assert_eq!(h.len(), text.number("h_length"), "{name}");
            let mut written = before(text.number("matrix_length"));
            let answer = reference::rank(n, m, &h, &mut written).map_err(Refusal::number);
            let number = text.number("answer") as u32;
            assert_eq!(answer, Err(number), "{name}");
            assert_eq!(written, before(written.len()), "{name}");
            *refused.entry(number).or_default() += 1;
        }
        assert!(!names.contains(&name), "{name} is there twice");
        names.push(name);
    }
    assert!(
        cases >= 60 && short >= 30,
        "{cases} cases, {short} of them short"
    );
    assert!(refused.keys().eq(&[1, 2, 3, 4]), "{refused:?}");
    assert!(refused.values().all(|&count| count >= 4), "{refused:?}");
}

/// Compares a part of the file `quick_look.txt` with what the entry answers, and
/// with the answer by sets: the refusal, else 0 or 255, and the index.
fn compare_look_at(text: &Text, name: &str) -> (u32, Option<usize>) {
    let (n, number) = (text.number("n"), text.number("answer") as u32);
    if name.starts_with("refused ") {
        let positions = Text::bytes(&lent(text, "positions", "bytes"));
        let answer = reference::quick_look(n, &positions).map_err(Refusal::number);
        assert_eq!(answer, Err(number), "{name}");
        return (number, None);
    }
    let positions = Text::bytes(&text.lines("positions")[0]);
    let index = text.lines("index").first().map(|_| text.number("index"));
    let expected = if index.is_some() { 255 } else { 0 };
    assert_eq!(number, expected, "{name}");
    assert_eq!(reference::quick_look(n, &positions), Ok(index), "{name}");
    assert_eq!(by_sets(n, &positions), index, "{name}");
    (number, index)
}

#[test]
fn the_file_of_quick_looks_holds_the_answers() {
    let mut answers: BTreeMap<u32, usize> = BTreeMap::new();
    // The sizes with an order, and the places of offenders of each size.
    let (mut well, mut offenders) = (BTreeSet::new(), BTreeSet::new());
    let (mut names, mut refused) = (BTreeSet::new(), false);
    for (name, text) in parts(quick_look::NAME) {
        let (number, index) = compare_look_at(&text, &name);
        let n = text.number("n");
        match (number, index) {
            (0, None) => {
                well.insert(n);
            }
            (255, Some(index)) => {
                offenders.insert((n, index));
            }
            _ => refused = true,
        }
        assert_eq!(name.starts_with("refused "), refused, "{name}");
        *answers.entry(number).or_default() += 1;
        assert!(names.insert(name.clone()), "{name} is there twice");
    }
    for n in quick_look::SIZES {
        assert!(well.contains(&n), "{n}");
        for place in [0, n / 2, n - 1] {
            assert!(offenders.contains(&(n, place)), "{n}, {place}");
        }
    }
    assert!(answers.keys().eq(&[0, 1, 3, 255]), "{answers:?}");
    assert!(answers.values().all(|&count| count >= 10), "{answers:?}");
    assert!(answers[&255] >= 150, "{answers:?}");
    let size = stored_text(quick_look::NAME).len();
    assert!(size < 30_000, "{size} bytes");
}

/// The words or bytes of a slice of a refused call, as many as its length says.
fn lent(text: &Text, name: &str, unit: &str) -> Vec<String> {
    let values = text.lines(&format!("{name}_{unit}")).concat();
    assert_eq!(values.len(), text.number(&format!("{name}_length")));
    values
}

/// What a part of the file `write.txt` is written from: H, x, y, t and a.
struct Written {
    lists: [Vec<u16>; 4],
    t: Vec<u8>,
}

impl Written {
    /// Of a package.
    fn of_case(text: &Text) -> Written {
        let words = |name| Text::words(&text.lines(name).concat());
        Written {
            lists: [
                Text::words(&text.rows("h")),
                words("x"),
                words("y"),
                Text::words(&text.rows("a")),
            ],
            t: Text::bytes(&text.rows("t")),
        }
    }

    /// Of a refused call.
    fn of_refused(text: &Text) -> Written {
        let words = |name| Text::words(&lent(text, name, "words"));
        Written {
            lists: ["h", "x", "y", "a"].map(words),
            t: Text::bytes(&lent(text, "t", "bytes")),
        }
    }

    /// What the entry answers for an output of this length, and the output
    /// afterwards.
    fn answer(&self, text: &Text, length: usize) -> (Result<usize, u32>, Vec<u8>) {
        let [h, x, y, a] = &self.lists;
        let [n, m] = ["n", "m"].map(|name| text.number(name));
        let serial = text.number("serial") as u32;
        let mut out = vec![0xab; length];
        let answer = reference::write_package(Key { n, m, h, x, y }, serial, &self.t, a, &mut out);
        (answer.map_err(Refusal::number), out)
    }
}

/// Compares a package with what the entry writes to outputs of its length, of
/// more and of less.
fn compare_package(text: &Text, name: &str) -> Vec<u8> {
    let written = Written::of_case(text);
    let package = text.file("package");
    let length = text.number("length");
    assert_eq!(package.len(), length, "{name}");
    for more in [0, 1, 40] {
        let mut expected = package.clone();
        expected.resize(length + more, 0xab);
        let outcome = written.answer(text, length + more);
        assert_eq!(outcome, (Ok(length), expected), "{name}");
    }
    let short = text.number("short_answer") as u32;
    let outcome = written.answer(text, length - 1);
    assert_eq!(outcome, (Err(short), vec![0xab; length - 1]), "{name}");
    assert_eq!(short, 13, "{name}");
    let [n, m] = ["n", "m"].map(|name| text.number(name));
    let serial = text.number("serial") as u32;
    let contents = Contents { n, m, serial };
    assert_eq!(read_package(&package), Ok(contents), "{name}");
    package
}

#[test]
fn the_file_of_packages_holds_the_answers() {
    let mut packages: BTreeMap<String, Vec<u8>> = BTreeMap::new();
    let mut refused: BTreeMap<u32, usize> = BTreeMap::new();
    let mut forms: BTreeMap<(bool, bool), usize> = BTreeMap::new();
    let mut names = Vec::new();
    for (name, text) in parts(write::NAME) {
        if let Some(short_name) = name.strip_prefix("case ") {
            let package = compare_package(&text, &name);
            let target = content(&package, tag::Y).is_some();
            let long_serial =
                content(&package, tag::SERIAL).is_some_and(|serial| serial.len() == 4);
            *forms.entry((target, long_serial)).or_default() += 1;
            packages.insert(short_name.to_string(), package);
        } else {
            let length = text.number("out_length");
            let number = text.number("answer") as u32;
            let outcome = Written::of_refused(&text).answer(&text, length);
            assert_eq!(outcome, (Err(number), vec![0xab; length]), "{name}");
            *refused.entry(number).or_default() += 1;
        }
        assert!(!names.contains(&name), "{name} is there twice");
        names.push(name);
    }
    assert!(
        refused.keys().eq(&[1, 2, 3, 4, 5, 6, 13, 15]),
        "{refused:?}"
    );
    assert!(refused.values().all(|&count| count >= 4), "{refused:?}");
    assert!(packages.len() >= 50, "{} packages", packages.len());
    assert_eq!(forms.len(), 4, "{forms:?}");
    assert!(forms.values().all(|&count| count >= 8), "{forms:?}");
    let key_a = fs::read(directory().join("key_a.check")).expect("a readable file");
    assert_eq!(packages["key_a"], key_a[..56]);
    assert_eq!(packages["n64_m63_target"].len(), 8873);
}

/// A slice of bytes of a part of the file `bundle.txt`, as many as its length says,
/// 64 on each line but the last.
fn slice(text: &Text, name: &str) -> Vec<u8> {
    let bytes = text.file(name);
    assert_eq!(bytes.len(), text.number(&format!("{name}_length")));
    assert_eq!(text.lines(name).len(), bytes.len().div_ceil(64));
    bytes
}

/// Compares a part of the file `bundle.txt` with what the reader answers.
fn compare_read(text: &Text, name: &str) -> u32 {
    let answer = reference::read_bundle(&slice(text, "bundle")).map_err(Refusal::number);
    if name.starts_with("case ") {
        let [n, m, groups] = ["n", "m", "groups"].map(|name| text.number(name));
        assert_eq!(answer, Ok(BundleContents { n, m, groups }), "{name}");
        0
    } else {
        let number = text.number("answer") as u32;
        assert_eq!(answer, Err(number), "{name}");
        number
    }
}

/// Compares a part of the file `bundle.txt` with what the join answers and
/// writes: to outputs of the length of the joined bundle, of more and of less, or
/// to that of a refused call.
fn compare_join(text: &Text, name: &str) -> u32 {
    let [first, second] = ["first", "second"].map(|name| slice(text, name));
    let outcome = |length: usize| {
        let mut out = vec![0xab; length];
        let answer = reference::join_bundles(&first, &second, &mut out);
        (answer.map_err(Refusal::number), out)
    };
    if name.starts_with("join ") {
        let (joined, groups) = (slice(text, "joined"), text.number("groups"));
        let length = joined.len();
        for more in [0, 1, 40] {
            let mut expected = joined.clone();
            expected.resize(length + more, 0xab);
            let answer = Ok(Joined { length, groups });
            assert_eq!(outcome(length + more), (answer, expected), "{name}");
        }
        let short = text.number("short_answer") as u32;
        let expected = (Err(short), vec![0xab; length - 1]);
        assert_eq!(outcome(length - 1), expected, "{name}");
        assert_eq!(short, 13, "{name}");
        0
    } else {
        let length = text.number("out_length");
        let number = text.number("answer") as u32;
        let expected = (Err(number), vec![0xab; length]);
        assert_eq!(outcome(length), expected, "{name}");
        number
    }
}

/// The numbers in the lines with this name, one or more that rise.
fn rising(text: &Text, name: &str) -> Vec<usize> {
    let lines = text.lines(name).iter();
    let numbers: Vec<usize> = lines
        .map(|line| line.concat().parse().expect("a decimal number"))
        .collect();
    assert!(!numbers.is_empty(), "{name}");
    assert!(numbers.windows(2).all(|pair| pair[0] < pair[1]), "{name}");
    numbers
}

/// Compares a part of the file `bundle.txt` with what the look answers for the
/// bundles of a join, and with what is stated of the join.
fn compare_look(text: &Text, name: &str, join: &Text) -> u32 {
    let [first, second] = ["first", "second"].map(|name| slice(join, name));
    let most = first.len() + second.len();
    let look = |&room: &usize| {
        let answer = reference::look_before_join(&first, &second, room);
        answer.map_err(Refusal::number)
    };
    let same = |rooms: &[usize], answer| {
        assert!(rooms.iter().all(|room| look(room) == answer), "{name}");
    };
    let rooms = rising(text, "room");
    if name.starts_with("look ") {
        let [length, groups] = ["length", "groups"].map(|name| text.number(name));
        let stated = ["joined_length", "groups"].map(|name| join.number(name));
        assert_eq!([length, groups], stated, "{name}");
        assert!(rooms.starts_with(&[length, length + 1, most]), "{name}");
        assert_eq!(rooms.last(), Some(&usize::MAX), "{name}");
        same(&rooms, Ok(Joined { length, groups }));
        let short_rooms = rising(text, "short_room");
        assert_eq!(short_rooms, [0, length - 1], "{name}");
        assert_eq!(text.number("short_answer"), 13, "{name}");
        same(&short_rooms, Err(13));
        0
    } else {
        let [number, of_join] = [text, join].map(|text| text.number("answer"));
        assert_eq!(number, of_join, "{name}");
        for room in [0, join.number("out_length")] {
            assert!(rooms.contains(&room), "{name}");
        }
        let all = rooms.contains(&most) && rooms.contains(&usize::MAX);
        assert_eq!(all, number != 13, "{name}");
        same(&rooms, Err(number as u32));
        number as u32
    }
}

/// The answers of the file `bundle.txt`, compared: how many parts of each kind have
/// each answer, 0 where there is no refusal.
fn compared_bundles() -> BTreeMap<(usize, u32), usize> {
    let mut answers: BTreeMap<(usize, u32), usize> = BTreeMap::new();
    let mut read: [Vec<(String, Text)>; KINDS.len()] = Default::default();
    let mut last = 0;
    for (name, text) in parts(bundle::NAME) {
        let kind = kind_of(&name).expect("a kind of a part");
        assert!(last <= kind, "{name} comes too late");
        let number = match kind {
            0 | 1 => compare_read(&text, &name),
            2 | 3 => compare_join(&text, &name),
            // The looks stand in the order of the joins, with the same names.
            _ => {
                let (of_join, join) = &read[kind - 2][read[kind].len()];
                assert_eq!(name.replacen("look", "join", 1), *of_join);
                compare_look(&text, &name, join)
            }
        };
        *answers.entry((kind, number)).or_default() += 1;
        let mut names = read[kind].iter().map(|(name, _)| name);
        assert!(!names.any(|other| *other == name), "{name} is there twice");
        last = kind;
        read[kind].push((name, text));
    }
    let [.., joins, refused, looks, looks_refused] = read.map(|list| list.len());
    assert_eq!([looks, looks_refused], [joins, refused]);
    answers
}

#[test]
fn the_file_of_bundles_holds_the_answers() {
    let answers = compared_bundles();
    let of_reader = [1, 2, 4, 5, 6, 9, 10, 11, 14, 15, 19, 20];
    let mut stated = BTreeSet::from([(0, 0), (2, 0), (4, 0)]);
    for kind in [1, 3, 5] {
        stated.extend(of_reader.map(|number| (kind, number)));
    }
    for kind in [3, 5] {
        stated.extend([13, 21, 22].map(|number| (kind, number)));
    }
    assert!(answers.keys().eq(&stated), "{answers:?}");
    assert!(answers.values().all(|&count| count >= 2), "{answers:?}");
    for kind in [0, 2, 4] {
        assert!(answers[&(kind, 0)] >= 25, "{answers:?}");
    }
    let size = stored_text(bundle::NAME).len();
    assert!(size < 160_000, "{size} bytes");
}

/// The file after a change: a place, the byte there and another one.
fn changed(file: &[u8], change: &[String]) -> Vec<u8> {
    let mut bytes = file.to_vec();
    let place: usize = change[0].parse().expect("a place");
    assert_eq!(format!("{:02x}", bytes[place]), change[1]);
    bytes[place] = u8::from_str_radix(&change[2], 16).expect("a byte");
    bytes
}

/// The text files with spare codes among the positions that don't solve the key.
const SPARE_CODES: [(usize, usize); 3] = [(5, 2), (17, 8), (33, 16)];

#[test]
fn the_text_files_hold_the_answers() {
    let mut targets = 0;
    for (n, m) in SIZES {
        let text = Text::of(n, m);
        let sample = text.sample();
        assert_eq!((sample.n, sample.m), (n, m));
        // One of the files has a serial of four bytes.
        assert_eq!(sample.serial > 65_535, (n, m) == (3, 1));
        assert_eq!(sample.has_target(), TARGETS.contains(&(n, m)));
        targets += usize::from(sample.has_target());
        assert_eq!(sample.u.len(), n * sample.d);
        assert_eq!(sample.masks.len(), COORDINATES * (sample.d - 1));
        let q = honest_q(&sample.u, &sample.v, &sample.delta);
        assert_eq!(q.as_ref(), Ok(&sample.q));
        let masks = honest_masks(&sample.r, &sample.s, &sample.delta);
        assert_eq!(masks.as_ref(), Ok(&sample.masks));

        text.compare(&sample, "");
        let (_, a) = sample.proof().expect("the positions solve the key");
        assert_eq!(Text::words(&text.rows("a")), a);
        let file = text.file("file");
        assert_eq!(sample.check_file().unwrap(), file);
        let line = text.lines("line")[0].join(" ") + "\n";
        assert_eq!(perkcheck_line(&file), line);
        assert!(line.ends_with(" accepted\n"));
        let tampered = text.file("tampered_file");
        let line = text.lines("tampered_line")[0].join(" ") + "\n";
        assert_eq!(perkcheck_line(&tampered), line);
        assert!(line.ends_with(" rejected\n"));

        // Every field but the sizes, an empty one and one that is absent.
        let changes = text.lines("change");
        let empty = usize::from(sample.masks.is_empty()) + usize::from(!sample.has_target());
        assert_eq!(changes.len(), CHECK_FILE_TAGS.len() - 1 - empty);
        for change in changes {
            let line = change[3..].join(" ") + "\n";
            assert_eq!(perkcheck_line(&changed(&file, change)), line);
        }

        let wrong = Sample {
            positions: Text::bytes(&text.lines("wrong_positions")[0]),
            ..sample
        };
        text.compare(&wrong, "wrong_");
        let number = text.number("wrong_prove") as u32;
        assert_eq!(
            wrong.proof().map_err(|refusal| refusal.number()),
            Err(number)
        );
        let is_spare = |&position: &u8| usize::from(position) >= n;
        let has_spare_code = wrong.positions.iter().any(is_spare);
        assert_eq!(has_spare_code, SPARE_CODES.contains(&(n, m)));
        assert_eq!(number, if has_spare_code { 16 } else { 8 });

        let key = text.sample();
        text.compare_rank(&key, "");
        assert_eq!(text.number("rank"), m);
        let leaning = Sample {
            h: Text::words(&text.rows("leaning_h")),
            y: Text::words(&text.lines("leaning_y")[0]),
            ..key
        };
        text.compare_rank(&leaning, "leaning_");
        assert!(text.number("leaning_rank") < m);
        assert!(solved(leaning.key(), &leaning.positions));
        let (t, a) = leaning.unjudged_proof().expect("words up to 2047");
        assert_eq!(t, Text::bytes(&text.rows("t")));
        for (entry, answer) in [
            ("constraints", leaning.constraints().map(|_| ())),
            ("prove", leaning.proof().map(|_| ())),
            ("values", leaning.values(&t).map(|_| ())),
            ("verify", leaning.verdict(&t, &a).map(|_| ())),
        ] {
            assert_eq!(answer, Err(Refusal::DependentRows), "{entry}");
            assert_eq!(text.number(&format!("leaning_{entry}")), 15);
        }
    }
    assert_eq!(targets, 3);
}

/// The content of the field with this tag, found by the heads before it.
fn content(bytes: &[u8], tag: u8) -> Option<&[u8]> {
    let mut rest = bytes;
    while let [found, high, low, after @ ..] = rest {
        let length = usize::from(u16::from_be_bytes([*high, *low]));
        if *found == tag {
            return after.get(..length);
        }
        rest = after.get(length..)?;
    }
    None
}

/// Whether no row of H of a file depends on the others; none when the file is
/// refused before its key is read.
fn independent_key(file: &[u8]) -> Option<bool> {
    let of_key = [tag::SIZES, tag::H, tag::X, tag::Y].map(Some);
    let before = |refused: Refused| {
        of_key.contains(&refused.tag) && refused.refusal != Refusal::DependentRows
    };
    if judge_check_file(file).is_err_and(before) {
        return None;
    }
    let (sizes, h) = (content(file, tag::SIZES)?, content(file, tag::H)?);
    Some(independent(&words(h), usize::from(sizes[0])))
}

#[test]
fn every_key_has_independent_rows_but_where_it_is_meant() {
    let (mut keys, mut leaning) = (0, 0);
    for case in Cases::all().list() {
        let Some(independent) = independent_key(&case.bytes) else {
            continue;
        };
        let meant = case.name.starts_with("leaning");
        assert_eq!(independent, !meant, "{}", case.name);
        assert_eq!(case.line == "refused 15\n", meant, "{}", case.name);
        keys += usize::from(independent);
        leaning += usize::from(meant);
    }
    assert!(
        keys >= 300 && leaning >= 80,
        "{keys} and {leaning} keys of cases"
    );
    for (n, m) in SIZES {
        let text = Text::of(n, m);
        let file = text.file("file");
        assert_eq!(independent_key(&file), Some(true));
        assert!(independent(&text.sample().h, n));
        for change in text.lines("change") {
            let changed = changed(&file, change);
            assert_eq!(independent_key(&changed), Some(true), "{n} {m} {change:?}");
        }
    }
}
