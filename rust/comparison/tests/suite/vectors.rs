//! The comparison with the vectors finds altered files, and faults of the
//! library.

use comparison::case::Entry;
use comparison::entries::bundles::join::JOIN_BUNDLES;
use comparison::entries::bundles::look::LOOK_BEFORE_JOIN;
use comparison::entries::bundles::read::READ_BUNDLE;
use comparison::entries::quick_look::QUICK_LOOK;
use comparison::entries::{
    check, constraints, field, package_field, prove, rank, readers, values, write, ALL,
};
use comparison::run::Run;
use comparison::vectors::{compare, directory, names, Outcome, Setting};
use reference::samples::Generator;
use std::fs;
use std::path::{Path, PathBuf};

/// Compares the library's functions of these entries with a file.
fn outcome(entries: &[Entry], name: &str, content: &str) -> Outcome {
    let setting = Setting {
        entries,
        program: None,
        spoil: None,
    };
    compare(&setting, name, content.as_bytes(), &mut Generator::new(1))
}

/// The difference that is found in a text.
fn difference(name: &str, content: &str) -> Option<String> {
    outcome(ALL, name, content).difference
}

/// The content of a text file.
fn text(name: &str) -> String {
    fs::read_to_string(directory().join(name)).expect("a file of vectors/")
}

/// A copy of the vectors, under the name of a test.
fn copied(test: &str) -> PathBuf {
    let copy = PathBuf::from(env!("CARGO_TARGET_TMPDIR")).join(test);
    // It is there after an earlier run.
    let _ = fs::remove_dir_all(&copy);
    fs::create_dir(&copy).expect("a new directory");
    for name in names() {
        fs::copy(directory().join(&name), copy.join(&name)).expect("a copy");
    }
    copy
}

/// Whether a run over the files of this directory passes.
fn passes(directory: &Path) -> bool {
    let mut run = Run::new(1, None);
    run.vectors(directory, ALL, None);
    run.finish()
}

/// A line with another value in the place of word N after the name: another last
/// digit, or the other verdict.
fn altered(line: &str, word: usize) -> String {
    let mut words: Vec<String> = line.split(' ').map(str::to_string).collect();
    let text = &mut words[word];
    match text.as_str() {
        "accepted" => *text = "rejected".to_string(),
        "rejected" => *text = "accepted".to_string(),
        _ => {
            let digit = text.pop().expect("a digit");
            text.push(if digit == '0' { '1' } else { '0' });
        }
    }
    words.join(" ")
}

/// The text with another line in the place of line N.
fn with_line(content: &str, index: usize, line: &str) -> String {
    let mut lines: Vec<&str> = content.lines().collect();
    lines[index] = line;
    lines.join("\n") + "\n"
}

#[test]
fn vectors_in_the_repository() {
    assert!(passes(&directory()));
}

#[test]
fn altered_word_in_a_copied_file() {
    let copy = copied("altered_word");
    assert!(passes(&copy));
    let path = copy.join("n08_m03.txt");
    let content = text("n08_m03.txt");
    let index = content.lines().position(|line| line.starts_with("a 1 "));
    let index = index.expect("a line of a");
    let line = content.lines().nth(index).expect("this line");
    let line = altered(line, 2);
    fs::write(&path, with_line(&content, index, &line)).expect("written");
    assert!(!passes(&copy));
    let found = difference("n08_m03.txt", &fs::read_to_string(&path).expect("read"));
    let place = format!("a, line {}, word 11: prove, a, word ", index + 1);
    assert!(found.is_some_and(|text| text.starts_with(&place)));
}

#[test]
fn altered_byte_of_key_a() {
    let name = "key_a.check";
    let copy = copied("altered_byte");
    let bytes = fs::read(copy.join(name)).expect("read");
    let mut unchanged = 0;
    for at in 0..bytes.len() {
        let mut bytes = bytes.clone();
        bytes[at] ^= 1;
        let setting = Setting {
            entries: ALL,
            program: None,
            spoil: None,
        };
        let outcome = compare(&setting, name, &bytes, &mut Generator::new(1));
        // With the weights of key A row 1 of t and q cancels out: 25 bytes.
        let same = reference::perkcheck_line(&bytes) == "serial 7 n 2 m 1 accepted\n";
        assert_eq!(outcome.difference.is_none(), same, "byte {at}");
        unchanged += usize::from(same);
    }
    assert_eq!(unchanged, 25);
    fs::write(copy.join(name), &bytes[1..]).expect("written");
    assert!(!passes(&copy));
}

#[test]
fn missing_file() {
    let copy = copied("missing_file");
    fs::remove_file(copy.join("n17_m08.txt")).expect("removed");
    assert!(!passes(&copy));
}

#[test]
fn unknown_file() {
    let copy = copied("unknown_file");
    fs::copy(copy.join("n03_m01.txt"), copy.join("n04_m01.txt")).expect("a copy");
    assert!(!passes(&copy));
}

#[test]
fn empty_files() {
    for content in ["", "\n"] {
        assert!(difference("n02_m01.txt", content).is_some());
    }
    assert!(difference("key_a.check", "").is_some());
}

/// The names whose words are no results of the library.
const INPUTS: &[&str] = &[
    "n",
    "m",
    "d",
    "serial",
    "h",
    "x",
    "y",
    "positions",
    "u",
    "v",
    "r",
    "s",
    "alpha",
    "delta",
    "wrong_positions",
    "leaning_h",
    "leaning_y",
];

#[test]
fn every_word_altered() {
    for name in ["n02_m01.txt", "n03_m01.txt"] {
        let content = text(name);
        assert_eq!(difference(name, &content), None);
        for (index, line) in content.lines().enumerate() {
            let words: Vec<&str> = line.split(' ').collect();
            for word in 1..words.len() {
                // A file with another changed byte is rejected too.
                if words[0] == "change" && word == 3 && words[10] == "rejected" {
                    continue;
                }
                let other = with_line(&content, index, &altered(line, word));
                let found = difference(name, &other);
                assert!(found.is_some(), "{name}, line {}: {line}", index + 1);
                let found = found.unwrap_or_default();
                let place = format!("line {}", index + 1);
                let named = INPUTS.contains(&words[0]) || found.contains(&place);
                assert!(named, "{name}, line {}, {line}: {found}", index + 1);
            }
        }
    }
}

/// Alters each word of a file of calls, in the first of its done calls, but for
/// the lines with a free name, and each answer of its refused calls: each is found.
/// Parts that are left out are, too. How many words were altered.
fn every_word_of_calls_altered(name: &str, cases: usize, free: &[&str]) -> usize {
    let whole = text(name);
    let refused = whole.find("refused ").expect("refused calls");
    let first = whole.match_indices("case ").nth(cases).expect("a case").0;
    let content = [&whole[..first], &whole[refused..]].concat();
    assert_eq!(difference(name, &content), None);
    let done_lines = content[..first].lines().count();
    let mut words_altered = 0;
    for (index, line) in content.lines().enumerate() {
        let words: Vec<&str> = line.split(' ').collect();
        // Names of parts are free, and a refused call may be refused with other
        // words.
        let named = words[0] == "case" || free.contains(&words[0]);
        let free = named || index >= done_lines && words[0] != "answer";
        for word in (1..words.len()).filter(|_| !free) {
            let other = with_line(&content, index, &altered(line, word));
            assert!(
                difference(name, &other).is_some(),
                "{name}, line {}: {line}",
                index + 1
            );
            words_altered += 1;
        }
    }
    for other in [
        &whole[..refused],
        &whole[refused..],
        &whole[..whole.rfind("answer").expect("an answer")],
        "",
        "case one\n",
    ] {
        assert!(difference(name, other).is_some());
    }
    words_altered
}

#[test]
fn every_word_of_ranks_altered() {
    let words = every_word_of_calls_altered("rank.txt", 12, &[]);
    assert!(words > 100, "{words}");
}

#[test]
fn every_word_of_packages_altered() {
    let words = every_word_of_calls_altered("write.txt", 6, &[]);
    assert!(words > 100, "{words}");
}

#[test]
fn every_word_of_quick_looks_altered() {
    // After the first offender other positions give the same answer.
    let words = every_word_of_calls_altered("quick_look.txt", 60, &["positions"]);
    assert!(words > 150, "{words}");
}

#[test]
fn every_position_of_an_order_altered() {
    let name = "quick_look.txt";
    let content = text(name);
    let lines: Vec<&str> = content.lines().collect();
    let mut altered_positions = 0;
    for (index, pair) in lines.windows(2).enumerate() {
        let [line, "answer 0"] = pair else {
            continue;
        };
        let words: Vec<&str> = line.split(' ').collect();
        for word in 1..words.len().min(9) {
            let other = with_line(&content, index, &altered(line, word));
            let found = difference(name, &other).unwrap_or_default();
            let place = format!("answer, line {}, ", index + 2);
            assert!(found.starts_with(&place), "line {}: {found}", index + 1);
            altered_positions += 1;
        }
    }
    assert!(altered_positions > 50, "{altered_positions}");
}

#[test]
fn other_parts_of_quick_looks() {
    let name = "quick_look.txt";
    let content = text(name);
    // An index where all is well, none of an offender, and another answer.
    for (old, new) in [
        ("answer 0\n", "answer 0\nindex 0\n"),
        ("answer 255\nindex 2\n", "answer 255\n"),
        ("answer 255\nindex 2\n", "answer 3\n"),
        ("positions 2 0 1\n", "positions 2 0 1 3\n"),
        ("positions_length 0\n", "positions_length 1\n"),
    ] {
        assert!(content.contains(old), "{old}");
        assert!(difference(name, &content.replacen(old, new, 1)).is_some());
    }
}

#[test]
fn every_digit_of_a_package_altered() {
    let name = "write.txt";
    let whole = text(name);
    // The first package with n = 3, and the last refused call.
    let refused = whole.rfind("refused ").expect("a refused call");
    let of_three = whole.find("n 3\n").expect("a package");
    let start = whole[..of_three].rfind("case ").expect("its name");
    let end = start + 1 + whole[start + 1..].find("case ").expect("the next");
    let content = [&whole[start..end], &whole[refused..]].concat();
    assert_eq!(difference(name, &content), None);
    let lines = content.lines().enumerate();
    let lines: Vec<(usize, &str)> = lines
        .filter(|line| line.1.starts_with("package "))
        .collect();
    assert!(lines.len() > 1);
    for (index, line) in lines {
        for at in "package ".len()..line.len() {
            let digit = if &line[at..=at] == "0" { "1" } else { "0" };
            let other = [&line[..at], digit, &line[at + 1..]].concat();
            let found = difference(name, &with_line(&content, index, &other));
            let place = format!("package, line {}, ", index + 1);
            assert!(found.is_some_and(|text| text.starts_with(&place)), "{at}");
        }
    }
}

/// The kinds of parts of the file of bundles.
const KINDS: [&str; 6] = [
    "case",
    "refused",
    "join",
    "join_refused",
    "look",
    "look_refused",
];

/// The first parts of each kind of the file of bundles, so many of each. There are
/// as many looks as joins.
fn some_bundles(counts: [usize; 6]) -> String {
    let whole = text("bundle.txt");
    let mut parts: [Vec<String>; 6] = Default::default();
    let mut kind = 0;
    for line in whole.lines() {
        let first = line.split(' ').next();
        let begins = KINDS.iter().position(|&name| Some(name) == first);
        if let Some(begun) = begins {
            kind = begun;
            parts[kind].push(String::new());
        }
        let part = parts[kind].last_mut().expect("a part has begun");
        part.push_str(line);
        part.push('\n');
    }
    let parts = parts.iter().zip(counts);
    parts.map(|(list, count)| list[..count].concat()).collect()
}

#[test]
fn every_word_of_bundles_altered() {
    let name = "bundle.txt";
    let content = some_bundles([6, 30, 6, 30, 6, 30]);
    assert_eq!(difference(name, &content), None);
    let mut kind = "";
    let mut words_altered = 0;
    for (index, line) in content.lines().enumerate() {
        let (first, value) = line.split_once(' ').expect("a name and a value");
        if KINDS.contains(&first) {
            kind = first;
        }
        // Names are free, but for those of looks. A call may be refused with other
        // bytes and another output, and a bundle with another a has the same
        // numbers. Another room may be long enough, or too short, too.
        let tells = match kind {
            _ if first == kind => first.starts_with("look"),
            "refused" | "join_refused" => {
                first == "answer" || first.ends_with("_length") && first != "out_length"
            }
            _ => first != "bundle" && !first.ends_with("room"),
        };
        if !tells {
            continue;
        }
        let other = with_line(&content, index, &altered(line, 1));
        let found = difference(name, &other);
        assert!(found.is_some(), "line {}: {first} {value}", index + 1);
        words_altered += 1;
    }
    assert!(words_altered > 150, "{words_altered}");
}

#[test]
fn every_digit_of_a_joined_bundle_altered() {
    let name = "bundle.txt";
    let content = some_bundles([1, 1, 3, 1, 3, 1]);
    let mut digits = 0;
    for (index, line) in content.lines().enumerate() {
        let Some(bytes) = line.strip_prefix("joined ") else {
            continue;
        };
        for at in line.len() - bytes.len()..line.len() {
            let digit = if &line[at..=at] == "0" { "1" } else { "0" };
            let other = [&line[..at], digit, &line[at + 1..]].concat();
            let found = difference(name, &with_line(&content, index, &other));
            let place = format!("joined, line {}, ", index + 1);
            assert!(found.is_some_and(|text| text.starts_with(&place)), "{at}");
            digits += 1;
        }
    }
    assert!(digits > 200, "{digits}");
}

#[test]
fn every_room_altered() {
    let name = "bundle.txt";
    let content = some_bundles([1, 1, 6, 1, 6, 1]);
    let looks = content.find("\nlook ").expect("a look");
    let first = content[..looks].lines().count();
    let mut rooms = 0;
    for (index, line) in content.lines().enumerate().skip(first) {
        let other = match line.split(' ').next() {
            Some("room") => "room 0",
            Some("short_room") => "short_room 18446744073709551615",
            Some("look_refused") => break,
            _ => continue,
        };
        let found = difference(name, &with_line(&content, index, other));
        assert!(found.is_some(), "line {}", index + 1);
        rooms += 1;
    }
    assert!(rooms >= 12, "{rooms}");
}

#[test]
fn other_parts_of_bundles() {
    let name = "bundle.txt";
    let right = some_bundles([1; 6]);
    assert_eq!(difference(name, &right), None);
    // A kind that is missing, in another order, or of which a line is missing,
    // is there twice, or has too few bytes; a look too many.
    for kind in 0..KINDS.len() {
        let mut counts = [1; 6];
        counts[kind] = 0;
        assert!(difference(name, &some_bundles(counts)).is_some());
    }
    assert!(difference(name, &some_bundles([1, 1, 1, 1, 2, 1])).is_some());
    assert!(difference(name, &some_bundles([1, 1, 1, 1, 1, 2])).is_some());
    let lines: Vec<&str> = right.lines().collect();
    for index in 0..lines.len() {
        let mut without = lines.clone();
        without.remove(index);
        let mut twice = lines.clone();
        twice.insert(index, lines[index]);
        let mut shorter = lines.clone();
        shorter[index] = &lines[index][..lines[index].len() - 2];
        // The number of rooms is free.
        let room = lines[index].starts_with("room") || lines[index].starts_with("short_room");
        let bytes = lines[index].len() >= 40;
        for (list, tells) in [(without, !room), (twice, true), (shorter, bytes)] {
            let other = list.join("\n") + "\n";
            let found = difference(name, &other);
            assert!(found.is_some() || !tells, "line {}", index + 1);
        }
    }
    let end = right.rfind("join_refused").expect("a refused join");
    let exchanged = [&right[end..], &right[..end]].concat();
    for other in [&exchanged, "", "case one\n"] {
        assert!(difference(name, other).is_some());
    }
}

#[test]
fn every_element_of_y_altered() {
    let mut targets = 0;
    for (name, m) in [("n02_m01.txt", 1), ("n05_m02.txt", 2), ("n08_m03.txt", 3)] {
        let content = text(name);
        let index = content.lines().position(|line| line.starts_with("y "));
        let index = index.expect("a line of y");
        let line = content.lines().nth(index).expect("this line");
        for word in 1..=m {
            let other = with_line(&content, index, &altered(line, word));
            assert!(difference(name, &other).is_some(), "{name}, {word}");
        }
        // With a target the file has a field, and without one it has none.
        let zeros = format!("y{}", " 0000".repeat(m));
        let target = line != zeros;
        targets += usize::from(target);
        let found = difference(name, &with_line(&content, index, &zeros));
        assert_eq!(found.is_some(), target, "{name}");
    }
    assert_eq!(targets, 1);
}

#[test]
fn every_digit_of_bytes_altered() {
    let name = "n02_m01.txt";
    let content = text(name);
    for (index, line) in content.lines().enumerate() {
        let first = line.split(' ').next().unwrap_or_default();
        if !["file", "tampered_file"].contains(&first) {
            continue;
        }
        for at in first.len() + 1..line.len() {
            let digit = if &line[at..=at] == "0" { "1" } else { "0" };
            let other = [&line[..at], digit, &line[at + 1..]].concat();
            let found = difference(name, &with_line(&content, index, &other));
            assert!(found.is_some(), "line {}, column {at}", index + 1);
        }
    }
}

#[test]
fn other_lines() {
    let name = "n05_m02.txt";
    let content = text(name);
    let lines: Vec<&str> = content.lines().collect();
    for index in 0..lines.len() {
        let first = lines[index].split(' ').next();
        let mut without = lines.clone();
        without.remove(index);
        let mut twice = lines.clone();
        twice.insert(index, lines[index]);
        let mut unknown = lines.clone();
        unknown.insert(index, "other 0");
        for list in [without, twice, unknown] {
            let other = list.join("\n") + "\n";
            assert!(difference(name, &other).is_some(), "{first:?}, {index}");
        }
    }
    // The name of the file, the end of the last line, and unknown names.
    assert!(difference("n05_m03.txt", &content).is_some());
    assert!(difference(name, content.trim_end()).is_some());
    assert!(difference(name, &(content.clone() + "other 0\n")).is_some());
    assert!(difference(name, &content.replace("\nline ", "\nlines ")).is_some());
}

/// The entries that the vectors call: those of the specification, and check.
fn entries() -> Vec<Entry> {
    let last = ALL.iter().position(|entry| entry.name == check::CHECK.name);
    ALL[..=last.expect("an entry")].to_vec()
}

/// Whether the vectors pass with these entries.
fn entries_pass(entries: &[Entry]) -> bool {
    let name = "n05_m02.txt";
    outcome(entries, name, &text(name)).difference.is_none()
}

#[test]
fn wrong_answers() {
    assert!(entries_pass(&entries()));
    for index in 0..entries().len() {
        let mut entries = entries();
        entries[index].library = |_, _| 3;
        assert!(!entries_pass(&entries), "{}", entries[index].name);
        // Nothing is written, nothing rejected or refused.
        entries[index].library = |_, _| 0;
        assert!(!entries_pass(&entries), "{}", entries[index].name);
    }
}

/// The entry with one bit changed in the last element of an output.
macro_rules! changed {
    ($entry:expr, $output:expr) => {
        Entry {
            library: |taken, outputs| {
                let answer = ($entry.library)(taken, outputs);
                let last = outputs[$output].len() - 1;
                outputs[$output].change(last, 0);
                answer
            },
            ..$entry
        }
    };
}

#[test]
fn wrong_outputs() {
    for wrong in [
        changed!(field::SUM, "out"),
        changed!(field::PRODUCT, "out"),
        changed!(constraints::CONSTRAINTS, "t"),
        changed!(constraints::CONSTRAINTS, "polynomials"),
        changed!(prove::PROVE, "t"),
        changed!(prove::PROVE, "a"),
        changed!(values::VALUES, "values"),
        changed!(rank::RANK, "matrix"),
        changed!(rank::RANK, "rank"),
        changed!(write::WRITE, "out"),
        changed!(write::WRITE, "length"),
        changed!(READ_BUNDLE, "n"),
        changed!(READ_BUNDLE, "m"),
        changed!(READ_BUNDLE, "groups"),
        changed!(JOIN_BUNDLES, "out"),
        changed!(JOIN_BUNDLES, "length"),
        changed!(JOIN_BUNDLES, "groups"),
        changed!(LOOK_BEFORE_JOIN, "length"),
        changed!(LOOK_BEFORE_JOIN, "groups"),
        changed!(QUICK_LOOK, "index"),
        changed!(readers::READ_PACKAGE, "n"),
        changed!(readers::READ_PACKAGE, "m"),
        changed!(readers::READ_PACKAGE, "serial"),
        changed!(readers::READ_CHECK_FILE, "n"),
        changed!(readers::READ_CHECK_FILE, "m"),
        changed!(readers::READ_CHECK_FILE, "serial"),
        changed!(package_field::FIELD, "start"),
        changed!(package_field::FIELD, "length"),
        changed!(package_field::FIELD, "part"),
    ] {
        let name = wrong.name;
        let mut entries = entries();
        let entry = entries.iter_mut().find(|entry| entry.name == name);
        *entry.expect("an entry of the vectors") = wrong;
        assert!(!entries_pass(&entries), "{name}");
    }
}

#[test]
fn wrong_line_of_the_program() {
    let name = "n02_m01.txt";
    let setting = Setting {
        entries: ALL,
        // It prints nothing.
        program: Some(Path::new("true")),
        spoil: None,
    };
    let content = text(name);
    let outcome = compare(&setting, name, content.as_bytes(), &mut Generator::new(1));
    let place = "line, line 32, word 6: perkcheck prints";
    let found = outcome.difference.unwrap_or_default();
    assert!(found.starts_with(place), "{found}");
}

#[test]
fn entry_missing() {
    assert!(!entries_pass(&entries()[1..]));
}

#[test]
fn expected_word_altered() {
    for n in [0, 3, 1_000] {
        let mut run = Run::new(1, Some(n));
        run.vectors(&directory(), ALL, None);
        assert_eq!(run.altered_words(), [1, 1, 0]);
        assert!(!run.finish());
    }
}
