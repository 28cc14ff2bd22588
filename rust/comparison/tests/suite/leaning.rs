//! The groups of rows that lean find entries that do not refuse them, that refuse
//! others, and that decide in another order. Each stands in the place of the
//! library.

use crate::common::finds;
use comparison::case::{Call, Entry, Group, Taken};
use comparison::entries::check::{self, Check, CHECK};
use comparison::entries::constraints::{Constraints, CONSTRAINTS};
use comparison::entries::faults::{one_fault, two_faults};
use comparison::entries::files::fields::both_forms;
use comparison::entries::files::{leaning as files, rows_of_bytes, BYTES};
use comparison::entries::keyed::Keyed;
use comparison::entries::leaning::{each_row, every_n, nearly};
use comparison::entries::package_field::{PackageField, FIELD, LENGTH, PART, START, TAG};
use comparison::entries::prove::{Prove, PROVE};
use comparison::entries::readers::{ReadCheckFile, ReadPackage, READ_CHECK_FILE, READ_PACKAGE};
use comparison::entries::values::{Values, VALUES};
use comparison::entries::verify::{Verify, VERIFY};
use comparison::lent::Lent;
use comparison::named::Named;
use comparison::slices::{self, H, M, N};
use reference::key::Sizes;
use reference::package::{join, tag, HEAD};
use reference::samples::{independent, unit_rows, Generator};
use reference::small_field::F;
use std::ops::Range;

/// The groups that are run of an entry that takes a key; one in so many cases of
/// the larger ones.
fn of_key<E: Keyed>() -> Vec<Group> {
    let some_n = every_n::<E>().with_cases(|generator, each| {
        every_n::<E>().one_in(11, generator, each);
    });
    vec![
        some_n,
        each_row::<E>(),
        some_nearly::<E>(),
        one_fault::<E>(),
        two_faults::<E>(),
    ]
}

/// One in five of the rows that lean but for one bit.
fn some_nearly<E: Keyed>() -> Group {
    nearly::<E>().with_cases(|generator, each| nearly::<E>().one_in(5, generator, each))
}

/// A right values, by the package packed, which is quicker than the reference.
fn right_values(taken: &Taken, outputs: &mut Named<Lent>) -> u32 {
    VALUES.packed.expect("an entry of packed")(taken, outputs)
}

/// A right prove.
fn right_prove(taken: &Taken, outputs: &mut Named<Lent>) -> u32 {
    PROVE.packed.expect("an entry of packed")(taken, outputs)
}

/// Whether rows that lean find this function in the place of the library's values.
fn rows_find(library: Call) -> bool {
    finds(each_row::<Values>(), VALUES, library)
}

/// Whether two faults do.
fn two_faults_find(library: Call) -> bool {
    finds(two_faults::<Values>(), VALUES, library)
}

/// Whether rows that lean find this function in the place of the library's prove.
fn rows_find_prove(library: Call) -> bool {
    finds(each_row::<Prove>(), PROVE, library)
}

/// Whether two faults do.
fn two_faults_find_prove(library: Call) -> bool {
    finds(two_faults::<Prove>(), PROVE, library)
}

/// The rows of H of a call, where its sizes, the length of H and its elements are
/// right.
fn rows(taken: &Taken) -> Option<(usize, &[u16])> {
    let (n, m) = (taken.numbers[N], taken.numbers[M]);
    Sizes::judged(n, m).ok()?;
    let h = taken.words(H);
    let right = h.len() == m * n && h.iter().all(|&word| word <= F::LARGEST);
    right.then_some((n, h))
}

/// Whether the rows of H of a call lean, where this can be said.
fn lean(taken: &Taken) -> bool {
    rows(taken).is_some_and(|(n, h)| !independent(h, n))
}

/// The reference's answer, or another in its place where the rows lean.
fn where_they_lean(call: Call, taken: &Taken, outputs: &mut Named<Lent>, pair: [u32; 2]) -> u32 {
    let [answer, other] = pair;
    let before = outputs.clone();
    match call(taken, outputs) {
        found if found == answer && lean(taken) => {
            *outputs = before;
            other
        }
        found => found,
    }
}

/// Whether one of the groups of an entry finds this function.
fn found<E: Keyed>(entry: Entry, library: Call) -> bool {
    of_key::<E>()
        .into_iter()
        .any(|group| finds(group, entry, library))
}

#[test]
fn no_fault() {
    assert!(!found::<Values>(VALUES, right_values));
    assert!(!found::<Prove>(PROVE, right_prove));
    let packed = |entry: Entry| entry.packed.expect("an entry of packed");
    assert!(!found::<Constraints>(CONSTRAINTS, packed(CONSTRAINTS)));
    assert!(!found::<Verify>(VERIFY, packed(VERIFY)));
}

#[test]
fn leaning_rows_are_taken() {
    assert!(rows_find(|taken, outputs| {
        where_they_lean(right_values, taken, outputs, [15, 0])
    }));
    assert!(rows_find_prove(|taken, outputs| {
        where_they_lean(right_prove, taken, outputs, [15, 0])
    }));
}

#[test]
fn fifteen_before_four() {
    assert!(two_faults_find(|taken, outputs| {
        where_they_lean(right_values, taken, outputs, [4, 15])
    }));
}

#[test]
fn fifteen_before_three() {
    assert!(two_faults_find(|taken, outputs| {
        where_they_lean(right_values, taken, outputs, [3, 15])
    }));
}

/// What an entry answers with the unit rows as H, where the rows lean and that is
/// one of these later refusals: it then comes before 15.
fn judged_last(call: Call, later: &[u32], taken: &Taken, outputs: &mut Named<Lent>) -> u32 {
    let before = outputs.clone();
    let answer = call(taken, outputs);
    if answer != 15 {
        return answer;
    }
    let mut other = taken.clone();
    let (n, m) = (taken.numbers[N], taken.numbers[M]);
    other.inputs[H]
        .words_mut()
        .copy_from_slice(&unit_rows(n, m));
    let found = call(&other, outputs);
    *outputs = before;
    if later.contains(&found) {
        found
    } else {
        15
    }
}

#[test]
fn fifteen_after_others() {
    assert!(two_faults_find(|taken, outputs| {
        judged_last(right_values, &[5], taken, outputs)
    }));
    assert!(two_faults_find(|taken, outputs| {
        judged_last(right_values, &[6], taken, outputs)
    }));
    assert!(two_faults_find_prove(|taken, outputs| {
        judged_last(right_prove, &[7], taken, outputs)
    }));
    assert!(two_faults_find_prove(|taken, outputs| {
        judged_last(right_prove, &[16], taken, outputs)
    }));
    assert!(rows_find_prove(|taken, outputs| {
        judged_last(right_prove, &[8], taken, outputs)
    }));
}

/// The reference's answer; where the rows lean but not in this way, 0.
fn only(way: fn(usize, &[u16]) -> bool, taken: &Taken, outputs: &mut Named<Lent>) -> u32 {
    match right_values(taken, outputs) {
        15 if rows(taken).is_some_and(|(n, h)| !way(n, h)) => 0,
        answer => answer,
    }
}

#[test]
fn some_ways_to_lean_are_not_seen() {
    // A row of zeros is.
    assert!(rows_find(|taken, outputs| {
        let zero = |n, h: &[u16]| h.chunks(n).any(|row| row.iter().all(|&word| word == 0));
        only(zero, taken, outputs)
    }));
    // Two rows are.
    assert!(rows_find(|taken, outputs| {
        let pairs = |n, h: &[u16]| {
            let rows: Vec<&[u16]> = h.chunks(n).collect();
            let lean = |one: &[u16], other: &[u16]| !independent(&[one, other].concat(), n);
            (0..rows.len()).any(|e| {
                let mut others = rows[e + 1..].iter();
                others.any(|other| lean(rows[e], other)) || !independent(rows[e], n)
            })
        };
        only(pairs, taken, outputs)
    }));
    // The rows without the last are.
    assert!(rows_find(|taken, outputs| {
        only(|n, h| !independent(&h[..h.len() - n], n), taken, outputs)
    }));
    // One row alone is not.
    assert!(rows_find(|taken, outputs| {
        only(|n, h| h.len() > n, taken, outputs)
    }));
}

#[test]
fn rows_that_do_not_lean_are_refused() {
    let nearly_finds = |library| finds(some_nearly::<Values>(), VALUES, library);
    // Those that lean without their last column.
    assert!(nearly_finds(|taken, outputs| {
        let before = outputs.clone();
        let answer = right_values(taken, outputs);
        let shorter = rows(taken).filter(|_| answer == 0).map(|(n, h)| {
            let rows = h.chunks(n).flat_map(|row| &row[..n - 1]);
            !independent(&rows.copied().collect::<Vec<u16>>(), n - 1)
        });
        if shorter == Some(true) {
            *outputs = before;
            return 15;
        }
        answer
    }));
}

#[test]
fn an_output_changed_where_rows_lean() {
    assert!(rows_find(|taken, outputs| {
        let answer = right_values(taken, outputs);
        if answer == 15 {
            outputs[slices::VALUES].change(0, 0);
        }
        answer
    }));
}

/// A group of files, of a reader.
type OfFiles = [fn() -> Group; 2];

/// The groups of both readers.
macro_rules! of_both {
    ($group:ident) => {
        [
            || files::$group::<ReadPackage>(),
            || files::$group::<ReadCheckFile>(),
        ]
    };
}

/// Rows that lean beside a fault at each place.
const BESIDE: OfFiles = of_both!(beside_other_faults);

/// All that can follow x.
const AFTER_X: OfFiles = of_both!(after_x);

/// Every prefix.
const PREFIXES: OfFiles = of_both!(prefixes);

/// Whether a group of files finds the readers of the reference, with another answer
/// for some bytes, in the place of the library's.
macro_rules! readers_found {
    ($groups:expr, $other:expr) => {{
        let [package, check_file] = $groups;
        [
            finds(package(), READ_PACKAGE, |taken, outputs| {
                other_answer(READ_PACKAGE.reference, $other, taken, outputs)
            }),
            finds(check_file(), READ_CHECK_FILE, |taken, outputs| {
                other_answer(READ_CHECK_FILE.reference, $other, taken, outputs)
            }),
        ]
    }};
}

/// A reader's answer, which another function changes; nothing is written then.
fn other_answer(
    read: Call,
    other: fn(Call, &Taken, u32) -> u32,
    taken: &Taken,
    outputs: &mut Named<Lent>,
) -> u32 {
    let before = outputs.clone();
    let answer = read(taken, outputs);
    let found = other(read, taken, answer);
    if found != answer {
        *outputs = before;
    }
    found
}

/// Where H and x stand in bytes that begin with a field of right sizes.
fn key_of(bytes: &[u8]) -> Option<(Sizes, [Range<usize>; 2])> {
    let &[tag::SIZES, 0, 2, n, m, ..] = bytes else {
        return None;
    };
    let sizes = Sizes::judged(n.into(), m.into()).ok()?;
    let h = 5 + HEAD..5 + HEAD + 2 * sizes.h_words();
    let x = h.end + HEAD..h.end + HEAD + 2 * sizes.x_words();
    bytes.get(h.clone()).map(|_| (sizes, [h, x]))
}

/// The bytes with the unit rows as H, where the rows that stand there lean.
fn with_unit_rows(bytes: &[u8]) -> Option<Vec<u8>> {
    let (sizes, [h, _]) = key_of(bytes)?;
    let words = bytes[h.clone()].chunks(2);
    let words: Vec<u16> = words.map(|w| u16::from_be_bytes([w[0], w[1]])).collect();
    let right = words.iter().all(|&word| word <= F::LARGEST);
    if !right || independent(&words, sizes.n) {
        return None;
    }
    let units = unit_rows(sizes.n, sizes.m).into_iter();
    let units: Vec<u8> = units.flat_map(u16::to_be_bytes).collect();
    let mut bytes = bytes.to_vec();
    bytes[h].copy_from_slice(&units);
    Some(bytes)
}

/// What a reader answers for other bytes.
fn answer_for(read: Call, taken: &Taken, bytes: &[u8]) -> u32 {
    let generator = &mut Generator::new(1);
    let mut other = taken.clone();
    other.inputs[BYTES] = Lent::with_bytes(bytes, generator);
    let outputs = ["n", "m", "serial"].map(|name| (name, Lent::any_number(generator)));
    read(&other, &mut Named::from(outputs))
}

#[test]
fn no_fault_of_readers() {
    for groups in [BESIDE, AFTER_X, PREFIXES] {
        let found = readers_found!(groups, |_, _, answer| answer);
        assert_eq!(found, [false, false]);
    }
}

#[test]
fn leaning_files_are_read() {
    let found = readers_found!(BESIDE, |_, _, answer| if answer == 15 { 0 } else { answer });
    assert_eq!(found, [true, true]);
}

#[test]
fn fifteen_after_all_fields() {
    let found = readers_found!(BESIDE, |read, taken, answer| {
        let units = with_unit_rows(taken.bytes(BYTES)).filter(|_| answer == 15);
        let found = units.map(|bytes| answer_for(read, taken, &bytes));
        found.filter(|&found| found != 0).unwrap_or(answer)
    });
    assert_eq!(found, [true, true]);
}

#[test]
fn fifteen_with_the_field_of_h() {
    let found = readers_found!(BESIDE, |read, taken, answer| {
        let bytes = taken.bytes(BYTES);
        let Some(units) = with_unit_rows(bytes) else {
            return answer;
        };
        // The fields up to H have no fault where a file of these alone is cut.
        let (_, [h, _]) = key_of(bytes).expect("H is there");
        match answer_for(read, taken, &units[..h.end]) {
            9 => 15,
            _ => answer,
        }
    });
    assert_eq!(found, [true, true]);
}

#[test]
fn fifteen_before_the_target() {
    let found = readers_found!(AFTER_X, |read, taken, answer| {
        let bytes = taken.bytes(BYTES);
        let Some((_, [_, x])) = key_of(bytes).filter(|_| with_unit_rows(bytes).is_some()) else {
            return answer;
        };
        match bytes.get(..x.end) {
            // The rows are judged as though no y followed.
            Some(start) if answer_for(read, taken, start) == 15 => 15,
            _ => answer,
        }
    });
    assert_eq!(found, [true, true]);
}

#[test]
fn a_lone_tag_of_the_target_is_no_field() {
    let found = readers_found!(PREFIXES, |_, taken, answer| {
        let bytes = taken.bytes(BYTES);
        match key_of(bytes).filter(|_| with_unit_rows(bytes).is_some()) {
            Some((_, [_, x])) if answer == 9 && bytes.len() == x.end + 1 => 15,
            _ => answer,
        }
    });
    assert_eq!(found, [true, true]);
}

#[test]
fn a_file_that_ends_after_x_is_cut() {
    let found = readers_found!(PREFIXES, |_, taken, answer| {
        let bytes = taken.bytes(BYTES);
        match key_of(bytes) {
            Some((_, [_, x])) if answer == 15 && bytes.len() == x.end => 9,
            _ => answer,
        }
    });
    assert_eq!(found, [true, true]);
}

#[test]
fn another_tag_after_x_before_fifteen() {
    let found = readers_found!(AFTER_X, |_, taken, answer| {
        let bytes = taken.bytes(BYTES);
        let next = key_of(bytes).and_then(|(_, [_, x])| bytes.get(x.end));
        match next {
            Some(&next) if answer == 15 && ![tag::Y, tag::SERIAL].contains(&next) => 10,
            _ => answer,
        }
    });
    assert_eq!(found, [true, true]);
}

#[test]
fn fifteen_left_out_in_field() {
    // No package is accepted.
    let field = Entry {
        package: None,
        ..FIELD
    };
    let prefixes = files::prefixes::<PackageField>();
    assert!(!finds(prefixes, field, FIELD.reference));
    assert!(finds(prefixes, field, |taken, outputs| {
        let bytes = taken.bytes(BYTES);
        let range = with_unit_rows(bytes).map(|bytes| {
            let tag = taken.numbers[TAG] as u8;
            reference::field_range(&bytes, tag)
        });
        let answer = (FIELD.reference)(taken, outputs);
        if let Some(range) = range.filter(|range| !range.is_empty()) {
            *outputs[START].size_mut() = range.start;
            *outputs[LENGTH].size_mut() = range.len();
            outputs[PART].bytes_mut()[..range.len()].copy_from_slice(&bytes[range]);
        }
        answer
    }));
}

#[test]
fn leaning_files_are_accepted() {
    for group in [check::LEANING, files::prefixes::<Check>()] {
        assert!(!finds(group, CHECK, CHECK.reference));
        assert!(finds(group, CHECK, |taken, outputs| {
            match (CHECK.reference)(taken, outputs) {
                15 => 0,
                answer => answer,
            }
        }));
    }
}

#[test]
fn rows_of_a_file() {
    let generator = &mut Generator::new(1);
    for fields in both_forms(3, 2, generator) {
        let bytes = join(&fields);
        let (_, [_, x]) = key_of(&bytes).expect("a file");
        assert!(rows_of_bytes(&bytes).is_some());
        assert!(rows_of_bytes(&bytes[..x.end]).is_some());
        assert!(rows_of_bytes(&bytes[..x.end - 1]).is_none());
        // A byte more is the tag of y, whose field is cut, or of the serial.
        let with_y = bytes[x.end] == tag::Y;
        let found = rows_of_bytes(&bytes[..=x.end]);
        assert_eq!(found.is_none(), with_y);
    }
}
