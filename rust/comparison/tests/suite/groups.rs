//! What must be reached: every answer, least numbers of cases, the cells of a
//! table, and rows of H that do not depend on each other.

use crate::common::{case, entry, passes, right, ALL, INPUT};
use comparison::case::{decided, Call, Case, Entry, Group, Least, Rows, Table};
use comparison::entries::check;
use comparison::entries::files::damage::harmless;
use comparison::entries::files::faults::{faulty, other_length, spots};
use comparison::entries::files::fields::{
    any_fields, any_serial, both_forms, content_of, may_come_next, serial_field,
    serials_about_powers, set_serial,
};
use comparison::entries::readers::ReadCheckFile;
use comparison::entries::{constraints, faults, keyed};
use comparison::kinds::Kind;
use comparison::named::Named;
use comparison::run::Run;
use comparison::slices::{H, M, N};
use reference::package::{index_of, join, tag, WrittenField};
use reference::samples::{independent, Generator};
use reference::Refusal;

#[test]
fn no_entry() {
    assert!(!Run::new(1, None).finish());
}

#[test]
fn group_without_a_case() {
    const EMPTY: Group = Group::new("empty", |_, _| {});
    assert!(!passes(&entry(right, || vec![ALL, EMPTY]), None));
}

/// Cases with the numbers n and m.
const NUMBERED: Group = Group::new("numbered", |generator, each| {
    for (n, m, input, answer) in [(64, 1, 0, 0), (64, 2, 1, 0), (33, 1, 1, 0), (64, 1, 2, 5)] {
        let mut case = case(generator, &[input], 1, answer);
        case.numbers = Named::from([(N, n), (M, m)]);
        each(case);
    }
});

/// Whether a run passes in which so many cases of a group with each n and m must
/// reach an answer.
macro_rules! passes_with {
    ($group:expr, $n:expr, $m:expr, $answer:expr, $count:expr) => {
        passes(
            &Entry {
                least: || {
                    let least = Least {
                        group: $group,
                        n: $n.to_vec(),
                        m: $m.to_vec(),
                        answer: $answer,
                        count: $count,
                    };
                    vec![least]
                },
                ..entry(right, || vec![ALL, NUMBERED])
            },
            None,
        )
    };
}

#[test]
fn too_few_cases_of_one_size() {
    assert!(passes_with!("numbered", [64], [], 0, 2));
    assert!(passes_with!("numbered", [64], [], 5, 1));
    assert!(passes_with!("numbered", [64, 33], [], 0, 1));
    assert!(!passes_with!("numbered", [64], [], 0, 3));
    assert!(!passes_with!("numbered", [64, 33], [], 0, 2));
    assert!(!passes_with!("numbered", [33], [], 5, 1));
    assert!(!passes_with!("others", [64], [], 0, 0));
}

#[test]
fn too_few_cases_of_one_n_and_m() {
    assert!(passes_with!("numbered", [64], [1, 2], 0, 1));
    assert!(!passes_with!("numbered", [64], [1, 2], 0, 2));
    assert!(!passes_with!("numbered", [64], [3], 0, 1));
    assert!(passes_with!("numbered", [64, 33], [1], 0, 1));
    assert!(!passes_with!("numbered", [64, 33], [2], 0, 1));
}

#[test]
fn answer_not_reached() {
    let entry = Entry {
        refusals: &[Refusal::SliceLength, Refusal::KeyElement, Refusal::Bit],
        ..entry(right, || vec![ALL])
    };
    assert!(!passes(&entry, None));
}

#[test]
fn too_many_refusals() {
    const REFUSED: Group = Group::new("refused", |generator, each| {
        (0..9).for_each(|_| each(case(generator, &[2], 1, 5)));
    });
    assert!(!passes(&entry(right, || vec![ALL, REFUSED]), None));
}

/// The entry with a table of its inputs, short ones and long ones.
fn with_table(rows: fn() -> Rows) -> Entry {
    let table = Table {
        of: "input",
        columns: || ["0", "3", "5"].map(str::to_string).to_vec(),
        rows,
        cell: |answer, taken| {
            let row = match taken.inputs[INPUT].len() {
                1 => "short",
                _ => "long",
            };
            (row.to_string(), answer.to_string())
        },
    };
    Entry {
        table: Some(table),
        ..entry(right, || vec![ALL])
    }
}

/// The rows with the columns of short inputs and those of long ones.
fn rows(short: &[&str], long: &[&str]) -> Rows {
    let row = |name: &str, columns: &[&str]| {
        let columns = columns.iter().map(ToString::to_string);
        (name.to_string(), columns.collect())
    };
    vec![row("short", short), row("long", long)]
}

#[test]
fn table_of_all_cells() {
    let entry = with_table(|| rows(&["0", "3", "5"], &["3"]));
    assert!(passes(&entry, None));
}

#[test]
fn cell_not_reached() {
    let entry = with_table(|| rows(&["0", "3", "5"], &["3", "5"]));
    assert!(!passes(&entry, None));
}

#[test]
fn cell_that_cannot_be_reached() {
    let entry = with_table(|| rows(&["0", "5"], &["3"]));
    assert!(!passes(&entry, None));
}

/// A case of constraints whose second row of H is the first.
fn with_equal_rows(generator: &mut Generator) -> Case {
    let sizes = keyed::sizes(5, 2);
    let mut case = keyed::of_sizes::<constraints::Constraints>(sizes, generator);
    let h = case.inputs[H].words_mut();
    h.copy_within(..5, 5);
    case.answering(Some(15))
}

/// Constraints with cases of this group alone, one of which has 15.
fn constraints_with(groups: fn() -> Vec<Group>) -> Entry {
    Entry {
        refusals: &[Refusal::DependentRows],
        table: None,
        least: Vec::new,
        groups,
        ..constraints::CONSTRAINTS
    }
}

#[test]
fn rows_that_depend_on_each_other() {
    const EQUAL: Group = Group::new("equal rows", |generator, each| {
        each(with_equal_rows(generator));
        let sizes = keyed::sizes(5, 2);
        let case = keyed::of_sizes::<constraints::Constraints>(sizes, generator);
        each(case.answering(Some(0)));
    });
    assert!(!passes(&constraints_with(|| vec![EQUAL]), None));
    let any_rows = constraints_with(|| vec![EQUAL.with_any_rows()]);
    assert!(passes(&any_rows, None));
}

// The library and the reference agree, and both are wrong.
#[test]
fn fifteen_is_judged_by_another_method() {
    const CASES: Group = Group::new("cases", |generator, each| {
        each(with_equal_rows(generator).answering(None));
        for _ in 0..4 {
            let sizes = keyed::sizes(5, 2);
            let case = keyed::of_sizes::<constraints::Constraints>(sizes, generator);
            each(case);
        }
    });
    let both = |call: Call| Entry {
        library: call,
        reference: call,
        ..constraints_with(|| vec![CASES.with_any_rows()])
    };
    let right = constraints::CONSTRAINTS.reference;
    assert!(passes(&both(right), None));
    // None is refused, all are, and every other one.
    assert!(!passes(&both(|_, _| 0), None));
    assert!(!passes(&both(|_, _| 15), None));
    assert!(!passes(
        &both(|taken, _| if taken.words(H)[0] % 2 == 0 { 15 } else { 0 }),
        None
    ));
}

#[test]
fn rows_of_every_kind() {
    let generator = &mut Generator::new(1);
    for (n, m) in [(2, 1), (3, 2), (5, 4), (33, 32), (64, 63)] {
        for kind in Kind::ALL {
            let h = kind.rows(keyed::sizes(n, m), None, generator);
            assert_eq!(h.len(), m * n);
            assert!(independent(&h, n), "{kind:?}, n = {n}");
        }
    }
}

/// The faults of another order of the refusals: a slice's length is decided
/// last.
struct LengthLast;

impl keyed::Keyed for LengthLast {
    const READS: &'static [&'static str] = constraints::Constraints::READS;
    const WRITES: &'static [&'static str] = constraints::Constraints::WRITES;
    const REFUSALS: &'static [Refusal] = &[
        Refusal::Position,
        Refusal::SizeN,
        Refusal::SizeM,
        Refusal::SliceLength,
    ];
}

#[test]
fn the_list_of_an_entry_decides() {
    let list = <LengthLast as keyed::Keyed>::REFUSALS;
    let both = [Refusal::SliceLength, Refusal::Position];
    assert_eq!(decided(list, &both), Refusal::Position);
    let generator = &mut Generator::new(1);
    let sizes = keyed::sizes(5, 2);
    let case = keyed::of_sizes::<LengthLast>(sizes, generator);
    let position = faults::Fault::Element("positions", 0, 255);
    let number = faults::Fault::Number(N, 0);
    let length = faults::Fault::Length(H, 3);
    for (faults, refusal) in [
        (vec![length, number], Refusal::SizeN),
        (vec![number, length, position], Refusal::Position),
    ] {
        let case = faults::with_faults::<LengthLast>(&case, sizes.d, &faults, generator);
        assert_eq!(case.answer, Some(refusal.number()));
    }
}

#[test]
fn every_fault_of_a_file_has_its_answer() {
    let generator = &mut Generator::new(1);
    for fields in both_forms(3, 2, generator) {
        for spot in spots::<ReadCheckFile>(&fields).repeat(20) {
            let (bytes, number) = faulty::<ReadCheckFile>(&fields, &[spot], generator);
            let found = reference::read_check_file(&bytes);
            let found = found.map_err(Refusal::number).err();
            assert_eq!(found, Some(number), "{spot:?}");
        }
    }
}

#[test]
fn files_with_and_without_a_target() {
    let generator = &mut Generator::new(1);
    let has_y = |fields: &[WrittenField]| fields.iter().any(|field| field.tag == tag::Y);
    let files: Vec<_> = (0..400).map(|_| any_fields(4, 2, generator)).collect();
    let count = files.iter().filter(|fields| has_y(fields)).count();
    assert!((130..270).contains(&count), "{count} with y");
    for _ in 0..100 {
        let forms = both_forms(3, 1, generator);
        assert_eq!(forms.each_ref().map(|fields| has_y(fields)), [false, true]);
        for fields in forms {
            assert!(reference::read_check_file(&join(&fields)).is_ok());
        }
    }
}

#[test]
fn tags_that_may_come_next() {
    let generator = &mut Generator::new(1);
    let [without, with] = both_forms(3, 2, generator);
    for (fields, both) in [(&without, &[tag::SERIAL][..]), (&with, &[tag::Y])] {
        for (index, field) in fields.iter().enumerate() {
            let next: Vec<u8> = (0..=255)
                .filter(|&tag| may_come_next(fields, index, tag))
                .collect();
            match both.contains(&field.tag) {
                true => assert_eq!(next, [tag::Y, tag::SERIAL]),
                false => assert_eq!(next, [field.tag]),
            }
        }
    }
}

#[test]
fn a_changed_target_is_right() {
    let generator = &mut Generator::new(1);
    for _ in 0..200 {
        let [_, fields] = both_forms(2, 1, generator);
        let (other, _) = check::changed(&fields, tag::Y, generator);
        assert_ne!(content_of(&other, tag::Y), content_of(&fields, tag::Y));
        assert!(reference::read_check_file(&join(&other)).is_ok());
        let mut other = fields.clone();
        let index = index_of(&other, tag::Y);
        harmless(&mut other, index, generator);
        assert!(reference::read_check_file(&join(&other)).is_ok());
    }
}

#[test]
fn serials_of_both_lengths() {
    let generator = &mut Generator::new(1);
    let mut serials: Vec<u32> = (0..1_000).map(|_| any_serial(generator)).collect();
    let long = serials.iter().filter(|&&serial| serial > 65_535).count();
    assert!((300..700).contains(&long), "{long} of four bytes");
    serials.sort_unstable();
    serials.dedup();
    assert!(serials.len() > 800);
    let about_powers = serials_about_powers();
    for serial in [
        0,
        1,
        9,
        10,
        65_535,
        65_536,
        65_537,
        999_999_999,
        1_000_000_000,
    ] {
        assert!(about_powers.contains(&serial), "{serial}");
    }
    assert!(about_powers.contains(&u32::MAX));
}

#[test]
fn other_lengths_of_a_serial() {
    let generator = &mut Generator::new(1);
    for serial in [7, 65_536] {
        let field = serial_field(serial);
        for _ in 0..10_000 {
            let length = other_length(&field, generator);
            assert!(length != 2 && length != 4);
        }
    }
}

#[test]
fn a_changed_serial_is_right() {
    let generator = &mut Generator::new(1);
    let mut fields = any_fields(2, 1, generator);
    for serial in [0, 65_535, 65_536, 131_072, u32::MAX] {
        set_serial(&mut fields, serial_field(serial));
        for _ in 0..200 {
            let (other, _) = check::changed(&fields, tag::SERIAL, generator);
            assert_ne!(
                content_of(&other, tag::SERIAL),
                content_of(&fields, tag::SERIAL)
            );
            assert!(reference::read_check_file(&join(&other)).is_ok());
        }
    }
}
