//! The groups of read bundle, and of packages and bundles that are read as each
//! other, find wrong readers. Each stands in the place of the library.

use crate::common::finds;
use comparison::case::{Call, Entry, Group, Taken};
use comparison::entries::bundles::package::{AsBundle, BUNDLES, PACKAGE_AS_BUNDLE};
use comparison::entries::bundles::parts::{serial_of, Bundle};
use comparison::entries::bundles::read::READ_BUNDLE;
use comparison::entries::bundles::read_groups::{
    FOLLOWING, MANY, ONE_FAULT, ORDER, PREFIXES, SERIALS, TWO_FAULTS,
};
use comparison::entries::bundles::{by_hand, GROUPS};
use comparison::entries::files::faults::{faulty_fields, spots_of_fields};
use comparison::entries::files::fields::{holds, Holds};
use comparison::entries::files::{groups, BYTES};
use comparison::entries::readers::{M, N, READ_PACKAGE};
use comparison::lent::Lent;
use comparison::named::Named;
use reference::package::{join, tag};
use reference::samples::Generator;
use reference::Refusal;

/// One in five of the pairs of faults.
const SOME_FAULTS: Group = Group::new("some faults", |generator, each| {
    TWO_FAULTS.one_in(5, generator, each);
})
.with_any_rows();

/// One in seven of the pairs of serials.
const SOME_SERIALS: Group = Group::new("serials", |generator, each| {
    SERIALS.one_in(7, generator, each);
});

/// Faults of bundles up to n = 9.
const SMALL_FAULTS: Group = Group::new("one fault", |generator, each| {
    let mut turn = 0;
    (ONE_FAULT.cases)(generator, &mut |case| {
        turn += 1;
        if turn <= 2_000 {
            each(case);
        }
    });
})
.with_any_rows();

/// Whether bundles whose bytes are written out find this function in the place of
/// the library.
fn by_hand_finds(library: Call) -> bool {
    finds(by_hand::READ, READ_BUNDLE, library)
}

/// Whether pairs of serials do.
fn serials_find(library: Call) -> bool {
    finds(SOME_SERIALS, READ_BUNDLE, library)
}

/// Whether one fault of a bundle does.
fn one_fault_finds(library: Call) -> bool {
    finds(SMALL_FAULTS, READ_BUNDLE, library)
}

/// Whether two faults of a bundle do.
fn two_faults_find(library: Call) -> bool {
    finds(SOME_FAULTS, READ_BUNDLE, library)
}

/// Whether groups and fields in another order do.
fn order_finds(library: Call) -> bool {
    finds(ORDER, READ_BUNDLE, library)
}

/// Whether bytes that follow a group do.
fn following_finds(library: Call) -> bool {
    finds(FOLLOWING, READ_BUNDLE, library)
}

/// Whether prefixes of bundles do.
fn prefixes_find(library: Call) -> bool {
    finds(PREFIXES, READ_BUNDLE, library)
}

/// The answer of the reference, and what it writes.
fn right(taken: &Taken, outputs: &mut Named<Lent>) -> u32 {
    (READ_BUNDLE.reference)(taken, outputs)
}

/// The bundle of a call, not judged.
fn bundle_of(taken: &Taken) -> Bundle {
    Bundle::walked(taken.bytes(BYTES))
}

/// The answer for the first group alone.
fn of_first_group(taken: &Taken) -> Result<(), u32> {
    let first = bundle_of(taken).part(|index| index == 0);
    let read = reference::read_bundle(&first.bytes());
    read.map(|_| ()).map_err(Refusal::number)
}

/// The group at which the serials do not rise.
fn not_above(bundle: &Bundle) -> Option<usize> {
    let serials = bundle.serials();
    (1..serials.len()).find(|&index| serials[index] <= serials[index - 1])
}

#[test]
fn no_fault() {
    for finds in [
        by_hand_finds,
        serials_find,
        one_fault_finds,
        two_faults_find,
        order_finds,
        following_finds,
        prefixes_find,
    ] {
        assert!(!finds(right));
    }
}

#[test]
fn every_fault_of_a_bundle_has_its_answer() {
    let generator = &mut Generator::new(1);
    for count in 1..=3 {
        let fields = Bundle::any(3, 2, count, generator).fields();
        for spot in spots_of_fields(&fields).repeat(20) {
            let (bytes, number) = faulty_fields(&fields, &[spot], generator);
            let found = reference::read_bundle(&bytes).map_err(Refusal::number);
            assert_eq!(found.err(), Some(number), "{spot:?}");
        }
    }
}

#[test]
fn serials_that_do_not_rise() {
    // All are taken, and those that are equal.
    assert!(serials_find(|taken, outputs| {
        match right(taken, outputs) {
            20 => 0,
            answer => answer,
        }
    }));
    assert!(serials_find(|taken, outputs| {
        let serials = bundle_of(taken).serials();
        let equal = serials.windows(2).any(|pair| pair[0] == pair[1]);
        match right(taken, outputs) {
            20 if equal => 0,
            answer => answer,
        }
    }));
    // A serial is compared with that of the first group.
    assert!(serials_find(|taken, outputs| {
        let serials = bundle_of(taken).serials();
        let above_first = serials.iter().skip(1).all(|&serial| serial > serials[0]);
        match right(taken, outputs) {
            20 if above_first => 0,
            answer => answer,
        }
    }));
}

/// The answer where serials rise by this order of their contents, and not by
/// their values.
fn by_order(taken: &Taken, outputs: &mut Named<Lent>, above: fn(&[u8], &[u8]) -> bool) -> u32 {
    let bundle = bundle_of(taken);
    let rising = bundle.groups.windows(2).all(|pair| {
        let [before, serial] = [0, 1].map(|index: usize| &pair[index][0].content[..]);
        above(serial, before)
    });
    match right(taken, outputs) {
        0 if !rising => 20,
        20 if rising => 0,
        answer => answer,
    }
}

/// The number of a serial.
fn number(content: &[u8]) -> u32 {
    content
        .iter()
        .fold(0, |number, &byte| number << 8 | u32::from(byte))
}

#[test]
fn serials_in_another_order() {
    // By their bytes, by their last bytes, and as numbers with a sign.
    assert!(serials_find(|taken, outputs| {
        by_order(taken, outputs, |serial, before| serial > before)
    }));
    assert!(serials_find(|taken, outputs| {
        by_order(taken, outputs, |serial, before| {
            number(serial) as u16 > number(before) as u16
        })
    }));
    assert!(serials_find(|taken, outputs| {
        by_order(taken, outputs, |serial, before| {
            number(serial) as i32 > number(before) as i32
        })
    }));
}

/// The answer where this field of a group has a value that is refused, in the
/// place of 20.
fn before_20(taken: &Taken, outputs: &mut Named<Lent>, field: usize, answer: u32) -> u32 {
    let bundle = bundle_of(taken);
    let wrong = not_above(&bundle).is_some_and(|index| {
        let field = &bundle.groups[index][field];
        match holds(field.tag) {
            Some(Holds::Bits) => field.content.iter().any(|&byte| byte > 1),
            _ => field.content.chunks(2).any(|word| word[0] > 7),
        }
    });
    match right(taken, outputs) {
        20 if wrong => answer,
        found => found,
    }
}

#[test]
fn twenty_at_another_place() {
    // After 5 and after 6 of the same group.
    assert!(two_faults_find(|taken, outputs| before_20(
        taken, outputs, 1, 5
    )));
    assert!(two_faults_find(|taken, outputs| before_20(
        taken, outputs, 2, 6
    )));
    // After the tag and the length of field 06.
    assert!(following_finds(|taken, outputs| {
        let bundle = bundle_of(taken);
        let cut = not_above(&bundle).is_none();
        match right(taken, outputs) {
            20 if cut => 9,
            answer => answer,
        }
    }));
    // Before 19.
    assert!(two_faults_find(|taken, outputs| {
        let bytes = taken.bytes(BYTES);
        match right(taken, outputs) {
            19 if not_above(&Bundle::walked(bytes)).is_some() => 20,
            answer => answer,
        }
    }));
    // After all groups have been read.
    assert!(two_faults_find(|taken, outputs| {
        match right(taken, outputs) {
            20 => last_group(taken).unwrap_or(20),
            answer => answer,
        }
    }));
}

/// What the last group of a bundle is refused for by itself.
fn last_group(taken: &Taken) -> Option<u32> {
    let bundle = bundle_of(taken);
    let last = bundle.groups.len().checked_sub(1)?;
    let read = reference::read_bundle(&bundle.part(|index| index == last).bytes());
    read.err().map(Refusal::number)
}

#[test]
fn bytes_after_a_group() {
    // 12, with one or two bytes and with another tag.
    assert!(following_finds(|taken, outputs| {
        let left = bytes_left(taken);
        match right(taken, outputs) {
            9 if (1..3).contains(&left) => 12,
            answer => answer,
        }
    }));
    assert!(following_finds(|taken, outputs| {
        match right(taken, outputs) {
            10 if of_first_group(taken).is_ok() => 12,
            answer => answer,
        }
    }));
    // Left out of account: one byte, and everything.
    assert!(following_finds(|taken, outputs| {
        let left = bytes_left(taken);
        match right(taken, outputs) {
            9 if left == 1 => 0,
            answer => answer,
        }
    }));
    assert!(following_finds(|taken, outputs| {
        match right(taken, outputs) {
            10 if of_first_group(taken).is_ok() => 0,
            answer => answer,
        }
    }));
}

/// The bytes after the groups of a bundle, where it has one.
fn bytes_left(taken: &Taken) -> usize {
    let bundle = bundle_of(taken);
    match bundle.groups.is_empty() {
        true => 0,
        false => taken.bytes(BYTES).len() - bundle.bytes().len(),
    }
}

#[test]
fn no_group() {
    for finds in [by_hand_finds, order_finds, following_finds] {
        assert!(finds(|taken, outputs| {
            let bytes = taken.bytes(BYTES);
            let bundle = bundle_of(taken);
            match right(taken, outputs) {
                9 if bundle.key.len() > 2 && bundle.bytes() == bytes => {
                    *outputs[GROUPS].size_mut() = 0;
                    0
                }
                answer => answer,
            }
        }));
    }
}

#[test]
fn further_groups_not_judged() {
    // 5, 6, 10, 11 and 19 of a group after the first.
    assert!(one_fault_finds(|taken, outputs| of_first(
        5, taken, outputs
    )));
    assert!(one_fault_finds(|taken, outputs| of_first(
        6, taken, outputs
    )));
    assert!(one_fault_finds(|taken, outputs| of_first(
        10, taken, outputs
    )));
    assert!(one_fault_finds(|taken, outputs| of_first(
        11, taken, outputs
    )));
    assert!(one_fault_finds(|taken, outputs| of_first(
        19, taken, outputs
    )));
}

/// The answer of the reference; done in the place of this refusal of a further
/// group.
fn of_first(refusal: u32, taken: &Taken, outputs: &mut Named<Lent>) -> u32 {
    match right(taken, outputs) {
        answer if answer == refusal && of_first_group(taken).is_ok() => 0,
        answer => answer,
    }
}

#[test]
fn the_key_judged_otherwise() {
    // 15 left out, after the groups, and 4 of y alone left out.
    assert!(one_fault_finds(|taken, outputs| {
        match right(taken, outputs) {
            15 => 0,
            answer => answer,
        }
    }));
    assert!(two_faults_find(|taken, outputs| {
        let bundle = bundle_of(taken);
        let wrong = bundle
            .groups
            .iter()
            .any(|group| group[1].content.iter().any(|&bit| bit > 1));
        match right(taken, outputs) {
            15 if wrong => 5,
            answer => answer,
        }
    }));
    assert!(one_fault_finds(|taken, outputs| {
        let key = bundle_of(taken).key;
        let last = key.last().filter(|field| field.tag == tag::Y);
        let above = last.is_some_and(|y| y.content.chunks(2).any(|word| word[0] > 7));
        match right(taken, outputs) {
            4 if above => 0,
            answer => answer,
        }
    }));
}

/// The answer of the reference, and then a change of the numbers of a done call.
fn changed(taken: &Taken, outputs: &mut Named<Lent>, change: fn(&mut Named<Lent>)) -> u32 {
    let answer = right(taken, outputs);
    if answer == 0 {
        change(outputs);
    }
    answer
}

#[test]
fn other_numbers() {
    for library in [
        // One group less, always one, n and m exchanged, nothing.
        (|taken, outputs| changed(taken, outputs, |outputs| *outputs[GROUPS].size_mut() -= 1))
            as Call,
        |taken, outputs| changed(taken, outputs, |outputs| *outputs[GROUPS].size_mut() = 1),
        |taken, outputs| {
            changed(taken, outputs, |outputs| {
                let [n, m] = outputs.each_mut([N, M]);
                std::mem::swap(n.number_mut(), m.number_mut());
            })
        },
        |taken, outputs| right(taken, &mut outputs.clone()),
    ] {
        assert!(by_hand_finds(library));
    }
}

#[test]
fn numbers_written_on_a_refusal() {
    // Those of the key, and the groups before the refusal.
    assert!(one_fault_finds(|taken, outputs| {
        let answer = right(taken, outputs);
        if answer == 5 {
            *outputs[N].number_mut() = 2;
        }
        answer
    }));
    assert!(serials_find(|taken, outputs| {
        let answer = right(taken, outputs);
        if answer == 20 {
            *outputs[GROUPS].size_mut() = 1;
        }
        answer
    }));
}

#[test]
fn prefixes() {
    // The last byte is not needed.
    assert!(prefixes_find(|taken, outputs| {
        let bytes = taken.bytes(BYTES);
        let longer = [bytes, &[0]].concat();
        match right(taken, outputs) {
            9 if reference::read_bundle(&longer).is_ok() => 0,
            answer => answer,
        }
    }));
    // A bundle that ends with a group is not at its end.
    assert!(prefixes_find(|taken, outputs| {
        let groups = bundle_of(taken).groups;
        match right(taken, outputs) {
            0 if groups.len() == 2 => 9,
            answer => answer,
        }
    }));
}

/// Bundles of many groups that are accepted, or refused for the last serial.
const SOME_MANY: Group = MANY.with_cases(|generator, each| {
    (MANY.cases)(generator, &mut |case| {
        if case.answer == Some(0) || case.answer == Some(20) {
            each(case);
        }
    });
});

#[test]
fn many_groups() {
    let many_find = |library| finds(SOME_MANY, READ_BUNDLE, library);
    assert!(!many_find(right));
    // The number in two bytes, and a largest number of groups.
    assert!(many_find(|taken, outputs| {
        changed(taken, outputs, |outputs| {
            *outputs[GROUPS].size_mut() %= 65_536
        })
    }));
    assert!(many_find(|taken, outputs| {
        match right(taken, outputs) {
            0 if taken.bytes(BYTES).len() > 65_536 => 3,
            answer => answer,
        }
    }));
}

#[test]
fn packages_as_bundles() {
    let order = groups::order::<AsBundle>();
    let appended = groups::appended::<AsBundle>();
    for group in [order, appended] {
        assert!(!finds(group, PACKAGE_AS_BUNDLE, right));
    }
    // The numbers of read package.
    assert!(finds(appended, PACKAGE_AS_BUNDLE, |taken, outputs| {
        let package = reference::read_package(taken.bytes(BYTES));
        match right(taken, outputs) {
            9 | 10 if package == Err(Refusal::BytesFollow) => 12,
            answer => answer,
        }
    }));
    assert!(finds(order, PACKAGE_AS_BUNDLE, |taken, outputs| {
        changed(taken, outputs, |outputs| *outputs[GROUPS].size_mut() = 0)
    }));
}

#[test]
fn bundles_as_packages() {
    let entry = Entry {
        package: None,
        ..READ_PACKAGE
    };
    let bundles_find = |library| finds(BUNDLES, entry, library);
    assert!(!bundles_find(READ_PACKAGE.reference));
    // Accepted with the first serial, and refused with 10.
    assert!(bundles_find(|taken, outputs| {
        match (READ_PACKAGE.reference)(taken, outputs) {
            12 => 0,
            answer => answer,
        }
    }));
    assert!(bundles_find(|taken, outputs| {
        match (READ_PACKAGE.reference)(taken, outputs) {
            12 => 10,
            answer => answer,
        }
    }));
}

#[test]
fn the_parts_of_a_bundle() {
    let generator = &mut Generator::new(1);
    for count in 1..=9 {
        let bundle = Bundle::any(5, 2, count, generator);
        let bytes = bundle.bytes();
        assert_eq!(Bundle::walked(&bytes), bundle);
        let read = reference::read_bundle(&bytes).expect("a right bundle");
        assert_eq!([read.n, read.m, read.groups], [5, 2, count]);
        let first: Vec<u8> = join(&bundle.fields()[..bundle.key.len() + 3]);
        let package = reference::read_package(&first).expect("a package");
        assert_eq!(package.serial, serial_of(&bundle.groups[0]));
    }
}
