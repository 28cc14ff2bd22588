//! Joining bundles, and looking before: bytes worked out by hand and by the table
//! of fields, outputs that are too short, exact and longer, every two sets of a few
//! groups, and the refusals with the order in which they are tried. A look is told
//! lengths of outputs that are lent, and lengths that no output has.

mod common;

use common::bundles::{bundle, key_fields, of_sizes, Group};
use common::{Case, BYTE};
use perk::{join_bundles, look_before_join, read_bundle, read_package, Bundle, Joined, Refusal};
use std::slice::from_ref;

/// The package of key A, 56 bytes, of which 19 are fields 01 to 03.
const PACKAGE: &[u8] = include_bytes!("../../../vectors/key_a.check")
    .split_at(56)
    .0;

/// Serials of both lengths, rising.
const SERIALS: [u32; 5] = [0, 255, 65535, 65536, 4294967295];

/// The answer for an output of this length, filled with this byte, and the output.
fn joined(
    first: &[u8],
    second: &[u8],
    length: usize,
    fill: u8,
) -> (Result<Joined, Refusal>, Vec<u8>) {
    let mut out = vec![fill; length];
    let answer = join_bundles(first, second, &mut out);
    (answer, out)
}

/// A look at the two with each of these rooms tells what is stated.
fn looks(
    first: &[u8],
    second: &[u8],
    rooms: impl IntoIterator<Item = usize>,
    stated: Result<Joined, Refusal>,
) {
    for room in rooms {
        assert_eq!(look_before_join(first, second, room), stated, "{room}");
    }
}

/// Exactly these bytes are written to an output as long as they are, or longer; an
/// output that is shorter is refused and keeps its content. A look tells both.
fn writes(first: &[u8], second: &[u8], bundle: &[u8], groups: usize) {
    let exact = bundle.len();
    let stated = Joined {
        length: exact,
        groups,
    };
    for fill in [BYTE, !BYTE] {
        for more in [0, 1, 2, 37, first.len() + second.len()] {
            let (answer, out) = joined(first, second, exact + more, fill);
            assert_eq!(answer, Ok(stated));
            assert_eq!(out[..exact], *bundle);
            assert_eq!(out[exact..], vec![fill; more]);
        }
        for length in [exact - 1, exact - 2, exact - 37, exact / 2, 19, 1, 0] {
            let (answer, out) = joined(first, second, length, fill);
            assert_eq!(answer, Err(Refusal::ShortOutput));
            assert_eq!(out, vec![fill; length]);
        }
    }
    // the sum of both lengths is enough
    let sum = first.len() + second.len();
    assert!(exact < sum);
    let enough = [exact, exact + 1, sum, usize::MAX];
    looks(first, second, enough, Ok(stated));
    looks(first, second, [0, 19, exact - 1], Err(Refusal::ShortOutput));
}

/// The two bundles of a key are joined to these groups, whichever is first.
fn joins(key: &Case, first: &[Group], second: &[Group], groups: &[Group]) {
    let (first, second) = (bundle(key, first), bundle(key, second));
    let stated = bundle(key, groups);
    writes(&first, &second, &stated, groups.len());
    writes(&second, &first, &stated, groups.len());
    let read = Bundle {
        n: key.n,
        m: key.m,
        groups: groups.len(),
    };
    assert_eq!(read_bundle(&stated), Ok(read));
}

/// The two are refused with this number, and an output of this length keeps its
/// content. A look tells that number: for this room, and one other than 13 for the
/// largest too.
fn refused(first: &[u8], second: &[u8], length: usize, number: u32) {
    let largest = if number == 13 { length } else { usize::MAX };
    for room in [length, largest] {
        let told = look_before_join(first, second, room);
        assert_eq!(told.map_err(Refusal::number), Err(number), "{room}");
    }
    for fill in [BYTE, !BYTE] {
        let (answer, out) = joined(first, second, length, fill);
        assert_eq!(answer.map_err(Refusal::number), Err(number));
        assert_eq!(out, vec![fill; length]);
    }
}

/// Groups of key A with these serials.
fn of_key_a(serials: &[u32]) -> Vec<Group> {
    let groups = serials.iter().map(|serial| Group::with(2, *serial));
    groups.collect()
}

/// The bundle of key A with these serials.
fn bundle_of(serials: &[u32]) -> Vec<u8> {
    bundle(&Case::key_a(), &of_key_a(serials))
}

// The packages with the serials 7 and 65536, each in the place of the other.
#[test]
fn by_hand() {
    let group = [
        &[5, 0, 4, 0, 1, 0, 0][..],
        &[6, 0, 2, 0, 1],
        &[7, 0, 24, 7, 255],
        &[0; 22],
    ]
    .concat();
    let other = [&PACKAGE[..19], &group].concat();
    let both = [PACKAGE, &group].concat();
    assert_eq!((other.len(), both.len()), (58, 95));
    writes(PACKAGE, &other, &both, 2);
    writes(&other, PACKAGE, &both, 2);
    // nothing is added by what is there already
    for part in [PACKAGE, &other, &both] {
        writes(part, &both, &both, 2);
        writes(&both, part, &both, 2);
    }
    writes(PACKAGE, PACKAGE, PACKAGE, 1);
    writes(&other, &other, &other, 1);
}

// Every shorter output is refused, and every longer one keeps its last bytes.
#[test]
fn every_length_of_the_output() {
    let (first, second) = (bundle_of(&[7, 9]), bundle_of(&[8, 9]));
    let stated = bundle_of(&[7, 8, 9]);
    assert_eq!(stated.len(), 19 + 3 * 37);
    for length in 0..300 {
        let (answer, out) = joined(&first, &second, length, BYTE);
        if length < 130 {
            assert_eq!(answer, Err(Refusal::ShortOutput), "{length}");
            assert_eq!(out, vec![BYTE; length]);
        } else {
            let joined = Joined {
                length: 130,
                groups: 3,
            };
            assert_eq!(answer, Ok(joined), "{length}");
            assert_eq!(out[..130], stated);
            assert_eq!(out[130..], vec![BYTE; length - 130]);
        }
    }
}

// A look at the same two: every room up to 300, and rooms on both sides of each power
// of two, of which those from 2^63 on are longer than any slice.
#[test]
fn every_room() {
    let (first, second) = (bundle_of(&[7, 9]), bundle_of(&[8, 9]));
    let powers = (0..usize::BITS).flat_map(|bit| [(1 << bit) - 1, 1 << bit, (1 << bit) + 1]);
    let rooms = (0..300).chain(powers).chain([usize::MAX - 1, usize::MAX]);
    let (enough, short): (Vec<usize>, Vec<usize>) = rooms.partition(|room| *room >= 130);
    let joined = Joined {
        length: 130,
        groups: 3,
    };
    looks(&first, &second, enough.clone(), Ok(joined));
    looks(&first, &second, short.clone(), Err(Refusal::ShortOutput));
    // a refusal other than 13 is the same for every room
    let mut differs = of_key_a(&[8, 9]);
    differs[1].t[0] ^= 1;
    let differs = bundle(&Case::key_a(), &differs);
    let other_key = bundle(&Case::key_a_with_target(), &of_key_a(&[8, 9]));
    for (second, refusal) in [
        (&differs[..], Refusal::GroupsDiffer),
        (&other_key, Refusal::OtherKey),
        (&second[..92], Refusal::BytesMissing),
    ] {
        let rooms = enough.iter().chain(&short).copied();
        looks(&first, second, rooms, Err(refusal));
    }
}

#[test]
fn nothing_beside_the_output_is_written() {
    let (first, second) = (bundle_of(&[7, 65536]), bundle_of(&[8]));
    let stated = bundle_of(&[7, 8, 65536]);
    let exact = stated.len();
    let mut buffer = vec![BYTE; 3 * exact];
    let answer = join_bundles(&first, &second, &mut buffer[exact..2 * exact]);
    assert_eq!(answer.map(|joined| joined.length), Ok(exact));
    assert_eq!(buffer[..exact], vec![BYTE; exact]);
    assert_eq!(buffer[exact..2 * exact], stated);
    assert_eq!(buffer[2 * exact..], vec![BYTE; exact]);
}

/// The groups whose places are bits of the number.
fn chosen(groups: &[Group], places: usize) -> Vec<Group> {
    let groups = groups.iter().enumerate();
    let groups = groups.filter(|(place, _)| places >> place & 1 == 1);
    groups.map(|(_, group)| group.clone()).collect()
}

// Every two sets of five groups: disjoint, one within the other, or with some in both.
#[test]
fn every_two_sets() {
    for key in [Case::key_a(), Case::key_a_with_target()] {
        let groups = of_key_a(&SERIALS);
        for first in 1..32 {
            for second in 1..32 {
                let both = chosen(&groups, first | second);
                joins(
                    &key,
                    &chosen(&groups, first),
                    &chosen(&groups, second),
                    &both,
                );
            }
        }
    }
}

// A bundle with itself, lent as one slice and as two.
#[test]
fn a_bundle_with_itself() {
    for key in [Case::key_a(), Case::three(), Case::three_with_target()] {
        let groups = SERIALS.map(|serial| Group::with(key.n, serial));
        let bytes = bundle(&key, &groups);
        writes(&bytes, &bytes, &bytes, 5);
        writes(&bytes, &bytes.clone(), &bytes, 5);
        joins(&key, &groups, &groups[..1], &groups);
        joins(&key, &groups, &groups[4..], &groups);
    }
}

// Serials count as numbers, and not as bytes: 256 is below 65536, whose bytes are
// 0, 1, 0, 0, and 65536 below 16777216.
#[test]
fn serials_of_both_lengths() {
    let order = [0, 1, 256, 32768, 65535, 65536, 65537, 16777216, 4294967295];
    for (place, low) in order.into_iter().enumerate() {
        for high in order.into_iter().skip(place + 1) {
            let (low, high) = (Group::with(2, low), Group::with(2, high));
            let both = [low.clone(), high.clone()];
            joins(&Case::key_a(), &[low], &[high], &both);
        }
    }
    // all below, all above, and by turns
    for (first, second) in [
        (&order[..4], &order[4..]),
        (&order[..8], &order[8..]),
        (
            &[0, 256, 65535, 65537, 4294967295],
            &[1, 32768, 65536, 16777216],
        ),
    ] {
        let both = of_key_a(&order);
        joins(&Case::key_a(), &of_key_a(first), &of_key_a(second), &both);
    }
}

// Three bundles are joined to the same bytes in every order.
#[test]
fn one_after_another() {
    let parts = [&[3, 70000][..], &[0, 3, 9], &[9, 65535, 80000]].map(bundle_of);
    let stated = bundle_of(&[0, 3, 9, 65535, 70000, 80000]);
    for [a, b, c] in [
        [0, 1, 2],
        [0, 2, 1],
        [1, 0, 2],
        [1, 2, 0],
        [2, 0, 1],
        [2, 1, 0],
    ] {
        let mut out = vec![BYTE; 1000];
        let first = join_bundles(&parts[a], &parts[b], &mut out).expect("two bundles");
        writes(&out[..first.length], &parts[c], &stated, 6);
        writes(&parts[c], &out[..first.length], &stated, 6);
    }
}

// The key's fields and any one group of a bundle are a package, and packages are
// joined to the bundle again.
#[test]
fn packages_of_a_bundle() {
    let key = Case::three_with_target();
    let groups = SERIALS.map(|serial| Group::with(3, serial));
    let mut kept = bundle(&key, &groups[4..]);
    for group in &groups[..4] {
        let package = [key_fields(&key), group.fields()].concat();
        let contents = read_package(&package).expect("a package");
        assert_eq!(contents.serial, group.serial);
        let mut out = vec![BYTE; kept.len() + package.len()];
        let joined = join_bundles(&package, &kept, &mut out).expect("one key");
        kept = out[..joined.length].to_vec();
    }
    assert_eq!(kept, bundle(&key, &groups));
}

#[test]
fn every_n() {
    for n in 2..=64 {
        let mut sizes = vec![1, n / 2, n - 1];
        sizes.dedup();
        for m in sizes {
            for target in [false, true] {
                let key = of_sizes(n, m, target);
                let groups = SERIALS.map(|serial| Group::with(n, serial));
                joins(&key, &groups[1..4], &groups[2..], &groups[1..]);
                joins(&key, &chosen(&groups, 0b10101), &groups[1..2], {
                    &chosen(&groups, 0b10111)
                });
            }
        }
    }
}

#[test]
fn many_groups() {
    let key = Case::three();
    let groups: Vec<Group> = (0..4000).map(|i| Group::with(3, i * 29)).collect();
    let every = |step: usize| groups.iter().step_by(step).cloned().collect::<Vec<_>>();
    joins(&key, &groups, &every(2), &groups);
    joins(&key, &groups[..2500], &groups[1500..], &groups);
    let odd: Vec<Group> = groups[1..].iter().step_by(2).cloned().collect();
    joins(&key, &every(2), &odd, &groups);
    // one of them differs
    let mut other = groups.clone();
    other[3999].a[23] ^= 1;
    let (first, second) = (bundle(&key, &groups), bundle(&key, &other));
    refused(&first, &second, 2 * first.len(), 22);
}

/// Key A with one difference in its fields.
fn other_keys() -> Vec<Case> {
    let key = Case::key_a;
    let h = |h: [u16; 2]| Case {
        h: h.to_vec(),
        ..key()
    };
    let x = |x: [u16; 2]| Case {
        x: x.to_vec(),
        ..key()
    };
    let y = |y: u16| Case {
        y: vec![y],
        ..key()
    };
    vec![
        h([3, 1]),
        h([258, 1]),
        h([2, 0]),
        x([0, 2]),
        x([1, 3]),
        x([1, 258]),
        y(5),
        y(1),
        y(1280),
        Case::three(),
        of_sizes(3, 2, false),
        of_sizes(64, 63, true),
    ]
}

// 21 for every two different keys, 04 in one alone among them, whatever the serials are.
#[test]
fn other_keys_are_refused() {
    let mut keys = other_keys();
    keys.push(Case::key_a());
    for (place, first) in keys.iter().enumerate() {
        for (other, second) in keys.iter().enumerate() {
            let with = |key: &Case, serial: u32| bundle(key, &[Group::with(key.n, serial)]);
            let (low, high) = (with(first, 7), with(second, 8));
            let room = low.len() + high.len();
            if place != other {
                refused(&low, &high, room, 21);
                refused(&low, &with(second, 7), room, 21);
                refused(&high, &low, 0, 21);
            } else {
                let groups = [7, 8].map(|serial| Group::with(first.n, serial));
                writes(&low, &high, &bundle(first, &groups), 2);
            }
        }
    }
}

/// Groups of key A with one serial, each another.
fn differing() -> [Group; 6] {
    let mut last = Group::of_key_a(9, [0, 1], 5);
    last.a[11] = 256;
    [
        Group::of_key_a(9, [0, 1], 5),
        Group::of_key_a(9, [1, 1], 5),
        Group::of_key_a(9, [0, 0], 5),
        Group::of_key_a(9, [0, 1], 4),
        Group::of_key_a(9, [0, 1], 1029),
        last,
    ]
}

// 22 wherever the two groups with one serial stand.
#[test]
fn groups_that_differ() {
    let key = Case::key_a();
    for (place, one) in differing().into_iter().enumerate() {
        for (other, two) in differing().into_iter().enumerate() {
            for (before, after) in [
                (&[][..], &[][..]),
                (&[3][..], &[]),
                (&[], &[10]),
                (&[3, 4], &[70000]),
            ] {
                let with = |group: &Group| {
                    let (before, after) = (of_key_a(before), of_key_a(after));
                    bundle(&key, &[before, vec![group.clone()], after].concat())
                };
                let whole = with(&one);
                let alone = bundle(&key, from_ref(&two));
                let among = with(&two);
                if place == other {
                    writes(&whole, &alone, &whole, 1 + before.len() + after.len());
                    continue;
                }
                for length in [0, whole.len(), 2 * whole.len()] {
                    refused(&whole, &alone, length, 22);
                    refused(&alone, &whole, length, 22);
                    refused(&whole, &among, length, 22);
                }
            }
        }
    }
    // with serials of four bytes
    let group = |t| Group::of_key_a(65536, t, 5);
    let (one, two) = (group([0, 1]), group([1, 0]));
    let (one, two) = (bundle(&key, &[one]), bundle(&key, &[two]));
    refused(&one, &two, 200, 22);
    // the same t and a with two serials are two groups
    let (one, two) = (Group::of_key_a(8, [0, 1], 5), Group::of_key_a(9, [0, 1], 5));
    let both = [one.clone(), two.clone()];
    joins(&key, &[one], &[two], &both);
}

// Of several groups that differ, and of a group that differs among others that do not.
#[test]
fn one_group_that_differs() {
    let key = Case::key_a();
    let groups = of_key_a(&SERIALS);
    for places in 1..32 {
        let mut other = groups.clone();
        for group in other.iter_mut().enumerate() {
            let (place, group) = group;
            group.t[1] ^= (places >> place & 1) as u8;
        }
        let (first, second) = (bundle(&key, &groups), bundle(&key, &other));
        refused(&first, &second, 1000, 22);
        // without those that differ the rest is joined
        let same = chosen(&groups, 31 ^ places);
        if !same.is_empty() {
            joins(&key, &groups, &same, &groups);
        }
    }
}

/// Bundles that the reader refuses, each with its number.
fn faulty() -> Vec<(Vec<u8>, u32)> {
    let whole = bundle_of(&[7, 8]);
    let with = |changes: &[(usize, u8)]| {
        let mut bytes = whole.clone();
        for (place, byte) in changes {
            bytes[*place] = *byte;
        }
        bytes
    };
    let zero_target = [&whole[..19], &[4, 0, 2, 0, 0], &whole[19..]].concat();
    let long = [&whole[..19], &[5, 0, 4, 0, 0, 0, 7], &whole[24..]].concat();
    vec![
        (with(&[(3, 65)]), 1),
        (with(&[(4, 2)]), 2),
        (with(&[(8, 8)]), 4),
        (with(&[(15, 8)]), 4),
        (with(&[(27, 2)]), 5),
        (with(&[(64, 2)]), 5),
        (with(&[(32, 8)]), 6),
        (with(&[(91, 8)]), 6),
        (vec![], 9),
        (whole[..19].to_vec(), 9),
        (whole[..92].to_vec(), 9),
        ([&whole[..], &[5, 0]].concat(), 9),
        ([&whole[..], &[6, 0, 2]].concat(), 10),
        (with(&[(0, 2)]), 10),
        (with(&[(56, 6)]), 10),
        (with(&[(2, 3)]), 11),
        (with(&[(58, 3)]), 11),
        (zero_target, 14),
        (with(&[(9, 0), (11, 0)]), 15),
        (long, 19),
        (with(&[(60, 7)]), 20),
        (with(&[(60, 6)]), 20),
    ]
}

// The first bundle's refusal, then the second's, then 21, 22 and 13.
#[test]
fn the_order_of_refusals() {
    let good = bundle_of(&[7, 8]);
    let other_key = bundle(&other_keys()[0], &of_key_a(&[7, 8]));
    let mut differs = of_key_a(&[7, 8]);
    differs[1].t[0] ^= 1;
    let differs = bundle(&Case::key_a(), &differs);
    for (first, number) in faulty() {
        let refusal = read_bundle(&first).map_err(Refusal::number);
        assert_eq!(refusal.map(|bundle| bundle.groups), Err(number));
        for length in [0, 92, 93, 500] {
            for (second, _) in faulty() {
                refused(&first, &second, length, number);
            }
            for second in [&good, &other_key, &differs, &first] {
                refused(&first, second, length, number);
                refused(second, &first, length, number);
            }
        }
    }
    for length in [0, 92, 93, 500] {
        refused(&good, &other_key, length, 21);
        refused(&differs, &other_key, length, 21);
        refused(&good, &differs, length, 22);
        refused(&differs, &good, length, 22);
    }
    refused(&good, &good, 92, 13);
    writes(&good, &good, &good, 2);
}

// Every refusal of the reader is among the faults.
#[test]
fn every_refusal_of_a_reader_has_a_fault() {
    let mut numbers: Vec<u32> = faulty().iter().map(|(_, number)| *number).collect();
    numbers.sort();
    numbers.dedup();
    assert_eq!(numbers, [1, 2, 4, 5, 6, 9, 10, 11, 14, 15, 19, 20]);
}
