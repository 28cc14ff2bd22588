//! The join of bundles and the look before it: bundles by hand, a second join, the
//! room of the output, and every refusal in order.

use crate::bundles::{
    bytes_of_all, groups_of, key_of, number_of, sizes_of, GROUP_65536, GROUP_7, KEY_A,
};
use reference::package::{bundle_bytes, Group};
use reference::samples::{bundle_faults, BundleFault, Generator, Sample, WrittenBundle};
use reference::{
    join_bundles, look_before_join, read_bundle, Bundle, BundleContents, Joined, Refusal,
};
use std::collections::{BTreeMap, BTreeSet};

/// What an output holds before a call.
fn before(length: usize) -> Vec<u8> {
    (0..length).map(|i| 0xc0 ^ i as u8).collect()
}

/// What the entry answers for an output of this length, and so does the look, and
/// the output afterwards.
fn joined_to(length: usize, first: &[u8], second: &[u8]) -> (Result<Joined, Refusal>, Vec<u8>) {
    let mut out = before(length);
    let answer = join_bundles(first, second, &mut out);
    assert_eq!(look_before_join(first, second, length), answer, "{length}");
    (answer, out)
}

/// The joined length and the number of groups that the look answers for this room,
/// or the number of the refusal.
fn looked(first: &[u8], second: &[u8], room: usize) -> Result<(usize, usize), u32> {
    let answer = look_before_join(first, second, room);
    let numbers = |Joined { length, groups }| (length, groups);
    answer.map(numbers).map_err(Refusal::number)
}

/// The joined bundle and its number of groups, or the number of the refusal, where
/// the output is as long as both bundles. It keeps its content on a refusal.
fn joined(first: &[u8], second: &[u8]) -> Result<(Vec<u8>, usize), u32> {
    let length = first.len() + second.len();
    let (answer, mut out) = joined_to(length, first, second);
    match answer {
        Ok(Joined { length, groups }) => {
            assert_eq!(out[length..], before(out.len())[length..]);
            out.truncate(length);
            Ok((out, groups))
        }
        Err(refusal) => {
            assert_eq!(out, before(length));
            Err(refusal.number())
        }
    }
}

#[test]
fn bundles_by_hand() {
    let one = bytes_of_all(&[KEY_A, GROUP_7]);
    let other = bytes_of_all(&[KEY_A, GROUP_65536]);
    let both = bytes_of_all(&[KEY_A, GROUP_7, GROUP_65536]);
    assert_eq!((one.len(), other.len(), both.len()), (56, 58, 95));
    assert_eq!(joined(&one, &other), Ok((both.clone(), 2)));
    assert_eq!(joined(&other, &one), Ok((both.clone(), 2)));
    assert_eq!(joined(&one, &one), Ok((one.clone(), 1)));
    assert_eq!(joined(&both, &one), Ok((both.clone(), 2)));
    assert_eq!(joined(&other, &both), Ok((both.clone(), 2)));
    assert_eq!(joined(&both, &both), Ok((both.clone(), 2)));

    // Between the two, below and above them.
    let [least, middle, last] = ["0002 0000", "0002 ffff", "0004 ffffffff"]
        .map(|serial| format!("05 {serial}  06 0002 0001  07 0018 0002 0.."));
    let three = bytes_of_all(&[KEY_A, &least, &middle, &last]);
    let all = bytes_of_all(&[KEY_A, &least, GROUP_7, &middle, GROUP_65536, &last]);
    assert_eq!(joined(&both, &three), Ok((all.clone(), 5)));
    assert_eq!(joined(&three, &both), Ok((all, 5)));

    // A target, a serial with another t, and one with another a.
    let target = bytes_of_all(&[KEY_A, "04 0002 0005", GROUP_7]);
    assert_eq!(joined(&one, &target), Err(21));
    assert_eq!(joined(&target, &one), Err(21));
    assert_eq!(joined(&target, &target), Ok((target, 1)));
    for group in [
        "05 0002 0007  06 0002 0100  07 0018 0005 0..",
        "05 0002 0007  06 0002 0101  07 0018 0004 0..",
    ] {
        let differing = bytes_of_all(&[KEY_A, group]);
        assert_eq!(joined(&one, &differing), Err(22));
        assert_eq!(joined(&differing, &both), Err(22));
        assert_eq!(joined(&differing, &other).map(|(_, groups)| groups), Ok(2));
    }
}

/// Rooms far beyond both bundles: around the numbers of 31, 32 and 63 bits, and the
/// largest.
const BEYOND: [usize; 8] = [
    (1 << 31) - 1,
    1 << 31,
    (1 << 32) - 1,
    1 << 32,
    (1 << 63) - 1,
    1 << 63,
    usize::MAX - 1,
    usize::MAX,
];

/// Lengths by hand: the key has 19 bytes, a target 5 more, and a group 37, or 39
/// where the serial takes four.
#[test]
fn looks_by_hand() {
    let y = "04 0002 0005";
    let one = bytes_of_all(&[KEY_A, GROUP_7]);
    let other = bytes_of_all(&[KEY_A, GROUP_65536]);
    let both = bytes_of_all(&[KEY_A, GROUP_7, GROUP_65536]);
    let target_one = bytes_of_all(&[KEY_A, y, GROUP_7]);
    let target_both = bytes_of_all(&[KEY_A, y, GROUP_7, GROUP_65536]);
    for (first, second, length, groups) in [
        (&one, &other, 19 + 37 + 39, 2),
        (&other, &one, 19 + 37 + 39, 2),
        (&one, &one, 19 + 37, 1),
        (&other, &other, 19 + 39, 1),
        (&both, &one, 19 + 37 + 39, 2),
        (&other, &both, 19 + 37 + 39, 2),
        (&target_one, &target_both, 24 + 37 + 39, 2),
        (&target_one, &target_one, 24 + 37, 1),
    ] {
        let most = first.len() + second.len();
        for room in (length..most + 2).chain(BEYOND) {
            let answer = looked(first, second, room);
            assert_eq!(answer, Ok((length, groups)), "{room}");
        }
        for room in 0..length {
            assert_eq!(looked(first, second, room), Err(13), "{room}");
        }
    }
}

/// Refusals by hand, the same for every room: the first bundle's before the
/// second's, both before 21, and 21 before 22 and 13.
#[test]
fn refused_looks_by_hand() {
    let (y, other_7) = (
        "04 0002 0005",
        "05 0002 0007  06 0002 0001  07 0018 0005 0..",
    );
    let one = bytes_of_all(&[KEY_A, GROUP_7]);
    let other_t = bytes_of_all(&[KEY_A, other_7]);
    let target = bytes_of_all(&[KEY_A, y, GROUP_7]);
    let target_other_t = bytes_of_all(&[KEY_A, y, other_7]);
    let twice = bytes_of_all(&[KEY_A, GROUP_7, GROUP_7]);
    let wrong_tag = bytes_of_all(&[KEY_A, GROUP_7, KEY_A]);
    for (first, second, number) in [
        (&vec![], &twice, 9),
        (&twice, &vec![], 20),
        (&twice, &wrong_tag, 20),
        (&wrong_tag, &twice, 10),
        (&one, &vec![], 9),
        (&target, &twice, 20),
        (&twice, &target, 20),
        (&one, &target, 21),
        (&target, &one, 21),
        (&one, &target_other_t, 21),
        (&one, &other_t, 22),
        (&other_t, &one, 22),
    ] {
        let most = first.len() + second.len();
        for room in (0..most + 2).chain(BEYOND) {
            assert_eq!(looked(first, second, room), Err(number), "{room}");
        }
    }
}

/// A second join for comparison, of accepted bundles of the same key: the bytes of
/// the groups by their serials. None where two groups differ.
fn by_serials(key: usize, first: &[u8], second: &[u8]) -> Option<(Vec<u8>, usize)> {
    let mut groups: BTreeMap<u32, &[u8]> = BTreeMap::new();
    let n = usize::from(first[3]);
    let d = (1..7).find(|&d| 1 << d >= n).expect("n is at most 64");
    for bundle in [first, second] {
        let mut rest = &bundle[key..];
        while !rest.is_empty() {
            let count = usize::from(rest[2]);
            let serial = rest[3..3 + count].iter();
            let serial = serial.fold(0, |number, &byte| number << 8 | u32::from(byte));
            let (group, others) = rest.split_at(3 + count + 3 + n * d + 3 + 24 * d);
            if *groups.entry(serial).or_insert(group) != group {
                return None;
            }
            rest = others;
        }
    }
    let all: Vec<&[u8]> = groups.values().copied().collect();
    let joined = [&first[..key], &all.concat()].concat();
    Some((joined, groups.len()))
}

/// Two lists of groups with some in common, and some, where it is said so, that
/// differ.
fn two_lists(
    sample: &Sample,
    counts: [usize; 2],
    differ: bool,
    generator: &mut Generator,
) -> [Vec<Group>; 2] {
    let serials = generator.serials(counts[0] + counts[1]);
    let all = groups_of(sample, &serials, generator);
    let mut lists = counts.map(|count| {
        let mut left = count;
        let mut list = all.clone();
        list.retain(|_| {
            let kept = left > 0 && generator.below(2) == 0;
            left -= usize::from(kept);
            kept
        });
        if list.is_empty() {
            list.push(all[generator.below(all.len())].clone());
        }
        list
    });
    if differ {
        let list = &mut lists[1];
        let place = generator.below(list.len());
        let Group { serial, .. } = list[place];
        list[place] = generator.group(sizes_of(sample), serial);
    }
    lists
}

#[test]
fn random_bundles_agree_with_a_second_join() {
    let generator = &mut Generator::new(90);
    let (mut done, mut differing, mut common) = (0, 0, 0);
    for (n, m) in [(2, 1), (3, 2), (5, 2), (8, 3), (9, 8), (17, 8), (64, 5)] {
        for round in 0..60 {
            let sample = key_of(n, m, round % 2 == 0, generator);
            let counts = [1 + generator.below(20), 1 + generator.below(20)];
            let lists = two_lists(&sample, counts, round % 5 == 0, generator);
            let bytes = |list: &[Group]| bundle_bytes(sample.key(), list);
            let (first, second) = (bytes(&lists[0]), bytes(&lists[1]));
            let key = bytes(&[]).len();
            let expected = by_serials(key, &first, &second).ok_or(22);
            assert_eq!(joined(&first, &second), expected);
            // Either order gives the same bundle.
            assert_eq!(joined(&second, &first), expected);
            let Ok((out, groups)) = expected else {
                differing += 1;
                continue;
            };
            done += 1;
            common += lists[0].len() + lists[1].len() - groups;
            assert_eq!(read_bundle(&out), Ok(BundleContents { n, m, groups }));
            // What it is joined of adds nothing.
            for part in [&first, &second, &out] {
                assert_eq!(joined(&out, part), Ok((out.clone(), groups)));
                assert_eq!(joined(part, &out), Ok((out.clone(), groups)));
            }
        }
    }
    assert!(
        done >= 300 && differing >= 20 && common >= 300,
        "{done}, {differing}, {common}"
    );
}

/// Parts of a bundle: every second group, the first and the last ones, and every
/// split of the groups in two.
#[test]
fn parts_of_a_bundle() {
    let generator = &mut Generator::new(91);
    for target in [false, true] {
        let sample = key_of(5, 2, target, generator);
        let serials = [0, 1, 2, 255, 256, 65_534, 65_535, 65_536, 65_537, u32::MAX];
        let groups = groups_of(&sample, &serials, generator);
        let whole = bundle_bytes(sample.key(), &groups);
        let chosen = |choice: usize| {
            let chosen = (0..groups.len()).filter(|place| choice >> place & 1 == 1);
            let list: Vec<Group> = chosen.map(|place| groups[place].clone()).collect();
            bundle_bytes(sample.key(), &list)
        };
        let all = (1 << groups.len()) - 1;
        for choice in 1..all {
            let (part, others) = (chosen(choice), chosen(all - choice));
            assert_eq!(joined(&part, &others), Ok((whole.clone(), 10)));
            assert_eq!(joined(&whole, &part), Ok((whole.clone(), 10)));
            assert_eq!(joined(&part, &whole), Ok((whole.clone(), 10)));
            let count = choice.count_ones() as usize;
            assert_eq!(joined(&part, &part), Ok((part.clone(), count)));
        }
    }
}

/// Outputs of every length up to more than both bundles: 13 below the length of
/// the joined bundle, and otherwise this bundle with the bytes beyond it as they
/// were.
#[test]
fn the_room_of_the_output() {
    let generator = &mut Generator::new(92);
    for (serials, others) in [
        (&[7][..], &[9][..]),
        (&[7], &[7]),
        (&[7, 65_536], &[65_536]),
        (&[65_535, 65_536], &[0, u32::MAX]),
    ] {
        let sample = Sample::key_a();
        let mut of_serial: BTreeMap<u32, Group> = BTreeMap::new();
        let mut list = |serials: &[u32]| -> Vec<Group> {
            let group = |&serial| {
                let new = generator.group(sizes_of(&sample), serial);
                of_serial.entry(serial).or_insert(new).clone()
            };
            serials.iter().map(group).collect()
        };
        let [first, second] =
            [serials, others].map(|serials| bundle_bytes(sample.key(), &list(serials)));
        let (whole, groups) = joined(&first, &second).expect("no refusal applies");
        for length in 0..first.len() + second.len() + 20 {
            let (answer, out) = joined_to(length, &first, &second);
            let mut expected = before(length);
            if length < whole.len() {
                assert_eq!(answer, Err(Refusal::ShortOutput), "{length}");
            } else {
                let length = whole.len();
                assert_eq!(answer, Ok(Joined { length, groups }), "{length}");
                expected[..length].copy_from_slice(&whole);
            }
            assert_eq!(out, expected, "{length}");
        }
    }
}

/// Many groups: a thousand each, half of them in both.
#[test]
fn a_thousand_groups() {
    let generator = &mut Generator::new(93);
    let sample = key_of(8, 3, true, generator);
    let serials = generator.serials(1_500);
    let groups = groups_of(&sample, &serials, generator);
    let bundle = |list: &[Group]| bundle_bytes(sample.key(), list);
    let (first, second) = (bundle(&groups[..1_000]), bundle(&groups[500..]));
    let whole = bundle(&groups);
    assert_eq!(joined(&first, &second), Ok((whole.clone(), 1_500)));
    assert_eq!(joined(&second, &first), Ok((whole.clone(), 1_500)));
    let [even, odd] = [0, 1].map(|from| {
        let list: Vec<Group> = groups[from..].iter().step_by(2).cloned().collect();
        bundle(&list)
    });
    assert_eq!(joined(&even, &odd), Ok((whole, 1_500)));
}

/// What a call is lent: two bundles of the same key, of which the groups with the
/// serial 9 are in both, and the length of the output.
#[derive(Clone)]
struct Call {
    first: WrittenBundle,
    second: WrittenBundle,
    room: usize,
}

impl Call {
    fn new(n: usize, m: usize, target: bool, generator: &mut Generator) -> Call {
        let sample = key_of(n, m, target, generator);
        let groups = groups_of(&sample, &[7, 9, 65_536], generator);
        let first = WrittenBundle::new(sample.key(), &groups[..2]);
        let second = WrittenBundle::new(sample.key(), &groups[1..]);
        let room = bundle_bytes(sample.key(), &groups).len();
        Call {
            first,
            second,
            room,
        }
    }

    /// What the entry answers; the output keeps its content on a refusal, and so
    /// it does where it is longer.
    fn answer(&self) -> Result<Joined, u32> {
        let (first, second) = (self.first.bytes(), self.second.bytes());
        let (answer, out) = joined_to(self.room, &first, &second);
        if answer.is_err() {
            assert_eq!(out, before(self.room));
        }
        answer.map_err(Refusal::number)
    }

    /// What the look answers for this room.
    fn looked(&self, room: usize) -> Result<(usize, usize), u32> {
        looked(&self.first.bytes(), &self.second.bytes(), room)
    }
}

/// What a fault does to a call.
type Change = Box<dyn Fn(&mut Call)>;

/// A fault of a call: its number, a name, and what it does.
struct Fault {
    number: u32,
    name: String,
    change: Change,
}

/// The faults of the first bundle, or of the second.
fn faults_of(bundle: &WrittenBundle, second: bool) -> Vec<Fault> {
    let fault = |fault: BundleFault| Fault {
        number: fault.refusal.number(),
        name: format!("{} {}", usize::from(second), fault.name),
        change: Box::new(move |call: &mut Call| {
            (fault.change)(if second {
                &mut call.second
            } else {
                &mut call.first
            });
        }),
    };
    bundle_faults(bundle).into_iter().map(fault).collect()
}

/// 21: each key field of the second bundle that has another content, of the same
/// length, and no refusal of its own.
fn key_faults(call: &Call) -> Vec<Fault> {
    let mut list = Vec::new();
    for field in 1..call.first.key_fields() {
        for back in [false, true] {
            let length = call.first.fields[field].content.len();
            let place = if back { length - 1 } else { 1 };
            let name = format!("key field {field} at {place}");
            let change = move |call: &mut Call| call.second.fields[field].content[place] ^= 1;
            list.push(Fault {
                number: 21,
                name,
                change: Box::new(change),
            });
        }
    }
    list
}

/// 22: a bit of t or a coordinate of a in the group with the serial 9, which is
/// the last of the first bundle and the first of the second.
fn group_faults(call: &Call) -> Vec<Fault> {
    let key = call.first.key_fields();
    let mut list = Vec::new();
    for of_group in [1, 2] {
        let length = call.second.fields[key + of_group].content.len();
        for place in [0, 1, length / 2, length - 1] {
            let in_second = move |call: &mut Call| {
                call.second.fields[key + of_group].content[place] ^= 1;
            };
            let in_first = move |call: &mut Call| {
                call.first.fields[key + 3 + of_group].content[place] ^= 1;
            };
            let changes: [Change; 2] = [Box::new(in_second), Box::new(in_first)];
            list.extend(changes.map(|change| Fault {
                number: 22,
                name: format!("field {of_group} of a group at {place}"),
                change,
            }));
        }
    }
    list
}

/// 13.
fn room_faults(call: &Call) -> Vec<Fault> {
    let lengths = [call.room - 1, call.first.bytes().len(), 1, 0];
    let fault = |length| Fault {
        number: 13,
        name: format!("an output of {length}"),
        change: Box::new(move |call: &mut Call| call.room = length),
    };
    lengths.map(fault).into()
}

/// All faults, in the order in which they are judged.
fn faults(call: &Call) -> Vec<Fault> {
    let mut list = faults_of(&call.first, false);
    list.extend(faults_of(&call.second, true));
    list.extend(key_faults(call));
    list.extend(group_faults(call));
    list.extend(room_faults(call));
    list
}

/// The numbers of the reader.
const OF_READER: [u32; 12] = [1, 2, 4, 5, 6, 9, 10, 11, 14, 15, 19, 20];

/// Calls of both sizes, with a target and without.
fn calls() -> [Call; 2] {
    let generator = &mut Generator::new(94);
    [(2, 1, true), (3, 2, false)].map(|(n, m, target)| Call::new(n, m, target, generator))
}

/// Each fault, also where the output is longer, and the look for the least and the
/// largest room.
#[test]
fn every_fault() {
    let mut seen = BTreeSet::new();
    for call in calls() {
        let length = call.room;
        assert_eq!(call.answer(), Ok(Joined { length, groups: 3 }));
        for Fault {
            number,
            name,
            change,
        } in faults(&call)
        {
            let mut wrong = call.clone();
            change(&mut wrong);
            assert_eq!(wrong.answer(), Err(number), "{name}");
            if number == 13 {
                assert_eq!(wrong.looked(usize::MAX), Ok((length, 3)), "{name}");
            } else {
                wrong.room *= 2;
                assert_eq!(wrong.answer(), Err(number), "{name}");
                for room in [0, usize::MAX] {
                    assert_eq!(wrong.looked(room), Err(number), "{name}");
                }
            }
            seen.insert(number);
        }
    }
    let stated: BTreeSet<u32> = OF_READER.into_iter().chain([21, 22, 13]).collect();
    assert_eq!(seen, stated);
}

/// Two faults at once: the one that is judged first is the answer, and is made
/// last.
#[test]
fn every_two_faults() {
    let mut pairs = BTreeSet::new();
    for call in calls() {
        let list = faults(&call);
        for (place, early) in list.iter().enumerate() {
            let later = list[place + 1..].iter();
            for late in later.filter(|late| late.number != early.number) {
                let mut wrong = call.clone();
                (late.change)(&mut wrong);
                (early.change)(&mut wrong);
                let label = format!("{}, {}", early.name, late.name);
                assert_eq!(wrong.answer(), Err(early.number), "{label}");
                pairs.insert((early.number, late.number));
            }
        }
    }
    // Every number of the first bundle before every other of the second, both
    // before 21, 22 and 13, and these in order.
    let mut expected = BTreeSet::from([(21, 22), (21, 13), (22, 13)]);
    for early in OF_READER {
        let others = OF_READER.into_iter().chain([21, 22, 13]);
        let late = others.filter(|&late| late != early);
        expected.extend(late.map(|late| (early, late)));
    }
    assert_eq!(pairs, expected);
}

/// Keys that differ from one of n = 5 and m = 3 with a target in a single element,
/// in the target that they do not have, or in their sizes.
fn keys_beside(sample: &Sample, generator: &mut Generator) -> Vec<Sample> {
    let mut others = vec![Sample {
        y: vec![0; 3],
        ..sample.clone()
    }];
    for place in 0..15 {
        let mut other = sample.clone();
        other.h[place] ^= 1;
        others.push(other);
    }
    for place in 0..5 {
        let mut other = sample.clone();
        other.x[place] ^= 1024;
        others.push(other);
    }
    for place in 0..3 {
        let mut other = sample.clone();
        other.y[place] ^= 1;
        others.push(other);
    }
    for (n, m) in [(5, 2), (6, 3), (5, 4), (2, 1), (64, 63)] {
        others.extend([false, true].map(|target| key_of(n, m, target, generator)));
    }
    others
}

/// Every key field that differs, also in its length and in whether it is there:
/// 21, before 22 and 13.
#[test]
fn other_keys() {
    let generator = &mut Generator::new(95);
    let sample = key_of(5, 3, true, generator);
    let groups = groups_of(&sample, &[7, 9], generator);
    let first = bundle_bytes(sample.key(), &groups);
    for other in keys_beside(&sample, generator) {
        let own = groups_of(&other, &[7, 9], generator);
        let mut lists = vec![own[..1].to_vec(), own];
        if (other.n, other.m) == (5, 3) {
            lists.push(groups.clone());
        }
        for list in lists {
            let second = bundle_bytes(other.key(), &list);
            assert_eq!(number_of(&second), 0);
            for (one, two) in [(&first, &second), (&second, &first)] {
                assert_eq!(joined(one, two), Err(21));
                let (answer, _) = joined_to(0, one, two);
                assert_eq!(answer, Err(Refusal::OtherKey));
            }
            assert!(joined(&second, &second).is_ok());
        }
    }
}

/// Groups with one serial that differ in a single bit of a byte of t or of a: 22,
/// wherever the group stands, before 13.
#[test]
fn differing_groups() {
    let generator = &mut Generator::new(96);
    let sample = key_of(3, 1, false, generator);
    let serials = [7, 65_535, 65_536, u32::MAX];
    let groups = groups_of(&sample, &serials, generator);
    let first = bundle_bytes(sample.key(), &groups);
    for place in 0..groups.len() {
        let mut others = Vec::new();
        for i in 0..groups[place].t.len() {
            let mut other = groups[place].clone();
            other.t[i] ^= 1;
            others.push(other);
        }
        for i in 0..groups[place].a.len() {
            for bit in [0, 7, 8, 10] {
                let mut other = groups[place].clone();
                other.a[i] ^= 1 << bit;
                others.push(other);
            }
        }
        for other in others {
            let mut list = groups.clone();
            list[place] = other.clone();
            for list in [list, vec![other]] {
                let second = bundle_bytes(sample.key(), &list);
                for (one, two) in [(&first, &second), (&second, &first)] {
                    assert_eq!(joined(one, two), Err(22));
                    let (answer, _) = joined_to(0, one, two);
                    assert_eq!(answer, Err(Refusal::GroupsDiffer));
                }
            }
        }
    }
}

/// What is joined is what both bundles hold, group by group.
#[test]
fn the_groups_of_a_joined_bundle() {
    let generator = &mut Generator::new(97);
    for (n, m) in [(2, 1), (17, 3), (64, 27)] {
        let sample = key_of(n, m, true, generator);
        let groups = groups_of(&sample, &generator.serials(9), generator);
        let of = |places: &[usize]| {
            let list: Vec<Group> = places.iter().map(|&place| groups[place].clone()).collect();
            bundle_bytes(sample.key(), &list)
        };
        let (first, second) = (of(&[0, 2, 4, 5]), of(&[1, 2, 3, 5, 7, 8]));
        let (out, count) = joined(&first, &second).expect("no refusal applies");
        assert_eq!(count, 8);
        let bundle = Bundle::judged(&out).expect("an accepted bundle");
        let expected = [&groups[..6], &groups[7..]].concat();
        assert_eq!(bundle.groups, expected);
        assert_eq!(bundle.key, Bundle::judged(&first).expect("accepted").key);
    }
}
