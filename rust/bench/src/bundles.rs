//! Bundles: what their entries are called with.

use crate::cases::copying;
use crate::implementation::{OnBundle, OnBundles, OnRoom, ALL, JOIN, LOOK, READ_BUNDLE};
use crate::measure::{Calls, Row, Subject};
use reference::package::{bundle_bytes, Group};
use reference::samples::{Generator, Material};
use reference::Refusal;
use std::hint::black_box;

/// The sizes n and m, the number of groups of a bundle, and how the rows of one
/// bundle and of two name them.
const BUNDLES: [((usize, usize), usize, [&str; 2]); 5] = [
    ((8, 3), 1, ["(8,3), 1 group", "(8,3), 1 + 1 groups"]),
    ((8, 3), 10, ["(8,3), 10 groups", "(8,3), 10 + 10 groups"]),
    (
        (8, 3),
        100,
        ["(8,3), 100 groups", "(8,3), 100 + 100 groups"],
    ),
    (
        (8, 3),
        1000,
        ["(8,3), 1000 groups", "(8,3), 1000 + 1000 groups"],
    ),
    (
        (64, 27),
        100,
        ["(64,27), 100 groups", "(64,27), 100 + 100 groups"],
    ),
];

/// Two bundles of one key with the same number of groups, whose serials alternate.
/// Those below 65,536 and the others are as many.
pub struct Pair {
    sizes: (usize, usize),
    groups: usize,
    /// How the rows name it: of the first bundle, and of both.
    forms: [&'static str; 2],
    /// The key fields alone.
    key: Vec<u8>,
    first: Vec<u8>,
    second: Vec<u8>,
    joined: Vec<u8>,
}

impl Pair {
    /// All pairs. Their keys have a target.
    pub fn all() -> Vec<Pair> {
        let generator = &mut Generator::new(4);
        let pair = |(sizes, groups, forms)| Pair::of(sizes, groups, forms, generator);
        BUNDLES.map(pair).into()
    }

    fn of(
        sizes: (usize, usize),
        groups: usize,
        forms: [&'static str; 2],
        generator: &mut Generator,
    ) -> Pair {
        let sample = Material::of_package(sizes.0, sizes.1, true, generator).sample;
        let key = sample.key();
        let judged = key.sizes().expect("sizes that are not refused");
        let least = 65_536 - groups as u32;
        let serials = least..least + 2 * groups as u32;
        let all: Vec<Group> = serials
            .map(|serial| generator.group(judged, serial))
            .collect();
        let every_second = |from: usize| {
            let list: Vec<Group> = all[from..].iter().step_by(2).cloned().collect();
            bundle_bytes(key, &list)
        };
        Pair {
            sizes,
            groups,
            forms,
            key: bundle_bytes(key, &[]),
            first: every_second(0),
            second: every_second(1),
            joined: bundle_bytes(key, &all),
        }
    }
}

/// Calls that read a bundle, with what they answer and the number of groups that
/// they write.
fn reading(entry: OnBundle, bytes: &[u8], expected: (u32, usize)) -> Calls<'_> {
    Box::new(move |count| {
        for _ in 0..count {
            let (mut n, mut m, mut groups) = (0, 0, 0);
            let answer = entry(black_box(bytes), &mut n, &mut m, &mut groups);
            assert_eq!((answer, groups), expected);
            black_box((n, m));
        }
    })
}

/// Calls that read the first bundle of a pair.
fn reading_first(entry: OnBundle, pair: &Pair) -> Calls<'_> {
    reading(entry, &pair.first, (0, pair.groups))
}

/// Calls that make the checks of the key, which a join makes once where both
/// bundles begin with the same key fields: each reads the key alone, and is refused
/// when these are done.
fn reading_key(entry: OnBundle, pair: &Pair) -> Calls<'_> {
    reading(entry, &pair.key, (Refusal::BytesMissing.number(), 0))
}

/// Calls that join the bundles of a pair.
fn joining(entry: OnBundles, pair: &Pair) -> Calls<'_> {
    let mut out = vec![0; pair.joined.len()];
    let expected = (0, pair.joined.len(), 2 * pair.groups);
    Box::new(move |count| {
        for _ in 0..count {
            let (mut length, mut groups) = (0, 0);
            let answer = entry(
                black_box(&pair.first),
                black_box(&pair.second),
                black_box(&mut out[..]),
                &mut length,
                &mut groups,
            );
            assert_eq!((answer, length, groups), expected);
        }
    })
}

/// Calls that look before the bundles of a pair are joined, with a room as long as
/// the joined bundle.
fn looking(entry: OnRoom, pair: &Pair) -> Calls<'_> {
    let expected = (0, pair.joined.len(), 2 * pair.groups);
    Box::new(move |count| {
        for _ in 0..count {
            let (mut length, mut groups) = (0, 0);
            let answer = entry(
                black_box(&pair.first),
                black_box(&pair.second),
                black_box(pair.joined.len()),
                &mut length,
                &mut groups,
            );
            assert_eq!((answer, length, groups), expected);
        }
    })
}

/// The rows of all entries.
pub fn rows<'a>(pairs: &'a [Pair], rows: &mut Vec<Row<'a>>) {
    let mut push = |entry, form, calls| {
        rows.push(Row {
            subject: Subject {
                entry,
                sizes: None,
                form,
                products: None,
                process: false,
            },
            calls,
        });
    };
    let all = ALL.iter().map(|one| one.bundles);
    for pair in pairs {
        let calls = all
            .clone()
            .map(|entries| entries.map(|(read, _)| reading_first(read, pair)));
        push(READ_BUNDLE, pair.forms[0], calls.collect());
    }
    for pair in pairs {
        let calls = all
            .clone()
            .map(|entries| entries.map(|(_, join)| joining(join, pair)));
        push(JOIN, pair.forms[1], calls.collect());
    }
    for pair in pairs {
        let calls = ALL.iter().map(|one| Some(looking(one.look?, pair)));
        push(LOOK, pair.forms[1], calls.collect());
    }
}

/// What the calls of an entry on bundles are compared with.
#[derive(Clone, Copy, Debug, PartialEq)]
pub enum Beside {
    /// Copies of the bundle that is read or written.
    Copies,
    /// Joins of the same bundles.
    Joins,
}

/// What is timed of an entry on bundles of one implementation.
pub struct Bundling<'a> {
    /// The entry.
    pub entry: &'static str,
    /// The name of the implementation.
    pub name: &'static str,
    /// The sizes n and m.
    pub sizes: (usize, usize),
    /// The groups that it reads.
    pub groups: usize,
    /// The bytes of the bundle that is read or written.
    pub bytes: usize,
    /// Its calls, those that make the checks of the key alone, and those that it is
    /// compared with.
    pub calls: [Calls<'a>; 3],
    /// What the last ones are.
    pub beside: Beside,
}

impl<'a> Bundling<'a> {
    /// Of the first bundle of a pair, which is read.
    fn of_first(name: &'static str, read: OnBundle, pair: &'a Pair) -> Bundling<'a> {
        Bundling {
            entry: READ_BUNDLE,
            name,
            sizes: pair.sizes,
            groups: pair.groups,
            bytes: pair.first.len(),
            calls: [
                reading_first(read, pair),
                reading_key(read, pair),
                copying(pair.first.clone()),
            ],
            beside: Beside::Copies,
        }
    }

    /// Of both bundles of a pair: these calls of an entry, compared with others.
    fn of_both(
        (entry, name): (&'static str, &'static str),
        read: OnBundle,
        pair: &'a Pair,
        calls: Calls<'a>,
        (beside, others): (Beside, Calls<'a>),
    ) -> Bundling<'a> {
        Bundling {
            entry,
            name,
            sizes: pair.sizes,
            groups: 2 * pair.groups,
            bytes: pair.joined.len(),
            calls: [calls, reading_key(read, pair), others],
            beside,
        }
    }
}

/// The entries on bundles of the implementations whose instructions are counted.
pub fn bundlings(pairs: &[Pair]) -> Vec<Bundling<'_>> {
    let mut list = Vec::new();
    let counted = ALL.iter().filter(|one| one.counted);
    let present = counted.filter_map(|one| Some((one.name, one.bundles?, one.look)));
    for (name, (read, join), look) in present {
        let reads = pairs.iter();
        list.extend(reads.map(|pair| Bundling::of_first(name, read, pair)));
        list.extend(pairs.iter().map(|pair| {
            let copies = (Beside::Copies, copying(pair.joined.clone()));
            Bundling::of_both((JOIN, name), read, pair, joining(join, pair), copies)
        }));
        list.extend(pairs.iter().filter_map(|pair| {
            let calls = looking(look?, pair);
            let joins = (Beside::Joins, joining(join, pair));
            Some(Bundling::of_both((LOOK, name), read, pair, calls, joins))
        }));
    }
    list
}
