//! The groups of cases of join bundles.

use super::by_hand;
use super::damage::{damaged_bundle, harmless_change, with_other_group, Pool};
use super::join::{case, of_one_slice, with_output, with_room, FIRST, SECOND};
use super::parts::{any_key, change, change_any, rising, sizes_of, Bundle, In, Pair};
use super::read_groups::{ends, many, rising_about_powers, MOST, SMALL};
use crate::case::{Case, Group};
use crate::entries::files::faults::any_of;
use crate::entries::files::fields::{
    dependent_rows, elements, set_target, set_word, zero_target, HEAD,
};
use crate::entries::files::groups::MISSING;
use crate::entries::write::OUT;
use crate::entries::{keyed, DONE, GROUPS_DIFFER, OTHER_KEY, SHORT};
use crate::lent::Lent;
use reference::package::{join, tag, words, WrittenField};
use reference::samples::Generator;

/// All groups.
pub fn all() -> Vec<Group> {
    vec![
        by_hand::JOIN,
        EVERY_N,
        SMALL_N,
        SERIALS,
        SHAPES,
        ALL_PARTS,
        DIFFERING,
        EACH_VALUE,
        OTHER_KEYS,
        OTHER_SIZES,
        OUTPUTS,
        LARGE_OUTPUTS,
        EMPTY,
        PREFIXES,
        ONE_BYTE,
        DAMAGED,
        MANY,
    ]
}

/// Hands over two bundles in both orders, in outputs that are so many bytes
/// longer than the joined one.
fn both_orders(pair: &Pair, more: usize, generator: &mut Generator, each: &mut dyn FnMut(Case)) {
    each(with_room(pair, more, generator));
    each(with_room(&pair.exchanged(), more, generator));
}

const EVERY_N: Group = Group::new("every n, 1 to 40 groups", |generator, each| {
    for n in keyed::EVERY_N {
        for m in keyed::some_m(n, generator) {
            let key = any_key(n, m, generator);
            for (more, count) in [1, MOST, 1 + generator.below(MOST)].into_iter().enumerate() {
                let serials = rising(count, generator);
                let joined = Bundle::of_key(key.clone(), &serials, generator);
                let pair = Pair::parted(joined, |_| In::any(generator));
                both_orders(&pair, more, generator, each);
            }
        }
    }
});

/// Random bundles of small sizes.
pub const SMALL_N: Group = Group::new("n to 9, every m, 1 to 40 groups", |generator, each| {
    keyed::small_sizes(20, &mut |sizes, round| {
        let count = 1 + (2 * round + generator.below(2)) % MOST;
        let pair = Pair::any(sizes.n, sizes.m, count, generator);
        let more = [0, generator.below(40)][round % 2];
        both_orders(&pair, more, generator, each);
    });
});

/// Each two serials about powers, each in a bundle of its own; one serial twice
/// is one group.
pub const SERIALS: Group = Group::new("each two serials, one in each bundle", |generator, each| {
    let serials = rising_about_powers();
    let key = any_key(2, 1, generator);
    for (index, &low) in serials.iter().enumerate() {
        for &high in &serials[index..] {
            let mut both = vec![low, high];
            both.dedup();
            let joined = Bundle::of_key(key.clone(), &both, generator);
            let pair = Pair::parted(joined, |index| [In::First, In::Second][index]);
            both_orders(&pair, 0, generator, each);
        }
    }
});

/// The ways in which the groups of a bundle go to two, by the index of a group
/// and their number: all to both; every second one to both, the others to the
/// first; in turns of one, of two and of all three kinds; the first or the last
/// alone to both or to the second; the lower half and the upper one.
const WAYS: [fn(usize, usize) -> In; 12] = [
    |_, _| In::Both,
    |index, _| [In::Both, In::First][index % 2],
    |index, _| [In::First, In::Both][index % 2],
    |index, _| [In::First, In::Second][index % 2],
    |index, _| [In::First, In::First, In::Second, In::Second][index % 4],
    |index, _| [In::First, In::Both, In::Second][index % 3],
    |index, _| if index == 0 { In::Both } else { In::First },
    |index, count| {
        if index + 1 == count {
            In::Both
        } else {
            In::First
        }
    },
    |index, count| {
        if 2 * index < count {
            In::First
        } else {
            In::Second
        }
    },
    |index, count| {
        if index + 1 == count {
            In::Second
        } else {
            In::First
        }
    },
    |index, _| if index == 0 { In::Second } else { In::First },
    |index, count| {
        if 2 * index < count {
            In::Both
        } else {
            In::Second
        }
    },
];

/// A bundle with itself, also as one slice, with parts of itself, and with
/// bundles of other groups below, above and between its own.
pub const SHAPES: Group = Group::new(
    "with itself, with parts of itself, below, above and between",
    |generator, each| {
        for (n, m) in SMALL.into_iter().chain([(17, 8), (64, 27)]) {
            for count in 1..=8 {
                let joined = Bundle::any(n, m, count, generator);
                for way in WAYS {
                    let pair = Pair::parted(joined.clone(), |index| way(index, count));
                    both_orders(&pair, generator.below(2), generator, each);
                }
                for groups in 1..=count {
                    each(of_one_slice(&joined, groups, generator));
                }
            }
        }
    },
);

/// Every way to part up to five groups.
const ALL_PARTS: Group = Group::new("up to 5 groups, parted in every way", |generator, each| {
    const PLACES: [In; 3] = [In::First, In::Second, In::Both];
    for (n, m) in [(2, 1), (3, 2), (5, 3)] {
        for count in 1..=5 {
            let joined = Bundle::any(n, m, count, generator);
            for way in 0..3_usize.pow(count as u32) {
                let place = |index: usize| PLACES[way / 3_usize.pow(index as u32) % 3];
                let pair = Pair::parted(joined.clone(), place);
                each(with_room(&pair, generator.below(2), generator));
            }
        }
    }
});

/// The lengths of an output about that of a joined bundle.
fn rooms(needed: usize) -> [usize; 4] {
    [0, needed - 1, needed, 2 * needed]
}

/// Hands over two bundles that are refused with this number whatever the length
/// of the output is, in both orders.
fn refused(
    [first, second]: [&Bundle; 2],
    answer: u32,
    generator: &mut Generator,
    each: &mut dyn FnMut(Case),
) {
    let needed = first.and(second).bytes().len();
    let [first, second] = [first.bytes(), second.bytes()];
    for room in rooms(needed) {
        let answer = Some(answer);
        each(case(&first, &second, room, answer, generator));
        each(case(&second, &first, room, answer, generator));
    }
}

/// The indices of the groups of a bundle that another has too; of many the
/// first, the last and one between.
fn shared(bundle: &Bundle, other: &Bundle) -> Vec<usize> {
    let serials = other.serials();
    let of_both = bundle.serials().into_iter().enumerate();
    let of_both = of_both.filter(|(_, serial)| serials.contains(serial));
    let list: Vec<usize> = of_both.map(|(index, _)| index).collect();
    match list[..] {
        [first, .., last] if list.len() > 5 => vec![first, list[list.len() / 2], last],
        _ => list,
    }
}

/// A group that two bundles have is another in one of them: 22, before 13.
pub const DIFFERING: Group = Group::new("groups that differ in t or a", |generator, each| {
    for (n, m) in SMALL {
        for count in (1..=5).chain([17, MOST]) {
            let pair = Pair::any(n, m, count, generator);
            for index in shared(&pair.second, &pair.first) {
                for tags in [&[tag::T][..], &[tag::A], &[tag::T, tag::A]] {
                    let mut other = pair.second.clone();
                    for &tag in tags {
                        change_any(&mut other.groups[index], tag, generator);
                    }
                    refused([&pair.first, &other], GROUPS_DIFFER, generator, each);
                }
            }
        }
    }
});

/// Each bit of t and each word of a of each group of two bundles of the same
/// groups.
pub const EACH_VALUE: Group = Group::new("each value of t and a changed", |generator, each| {
    for (n, m) in SMALL[..4].iter().copied() {
        let right = Bundle::any(n, m, 3, generator);
        let bytes = right.bytes();
        for (index, group) in right.groups.iter().enumerate() {
            for (field, bits) in [(1, 1), (2, 11)] {
                for place in 0..elements(&group[field]) {
                    let mut other = right.clone();
                    let bit = generator.below(bits);
                    change(&mut other.groups[index][field], place, bit);
                    let answer = Some(GROUPS_DIFFER);
                    let room = any_of(&rooms(bytes.len()), generator);
                    each(case(&bytes, &other.bytes(), room, answer, generator));
                }
            }
        }
    }
});

/// The key with a bit of this word of a field changed; none where it would be
/// refused then.
fn changed_key(
    key: &[WrittenField],
    (index, place, bit): (usize, usize, usize),
) -> Option<Vec<WrittenField>> {
    let mut key = key.to_vec();
    let word = words(&key[index].content)[place];
    set_word(&mut key[index], place, word ^ (1 << bit));
    (!zero_target(&key[index]) && !dependent_rows(&key)).then_some(key)
}

/// The key without its y where it has one, else with one.
fn other_form(key: &[WrittenField], generator: &mut Generator) -> Vec<WrittenField> {
    let mut other = key.to_vec();
    other.retain(|field| field.tag != tag::Y);
    if other.len() == key.len() {
        let m = sizes_of(key).m;
        set_target(&mut other, &generator.target(m));
    }
    other
}

/// The same groups with another word of the key.
pub fn with_other_key(bundle: &Bundle, generator: &mut Generator) -> Bundle {
    let changed = || {
        let index = 1 + generator.below(bundle.key.len() - 1);
        let place = generator.below(elements(&bundle.key[index]));
        changed_key(&bundle.key, (index, place, generator.below(11)))
    };
    let mut keys = std::iter::repeat_with(changed).flatten();
    Bundle {
        key: keys.next().expect("a key that is right"),
        groups: bundle.groups.clone(),
    }
}

/// Other key fields: each word of H, x and y, and y of one alone, beside groups
/// that are the same, others, and different ones: 21, before 22 and 13.
pub const OTHER_KEYS: Group = Group::new(
    "each word of a key changed, y of one alone",
    |generator, each| {
        for (n, m) in SMALL {
            let pair = Pair::any(n, m, 3, generator);
            let key = &pair.first.key;
            let mut keys = vec![other_form(key, generator)];
            for (index, field) in key.iter().enumerate().skip(1) {
                let places = 0..elements(field);
                keys.extend(places.filter_map(|place| {
                    let bit = generator.below(11);
                    changed_key(key, (index, place, bit))
                }));
            }
            for key in keys {
                let groups = match generator.below(4) {
                    0 => pair.first.groups.clone(),
                    1 => pair.second.groups.clone(),
                    _ => with_other_group(&pair.first, generator).groups,
                };
                let other = Bundle { key, groups };
                refused([&pair.first, &other], OTHER_KEY, generator, each);
            }
        }
    },
);

/// Bundles of other sizes, with the same serials and with others.
pub const OTHER_SIZES: Group = Group::new("bundles of other sizes", |generator, each| {
    for one in SMALL {
        for other in SMALL.into_iter().filter(|&other| other != one) {
            let serials = rising(2, generator);
            let first = Bundle::with_serials(one, &serials, generator);
            for serials in [serials, rising(2, generator)] {
                let second = Bundle::with_serials(other, &serials, generator);
                let answer = Some(OTHER_KEY);
                let [first, second] = [&first, &second].map(Bundle::bytes);
                let room = any_of(&rooms(first.len() + second.len()), generator);
                each(case(&first, &second, room, answer, generator));
            }
        }
    }
});

/// Outputs of every length up to twice that of the joined bundle, and a much
/// longer one.
pub const OUTPUTS: Group = Group::new("n to 3, outputs of all lengths", |generator, each| {
    for (n, m) in [(2, 1), (3, 2)] {
        let joined = Bundle::any(n, m, 3, generator);
        for way in [0, 1, 3, 5].map(|way| WAYS[way]) {
            let pair = Pair::parted(joined.clone(), |index| way(index, 3));
            let needed = joined.bytes().len();
            for room in (0..2 * needed).chain([needed + 65_536]) {
                each(with_output(&pair, room, generator));
            }
        }
    }
});

/// The lengths of an output about those of two bundles and of their fields.
fn edges_of_output(pair: &Pair) -> Vec<usize> {
    let [first, second, needed] =
        [&pair.first, &pair.second, &pair.joined].map(|bundle| bundle.bytes().len());
    let fields = pair.joined.groups[0].iter();
    let mut less: Vec<usize> = fields.map(|field| HEAD + field.content.len()).collect();
    less.extend([1, 2, 3, 4, 5, 256, join(&pair.joined.groups[0]).len()]);
    let shorter = less.iter().map(|less| needed.saturating_sub(*less));
    let lengths = [
        0,
        1,
        first,
        second,
        pair.joined.key_length(),
        first + second,
    ];
    let longer = [0, 1, 2, 24, 255, 256, needed, 65_536].map(|more| needed + more);
    lengths.into_iter().chain(shorter).chain(longer).collect()
}

const LARGE_OUTPUTS: Group = Group::new(
    "n to 64, outputs of lengths about those of the fields",
    |generator, each| {
        for (n, m) in [(2, 1), (9, 4), (17, 16), (33, 1), (64, 27)] {
            for way in WAYS {
                let joined = Bundle::any(n, m, 6, generator);
                let pair = Pair::parted(joined, |index| way(index, 6));
                for room in edges_of_output(&pair) {
                    each(with_output(&pair, room, generator));
                }
            }
        }
    },
);

/// A slice without bytes: one that has no memory, and one between guards.
fn no_bytes(generator: &mut Generator) -> [Lent; 2] {
    [Lent::no_bytes(), Lent::with_bytes(&[], generator)]
}

/// Each set of the two bundles and the output without bytes.
pub const EMPTY: Group = Group::new("without bytes", |generator, each| {
    for (n, m) in [(2, 1), (5, 3)] {
        let pair = Pair::any(n, m, 3, generator);
        let right = with_room(&pair, 0, generator);
        for set in 1..8 {
            let names = [FIRST, SECOND, OUT].into_iter().enumerate();
            let names: Vec<&str> = names
                .filter(|(place, _)| set >> place & 1 == 1)
                .map(|(_, name)| name)
                .collect();
            for lent in no_bytes(generator) {
                let mut case = right.clone();
                for name in &names {
                    *case.slice_mut(name) = lent.clone();
                }
                let answer = if names == [OUT] { SHORT } else { MISSING };
                case.stated = None;
                each(case.answering(Some(answer)));
            }
        }
    }
});

/// Every prefix of one of two bundles: 9, but for those that end with a group.
pub const PREFIXES: Group = Group::new("every prefix of either", |generator, each| {
    for (n, m) in SMALL[..5].iter().copied() {
        let pair = Pair::any(n, m, 4, generator);
        let room = pair.joined.bytes().len();
        let [first, second] = [&pair.first, &pair.second].map(Bundle::bytes);
        for (bundle, whole, other) in [
            (&pair.first, &first, &second),
            (&pair.second, &second, &first),
        ] {
            let ends = ends(bundle);
            for len in 0..whole.len() {
                let done = ends.contains(&len);
                let answer = Some(if done { DONE } else { MISSING });
                let part = &whole[..len];
                each(case(part, other, room, answer, generator));
                each(case(other, part, room, answer, generator));
            }
        }
    }
});

/// One byte changed, each byte of one of two bundles that share groups.
pub const ONE_BYTE: Group = Group::new("each byte of one changed", |generator, each| {
    for (n, m) in SMALL[..5].iter().copied() {
        let joined = Bundle::any(n, m, 3, generator);
        let pair = Pair::parted(joined, |index| [In::Both, In::First, In::Both][index]);
        let [right, other] = [&pair.first, &pair.second].map(Bundle::bytes);
        let room = pair.joined.bytes().len();
        for at in 0..right.len() {
            for change in [1, 2, 4, 128, 255, 1 + generator.below(255) as u8] {
                let mut changed = right.clone();
                changed[at] ^= change;
                each(case(&changed, &other, room + 2, None, generator));
                each(case(&other, &changed, room + 2, None, generator));
            }
        }
    }
})
.with_any_rows();

/// The number of damaged pairs.
const COUNT: usize = 30_000;

/// A bundle after changes that leave it right.
fn harmlessly_changed(bundle: &Bundle, generator: &mut Generator) -> Vec<u8> {
    let mut fields = bundle.fields();
    harmless_change(&mut fields, generator);
    join(&fields)
}

/// Hands over so many pairs of bundles of one key of which one or both have
/// changes: of about every third pair one has a change that leaves it right.
pub fn damaged_pairs(count: usize, generator: &mut Generator, each: &mut dyn FnMut(Case)) {
    let pool = Pool::new(generator);
    for _ in 0..count {
        let joined = pool.any(generator).clone();
        let pair = Pair::parted(joined, |_| In::any(generator));
        let mut bytes = [&pair.first, &pair.second].map(Bundle::bytes);
        let one = generator.below(2);
        let bundles = [&pair.first, &pair.second];
        match generator.below(6) {
            0 => {}
            1 | 2 => bytes[one] = harmlessly_changed(bundles[one], generator),
            3 => bytes = bundles.map(|bundle| damaged_bundle(bundle, generator)),
            _ => bytes[one] = damaged_bundle(bundles[one], generator),
        }
        let room = match generator.below(8) {
            0 => generator.below(bytes[0].len() + bytes[1].len() + 1),
            _ => pair.joined.bytes().len() + 60,
        };
        let [first, second] = &bytes;
        each(case(first, second, room, None, generator));
    }
}

const DAMAGED: Group = Group::new("damaged bundles", |generator, each| {
    damaged_pairs(COUNT, generator, each);
})
.with_any_rows();

/// More groups, and more bytes, than two bytes count.
pub const MANY: Group = Group::new("1,000 groups and more", |generator, each| {
    let joined = many(2_000, generator);
    for way in WAYS {
        let pair = Pair::parted(joined.clone(), |index| way(index, 2_000));
        each(with_room(&pair, 1, generator));
    }
    let mut other = joined.clone();
    change_any(&mut other.groups[1_999], tag::A, generator);
    refused([&joined, &other], GROUPS_DIFFER, generator, each);
    let most = Pair::parted(many(65_600, generator), |index| WAYS[3](index, 65_600));
    each(with_room(&most, 0, generator));
    let [first, second] = [&most.first, &most.second].map(Bundle::bytes);
    let room = most.joined.bytes().len() - 1;
    each(case(&first, &second, room, Some(SHORT), generator));
});
