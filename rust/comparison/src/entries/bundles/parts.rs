//! A bundle as its key fields and its groups, and two bundles with what they are
//! together.

use crate::entries::files::faults::any_of;
use crate::entries::files::fields::{any_fields, any_serial, serial_value, set_word, walked};
use crate::entries::keyed;
use crate::kinds::Kind;
use reference::key::Sizes;
use reference::package::{group_fields, join, tag, words, WrittenField};
use reference::samples::Generator;
use std::collections::{BTreeMap, BTreeSet};

/// The fields 05, 06 and 07 of a group.
pub type Fields = [WrittenField; 3];

/// The fields of a bundle.
#[derive(Clone, Debug, PartialEq, Eq)]
pub struct Bundle {
    /// Those of the key.
    pub key: Vec<WrittenField>,
    /// Those of each group.
    pub groups: Vec<Fields>,
}

/// The key fields of any key.
pub fn any_key(n: usize, m: usize, generator: &mut Generator) -> Vec<WrittenField> {
    let fields = any_fields(n, m, generator).into_iter();
    fields
        .take_while(|field| field.tag != tag::SERIAL)
        .collect()
}

/// The sizes that key fields tell.
pub fn sizes_of(key: &[WrittenField]) -> Sizes {
    let [n, m] = [0, 1].map(|place| usize::from(key[0].content[place]));
    keyed::sizes(n, m)
}

/// A group of these sizes with this serial, and any t and a.
pub fn any_group(sizes: Sizes, serial: u32, generator: &mut Generator) -> Fields {
    const KINDS: [Kind; 6] = [
        Kind::Random,
        Kind::Random,
        Kind::Random,
        Kind::Edges,
        Kind::Zero,
        Kind::Largest,
    ];
    let t = any_of(&KINDS, generator).bits(sizes.bit_bytes(), generator);
    let a = any_of(&KINDS, generator).words(sizes.proof_words(), generator);
    group_fields(serial, &t, &a)
}

/// The serial of a group.
pub fn serial_of(group: &Fields) -> u32 {
    serial_value(&group[0])
}

/// Any serials of both lengths, which rise.
pub fn rising(count: usize, generator: &mut Generator) -> Vec<u32> {
    let mut serials = BTreeSet::new();
    while serials.len() < count {
        serials.insert(any_serial(generator));
    }
    serials.into_iter().collect()
}

/// Changes one bit of an element of t or of a, so that no refusal applies to it.
pub fn change(field: &mut WrittenField, place: usize, bit: usize) {
    match field.tag {
        tag::T => field.content[place] ^= 1,
        _ => {
            let word = words(&field.content)[place];
            set_word(field, place, word ^ (1 << bit));
        }
    }
}

/// Changes any element of the field of a group with this tag, 06 or 07.
pub fn change_any(group: &mut Fields, tag: u8, generator: &mut Generator) {
    let (index, size, bits) = match tag {
        tag::T => (1, 1, 1),
        _ => (2, 2, 11),
    };
    let place = generator.below(group[index].content.len() / size);
    change(&mut group[index], place, generator.below(bits));
}

impl Bundle {
    /// A bundle of this key with groups of these serials.
    pub fn of_key(key: Vec<WrittenField>, serials: &[u32], generator: &mut Generator) -> Bundle {
        let sizes = sizes_of(&key);
        let serials = serials.iter();
        let groups = serials.map(|&serial| any_group(sizes, serial, generator));
        let groups = groups.collect();
        Bundle { key, groups }
    }

    /// A bundle of any key of these sizes with groups of these serials.
    pub fn with_serials(
        (n, m): (usize, usize),
        serials: &[u32],
        generator: &mut Generator,
    ) -> Bundle {
        Bundle::of_key(any_key(n, m, generator), serials, generator)
    }

    /// A bundle of any key of these sizes with this many groups.
    pub fn any(n: usize, m: usize, count: usize, generator: &mut Generator) -> Bundle {
        let serials = rising(count, generator);
        Bundle::with_serials((n, m), &serials, generator)
    }

    /// The bundle of these bytes, which are not judged.
    pub fn walked(bytes: &[u8]) -> Bundle {
        let mut key: Vec<WrittenField> = walked(bytes).collect();
        let first = key.iter().position(|field| field.tag == tag::SERIAL);
        let groups = key.split_off(first.unwrap_or(key.len()));
        let groups = groups.chunks_exact(3).map(|group| {
            let [serial, t, a] = group else {
                unreachable!("three fields");
            };
            [serial.clone(), t.clone(), a.clone()]
        });
        let groups = groups.collect();
        Bundle { key, groups }
    }

    /// Its fields, one after another.
    pub fn fields(&self) -> Vec<WrittenField> {
        let groups = self.groups.iter().flatten();
        self.key.iter().chain(groups).cloned().collect()
    }

    /// Its bytes.
    pub fn bytes(&self) -> Vec<u8> {
        join(&self.fields())
    }

    /// The bytes of its key fields.
    pub fn key_length(&self) -> usize {
        join(&self.key).len()
    }

    /// The serials of its groups.
    pub fn serials(&self) -> Vec<u32> {
        self.groups.iter().map(serial_of).collect()
    }

    /// The bundle with those of its groups that are kept, by their indices.
    pub fn part(&self, mut keeps: impl FnMut(usize) -> bool) -> Bundle {
        let groups = self.groups.iter().enumerate();
        let kept = groups.filter(|&(index, _)| keeps(index));
        Bundle {
            key: self.key.clone(),
            groups: kept.map(|(_, group)| group.clone()).collect(),
        }
    }

    /// The bundle with the groups of both, each serial once, and the key of this
    /// one.
    pub fn and(&self, other: &Bundle) -> Bundle {
        let groups = other.groups.iter().chain(&self.groups);
        let by_serial: BTreeMap<u32, &Fields> =
            groups.map(|group| (serial_of(group), group)).collect();
        Bundle {
            key: self.key.clone(),
            groups: by_serial.into_values().cloned().collect(),
        }
    }
}

/// Which of two bundles has a group.
#[derive(Clone, Copy, Debug, PartialEq, Eq)]
pub enum In {
    /// The first alone.
    First,
    /// The second alone.
    Second,
    /// Both.
    Both,
}

impl In {
    /// Any.
    pub fn any(generator: &mut Generator) -> In {
        any_of(&[In::First, In::Second, In::Both], generator)
    }
}

/// Two bundles of one key, and what they are together.
#[derive(Clone, Debug)]
pub struct Pair {
    /// The first.
    pub first: Bundle,
    /// The second.
    pub second: Bundle,
    /// The bundle with the groups of either.
    pub joined: Bundle,
}

impl Pair {
    /// Parts the groups of a bundle: each goes to the first, to the second or to
    /// both, by its index. A bundle without a group gets the lowest.
    pub fn parted(joined: Bundle, mut place: impl FnMut(usize) -> In) -> Pair {
        let mut places: Vec<In> = (0..joined.groups.len()).map(&mut place).collect();
        for other in [In::First, In::Second] {
            if places.iter().all(|&place| place == other) {
                places[0] = In::Both;
            }
        }
        Pair {
            first: joined.part(|index| places[index] != In::Second),
            second: joined.part(|index| places[index] != In::First),
            joined,
        }
    }

    /// Any bundle of these sizes and this many groups, parted in any way.
    pub fn any(n: usize, m: usize, count: usize, generator: &mut Generator) -> Pair {
        let joined = Bundle::any(n, m, count, generator);
        Pair::parted(joined, |_| In::any(generator))
    }

    /// The same in the other order.
    pub fn exchanged(&self) -> Pair {
        Pair {
            first: self.second.clone(),
            second: self.first.clone(),
            joined: self.joined.clone(),
        }
    }
}
