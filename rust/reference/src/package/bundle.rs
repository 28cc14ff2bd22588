//! The bundle: a reader that makes a list of its groups, and the bytes of a
//! written one. Quotes are of point 10 of document 02.

use super::stated::{group_stated, key_stated};
use super::{
    group_fields, join, key_fields, range_of, serial, tag, words, Pieces, Place, Places, Refused,
    WrittenField,
};
use crate::key::{Key, Sizes};
use crate::refusal::Refusal;

/// A group: the contents of the fields 05, 06 and 07. The serial decides the order
/// of two groups that differ in it.
#[derive(Clone, Debug, PartialEq, Eq, PartialOrd, Ord)]
pub struct Group {
    /// The serial.
    pub serial: u32,
    /// The masked witness.
    pub t: Vec<u8>,
    /// The proof.
    pub a: Vec<u16>,
}

impl Group {
    /// Its fields as they are written.
    pub fn fields(&self) -> [WrittenField; 3] {
        group_fields(self.serial, &self.t, &self.a)
    }
}

/// What the reader of bundles answers: "n, m and the number of groups".
#[derive(Clone, Copy, Debug, PartialEq, Eq)]
pub struct BundleContents {
    /// The size n.
    pub n: usize,
    /// The size m.
    pub m: usize,
    /// The number of groups.
    pub groups: usize,
}

/// What the join of bundles and the look before it answer: "the length and the
/// number of groups".
#[derive(Clone, Copy, Debug, PartialEq, Eq)]
pub struct Joined {
    /// The bytes of the joined bundle.
    pub length: usize,
    /// Its number of groups.
    pub groups: usize,
}

/// An accepted bundle: "A bundle has the key fields once, then one or more groups
/// of 05, 06, 07 with serials strictly rising."
#[derive(Clone, Debug, PartialEq, Eq)]
pub struct Bundle {
    /// The sizes.
    pub sizes: Sizes,
    /// The key fields.
    pub key: Vec<WrittenField>,
    /// The groups.
    pub groups: Vec<Group>,
}

impl Bundle {
    /// Judges the bytes. "After a group the bundle ends or the next tag is 05, so
    /// a wrong tag there gives 10 and 12 doesn't arise."
    pub fn judged(bytes: &[u8]) -> Result<Bundle, Refused> {
        let mut pieces = Pieces::of(bytes);
        let key = pieces.take(key_stated())?;
        let mut groups = Vec::new();
        loop {
            let group = judged_group(&mut pieces, groups.last())?;
            groups.push(group);
            if pieces.ended() {
                return Ok(Bundle {
                    sizes: pieces.sizes,
                    key: written(bytes, key),
                    groups,
                });
            }
        }
    }

    /// What the reader answers.
    pub fn contents(&self) -> BundleContents {
        BundleContents {
            n: self.sizes.n,
            m: self.sizes.m,
            groups: self.groups.len(),
        }
    }

    /// Its bytes.
    pub fn bytes(&self) -> Vec<u8> {
        joined_fields(&self.key, &self.groups)
    }
}

/// Judges the next pieces as a group after another, or as the first. 20 "when a
/// group's serial isn't above the one before, at the place of values of that
/// field".
fn judged_group(pieces: &mut Pieces, before: Option<&Group>) -> Result<Group, Refused> {
    let bytes = pieces.bytes;
    let (of_serial, others) = group_stated().split_at(1);
    let found = pieces.take(of_serial)?;
    let serial = serial(&bytes[range_of(&found, tag::SERIAL)]);
    if before.is_some_and(|before| serial <= before.serial) {
        let place = Place::Values;
        return Err(Refused::at(Some(tag::SERIAL), place, Refusal::SerialOrder));
    }
    let found = pieces.take(others)?;
    Ok(Group {
        serial,
        t: bytes[range_of(&found, tag::T)].to_vec(),
        a: words(&bytes[range_of(&found, tag::A)]),
    })
}

/// The fields that were found, as they were written.
fn written(bytes: &[u8], found: Places) -> Vec<WrittenField> {
    let found = found.into_iter();
    let fields = found.map(|(tag, content)| WrittenField::new(tag, bytes[content].to_vec()));
    fields.collect()
}

/// The bytes of key fields and groups.
fn joined_fields(key: &[WrittenField], groups: &[Group]) -> Vec<u8> {
    let groups = groups.iter().flat_map(Group::fields);
    let fields: Vec<WrittenField> = key.iter().cloned().chain(groups).collect();
    join(&fields)
}

/// The bytes of a bundle, by concatenation; nothing is judged, and the groups
/// stand in the order of the list.
pub fn bundle_bytes(key: Key<'_>, groups: &[Group]) -> Vec<u8> {
    joined_fields(&key_fields(key), groups)
}

/// What read bundle answers, with the place of a refusal.
pub fn judge_bundle(bytes: &[u8]) -> Result<BundleContents, Refused> {
    Bundle::judged(bytes).map(|bundle| bundle.contents())
}

/// The entry read bundle: "answers n, m and the number of groups", or a refusal.
pub fn read_bundle(bytes: &[u8]) -> Result<BundleContents, Refusal> {
    judge_bundle(bytes).map_err(|refused| refused.refusal)
}
