//! A join and a look before it, of parts that can be wrong.

use comparison::case::Taken;
use comparison::entries::bundles::join::bundles_of;
use comparison::entries::bundles::parts::{serial_of, Bundle, Fields};
use comparison::entries::bundles::GROUPS;
use comparison::entries::package_field::LENGTH;
use comparison::entries::write::OUT;
use comparison::lent::Lent;
use comparison::named::Named;
use reference::package::WrittenField;
use reference::Refusal;
use std::cmp::Ordering;

/// The refusals of a join, in an order.
#[derive(Clone, Copy)]
pub enum Check {
    First,
    Second,
    Key,
    Groups,
    Room,
}

/// A join, by its parts.
#[derive(Clone, Copy)]
pub struct Join {
    /// The order in which the refusals are decided.
    pub order: [Check; 5],
    /// Whether two keys are the same.
    pub same_key: fn(&[WrittenField], &[WrittenField]) -> bool,
    /// The order of two groups.
    pub order_of: fn(&Fields, &Fields) -> Ordering,
    /// Whether two groups with one serial are the same.
    pub same: fn(&Fields, &Fields) -> bool,
    /// What becomes of two groups with one serial.
    pub kept: fn(&Fields, &Fields) -> Vec<Fields>,
    /// Whether an output of the first length is too short for a bundle of the
    /// second.
    pub short: fn(usize, usize) -> bool,
}

/// The join as it should be.
pub const JOIN: Join = Join {
    order: [
        Check::First,
        Check::Second,
        Check::Key,
        Check::Groups,
        Check::Room,
    ],
    same_key: |one, other| one == other,
    order_of: |one, other| serial_of(one).cmp(&serial_of(other)),
    same: |one, other| one == other,
    kept: |one, _| vec![one.clone()],
    short: |room, length| room < length,
};

impl Join {
    /// The groups of both, and whether two with one serial differ.
    fn merged(&self, first: &[Fields], second: &[Fields]) -> (Vec<Fields>, bool) {
        let mut merged = Vec::new();
        let mut differ = false;
        let (mut one, mut other) = (first.iter().peekable(), second.iter().peekable());
        loop {
            let order = match (one.peek(), other.peek()) {
                (None, None) => return (merged, differ),
                (Some(_), None) => Ordering::Less,
                (None, Some(_)) => Ordering::Greater,
                (Some(one), Some(other)) => (self.order_of)(one, other),
            };
            match order {
                Ordering::Less => merged.extend(one.next().cloned()),
                Ordering::Greater => merged.extend(other.next().cloned()),
                Ordering::Equal => {
                    if let (Some(one), Some(other)) = (one.next(), other.next()) {
                        differ |= !(self.same)(one, other);
                        merged.extend((self.kept)(one, other));
                    }
                }
            }
        }
    }

    /// The bytes of the joined bundle and its number of groups, or the refusal,
    /// for an output of this length.
    fn judged(&self, lent: [&[u8]; 2], room: usize) -> Result<(Vec<u8>, usize), u32> {
        let read = lent.map(|bytes| reference::read_bundle(bytes).err().map(Refusal::number));
        let [first, second] = lent.map(Bundle::walked);
        let (groups, differ) = self.merged(&first.groups, &second.groups);
        let key_differs = !(self.same_key)(&first.key, &second.key);
        let key = first.key;
        let joined = Bundle { key, groups };
        let bytes = joined.bytes();
        let refusal = |check: &Check| match check {
            Check::First => read[0],
            Check::Second => read[1],
            Check::Key => key_differs.then_some(21),
            Check::Groups => differ.then_some(22),
            Check::Room => (self.short)(room, bytes.len()).then_some(13),
        };
        match self.order.iter().find_map(refusal) {
            Some(answer) => Err(answer),
            None => Ok((bytes, joined.groups.len())),
        }
    }

    /// The join.
    pub fn call(&self, taken: &Taken, outputs: &mut Named<Lent>) -> u32 {
        match self.judged(bundles_of(taken), outputs[OUT].len()) {
            Ok((bytes, groups)) => {
                put(&bytes, groups, outputs);
                0
            }
            Err(answer) => answer,
        }
    }

    /// The look.
    pub fn look(&self, lent: [&[u8]; 2], room: usize, numbers: [&mut usize; 2]) -> u32 {
        match self.judged(lent, room) {
            Ok((bytes, count)) => {
                let [length, groups] = numbers;
                (*length, *groups) = (bytes.len(), count);
                0
            }
            Err(answer) => answer,
        }
    }
}

/// Writes these bytes and these numbers, as much as there is room for.
pub fn put(bytes: &[u8], count: usize, outputs: &mut Named<Lent>) {
    let [out, length, groups] = outputs.each_mut([OUT, LENGTH, GROUPS]);
    let room = out.bytes_mut();
    let len = bytes.len().min(room.len());
    room[..len].copy_from_slice(&bytes[..len]);
    *length.size_mut() = bytes.len();
    *groups.size_mut() = count;
}
