//! Bundles by the table of fields: a key's fields, then groups.

use super::{words, Case};
use perk::digits;

/// The bytes of words, highest first.
pub fn bytes(words: &[u16]) -> Vec<u8> {
    words.iter().flat_map(|word| word.to_be_bytes()).collect()
}

/// A field: tag, length, content.
pub fn field(tag: u8, content: &[u8]) -> Vec<u8> {
    let length = (content.len() as u16).to_be_bytes();
    [&[tag][..], &length, content].concat()
}

/// The fields 01, 02, 03 and, where some element of y is not zero, 04 of a key.
pub fn key_fields(case: &Case) -> Vec<u8> {
    let mut fields = [
        field(0x01, &[case.n as u8, case.m as u8]),
        field(0x02, &bytes(&case.h)),
        field(0x03, &bytes(&case.x)),
    ]
    .concat();
    if case.y.iter().any(|element| *element != 0) {
        fields.extend(field(0x04, &bytes(&case.y)));
    }
    fields
}

/// A group: its serial, its masked witness and its proof.
#[derive(Clone)]
pub struct Group {
    pub serial: u32,
    pub t: Vec<u8>,
    pub a: Vec<u16>,
}

impl Group {
    /// A group for this n, whose t and a depend on the serial.
    pub fn with(n: usize, serial: u32) -> Group {
        let d = digits(n);
        let number = |i: usize| serial.wrapping_mul(40503).wrapping_add(i as u32) >> 3;
        Group {
            serial,
            t: (0..n * d).map(|i| (number(i) & 1) as u8).collect(),
            a: (0..12 * d)
                .map(|i| (number(37 * i) & 2047) as u16)
                .collect(),
        }
    }

    /// A group of key A, with a in coordinate 0.
    pub fn of_key_a(serial: u32, t: [u8; 2], a: u16) -> Group {
        Group {
            serial,
            t: t.to_vec(),
            a: words(&[a]),
        }
    }

    /// Its fields 05, 06 and 07. The serial has two bytes where it fits them.
    pub fn fields(&self) -> Vec<u8> {
        let serial = self.serial.to_be_bytes();
        let unused = if self.serial < 65536 { 2 } else { 0 };
        [
            field(0x05, &serial[unused..]),
            field(0x06, &self.t),
            field(0x07, &bytes(&self.a)),
        ]
        .concat()
    }
}

/// The bytes of a key's fields and these groups, in this order.
pub fn bundle(key: &Case, groups: &[Group]) -> Vec<u8> {
    let groups = groups.iter().map(Group::fields);
    [vec![key_fields(key)], groups.collect()].concat().concat()
}

/// A key of these sizes with unit rows; x, and y where there is a target, are not
/// zero.
pub fn of_sizes(n: usize, m: usize, target: bool) -> Case {
    let mut h = vec![0; m * n];
    h.iter_mut().step_by(n + 1).for_each(|entry| *entry = 1);
    Case {
        n,
        m,
        h,
        x: (0..n).map(|i| ((i + n) * 37 % 2048) as u16).collect(),
        y: vec![if target { 2047 } else { 0 }; m],
        ..Case::default()
    }
}
