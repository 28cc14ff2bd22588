//! The fields of packages and check files, as the specification states them.

use crate::key::Sizes;

/// The tags, each with the name of its field.
pub mod tag {
    /// The sizes n and m.
    pub const SIZES: u8 = 0x01;
    /// H.
    pub const H: u8 = 0x02;
    /// The vector x.
    pub const X: u8 = 0x03;
    /// The target y.
    pub const Y: u8 = 0x04;
    /// The serial.
    pub const SERIAL: u8 = 0x05;
    /// The masked witness t.
    pub const T: u8 = 0x06;
    /// The proof a.
    pub const A: u8 = 0x07;
    /// The verifier's numbers q.
    pub const Q: u8 = 0x11;
    /// The mask numbers.
    pub const MASKS: u8 = 0x12;
    /// The challenge Δ.
    pub const DELTA: u8 = 0x13;
    /// The weights α.
    pub const ALPHA: u8 = 0x14;
}

/// What the content of a field is made of.
#[derive(Clone, Copy, Debug, PartialEq, Eq)]
pub enum Kind {
    /// n and m, one byte each.
    Sizes,
    /// Elements of F of H or x.
    Key,
    /// Elements of F of y, not all zero.
    Target,
    /// The serial.
    Serial,
    /// Bytes 0 or 1.
    Bits,
    /// Elements of K.
    Elements,
}

/// A field as the specification states it.
pub struct Stated {
    /// The tag.
    pub tag: u8,
    /// Its name in the names of test files.
    pub name: &'static str,
    /// What its content is made of.
    pub kind: Kind,
    /// The lengths in bytes that it may have. That of 01 is the same for all
    /// sizes.
    pub lengths: fn(Sizes) -> Vec<usize>,
    /// Whether it may be absent.
    pub optional: bool,
}

/// A row of the table below: a field that may not be absent.
pub const fn stated(
    tag: u8,
    name: &'static str,
    kind: Kind,
    lengths: fn(Sizes) -> Vec<usize>,
) -> Stated {
    Stated {
        tag,
        name,
        kind,
        lengths,
        optional: false,
    }
}

/// The lengths in bytes of the serial: "Field 05 may have length 2 or 4".
pub const SERIAL_LENGTHS: [usize; 2] = [2, 4];

/// The fields of a check file: "A package has exactly these fields in this
/// order: 01 sizes (n, m, one byte each); 02 H (2mn bytes); 03 x (2n); 05
/// serial (2, unsigned, any value); 06 t (nd bytes); 07 a (24d). A check file
/// is a package followed by 11 q (24nd), 12 mask numbers (24(d - 1), the only
/// field that may be empty), 13 Δ (24), 14 α (24(n + m))." The serial has a
/// second length since, and "The package may have field 04, y, of 2m bytes,
/// between 03 and 05".
pub const FIELDS: &[Stated] = &[
    stated(tag::SIZES, "sizes", Kind::Sizes, |_| vec![2]),
    stated(tag::H, "h", Kind::Key, |k| vec![2 * k.m * k.n]),
    stated(tag::X, "x", Kind::Key, |k| vec![2 * k.n]),
    Stated {
        optional: true,
        ..stated(tag::Y, "y", Kind::Target, |k| vec![2 * k.m])
    },
    stated(tag::SERIAL, "serial", Kind::Serial, |_| {
        SERIAL_LENGTHS.to_vec()
    }),
    stated(tag::T, "t", Kind::Bits, |k| vec![k.n * k.d]),
    stated(tag::A, "a", Kind::Elements, |k| vec![24 * k.d]),
    stated(tag::Q, "q", Kind::Elements, |k| vec![24 * k.n * k.d]),
    stated(tag::MASKS, "masks", Kind::Elements, |k| {
        vec![24 * (k.d - 1)]
    }),
    stated(tag::DELTA, "delta", Kind::Elements, |_| vec![24]),
    stated(tag::ALPHA, "alpha", Kind::Elements, |k| {
        vec![24 * (k.n + k.m)]
    }),
];

/// The number of fields before the one with this tag.
const fn fields_before(tag: u8) -> usize {
    let mut count = 0;
    while FIELDS[count].tag != tag {
        count += 1;
    }
    count
}

/// The number of fields of a key: those before the serial.
const KEY_FIELDS: usize = fields_before(tag::SERIAL);

/// The number of fields of a package: those before q.
const PACKAGE_FIELDS: usize = fields_before(tag::Q);

/// The fields of a key.
pub fn key_stated() -> &'static [Stated] {
    &FIELDS[..KEY_FIELDS]
}

/// The fields of a group, which a package has after the key's.
pub fn group_stated() -> &'static [Stated] {
    &FIELDS[KEY_FIELDS..PACKAGE_FIELDS]
}

/// The fields of a package.
pub fn package_stated() -> &'static [Stated] {
    &FIELDS[..PACKAGE_FIELDS]
}

/// The first tags of the table.
const fn tags<const COUNT: usize>() -> [u8; COUNT] {
    let mut tags = [0; COUNT];
    let mut i = 0;
    while i < COUNT {
        tags[i] = FIELDS[i].tag;
        i += 1;
    }
    tags
}

/// The tags of a package, that of a field that may be absent among them.
pub const PACKAGE_TAGS: [u8; PACKAGE_FIELDS] = tags();

/// The tags of a check file, that of a field that may be absent among them.
pub const CHECK_FILE_TAGS: [u8; FIELDS.len()] = tags();

/// What is stated of the field with this tag, which a check file has.
pub fn stated_of(tag: u8) -> &'static Stated {
    let field = FIELDS.iter().find(|field| field.tag == tag);
    field.expect("a tag of a check file")
}
