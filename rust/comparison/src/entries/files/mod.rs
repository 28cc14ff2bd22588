//! What the entries that take the bytes of a file have in common.
//!
//! - [`fields`]: the fields of packages and check files, by their tags;
//! - [`faults`]: faults at the places of fields, whose answers are known;
//! - [`damage`]: other changes of files;
//! - [`groups`] and [`leaning`]: the groups of cases, the latter with rows of H
//!   that lean on each other;
//! - [`table`]: the table of a reader.

pub mod damage;
pub mod faults;
pub mod fields;
pub mod groups;
pub mod leaning;
pub mod table;

use crate::case::{Case, Taken};
use crate::lent::Lent;
use crate::named::Named;
use fields::{any_fields, rows_of_key, walked, KEY_TAGS};
use reference::package::{join, package_part, tag, WrittenField, CHECK_FILE_TAGS, PACKAGE_TAGS};
use reference::samples::Generator;
use reference::Refusal;

/// The bytes of a file, as an input.
pub const BYTES: &str = "bytes";

/// The refusals of the readers.
pub const REFUSALS: &[Refusal] = &[
    Refusal::BytesMissing,
    Refusal::Tag,
    Refusal::FieldLength,
    Refusal::SizeN,
    Refusal::SizeM,
    Refusal::KeyElement,
    Refusal::ZeroTarget,
    Refusal::DependentRows,
    Refusal::LongSerial,
    Refusal::Bit,
    Refusal::Coordinate,
    Refusal::BytesFollow,
];

/// The kinds of files.
#[derive(Clone, Copy, Debug, PartialEq, Eq)]
pub enum File {
    /// A package.
    Package,
    /// A check file.
    CheckFile,
}

impl File {
    /// The tags that it can have, in their order; that of y may be absent.
    pub fn tags(self) -> &'static [u8] {
        match self {
            File::Package => &PACKAGE_TAGS,
            File::CheckFile => &CHECK_FILE_TAGS,
        }
    }

    /// Its fields in the list of a check file.
    pub fn part(self, fields: &[WrittenField]) -> &[WrittenField] {
        match self {
            File::Package => package_part(fields),
            File::CheckFile => fields,
        }
    }
}

/// An entry that takes the bytes of a file.
pub trait Reader: Sized {
    /// The kind of file that it reads.
    const FILE: File;

    /// The number of damaged files.
    const DAMAGED: usize;

    /// The sizes of the files that are damaged most.
    const SMALL: &'static [(usize, usize)] = &[
        (2, 1),
        (3, 1),
        (3, 2),
        (4, 3),
        (5, 2),
        (6, 4),
        (8, 3),
        (9, 4),
    ];

    /// The sizes of the other files that are damaged.
    const LARGE: &'static [(usize, usize)] = &[(16, 3), (17, 8), (32, 31), (33, 1), (64, 63)];

    /// A case with these bytes, and what the reader of the file answers where
    /// it is known without the reference.
    fn case(bytes: Lent, answer: Option<u32>, generator: &mut Generator) -> Case;

    /// The fields of a check file, whose values no refusal applies to.
    fn fields(n: usize, m: usize, generator: &mut Generator) -> Vec<WrittenField> {
        any_fields(n, m, generator)
    }
}

/// The inputs of an entry that takes bytes alone.
pub fn input(bytes: Lent) -> Named<Lent> {
    Named::from([(BYTES, bytes)])
}

/// A case with these bytes.
pub fn case<R: Reader>(bytes: &[u8], answer: Option<u32>, generator: &mut Generator) -> Case {
    R::case(Lent::with_bytes(bytes, generator), answer, generator)
}

/// n and H of the bytes of a file; none where the fields of the key aren't
/// right. The tag of y after x is that of a field of the key, though it be cut.
pub fn rows_of_bytes(bytes: &[u8]) -> Option<(usize, Vec<u16>)> {
    let fields: Vec<WrittenField> = walked(bytes).take(KEY_TAGS.len()).collect();
    let rows = rows_of_key(&fields)?;
    let after_x = join(&fields[..KEY_TAGS.len() - 1]).len();
    let cut = fields.len() < KEY_TAGS.len() && bytes.get(after_x) == Some(&tag::Y);
    (!cut).then_some(rows)
}

/// n and H of what an entry that reads a file takes.
pub fn rows_of_file(taken: &Taken, _: u32) -> Option<(usize, Vec<u16>)> {
    rows_of_bytes(taken.bytes(BYTES))
}
