//! The entry field of a package.
//!
//! It answers a part, never a number: the C function answers the length, and
//! writes where the part starts. Both are compared, and the bytes that stand
//! there, which are copied to a further output; they are taken from the bytes
//! that were lent.

use super::files::faults::set_value;
use super::files::fields::{
    any_fields, lean, serial_field, serials_about_powers, set_serial, walked, HEAD,
};
use super::files::{self, groups, leaning, File, Reader, BYTES};
use super::{keyed, readers, stated, DONE};
use crate::case::{Case, Entry, Group, Table};
use crate::lent::Lent;
use crate::library;
use crate::named::Named;
use reference::package::{index_of, join, tag, WrittenField};
use reference::samples::Generator;

/// The tag that is asked for.
pub const TAG: &str = "tag";
/// Where the part starts.
pub const START: &str = "start";
/// The length of the part.
pub const LENGTH: &str = "length";
/// The bytes of the part.
pub const PART: &str = "part";

/// The entry field of a package.
pub struct PackageField;

impl Reader for PackageField {
    const FILE: File = File::Package;
    const DAMAGED: usize = 50_000;

    /// Three of four tags are those of a package.
    fn case(bytes: Lent, answer: Option<u32>, generator: &mut Generator) -> Case {
        let tags = File::Package.tags();
        let tag = match generator.below(4) {
            0 => generator.number() as u8,
            _ => tags[generator.below(tags.len())],
        };
        let refused = answer.is_some_and(|answer| answer != DONE);
        case(bytes, tag, refused.then_some([0, 0]), generator)
    }
}

/// The answer when the part isn't in the bytes, which no case here has.
const OUTSIDE: u32 = 100;

/// The entry field of a package.
pub const FIELD: Entry = Entry {
    name: "field of a package",
    refusals: &[],
    package: Some(|taken, _| {
        let bytes = taken.bytes(BYTES);
        reference::read_package(bytes).ok().map(|_| bytes.to_vec())
    }),
    library: |taken, outputs| {
        let bytes = taken.bytes(BYTES);
        let tag = taken.numbers[TAG] as u8;
        let length = library::field(bytes, tag, outputs[START].size_mut());
        *outputs[LENGTH].size_mut() = length;
        copied(bytes, outputs)
    },
    reference: |taken, outputs| {
        let bytes = taken.bytes(BYTES);
        let range = reference::field_range(bytes, taken.numbers[TAG] as u8);
        *outputs[START].size_mut() = range.start;
        *outputs[LENGTH].size_mut() = range.len();
        copied(bytes, outputs)
    },
    table: Some(Table {
        of: "package",
        columns,
        rows: || ROWS.map(|row| (row.to_string(), columns())).to_vec(),
        cell: |_, taken| {
            let bytes = taken.bytes(BYTES);
            let [accepted, with_y, refused] = ROWS;
            let row = match reference::read_package(bytes) {
                Ok(_) if walked(bytes).any(|field| field.tag == tag::Y) => with_y,
                Ok(_) => accepted,
                Err(_) => refused,
            };
            let tag = format!("{:02x}", taken.numbers[TAG]);
            let known = columns().contains(&tag);
            let column = if known { tag } else { OTHERS.to_string() };
            (row.to_string(), column)
        },
    }),
    groups: || {
        vec![
            ALL_TAGS,
            ALL_TAGS_REFUSED,
            ALL_TAGS_CHECK_FILE,
            SERIALS,
            groups::every_n::<PackageField>(),
            groups::prefixes::<PackageField>(),
            groups::one_fault::<PackageField>(),
            groups::serials::<PackageField>(),
            groups::targets::<PackageField>(),
            leaning::whole_files::<PackageField>(),
            leaning::beside_other_faults::<PackageField>(),
            leaning::after_x::<PackageField>(),
            leaning::prefixes::<PackageField>(),
            groups::two_faults::<PackageField>(),
            groups::order::<PackageField>(),
            groups::short::<PackageField>(),
            groups::other_kind::<PackageField>(),
            groups::damaged::<PackageField>(),
        ]
    },
    ..readers::ENTRY
};

/// The rows: packages that are accepted, without and with y, and others.
const ROWS: [&str; 3] = ["accepted", "with y", "refused"];

/// The column of the tags that a package doesn't have.
const OTHERS: &str = "others";

/// The columns: the tags of a package, and all others.
fn columns() -> Vec<String> {
    let tags = File::Package.tags().iter();
    let tags = tags.map(|tag| format!("{tag:02x}"));
    tags.chain([OTHERS.to_string()]).collect()
}

/// Copies the part, whose start and length are written, to the last output.
fn copied(bytes: &[u8], outputs: &mut Named<Lent>) -> u32 {
    let [start, length] = [START, LENGTH].map(|name| *outputs[name].size_mut());
    let end = start.checked_add(length);
    let Some(part) = end.and_then(|end| bytes.get(start..end)) else {
        return OUTSIDE;
    };
    outputs[PART].bytes_mut()[..length].copy_from_slice(part);
    DONE
}

/// A case with these bytes and this tag, and the start and the length where
/// they are known without the reference.
fn case(bytes: Lent, tag: u8, part: Option<[usize; 2]>, generator: &mut Generator) -> Case {
    let stated = part.map(|[start, length]| {
        vec![
            stated(START, 0, start as u64),
            stated(LENGTH, 0, length as u64),
        ]
    });
    let outputs = Named::from([
        (START, Lent::any_size(generator)),
        (LENGTH, Lent::any_size(generator)),
        (PART, Lent::any_bytes(bytes.len(), generator)),
    ]);
    let numbers = Named::from([(TAG, usize::from(tag))]);
    Case {
        answer: Some(DONE),
        stated,
        ..Case::new(numbers, files::input(bytes), outputs)
    }
}

/// Where the content of a field starts in a package, and its length; 0 and 0
/// for another tag.
fn part(fields: &[WrittenField], tag: u8) -> [usize; 2] {
    let index = fields.iter().position(|field| field.tag == tag);
    index.map_or([0, 0], |index| {
        let start = join(&fields[..index]).len() + HEAD;
        [start, fields[index].content.len()]
    })
}

const ALL_TAGS: Group = Group::new("every n, all tags", |generator, each| {
    for n in keyed::EVERY_N {
        let m = keyed::some_m(n, generator)[n % 3];
        let fields = any_fields(n, m, generator);
        let package = File::Package.part(&fields);
        let bytes = Lent::with_bytes(&join(package), generator);
        for tag in 0..=255 {
            let part = part(package, tag);
            each(case(bytes.clone(), tag, Some(part), generator));
        }
    }
});

/// The sizes of some packages.
const TRIED: [usize; 7] = [2, 3, 5, 9, 17, 33, 64];

const SERIALS: Group = Group::new("serials and the fields about them", |generator, each| {
    for n in TRIED {
        let m = keyed::some_m(n, generator)[n % 3];
        let fields = any_fields(n, m, generator);
        let mut package = File::Package.part(&fields).to_vec();
        for serial in serials_about_powers() {
            set_serial(&mut package, serial_field(serial));
            let bytes = Lent::with_bytes(&join(&package), generator);
            for tag in [tag::X, tag::Y, tag::SERIAL, tag::T, tag::A] {
                let part = part(&package, tag);
                each(case(bytes.clone(), tag, Some(part), generator));
            }
        }
    }
});

/// Bytes of which no field is handed back, with all tags.
fn without_fields(bytes: &[u8], generator: &mut Generator, each: &mut dyn FnMut(Case)) {
    let bytes = match bytes {
        [] => Lent::no_bytes(),
        _ => Lent::with_bytes(bytes, generator),
    };
    for tag in 0..=255 {
        each(case(bytes.clone(), tag, Some([0, 0]), generator));
    }
}

const ALL_TAGS_REFUSED: Group = Group::new("refused packages, all tags", |generator, each| {
    for n in TRIED {
        let m = 1 + generator.below(n - 1);
        let mut fields = File::Package.part(&any_fields(n, m, generator)).to_vec();
        let bytes = join(&fields);
        let longer = [&bytes[..], &[0]].concat();
        let mut leaning = fields.clone();
        lean(&mut leaning, generator);
        let h = index_of(&fields, tag::H);
        set_value(&mut fields, h, 0, false, generator);
        let [above, leaning] = [join(&fields), join(&leaning)];
        for bytes in [&above, &bytes[..bytes.len() - 1], &longer, &leaning] {
            without_fields(bytes, generator, each);
        }
    }
    without_fields(&[], generator, each);
})
.with_any_rows();

const ALL_TAGS_CHECK_FILE: Group = Group::new("check files, all tags", |generator, each| {
    for n in TRIED {
        let m = 1 + generator.below(n - 1);
        let bytes = join(&any_fields(n, m, generator));
        without_fields(&bytes, generator, each);
    }
});
