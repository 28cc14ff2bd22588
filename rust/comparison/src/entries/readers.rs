//! The entries read package and read check file.

use super::bundles::package::BUNDLES;
use super::files::fields::{content_of, serial_field, set_serial, walked};
use super::files::{self, groups, table, File, Reader, BYTES};
use super::{number, stated, DONE, REJECTED};
use crate::case::{Call, Case, Entry, Group, Stated, Table, Taken};
use crate::lent::Lent;
use crate::library;
use crate::named::Named;
use reference::package::{join, package_of, tag, WrittenField};
use reference::samples::{Generator, Sample};
use reference::{Contents, Refusal};
use std::collections::BTreeSet;
use std::path::{Path, PathBuf};
use std::{fs, io};

/// The size n that is read.
pub const N: &str = "n";
/// The size m that is read.
pub const M: &str = "m";
/// The serial that is read.
pub const SERIAL: &str = "serial";

/// The entry read package.
pub struct ReadPackage;

impl Reader for ReadPackage {
    const FILE: File = File::Package;
    const DAMAGED: usize = 200_000;

    fn case(bytes: Lent, answer: Option<u32>, generator: &mut Generator) -> Case {
        case(bytes, answer, generator)
    }
}

/// The entry read check file.
pub struct ReadCheckFile;

impl Reader for ReadCheckFile {
    const FILE: File = File::CheckFile;
    const DAMAGED: usize = 200_000;

    fn case(bytes: Lent, answer: Option<u32>, generator: &mut Generator) -> Case {
        case(bytes, answer, generator)
    }
}

/// The entry read package.
pub const READ_PACKAGE: Entry = Entry {
    name: "read package",
    library: |taken, outputs| call(library::read_package, taken, outputs),
    reference: |taken, outputs| written(reference::read_package(taken.bytes(BYTES)), outputs),
    table: Some(Table {
        of: "field",
        columns: || table::columns(File::Package, &["0"]),
        rows: || table::rows(File::Package, &["0"]),
        cell: |_, taken| {
            let bytes = taken.bytes(BYTES);
            table::cell(bytes, reference::judge_package(bytes))
        },
    }),
    groups: || [groups_of::<ReadPackage>(), vec![BUNDLES]].concat(),
    ..ENTRY
};

/// The entry read check file.
pub const READ_CHECK_FILE: Entry = Entry {
    name: "read check file",
    library: |taken, outputs| call(library::read_check_file, taken, outputs),
    reference: |taken, outputs| written(reference::read_check_file(taken.bytes(BYTES)), outputs),
    table: Some(Table {
        of: "field",
        columns: || table::columns(File::CheckFile, &["0"]),
        rows: || table::rows(File::CheckFile, &["0"]),
        cell: |_, taken| {
            let bytes = taken.bytes(BYTES);
            table::cell(bytes, reference::judge_check_file(bytes))
        },
    }),
    groups: || groups_of::<ReadCheckFile>(),
    ..ENTRY
};

/// What the entries that take a file have the same.
pub const ENTRY: Entry = Entry {
    name: "",
    done: &[DONE],
    refusals: files::REFUSALS,
    library: NONE,
    reference: NONE,
    packed: None,
    rows: Some(files::rows_of_file),
    package: Some(package_of_file),
    table: None,
    groups: Vec::new,
    least: Vec::new,
};

/// The package of a file that is not refused: the fields before q.
fn package_of_file(taken: &Taken, answer: u32) -> Option<Vec<u8>> {
    let read = [DONE, REJECTED].contains(&answer);
    let fields = walked(taken.bytes(BYTES)).take_while(|field| field.tag != tag::Q);
    read.then(|| join(&fields.collect::<Vec<_>>()))
}

/// No entry yet.
const NONE: Call = |_, _| unreachable!("each entry has its own");

/// The groups of a reader.
fn groups_of<R: Reader>() -> Vec<Group> {
    let own = vec![
        example::<R>(),
        stored::<R>(),
        groups::every_n::<R>(),
        groups::heads::<R>(),
    ];
    [own, groups::fault_groups::<R>()].concat()
}

/// The directory of the files that the program perkcheck_cases reads.
fn stored_directory() -> PathBuf {
    Path::new(env!("CARGO_MANIFEST_DIR")).join("../../crates/perkcheck_cases/data")
}

/// The files of a directory, in the order of their names; none where one cannot
/// be read.
fn stored_files(directory: &Path) -> Vec<Vec<u8>> {
    let names = directory.read_dir().into_iter().flatten();
    let paths: io::Result<BTreeSet<PathBuf>> =
        names.map(|entry| entry.map(|entry| entry.path())).collect();
    let files = paths.and_then(|paths| paths.iter().map(fs::read).collect());
    files.unwrap_or_default()
}

/// The stored check files and, where a package is read, those that the accepted
/// ones begin with.
const fn stored<R: Reader>() -> Group {
    Group::new("stored check files", |generator, each| {
        for file in stored_files(&stored_directory()) {
            match (R::FILE, package_of(&file)) {
                (File::CheckFile, _) => each(files::case::<R>(&file, None, generator)),
                (File::Package, []) => {}
                (File::Package, package) => {
                    each(files::case::<R>(package, Some(DONE), generator));
                }
            }
        }
    })
    .with_any_rows()
}

/// A function of the library that reads a file.
type Read = fn(&[u8], &mut u32, &mut u32, &mut u32) -> u32;

/// Calls a function of the library.
fn call(read: Read, taken: &Taken, outputs: &mut Named<Lent>) -> u32 {
    let [n, m, serial] = outputs.each_mut([N, M, SERIAL]);
    read(
        taken.bytes(BYTES),
        n.number_mut(),
        m.number_mut(),
        serial.number_mut(),
    )
}

/// Writes what the reference answers, and gives its number.
fn written(answer: Result<Contents, Refusal>, outputs: &mut Named<Lent>) -> u32 {
    if let Ok(Contents { n, m, serial }) = answer {
        *outputs[N].number_mut() = n as u32;
        *outputs[M].number_mut() = m as u32;
        *outputs[SERIAL].number_mut() = serial;
    }
    number(answer.map(|_| ()))
}

/// n, m and the serial, as the fields of a right file have them.
fn contents(fields: &[WrittenField]) -> Vec<Stated> {
    let sizes = content_of(fields, tag::SIZES);
    let serial = content_of(fields, tag::SERIAL).iter();
    let serial = serial.fold(0, |number, &byte| 256 * number + u64::from(byte));
    vec![
        stated(N, 0, sizes[0]),
        stated(M, 0, sizes[1]),
        stated(SERIAL, 0, serial),
    ]
}

/// A case with these bytes. When they are known to be a right file, its fields
/// have n, m and the serial.
fn case(bytes: Lent, answer: Option<u32>, generator: &mut Generator) -> Case {
    let right = answer == Some(DONE);
    let stated = right.then(|| contents(&walked(bytes.bytes()).collect::<Vec<_>>()));
    let outputs = [N, M, SERIAL].map(|name| (name, Lent::any_number(generator)));
    Case {
        answer,
        stated,
        ..Case::new(Named::new(), files::input(bytes), Named::from(outputs))
    }
}

/// The fields of the files of key A, without and with a target.
pub fn key_a(file: File) -> [Vec<WrittenField>; 2] {
    [Sample::key_a(), Sample::key_a_with_target()].map(|sample| {
        let fields = sample.fields().expect("key A is solved");
        file.part(&fields).to_vec()
    })
}

/// The files of key A with any serial, and with the head of each further field
/// that can follow.
const fn example<R: Reader>() -> Group {
    Group::new("key A", |generator, each| {
        for mut fields in key_a(R::FILE) {
            let right = join(&fields);
            each(files::case::<R>(&right, Some(DONE), generator));
            for serial in [0, 1, 255, 256, 65_535, 65_536, 16_777_216, u32::MAX] {
                set_serial(&mut fields, serial_field(serial));
                each(files::case::<R>(&join(&fields), Some(DONE), generator));
            }
            for &tag in File::CheckFile.tags() {
                let bytes = [&right[..], &[tag, 0, 0]].concat();
                let answer = Refusal::BytesFollow.number();
                each(files::case::<R>(&bytes, Some(answer), generator));
            }
        }
    })
}
