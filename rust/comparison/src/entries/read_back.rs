//! What write package of the library writes, its readers read as the same fields.
//!
//! It is run as an entry, which takes what write package takes. It calls write
//! package of the library with an output, then read package with the bytes that
//! were written, and field of a package with every tag. It writes n, m and the
//! serial that were read, and for each tag the length of the part and its bytes.
//! In the place of the reference these are the numbers that were lent, and the
//! slices as contents of their fields; no reader is called there.

use super::files::fields::{any_serial, serials_about_powers};
use super::keyed::{self, sizes, Keyed};
use super::package_field::LENGTH;
use super::readers::SERIAL;
use super::write::{self, package_length, serial_of, WritePackage, OUT, WRITE};
use super::{DONE, REFUSED};
use crate::case::{Call, Case, Entry, Group, Least, Taken};
use crate::lent::Lent;
use crate::library;
use crate::named::Named;
use crate::slices::{A, M, N, T, Y};
use reference::package::package_fields;
use reference::samples::Generator;

/// The lengths of the parts of all tags, two bytes each, each followed by the
/// part.
pub const PARTS: &str = "parts";

/// The bytes of the length of a part.
const LENGTH_BYTES: usize = 2;

/// The answer when what was written, or a part of it, is not in the output.
const OUTSIDE: u32 = 200;

/// What is written, read back, as an entry.
pub const READ_BACK: Entry = Entry {
    name: "written package read back",
    library: |taken, outputs| written_and_read(WRITE.library, taken, outputs),
    reference: lent_fields,
    groups: || vec![EVERY_N, SMALL_N, SERIALS],
    least: || {
        let of_n = |n| Least {
            group: EVERY_N.name,
            n: vec![n],
            m: vec![1, n - 1],
            answer: DONE,
            count: 2,
        };
        keyed::EVERY_N.map(of_n).collect()
    },
    ..keyed::ENTRY
};

/// Writes a package with this function, then reads it with the library.
pub fn written_and_read(write: Call, taken: &Taken, outputs: &mut Named<Lent>) -> u32 {
    let generator = &mut Generator::new(taken.numbers[SERIAL] as u64);
    let room = package_length(taken) + generator.below(3);
    let mut written = write::outputs(room, generator);
    match write(taken, &mut written) {
        DONE => {}
        refusal => return REFUSED + refusal,
    }
    let length = *written[LENGTH].size_mut();
    let Some(bytes) = written[OUT].bytes().get(..length) else {
        return OUTSIDE;
    };
    let numbers = outputs.each_mut([N, M, SERIAL]);
    let [n, m, serial] = numbers.map(Lent::number_mut);
    match library::read_package(bytes, n, m, serial) {
        DONE => {}
        refusal => return REFUSED + refusal,
    }
    let parts = (0..=255).map(|tag| {
        let mut start = 0;
        let len = library::field(bytes, tag, &mut start);
        bytes.get(start..start.checked_add(len)?)
    });
    match parts.collect::<Option<Vec<_>>>() {
        Some(parts) => put_parts(parts, outputs),
        None => OUTSIDE,
    }
}

/// The other side: what was lent.
fn lent_fields(taken: &Taken, outputs: &mut Named<Lent>) -> u32 {
    let (t, a) = (taken.bytes(T), taken.words(A));
    let key = taken.key();
    *outputs[N].number_mut() = key.n as u32;
    *outputs[M].number_mut() = key.m as u32;
    *outputs[SERIAL].number_mut() = serial_of(taken);
    let fields = package_fields(key, serial_of(taken), t, a);
    let parts = (0..=255).map(|tag| {
        let field = fields.iter().find(|field| field.tag == tag);
        field.map_or(&[][..], |field| &field.content)
    });
    put_parts(parts.collect(), outputs)
}

/// Writes the parts of all tags.
fn put_parts(parts: Vec<&[u8]>, outputs: &mut Named<Lent>) -> u32 {
    let with_length = |part: &&[u8]| {
        let [.., high, low] = part.len().to_be_bytes();
        [&[high, low], *part].concat()
    };
    let bytes: Vec<u8> = parts.iter().flat_map(with_length).collect();
    match outputs[PARTS].bytes_mut().get_mut(..bytes.len()) {
        Some(room) => room.copy_from_slice(&bytes),
        None => return OUTSIDE,
    }
    DONE
}

/// The case with the outputs of this entry.
fn read_back(mut case: Case, generator: &mut Generator) -> Case {
    let numbers = [N, M, SERIAL].map(|name| (name, Lent::any_number(generator)));
    case.outputs = Named::from(numbers);
    let parts = 256 * LENGTH_BYTES + package_length(&case);
    case.outputs.push(PARTS, Lent::any_bytes(parts, generator));
    case.answering(Some(DONE))
}

const EVERY_N: Group = Group::new(
    "every n, all tags, without y and with one",
    |generator, each| {
        for n in keyed::EVERY_N {
            for m in keyed::some_m(n, generator) {
                let right = WritePackage::right(sizes(n, m), generator);
                for y in [vec![0; m], generator.target(m)] {
                    let mut case = right.clone();
                    case.set_words(Y, &y);
                    case.numbers[SERIAL] = any_serial(generator) as usize;
                    each(read_back(case, generator));
                }
            }
        }
    },
);

/// Random packages of small sizes.
pub const SMALL_N: Group = Group::new("n to 9, every m, all tags", |generator, each| {
    keyed::small_sizes(6, &mut |sizes, _| {
        each(read_back(WritePackage::right(sizes, generator), generator));
    });
});

/// Serials about powers of two and of ten.
pub const SERIALS: Group = Group::new(
    "serials of two and of four bytes, all tags",
    |generator, each| {
        for serial in serials_about_powers() {
            let mut case = WritePackage::right(sizes(3, 2), generator);
            case.numbers[SERIAL] = serial as usize;
            each(read_back(case, generator));
        }
    },
);
