//! The entry write package: the fields of a package one after another, in an
//! output that may be longer.
//!
//! - [`groups`]: the groups of its cases, but for those with faults;
//! - [`by_hand`]: packages whose bytes are written out;
//! - `table`: the table of its cases.

pub mod by_hand;
pub mod groups;
mod table;

use super::faults::fault_groups;
use super::files::fields::{any_serial, content_of, walked, HEAD};
use super::keyed::{self, after_key, Keyed};
use super::package_field::LENGTH;
use super::readers::SERIAL;
use super::{leaning, stated, DONE, SHORT};
use crate::case::{Case, Entry, Taken};
use crate::lent::Lent;
use crate::library;
use crate::named::Named;
use crate::slices::{A, H, M, N, T, X, Y};
use reference::package::{tag, words, WrittenField};
use reference::samples::Generator;
use reference::Refusal;
use table::TABLE;

/// The output.
pub const OUT: &str = "out";

/// The slices and the refusals of write package. 3 is not for the output.
pub struct WritePackage;

impl Keyed for WritePackage {
    const READS: &'static [&'static str] = &[T, A];
    const WRITES: &'static [&'static str] = &[];
    const REFUSALS: &'static [Refusal] = after_key!(Bit, Coordinate, ShortOutput);

    /// Any serial, and an output of the length of the package or a longer one.
    fn add_others(case: &mut Case, generator: &mut Generator) {
        case.numbers.push(SERIAL, any_serial(generator) as usize);
        let more = [0, generator.below(40)][generator.below(2)];
        case.outputs = outputs(package_length(case) + more, generator);
    }
}

/// The entry write package.
pub const WRITE: Entry = Entry {
    name: "write package",
    refusals: WritePackage::REFUSALS,
    library: by_library,
    reference: by_reference,
    groups: || {
        let own = groups::own();
        let leaning = leaning::groups::<WritePackage>();
        [own, leaning, fault_groups::<WritePackage>()].concat()
    },
    table: Some(TABLE),
    least: || [groups::least(), leaning::least()].concat(),
    ..keyed::ENTRY
};

/// The side of the library.
fn by_library(taken: &Taken, outputs: &mut Named<Lent>) -> u32 {
    let [out, length] = outputs.each_mut([OUT, LENGTH]);
    library::write_package(
        taken.key(),
        serial_of(taken),
        taken.bytes(T),
        taken.words(A),
        out.bytes_mut(),
        length.size_mut(),
    )
}

/// The side of the reference.
fn by_reference(taken: &Taken, outputs: &mut Named<Lent>) -> u32 {
    let [out, length] = outputs.each_mut([OUT, LENGTH]);
    let (t, a) = (taken.bytes(T), taken.words(A));
    match reference::write_package(taken.key(), serial_of(taken), t, a, out.bytes_mut()) {
        Ok(found) => {
            *length.size_mut() = found;
            DONE
        }
        Err(refusal) => refusal.number(),
    }
}

/// The serial of a call.
pub fn serial_of(taken: &Taken) -> u32 {
    taken.numbers[SERIAL] as u32
}

/// The bytes of a serial: four where it does not fit two.
fn serial_length(taken: &Taken) -> usize {
    match taken.numbers[SERIAL] {
        0..=65_535 => 2,
        _ => 4,
    }
}

/// The length of the package of a call, by the lengths of its slices: each field
/// has a head, a word has two bytes, and a y of zeros has no field.
pub fn package_length(taken: &Taken) -> usize {
    let of_words = |name| HEAD + 2 * taken.words(name).len();
    let y = match taken.words(Y).iter().any(|&word| word != 0) {
        true => of_words(Y),
        false => 0,
    };
    let bytes = [2, serial_length(taken), taken.bytes(T).len()];
    let bytes = bytes.into_iter().map(|len| HEAD + len);
    of_words(H) + of_words(X) + y + of_words(A) + bytes.sum::<usize>()
}

/// An output of this length with random content, and room for the length.
pub fn outputs(len: usize, generator: &mut Generator) -> Named<Lent> {
    Named::from([
        (OUT, Lent::any_bytes(len, generator)),
        (LENGTH, Lent::any_size(generator)),
    ])
}

/// The case with an output of this length, and what is known then: 13 where the
/// package is longer, else its length. Nothing else is wrong with the case.
fn with_output(case: &Case, len: usize, generator: &mut Generator) -> Case {
    let mut case = case.clone();
    case.outputs = outputs(len, generator);
    let needed = package_length(&case);
    let fits = needed <= len;
    case.stated = fits.then(|| vec![stated(LENGTH, 0, needed as u64)]);
    case.answering(Some(if fits { DONE } else { SHORT }))
}

/// The case with an output that is so many bytes longer than the package.
fn with_room(case: &Case, more: usize, generator: &mut Generator) -> Case {
    with_output(case, package_length(case) + more, generator)
}

/// The case with this y and this serial, which need another output.
fn with_fields(case: &Case, y: &[u16], serial: u32) -> Case {
    let mut case = case.clone();
    case.set_words(Y, y);
    case.numbers[SERIAL] = serial as usize;
    case
}

/// The case that writes an accepted package again, in an output that is so many
/// bytes longer. Where it has no field y, y is m zeros.
pub fn of_package(package: &[u8], more: usize, generator: &mut Generator) -> Case {
    let fields: Vec<WrittenField> = walked(package).collect();
    let &[n, m] = content_of(&fields, tag::SIZES) else {
        panic!("an accepted package has n and m");
    };
    let y = fields.iter().find(|field| field.tag == tag::Y);
    let y = y.map_or(vec![0; m.into()], |field| words(&field.content));
    let serial = content_of(&fields, tag::SERIAL).iter();
    let serial = serial.fold(0, |number, &byte| 256 * number + usize::from(byte));
    let content = |tag| words(content_of(&fields, tag));
    let lists = [
        (H, content(tag::H)),
        (X, content(tag::X)),
        (Y, y),
        (A, content(tag::A)),
    ];
    let inputs = lists.map(|(name, list)| (name, Lent::with_words(&list, generator)));
    let mut inputs = Named::from(inputs);
    inputs.push(T, Lent::with_bytes(content_of(&fields, tag::T), generator));
    Case::new(
        Named::from([(N, n.into()), (M, m.into()), (SERIAL, serial)]),
        inputs,
        outputs(package.len() + more, generator),
    )
}
