//! The entry join bundles: the groups of two bundles of one key, in an output
//! that may be longer.

use super::look::{self, looked_and_joined};
use super::parts::{Bundle, Pair};
use super::{join_groups, table, GROUPS};
use crate::case::{Case, Entry, Stated, Taken};
use crate::entries::files::rows_of_bytes;
use crate::entries::package_field::LENGTH;
use crate::entries::write::OUT;
use crate::entries::{readers, stated, DONE, SHORT};
use crate::lent::Lent;
use crate::library;
use crate::named::Named;
use reference::samples::Generator;
use reference::Refusal;

/// The first bundle.
pub const FIRST: &str = "first";
/// The second bundle.
pub const SECOND: &str = "second";
/// Where this number is there, the second bundle is so many bytes of the first
/// slice, from its beginning on.
pub const OF_FIRST: &str = "of first";

/// The refusals of one bundle, then those of two.
pub const REFUSALS: &[Refusal] = &[
    Refusal::BytesMissing,
    Refusal::Tag,
    Refusal::FieldLength,
    Refusal::SizeN,
    Refusal::SizeM,
    Refusal::KeyElement,
    Refusal::ZeroTarget,
    Refusal::DependentRows,
    Refusal::LongSerial,
    Refusal::SerialOrder,
    Refusal::Bit,
    Refusal::Coordinate,
    Refusal::OtherKey,
    Refusal::GroupsDiffer,
    Refusal::ShortOutput,
];

/// The entry join bundles. Each join is looked at first.
pub const JOIN_BUNDLES: Entry = Entry {
    name: "join bundles",
    refusals: REFUSALS,
    library: |taken, outputs| looked_and_joined(look::by_library, by_library, taken, outputs),
    reference: |taken, outputs| looked_and_joined(look::by_reference, by_reference, taken, outputs),
    rows: Some(rows_of_bundles),
    package: None,
    table: Some(table::JOIN),
    groups: join_groups::all,
    ..readers::ENTRY
};

/// The join of the library.
fn by_library(taken: &Taken, outputs: &mut Named<Lent>) -> u32 {
    let [first, second] = bundles_of(taken);
    let [out, length, groups] = outputs.each_mut([OUT, LENGTH, GROUPS]);
    let sizes = (length.size_mut(), groups.size_mut());
    library::join_bundles(first, second, out.bytes_mut(), sizes.0, sizes.1)
}

/// The join of the reference.
pub fn by_reference(taken: &Taken, outputs: &mut Named<Lent>) -> u32 {
    let [first, second] = bundles_of(taken);
    let [out, length, groups] = outputs.each_mut([OUT, LENGTH, GROUPS]);
    match reference::join_bundles(first, second, out.bytes_mut()) {
        Ok(joined) => {
            *length.size_mut() = joined.length;
            *groups.size_mut() = joined.groups;
            DONE
        }
        Err(refusal) => refusal.number(),
    }
}

/// The length and the number of groups, as they stand in the outputs.
pub fn numbers(outputs: &mut Named<Lent>) -> [usize; 2] {
    let numbers = outputs.each_mut([LENGTH, GROUPS]);
    numbers.map(|number| *number.size_mut())
}

/// The two bundles of a call.
pub fn bundles_of(taken: &Taken) -> [&[u8]; 2] {
    let first = taken.bytes(FIRST);
    match taken.numbers.get(OF_FIRST) {
        Some(&len) => [first, &first[..len]],
        None => [first, taken.bytes(SECOND)],
    }
}

/// n and H of the bundle that decides: the second where the first is accepted.
fn rows_of_bundles(taken: &Taken, _: u32) -> Option<(usize, Vec<u16>)> {
    let [first, second] = bundles_of(taken);
    match reference::read_bundle(first) {
        Ok(_) => rows_of_bytes(second),
        Err(_) => rows_of_bytes(first),
    }
}

/// An output of this length with random content, and the numbers.
pub fn outputs(room: usize, generator: &mut Generator) -> Named<Lent> {
    Named::from([
        (OUT, Lent::any_bytes(room, generator)),
        (LENGTH, Lent::any_size(generator)),
        (GROUPS, Lent::any_size(generator)),
    ])
}

/// A case with these bundles, an output of this length, and the answer where it
/// is known without the reference.
pub fn case(
    first: &[u8],
    second: &[u8],
    room: usize,
    answer: Option<u32>,
    generator: &mut Generator,
) -> Case {
    let inputs = Named::from([
        (FIRST, Lent::with_bytes(first, generator)),
        (SECOND, Lent::with_bytes(second, generator)),
    ]);
    let outputs = outputs(room, generator);
    Case::new(Named::new(), inputs, outputs).answering(answer)
}

/// The most bytes of an output that are stated one by one.
const MOST_STATED: usize = 200_000;

/// What the outputs hold after a join: these bytes, their number and that of the
/// groups.
pub fn stated_bytes(bytes: &[u8], groups: usize) -> Vec<Stated> {
    let mut list = vec![
        stated(LENGTH, 0, bytes.len() as u64),
        stated(GROUPS, 0, groups as u64),
    ];
    if bytes.len() <= MOST_STATED {
        let bytes = bytes.iter().enumerate();
        list.extend(bytes.map(|(index, &byte)| stated(OUT, index, byte)));
    }
    list
}

/// The case with what is known where nothing but the length of the output can be
/// wrong: 13 where the joined bundle is longer, else what is written.
pub fn stating(case: Case, joined: &Bundle) -> Case {
    let bytes = joined.bytes();
    let fits = bytes.len() <= case.outputs[OUT].len();
    Case {
        answer: Some(if fits { DONE } else { SHORT }),
        stated: fits.then(|| stated_bytes(&bytes, joined.groups.len())),
        ..case
    }
}

/// The case with two bundles of one key in an output of this length.
pub fn with_output(pair: &Pair, room: usize, generator: &mut Generator) -> Case {
    let Pair {
        first,
        second,
        joined,
    } = pair;
    let case = case(&first.bytes(), &second.bytes(), room, None, generator);
    stating(case, joined)
}

/// The same in an output that is so many bytes longer than the joined bundle.
pub fn with_room(pair: &Pair, more: usize, generator: &mut Generator) -> Case {
    with_output(pair, pair.joined.bytes().len() + more, generator)
}

/// The case whose second bundle is the beginning of the first slice, with this
/// many of its groups.
pub fn of_one_slice(bundle: &Bundle, groups: usize, generator: &mut Generator) -> Case {
    let bytes = bundle.bytes();
    let len = bundle.part(|index| index < groups).bytes().len();
    let mut case = case(&bytes, &[], bytes.len(), None, generator);
    case.taken.inputs.remove(SECOND);
    case.numbers.push(OF_FIRST, len);
    stating(case, bundle)
}
