//! What join bundles of the library writes, read bundle reads as the same
//! groups.
//!
//! It is run as an entry, which takes what join bundles takes. It calls join
//! bundles of the library with an output, then read bundle and read package
//! with the bytes that were written, the reader of the reference, and join
//! bundles again with what was written and each of the two. It writes n, m and
//! the number of groups that were read, and the bytes. In the place of the
//! reference these are the groups that were lent, by their serials; no reader
//! is called there.

use super::join::{self, bundles_of, with_room, FIRST, JOIN_BUNDLES, SECOND};
use super::join_groups::{SHAPES, SMALL_N};
use super::parts::{any_key, rising, sizes_of, Bundle, In, Pair};
use super::{read, GROUPS};
use crate::case::{Call, Case, Entry, Group, Taken};
use crate::entries::files::groups::FOLLOW;
use crate::entries::keyed;
use crate::entries::package_field::LENGTH;
use crate::entries::readers::{M, N};
use crate::entries::write::OUT;
use crate::entries::{DONE, REFUSED};
use crate::lent::Lent;
use crate::library;
use crate::named::Named;
use reference::samples::Generator;

/// The answer when what was written is not in the output.
const OUTSIDE: u32 = 200;
/// The answer when the readers do not agree about what was written.
const READ_OTHERWISE: u32 = 201;
/// The answer when it is another bundle after a join with one of the two.
const JOINED_OTHERWISE: u32 = 202;

/// What is written, read back, as an entry.
pub const READ_BACK: Entry = Entry {
    name: "joined bundle read back",
    refusals: &[],
    library: |taken, outputs| joined_and_read(JOIN_BUNDLES.library, taken, outputs),
    reference: lent_groups,
    table: None,
    groups: || vec![EVERY_N, SMALL, OF_SHAPES],
    ..JOIN_BUNDLES
};

/// Joins two bundles with this function in an output that has room for both, and
/// for a few bytes more.
fn joined(join: Call, [first, second]: [&[u8]; 2]) -> Result<(Vec<u8>, usize), u32> {
    let generator = &mut Generator::new(first.len() as u64);
    let room = first.len() + second.len() + generator.below(3);
    let mut case = join::case(first, second, room, None, generator);
    match join(&case.taken, &mut case.outputs) {
        DONE => {}
        refusal => return Err(REFUSED + refusal),
    }
    let [length, groups] = [LENGTH, GROUPS].map(|name| *case.outputs[name].size_mut());
    let bytes = case.outputs[OUT].bytes().get(..length);
    bytes.map_or(Err(OUTSIDE), |bytes| Ok((bytes.to_vec(), groups)))
}

/// Joins two bundles with this function, then reads what it wrote with the
/// library.
pub fn joined_and_read(join: Call, taken: &Taken, outputs: &mut Named<Lent>) -> u32 {
    match checked(join, bundles_of(taken), outputs) {
        Ok(()) => DONE,
        Err(answer) => answer,
    }
}

/// The same; an answer that is no refusal where something is otherwise.
fn checked(join: Call, lent: [&[u8]; 2], outputs: &mut Named<Lent>) -> Result<(), u32> {
    let (bytes, count) = joined(join, lent)?;
    let [n, m, groups] = outputs.each_mut([N, M, GROUPS]);
    let (n, m, groups) = (n.number_mut(), m.number_mut(), groups.size_mut());
    match library::read_bundle(&bytes, n, m, groups) {
        DONE => {}
        refusal => return Err(REFUSED + refusal),
    }
    let of_reference = reference::read_bundle(&bytes);
    let of_reference = of_reference.map(|read| [read.n, read.m, read.groups]);
    let as_package = library::read_package(&bytes, &mut 0, &mut 0, &mut 0);
    let package = if count == 1 { DONE } else { FOLLOW };
    let numbers = [*n as usize, *m as usize, *groups];
    if of_reference != Ok(numbers) || count != *groups || as_package != package {
        return Err(READ_OTHERWISE);
    }
    for other in lent {
        for lent in [[&bytes, other], [other, &bytes]] {
            if joined(join, lent)? != (bytes.clone(), count) {
                return Err(JOINED_OTHERWISE);
            }
        }
    }
    let room = outputs[OUT].bytes_mut().get_mut(..bytes.len());
    room.ok_or(OUTSIDE)?.copy_from_slice(&bytes);
    Ok(())
}

/// The other side: what was lent.
fn lent_groups(taken: &Taken, outputs: &mut Named<Lent>) -> u32 {
    let [first, second] = bundles_of(taken).map(Bundle::walked);
    let both = first.and(&second);
    let sizes = sizes_of(&both.key);
    *outputs[N].number_mut() = sizes.n as u32;
    *outputs[M].number_mut() = sizes.m as u32;
    *outputs[GROUPS].size_mut() = both.groups.len();
    let bytes = both.bytes();
    outputs[OUT].bytes_mut()[..bytes.len()].copy_from_slice(&bytes);
    DONE
}

/// The case with the outputs of this entry.
fn read_back(case: Case, generator: &mut Generator) -> Case {
    let room = case.outputs[OUT].clone();
    let mut outputs = read::outputs(generator);
    outputs.push(OUT, room);
    Case {
        outputs,
        stated: None,
        answer: Some(DONE),
        ..case
    }
}

const EVERY_N: Group = Group::new("every n, 1 to 8 groups", |generator, each| {
    for n in keyed::EVERY_N {
        let m = keyed::some_m(n, generator)[n % 3];
        let key = any_key(n, m, generator);
        for count in [1, 2, 1 + n % 8] {
            let serials = rising(count, generator);
            let joined = Bundle::of_key(key.clone(), &serials, generator);
            let pair = Pair::parted(joined, |_| In::any(generator));
            each(read_back(with_room(&pair, 0, generator), generator));
        }
    }
});

/// The done cases of a group of join bundles, one in so many.
fn some_of(group: Group, one_in: usize, generator: &mut Generator, each: &mut dyn FnMut(Case)) {
    let mut turn = 0;
    let mut draws = Generator::new(generator.number());
    (group.cases)(generator, &mut |case| {
        turn += 1;
        let two = [FIRST, SECOND]
            .iter()
            .all(|name| case.inputs.get(name).is_some());
        if two && turn % one_in == 0 && case.answer == Some(DONE) {
            each(read_back(case, &mut draws));
        }
    });
}

/// Some of the random bundles of small sizes.
pub const SMALL: Group = Group::new("n to 9, every m, 1 to 40 groups", |generator, each| {
    some_of(SMALL_N, 3, generator, each);
});

/// Some of the bundles with parts of themselves and with others.
pub const OF_SHAPES: Group = Group::new(
    "with itself, with parts of itself, below, above and between",
    |generator, each| some_of(SHAPES, 5, generator, each),
);
