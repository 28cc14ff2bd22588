//! The entry look before join: what join bundles answers for two bundles and an
//! output of a length that is told, without the output.
//!
//! Each join of the library and of the reference is looked at first.

use super::join::{self, bundles_of, numbers, JOIN_BUNDLES};
use super::{look_groups, table, GROUPS, REFUSALS};
use crate::case::{Call, Case, Entry, Stated, Taken};
use crate::entries::package_field::LENGTH;
use crate::entries::write::OUT;
use crate::entries::{DONE, SHORT};
use crate::lent::Lent;
use crate::library;
use crate::named::Named;
use reference::samples::Generator;

/// The length of the output that is meant, as a number that is passed.
pub const ROOM: &str = "room";

/// Looks at two bundles, for an output of this length: writes the length of the
/// joined bundle and its number of groups; the answer.
pub type Look = fn([&[u8]; 2], usize, [&mut usize; 2]) -> u32;

/// The look of the library.
pub fn by_library(lent: [&[u8]; 2], room: usize, numbers: [&mut usize; 2]) -> u32 {
    let ([first, second], [length, groups]) = (lent, numbers);
    library::look_before_join(first, second, room, length, groups)
}

/// The look of the reference.
pub fn by_reference(lent: [&[u8]; 2], room: usize, numbers: [&mut usize; 2]) -> u32 {
    let ([first, second], [length, groups]) = (lent, numbers);
    match reference::look_before_join(first, second, room) {
        Ok(joined) => {
            (*length, *groups) = (joined.length, joined.groups);
            DONE
        }
        Err(refusal) => refusal.number(),
    }
}

/// The entry look before join.
pub const LOOK_BEFORE_JOIN: Entry = Entry {
    name: "look before join",
    library: |taken, outputs| looked(by_library, taken, outputs),
    reference: |taken, outputs| looked(by_reference, taken, outputs),
    groups: look_groups::all,
    ..JOIN_BUNDLES
};

/// The same with bundles that are refused.
pub const LOOK_AT_REFUSED: Entry = Entry {
    name: "look at refused bundles",
    refusals: REFUSALS,
    table: Some(table::BOTH),
    groups: look_groups::of_refused,
    ..LOOK_BEFORE_JOIN
};

/// A join in an output of the length that a look tells. 13, the last of the
/// refusals, is not reached.
pub const LENT_AS_TOLD: Entry = Entry {
    name: "join in an output of the length told",
    refusals: join::REFUSALS.split_at(join::REFUSALS.len() - 1).0,
    library: |taken, outputs| told_and_joined(by_library, taken, outputs),
    table: None,
    groups: look_groups::joined,
    ..JOIN_BUNDLES
};

/// Looks with what a case has.
pub fn looked(look: Look, taken: &Taken, outputs: &mut Named<Lent>) -> u32 {
    let numbers = outputs.each_mut([LENGTH, GROUPS]).map(Lent::size_mut);
    look(bundles_of(taken), taken.numbers[ROOM], numbers)
}

/// Added to the answer of a look after which the join answers otherwise.
const LOOKED_OTHERWISE: u32 = 300;

/// Looks at two bundles for the output that is lent, then joins them. The answers
/// and the numbers are the same; so those of a look that is refused are what they
/// were, where those of the join are.
pub fn looked_and_joined(look: Look, join: Call, taken: &Taken, outputs: &mut Named<Lent>) -> u32 {
    let mut told = numbers(outputs);
    let looked = look(bundles_of(taken), outputs[OUT].len(), told.each_mut());
    let answer = join(taken, outputs);
    match (looked, told) == (answer, numbers(outputs)) {
        true => answer,
        false => LOOKED_OTHERWISE + looked,
    }
}

/// Looks at two bundles for the largest output, then joins them with the library
/// in one of the length that was told: the first bytes of that of the case.
pub fn told_and_joined(look: Look, taken: &Taken, outputs: &mut Named<Lent>) -> u32 {
    let [first, second] = bundles_of(taken);
    let mut told = numbers(outputs);
    match look([first, second], usize::MAX, told.each_mut()) {
        DONE => {}
        refusal => return refusal,
    }
    let [out, length, groups] = outputs.each_mut([OUT, LENGTH, GROUPS]);
    let Some(out) = out.bytes_mut().get_mut(..told[0]) else {
        return LOOKED_OTHERWISE;
    };
    let (length, groups) = (length.size_mut(), groups.size_mut());
    let answer = library::join_bundles(first, second, out, length, groups);
    match (DONE, told) == (answer, [*length, *groups]) {
        true => DONE,
        false => LOOKED_OTHERWISE + answer,
    }
}

/// The numbers, with random content.
pub fn outputs(generator: &mut Generator) -> Named<Lent> {
    [LENGTH, GROUPS]
        .map(|name| (name, Lent::any_size(generator)))
        .into()
}

/// The numbers that a join states.
fn stated_numbers(join: &Case) -> Vec<Stated> {
    let stated = join.stated.iter().flatten();
    let stated = stated.filter(|stated| [LENGTH, GROUPS].contains(&stated.output));
    stated.copied().collect()
}

/// The length of the joined bundle that a join states.
pub fn stated_length(join: &Case) -> Option<usize> {
    let mut stated = join.stated.iter().flatten();
    let length = stated.find(|stated| stated.output == LENGTH);
    length.map(|stated| stated.value as usize)
}

/// The look at the bundles of a join that is done, or refused with another number
/// than 13, for an output of this length: 13 where the joined bundle is longer,
/// else the answer of the join.
pub fn at_join(join: &Case, room: usize, generator: &mut Generator) -> Case {
    let short = stated_length(join).is_some_and(|length| room < length);
    let mut taken = join.taken.clone();
    taken.numbers.push(ROOM, room);
    Case {
        taken,
        outputs: outputs(generator),
        answer: if short { Some(SHORT) } else { join.answer },
        stated: (join.answer == Some(DONE) && !short).then(|| stated_numbers(join)),
    }
}
