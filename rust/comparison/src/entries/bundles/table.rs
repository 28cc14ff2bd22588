//! The tables of the entries that take bundles.

use super::join::bundles_of;
use super::look::ROOM;
use super::parts::{serial_of, Bundle};
use super::REFUSALS;
use crate::case::{Case, Cell, Rows, Table};
use crate::entries::files::fields::{walked, KEY_TAGS};
use crate::entries::files::table::{column, columns_of, row};
use crate::entries::files::BYTES;
use crate::entries::write::OUT;
use crate::entries::{number, texts, DONE, GROUPS_DIFFER, OTHER_KEY, SHORT};
use reference::package::{join, tag, WrittenField, PACKAGE_TAGS};
use reference::{Place, Refusal};
use std::collections::BTreeSet;

/// The table of read bundle: each field with the refusals of its places, in the
/// first group and in a further one, and the bundles that are accepted.
pub const READ: Table = Table {
    of: "field",
    columns: || {
        let mut columns: Vec<String> = Vec::new();
        for column in read_rows().into_iter().flat_map(|(_, columns)| columns) {
            if !columns.contains(&column) {
                columns.push(column);
            }
        }
        columns
    },
    rows: read_rows,
    cell: |_, case| read_cell(case.bytes(BYTES)),
};

/// The columns of accepted bundles: the bytes that their serials take.
const SERIALS: [&str; 3] = ["0, 2", "0, 4", "0, both"];

/// The row of a field of a further group.
fn further(tag: u8) -> String {
    format!("{} more", row(tag))
}

/// The row of an accepted bundle: whether it has y, and one group or more.
fn accepted(target: bool, groups: usize) -> String {
    let y = if target { "y, " } else { "" };
    let groups = if groups > 1 { "more" } else { "one" };
    format!("{y}{groups}")
}

/// The rows of read bundle.
fn read_rows() -> Rows {
    let tags = PACKAGE_TAGS.into_iter();
    let mut rows: Rows = tags.map(|tag| (row(tag), columns_of(tag))).collect();
    for tag in PACKAGE_TAGS
        .into_iter()
        .filter(|tag| !KEY_TAGS.contains(tag))
    {
        let mut columns = columns_of(tag);
        if tag == tag::SERIAL {
            columns.push(column(Place::Values, Refusal::SerialOrder));
        }
        rows.push((further(tag), columns));
    }
    for target in [false, true] {
        rows.push((accepted(target, 1), texts(&SERIALS[..2])));
        rows.push((accepted(target, 2), texts(&SERIALS)));
    }
    rows
}

/// Whether the first group is accepted, so that a refusal is one of a further
/// group.
fn first_accepted(bytes: &[u8]) -> bool {
    let mut fields: Vec<WrittenField> = Vec::new();
    for field in walked(bytes) {
        let last = field.tag == tag::A;
        fields.push(field);
        if last {
            break;
        }
    }
    reference::read_package(&join(&fields)).is_ok()
}

/// The row and the column of what the reference answers for these bytes.
fn read_cell(bytes: &[u8]) -> Cell {
    match reference::judge_bundle(bytes) {
        Ok(contents) => {
            let fields: Vec<WrittenField> = walked(bytes).collect();
            let target = fields.iter().any(|field| field.tag == tag::Y);
            let serials = fields.iter().filter(|field| field.tag == tag::SERIAL);
            let lengths: BTreeSet<u16> = serials.map(|field| field.length).collect();
            let [short, long, both] = SERIALS;
            let column = match lengths.first() {
                _ if lengths.len() > 1 => both,
                Some(2) => short,
                _ => long,
            };
            (accepted(target, contents.groups), column.to_string())
        }
        Err(refused) => {
            let tag = refused.tag.expect("a bundle has no end of its own");
            let row = match !KEY_TAGS.contains(&tag) && first_accepted(bytes) {
                true => further(tag),
                false => row(tag),
            };
            (row, column(refused.place, refused.refusal))
        }
    }
}

/// The table of join bundles and of the look before it: the first key field that
/// differs, or how the serials of the second lie to those of the first, with the
/// answers, what else applies and how long the output is.
pub const JOIN: Table = Table {
    of: "second",
    columns: || {
        let parts = [&REFUSED[..], &OF_KEYS, &OF_GROUPS, &OF_OUTPUT];
        texts(&parts.concat())
    },
    rows: join_rows,
    cell: join_cell,
};

/// The columns of refused bundles.
const REFUSED: [&str; 2] = ["first", "second"];

/// The columns of 21: alone, and where 22 or 13 applies too.
const OF_KEYS: [&str; 3] = ["21", "21, 22", "21, 13"];

/// The columns of 22: by field 06 and by field 07 alone, and where 13 applies
/// too.
const OF_GROUPS: [&str; 3] = ["22 06", "22 07", "22, 13"];

/// The columns by the output: empty, a byte too short, between, of the length of
/// the joined bundle, or longer.
const OF_OUTPUT: [&str; 5] = ["13 none", "13 by 1", "13", "exact", "longer"];

/// The row of refused bundles.
const REFUSED_ROW: &str = "refused";

/// The rows of keys that differ: the first field that does, where y is the field
/// 04 of one alone.
const KEYS: [&str; 5] = ["01", "02", "03", "04", "y"];

/// The rows of serials of which some are those of the other, and of others.
const SHARED: [&str; 4] = ["same", "part", "whole", "some"];
const OTHERS: [&str; 3] = ["below", "above", "between"];

/// The rows of join bundles.
fn join_rows() -> Rows {
    let mut rows = vec![(REFUSED_ROW.to_string(), texts(&REFUSED))];
    rows.extend(KEYS.map(|row| (row.to_string(), texts(&OF_KEYS))));
    let shared = [&OF_GROUPS[..], &OF_OUTPUT].concat();
    rows.extend(SHARED.map(|row| (row.to_string(), texts(&shared))));
    rows.extend(OTHERS.map(|row| (row.to_string(), texts(&OF_OUTPUT))));
    rows
}

/// The row of two keys that differ.
fn differing_key(first: &Bundle, second: &Bundle) -> &'static str {
    let mut pairs = first.key.iter().zip(&second.key);
    match pairs.find(|(one, other)| one != other) {
        Some((one, _)) => KEYS[usize::from(one.tag) - 1],
        None => KEYS[4],
    }
}

/// The row of two lists of serials.
fn relation(first: &Bundle, second: &Bundle) -> &'static str {
    let [below, above, between] = OTHERS;
    let [same, part, whole, some] = SHARED;
    let lists = [first, second].map(Bundle::serials);
    let [one, other] = lists.map(BTreeSet::from_iter);
    match (one.is_superset(&other), other.is_superset(&one)) {
        (true, true) => same,
        (true, false) => part,
        (false, true) => whole,
        _ if !one.is_disjoint(&other) => some,
        _ if other.last() < one.first() => below,
        _ if one.last() < other.first() => above,
        _ => between,
    }
}

/// Whether two groups with one serial differ in the field of this index.
fn differ(first: &Bundle, second: &Bundle, field: usize) -> bool {
    let differs = |group: &[WrittenField; 3]| {
        let serial = serial_of(group);
        let place = second.groups.binary_search_by_key(&serial, serial_of);
        place.is_ok_and(|place| second.groups[place][field] != group[field])
    };
    first.groups.iter().any(differs)
}

/// The row and the column of a call.
fn join_cell(answer: u32, case: &Case) -> Cell {
    let lent = bundles_of(case);
    if ![DONE, OTHER_KEY, GROUPS_DIFFER, SHORT].contains(&answer) {
        let column = REFUSED[usize::from(reference::read_bundle(lent[0]).is_ok())];
        return (REFUSED_ROW.to_string(), column.to_string());
    }
    let [first, second] = lent.map(Bundle::walked);
    let needed = first.and(&second).bytes().len();
    let meant = case.numbers.get(ROOM).copied();
    let room = meant.unwrap_or_else(|| case.outputs[OUT].len());
    let [t, a] = [1, 2].map(|field| differ(&first, &second, field));
    let [none, by_one, between, exact, longer] = OF_OUTPUT;
    let column = match answer {
        OTHER_KEY if t || a => OF_KEYS[1],
        OTHER_KEY if room < needed => OF_KEYS[2],
        OTHER_KEY => OF_KEYS[0],
        GROUPS_DIFFER if room < needed => OF_GROUPS[2],
        GROUPS_DIFFER => OF_GROUPS[usize::from(!t)],
        SHORT if room == 0 => none,
        SHORT if room + 1 == needed => by_one,
        SHORT => between,
        _ if room == needed => exact,
        _ => longer,
    };
    let row = match answer {
        OTHER_KEY => differing_key(&first, &second),
        _ => relation(&first, &second),
    };
    (row.to_string(), column.to_string())
}

/// The table of refused bundles: what the first is refused for, and what the
/// second is; 0 for one that is accepted.
pub const BOTH: Table = Table {
    of: "first",
    columns: all_answers,
    rows: || {
        let answers = all_answers().into_iter();
        answers.map(|answer| (answer, all_answers())).collect()
    },
    cell: |_, case| {
        let answers = bundles_of(case).map(|bytes| {
            let answer = reference::read_bundle(bytes);
            number(answer.map(|_| ())).to_string()
        });
        answers.into()
    },
};

/// All answers for one bundle.
fn all_answers() -> Vec<String> {
    let refusals = REFUSALS.iter().map(|refusal| refusal.number());
    refusals
        .chain([DONE])
        .map(|number| number.to_string())
        .collect()
}
