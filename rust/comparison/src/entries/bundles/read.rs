//! The entry read bundle.

use super::parts::{sizes_of, Bundle};
use super::{read_groups, table, GROUPS, REFUSALS};
use crate::case::{Call, Case, Entry};
use crate::entries::files::{self, BYTES};
use crate::entries::readers::{self, M, N};
use crate::entries::{number, stated, DONE};
use crate::lent::Lent;
use crate::library;
use crate::named::Named;
use reference::samples::Generator;

/// The entry read bundle.
pub const READ_BUNDLE: Entry = Entry {
    name: "read bundle",
    refusals: REFUSALS,
    library: BY_LIBRARY,
    reference: BY_REFERENCE,
    package: None,
    table: Some(table::READ),
    groups: read_groups::all,
    ..readers::ENTRY
};

/// The side of the library.
pub const BY_LIBRARY: Call = |taken, outputs| {
    let [n, m, groups] = outputs.each_mut([N, M, GROUPS]);
    let numbers = (n.number_mut(), m.number_mut(), groups.size_mut());
    library::read_bundle(taken.bytes(BYTES), numbers.0, numbers.1, numbers.2)
};

/// The side of the reference.
pub const BY_REFERENCE: Call = |taken, outputs| {
    let answer = reference::read_bundle(taken.bytes(BYTES));
    if let Ok(contents) = answer {
        *outputs[N].number_mut() = contents.n as u32;
        *outputs[M].number_mut() = contents.m as u32;
        *outputs[GROUPS].size_mut() = contents.groups;
    }
    number(answer.map(|_| ()))
};

/// The numbers that are written, with random content.
pub fn outputs(generator: &mut Generator) -> Named<Lent> {
    Named::from([
        (N, Lent::any_number(generator)),
        (M, Lent::any_number(generator)),
        (GROUPS, Lent::any_size(generator)),
    ])
}

/// A case with these bytes, and the answer where it is known without the
/// reference. When they are known to be a right bundle, its fields tell n, m and
/// the number of groups.
pub fn case(bytes: Lent, answer: Option<u32>, generator: &mut Generator) -> Case {
    let right = answer == Some(DONE);
    let stated = right.then(|| {
        let Bundle { key, groups } = Bundle::walked(bytes.bytes());
        let sizes = sizes_of(&key);
        vec![
            stated(N, 0, sizes.n as u64),
            stated(M, 0, sizes.m as u64),
            stated(GROUPS, 0, groups.len() as u64),
        ]
    });
    Case {
        answer,
        stated,
        ..Case::new(Named::new(), files::input(bytes), outputs(generator))
    }
}

/// A case with these bytes and this answer.
pub fn of_bytes(bytes: &[u8], answer: u32, generator: &mut Generator) -> Case {
    case(Lent::with_bytes(bytes, generator), Some(answer), generator)
}

/// A case with a right bundle.
pub fn of_right(bundle: &Bundle, generator: &mut Generator) -> Case {
    of_bytes(&bundle.bytes(), DONE, generator)
}
