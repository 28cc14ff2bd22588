//! Packages, read as bundles, and bundles, read as packages: a package is a
//! bundle of one group. Where bytes follow the last field of a package, another
//! group would begin in a bundle, so that 12 becomes 9, 10 or what that group
//! is refused for.

use super::parts::{any_key, rising, Bundle};
use super::read::{self, BY_LIBRARY, BY_REFERENCE};
use super::REFUSALS;
use crate::case::{Case, Entry, Group};
use crate::entries::files::fields::{walked, HEAD};
use crate::entries::files::groups::{self, FOLLOW, MISSING, TAG};
use crate::entries::files::{self, File, Reader};
use crate::entries::readers::{self, ReadPackage};
use crate::entries::{keyed, DONE};
use crate::lent::Lent;
use reference::package::{index_of, join, tag, WrittenField};
use reference::samples::Generator;

/// Packages as bundles.
pub struct AsBundle;

impl Reader for AsBundle {
    const FILE: File = File::Package;
    const DAMAGED: usize = 20_000;

    fn case(bytes: Lent, answer: Option<u32>, generator: &mut Generator) -> Case {
        let answer = match answer {
            Some(FOLLOW) => after_package(bytes.bytes()),
            answer => answer,
        };
        read::case(bytes, answer, generator)
    }
}

/// The answer for a package that bytes follow: 9 where they are fewer than a
/// head has, else 10 unless the first of them is the tag of a serial.
fn after_package(bytes: &[u8]) -> Option<u32> {
    let fields: Vec<WrittenField> = walked(bytes).collect();
    let end = join(&fields[..=index_of(&fields, tag::A)]).len();
    let following = &bytes[end..];
    match following.first() {
        _ if following.len() < HEAD => Some(MISSING),
        Some(&tag::SERIAL) => None,
        _ => Some(TAG),
    }
}

/// Packages as bundles, as an entry.
pub const PACKAGE_AS_BUNDLE: Entry = Entry {
    name: "package read as a bundle",
    refusals: REFUSALS,
    library: BY_LIBRARY,
    reference: BY_REFERENCE,
    package: None,
    groups: || {
        let right = vec![groups::every_n::<AsBundle>(), groups::heads::<AsBundle>()];
        [right, groups::fault_groups::<AsBundle>()].concat()
    },
    ..readers::ENTRY
};

/// Bundles for read package: those of one group are packages, and of all others
/// 12 is the answer.
pub const BUNDLES: Group = Group::new("every n, bundles of 1 to 8 groups", |generator, each| {
    for n in keyed::EVERY_N {
        for m in keyed::some_m(n, generator) {
            let key = any_key(n, m, generator);
            for count in [1, 2, 2 + generator.below(7)] {
                let serials = rising(count, generator);
                let bundle = Bundle::of_key(key.clone(), &serials, generator);
                let answer = if count == 1 { DONE } else { FOLLOW };
                let bytes = bundle.bytes();
                each(files::case::<ReadPackage>(&bytes, Some(answer), generator));
            }
        }
    }
});
