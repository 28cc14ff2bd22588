//! Packages whose bytes are written out here.

use super::{with_fields, with_output, WritePackage, OUT};
use crate::case::{Case, Group};
use crate::entries::keyed::{of_sample, sizes, Keyed};
use crate::entries::stated;
use crate::slices::{A, H, T, X};
use reference::samples::{Generator, Sample};
use reference::small_field::F;

/// The fields 01 to 03 of key A.
pub const KEY_A: [&[u8]; 3] = [
    &[0x01, 0, 2, 2, 1],
    &[0x02, 0, 4, 0, 2, 0, 1],
    &[0x03, 0, 4, 0, 1, 0, 2],
];

/// The field 04 of some y: none, in the lower byte, and in the higher one.
pub const TARGETS: [(u16, &[u8]); 3] = [
    (0, &[]),
    (5, &[0x04, 0, 2, 0, 5]),
    (1792, &[0x04, 0, 2, 7, 0]),
];

/// The field 05 of some serials.
pub const SERIALS: [(u32, &[u8]); 6] = [
    (0, &[0x05, 0, 2, 0, 0]),
    (7, &[0x05, 0, 2, 0, 7]),
    (65_535, &[0x05, 0, 2, 255, 255]),
    (65_536, &[0x05, 0, 4, 0, 1, 0, 0]),
    (16_909_060, &[0x05, 0, 4, 1, 2, 3, 4]),
    (u32::MAX, &[0x05, 0, 4, 255, 255, 255, 255]),
];

/// The fields 06 and 07 of a t and an a that are no proof.
pub const T_AND_A: [&[u8]; 2] = [
    &[0x06, 0, 2, 1, 0],
    &[
        0x07, 0, 24, 0, 5, 0, 0, 0, 0, 0, 0, 0, 0, 0, 0, 0, 0, 0, 0, 0, 0, 0, 0, 0, 0, 7, 255,
    ],
];

/// The fields of a package with n = 3 and m = 2. The words of a are 1 to 24.
const OF_THREE: [&[u8]; 7] = [
    &[0x01, 0, 2, 3, 2],
    &[0x02, 0, 12, 0, 1, 0, 0, 1, 2, 0, 0, 7, 255, 0, 3],
    &[0x03, 0, 6, 0, 4, 0, 5, 0, 6],
    &[0x04, 0, 4, 0, 0, 0, 1],
    &[0x05, 0, 4, 0, 1, 134, 160],
    &[0x06, 0, 6, 1, 0, 0, 1, 1, 0],
    &[
        0x07, 0, 48, 0, 1, 0, 2, 0, 3, 0, 4, 0, 5, 0, 6, 0, 7, 0, 8, 0, 9, 0, 10, 0, 11, 0, 12, 0,
        13, 0, 14, 0, 15, 0, 16, 0, 17, 0, 18, 0, 19, 0, 20, 0, 21, 0, 22, 0, 23, 0, 24,
    ],
];

/// The case with these bytes stated, in an output that is so many bytes longer.
fn stating(case: &Case, bytes: &[u8], more: usize, generator: &mut Generator) -> Case {
    let mut case = with_output(case, bytes.len() + more, generator);
    let bytes = bytes.iter().enumerate();
    let bytes = bytes.map(|(index, &byte)| stated(OUT, index, byte));
    case.stated.get_or_insert_default().extend(bytes);
    case
}

/// Packages of key A, and one of another key.
pub const BY_HAND: Group = Group::new("by hand", |generator, each| {
    let mut case = of_sample::<WritePackage>(&Sample::key_a(), generator);
    case.set_bytes(T, &[1, 0]);
    case.set_words(A, &[5, 0, 0, 0, 0, 0, 0, 0, 0, 0, 0, F::LARGEST]);
    for (y, target) in TARGETS {
        for (serial, field) in SERIALS {
            let case = with_fields(&case, &[y], serial);
            let fields = [&KEY_A[..], &[target, field], &T_AND_A].concat();
            let bytes = fields.concat();
            for more in 0..4 {
                each(stating(&case, &bytes, more, generator));
            }
        }
    }
    let mut case = WritePackage::right(sizes(3, 2), generator);
    case.set_words(H, &[1, 0, 258, 0, F::LARGEST, 3]);
    case.set_words(X, &[4, 5, 6]);
    case.set_bytes(T, &[1, 0, 0, 1, 1, 0]);
    case.set_words(A, &(1..=24).collect::<Vec<u16>>());
    let case = with_fields(&case, &[0, 1], 100_000);
    each(stating(&case, &OF_THREE.concat(), 0, generator));
});
