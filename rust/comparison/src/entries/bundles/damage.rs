//! Damage of bundles without a known answer, and changes that no refusal applies
//! to.

use super::parts::{any_group, change_any, serial_of, sizes_of, Bundle};
use super::read_groups::SMALL;
use crate::entries::files::damage::{damaged, harmless};
use crate::entries::files::fields::{any_serial, serial_field, serial_value};
use reference::package::{join, tag, WrittenField};
use reference::samples::Generator;

/// The sizes of the large bundles that are damaged.
const LARGE: [(usize, usize); 4] = [(16, 3), (17, 8), (33, 1), (64, 63)];

/// The most groups of a bundle that is damaged.
const MOST: usize = 6;

/// Bundles to be damaged.
pub struct Pool {
    small: Vec<Bundle>,
    large: Vec<Bundle>,
}

impl Pool {
    /// Bundles of all numbers of groups for each small size.
    pub fn new(generator: &mut Generator) -> Pool {
        let mut small = Vec::new();
        for (n, m) in SMALL {
            small.extend((1..=MOST).map(|count| Bundle::any(n, m, count, generator)));
        }
        let large = LARGE.map(|(n, m)| Bundle::any(n, m, 3, generator));
        Pool {
            small,
            large: large.to_vec(),
        }
    }

    /// Any bundle, in one of 64 a large one.
    pub fn any(&self, generator: &mut Generator) -> &Bundle {
        let list = match generator.below(64) {
            0 => &self.large,
            _ => &self.small,
        };
        &list[generator.below(list.len())]
    }
}

/// Whether the serials of these fields rise.
fn serials_rise(fields: &[WrittenField]) -> bool {
    let serials = fields.iter().filter(|field| field.tag == tag::SERIAL);
    let serials: Vec<u32> = serials.map(serial_value).collect();
    serials.windows(2).all(|pair| pair[0] < pair[1])
}

/// How often another value is tried.
const TRIES: usize = 10;

/// Another value of any field after the sizes, that no refusal applies to.
pub fn harmless_change(fields: &mut [WrittenField], generator: &mut Generator) {
    for _ in 0..TRIES {
        let index = generator.below(fields.len());
        let before = fields[index].clone();
        harmless(fields, index, generator);
        if serials_rise(fields) {
            return;
        }
        fields[index] = before;
    }
}

/// Changes whole groups: exchanged, repeated, left out, with the serial or with
/// the other fields of another, or a new one.
fn change_groups(bundle: &mut Bundle, generator: &mut Generator) {
    let count = bundle.groups.len();
    let [index, other] = [(); 2].map(|()| generator.below(count));
    let groups = &mut bundle.groups;
    match generator.below(7) {
        0 => groups.swap(index, other),
        1 => groups.insert(other, groups[index].clone()),
        2 => drop(groups.remove(index)),
        3 => groups[index][0] = groups[other][0].clone(),
        4 => groups[index][1] = groups[other][1].clone(),
        5 => groups[index][0] = serial_field(any_serial(generator)),
        _ => {
            let serial = any_serial(generator);
            let place = groups.partition_point(|group| serial_of(group) < serial);
            groups.insert(place, any_group(sizes_of(&bundle.key), serial, generator));
        }
    }
}

/// The bytes of a bundle with changes. About every third has none but harmless
/// ones.
pub fn damaged_bundle(bundle: &Bundle, generator: &mut Generator) -> Vec<u8> {
    let mut fields = bundle.fields();
    match generator.below(6) {
        0 | 1 => {
            for _ in 0..1 + generator.below(3) {
                harmless_change(&mut fields, generator);
            }
            join(&fields)
        }
        2 => {
            let mut bundle = bundle.clone();
            change_groups(&mut bundle, generator);
            bundle.bytes()
        }
        _ => damaged(fields, generator),
    }
}

/// The bundle with another value in field 06 or 07 of any of its groups.
pub fn with_other_group(bundle: &Bundle, generator: &mut Generator) -> Bundle {
    let mut bundle = bundle.clone();
    let index = generator.below(bundle.groups.len());
    let tag = [tag::T, tag::A][generator.below(2)];
    change_any(&mut bundle.groups[index], tag, generator);
    bundle
}
