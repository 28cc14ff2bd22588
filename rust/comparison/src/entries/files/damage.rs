//! Damage of files without a known answer, and changes that no refusal applies
//! to.

use super::faults::{any_of, following, other_length, other_tag, spoil_value};
use super::fields::{
    any_serial, any_target, dependent_rows, elements, holds, lean, serial_field, set_target,
    set_word, starts, value_refusals, zero_target, Holds,
};
use super::Reader;
use reference::package::{join, tag, WrittenField, SERIAL_LENGTHS};
use reference::samples::Generator;
use reference::small_field::F;
use reference::Refusal;

/// Changes of whole fields.
const FIELD_CHANGES: usize = 13;

/// Changes whole fields.
fn change_fields(fields: &mut Vec<WrittenField>, generator: &mut Generator) {
    let index = generator.below(fields.len());
    let other = generator.below(fields.len());
    let field = &mut fields[index];
    let refusals = value_refusals(field.tag);
    let spoilable = !field.content.is_empty() && !refusals.is_empty();
    match generator.below(FIELD_CHANGES) {
        0 => fields.swap(index, other),
        1 => fields.insert(other, fields[index].clone()),
        2 => drop(fields.remove(index)),
        3 => field.length = field.length.wrapping_add(1),
        4 => field.length = field.length.wrapping_sub(1),
        5 => field.tag = other_tag(field.tag, generator),
        6 if spoilable => match any_of(refusals, generator) {
            Refusal::DependentRows => drop(lean(fields, generator)),
            refusal => spoil_value(field, refusal, generator),
        },
        7 => field.length = other_length(field, generator),
        8 => field.length = any_of(&SERIAL_LENGTHS, generator) as u16,
        9 => field.tag = any_of(&[tag::Y, tag::SERIAL], generator),
        10 => put_target(fields, generator),
        11 => drop(lean(fields, generator)),
        _ => harmless(fields, index, generator),
    }
}

/// Puts any y after x, of zeros too, where the list has x and the sizes.
fn put_target(fields: &mut Vec<WrittenField>, generator: &mut Generator) {
    let there = |tag| fields.iter().any(|field| field.tag == tag);
    if let (true, Some([_, m])) = (there(tag::X), fields.first().map(|f| &f.content[..])) {
        let y = any_target(usize::from(*m), generator);
        set_target(fields, &y);
    }
}

/// How often another value is tried.
const TRIES: usize = 20;

/// Another value that no refusal applies to, in a field after the sizes. When
/// rows of H depend on each other afterwards, or y is all zero, another is tried.
pub fn harmless(fields: &mut [WrittenField], index: usize, generator: &mut Generator) {
    let count = elements(&fields[index]);
    if count == 0 {
        return;
    }
    let before = fields[index].content.clone();
    for _ in 0..TRIES {
        let field = &mut fields[index];
        match holds(field.tag) {
            Some(Holds::Serial) => *field = serial_field(any_serial(generator)),
            Some(Holds::Bits) => field.content[generator.below(count)] ^= 1,
            Some(Holds::Words) => {
                let word = any_of(&[0, 1, 2046, F::LARGEST, generator.word()], generator);
                set_word(field, generator.below(count), word);
            }
            Some(Holds::Sizes) | None => return,
        }
        let refused = zero_target(field);
        if !refused && (field.tag != tag::H || !dependent_rows(fields)) {
            return;
        }
        fields[index].content.clone_from(&before);
    }
}

/// Changes bytes, more often those of a head.
fn change_bytes(bytes: &mut Vec<u8>, starts: &[usize], generator: &mut Generator) {
    let len = bytes.len();
    if len == 0 {
        return;
    }
    let near = any_of(starts, generator) + generator.below(6);
    let at = any_of(&[near.min(len - 1), generator.below(len)], generator);
    let some = 1 + generator.below(4);
    match generator.below(9) {
        0 => bytes[at] ^= 1 << generator.below(8),
        1 => bytes[at] = generator.number() as u8,
        2 => bytes.truncate(at),
        3 => {
            let more: Vec<u8> = (0..some).map(|_| generator.number() as u8).collect();
            bytes.splice(at..at, more);
        }
        4 => drop(bytes.drain(at..len.min(at + some))),
        5 => bytes.swap(at, generator.below(len)),
        6 => bytes[at] = bytes[at].wrapping_add(1),
        7 => bytes[at] = any_of(&[0, 1, 2, 7, 8, 255], generator),
        _ => bytes.extend(following(generator)),
    }
}

/// A damaged file: one to three changes. About every third has none but
/// harmless ones.
pub fn damaged_file<R: Reader>(pool: &Pool, generator: &mut Generator) -> Vec<u8> {
    let mut fields = R::FILE.part(pool.any(generator)).to_vec();
    if generator.below(3) == 0 {
        for _ in 0..1 + generator.below(3) {
            let index = generator.below(fields.len());
            harmless(&mut fields, index, generator);
        }
        return join(&fields);
    }
    damaged(fields, generator)
}

/// The bytes of these fields with one to three changes.
pub fn damaged(mut fields: Vec<WrittenField>, generator: &mut Generator) -> Vec<u8> {
    let changes = any_of(&[1, 1, 1, 2, 2, 3], generator);
    let of_fields = generator.below(changes + 1);
    for _ in 0..of_fields {
        change_fields(&mut fields, generator);
    }
    let starts = starts(&fields);
    let mut bytes = join(&fields);
    for _ in of_fields..changes {
        change_bytes(&mut bytes, &starts, generator);
    }
    bytes
}

/// Fields of several files, to be damaged.
pub struct Pool {
    small: Vec<Vec<WrittenField>>,
    large: Vec<Vec<WrittenField>>,
}

impl Pool {
    /// Three files of each size.
    pub fn new<R: Reader>(generator: &mut Generator) -> Pool {
        let mut list = |sizes: &[(usize, usize)]| -> Vec<Vec<WrittenField>> {
            let three = sizes.iter().flat_map(|&sizes| [sizes; 3]);
            three.map(|(n, m)| R::fields(n, m, generator)).collect()
        };
        Pool {
            small: list(R::SMALL),
            large: list(R::LARGE),
        }
    }

    /// Any file, in one of 32 a large one.
    fn any(&self, generator: &mut Generator) -> &[WrittenField] {
        let list = match generator.below(32) {
            0 => &self.large,
            _ => &self.small,
        };
        &list[generator.below(list.len())]
    }
}
