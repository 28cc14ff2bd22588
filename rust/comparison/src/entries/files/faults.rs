//! Faults of one field, at one place, whose answers are known.

use super::fields::{
    self, elements, holds, lean, may_come_next, may_have_length, serial_field, serial_in_four,
    serial_value, set_word, starts, value_refusals, Holds, HEAD,
};
use super::Reader;
use crate::entries::DONE;
use reference::package::{index_of, join, stated_of, tag, WrittenField, CHECK_FILE_TAGS};
use reference::samples::Generator;
use reference::small_field::F;
use reference::{Place, Refusal};
use std::slice;

/// The places of a field, in the order of the table.
pub const PLACES: [Place; 5] = [
    Place::Head,
    Place::Tag,
    Place::Length,
    Place::Content,
    Place::Values,
];

/// The refusals of a field at one of its places, in the order in which they are
/// decided. A field that may be absent is there by its tag, and so has no other.
pub fn refusals_at(place: Place, tag: u8) -> &'static [Refusal] {
    match place {
        Place::Tag if stated_of(tag).optional => &[],
        Place::Values => value_refusals(tag),
        _ => slice::from_ref(refusal_of(place)),
    }
}

/// The refusal of a place but that of values.
fn refusal_of(place: Place) -> &'static Refusal {
    match place {
        Place::Head | Place::Content => &Refusal::BytesMissing,
        Place::Tag => &Refusal::Tag,
        Place::Length => &Refusal::FieldLength,
        Place::Values => panic!("each field has its own refusals of values"),
        Place::End => &Refusal::BytesFollow,
    }
}

/// A field by its index, and a place; the end comes after all fields.
pub type Spot = (usize, Place);

/// The spots of a file where a fault can be.
pub fn spots<R: Reader>(fields: &[WrittenField]) -> Vec<Spot> {
    let fields = R::FILE.part(fields);
    let mut list = spots_of_fields(fields);
    list.push((fields.len(), Place::End));
    list
}

/// The same, but for the end.
pub fn spots_of_fields(fields: &[WrittenField]) -> Vec<Spot> {
    let mut list = Vec::new();
    for (index, field) in fields.iter().enumerate() {
        for place in PLACES {
            let empty = field.content.is_empty();
            let possible = match place {
                Place::Content => !empty,
                Place::Values => !empty && !value_refusals(field.tag).is_empty(),
                _ => true,
            };
            if possible {
                list.push((index, place));
            }
        }
    }
    list
}

/// An element of a list.
pub fn any_of<T: Copy>(list: &[T], generator: &mut Generator) -> T {
    list[generator.below(list.len())]
}

/// A word above 2047.
pub fn word_above(generator: &mut Generator) -> u16 {
    const WORDS: [u16; 8] = [2048, 2049, 2303, 4095, 4096, 32_768, 63_488, 65_535];
    match generator.below(4) {
        0 => F::LARGEST + 1 + generator.below(usize::from(u16::MAX - F::LARGEST)) as u16,
        _ => any_of(&WORDS, generator),
    }
}

/// A file under change: its fields, the bytes that follow them, where the bytes
/// are cut, and whether the rows of H lean on each other.
#[derive(Clone)]
pub struct Draft {
    /// The fields.
    pub fields: Vec<WrittenField>,
    following: Vec<u8>,
    cut: Option<(usize, usize)>,
    /// Whether rows that lean were put into H.
    leans: bool,
    /// The index of x.
    x: usize,
    /// The indices of the serials: one, or that of each group of a bundle.
    serials: Vec<usize>,
}

impl Draft {
    /// The file of a reader in the list of a check file.
    pub fn new<R: Reader>(fields: &[WrittenField]) -> Draft {
        Draft::of(R::FILE.part(fields))
    }

    /// The file of these fields.
    pub fn of(fields: &[WrittenField]) -> Draft {
        let serial = |&index: &usize| fields[index].tag == tag::SERIAL;
        Draft {
            fields: fields.to_vec(),
            following: Vec::new(),
            cut: None,
            leans: false,
            x: index_of(fields, tag::X),
            serials: (0..fields.len()).filter(serial).collect(),
        }
    }

    /// The bytes.
    pub fn bytes(&self) -> Vec<u8> {
        let mut bytes = join(&self.fields);
        bytes.extend(&self.following);
        if let Some((index, more)) = self.cut {
            bytes.truncate(starts(&self.fields)[index] + more);
        }
        bytes
    }

    /// Cuts in a field, or before, when a cut is there already.
    pub fn cut(&mut self, index: usize, more: usize) {
        self.cut = Some(self.cut.map_or((index, more), |cut| cut.min((index, more))));
    }

    /// The index of the field with which 15 is decided, after its values: that of
    /// x, or that of y where the byte after x is its tag.
    fn judges_rows(&self) -> usize {
        let x = self.x;
        let after_x = starts(&self.fields)[x] + HEAD + self.fields[x].content.len();
        x + usize::from(self.bytes().get(after_x) == Some(&tag::Y))
    }

    /// The serial of the group before, where this field is the serial of a
    /// further group of a bundle.
    fn serial_before(&self, index: usize) -> Option<u32> {
        let place = self.serials.iter().position(|&serial| serial == index)?;
        let before = self.serials[place.checked_sub(1)?];
        Some(serial_value(&self.fields[before]))
    }

    /// Faults of the values of a field that has content and such refusals: one
    /// of them, and about every other time each that is decided later, those
    /// first, so that none takes the first away. The first. 15 is one of them
    /// where it is decided with this field, and 20 where it is the serial of a
    /// further group.
    fn spoil_values(&mut self, index: usize, generator: &mut Generator) -> Refusal {
        let mut refusals = value_refusals(self.fields[index].tag).to_vec();
        let before = self.serial_before(index);
        refusals.extend(before.map(|_| Refusal::SerialOrder));
        let of_rows = refusals.contains(&Refusal::DependentRows) && self.judges_rows() == index;
        let possible = |&refusal: &Refusal| refusal != Refusal::DependentRows || of_rows;
        let refusals: Vec<Refusal> = refusals.into_iter().filter(possible).collect();
        let first = generator.below(refusals.len());
        for place in (first..refusals.len()).rev() {
            if place > first && generator.below(2) == 0 {
                continue;
            }
            match refusals[place] {
                Refusal::DependentRows => self.leans |= lean(&mut self.fields, generator),
                Refusal::SerialOrder => {
                    self.fields[index] = serial_up_to(before.unwrap_or(0), generator);
                }
                refusal => spoil_value(&mut self.fields[index], refusal, generator),
            }
        }
        refusals[first]
    }

    /// Puts a fault at this spot, and gives its refusal.
    fn spoil(&mut self, (index, place): Spot, generator: &mut Generator) -> Refusal {
        match place {
            Place::Head => {
                // Before a further group a bundle may end.
                let least = usize::from(self.serial_before(index).is_some());
                self.cut(index, least + generator.below(HEAD - least));
            }
            Place::Tag => {
                let tag = self.fields[index].tag;
                let mut others = std::iter::repeat_with(|| other_tag(tag, generator));
                let other = others.find(|&other| !may_come_next(&self.fields, index, other));
                self.fields[index].tag = other.expect("another tag");
            }
            Place::Length => {
                let field = &mut self.fields[index];
                field.length = other_length(field, generator);
                // The content has the right length, or the wrong one.
                if field.length < 1000 && generator.below(2) == 0 {
                    field.content.resize(field.length.into(), 0);
                }
            }
            Place::Content => {
                let len = self.fields[index].content.len();
                let more = any_of(&[0, len - 1, generator.below(len)], generator);
                self.cut(index, HEAD + more);
            }
            Place::Values => return self.spoil_values(index, generator),
            Place::End => self.following = following(generator),
        }
        *refusal_of(place)
    }
}

/// Another tag: that of a field, one with another bit, or any.
pub fn other_tag(tag: u8, generator: &mut Generator) -> u8 {
    loop {
        let other = match generator.below(3) {
            0 => any_of(&CHECK_FILE_TAGS, generator),
            1 => tag ^ (1 << generator.below(8)),
            _ => generator.number() as u8,
        };
        if other != tag {
            return other;
        }
    }
}

/// A length that a field may not have: off by a little, with another byte, or
/// any. Its own length is right.
pub fn other_length(field: &WrittenField, generator: &mut Generator) -> u16 {
    let length = field.length;
    loop {
        let other = match generator.below(8) {
            0 | 1 => length.wrapping_add(1),
            2 | 3 => length.wrapping_sub(1),
            4 => length ^ (1 << generator.below(16)),
            5 => length.swap_bytes(),
            6 => any_of(&[0, 1, 2, 4, 24, 256, 260, 1024, 65_535], generator),
            _ => generator.number() as u16,
        };
        if !may_have_length(field, other) {
            return other;
        }
    }
}

/// Bytes that follow the last field.
pub fn following(generator: &mut Generator) -> Vec<u8> {
    let len = any_of(&[1, 1, 2, 3, 4, 24, 100], generator);
    match generator.below(3) {
        0 => vec![0; len],
        1 => {
            // The head of a field, and a part of it.
            let mut bytes = vec![any_of(&CHECK_FILE_TAGS, generator), 0, 2, 2, 1];
            bytes.truncate(len);
            bytes
        }
        _ => (0..len).map(|_| generator.number() as u8).collect(),
    }
}

/// Puts a value into a field, to which this refusal of a field alone applies.
pub fn spoil_value(field: &mut WrittenField, refusal: Refusal, generator: &mut Generator) {
    match refusal {
        Refusal::SizeN => {
            field.content[0] = any_of(&[0, 1, 65, 66, 127, 128, 130, 192, 255], generator);
        }
        Refusal::SizeM => {
            let n = field.content[0];
            field.content[1] = any_of(&[0, n, n.wrapping_add(1), n | 128, 255], generator);
        }
        Refusal::Bit => {
            let at = any_place(field.content.len(), generator);
            field.content[at] = any_of(&[2, 3, 127, 128, 129, 254, 255], generator);
        }
        Refusal::KeyElement | Refusal::Coordinate => {
            let at = any_place(elements(field), generator);
            set_word(field, at, word_above(generator));
        }
        Refusal::ZeroTarget => field.content.fill(0),
        Refusal::LongSerial => {
            let any = generator.number() as u16;
            let serial = any_of(&[0, 1, 255, 256, 32_768, 65_535, any, any], generator);
            *field = serial_in_four(serial);
        }
        other => panic!("{other:?} is no refusal at the place of values"),
    }
}

/// The field of a serial that is this one or below it.
pub fn serial_up_to(largest: u32, generator: &mut Generator) -> WrittenField {
    let any = (generator.number() % (u64::from(largest) + 1)) as u32;
    let less = largest.saturating_sub(1);
    let serials = [largest, largest, less, 0, largest % 65_536, any];
    serial_field(any_of(&serials, generator))
}

/// The first place, the last or any.
fn any_place(len: usize, generator: &mut Generator) -> usize {
    let any = generator.below(len);
    any_of(&[0, len - 1, any, any], generator)
}

/// The bytes with faults at these spots, and the number of the first: places
/// are tried field after field, and in their order. Where the rows of H lean, 15
/// comes with the last field of the key, which another fault can change.
pub fn faulty<R: Reader>(
    fields: &[WrittenField],
    spots: &[Spot],
    generator: &mut Generator,
) -> (Vec<u8>, u32) {
    faulty_fields(R::FILE.part(fields), spots, generator)
}

/// The same with the fields of a whole file, which may be a bundle.
pub fn faulty_fields(
    fields: &[WrittenField],
    spots: &[Spot],
    generator: &mut Generator,
) -> (Vec<u8>, u32) {
    let mut draft = Draft::of(fields);
    // The last spot first, so that the right lengths of fields are known.
    let mut spots = spots.to_vec();
    spots.sort_unstable();
    spots.dedup();
    let mut number = DONE;
    for &spot in spots.iter().rev() {
        number = draft.spoil(spot, generator).number();
    }
    // The values of x are judged before H, and those of y too.
    let after = |&first: &Spot| first > (draft.judges_rows(), Place::Values);
    if draft.leans && spots.first().is_some_and(after) {
        number = Refusal::DependentRows.number();
    }
    (draft.bytes(), number)
}

/// A value of a field that holds words or bits: the largest that leaves the rows
/// of H independent, or one above the limit.
pub fn set_value(
    fields: &mut [WrittenField],
    index: usize,
    at: usize,
    right: bool,
    generator: &mut Generator,
) {
    if holds(fields[index].tag) == Some(Holds::Bits) {
        let above = any_of(&[2, 3, 128, 255], generator);
        fields[index].content[at] = if right { 1 } else { above };
        return;
    }
    let above = any_of(&[2048, word_above(generator)], generator);
    let mut word = if right { F::LARGEST } else { above };
    set_word(&mut fields[index], at, word);
    while fields::dependent_rows(fields) {
        word -= 1;
        set_word(&mut fields[index], at, word);
    }
}
