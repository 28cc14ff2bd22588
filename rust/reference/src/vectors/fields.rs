//! The fields of a check file, found by their tags and changed.

use crate::package::{
    field_of, head_start, index_of, join, package_part, stated_of, tag, Kind, WrittenField,
};
use crate::samples::Sample;

/// The fields of a check file in their order.
#[derive(Clone)]
pub struct Fields(Vec<WrittenField>);

/// Sets word `index` of a field's content.
pub fn set_word(field: &mut WrittenField, index: usize, word: u16) {
    field.content[2 * index..2 * index + 2].copy_from_slice(&word.to_be_bytes());
}

/// Whether the field with this tag holds elements of F or K.
pub fn has_words(tag: u8) -> bool {
    matches!(
        stated_of(tag).kind,
        Kind::Key | Kind::Target | Kind::Elements
    )
}

/// The number of the refusal of an element or a bit that is too large in the
/// field with this tag, if it has some.
pub fn number_of_excess(tag: u8) -> Option<u32> {
    match stated_of(tag).kind {
        Kind::Sizes | Kind::Serial => None,
        Kind::Key | Kind::Target => Some(4),
        Kind::Bits => Some(5),
        Kind::Elements => Some(6),
    }
}

/// Sets an element or a bit of a field.
pub fn set(field: &mut WrittenField, place: usize, value: u16) {
    if has_words(field.tag) {
        set_word(field, place, value);
    } else {
        field.content[place] = value as u8;
    }
}

/// Writes the lowest two bytes of a serial in four.
pub fn lengthen(field: &mut WrittenField) {
    let [.., high, low] = field.content[..] else {
        panic!("a serial has two bytes or four");
    };
    *field = WrittenField::new(field.tag, vec![0, 0, high, low]);
}

impl Fields {
    /// The fields of the check file of a sample that is solved.
    pub fn of(sample: &Sample) -> Fields {
        Fields(sample.fields().expect("the sample is solved"))
    }

    /// The fields of a check file with t and a as prove makes them, also where
    /// the rows of H lean on each other.
    pub fn unjudged(sample: &Sample) -> Fields {
        let (t, a) = sample.unjudged_proof().expect("words up to 2047");
        Fields(sample.fields_with(&t, &a))
    }

    /// The tags in their order.
    pub fn tags(&self) -> Vec<u8> {
        self.0.iter().map(|field| field.tag).collect()
    }

    /// The tag of the last field.
    pub fn last(&self) -> u8 {
        *self.tags().last().expect("a field")
    }

    /// The place of the field with this tag in the order.
    pub fn index(&self, tag: u8) -> usize {
        index_of(&self.0, tag)
    }

    /// The field with this tag.
    pub fn field(&self, tag: u8) -> &WrittenField {
        &self.0[self.index(tag)]
    }

    /// The bytes of the file.
    pub fn bytes(&self) -> Vec<u8> {
        join(&self.0)
    }

    /// The bytes of the package, and those after it.
    pub fn parts(&self) -> [Vec<u8>; 2] {
        let package = package_part(&self.0);
        [package, &self.0[package.len()..]].map(join)
    }

    /// Where the head of the field with this tag stands.
    pub fn start(&self, tag: u8) -> usize {
        head_start(&self.0, tag)
    }

    /// The bytes up to the head of the field with this tag and some bytes of it.
    pub fn cut(&self, tag: u8, more: usize) -> Vec<u8> {
        self.bytes()[..self.start(tag) + more].to_vec()
    }

    /// The fields with a change of the one with this tag.
    pub fn with(&self, tag: u8, change: impl FnOnce(&mut WrittenField)) -> Fields {
        let mut fields = self.clone();
        change(field_of(&mut fields.0, tag));
        fields
    }

    /// The fields after a change of the list.
    pub fn changed(&self, change: impl FnOnce(&mut Vec<WrittenField>)) -> Fields {
        let mut fields = self.clone();
        change(&mut fields.0);
        fields
    }

    /// The fields without the one with this tag.
    pub fn without(&self, tag: u8) -> Fields {
        self.changed(|list| drop(list.remove(index_of(list, tag))))
    }

    /// The bytes after a change of the list.
    pub fn edited(&self, change: impl FnOnce(&mut Vec<WrittenField>)) -> Vec<u8> {
        self.changed(change).bytes()
    }

    /// The fields with a fault of the values of the one with this tag (place
    /// P5) and the number of its refusal, if that field can have one.
    pub fn with_value_fault(&self, tag: u8) -> Option<(u32, Fields)> {
        if self.field(tag).content.is_empty() {
            return None;
        }
        if tag == tag::SIZES {
            return Some((2, self.with(tag, |field| field.content[1] = 0)));
        }
        if tag == tag::SERIAL {
            return Some((19, self.with(tag, lengthen)));
        }
        let least = if has_words(tag) { 2048 } else { 2 };
        let faulty = self.with(tag, |field| set(field, 0, least));
        Some((number_of_excess(tag)?, faulty))
    }
}
