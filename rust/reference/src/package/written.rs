//! Fields as they are written, and the bytes that they make.

use super::tag;
use crate::key::Key;

/// A field as it is written, right or wrong.
#[derive(Clone, Debug, PartialEq, Eq)]
pub struct WrittenField {
    /// The tag.
    pub tag: u8,
    /// The length as written, which may differ from that of the content.
    pub length: u16,
    /// The content.
    pub content: Vec<u8>,
}

impl WrittenField {
    /// The field with this tag and this content, and its right length.
    pub fn new(tag: u8, content: Vec<u8>) -> WrittenField {
        WrittenField {
            tag,
            length: u16::try_from(content.len()).expect("the length has two bytes"),
            content,
        }
    }
}

/// Where the field with this tag stands in a list that has it.
pub fn index_of(fields: &[WrittenField], tag: u8) -> usize {
    let index = fields.iter().position(|field| field.tag == tag);
    index.expect("a field of the list")
}

/// The field with this tag of a list that has it.
pub fn field_of(fields: &mut [WrittenField], tag: u8) -> &mut WrittenField {
    let index = index_of(fields, tag);
    &mut fields[index]
}

/// Where the head of the field with this tag stands in the joined bytes.
pub fn head_start(fields: &[WrittenField], tag: u8) -> usize {
    join(&fields[..index_of(fields, tag)]).len()
}

/// The fields of the package in the list of a check file: "A check file is a
/// package followed by" the field q and others.
pub fn package_part(fields: &[WrittenField]) -> &[WrittenField] {
    &fields[..index_of(fields, tag::Q)]
}

/// The bytes of fields one after another: "a one-byte tag, a two-byte length
/// and the content".
pub fn join(fields: &[WrittenField]) -> Vec<u8> {
    let mut bytes = Vec::new();
    for field in fields {
        bytes.push(field.tag);
        bytes.extend(field.length.to_be_bytes());
        bytes.extend(&field.content);
    }
    bytes
}

/// Words as bytes, "highest byte first".
fn word_bytes(words: &[u16]) -> Vec<u8> {
    words.iter().flat_map(|word| word.to_be_bytes()).collect()
}

/// The serial, "highest byte first": "Serials that fit two bytes are still
/// written in two", and all others in four.
pub fn serial_bytes(serial: u32) -> Vec<u8> {
    match u16::try_from(serial) {
        Ok(short) => short.to_be_bytes().to_vec(),
        Err(_) => serial.to_be_bytes().to_vec(),
    }
}

/// The field y, whatever it holds.
pub fn y_field(y: &[u16]) -> WrittenField {
    WrittenField::new(tag::Y, word_bytes(y))
}

/// The fields of a key in their order; nothing is judged. n and m are written in
/// one byte each. y: "absent means all zero, and the writer leaves it out then".
pub fn key_fields(key: Key<'_>) -> Vec<WrittenField> {
    let mut fields = vec![
        WrittenField::new(tag::SIZES, vec![key.n as u8, key.m as u8]),
        WrittenField::new(tag::H, word_bytes(key.h)),
        WrittenField::new(tag::X, word_bytes(key.x)),
    ];
    if key.y.iter().any(|&element| element != 0) {
        fields.push(y_field(key.y));
    }
    fields
}

/// The fields of a group, which a package has after the key's: "groups of 05, 06,
/// 07".
pub fn group_fields(serial: u32, t: &[u8], a: &[u16]) -> [WrittenField; 3] {
    [
        WrittenField::new(tag::SERIAL, serial_bytes(serial)),
        WrittenField::new(tag::T, t.to_vec()),
        WrittenField::new(tag::A, word_bytes(a)),
    ]
}

/// The fields of a package in their order; nothing is judged.
pub fn package_fields(key: Key<'_>, serial: u32, t: &[u8], a: &[u16]) -> Vec<WrittenField> {
    let mut fields = key_fields(key);
    fields.extend(group_fields(serial, t, a));
    fields
}

/// The fields that a check file has after the package.
pub fn check_fields(q: &[u16], masks: &[u16], delta: &[u16], alpha: &[u16]) -> Vec<WrittenField> {
    vec![
        WrittenField::new(tag::Q, word_bytes(q)),
        WrittenField::new(tag::MASKS, word_bytes(masks)),
        WrittenField::new(tag::DELTA, word_bytes(delta)),
        WrittenField::new(tag::ALPHA, word_bytes(alpha)),
    ]
}

/// The bytes of a package, by concatenation; nothing is judged.
pub fn package_bytes(key: Key<'_>, serial: u32, t: &[u8], a: &[u16]) -> Vec<u8> {
    join(&package_fields(key, serial, t, a))
}

/// The bytes of a check file, by concatenation; nothing is judged.
#[allow(clippy::too_many_arguments)]
pub fn check_file_bytes(
    key: Key<'_>,
    serial: u32,
    t: &[u8],
    a: &[u16],
    q: &[u16],
    masks: &[u16],
    delta: &[u16],
    alpha: &[u16],
) -> Vec<u8> {
    let mut bytes = package_bytes(key, serial, t, a);
    bytes.extend(join(&check_fields(q, masks, delta, alpha)));
    bytes
}
