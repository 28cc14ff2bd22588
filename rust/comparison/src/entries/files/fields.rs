//! The fields of packages and check files, by their tags.

use crate::entries::keyed;
use crate::kinds::Kind;
use reference::key::Sizes;
use reference::package::{
    check_fields, field_of, index_of, package_fields, serial_bytes, stated_of, tag, words, y_field,
    WrittenField, SERIAL_LENGTHS,
};
use reference::samples::{independent, Generator, Leaning};
use reference::small_field::F;
use reference::{Key, Refusal};

/// The bytes of tag and length.
pub const HEAD: usize = 3;

/// What the content of a field is.
#[derive(Clone, Copy, Debug, PartialEq, Eq)]
pub enum Holds {
    /// The sizes n and m.
    Sizes,
    /// Words, each up to 2047.
    Words,
    /// Bits, one byte each.
    Bits,
    /// The serial.
    Serial,
}

/// A field of a file.
pub struct Field {
    /// The tag.
    pub tag: u8,
    /// What its content is.
    pub holds: Holds,
    /// The refusals at the place of values, in the order in which they are
    /// decided. 15, that of H, comes with the last field of the key: y, or x where
    /// the tag of y does not follow it.
    pub refusals: &'static [Refusal],
}

/// A line of the table.
const fn field(tag: u8, holds: Holds, refusals: &'static [Refusal]) -> Field {
    Field {
        tag,
        holds,
        refusals,
    }
}

/// All fields.
const FIELDS: &[Field] = &[
    field(tag::SIZES, Holds::Sizes, &[Refusal::SizeN, Refusal::SizeM]),
    field(tag::H, Holds::Words, &[Refusal::KeyElement]),
    field(
        tag::X,
        Holds::Words,
        &[Refusal::KeyElement, Refusal::DependentRows],
    ),
    field(
        tag::Y,
        Holds::Words,
        &[
            Refusal::KeyElement,
            Refusal::ZeroTarget,
            Refusal::DependentRows,
        ],
    ),
    field(tag::SERIAL, Holds::Serial, &[Refusal::LongSerial]),
    field(tag::T, Holds::Bits, &[Refusal::Bit]),
    field(tag::A, Holds::Words, &[Refusal::Coordinate]),
    field(tag::Q, Holds::Words, &[Refusal::Coordinate]),
    field(tag::MASKS, Holds::Words, &[Refusal::Coordinate]),
    field(tag::DELTA, Holds::Words, &[Refusal::Coordinate]),
    field(tag::ALPHA, Holds::Words, &[Refusal::Coordinate]),
];

/// The field with this tag; none when no file has such a field.
pub fn of_tag(tag: u8) -> Option<&'static Field> {
    FIELDS.iter().find(|field| field.tag == tag)
}

/// What the field with this tag holds; none when no file has such a field.
pub fn holds(tag: u8) -> Option<Holds> {
    of_tag(tag).map(|field| field.holds)
}

/// The refusals of the values of a field, in the order in which they are
/// decided.
pub fn value_refusals(tag: u8) -> &'static [Refusal] {
    of_tag(tag).map_or(&[], |field| field.refusals)
}

/// Whether this tag may come next where the field with this index stands: after
/// x that of y and that of the serial may.
pub fn may_come_next(fields: &[WrittenField], index: usize, tag: u8) -> bool {
    let after_x = index > 0 && fields[index - 1].tag == tag::X;
    tag == fields[index].tag || after_x && [tag::Y, tag::SERIAL].contains(&tag)
}

/// y: none where it is all zero, as in about every other list.
pub fn any_target(m: usize, generator: &mut Generator) -> Vec<u16> {
    let kinds = [Kind::Zero, Kind::Zero, Kind::Random, Kind::Edges];
    kinds[generator.below(kinds.len())].words(m, generator)
}

/// Puts the field of this y after x, in the place of the one that the list has.
pub fn set_target(fields: &mut Vec<WrittenField>, y: &[u16]) {
    fields.retain(|field| field.tag != tag::Y);
    fields.insert(index_of(fields, tag::X) + 1, y_field(y));
}

/// Whether a field is that of y and all its elements are zero.
pub fn zero_target(field: &WrittenField) -> bool {
    field.tag == tag::Y && field.content.iter().all(|&byte| byte == 0)
}

/// The fields of a check file with any values that no refusal applies to. One
/// in eight lists is all 0, and one in eight of the largest values; about every
/// other file has a field y.
pub fn any_fields(n: usize, m: usize, generator: &mut Generator) -> Vec<WrittenField> {
    let sizes = keyed::sizes(n, m);
    let mut kind = || match generator.below(8) {
        6 => Kind::Zero,
        7 => Kind::Largest,
        _ => Kind::Random,
    };
    let [h, t] = [kind(), kind()];
    let lists = [
        (kind(), sizes.x_words()),
        (kind(), sizes.proof_words()),
        (kind(), sizes.correlation_words()),
        (kind(), sizes.mask_words()),
        (kind(), sizes.delta_words()),
        (kind(), sizes.weight_words()),
    ];
    let [x, a, q, masks, delta, alpha] = lists.map(|(kind, len)| kind.words(len, generator));
    let h = h.rows(sizes, None, generator);
    let t = t.bits(sizes.bit_bytes(), generator);
    let y = any_target(m, generator);
    let key = Key {
        n,
        m,
        h: &h,
        x: &x,
        y: &y,
    };
    let mut fields = package_fields(key, any_serial(generator), &t, &a);
    fields.extend(check_fields(&q, &masks, &delta, &alpha));
    fields
}

/// The fields of a check file without y, and with one.
pub fn both_forms(n: usize, m: usize, generator: &mut Generator) -> [Vec<WrittenField>; 2] {
    let mut without = any_fields(n, m, generator);
    without.retain(|field| field.tag != tag::Y);
    let mut with = without.clone();
    let mut y = any_target(m, generator);
    y[generator.below(m)] |= 1;
    set_target(&mut with, &y);
    [without, with]
}

/// The serials about powers of two and of ten.
pub fn serials_about_powers() -> Vec<u32> {
    let powers_of_two = (0..=32).map(|exponent| 1_u64 << exponent);
    let powers_of_ten = (0..10).map(|exponent| 10_u64.pow(exponent));
    let powers = powers_of_two.chain(powers_of_ten);
    let about = powers.flat_map(|power| [power - 1, power, power + 1]);
    about.filter_map(|serial| serial.try_into().ok()).collect()
}

/// Any serial, of two bytes or of four; in one of four one about a power of two
/// or of ten.
pub fn any_serial(generator: &mut Generator) -> u32 {
    match generator.below(4) {
        0 => {
            let serials = serials_about_powers();
            serials[generator.below(serials.len())]
        }
        _ => generator.serial(),
    }
}

/// The field of a serial.
pub fn serial_field(serial: u32) -> WrittenField {
    WrittenField::new(tag::SERIAL, serial_bytes(serial))
}

/// The field of a serial that fits two bytes, in four.
pub fn serial_in_four(serial: u16) -> WrittenField {
    let [high, low] = serial.to_be_bytes();
    WrittenField::new(tag::SERIAL, vec![0, 0, high, low])
}

/// The serial of such a field, whatever its length is.
pub fn serial_value(field: &WrittenField) -> u32 {
    let bytes = field.content.iter();
    bytes.fold(0, |number, &byte| number << 8 | u32::from(byte))
}

/// Puts the field of a serial in the place of the one that the list has.
pub fn set_serial(fields: &mut [WrittenField], serial: WrittenField) {
    *field_of(fields, tag::SERIAL) = serial;
}

/// Whether a field, whose own length is right, may have this length.
pub fn may_have_length(field: &WrittenField, length: u16) -> bool {
    let serial = field.tag == tag::SERIAL;
    length == field.length || serial && SERIAL_LENGTHS.contains(&length.into())
}

/// The content of the field with this tag, which the list has.
pub fn content_of(fields: &[WrittenField], tag: u8) -> &[u8] {
    &fields[index_of(fields, tag)].content
}

/// The content of the field with this tag, to change.
pub fn content_mut(fields: &mut [WrittenField], tag: u8) -> &mut Vec<u8> {
    let index = index_of(fields, tag);
    &mut fields[index].content
}

/// The fields of the bytes of a file, up to one that is cut.
pub fn walked(bytes: &[u8]) -> impl Iterator<Item = WrittenField> + '_ {
    let mut rest = bytes;
    std::iter::from_fn(move || {
        let &[tag, high, low, ref after @ ..] = rest else {
            return None;
        };
        let length = usize::from(u16::from_be_bytes([high, low]));
        let (content, next) = after.split_at_checked(length)?;
        rest = next;
        Some(WrittenField::new(tag, content.to_vec()))
    })
}

/// Where each field starts.
pub fn starts(fields: &[WrittenField]) -> Vec<usize> {
    let mut start = 0;
    let mut list = Vec::new();
    for field in fields {
        list.push(start);
        start += HEAD + field.content.len();
    }
    list
}

/// Sets word `index` of a field's content.
pub fn set_word(field: &mut WrittenField, index: usize, word: u16) {
    field.content[2 * index..2 * index + 2].copy_from_slice(&word.to_be_bytes());
}

/// How many elements the content of a field has, words or bytes.
pub fn elements(field: &WrittenField) -> usize {
    match holds(field.tag) {
        Some(Holds::Words) => field.content.len() / 2,
        _ => field.content.len(),
    }
}

/// The tags of the fields of a key, with which a file begins; the last may be
/// absent.
pub const KEY_TAGS: [u8; 4] = [tag::SIZES, tag::H, tag::X, tag::Y];

/// n and H of a file that begins with these fields; none where those of the key
/// aren't right.
pub fn rows_of_key(fields: &[WrittenField]) -> Option<(usize, Vec<u16>)> {
    let &[n, m] = &fields.first()?.content[..] else {
        return None;
    };
    let sizes = Sizes::judged(n.into(), m.into()).ok()?;
    let mut rest = fields.iter().peekable();
    let mut h = Vec::new();
    for tag in KEY_TAGS {
        let stated = stated_of(tag);
        let Some(field) = rest.next_if(|field| field.tag == tag) else {
            if stated.optional {
                continue;
            }
            return None;
        };
        let length = field.content.len();
        let right = (stated.lengths)(sizes).contains(&length);
        if !right || usize::from(field.length) != length || zero_target(field) {
            return None;
        }
        let list = words(&field.content);
        if tag != tag::SIZES && list.iter().any(|&word| word > F::LARGEST) {
            return None;
        }
        if tag == tag::H {
            h = list;
        }
    }
    Some((sizes.n, h))
}

/// n and the words of H of a file; none where the sizes or the field of H aren't
/// right. The other fields may be any.
fn sized_rows(fields: &[WrittenField]) -> Option<(Sizes, Vec<u16>)> {
    let content = |tag| {
        let field = fields.iter().find(|field| field.tag == tag)?;
        Some(&field.content[..])
    };
    let &[n, m] = content(tag::SIZES)? else {
        return None;
    };
    let sizes = Sizes::judged(n.into(), m.into()).ok()?;
    let h = words(content(tag::H)?);
    let right = h.len() == sizes.h_words() && h.iter().all(|&word| word <= F::LARGEST);
    right.then_some((sizes, h))
}

/// Puts rows that lean in this way into the field of H; whether the sizes and H
/// are right, so that they can.
pub fn lean_as(fields: &mut [WrittenField], leaning: Leaning, generator: &mut Generator) -> bool {
    let Some((sizes, mut h)) = sized_rows(fields) else {
        return false;
    };
    leaning.make(&mut h, sizes.n, generator);
    let bytes = h.into_iter().flat_map(u16::to_be_bytes);
    *content_mut(fields, tag::H) = bytes.collect();
    true
}

/// The same, in any way that m rows can lean.
pub fn lean(fields: &mut [WrittenField], generator: &mut Generator) -> bool {
    let Some((sizes, _)) = sized_rows(fields) else {
        return false;
    };
    let ways: Vec<Leaning> = Leaning::of(sizes.m).collect();
    lean_as(fields, ways[generator.below(ways.len())], generator)
}

/// Whether rows of H depend on each other, in a file whose key has no other
/// fault.
pub fn dependent_rows(fields: &[WrittenField]) -> bool {
    rows_of_key(fields).is_some_and(|(n, h)| !independent(&h, n))
}
