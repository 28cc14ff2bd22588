//! The package, the check file and the bundle: readers, and the bytes of written
//! ones.

mod bundle;
mod stated;
mod written;

pub use bundle::{bundle_bytes, judge_bundle, read_bundle, Bundle, BundleContents, Group, Joined};
pub use stated::{stated_of, tag, Kind, Stated, CHECK_FILE_TAGS, PACKAGE_TAGS, SERIAL_LENGTHS};
pub use written::{
    check_fields, check_file_bytes, field_of, group_fields, head_start, index_of, join, key_fields,
    package_bytes, package_fields, package_part, serial_bytes, y_field, WrittenField,
};

use crate::key::{bits, elements_of_f, elements_of_k, judge_rows, rows, Sizes};
use crate::refusal::Refusal;
use crate::small_field::F;
use stated::{package_stated, FIELDS};
use std::iter::Peekable;
use std::ops::Range;
use std::vec::IntoIter;

/// The bytes of tag and length: "a one-byte tag, a two-byte length".
pub const HEAD: usize = 3;

/// What the readers answer: "answer n, m and the serial".
#[derive(Clone, Copy, Debug, PartialEq, Eq)]
pub struct Contents {
    /// The size n.
    pub n: usize,
    /// The size m.
    pub m: usize,
    /// The serial.
    pub serial: u32,
}

/// The places of the readers, in the order of the table.
#[derive(Clone, Copy, Debug, PartialEq, Eq, PartialOrd, Ord, Hash)]
pub enum Place {
    /// P1, "head".
    Head,
    /// P2, "tag".
    Tag,
    /// P3, "length".
    Length,
    /// P4, "content".
    Content,
    /// P5, "values".
    Values,
    /// P6, "end".
    End,
}

/// Where a reader refuses, and why.
#[derive(Clone, Copy, Debug, PartialEq, Eq)]
pub struct Refused {
    /// The refusal.
    pub refusal: Refusal,
    /// The place.
    pub place: Place,
    /// The tag of the field that comes next there; none at the end.
    pub tag: Option<u8>,
}

impl Refused {
    /// Refused at this place of the field with this tag.
    fn at(tag: Option<u8>, place: Place, refusal: Refusal) -> Refused {
        Refused {
            refusal,
            place,
            tag,
        }
    }
}

/// A piece of the bytes, before anything is judged.
enum Piece {
    /// A field: its tag, its length as written, and where its content stands.
    /// The content is shorter than the length when the bytes end before.
    Field {
        tag: u8,
        length: usize,
        content: Range<usize>,
    },
    /// One or two bytes at the end, too few for tag and length. The first stands
    /// where a tag does.
    Rest { tag: u8 },
}

impl Piece {
    /// Whether it starts with this tag.
    fn starts_with(&self, wanted: u8) -> bool {
        let (Piece::Field { tag, .. } | Piece::Rest { tag }) = self;
        *tag == wanted
    }
}

/// A number of two bytes: "highest byte first".
fn number(high: u8, low: u8) -> u16 {
    256 * u16::from(high) + u16::from(low)
}

/// Cuts the bytes into pieces: "Fields are a one-byte tag, a two-byte length
/// and the content."
fn split(bytes: &[u8]) -> Vec<Piece> {
    let mut pieces = Vec::new();
    let mut start = 0;
    while start < bytes.len() {
        let tag = bytes[start];
        if bytes.len() - start < HEAD {
            pieces.push(Piece::Rest { tag });
            break;
        }
        let length = usize::from(number(bytes[start + 1], bytes[start + 2]));
        let content_start = start + HEAD;
        let content_end = bytes.len().min(content_start + length);
        pieces.push(Piece::Field {
            tag,
            length,
            content: content_start..content_end,
        });
        start = content_end;
    }
    pieces
}

/// The places P1 to P4 for the piece that stands where this field comes next;
/// where its content stands.
fn judge_head_and_length(
    piece: Option<Piece>,
    field: &Stated,
    sizes: Sizes,
) -> Result<Range<usize>, (Place, Refusal)> {
    match piece {
        // P1: "fewer than 3 bytes remain for tag and length".
        None | Some(Piece::Rest { .. }) => Err((Place::Head, Refusal::BytesMissing)),
        Some(Piece::Field {
            tag,
            length,
            content,
        }) => {
            // P2: "not the tag that comes next".
            if tag != field.tag {
                return Err((Place::Tag, Refusal::Tag));
            }
            // P3: "not the length stated above".
            if !(field.lengths)(sizes).contains(&length) {
                return Err((Place::Length, Refusal::FieldLength));
            }
            // P4: "fewer bytes remain than the length".
            if content.len() < length {
                return Err((Place::Content, Refusal::BytesMissing));
            }
            Ok(content)
        }
    }
}

/// Content as numbers of two bytes: "All numbers of two bytes are highest
/// byte first".
pub fn words(content: &[u8]) -> Vec<u16> {
    content
        .chunks(2)
        .map(|pair| number(pair[0], pair[1]))
        .collect()
}

/// The serial of a field's content, highest byte first.
fn serial(content: &[u8]) -> u32 {
    let bytes = content.iter().map(|&byte| u32::from(byte));
    bytes.fold(0, |number, byte| 256 * number + byte)
}

/// The place P5: 1, 2, 4, 5 or 6 "as above, for the field's content", 14 "after
/// 4", and 19.
/// Answers the sizes: those of the content where it has some, else those before
/// it.
fn judge_values(kind: Kind, content: &[u8], sizes: Sizes) -> Result<Sizes, Refusal> {
    match kind {
        Kind::Sizes => Sizes::judged(usize::from(content[0]), usize::from(content[1])),
        Kind::Key => elements_of_f(&words(content)).map(|_| sizes),
        Kind::Target => match elements_of_f(&words(content))? {
            y if y.iter().all(|&element| element == F::ZERO) => Err(Refusal::ZeroTarget),
            _ => Ok(sizes),
        },
        // "Serials that fit two bytes are still written in two, so each package
        // keeps a single form."
        Kind::Serial if serial_bytes(serial(content)) != content => Err(Refusal::LongSerial),
        Kind::Serial => Ok(sizes),
        Kind::Bits => bits(content).map(|_| sizes),
        Kind::Elements => elements_of_k(&words(content)).map(|_| sizes),
    }
}

/// 15 of the content of field 02, whose elements are judged before.
fn judge_rows_of(content: &[u8], sizes: Sizes) -> Result<(), Refusal> {
    judge_rows(&rows(&elements_of_f(&words(content))?, sizes.n))
}

/// Each tag, and where the content of its field stands.
type Places = Vec<(u8, Range<usize>)>;

/// Where the content of the field with this tag stands; 0..0 when there is no
/// such field.
fn range_of(found: &[(u8, Range<usize>)], tag: u8) -> Range<usize> {
    let field = found.iter().find(|(found, _)| *found == tag);
    field.map_or(0..0, |(_, content)| content.clone())
}

/// The pieces that are still to be judged, and the sizes that those before them
/// told.
struct Pieces<'a> {
    bytes: &'a [u8],
    left: Peekable<IntoIter<Piece>>,
    sizes: Sizes,
}

impl<'a> Pieces<'a> {
    /// All pieces of the bytes.
    fn of(bytes: &'a [u8]) -> Pieces<'a> {
        Pieces {
            bytes,
            left: split(bytes).into_iter().peekable(),
            // No length depends on the sizes before 01 tells them.
            sizes: Sizes { n: 0, m: 0, d: 0 },
        }
    }

    /// Judges the next pieces as these fields: "the readers instead run places P1
    /// to P5 for each field in turn". The rows of H are judged "after all checks
    /// of field 03 or, where the next byte is 04, of field 04", among the values
    /// of that field.
    fn take(&mut self, fields: &[Stated]) -> Result<Places, Refused> {
        let mut found = Places::new();
        for field in fields {
            let there = |piece: &Piece| piece.starts_with(field.tag);
            if !field.optional || self.left.peek().is_some_and(there) {
                let at = |(place, refusal)| Refused::at(Some(field.tag), place, refusal);
                let piece = self.left.next();
                let content = judge_head_and_length(piece, field, self.sizes).map_err(at)?;
                self.sizes = judge_values(field.kind, &self.bytes[content.clone()], self.sizes)
                    .map_err(|refusal| at((Place::Values, refusal)))?;
                found.push((field.tag, content));
            }
            // The key ends with y, whether it is there or not.
            if field.kind == Kind::Target {
                let h = range_of(&found, tag::H);
                let last = found.last().map(|&(tag, _)| tag);
                judge_rows_of(&self.bytes[h], self.sizes)
                    .map_err(|refusal| Refused::at(last, Place::Values, refusal))?;
            }
        }
        Ok(found)
    }

    /// Whether no piece is left.
    fn ended(&mut self) -> bool {
        self.left.peek().is_none()
    }
}

/// Accepted bytes.
struct Judged<'a> {
    bytes: &'a [u8],
    sizes: Sizes,
    found: Places,
}

impl<'a> Judged<'a> {
    /// Judges the bytes: places P1 to P5 "for each field in turn, then P6".
    fn of(bytes: &'a [u8], fields: &[Stated]) -> Result<Judged<'a>, Refused> {
        let mut pieces = Pieces::of(bytes);
        let found = pieces.take(fields)?;
        // P6: "bytes follow the last field".
        if !pieces.ended() {
            return Err(Refused::at(None, Place::End, Refusal::BytesFollow));
        }
        Ok(Judged {
            bytes,
            sizes: pieces.sizes,
            found,
        })
    }

    /// The bytes as a package.
    fn package(bytes: &'a [u8]) -> Result<Judged<'a>, Refused> {
        Judged::of(bytes, package_stated())
    }

    /// The bytes as a check file.
    fn check_file(bytes: &'a [u8]) -> Result<Judged<'a>, Refused> {
        Judged::of(bytes, FIELDS)
    }

    /// Where the content of the field with this tag stands; 0..0 when there is
    /// no such field.
    fn range(&self, tag: u8) -> Range<usize> {
        range_of(&self.found, tag)
    }

    /// n, m and the serial.
    fn contents(&self) -> Contents {
        Contents {
            n: self.sizes.n,
            m: self.sizes.m,
            serial: serial(&self.bytes[self.range(tag::SERIAL)]),
        }
    }
}

/// The entry read package: "answer n, m and the serial, or a refusal".
pub fn read_package(bytes: &[u8]) -> Result<Contents, Refusal> {
    judge_package(bytes).map_err(|refused| refused.refusal)
}

/// The entry read check file: "answer n, m and the serial, or a refusal".
pub fn read_check_file(bytes: &[u8]) -> Result<Contents, Refusal> {
    judge_check_file(bytes).map_err(|refused| refused.refusal)
}

/// What read package answers, with the place of a refusal.
pub fn judge_package(bytes: &[u8]) -> Result<Contents, Refused> {
    Judged::package(bytes).map(|judged| judged.contents())
}

/// What read check file answers, with the place of a refusal.
pub fn judge_check_file(bytes: &[u8]) -> Result<Contents, Refused> {
    Judged::check_file(bytes).map(|judged| judged.contents())
}

/// Where the entry field finds its answer: the place of "that field's
/// content", and 0..0 "for a refused package or an absent tag".
pub fn field_range(bytes: &[u8], tag: u8) -> Range<usize> {
    Judged::package(bytes).map_or(0..0, |judged| judged.range(tag))
}

/// The entry field of a package: "the reader hands back the caller's own bytes
/// of that field's content; for a refused package or an absent tag it hands
/// back an empty part".
pub fn field(bytes: &[u8], tag: u8) -> &[u8] {
    &bytes[field_range(bytes, tag)]
}

/// The package that a check file begins with; empty when the file is refused.
/// It is no entry of the library.
pub fn package_of(bytes: &[u8]) -> &[u8] {
    let end = |judged: Judged| judged.range(tag::Q).start - HEAD;
    &bytes[..Judged::check_file(bytes).map_or(0, end)]
}

/// The content of a field of a check file, empty when the file is refused or
/// has no such tag. It is no entry of the library; `check` reads by it.
pub fn check_file_field(bytes: &[u8], tag: u8) -> &[u8] {
    &bytes[Judged::check_file(bytes).map_or(0..0, |judged| judged.range(tag))]
}

#[cfg(test)]
mod tests {
    use super::stated::stated;
    use super::*;

    /// Three fields of one bit, the second of which may be absent.
    fn answer(bytes: &[u8]) -> Result<Vec<u8>, (Refusal, Option<u8>)> {
        let field = |tag| stated(tag, "", Kind::Bits, |_| vec![1]);
        let mut fields = [1, 2, 3].map(field);
        fields[1].optional = true;
        match Judged::of(bytes, &fields) {
            Ok(judged) => Ok(judged.found.into_iter().map(|(tag, _)| tag).collect()),
            Err(refused) => Err((refused.refusal, refused.tag)),
        }
    }

    #[test]
    fn a_field_that_may_be_absent() {
        let bytes = |tags: &[u8]| -> Vec<u8> {
            let fields = tags.iter().flat_map(|&tag| [tag, 0, 1, 1]);
            fields.collect()
        };
        let of = |tags: &[u8]| answer(&bytes(tags));
        assert_eq!(of(&[1, 2, 3]), Ok(vec![1, 2, 3]));
        assert_eq!(of(&[1, 3]), Ok(vec![1, 3]));
        assert_eq!(of(&[1, 2, 2, 3]), Err((Refusal::Tag, Some(3))));
        assert_eq!(of(&[1, 3, 2]), Err((Refusal::BytesFollow, None)));
        assert_eq!(of(&[1]), Err((Refusal::BytesMissing, Some(3))));
        assert_eq!(of(&[1, 2]), Err((Refusal::BytesMissing, Some(3))));
        // A byte where its tag stands, and a fault in it.
        let with = |rest: &[u8]| answer(&[&bytes(&[1])[..], rest].concat());
        assert_eq!(with(&[2]), Err((Refusal::BytesMissing, Some(2))));
        assert_eq!(with(&[3]), Err((Refusal::BytesMissing, Some(3))));
        assert_eq!(with(&[2, 0, 2]), Err((Refusal::FieldLength, Some(2))));
    }
}
