//! Packages and check files.

use crate::c;
use crate::refusal::{self, Refusal, Verdict};
use crate::Key;

/// The tag of q, the first field that a check file has after its package.
const Q: u8 = 0x11;

/// The sizes and the serial of a package or a check file.
#[derive(Clone, Copy, Debug, PartialEq, Eq)]
pub struct Contents {
    /// The number of positions, 2 to 64.
    pub n: usize,
    /// The number of rows of H, 1 to n - 1.
    pub m: usize,
    /// The serial, any number of 32 bits.
    pub serial: u32,
}

/// A function of libperk.a that reads n, m and the serial.
type Reader = unsafe extern "C" fn(*const u8, usize, *mut u32, *mut u32, *mut u32) -> u32;

/// The answer of a reader, which is `perk_read_package` or
/// `perk_read_check_file`.
fn read(reader: Reader, bytes: &[u8]) -> Result<Contents, Refusal> {
    let (mut n, mut m, mut serial) = (0, 0, 0);
    // SAFETY: both readers take the pointer and the length of one slice, so
    // memory that is valid to read. The three outputs are exclusive borrows of
    // different variables, so none overlaps another or the slice.
    let number = unsafe { reader(bytes.as_ptr(), bytes.len(), &mut n, &mut m, &mut serial) };
    refusal::answer(number).map(|()| Contents {
        n: n as usize,
        m: m as usize,
        serial,
    })
}

/// The sizes and the serial of a package. `bytes` may have any length.
///
/// A field is a tag of one byte, a length of two bytes and the content; numbers
/// are highest byte first, and tags are hexadecimal. A package has exactly these
/// fields, in this order, where 04 may be absent:
///
/// | Tag | Content | Bytes |
/// |---|---|---|
/// | 01 | n, m | 2 |
/// | 02 | H | 2 m n |
/// | 03 | x | 2 n |
/// | 04 | y, not all zero | 2 m |
/// | 05 | the serial, 0 to 4294967295 | 2 or 4 |
/// | 06 | t | n d |
/// | 07 | a | 24 d |
///
/// Where 04 is absent y is all zero, and only then: a package without a target
/// has no 04. A serial takes two bytes where it fits them, up to 65535, and four
/// otherwise. Neither has another form, and so no package has two.
///
/// # Errors
///
/// For each field in turn, in this order:
///
/// - [`Refusal::BytesMissing`], where fewer than 3 bytes remain for tag and
///   length;
/// - [`Refusal::Tag`];
/// - [`Refusal::FieldLength`], where the length is not one stated above;
/// - [`Refusal::BytesMissing`], where fewer bytes remain than the length;
/// - of the content [`Refusal::SizeN`] and [`Refusal::SizeM`] (01),
///   [`Refusal::KeyElement`] (02, 03, 04), [`Refusal::ZeroTarget`] (04),
///   [`Refusal::LongSerial`] (05), [`Refusal::Bit`] (06),
///   [`Refusal::Coordinate`] (07).
///
/// After the last field [`Refusal::BytesFollow`]. Field 04 is read where the byte
/// after 03 is 04, and otherwise 05 comes next.
///
/// [`Refusal::DependentRows`], where the rows of H lean on each other, comes when
/// the key has been read as a whole: after all refusals of 04 where the byte after
/// 03 is 04, be it the last one, and otherwise, also where the bytes end there,
/// directly after those of 03.
pub fn read_package(bytes: &[u8]) -> Result<Contents, Refusal> {
    read(c::perk_read_package, bytes)
}

/// The sizes and the serial of a check file: a package as for
/// [`read_package`], followed by these fields, in this order.
///
/// | Tag | Content | Bytes |
/// |---|---|---|
/// | 11 | q | 24 n d |
/// | 12 | the mask numbers | 24 (d - 1), none where n is 2 |
/// | 13 | delta | 24 |
/// | 14 | alpha | 24 (n + m) |
///
/// # Errors
///
/// Those of [`read_package`] in the same order, for all fields in turn, with
/// [`Refusal::Coordinate`] for the content of the last four. After the last
/// field [`Refusal::BytesFollow`].
pub fn read_check_file(bytes: &[u8]) -> Result<Contents, Refusal> {
    read(c::perk_read_check_file, bytes)
}

/// The package that a check file begins with: the caller's own bytes before its
/// field 11.
///
/// # Errors
///
/// Those of [`read_check_file`], in the same order.
pub fn package_of(check_file: &[u8]) -> Result<&[u8], Refusal> {
    read_check_file(check_file)?;
    let mut rest = check_file;
    while let [tag, high, low, after @ ..] = rest {
        if *tag == Q {
            break;
        }
        let length = u16::from_be_bytes([*high, *low]);
        rest = after.get(usize::from(length)..).unwrap_or_default();
    }
    Ok(&check_file[..check_file.len() - rest.len()])
}

/// The content of the field with this tag in a package: the caller's own bytes.
/// It is empty for a package that [`read_package`] refuses, as where the rows of H
/// lean on each other, and for a tag that the package does not have, as 04 where y is all zero; no field of a package is
/// empty. It tells no refusal.
///
/// A check file is no package; [`package_of`] finds the one that it begins with.
pub fn field(bytes: &[u8], tag: u8) -> &[u8] {
    let mut start = 0;
    // SAFETY: the pointer and the length are those of one slice, so they name
    // memory that is valid to read. `start` is an exclusive borrow of a
    // variable, so it does not overlap the slice.
    let len = unsafe { c::perk_field(bytes.as_ptr(), bytes.len(), tag, &mut start) };
    &bytes[start..start + len]
}

/// The bytes of the largest package, with n = 64, m = 63, a target and a serial
/// of four bytes: an output for [`write_package`] that is long enough for every
/// package.
pub const LARGEST_PACKAGE_BYTES: usize = 8873;

/// Writes a package, with the fields that [`read_package`] lists, and returns its
/// length. `out` then begins with the package, and its bytes beyond that length
/// keep their content.
///
/// - `serial`: any number.
/// - `t`: the masked witness, n d bytes.
/// - `a`: the proof, 12 d words.
/// - `out`: at least the length of the package, written. A package has
///   20 + 2 m n + 2 n + n d + 24 d bytes, 2 or 4 more for the serial, and 3 + 2 m
///   more where some element of y is not zero; [`LARGEST_PACKAGE_BYTES`] is always
///   enough.
///
/// Each package has one form, which is chosen here: field 04 is left out where y is
/// all zero, and the serial takes two bytes where it fits them, else four. Nothing
/// is verified: `t` and `a` may be any within the limits.
///
/// Proved besides: [`read_package`] takes what is written, with the same n, m and
/// serial, and [`field`] finds in it what was lent, for every tag, and nothing for
/// 04 where y is all zero. And for every package that `read_package` takes, its
/// fields, with m zeros as y where 04 is absent, are written into an output of at
/// least its length as its very bytes.
///
/// # Errors
///
/// In this order: [`Refusal::SizeN`], [`Refusal::SizeM`],
/// [`Refusal::SliceLength`] (`h`, `x`, `y`, `t`, `a`, but not `out`),
/// [`Refusal::KeyElement`] (`h`, `x`, `y`), [`Refusal::DependentRows`] (`h`),
/// [`Refusal::Bit`] (`t`), [`Refusal::Coordinate`] (`a`), and then
/// [`Refusal::ShortOutput`], where `out` is shorter than the package. Then `out`
/// keeps its content.
pub fn write_package(
    key: Key<'_>,
    serial: u32,
    t: &[u8],
    a: &[u16],
    out: &mut [u8],
) -> Result<usize, Refusal> {
    let Key { n, m, h, x, y } = key;
    let mut length = 0;
    // SAFETY: each pointer stands with the length of its slice, so they name
    // aligned memory that is valid to read and, of `out`, to write. `out` and
    // `length` are exclusive borrows, so neither overlaps the other or a slice that
    // is read.
    let number = unsafe {
        c::perk_write_package(
            n,
            m,
            h.as_ptr(),
            h.len(),
            x.as_ptr(),
            x.len(),
            y.as_ptr(),
            y.len(),
            serial,
            t.as_ptr(),
            t.len(),
            a.as_ptr(),
            a.len(),
            out.as_mut_ptr(),
            out.len(),
            &mut length,
        )
    };
    refusal::answer(number).map(|()| length)
}

/// Whether the proof in a check file is accepted: as [`verify`](crate::verify)
/// decides for its key, t, q, delta, mask numbers, alpha and a, with m zeros as y
/// where field 04 is absent. Accepted means
/// only that the equation of `verify` holds; the serial is not part of it.
///
/// # Errors
///
/// Those of [`read_check_file`], in the same order. Where it reads the file, no
/// refusal of `verify` applies.
pub fn check(bytes: &[u8]) -> Result<Verdict, Refusal> {
    refusal::verdict(call!(perk_check()(bytes)()))
}
