//! Bundles: the packages of one key, with the key's fields once.

use crate::c;
use crate::refusal::{self, Refusal};

/// The sizes of a bundle's key, and how many groups the bundle has.
#[derive(Clone, Copy, Debug, PartialEq, Eq)]
pub struct Bundle {
    /// The number of positions, 2 to 64.
    pub n: usize,
    /// The number of rows of H, 1 to n - 1.
    pub m: usize,
    /// The number of groups, at least 1.
    pub groups: usize,
}

/// The size of a joined bundle, which [`join_bundles`] has written, or which
/// [`look_before_join`] tells before it is written.
#[derive(Clone, Copy, Debug, PartialEq, Eq)]
pub struct Joined {
    /// The number of its bytes; the output of the join begins with them.
    pub length: usize,
    /// The number of its groups.
    pub groups: usize,
}

/// The sizes and the number of groups of a bundle. `bytes` may have any length.
///
/// A bundle has the key's fields once, 01, 02, 03 and, where y is not all zero,
/// 04; then one group or more, each the fields 05 (the serial), 06 (t) and 07 (a);
/// and nothing else. Every field is as [`read_package`](crate::read_package)
/// states it. The serials rise: each is above that of the group before, as a
/// number, so that one of two bytes comes before one of four. A package is a bundle
/// of one group, and a bundle of one group is a package.
///
/// # Errors
///
/// Those of the key's fields as `read_package` tries them, with
/// [`Refusal::DependentRows`] at its place; then for each group in turn, and for
/// its three fields in turn, in this order:
///
/// - [`Refusal::BytesMissing`], where fewer than 3 bytes remain for tag and
///   length;
/// - [`Refusal::Tag`];
/// - [`Refusal::FieldLength`];
/// - [`Refusal::BytesMissing`], where fewer bytes remain than the length;
/// - of the content [`Refusal::LongSerial`] and then [`Refusal::SerialOrder`],
///   where the serial is not above that of the group before (05),
///   [`Refusal::Bit`] (06), [`Refusal::Coordinate`] (07).
///
/// After a group the bundle ends where no byte remains. Otherwise the next group
/// is read from there, so that one byte or two are [`Refusal::BytesMissing`], and
/// another tag than 05 is [`Refusal::Tag`]. [`Refusal::BytesFollow`] is never the
/// answer. A key's fields without a group are `BytesMissing`.
pub fn read_bundle(bytes: &[u8]) -> Result<Bundle, Refusal> {
    let (mut n, mut m, mut groups) = (0, 0, 0);
    let (start, len) = (bytes.as_ptr(), bytes.len());
    // SAFETY: the pointer and the length are those of one slice, so they name
    // memory that is valid to read. The three outputs are exclusive borrows of
    // different variables, so none overlaps another or the slice.
    let number = unsafe { c::perk_read_bundle(start, len, &mut n, &mut m, &mut groups) };
    refusal::answer(number).map(|()| Bundle {
        n: n as usize,
        m: m as usize,
        groups,
    })
}

/// Joins two bundles of one key, and returns the length and the number of groups
/// of the joined bundle, which has every group of either, once, in rising serial.
/// `out` then begins with it, and its bytes beyond that length keep their content.
///
/// - `first`, `second`: bundles as [`read_bundle`] takes them; they may be the same
///   slice. A package is a bundle of one group.
/// - `out`: at least the length of the joined bundle, written. The sum of both
///   lengths is always enough, and [`look_before_join`] tells the length itself.
///
/// Two groups with one serial are taken once where their t and a are the same, so a
/// bundle is joined with itself, or with some of its own groups, to its own bytes.
/// Where they are not the same, the two are refused: neither is chosen. Which
/// bundle is first makes no difference to what is written. Nothing is verified: t
/// and a may be any within the limits.
///
/// Proved besides: [`read_bundle`] takes what is written, with the n and m of both
/// bundles and the same number of groups; and a bundle that is joined with itself
/// gives its own bytes, where `out` is long enough.
///
/// # Errors
///
/// In this order: all those of [`read_bundle`] for `first`, all those for
/// `second`, [`Refusal::OtherKey`], where the bytes of the key's fields differ,
/// also where one bundle alone has a field 04, [`Refusal::GroupsDiffer`], where two
/// groups with one serial differ in field 06 or 07, and then
/// [`Refusal::ShortOutput`], where `out` is shorter than the joined bundle. Then
/// `out` keeps its content.
///
/// # Examples
///
/// A records room has packages of key A of the specification, with the serials 7
/// and 65536, and joins them:
///
/// ```
/// use perk::{Key, Refusal};
///
/// # fn main() -> Result<(), Refusal> {
/// let key = Key { n: 2, m: 1, h: &[2, 1], x: &[1, 2], y: &[0] };
/// let package = |serial, t: [u8; 2]| {
///     let mut out = vec![0; perk::LARGEST_PACKAGE_BYTES];
///     let length = perk::write_package(key, serial, &t, &[0; 12], &mut out)?;
///     out.truncate(length);
///     Ok(out)
/// };
/// let (first, second) = (package(65536, [1, 1])?, package(7, [0, 1])?);
///
/// // both lengths together are always enough
/// let mut out = vec![0; first.len() + second.len()];
/// let joined = perk::join_bundles(&first, &second, &mut out)?;
/// let bundle = &out[..joined.length];
/// // the 19 bytes of fields 01 to 03, once, and groups of 37 and 39
/// assert_eq!((joined.length, joined.groups), (19 + 37 + 39, 2));
/// assert_eq!(bundle, [&second[..], &first[19..]].concat());
/// let read = perk::read_bundle(bundle)?;
/// assert_eq!((read.n, read.m, read.groups), (2, 1, 2));
///
/// // the group with the serial 7 is there already
/// let mut again = vec![0; bundle.len() + second.len()];
/// let joined = perk::join_bundles(bundle, &second, &mut again)?;
/// assert_eq!(&again[..joined.length], bundle);
///
/// // another t with the serial 7, and an output that is one byte too short
/// let answer = perk::join_bundles(bundle, &package(7, [1, 1])?, &mut again);
/// assert_eq!(answer, Err(Refusal::GroupsDiffer));
/// let answer = perk::join_bundles(&first, &second, &mut again[..94]);
/// assert_eq!(answer, Err(Refusal::ShortOutput));
/// # Ok(())
/// # }
/// ```
pub fn join_bundles(first: &[u8], second: &[u8], out: &mut [u8]) -> Result<Joined, Refusal> {
    let (mut length, mut groups) = (0, 0);
    // SAFETY: each pointer stands with the length of its slice, so they name memory
    // that is valid to read and, of `out`, to write. `out`, `length` and `groups`
    // are exclusive borrows, so none overlaps another or a slice that is read.
    let number = unsafe {
        c::perk_join_bundles(
            first.as_ptr(),
            first.len(),
            second.as_ptr(),
            second.len(),
            out.as_mut_ptr(),
            out.len(),
            &mut length,
            &mut groups,
        )
    };
    refusal::answer(number).map(|()| Joined { length, groups })
}

/// What [`join_bundles`] answers for these two bundles with an output of `room`
/// bytes, before any output is lent: the length and the number of groups of the
/// joined bundle, or the refusal. Nothing is written.
///
/// - `first`, `second`: as in [`join_bundles`].
/// - `room`: the length of the output that is meant to be lent; any number.
///   [`usize::MAX`] is never too short.
///
/// Proved besides: for every `out` of `room` bytes [`join_bundles`] has the same
/// answer; a room of both lengths together or more is never refused with
/// [`Refusal::ShortOutput`]; where a length is told, for whatever room, an `out` of
/// exactly that length gets the same answer from [`join_bundles`]; and a refusal
/// other than `ShortOutput` is the same for every room.
///
/// # Errors
///
/// Those of [`join_bundles`], in the same order, with [`Refusal::ShortOutput`] last,
/// where `room` is below the length of the joined bundle.
///
/// # Examples
///
/// A records room joins packages of key A of the specification, with the serials 7
/// and 65536, into an output of exactly the length, and learns beforehand what is
/// refused:
///
/// ```
/// use perk::{Key, Refusal};
///
/// # fn main() -> Result<(), Refusal> {
/// # let key = Key { n: 2, m: 1, h: &[2, 1], x: &[1, 2], y: &[0] };
/// # let package = |serial, t: [u8; 2]| {
/// #     let mut out = vec![0; perk::LARGEST_PACKAGE_BYTES];
/// #     let length = perk::write_package(key, serial, &t, &[0; 12], &mut out)?;
/// #     out.truncate(length);
/// #     Ok(out)
/// # };
/// // `package` writes one with this serial and this t
/// let (first, second) = (package(65536, [1, 1])?, package(7, [0, 1])?);
///
/// let told = perk::look_before_join(&first, &second, usize::MAX)?;
/// // the 19 bytes of fields 01 to 03, once, and groups of 37 and 39
/// assert_eq!((told.length, told.groups), (19 + 37 + 39, 2));
/// let mut out = vec![0; told.length];
/// assert_eq!(perk::join_bundles(&first, &second, &mut out), Ok(told));
/// assert_eq!(out, [&second[..], &first[19..]].concat());
///
/// // a buffer of 94 bytes would be too short
/// let answer = perk::look_before_join(&first, &second, 94);
/// assert_eq!(answer, Err(Refusal::ShortOutput));
/// // another t with the serial 7 is refused, whatever the room
/// let answer = perk::look_before_join(&out, &package(7, [1, 1])?, 94);
/// assert_eq!(answer, Err(Refusal::GroupsDiffer));
/// # Ok(())
/// # }
/// ```
pub fn look_before_join(first: &[u8], second: &[u8], room: usize) -> Result<Joined, Refusal> {
    let (mut length, mut groups) = (0, 0);
    // SAFETY: each pointer stands with the length of its slice, so they name memory
    // that is valid to read; `room` is a number and names no memory. `length` and
    // `groups` are exclusive borrows of different variables, so neither overlaps the
    // other or a slice.
    let number = unsafe {
        c::perk_look_before_join(
            first.as_ptr(),
            first.len(),
            second.as_ptr(),
            second.len(),
            room,
            &mut length,
            &mut groups,
        )
    };
    refusal::answer(number).map(|()| Joined { length, groups })
}
