//! The refusals of the entries, with their numbers in C.

use crate::element::COORDINATES;
use crate::elimination::leaning;
use crate::rows::Within;
use reference::key::Sizes;
use reference::{lent, Key, Refusal};

/// The largest element of F, which has all its digits set.
const LIMIT: u16 = 2047;

/// Goes on, or stops with the refusal.
fn unless(refused: bool, refusal: Refusal) -> Result<(), Refusal> {
    if refused {
        Err(refusal)
    } else {
        Ok(())
    }
}

/// Whether some word is above the limit. The words are joined first.
#[inline]
fn above(words: &[u16]) -> bool {
    words.iter().fold(0, |all, word| all | word) > LIMIT
}

/// Whether some byte is above 1.
fn above_1(bytes: &[u8]) -> bool {
    bytes.iter().fold(0, |all, byte| all | byte) > 1
}

/// What positions are together: 0 where all are columns, 2 where some is 2^d or
/// more, else 1. A position and what a limit lacks to 256 have a ninth digit where
/// the position is the limit or more; these are joined first.
fn codes(positions: &[u8], n: usize, d: usize) -> u16 {
    let reach = |limit: usize| {
        let rest = 256 - limit as u16;
        let joined = |all, &position: &u8| all | (u16::from(position) + rest);
        positions.iter().fold(0, joined) >> 8
    };
    reach(n) + reach(1 << d)
}

/// The words of an element.
type Words = [u16; COORDINATES];

/// The refusals 3 and 6 of two elements of K and the room for a third; the
/// words of known length where none applies.
#[inline]
pub fn elements<'a>(
    a: &'a [u16],
    b: &'a [u16],
    out: &'a mut [u16],
) -> Result<(&'a Words, &'a Words, &'a mut Words), Refusal> {
    let words = (a.try_into(), b.try_into(), out.try_into());
    let (Ok::<&Words, _>(a), Ok::<&Words, _>(b), Ok(out)) = words else {
        return Err(Refusal::SliceLength);
    };
    unless(above(a) || above(b), Refusal::Coordinate)?;
    Ok((a, b, out))
}

/// The slices that an entry takes beside those of the key.
pub struct Slices<'a> {
    /// The name and the length of each.
    pub lent: &'a [(&'a str, usize)],
    /// The bits.
    pub bits: &'a [u8],
    /// The slices of elements of K.
    pub elements: &'a [&'a [u16]],
    /// The positions, where the entry takes some.
    pub positions: &'a [u8],
    /// Whether spare codes are refused.
    pub columns_alone: bool,
}

/// The refusals 1 to 4 of the entry rank.
pub fn ranked(n: usize, m: usize, h: &[u16], matrix: &[u16]) -> Result<(), Refusal> {
    let sizes = Sizes::judged(n, m)?;
    sizes.judge_lengths(&lent![h, matrix])?;
    unless(above(h), Refusal::KeyElement)
}

/// The refusals 1 to 7, 15 and 16, and the key where none applies.
pub fn keyed<'a>(key: Key<'a>, slices: Slices) -> Result<Within<'a>, Refusal> {
    let sizes = key.sizes()?;
    key.judge_lengths(sizes, slices.lent)?;
    let mut words = [key.h, key.x, key.y].into_iter();
    unless(words.any(above), Refusal::KeyElement)?;
    unless(leaning(key.h, sizes.n), Refusal::DependentRows)?;
    unless(above_1(slices.bits), Refusal::Bit)?;
    let mut elements = slices.elements.iter();
    unless(elements.any(|words| above(words)), Refusal::Coordinate)?;
    let codes = codes(slices.positions, sizes.n, sizes.d);
    unless(codes == 2, Refusal::Position)?;
    unless(slices.columns_alone && codes == 1, Refusal::SpareCode)?;
    Ok(Within { key, d: sizes.d })
}
