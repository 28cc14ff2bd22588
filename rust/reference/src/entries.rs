//! The public entries: "Places run from the top down, and within a place the
//! lower number comes first"; "every output slice then holds what it held
//! before".

use crate::check_zero;
use crate::constraint;
use crate::elimination::cleared;
use crate::key::{
    bits, elements_of_f, elements_of_k, judge_columns, judge_n, rows, witness, Key, Sizes,
};
use crate::large_field::{COORDINATES, K};
use crate::lent;
use crate::package::{package_bytes, Bundle, Joined};
use crate::polynomial::Polynomial;
use crate::refusal::Refusal;
use crate::small_field::F;

/// "answers Accepted or Rejected"; "Rejected is no refusal."
#[derive(Clone, Copy, Debug, PartialEq, Eq)]
pub enum Verdict {
    /// The equation holds.
    Accepted,
    /// The equation doesn't hold.
    Rejected,
}

/// Elements of K as words, "twelve 16-bit words, coordinate 0 first".
pub(crate) fn words_of_elements(elements: impl IntoIterator<Item = K>) -> Vec<u16> {
    elements.into_iter().flat_map(K::words).collect()
}

/// Bits as bytes 0 or 1, "row after row, k = 0 first".
pub(crate) fn bytes_of_bits(rows: &[Vec<bool>]) -> Vec<u8> {
    rows.iter().flatten().map(|&bit| u8::from(bit)).collect()
}

/// Writes elements of K.
fn write_elements(elements: impl IntoIterator<Item = K>, out: &mut [u16]) {
    out.copy_from_slice(&words_of_elements(elements));
}

/// Writes bits.
fn write_bits(rows: &[Vec<bool>], out: &mut [u8]) {
    out.copy_from_slice(&bytes_of_bits(rows));
}

/// Two lent elements of K after the places "slices" and "material": 3, then 6.
fn two_elements(a: &[u16], b: &[u16], out: &[u16]) -> Result<(K, K), Refusal> {
    if [a, b, out].iter().any(|slice| slice.len() != COORDINATES) {
        return Err(Refusal::SliceLength);
    }
    Ok((elements_of_k(a)?[0], elements_of_k(b)?[0]))
}

/// The entry sum: "sum and product in K (two elements lent, the result
/// written)".
pub fn sum(a: &[u16], b: &[u16], out: &mut [u16]) -> Result<(), Refusal> {
    let (a, b) = two_elements(a, b, out)?;
    write_elements([a + b], out);
    Ok(())
}

/// The entry product: "sum and product in K (two elements lent, the result
/// written)".
pub fn product(a: &[u16], b: &[u16], out: &mut [u16]) -> Result<(), Refusal> {
    let (a, b) = two_elements(a, b, out)?;
    write_elements([a * b], out);
    Ok(())
}

/// The entry rank: "it takes n, m and H alone, copies H to a lent matrix of the
/// same length and works there"; "This entry answers the rank, and the matrix
/// then holds the cleared form; a short rank is no refusal here, and refusals 1
/// to 4 leave the matrix unchanged". 4 is about H.
pub fn rank(n: usize, m: usize, h: &[u16], matrix: &mut [u16]) -> Result<usize, Refusal> {
    let sizes = Sizes::judged(n, m)?;
    sizes.judge_lengths(&lent![h, matrix])?;
    let h = rows(&elements_of_f(h)?, n);

    let cleared = cleared(&h);
    let words: Vec<u16> = cleared
        .rows
        .iter()
        .flatten()
        .copied()
        .map(F::word)
        .collect();
    matrix.copy_from_slice(&words);
    Ok(cleared.rank())
}

/// Whether the position at this index "is no column or came before".
fn offends(n: usize, positions: &[u8], index: usize) -> bool {
    let position = positions[index];
    let is_column = (0..n).any(|column| column == usize::from(position));
    !is_column || positions[..index].contains(&position)
}

/// The entry quick look: "whether n positions are an order". It answers none when
/// "all is well", and else the index "of the first offender over the whole list",
/// which is the least of all offenders' indices; "a position too large is an
/// offender and gets no 7". The refusals are 1, then 3.
pub fn quick_look(n: usize, positions: &[u8]) -> Result<Option<usize>, Refusal> {
    judge_n(n)?;
    if positions.len() != n {
        return Err(Refusal::SliceLength);
    }

    let offenders: Vec<usize> = (0..n).filter(|&i| offends(n, positions, i)).collect();
    Ok(offenders.into_iter().min())
}

/// The entry constraints: "takes the key, positions, u and v; writes t and all
/// polynomials, polynomial 0 first".
pub fn constraints(
    key: Key<'_>,
    positions: &[u8],
    u: &[u8],
    v: &[u16],
    t: &mut [u8],
    polynomials: &mut [u16],
) -> Result<(), Refusal> {
    let sizes = key.sizes()?;
    let d = sizes.d;
    key.judge_lengths(sizes, &lent![positions, u, v, t, polynomials])?;
    let key = key.judged(sizes)?;
    let u = rows(&bits(u)?, d);
    let v = rows(&elements_of_k(v)?, d);
    let w = witness(positions, d)?;

    let list = constraint::polynomials(&key, &w, &v);
    write_bits(&constraint::masked_witness(&w, &u), t);
    write_elements(
        list.iter()
            .flat_map(|polynomial| (0..=d).map(|power| polynomial.coefficient(power))),
        polynomials,
    );
    Ok(())
}

/// The place "prove, before writing": 8 "some top coefficient of the n + m
/// polynomials isn't zero".
fn judge_tops(d: usize, polynomials: &[Polynomial]) -> Result<(), Refusal> {
    if polynomials.iter().any(|p| p.coefficient(d) != K::ZERO) {
        return Err(Refusal::TopCoefficient);
    }
    Ok(())
}

/// The entry prove: "takes these with r, s and α; writes t and a".
#[allow(clippy::too_many_arguments)]
pub fn prove(
    key: Key<'_>,
    positions: &[u8],
    u: &[u8],
    v: &[u16],
    r: &[u16],
    s: &[u16],
    alpha: &[u16],
    t: &mut [u8],
    a: &mut [u16],
) -> Result<(), Refusal> {
    let sizes = key.sizes()?;
    let d = sizes.d;
    key.judge_lengths(sizes, &lent![positions, u, v, r, s, alpha, t, a])?;
    let key = key.judged(sizes)?;
    let u = rows(&bits(u)?, d);
    let v = rows(&elements_of_k(v)?, d);
    let r = elements_of_k(r)?;
    let s = elements_of_k(s)?;
    let alpha = elements_of_k(alpha)?;
    let w = witness(positions, d)?;
    judge_columns(&w, sizes)?;

    let polynomials = constraint::polynomials(&key, &w, &v);
    judge_tops(d, &polynomials)?;
    write_bits(&constraint::masked_witness(&w, &u), t);
    write_elements(check_zero::proof(d, &alpha, &polynomials, &r, &s), a);
    Ok(())
}

/// The entry values: "takes the key, t, q and Δ; writes n + m values".
pub fn values(
    key: Key<'_>,
    t: &[u8],
    q: &[u16],
    delta: &[u16],
    values: &mut [u16],
) -> Result<(), Refusal> {
    let sizes = key.sizes()?;
    let d = sizes.d;
    key.judge_lengths(sizes, &lent![t, q, delta, values])?;
    let key = key.judged(sizes)?;
    let t = rows(&bits(t)?, d);
    let q = rows(&elements_of_k(q)?, d);
    let delta = elements_of_k(delta)?[0];

    write_elements(constraint::values(&key, &t, &q, delta), values);
    Ok(())
}

/// The entry verify: "takes these with the mask numbers, α and a; answers
/// Accepted or Rejected".
pub fn verify(
    key: Key<'_>,
    t: &[u8],
    q: &[u16],
    delta: &[u16],
    masks: &[u16],
    alpha: &[u16],
    a: &[u16],
) -> Result<Verdict, Refusal> {
    let sizes = key.sizes()?;
    let d = sizes.d;
    key.judge_lengths(sizes, &lent![t, q, delta, masks, alpha, a])?;
    let key = key.judged(sizes)?;
    let t = rows(&bits(t)?, d);
    let q = rows(&elements_of_k(q)?, d);
    let delta = elements_of_k(delta)?[0];
    let masks = elements_of_k(masks)?;
    let alpha = elements_of_k(alpha)?;
    let a = elements_of_k(a)?;

    let values = constraint::values(&key, &t, &q, delta);
    if check_zero::accepts(&a, delta, &alpha, &values, &masks) {
        Ok(Verdict::Accepted)
    } else {
        Ok(Verdict::Rejected)
    }
}

/// The entry write package: "key, serial, masked witness and proof in, package
/// out"; "It answers the length; output bytes beyond that length keep their
/// content". The output has no stated length; 13 "when the output slice is
/// shorter than the package, after all checks of values".
pub fn write_package(
    key: Key<'_>,
    serial: u32,
    t: &[u8],
    a: &[u16],
    out: &mut [u8],
) -> Result<usize, Refusal> {
    let sizes = key.sizes()?;
    key.judge_lengths(sizes, &lent![t, a])?;
    key.judged(sizes)?;
    bits(t)?;
    elements_of_k(a)?;

    let package = package_bytes(key, serial, t, a);
    let room = out.get_mut(..package.len()).ok_or(Refusal::ShortOutput)?;
    room.copy_from_slice(&package);
    Ok(package.len())
}

/// The bundle with "every group of either, once, in rising serial": "Groups equal
/// in all fields become one." 21 "when the key fields differ"; 22 "when groups with
/// one serial differ in field 06 or 07, after 21".
fn joined(first: Bundle, second: Bundle) -> Result<Bundle, Refusal> {
    if first.key != second.key {
        return Err(Refusal::OtherKey);
    }
    let mut groups = [first.groups, second.groups].concat();
    groups.sort();
    groups.dedup();
    let mut neighbours = groups.windows(2);
    if neighbours.any(|pair| pair[0].serial == pair[1].serial) {
        return Err(Refusal::GroupsDiffer);
    }
    Ok(Bundle { groups, ..first })
}

/// What the join writes to an output of this length, and what it answers: "The
/// first bundle's refusal comes before the second's. 13 applies last, to the joined
/// length."
fn joined_within(first: &[u8], second: &[u8], room: usize) -> Result<(Vec<u8>, Joined), Refusal> {
    let read = |bytes| Bundle::judged(bytes).map_err(|refused| refused.refusal);
    let bundle = joined(read(first)?, read(second)?)?;

    let bytes = bundle.bytes();
    if bytes.len() > room {
        return Err(Refusal::ShortOutput);
    }
    let answer = Joined {
        length: bytes.len(),
        groups: bundle.groups.len(),
    };
    Ok((bytes, answer))
}

/// The entry join bundles: "The join answers the length and the number of groups;
/// output bytes beyond that length stay."
pub fn join_bundles(first: &[u8], second: &[u8], out: &mut [u8]) -> Result<Joined, Refusal> {
    let (bytes, answer) = joined_within(first, second, out.len())?;
    out[..bytes.len()].copy_from_slice(&bytes);
    Ok(answer)
}

/// The entry look before join: "the joined length and the number of groups, or the
/// refusal, given the length it means to lend. The answer is the one that the join
/// itself would give on copies, with the same order of refusals, and nothing is
/// written."
pub fn look_before_join(first: &[u8], second: &[u8], room: usize) -> Result<Joined, Refusal> {
    joined_within(first, second, room).map(|(_, answer)| answer)
}
