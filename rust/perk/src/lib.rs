//! The PERK permutation proof in its digit form: the proved library libperk.a,
//! called with slices and enums. The specification stands in
//! `docs/specification.md` of the repository; its letters are used here.
//!
//! Each function calls the C function of its name. That function is proved, for
//! every content and every length of its slices, to read and write nothing
//! else, to end, and to answer as stated here, unless a sentence says that it is
//! tested. What this crate adds is not proved: pointers and lengths, enums for
//! numbers, [`digits`] and [`package_of`]. It needs no `std` and no heap; the
//! stack that each function takes stands in `include/perk.h` of the repository.
//!
//! The library keeps no state, so any function may be called by several threads
//! at once. It does not wipe the stack: after [`prove`], [`constraints`] and
//! [`quick_look`], secrets and what was worked out of them stay there until
//! something else is written over them.
//!
//! # Elements
//!
//! An element of F is a number 0 to 2047 whose bit i is the coefficient of z^i,
//! with z^11 = z^2 + 1. An element of K is [`WORDS`] = 12 words, coordinate 0
//! first, each an element of F, with Y^12 = Y^3 + 1. Several elements stand one
//! after another. Bits, offsets and the numbers q have d places for each of n
//! rows, row after row, place 0 (the highest digit) first; [`digits`] gives d.
//!
//! # Positions
//!
//! Position i says which entry of x becomes entry i of x': x'(i) = x(position i).
//! Positions solve a key when they are 0 to n - 1, each once, and H times x' is
//! the target y. A key without a target has m zeros as y. Positions below n are
//! columns; n to 2^d - 1 are spare codes, which name no entry of x.
//!
//! A driver that wants to know whether positions are 0 to n - 1, each once, before
//! it fetches correlations asks [`quick_look`], which takes n and the positions
//! alone and tells the index of the first that is no column or came before. Its time
//! tells that index: a driver that must hide the positions does not call it.
//!
//! # Rows that lean
//!
//! The rows of H lean on each other where some coefficients from F, not all zero,
//! combine them to zero: one is a multiple of another, or a sum of multiples of
//! others, or all zero. Such a key asks less of an order than it seems to, and every
//! function that takes a key, the readers included, refuses it with
//! [`Refusal::DependentRows`]. [`rank`], for an office's own use, says how many
//! rows there are that do not lean.
//!
//! # Refusals and verdicts
//!
//! A function refuses with the first [`Refusal`] that applies, in the order in
//! which it lists them, and then every output holds what it held before. A
//! proof that is [`Verdict::Rejected`] is no refusal: it is `Ok`. So is a list of
//! positions with a [`Look::Offender`].
//!
//! `Ok(Verdict::Accepted)` means only that the equation of [`verify`] holds. It
//! does not by itself mean that a signature is valid: the challenge, the weights
//! and the correlations are the caller's, who takes the weights only after the
//! prover has committed to its correlations and t, the challenge only after it
//! has committed to a as well, and checks that the correlations are consistent.
//!
//! # Examples
//!
//! Unless it is said otherwise, key A of the specification, where n is 2, so d is
//! 1 and there are no masks; `k` makes an element of K of one of F, as the first
//! example writes it. `examples/whole_run.rs` of this package goes from a new key
//! at n = 64, with masks, to a check file.
//!
//! To make a proof:
//!
//! ```
//! use perk::{Key, Masks, Prover, WORDS};
//!
//! # fn main() -> Result<(), perk::Refusal> {
//! // an element of F, as an element of K
//! let k = |f: u16| [f, 0, 0, 0, 0, 0, 0, 0, 0, 0, 0, 0];
//!
//! let key = Key { n: 2, m: 1, h: &[2, 1], x: &[1, 2], y: &[0] };
//! let prover = Prover { positions: &[0, 1], u: &[1, 0], v: &[k(1), k(4)].concat() };
//! let masks = Masks { r: &[], s: &[] };
//! let alpha = [k(1), k(2), k(1)].concat();
//! let (mut t, mut a) = ([0; 2], [0; WORDS]);
//! perk::prove(key, prover, masks, &alpha, &mut t, &mut a)?;
//! assert_eq!((t, a), ([1, 1], k(5)));
//! # Ok(())
//! # }
//! ```
//!
//! Positions that do not solve the key are refused, and a spare code before any
//! algebra. For n = 3, where d is 2, that is 3:
//!
//! ```
//! use perk::{Key, Masks, Prover, Refusal, WORDS};
//!
//! // every order of 0, 1 and 2 solves this key, since 1 + 2 + 3 is 0 in F
//! let key = Key { n: 3, m: 1, h: &[1, 1, 1], x: &[1, 2, 3], y: &[0] };
//! let prove = |positions: [u8; 3]| {
//!     let prover = Prover { positions: &positions, u: &[0; 6], v: &[0; WORDS * 6] };
//!     let masks = Masks { r: &[0; WORDS], s: &[0; WORDS] };
//!     perk::prove(key, prover, masks, &[0; WORDS * 4], &mut [0; 6], &mut [0; WORDS * 2])
//! };
//! assert_eq!(prove([2, 0, 1]), Ok(()));
//! assert_eq!(prove([2, 0, 2]), Err(Refusal::TopCoefficient));
//! assert_eq!(prove([2, 0, 3]), Err(Refusal::SpareCode));
//! assert_eq!(prove([2, 3, 4]), Err(Refusal::Position));
//! ```
//!
//! To look at the positions alone, before anything is fetched for them:
//! [`quick_look`] has an example.
//!
//! To test the rows of a key. Here the second row is first 2 times the first, in F,
//! so that the rank is 1 and the row is cleared to zeros; with 7 at its end it no
//! longer leans:
//!
//! ```
//! use perk::{Key, Prover, Refusal, WORDS};
//!
//! # fn main() -> Result<(), perk::Refusal> {
//! let mut matrix = [0; 6];
//! assert_eq!(perk::rank(3, 2, &[1024, 1, 3, 5, 2, 6], &mut matrix)?, 1);
//! assert_eq!(matrix, [1024, 1, 3, 0, 0, 0]);
//! assert_eq!(perk::rank(3, 2, &[1024, 1, 3, 5, 2, 7], &mut matrix)?, 2);
//! assert_eq!(matrix, [1024, 1, 3, 0, 0, 1]);
//!
//! // the office need not ask: no function takes the first key
//! let key = Key { n: 3, m: 2, h: &[1024, 1, 3, 5, 2, 6], x: &[1, 2, 3], y: &[0, 0] };
//! let prover = Prover { positions: &[0, 1, 2], u: &[0; 6], v: &[0; WORDS * 6] };
//! let answer = perk::constraints(key, prover, &mut [0; 6], &mut [0; WORDS * 5 * 3]);
//! assert_eq!(answer, Err(Refusal::DependentRows));
//! # Ok(())
//! # }
//! ```
//!
//! To verify the proof of key A, with the challenge 2 and q = u delta + v:
//!
//! ```
//! use perk::{Key, Verdict};
//!
//! # fn main() -> Result<(), perk::Refusal> {
//! # let k = |f: u16| [f, 0, 0, 0, 0, 0, 0, 0, 0, 0, 0, 0];
//! let key = Key { n: 2, m: 1, h: &[2, 1], x: &[1, 2], y: &[0] };
//! let (t, a) = ([1, 1], k(5));
//! let (q, delta) = ([k(3), k(4)].concat(), k(2));
//! let alpha = [k(1), k(2), k(1)].concat();
//! match perk::verify(key, &t, &q, &delta, &[], &alpha, &a)? {
//!     Verdict::Accepted => println!("accepted"),
//!     Verdict::Rejected => println!("rejected"),
//! }
//! # assert_eq!(perk::verify(key, &t, &q, &delta, &[], &alpha, &a), Ok(Verdict::Accepted));
//! # Ok(())
//! # }
//! ```
//!
//! To write a package, which is then read back as the same fields:
//!
//! ```
//! use perk::{Key, Refusal};
//!
//! # fn main() -> Result<(), perk::Refusal> {
//! # let k = |f: u16| [f, 0, 0, 0, 0, 0, 0, 0, 0, 0, 0, 0];
//! let key = Key { n: 2, m: 1, h: &[2, 1], x: &[1, 2], y: &[0] };
//! let (t, a) = ([1, 1], k(5));
//! let mut out = [0; perk::LARGEST_PACKAGE_BYTES];
//! let length = perk::write_package(key, 7, &t, &a, &mut out)?;
//! let package = &out[..length];
//!
//! let contents = perk::read_package(package)?;
//! assert_eq!((contents.n, contents.m, contents.serial), (2, 1, 7));
//! assert_eq!(perk::field(package, 0x01), [2, 1]); // n, m
//! assert_eq!(perk::field(package, 0x02), [0, 2, 0, 1]); // H
//! assert_eq!(perk::field(package, 0x03), [0, 1, 0, 2]); // x
//! assert_eq!(perk::field(package, 0x04), []); // y is all zero
//! assert_eq!(perk::field(package, 0x05), [0, 7]); // the serial
//! assert_eq!(perk::field(package, 0x06), [1, 1]); // t
//! assert_eq!(perk::field(package, 0x07)[..2], [0, 5]); // a, coordinate 0
//!
//! // it has 56 bytes, and 55 are too few
//! assert_eq!(length, 56);
//! let answer = perk::write_package(key, 7, &t, &a, &mut [0; 55]);
//! assert_eq!(answer, Err(Refusal::ShortOutput));
//! # Ok(())
//! # }
//! ```
//!
//! To read a package:
//!
//! ```
//! # fn main() -> Result<(), perk::Refusal> {
//! let mut package = vec![1, 0, 2, 2, 1]; // 01: n = 2, m = 1
//! package.extend([2, 0, 4, 0, 2, 0, 1]); // 02: H = (2 1)
//! package.extend([3, 0, 4, 0, 1, 0, 2]); // 03: x = (1 2)
//! package.extend([5, 0, 2, 0, 7]); // 05: serial 7
//! package.extend([6, 0, 2, 1, 1]); // 06: t = 1 1
//! package.extend([7, 0, 24, 0, 5]); // 07: a = 5, the other coordinates 0
//! package.extend([0; 22]);
//!
//! let contents = perk::read_package(&package)?;
//! assert_eq!((contents.n, contents.m, contents.serial), (2, 1, 7));
//! assert_eq!(perk::field(&package, 0x06), [1, 1]);
//! # Ok(())
//! # }
//! ```
//!
//! To join packages, or bundles of packages, of one key: [`join_bundles`] has an
//! example, and [`look_before_join`] one that lends an output of exactly the length.
//!
//! For the coefficients of the polynomials, the values, and products in K:
//!
//! ```
//! use perk::{Key, Prover, WORDS};
//!
//! # fn main() -> Result<(), perk::Refusal> {
//! # let k = |f: u16| [f, 0, 0, 0, 0, 0, 0, 0, 0, 0, 0, 0];
//! let key = Key { n: 2, m: 1, h: &[2, 1], x: &[1, 2], y: &[0] };
//! let prover = Prover { positions: &[0, 1], u: &[1, 0], v: &[k(1), k(4)].concat() };
//! // three polynomials of two coefficients: 5, 5 and 10, with tops 0
//! let (mut t, mut polynomials) = ([0; 2], [0; WORDS * 3 * 2]);
//! perk::constraints(key, prover, &mut t, &mut polynomials)?;
//! assert_eq!(polynomials[..], [k(5), k(0), k(5), k(0), k(10), k(0)].concat());
//!
//! let (q, delta) = ([k(3), k(4)].concat(), k(2));
//! let mut values = [0; WORDS * 3];
//! perk::values(key, &t, &q, &delta, &mut values)?;
//! assert_eq!(values[..], [k(5), k(5), k(10)].concat());
//!
//! let mut product = k(0);
//! perk::product(&k(1024), &k(2), &mut product)?;
//! assert_eq!(product, k(5));
//! # Ok(())
//! # }
//! ```
#![no_std]
#![deny(missing_docs)]
#![deny(unsafe_op_in_unsafe_fn)]
#![deny(clippy::undocumented_unsafe_blocks)]

/// Calls a function of libperk.a: with numbers or a key, then the slices that
/// it reads, then those that it writes, each as a pointer and a length.
macro_rules! call {
    ($function:ident ($($number:expr),*) ($($read:expr),*) ($($written:expr),*)) => {
        // SAFETY: each pointer and length are those of one slice, so they name
        // aligned memory that is valid to read and, where the function writes,
        // to write. A slice that is written is an exclusive borrow, so it
        // overlaps no other slice.
        unsafe {
            $crate::c::$function(
                $($number,)*
                $(<[_]>::as_ptr($read), <[_]>::len($read),)*
                $(<[_]>::as_mut_ptr($written), <[_]>::len($written),)*
            )
        }
    };
    ($function:ident $key:ident ($($read:expr),*) ($($written:expr),*)) => {
        call!($function ($key.n, $key.m) ($key.h, $key.x, $key.y, $($read),*) ($($written),*))
    };
}

mod bundle;
#[doc(hidden)]
pub mod c;
mod order;
mod package;
mod refusal;

pub use bundle::{join_bundles, look_before_join, read_bundle, Bundle, Joined};
pub use order::{quick_look, Look};
pub use package::{
    check, field, package_of, read_check_file, read_package, write_package, Contents,
    LARGEST_PACKAGE_BYTES,
};
pub use refusal::{Refusal, Verdict};

/// The words of an element of K.
pub const WORDS: usize = 12;

/// d: the number of binary digits of n - 1, from which the lengths of slices
/// follow. It is 1 for n = 2, 2 for n = 3 and 6 for n = 64, and 0 for the sizes
/// 0 and 1, which every function refuses.
pub const fn digits(n: usize) -> usize {
    (usize::BITS - n.saturating_sub(1).leading_zeros()) as usize
}

/// A key. It is taken when it is well formed, whether or not it is hard to solve:
/// when its sizes, lengths and elements are as stated here, and the rows of H do
/// not lean on each other.
#[derive(Clone, Copy, Debug, PartialEq, Eq)]
pub struct Key<'a> {
    /// The number of positions, 2 to 64.
    pub n: usize,
    /// The number of rows of H, 1 to n - 1.
    pub m: usize,
    /// H: m n words, m rows of n elements of F, row after row. No coefficients
    /// from F, not all zero, combine the rows to zero.
    pub h: &'a [u16],
    /// x: n words, n elements of F.
    pub x: &'a [u16],
    /// y, the target: m words, m elements of F. H times x in the order of the
    /// positions must equal it. A key without a target has m zeros.
    pub y: &'a [u16],
}

/// What the prover holds for a key. All of it is secret, so it is not printed
/// by `Debug`.
#[derive(Clone, Copy)]
pub struct Prover<'a> {
    /// n bytes: position i says which entry of x becomes entry i of x', so x'(i) =
    /// x(position i). [`constraints`] takes all that are below 2^d, [`prove`] those
    /// below n.
    pub positions: &'a [u8],
    /// The mask bits: n d bytes, each 0 or 1.
    pub u: &'a [u8],
    /// The offsets: 12 n d words.
    pub v: &'a [u16],
}

/// The prover's masks, which are secret as well; empty where n is 2. Mask k is
/// s(k) X + r(k).
#[derive(Clone, Copy)]
pub struct Masks<'a> {
    /// r: 12 (d - 1) words.
    pub r: &'a [u16],
    /// s: 12 (d - 1) words.
    pub s: &'a [u16],
}

/// `out` becomes a + b in K. Each of the three has 12 words.
///
/// # Errors
///
/// In this order: [`Refusal::SliceLength`] (all three), [`Refusal::Coordinate`]
/// (`a`, `b`).
pub fn sum(a: &[u16], b: &[u16], out: &mut [u16]) -> Result<(), Refusal> {
    refusal::answer(call!(perk_sum()(a, b)(out)))
}

/// `out` becomes a times b in K. Each of the three has 12 words.
///
/// # Errors
///
/// In this order: [`Refusal::SliceLength`] (all three), [`Refusal::Coordinate`]
/// (`a`, `b`).
pub fn product(a: &[u16], b: &[u16], out: &mut [u16]) -> Result<(), Refusal> {
    refusal::answer(call!(perk_product()(a, b)(out)))
}

/// The rank of H, 0 to m, by elimination, for an office that is handed a key.
///
/// - `h`: H, m n words.
/// - `matrix`: m n words, written: the cleared form of H.
///
/// `matrix` starts as a copy of H, and all its rows are unused. For each column,
/// lowest first, the lowest-numbered unused row whose entry there is not zero is
/// taken, and multiples of it are added to the unused rows below it, so that
/// their entries there become zero. The row that is taken counts as used, and
/// used rows keep their entries. No rows change places. The rank is the number of
/// rows that were taken, and the others end as zeros.
///
/// Proved besides: the rank is below m exactly when some coefficients from F, not
/// all zero, combine the rows of H to zero. Such a key asks less of an
/// order than it seems to. It is no refusal here, but every function that takes a key
/// refuses it with [`Refusal::DependentRows`].
///
/// # Errors
///
/// In this order: [`Refusal::SizeN`], [`Refusal::SizeM`],
/// [`Refusal::SliceLength`] (`h`, `matrix`), [`Refusal::KeyElement`] (`h`). Then
/// `matrix` keeps its content.
pub fn rank(n: usize, m: usize, h: &[u16], matrix: &mut [u16]) -> Result<usize, Refusal> {
    let mut rank = 0;
    let (h, h_len) = (h.as_ptr(), h.len());
    let (matrix, matrix_len) = (matrix.as_mut_ptr(), matrix.len());
    // SAFETY: both pointers stand with the lengths of their slices, so they name
    // aligned memory that is valid to read and, of `matrix`, to write. `matrix` and
    // `rank` are exclusive borrows, so neither overlaps the other or `h`.
    let number = unsafe { c::perk_rank(n, m, h, h_len, matrix, matrix_len, &mut rank) };
    refusal::answer(number).map(|()| rank)
}

/// Writes the masked witness and the n + m constraint polynomials of a key.
///
/// - `t`: n d bytes, written: digit k of position i, highest first, exclusive-or
///   u(i,k).
/// - `polynomials`: 12 (n + m) (d + 1) words, written: polynomial 0 first, d + 1
///   coefficients each, that of X^0 first.
///
/// Spare codes, positions from n to 2^d - 1, are taken.
///
/// Proved of what is written where it returns `Ok`: the top coefficients, those
/// of X^d, of all n + m polynomials are zero exactly when the positions solve
/// the key; and for every challenge delta, where each q(i,k) is
/// u(i,k) delta + v(i,k), value j that [`values`] writes for this key, this `t`,
/// q and delta is polynomial j at delta.
///
/// No jump and no address depends on positions, u or v, other than the decision
/// to refuse; this is tested, not proved. The stack is not wiped.
///
/// # Errors
///
/// In this order: [`Refusal::SizeN`], [`Refusal::SizeM`],
/// [`Refusal::SliceLength`] (all eight slices), [`Refusal::KeyElement`] (`h`,
/// `x`, `y`), [`Refusal::DependentRows`] (`h`), [`Refusal::Bit`] (`u`),
/// [`Refusal::Coordinate`] (`v`), [`Refusal::Position`].
pub fn constraints(
    key: Key<'_>,
    prover: Prover<'_>,
    t: &mut [u8],
    polynomials: &mut [u16],
) -> Result<(), Refusal> {
    let Prover { positions, u, v } = prover;
    refusal::answer(call!(perk_constraints key (positions, u, v) (t, polynomials)))
}

/// Writes the verifier's n + m values of a key.
///
/// - `t`: the masked witness, n d bytes.
/// - `q`: the verifier's numbers, 12 n d words.
/// - `delta`: the challenge, 12 words.
/// - `values`: 12 (n + m) words, written: value 0 first.
///
/// # Errors
///
/// In this order: [`Refusal::SizeN`], [`Refusal::SizeM`],
/// [`Refusal::SliceLength`] (all seven slices), [`Refusal::KeyElement`] (`h`,
/// `x`, `y`), [`Refusal::DependentRows`] (`h`), [`Refusal::Bit`] (`t`),
/// [`Refusal::Coordinate`] (`q`, `delta`).
pub fn values(
    key: Key<'_>,
    t: &[u8],
    q: &[u16],
    delta: &[u16],
    values: &mut [u16],
) -> Result<(), Refusal> {
    refusal::answer(call!(perk_values key (t, q, delta) (values)))
}

/// Writes the masked witness and the proof of a key.
///
/// - `alpha`: the weights, 12 (n + m) words.
/// - `t`: n d bytes, written: as by [`constraints`].
/// - `a`: 12 d words, written: the d coefficients below X^d, that of X^0 first,
///   of the sum of alpha(j) times polynomial j plus the sum over k below d - 1
///   of X^k (s(k) X + r(k)).
///
/// Proved besides: where none of the refusals before
/// [`Refusal::TopCoefficient`] applies, it returns `Ok` exactly when the
/// positions solve the key, and that refusal exactly when they do not; where
/// none of those before [`Refusal::SpareCode`] applies, it returns that refusal
/// exactly when a position is a spare code, and such positions never solve a
/// key. And wherever it returns `Ok`, [`verify`] accepts `t` and `a` with the
/// same key and weights, any challenge delta, each q(i,k) = u(i,k) delta +
/// v(i,k) and each masks(k) = s(k) delta + r(k).
///
/// No jump and no address depends on positions, u, v, r or s, other than the
/// decision to refuse; this is tested, not proved. The stack is not wiped:
/// secrets stay on it.
///
/// # Errors
///
/// In this order: [`Refusal::SizeN`], [`Refusal::SizeM`],
/// [`Refusal::SliceLength`] (all eleven slices), [`Refusal::KeyElement`] (`h`,
/// `x`, `y`), [`Refusal::DependentRows`] (`h`), [`Refusal::Bit`] (`u`),
/// [`Refusal::Coordinate`] (`v`, `r`, `s`, `alpha`), [`Refusal::Position`],
/// wherever among spare codes such a position stands, [`Refusal::SpareCode`], and
/// then [`Refusal::TopCoefficient`], found before anything is written, whatever
/// the weights are.
pub fn prove(
    key: Key<'_>,
    prover: Prover<'_>,
    masks: Masks<'_>,
    alpha: &[u16],
    t: &mut [u8],
    a: &mut [u16],
) -> Result<(), Refusal> {
    let Prover { positions, u, v } = prover;
    let Masks { r, s } = masks;
    refusal::answer(call!(perk_prove key (positions, u, v, r, s, alpha) (t, a)))
}

/// Whether a proof is accepted: where no refusal applies,
/// [`Verdict::Accepted`] exactly when `a` at the challenge equals the sum of
/// alpha(j) times value j plus the sum over k below d - 1 of delta^k masks(k),
/// and [`Verdict::Rejected`] exactly when it does not. The power 0 is one, for
/// delta zero too.
///
/// - `t`: the masked witness, n d bytes.
/// - `q`: the verifier's numbers, 12 n d words.
/// - `delta`: the challenge, 12 words.
/// - `masks`: the mask numbers, 12 (d - 1) words.
/// - `alpha`: the weights, 12 (n + m) words.
/// - `a`: the proof, 12 d words.
///
/// Accepted means only that this equation holds. Zero weights, a zero challenge
/// or a `t` that is no order may be accepted; choosing the weights and the
/// challenge after the prover's commitments, and checking the correlations, is
/// the caller's part.
///
/// # Errors
///
/// In this order: [`Refusal::SizeN`], [`Refusal::SizeM`],
/// [`Refusal::SliceLength`] (all nine slices), [`Refusal::KeyElement`] (`h`,
/// `x`, `y`), [`Refusal::DependentRows`] (`h`), [`Refusal::Bit`] (`t`),
/// [`Refusal::Coordinate`] (`q`, `delta`, `masks`, `alpha`, `a`).
pub fn verify(
    key: Key<'_>,
    t: &[u8],
    q: &[u16],
    delta: &[u16],
    masks: &[u16],
    alpha: &[u16],
    a: &[u16],
) -> Result<Verdict, Refusal> {
    refusal::verdict(call!(perk_verify key (t, q, delta, masks, alpha, a) ()))
}
