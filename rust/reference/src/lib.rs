//! A separate implementation of the specification (`docs/specification.md` of
//! the repository), the PERK permutation proof in digit form, made to be
//! compared with.
//!
//! Each function names the sentence of the specification that it follows;
//! quotes are of the specification's document 01, and about the second level,
//! serials of four bytes, the target y, spare codes, the rank of H, the quick look
//! at an order, bundles and the writer of packages of its document 02. The methods
//! are the plainest ones: long products and long divisions for both fields, general
//! polynomials over K, sums as they are written, readers that cut the bytes into
//! fields first and judge the fields afterwards, a join of bundles that sorts the
//! groups of both, and writers that join all fields first and look at the room for
//! them afterwards; the look before the join makes the joined bundle too, and counts
//! its bytes; the quick look finds all offenders, and takes the first. Nothing here
//! is meant to be quick or to run in constant time.
//!
//! - [`level`]: what the two levels fix of the fields;
//! - [`small_field`] and [`large_field`]: the fields F and K of a level;
//! - [`polynomial`]: polynomials over K;
//! - [`logarithms`]: products and quotients in F by tables;
//! - [`elimination`]: the rank of H, and the form that it is cleared to;
//! - [`key`]: sizes, key, digits and the conversion of lent slices;
//! - [`constraint`]: the n + m polynomials and the verifier's n + m values;
//! - [`check_zero`]: the proof a and the verifier's equation;
//! - [`entries`]: the public entries with their refusals;
//! - [`package`]: the readers, and the bytes of packages, check files and bundles;
//! - [`perkcheck`]: the line that the program `perkcheck` prints;
//! - [`samples`] and [`vectors`]: seeded test data and the files of `vectors/`;
//! - [`examples`]: what the program `examples_run` prints;
//! - [`field_cases`]: what the program `field_cases` reads and prints.
#![forbid(unsafe_code)]
#![deny(missing_docs)]

pub mod check_zero;
pub mod constraint;
pub mod elimination;
pub mod entries;
pub mod examples;
pub mod field_cases;
pub mod key;
pub mod large_field;
pub mod level;
pub mod logarithms;
pub mod package;
pub mod perkcheck;
pub mod polynomial;
pub mod refusal;
pub mod samples;
pub mod small_field;
pub mod vectors;

pub use entries::{
    constraints, join_bundles, look_before_join, product, prove, quick_look, rank, sum, values,
    verify, write_package, Verdict,
};
pub use key::Key;
pub use package::{
    field, field_range, judge_bundle, judge_check_file, judge_package, read_bundle,
    read_check_file, read_package, Bundle, BundleContents, Contents, Group, Joined, Place, Refused,
};
pub use perkcheck::{check, perkcheck_line};
pub use refusal::Refusal;
