//! The entries that are compared.
//!
//! - [`codes`], [`keyed`], [`faults`], [`leaning`], [`lengths`], [`rounds`] and
//!   [`witnesses`]: what the entries that take a key have in common;
//! - [`files`]: what the entries that take the bytes of a file have in common;
//! - [`bundles`]: the entries that take bundles;
//! - the others: one entry, or a few of one form.

use crate::case::{Entry, Stated};
use reference::large_field::COORDINATES;
use reference::Refusal;

pub mod bundles;
pub mod check;
pub mod codes;
pub mod completeness;
pub mod constraints;
pub mod demand_3;
pub mod faults;
pub mod field;
pub mod files;
pub mod keyed;
pub mod leaning;
pub mod lengths;
pub mod package_field;
pub mod prove;
pub mod quick_look;
pub mod rank;
pub mod read_back;
pub mod readers;
pub mod rounds;
pub mod values;
pub mod verify;
pub mod witnesses;
pub mod write;

/// All entries, in the order of the specification, then rank, write package, those
/// of bundles, quick look, the check of perkcheck, demand 3, completeness, quick look
/// beside constraints, and packages and bundles that are read back. A static is
/// compiled with this crate alone, a constant with each that uses it.
pub static ALL: &[Entry] = &[
    field::SUM,
    field::PRODUCT,
    constraints::CONSTRAINTS,
    prove::PROVE,
    values::VALUES,
    verify::VERIFY,
    readers::READ_PACKAGE,
    readers::READ_CHECK_FILE,
    package_field::FIELD,
    rank::RANK,
    write::WRITE,
    bundles::read::READ_BUNDLE,
    bundles::join::JOIN_BUNDLES,
    bundles::look::LOOK_BEFORE_JOIN,
    quick_look::QUICK_LOOK,
    check::CHECK,
    demand_3::BOTH_FACTS,
    completeness::COMPLETENESS,
    quick_look::tops::BESIDE_TOPS,
    read_back::READ_BACK,
    bundles::package::PACKAGE_AS_BUNDLE,
    bundles::refused::REFUSED_BUNDLES,
    bundles::look::LOOK_AT_REFUSED,
    bundles::look::LENT_AS_TOLD,
    bundles::read_back::READ_BACK,
];

/// The answer without a refusal; of verify and check, Accepted.
const DONE: u32 = 0;

/// 7: "a position is 2^d or more".
const TOO_LARGE: u32 = 7;

/// 8: "some top coefficient of the n + m polynomials isn't zero".
const TOP: u32 = 8;

/// 13: "when the output slice is shorter than the package", or than the joined
/// bundle.
const SHORT: u32 = 13;

/// 15: "when some coefficients from F, not all zero, combine the rows of H to
/// zero".
const DEPENDENT: u32 = 15;

/// 16: "when prove is lent a spare code and none is too large".
const SPARE: u32 = 16;

/// 21: the key fields of two bundles differ.
const OTHER_KEY: u32 = 21;

/// 22: two groups with one serial differ in field 06 or 07.
const GROUPS_DIFFER: u32 = 22;

/// The answer Rejected of verify and check.
const REJECTED: u32 = 255;

/// The answer of quick look where some position is no column or came before.
const OFFENDER: u32 = 255;

/// Added to a refusal where one entry stands for calls of several, of which no
/// case here is refused.
const REFUSED: u32 = 100;

/// The number of an answer of the reference.
fn number(answer: Result<(), Refusal>) -> u32 {
    answer.map_or_else(Refusal::number, |()| DONE)
}

/// Names as texts.
fn texts(names: &[&str]) -> Vec<String> {
    names.iter().map(ToString::to_string).collect()
}

/// An element of an output that the specification states.
fn stated(output: &'static str, index: usize, value: impl Into<u64>) -> Stated {
    let value = value.into();
    Stated {
        output,
        index,
        value,
    }
}

/// An element of K of an output: this word in coordinate 0 and 0 in the others.
/// The index counts elements of K.
fn stated_element(output: &'static str, index: usize, word: u16) -> Vec<Stated> {
    (0..COORDINATES)
        .map(|i| {
            let value = if i == 0 { word } else { 0 };
            stated(output, COORDINATES * index + i, value)
        })
        .collect()
}
