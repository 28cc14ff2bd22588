//! The entries that take bundles.
//!
//! - [`parts`]: a bundle as its key fields and its groups, and two bundles with
//!   what they are together;
//! - [`read`]: the entry read bundle, [`read_groups`] its groups of cases;
//! - [`package`]: packages, as bundles of one group;
//! - [`join`]: the entry join bundles, [`join_groups`] its groups of cases;
//! - [`refused`]: the same entry with bundles that are refused;
//! - [`look`]: the entry look before join, [`look_groups`] its groups of cases;
//! - [`read_back`]: what join bundles writes, read back;
//! - `damage`: other changes of bundles;
//! - [`by_hand`]: bundles whose bytes are written out;
//! - `table`: the tables of the cases.

pub mod by_hand;
mod damage;
pub mod join;
pub mod join_groups;
pub mod look;
pub mod look_groups;
pub mod package;
pub mod parts;
pub mod read;
pub mod read_back;
pub mod read_groups;
pub mod refused;
mod table;

use reference::Refusal;

/// The number of groups, as an output.
pub const GROUPS: &str = "groups";

/// 20: a group's serial is not above the one before it.
pub const SERIAL_ORDER: u32 = 20;

/// The refusals of one bundle.
pub const REFUSALS: &[Refusal] = &[
    Refusal::BytesMissing,
    Refusal::Tag,
    Refusal::FieldLength,
    Refusal::SizeN,
    Refusal::SizeM,
    Refusal::KeyElement,
    Refusal::ZeroTarget,
    Refusal::DependentRows,
    Refusal::LongSerial,
    Refusal::SerialOrder,
    Refusal::Bit,
    Refusal::Coordinate,
];
