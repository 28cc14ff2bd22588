//! Compares the entries of the static library libperk.a with the reference
//! implementation, on seeded inputs, and with the test vectors.
//!
//! - [`library`]: the C functions of the library, as functions on slices;
//! - [`lent`]: lent slices with guard words on both sides;
//! - [`named`]: values by their names;
//! - [`slices`]: the slices of the entries that take a key, by their names;
//! - [`kinds`]: what a slice holds;
//! - [`case`]: an entry, its groups of cases, and one case;
//! - [`run`]: the calls, the comparisons and the report;
//! - [`entries`]: the entries, one file for each or for a few of one form, and
//!   what the entries that take a key, or the bytes of a file, have in common;
//! - [`program`]: the program perkcheck, run with files on a pipe;
//! - [`vectors`]: the files of `vectors/`, read back, as what is expected.
//!
//! A new entry needs its C function in [`library`], a file in [`entries`], and a
//! place in the list [`entries::ALL`]. A new slice of the key has its place in
//! [`slices`] and in [`case::Taken::key`].
#![deny(missing_docs)]
#![deny(unsafe_code)]

pub mod case;
pub mod entries;
pub mod kinds;
pub mod lent;
pub mod library;
pub mod named;
pub mod program;
pub mod run;
pub mod slices;
pub mod vectors;
