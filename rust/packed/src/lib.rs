//! The entries in Rust by the algorithms of the library, with the same packed
//! product in K. They are much quicker than the reference, with which `bench
//! agree` compares them; the comparison calls them where the reference would
//! take too long, and `bench` times them.
//!
//! Each answers 0 when it is done, else the number of the refusal; verify
//! answers 255 when it rejects.
#![forbid(unsafe_code)]
#![deny(missing_docs)]

mod checks;
mod element;
mod elimination;
mod entries;
mod fold;
mod rows;

pub use entries::{constraints, product, prove, rank, sum, values, verify};
