//! The comparison finds wrong programs and altered vectors: tests of its groups, with functions in the place of the
//! library.

mod codes;
mod common;
mod faults;
mod groups;
mod join_bundles;
mod joining;
mod largest;
mod leaning;
mod look_before_join;
mod program;
mod quick_look;
mod rank;
mod read_bundle;
mod vectors;
mod write;
