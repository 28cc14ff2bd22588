//! Packages that are read, written again from their fields.

use super::call::{called, difference, After};
use super::Run;
use crate::case::{Call, Case, Entry};
use crate::entries::files::BYTES;
use crate::entries::package_field::LENGTH;
use crate::entries::write::{of_package, OUT, WRITE};
use reference::samples::Generator;
use std::collections::HashSet;
use std::hash::{DefaultHasher, Hash, Hasher};

/// What is done with the packages.
pub const NAME: &str = "packages written again";

/// The rest of an output after a package has fewer bytes than this.
const REST: usize = 4;

/// The packages of one entry.
pub struct Packages {
    /// For the guards, and the outputs before a call.
    generator: Generator,
    /// The files that came before, by their hashes.
    files: HashSet<u64>,
    /// How many packages were written again.
    written: usize,
}

impl Packages {
    /// None yet.
    pub fn new(generator: Generator) -> Packages {
        Packages {
            generator,
            files: HashSet::new(),
            written: 0,
        }
    }

    /// What differs when the package of a call of an entry with this answer is
    /// written again: the bytes and the length are those that it has, and the
    /// rest of the output stays. A file that came before is left out.
    pub fn again(
        &mut self,
        writer: Call,
        entry: &Entry,
        case: &Case,
        answer: u32,
    ) -> Option<String> {
        let find = entry.package?;
        let mut hasher = DefaultHasher::new();
        case.bytes(BYTES).hash(&mut hasher);
        if !self.files.insert(hasher.finish()) {
            return None;
        }
        let package = find(&case.taken, answer)?;
        self.written += 1;
        let rest = self.generator.below(REST);
        let case = of_package(&package, rest, &mut self.generator);
        let found = called(writer, &case);
        let mut expected = After {
            answer: 0,
            taken: case.taken.clone(),
            outputs: case.outputs.clone(),
        };
        expected.outputs[OUT].bytes_mut()[..package.len()].copy_from_slice(&package);
        *expected.outputs[LENGTH].size_mut() = package.len();
        let difference = difference(&WRITE, &case, &found, &expected);
        difference.map(|text| format!("the package written again: {text}"))
    }

    /// How many packages were written again, of which there must be one.
    pub fn summary(&self, entry: &Entry) -> (String, Vec<String>) {
        let text = format!("{}, all groups: {} {NAME}", entry.name, self.written);
        let none = (self.written == 0).then(|| "no package".to_string());
        (text, none.into_iter().collect())
    }
}

impl Run {
    /// The run with another function in the place of the library where packages
    /// are written again.
    pub fn writing_by(self, writer: Call) -> Run {
        Run { writer, ..self }
    }
}
