//! The program perkcheck and the test vectors.

use super::tally::answers;
use super::{generator_of, Run, DEPENDENT, NOT_BY_ROWS};
use crate::case::Entry;
use crate::entries::files::rows_of_bytes;
use crate::program;
use crate::vectors::{self, Outcome, Setting};
use reference::Refusal;
use std::collections::BTreeMap;
use std::path::Path;

/// How many files reached each kind of line.
type Lines = BTreeMap<String, usize>;

impl Run {
    /// Compares the lines of the program perkcheck with those of the reference.
    /// Each kind of line must be reached. With `spoil` one expected line is
    /// altered, and the program ends with the group of that file.
    pub fn program(&mut self, path: &Path) {
        let lines = program::lines().into_iter();
        let mut total: Lines = lines.map(|line| (line, 0)).collect();
        for group in program::GROUPS {
            for (line, count) in self.program_group(path, group) {
                *total.entry(line).or_default() += count;
            }
            if self.spoil.is_some() {
                return;
            }
        }
        let missed = total.iter().filter(|&(_, &count)| count == 0);
        let faults: Vec<String> = missed
            .map(|(line, _)| format!("no file reached {line}"))
            .collect();
        let files: usize = total.values().sum();
        let text = format!(
            "{}, all groups: {files} files, lines {}",
            program::NAME,
            answers(&total)
        );
        self.report(&text, &faults);
    }

    /// Runs the program with the files of one group; the lines that were
    /// reached. With `spoil` the first expected line is altered.
    fn program_group(&mut self, path: &Path, group: &program::Group) -> Lines {
        let mut tally = Lines::new();
        let mut differences = 0;
        let mut dependent = 0;
        let mut not_by_rows = 0;
        let mut files = 0;
        let mut generator = generator_of(self.seed, program::NAME, group.name);
        (group.files)(&mut generator, &mut |generator, file| {
            let mut expected = reference::perkcheck_line(&file.bytes);
            *tally.entry(program::kind(&expected)).or_default() += 1;
            let rows = rows_of_bytes(&file.bytes);
            if let Some(found) = rows.and_then(|(n, h)| self.dependent(n, &h)) {
                dependent += usize::from(found && !group.any_rows);
                let told = program::kind(&expected) == program::refused(Refusal::DependentRows);
                not_by_rows += usize::from(told != found);
            }
            let spoiled = self.spoil.is_some() && files == 0;
            if spoiled {
                expected.insert(0, ' ');
                self.altered += 1;
            }
            let found = program::run(path, &file, generator);
            if found.as_ref() != Ok(&expected) {
                if differences == 0 {
                    println!(
                        "seed {}, {}, {}, file {files} ({} bytes): {found:?}, \
                         expected {expected:?}",
                        self.seed,
                        program::NAME,
                        group.name,
                        file.bytes.len()
                    );
                }
                differences += 1;
                if spoiled {
                    println!("(altered by --spoil)");
                    self.found += 1;
                }
            }
            files += 1;
        });
        let mut faults = Vec::new();
        if differences > 0 || files == 0 {
            faults.push(format!("{differences} differences"));
        }
        if dependent > 0 {
            faults.push(format!("{dependent} times {DEPENDENT}"));
        }
        if not_by_rows > 0 {
            faults.push(format!("{not_by_rows} times {NOT_BY_ROWS}"));
        }
        let text = format!(
            "{}, {}: {files} files, lines {}",
            program::NAME,
            group.name,
            answers(&tally)
        );
        self.report(&text, &faults);
        tally
    }

    /// Compares the library's functions of these entries, and the lines of the
    /// program where it is given, with the files of the directory. With `spoil`
    /// one expected word is altered, and the group ends with that file.
    pub fn vectors(&mut self, directory: &Path, entries: &[Entry], program: Option<&Path>) {
        let mut total = Outcome::default();
        let mut files = 0;
        let setting = Setting {
            entries,
            program,
            spoil: self.spoil,
        };
        for name in vectors::names() {
            let mut generator = generator_of(self.seed, vectors::NAME, &name);
            let outcome = match std::fs::read(directory.join(&name)) {
                Ok(content) => vectors::compare(&setting, &name, &content, &mut generator),
                Err(error) => Outcome {
                    difference: Some(format!("cannot be read: {error}")),
                    ..Outcome::default()
                },
            };
            let text = format!("{}, {name}: {}", vectors::NAME, outcome.counts());
            self.report(&text, outcome.difference.as_slice());
            files += 1;
            total.add(&outcome);
            if outcome.altered {
                break;
            }
        }
        self.calls += total.calls;
        self.done += total.done;
        if self.spoil.is_some() {
            self.altered += usize::from(total.altered);
            self.found += usize::from(total.found);
            self.unaltered += usize::from(!total.altered);
            return;
        }
        let faults = match vectors::unknown_files(directory) {
            Ok(unknown) => unknown
                .iter()
                .map(|name| format!("{name} is not compared"))
                .collect(),
            Err(error) => vec![error],
        };
        let text = format!(
            "{}, all groups: {files} files, {}",
            vectors::NAME,
            total.counts()
        );
        self.report(&text, &faults);
    }
}
