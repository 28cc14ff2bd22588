//! The calls, the comparisons and the report.
//!
//! - [`call`]: one call, and what differs after it;
//! - [`tally`]: the answers that were reached;
//! - `again`: packages that are read, written again;
//! - `others`: the program perkcheck and the test vectors.

mod again;
pub mod call;
mod others;
pub mod tally;

use crate::case::{Call, Case, Entry, Expected, Group};
use crate::entries::write::WRITE;
use again::Packages;
use call::{alter, called, description, difference, expected_fault};
use reference::samples::{independent, Generator};
use reference::Refusal;
use std::collections::HashMap;
use std::hash::{DefaultHasher, Hash, Hasher};
use tally::{answer_faults, answers, table_lines, Cells, OfSizes, Tally};

/// Up to this n each H is judged.
const ALL_JUDGED: usize = 32;

/// A fault of a case.
const DEPENDENT: &str = "rows of H depend on each other";

/// A fault of an answer: 15 where rows of H do not depend on each other, or
/// another where they do.
const NOT_BY_ROWS: &str = "15 does not say whether rows of H depend on each other";

/// A run over all entries.
pub struct Run {
    seed: u64,
    /// The word to alter in one expected output of each entry, counted through
    /// all outputs and from the first again after the last; an entry without
    /// outputs has its answer altered.
    spoil: Option<usize>,
    /// Words that were altered.
    altered: usize,
    /// Altered words that were found.
    found: usize,
    /// Entries without a word to alter.
    unaltered: usize,
    /// Calls of the library.
    calls: usize,
    /// Calls of the library that ended without a refusal.
    done: usize,
    /// The matrices H, by their hashes, whose rows were judged, and whether they
    /// depend on each other: many cases have the same H.
    judged: HashMap<u64, bool>,
    /// Writes packages again.
    writer: Call,
    passed: usize,
    failed: usize,
}

/// The generator of one group: it depends on the seed and the names alone, so
/// that a new group changes no other.
fn generator_of(seed: u64, entry: &str, group: &str) -> Generator {
    // FNV-1a over both names
    let mut hash: u64 = 0xcbf2_9ce4_8422_2325;
    for byte in entry.bytes().chain([0]).chain(group.bytes()) {
        hash = (hash ^ u64::from(byte)).wrapping_mul(0x0000_0100_0000_01b3);
    }
    Generator::new(Generator::new(seed).number() ^ hash)
}

/// An entry under way: the word that is still to be altered, the cells that were
/// reached, and the packages that were written again.
struct Progress<'a> {
    entry: &'a Entry,
    spoil: Option<usize>,
    cells: Cells,
    packages: Packages,
}

impl Progress<'_> {
    /// The beginning of an entry in a run.
    fn new<'a>(run: &Run, entry: &'a Entry) -> Progress<'a> {
        Progress {
            entry,
            spoil: run.spoil,
            cells: Cells::new(),
            packages: Packages::new(generator_of(run.seed, entry.name, again::NAME)),
        }
    }
}

impl Run {
    /// A run with this seed. When `spoil` is N, word N of one expected output
    /// of each entry is altered, or one expected answer of an entry without
    /// outputs, and an entry ends with the group where this is done. Words are
    /// counted through all outputs, and from the first again after the last.
    pub fn new(seed: u64, spoil: Option<usize>) -> Run {
        Run {
            seed,
            spoil,
            altered: 0,
            found: 0,
            unaltered: 0,
            calls: 0,
            done: 0,
            judged: HashMap::new(),
            writer: WRITE.library,
            passed: 0,
            failed: 0,
        }
    }

    /// Whether rows of H depend on each other, by another method than that of the
    /// entries. Each H is judged once, and of the large ones, which take long,
    /// about one in four; none where it isn't judged.
    fn dependent(&mut self, n: usize, h: &[u16]) -> Option<bool> {
        let mut hasher = DefaultHasher::new();
        (n, h).hash(&mut hasher);
        let hash = hasher.finish();
        let in_turn = n <= ALL_JUDGED || hash.is_multiple_of(4);
        let judged = self.judged.entry(hash);
        in_turn.then(|| *judged.or_insert_with(|| !independent(h, n)))
    }

    /// What is wrong with the rows of H of a case with this answer. A key that no
    /// refusal of its sizes, slices and elements applies to must have rows that do
    /// not depend on each other, in all groups but those that say otherwise; and
    /// where an entry can answer 15, it does so exactly when they do.
    fn fault_of_rows(
        &mut self,
        entry: &Entry,
        group: &Group,
        case: &Case,
        answer: u32,
    ) -> Option<String> {
        let (n, h) = entry.rows?(&case.taken, answer)?;
        let dependent = self.dependent(n, &h)?;
        if dependent && !group.any_rows {
            return Some(DEPENDENT.to_string());
        }
        let tells = entry.refusals.contains(&Refusal::DependentRows);
        let told = answer == Refusal::DependentRows.number();
        (tells && told != dependent).then(|| NOT_BY_ROWS.to_string())
    }

    /// Calls the library and the expected side with one case, and alters a word
    /// of what is expected if one is still to be altered. Gives the library's
    /// answer, and what differs.
    fn compare(
        &mut self,
        progress: &mut Progress,
        group: &Group,
        case: &Case,
    ) -> (u32, Option<String>) {
        let entry = progress.entry;
        let expected = match group.expected {
            Expected::Reference => entry.reference,
            Expected::Packed => entry.packed.expect("an entry of packed"),
        };
        let found = called(entry.library, case);
        let mut expected = called(expected, case);
        let done = entry.done.contains(&expected.answer);
        self.calls += 1;
        self.done += usize::from(done);
        if let Some(table) = &entry.table {
            let cell = (table.cell)(expected.answer, case);
            *progress.cells.entry(cell).or_default() += 1;
        }

        let fault = expected_fault(case, &expected)
            .or_else(|| self.fault_of_rows(entry, group, case, expected.answer))
            .or_else(|| {
                progress
                    .packages
                    .again(self.writer, entry, case, expected.answer)
            });
        if fault.is_some() {
            return (found.answer, fault);
        }
        let spoiled = done && progress.spoil.is_some_and(|n| alter(&mut expected, n));
        let mut difference = difference(entry, case, &found, &expected);
        if spoiled {
            progress.spoil = None;
            self.altered += 1;
            self.found += usize::from(difference.is_some());
            difference = difference.map(|text| text + " (altered by --spoil)");
        }
        (found.answer, difference)
    }

    /// Counts a line of the report, and prints it.
    fn report(&mut self, text: &str, faults: &[String]) {
        if faults.is_empty() {
            self.passed += 1;
            println!("{text}");
        } else {
            self.failed += 1;
            println!("{text}; FAILED: {}", faults.join("; "));
        }
    }

    /// Runs one group and gives its tally. Each answer for which the entry
    /// states a least number must be reached so often.
    fn group(&mut self, progress: &mut Progress, group: &Group) -> Tally {
        let entry = progress.entry;
        let mut tally = Tally::new();
        let mut of_sizes = OfSizes::default();
        let mut inputs = 0;
        let mut differences = 0;
        let mut generator = generator_of(self.seed, entry.name, group.name);
        (group.cases)(&mut generator, &mut |case| {
            let (answer, difference) = self.compare(progress, group, &case);
            *tally.entry(answer).or_default() += 1;
            of_sizes.count(&case, answer);
            if let Some(difference) = difference {
                if differences == 0 {
                    println!(
                        "seed {}, {}, {}, case {inputs}: {difference}",
                        self.seed, entry.name, group.name
                    );
                    print!("{}", description(&case));
                }
                differences += 1;
            }
            inputs += 1;
        });
        let mut faults = Vec::new();
        if inputs == 0 {
            faults.push("no case".to_string());
        }
        if differences > 0 {
            faults.push(format!("{differences} differences"));
        }
        for least in (entry.least)() {
            if least.group == group.name {
                faults.extend(of_sizes.faults(&least));
            }
        }
        let text = format!(
            "{}, {}: {inputs} inputs, answers {}",
            entry.name,
            group.name,
            answers(&tally)
        );
        self.report(&text, &faults);
        tally
    }

    /// Runs the groups of one entry. Each answer of the entry must be reached,
    /// and each cell of its table.
    pub fn entry(&mut self, entry: &Entry) {
        let refusals = entry.refusals.iter().map(|refusal| refusal.number());
        let all = entry.done.iter().copied().chain(refusals);
        let mut total: Tally = all.map(|answer| (answer, 0)).collect();
        let mut progress = Progress::new(self, entry);
        let groups = (entry.groups)();
        for group in &groups {
            for (answer, count) in self.group(&mut progress, group) {
                *total.entry(answer).or_default() += count;
            }
            if progress.spoil != self.spoil {
                return;
            }
        }
        self.unaltered += usize::from(progress.spoil.is_some());
        let mut faults = answer_faults(entry, &total);
        for least in (entry.least)() {
            if !groups.iter().any(|group| group.name == least.group) {
                faults.push(format!("no group {}", least.group));
            }
        }
        let inputs: usize = total.values().sum();
        let text = format!(
            "{}, all groups: {inputs} inputs, answers {}",
            entry.name,
            answers(&total)
        );
        if let Some(table) = &entry.table {
            let (lines, missed) = table_lines(entry.name, table, &progress.cells);
            lines.iter().for_each(|line| println!("{line}"));
            faults.extend(missed);
        }
        self.report(&text, &faults);
        if entry.package.is_some() {
            let (text, faults) = progress.packages.summary(entry);
            self.report(&text, &faults);
        }
    }

    /// Whether a group finds a difference of an entry: the cases after the first
    /// that differs are not compared.
    pub fn finds(&mut self, entry: &Entry, group: &Group) -> bool {
        let mut progress = Progress::new(self, entry);
        let mut found = false;
        let mut generator = generator_of(self.seed, entry.name, group.name);
        (group.cases)(&mut generator, &mut |case| {
            found = found || self.compare(&mut progress, group, &case).1.is_some();
        });
        found
    }

    /// How many words were altered, how many of them were found, and how many
    /// entries had no such word.
    pub fn altered_words(&self) -> [usize; 3] {
        [self.altered, self.found, self.unaltered]
    }

    /// Ends the run: how many altered words were found, the share of calls
    /// without a refusal, then the last line. Whether all passed.
    pub fn finish(mut self) -> bool {
        if self.spoil.is_some() {
            println!("{} of {} altered words found", self.found, self.altered);
            if self.unaltered > 0 {
                println!("{} entries without such a word", self.unaltered);
            }
        }
        let text = format!("{} of {} calls without a refusal", self.done, self.calls);
        let mut faults = Vec::new();
        if 3 * self.done < self.calls || self.calls == 0 {
            faults.push("fewer than a third".to_string());
        }
        self.report(&text, &faults);
        println!("{} passed, {} failed", self.passed, self.failed);
        self.failed == 0 && self.passed > 0
    }
}
