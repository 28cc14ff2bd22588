//! The test vectors: the files of `vectors/` are read back, and the library
//! must give every result that they state. What is expected comes from the text
//! of the files alone.
//!
//! - [`list`]: words with their places in a file;
//! - [`text`]: reads a text file;
//! - `calls`: the calls, and what is compared after each;
//! - `files`: the check files;
//! - `ranks`: the file of ranks, and keys whose rows lean on each other;
//! - `writes`: the file of packages, and packages that are written again;
//! - `bundles`: the file of bundles, and packages as bundles;
//! - `quick_looks`: the file of quick looks, and the positions of text files.

mod bundles;
mod calls;
mod files;
pub mod list;
mod quick_looks;
mod ranks;
pub mod text;
mod writes;

use crate::case::Entry;
use crate::program;
use calls::Comparison;
use list::{Line, List};
use reference::samples::Generator;
use std::path::{Path, PathBuf};

/// The name of the group.
pub const NAME: &str = "vectors";

/// The sizes n and m that have a text file.
const SIZES: [(usize, usize); 7] = [(2, 1), (3, 1), (5, 2), (8, 3), (17, 8), (33, 16), (64, 27)];

/// The check file of key A.
const KEY_A: &str = "key_a.check";

/// Its line.
const KEY_A_LINE: [&str; 7] = ["serial", "7", "n", "2", "m", "1", "accepted"];

/// What the program `examples_run` prints; it is compared where that program
/// runs.
const EXAMPLES_RUN: &str = "examples_run.txt";

/// The directory of the vectors in the repository.
pub fn directory() -> PathBuf {
    Path::new(env!("CARGO_MANIFEST_DIR")).join("../../vectors")
}

/// The name of the text file of these sizes.
fn text_name(n: usize, m: usize) -> String {
    format!("n{n:02}_m{m:02}.txt")
}

/// The files that are compared: the text files, that of ranks, that of packages,
/// that of bundles, that of quick looks, and the check file of key A.
pub fn names() -> Vec<String> {
    let texts = SIZES.iter().map(|&(n, m)| text_name(n, m));
    let others = [
        ranks::NAME,
        writes::NAME,
        bundles::NAME,
        quick_looks::NAME,
        KEY_A,
    ];
    texts.chain(others.map(str::to_string)).collect()
}

/// Files in the directory that are not compared.
pub fn unknown_files(directory: &Path) -> Result<Vec<String>, String> {
    let known = names();
    let mut unknown = Vec::new();
    let list = directory.read_dir().map_err(|error| error.to_string())?;
    for entry in list {
        let name = entry.map_err(|error| error.to_string())?.file_name();
        let name = name.to_string_lossy().into_owned();
        if name != EXAMPLES_RUN && !known.contains(&name) {
            unknown.push(name);
        }
    }
    Ok(unknown)
}

/// What was done for one file.
#[derive(Clone, Debug, Default)]
pub struct Outcome {
    /// Words of outputs that were compared with words of the file.
    pub words: usize,
    /// Answers that were compared with the file.
    pub answers: usize,
    /// Lines of the program that were compared with the file.
    pub lines: usize,
    /// Calls of the library.
    pub calls: usize,
    /// Calls of the library that ended without a refusal.
    pub done: usize,
    /// Whether a word was altered.
    pub altered: bool,
    /// Whether the altered word was found.
    pub found: bool,
    /// The first difference.
    pub difference: Option<String>,
}

impl Outcome {
    /// Adds the counts of another file.
    pub fn add(&mut self, other: &Outcome) {
        self.words += other.words;
        self.answers += other.answers;
        self.lines += other.lines;
        self.calls += other.calls;
        self.done += other.done;
        self.altered |= other.altered;
        self.found |= other.found;
    }

    /// The counts as text.
    pub fn counts(&self) -> String {
        format!(
            "{} words, {} answers and {} lines of {} compared, {} calls",
            self.words,
            self.answers,
            self.lines,
            program::NAME,
            self.calls
        )
    }
}

/// What is called, and which word is altered.
pub struct Setting<'a> {
    /// The entries, of which only the library's functions are called.
    pub entries: &'a [Entry],
    /// The program perkcheck.
    pub program: Option<&'a Path>,
    /// The word to alter in the expected outputs of one call.
    pub spoil: Option<usize>,
}

/// Compares the library with one file, up to the first difference.
pub fn compare(
    setting: &Setting,
    name: &str,
    content: &[u8],
    generator: &mut Generator,
) -> Outcome {
    let mut comparison = Comparison {
        setting,
        generator,
        outcome: Outcome::default(),
    };
    let mut result = match name {
        KEY_A => comparison.key_a(content),
        ranks::NAME => comparison.ranks(content),
        writes::NAME => comparison.writes(content),
        bundles::NAME => comparison.bundles(content),
        quick_looks::NAME => comparison.quick_looks(content),
        _ => comparison.text_file(name, content),
    };
    let mut outcome = comparison.outcome;
    if result.is_ok() && outcome.words == 0 {
        result = Err("no word was compared".to_string());
    }
    outcome.difference = result.err();
    outcome
}

impl Comparison<'_> {
    /// A text file.
    fn text_file(&mut self, name: &str, content: &[u8]) -> Result<(), String> {
        let content = std::str::from_utf8(content).map_err(|error| error.to_string())?;
        let text = text::parsed(content)?;
        if text_name(text.n.value(0), text.m.value(0)) != name {
            return Err(format!("{}: not the sizes of the name", text.n.place(0)));
        }
        self.numbers(&text)?;
        self.witness(&text, &text.solving)?;
        self.prove(&text, &text.solving, None)?;
        self.witness(&text, &text.wrong)?;
        self.prove(&text, &text.wrong, Some(&text.wrong_prove))?;
        self.files(&text)?;
        self.leaning(&text)?;
        self.quick_look_at(&text, &text.solving)?;
        self.quick_look_at(&text, &text.wrong)
    }

    /// The check file of key A.
    fn key_a(&mut self, content: &[u8]) -> Result<(), String> {
        let line = Line::new(KEY_A, 0, 0, &KEY_A_LINE)?;
        self.check_file(&List::of_bytes(KEY_A, content), &line)
    }
}
