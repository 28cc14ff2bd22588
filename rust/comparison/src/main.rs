//! The program `compare`: calls all entries of libperk.a and of the reference
//! with the same inputs, and compares the library with the test vectors.
//!
//! usage: compare [SEED] [--spoil N] [--program PATH]
//!
//! `--spoil N` alters word N of one expected output of each entry, counted
//! through all its outputs and from the first again after the last, one
//! expected answer of each entry without outputs, one expected word of the
//! vectors, and one expected line of the program, so that the run must find as
//! many differences and fail; an entry then ends with the group of that case.
//! `--program PATH` runs the program perkcheck too, which stands there. The exit
//! status is 0 when all groups passed, 1 when one failed or none ran, and 2 when
//! the arguments are wrong.
#![deny(missing_docs)]
#![forbid(unsafe_code)]

use comparison::entries;
use comparison::run::Run;
use comparison::vectors;
use std::path::PathBuf;
use std::process::ExitCode;

/// The seed when none is given.
const SEED: u64 = 1;

/// What the arguments say.
#[derive(Default)]
struct Settings {
    seed: Option<u64>,
    /// The word to alter.
    spoil: Option<usize>,
    /// The program perkcheck.
    program: Option<PathBuf>,
}

/// The settings; none when the arguments are wrong.
fn settings(mut arguments: impl Iterator<Item = String>) -> Option<Settings> {
    let mut settings = Settings::default();
    while let Some(argument) = arguments.next() {
        if argument == "--spoil" && settings.spoil.is_none() {
            settings.spoil = Some(arguments.next()?.parse().ok()?);
        } else if argument == "--program" && settings.program.is_none() {
            settings.program = Some(arguments.next()?.into());
        } else if settings.seed.is_none() {
            settings.seed = Some(argument.parse().ok()?);
        } else {
            return None;
        }
    }
    Some(settings)
}

fn main() -> ExitCode {
    let Some(settings) = settings(std::env::args().skip(1)) else {
        eprintln!("usage: compare [SEED] [--spoil N] [--program PATH]");
        return ExitCode::from(2);
    };
    let seed = settings.seed.unwrap_or(SEED);
    println!("seed {seed}");
    let mut run = Run::new(seed, settings.spoil);
    for entry in entries::ALL {
        run.entry(entry);
    }
    let program = settings.program.as_deref();
    run.vectors(&vectors::directory(), entries::ALL, program);
    if let Some(program) = program {
        run.program(program);
    }
    if run.finish() {
        ExitCode::SUCCESS
    } else {
        ExitCode::FAILURE
    }
}
