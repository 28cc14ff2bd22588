//! The program `bench`: times the entries of libperk.a against the same
//! algorithms in Rust, against the reference, against the products in K that
//! they need and, with the feature `other`, against another build.
//!
//! usage: bench agree CHECK_FILE
//!        bench count CHECK_FILE
//!        bench time CHECK_FILE PERKCHECK COUNTS [PICTURE]
//!
//! The first compares the implementations. The second calls every entry once,
//! for callgrind. The third prints the tables, with the instructions that
//! callgrind wrote to the directory COUNTS, and draws the picture. The exit
//! status is 1 when the implementations do not agree, which is tried before any
//! time is taken, and 2 when the arguments are wrong.
//!
//! The environment variable `PERK_OTHER_NAME` says what the other build is; in
//! the picture it is called that, by default "other build".
#![deny(missing_docs)]
#![forbid(unsafe_code)]

mod agree;
mod bundles;
mod cases;
mod count;
mod implementation;
mod measure;
mod of_reference;
mod order;
mod process;
mod products;
mod svg;
mod table;

use cases::Inputs;
use std::fs;
use std::path::Path;
use std::process::ExitCode;

/// Whether the implementations agree.
fn agree(inputs: &Inputs) -> Result<(), String> {
    agree::agree(&inputs.file, &inputs.package)
        .map_err(|case| format!("the implementations differ: {case}"))
}

/// Prints the tables and draws the picture.
fn time(
    inputs: &Inputs,
    [file, perkcheck, counts]: [&str; 3],
    picture: Option<&str>,
) -> Result<(), String> {
    agree(inputs)?;
    let mut rows = cases::rows(inputs);
    let perkcheck = Path::new(perkcheck);
    rows.extend(process::rows(perkcheck, Path::new(file)));
    let counts = count::counts(&rows, Path::new(counts));
    let measured = measure::measured(rows, counts);
    table::entries(&measured);
    if !perkcheck.is_file() {
        println!("The program perkcheck is missing: `bin/build perkcheck` makes it.\n");
    }
    table::shares(&measured);
    table::writing(cases::writings(inputs));
    table::bundles(bundles::bundlings(&inputs.bundles));
    table::growth(&measured);
    picture.map_or(Ok(()), |path| {
        fs::write(path, svg::picture(&measured)).map_err(|error| format!("{path}: {error}"))
    })
}

/// Runs what the arguments say; none when they are wrong.
fn run(arguments: &[&str]) -> Option<Result<(), String>> {
    let (&mode, rest) = arguments.split_first()?;
    let (file, picture) = match (mode, rest) {
        ("agree" | "count", [file]) | ("time", [file, _, _]) => (file, None),
        ("time", [file, _, _, picture]) => (file, Some(*picture)),
        _ => return None,
    };
    let bytes = match fs::read(file) {
        Ok(bytes) => bytes,
        Err(error) => return Some(Err(format!("{file}: {error}"))),
    };
    if let Err(refusal) = reference::read_check_file(&bytes) {
        return Some(Err(format!("{file}: refused {}", refusal.number())));
    }
    let inputs = Inputs::of(bytes);
    if let [file, perkcheck, counts, ..] = *rest {
        return Some(time(&inputs, [file, perkcheck, counts], picture));
    }
    if mode == "agree" {
        return Some(agree(&inputs));
    }
    count::run(&mut cases::rows(&inputs));
    Some(Ok(()))
}

fn main() -> ExitCode {
    let arguments: Vec<String> = std::env::args().skip(1).collect();
    let arguments: Vec<&str> = arguments.iter().map(String::as_str).collect();
    match run(&arguments) {
        Some(Ok(())) => ExitCode::SUCCESS,
        Some(Err(message)) => {
            eprintln!("bench: {message}");
            ExitCode::FAILURE
        }
        None => {
            eprintln!(
                "usage: bench agree|count CHECK_FILE | bench time CHECK_FILE PERKCHECK COUNTS [PICTURE]"
            );
            ExitCode::from(2)
        }
    }
}
