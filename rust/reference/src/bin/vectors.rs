//! Writes the files of `vectors/` into the directory named by the argument.
#![forbid(unsafe_code)]

use std::path::Path;
use std::process::ExitCode;
use std::{env, fs, io};

/// Writes all files. The directories of cases are made anew, so that no file
/// of an earlier form stays in them.
fn write_all(directory: &Path) -> io::Result<()> {
    let files = reference::vectors::all();
    for cases in ["perkcheck_cases", "field_cases"] {
        let cases = directory.join(cases);
        if cases.exists() {
            fs::remove_dir_all(&cases)?;
        }
    }
    for cases in ["perkcheck_cases/data", "field_cases"] {
        fs::create_dir_all(directory.join(cases))?;
    }
    let mut total = 0;
    for (path, bytes) in &files {
        fs::write(directory.join(path), bytes)?;
        total += bytes.len();
    }
    println!("{} files, {total} bytes", files.len());
    Ok(())
}

fn main() -> ExitCode {
    let mut arguments = env::args_os().skip(1);
    let (Some(directory), None) = (arguments.next(), arguments.next()) else {
        eprintln!("usage: vectors DIRECTORY");
        return ExitCode::from(2);
    };
    match write_all(Path::new(&directory)) {
        Ok(()) => ExitCode::SUCCESS,
        Err(error) => {
            eprintln!("vectors: {error}");
            ExitCode::FAILURE
        }
    }
}
