//! The program perkcheck as a process, next to a program that does nothing.

use crate::implementation::{ALL, LIBRARY};
use crate::measure::{Calls, Row, Subject};
use std::fs::File;
use std::path::{Path, PathBuf};
use std::process::{Command, Stdio};

/// Runs a program, with a file as its standard input.
fn runs(program: PathBuf, file: PathBuf) -> Calls<'static> {
    Box::new(move |count| {
        for _ in 0..count {
            let input = File::open(&file).expect("the check file is there");
            let status = Command::new(&program)
                .stdin(input)
                .stdout(Stdio::null())
                .status();
            assert!(status.is_ok_and(|status| status.success()));
        }
    })
}

/// The row of a program.
fn row(entry: &'static str, form: &'static str, program: &Path, file: &Path) -> Row<'static> {
    let mut calls: Vec<_> = ALL.iter().map(|_| None).collect();
    calls[LIBRARY] = Some(runs(program.to_path_buf(), file.to_path_buf()));
    Row {
        subject: Subject {
            entry,
            sizes: None,
            form,
            products: None,
            process: true,
        },
        calls,
    }
}

/// The rows of perkcheck, where it is there, and of `true`.
pub fn rows(perkcheck: &Path, file: &Path) -> Vec<Row<'static>> {
    let mut rows = Vec::new();
    if perkcheck.is_file() {
        rows.push(row("perkcheck", "process, largest file", perkcheck, file));
    }
    let nothing = Path::new("/bin/true");
    rows.push(row("true", "process that does nothing", nothing, file));
    rows
}
