//! The program perkcheck is run with other programs in its place.

use comparison::program::{self, File};
use reference::samples::Generator;
use std::path::Path;

/// What a program does with a file.
fn run_program(path: &str, bytes: &[u8], open: bool) -> Result<String, String> {
    let bytes = bytes.to_vec();
    let file = File { bytes, open };
    program::run(Path::new(path), &file, &mut Generator::new(1))
}

#[test]
fn all_pieces_of_a_file_arrive() {
    for len in [0, 1, 1_000, 200_000] {
        let text: String = ('a'..='z').cycle().take(len).collect();
        let found = run_program("/bin/cat", text.as_bytes(), false);
        assert_eq!(found, Ok(text));
    }
}

#[test]
fn the_pipe_stays_open() {
    // The program ends without having read all.
    assert_eq!(
        run_program("/bin/true", &[0; 200_000], true),
        Ok(String::new())
    );
}

#[test]
fn other_ends_of_a_program() {
    assert!(run_program("/bin/false", &[0; 10], false).is_err());
    assert!(run_program("/bin/none", &[0; 10], false).is_err());
}
