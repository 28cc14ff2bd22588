//! The program perkcheck, run with files on a pipe that are written in pieces
//! of random sizes.

use crate::entries::check::{changeable, changed, honest, leaning_fields, Check};
use crate::entries::files::damage::{damaged_file, Pool};
use crate::entries::files::faults::{faulty, spots};
use crate::entries::files::fields::{any_serial, serial_field, serials_about_powers, set_serial};
use crate::entries::files::REFUSALS;
use crate::entries::{keyed, verify};
use crate::kinds::Kind;
use reference::package::join;
use reference::perkcheck::LIMIT;
use reference::samples::{Generator, Leaning};
use reference::Refusal;
use std::io::{ErrorKind, Read, Write};
use std::path::Path;
use std::process::{Child, ChildStdin, Command, Stdio};
use std::sync::mpsc;
use std::thread;
use std::time::Duration;

/// The name of the program.
pub const NAME: &str = "perkcheck";

/// The kind of line of a refusal.
pub fn refused(refusal: Refusal) -> String {
    format!("refused {}", refusal.number())
}

/// The kinds of lines, each of which must be reached.
pub fn lines() -> Vec<String> {
    let refused = REFUSALS.iter().map(|&refusal| refused(refusal));
    let verdicts = ["accepted", "rejected"].map(str::to_string);
    verdicts.into_iter().chain(refused).collect()
}

/// The kind of a line: its last word, or `refused` and the number.
pub fn kind(line: &str) -> String {
    let line = line.trim_end();
    match line.rsplit_once(' ') {
        Some((start, verdict)) if start.starts_with("serial") => verdict.to_string(),
        _ => line.to_string(),
    }
}

/// A file for standard input.
pub struct File {
    /// Its bytes.
    pub bytes: Vec<u8>,
    /// Whether the pipe stays open after the last byte, until the program ends.
    pub open: bool,
}

/// Takes a file, with the generator for its pieces.
pub type Each<'a> = dyn FnMut(&mut Generator, File) + 'a;

/// A group of files.
pub struct Group {
    /// What its files have in common.
    pub name: &'static str,
    /// Hands over the files, one after another.
    pub files: fn(&mut Generator, &mut Each),
    /// Whether rows of H may depend on each other.
    pub any_rows: bool,
}

/// The groups of files.
pub const GROUPS: &[Group] = &[HONEST, CHANGED, LEANING, PREFIXES, FAULTS, DAMAGED, LENGTHS];

/// A file after whose last byte the pipe is closed.
fn closed(bytes: Vec<u8>) -> File {
    File { bytes, open: false }
}

const HONEST: Group = Group {
    name: "n to 32 and larger, honest files with any serial",
    any_rows: false,
    files: |generator, each| {
        for n in (2..=32).chain([33, 39, 40, 64]) {
            let m = keyed::some_m(n, generator)[n % 3];
            let mut fields = honest(n, m, Kind::Random, generator);
            for _ in 0..if n < 10 { 20 } else { 1 } {
                set_serial(&mut fields, serial_field(any_serial(generator)));
                each(generator, closed(join(&fields)));
            }
        }
        // Every number of digits.
        let mut fields = honest(2, 1, Kind::Random, generator);
        for serial in serials_about_powers() {
            set_serial(&mut fields, serial_field(serial));
            each(generator, closed(join(&fields)));
        }
    },
};

const CHANGED: Group = Group {
    name: "n to 12, one bit changed in each field, no refusal",
    any_rows: false,
    files: |generator, each| {
        for n in 2..=12 {
            let m = 1 + generator.below(n - 1);
            let fields = honest(n, m, Kind::Random, generator);
            for tag in changeable(&fields).repeat(4) {
                let (fields, _) = changed(&fields, tag, generator);
                each(generator, closed(join(&fields)));
            }
        }
    },
};

const LEANING: Group = Group {
    name: "n to 9 and larger, proofs that hold, rows of H that lean",
    any_rows: true,
    files: |generator, each| {
        for n in (2..=9).chain([17, 64]) {
            let m = keyed::some_m(n, generator)[n % 3];
            for leaning in Leaning::of(m) {
                let sample = verify::sample(n, m, Kind::Random, generator);
                let fields = leaning_fields(&sample.leaning(leaning, generator));
                each(generator, closed(join(&fields)));
            }
        }
    },
};

const PREFIXES: Group = Group {
    name: "every prefix of a file, n = 2",
    any_rows: false,
    files: |generator, each| {
        let bytes = join(&honest(2, 1, Kind::Random, generator));
        for len in 0..bytes.len() {
            each(generator, closed(bytes[..len].to_vec()));
        }
    },
};

const FAULTS: Group = Group {
    name: "one fault at each place of each field",
    any_rows: true,
    files: |generator, each| {
        for (n, m) in [(2, 1), (3, 2), (6, 3), (64, 63)] {
            let fields = honest(n, m, Kind::Random, generator);
            for spot in spots::<Check>(&fields).repeat(3) {
                let (bytes, _) = faulty::<Check>(&fields, &[spot], generator);
                each(generator, closed(bytes));
            }
        }
    },
};

const DAMAGED: Group = Group {
    name: "damaged files",
    any_rows: true,
    files: |generator, each| {
        let pool = Pool::new::<Check>(generator);
        for _ in 0..1_000 {
            let bytes = damaged_file::<Check>(&pool, generator);
            each(generator, closed(bytes));
        }
    },
};

const LENGTHS: Group = Group {
    name: "lengths about the limit, the pipe closed or left open",
    any_rows: false,
    files: |generator, each| {
        for n in [2, 5, 64] {
            let bytes = join(&honest(n, n - 1, Kind::Random, generator));
            for len in [LIMIT - 1, LIMIT, LIMIT + 1, 65_536, 70_000, 200_000] {
                for open in [false, true] {
                    let mut bytes = bytes.clone();
                    bytes.resize(len, 0x77);
                    // Before the limit the program waits for more.
                    if !open || len >= LIMIT {
                        each(generator, File { bytes, open });
                    }
                }
            }
        }
    },
};

/// How long the program may take for one file.
const DEADLINE: Duration = Duration::from_secs(20);

/// Writes the bytes in pieces of random sizes, now and then with a pause so
/// that the program reads a piece alone. A program that has ended reads no
/// more.
fn write_pieces(mut pipe: ChildStdin, bytes: &[u8], mut generator: Generator) -> ChildStdin {
    let longest = [1, 7, 100, 5_000, 100_000][generator.below(5)].max(bytes.len() / 50);
    let mut rest = bytes;
    while !rest.is_empty() {
        let (piece, later) = rest.split_at(rest.len().min(1 + generator.below(longest)));
        match pipe.write_all(piece) {
            Ok(()) => {}
            Err(error) if error.kind() == ErrorKind::BrokenPipe => break,
            Err(error) => panic!("the pipe cannot be written: {error}"),
        }
        if generator.below(8) == 0 {
            thread::sleep(Duration::from_micros(50));
        }
        rest = later;
    }
    pipe
}

/// What the program wrote to both outputs; none after the deadline.
fn outputs(child: &mut Child) -> Option<[Vec<u8>; 2]> {
    let mut stdout = child.stdout.take()?;
    let mut stderr = child.stderr.take()?;
    let (sender, receiver) = mpsc::channel();
    thread::spawn(move || {
        let mut list = [Vec::new(), Vec::new()];
        let read = stdout
            .read_to_end(&mut list[0])
            .and_then(|_| stderr.read_to_end(&mut list[1]));
        if read.is_ok() {
            // After the deadline no one receives it.
            let _ = sender.send(list);
        }
    });
    receiver.recv_timeout(DEADLINE).ok()
}

/// Runs the program with a file; the line that it prints. It must write nothing
/// else, and end with status 0.
pub fn run(program: &Path, file: &File, generator: &mut Generator) -> Result<String, String> {
    let mut child = Command::new(program)
        .stdin(Stdio::piped())
        .stdout(Stdio::piped())
        .stderr(Stdio::piped())
        .spawn()
        .map_err(|error| format!("{} cannot be run: {error}", program.display()))?;
    let pipe = child.stdin.take().ok_or("no pipe")?;
    let pieces = Generator::new(generator.number());
    thread::scope(|scope| {
        let writer = scope.spawn(move || {
            let pipe = write_pieces(pipe, &file.bytes, pieces);
            file.open.then_some(pipe)
        });
        let outputs = outputs(&mut child);
        if outputs.is_none() {
            child.kill().map_err(|error| error.to_string())?;
        }
        let status = child.wait().map_err(|error| error.to_string())?;
        let written = writer.join();
        let Some([stdout, stderr]) = outputs else {
            return Err("no end before the deadline".to_string());
        };
        if written.is_err() || !stderr.is_empty() || !status.success() {
            let stderr = String::from_utf8_lossy(&stderr);
            return Err(format!("{status}, standard error {stderr:?}"));
        }
        String::from_utf8(stdout).map_err(|error| error.to_string())
    })
}
