//! The files of `vectors/`: their forms are described in `docs/vectors.md`.
//! All of them come from fixed seeds, so a second run gives the same bytes.

pub mod bundle;
mod cases;
mod faults;
mod fields;
mod leaning;
pub mod quick_look;
pub mod rank;
mod serials;
mod targets;
mod text;
pub mod write;

pub use cases::{Case, Cases};

use crate::examples;
use crate::field_cases;
use crate::samples::{Generator, Leaning, Sample};

/// A file: its path below `vectors/`, with `/` between names, and its bytes.
pub type File = (String, Vec<u8>);

/// The sizes n and m of the text files.
pub const SIZES: [(usize, usize); 7] =
    [(2, 1), (3, 1), (5, 2), (8, 3), (17, 8), (33, 16), (64, 27)];

/// All files of `vectors/`.
pub fn all() -> Vec<File> {
    let mut files = vec![
        ("key_a.check".to_string(), key_a_file()),
        ("examples_run.txt".to_string(), text_of_examples()),
    ];
    for (n, m) in SIZES {
        files.push((text_name(n, m), text::text(&sample(n, m)).into_bytes()));
    }
    files.push((rank::NAME.to_string(), rank::text().into_bytes()));
    let name = quick_look::NAME.to_string();
    files.push((name, quick_look::text().into_bytes()));
    files.push((write::NAME.to_string(), write::text().into_bytes()));
    files.push((bundle::NAME.to_string(), bundle::text().into_bytes()));
    files.extend(Cases::all().files());
    let cases = field_cases::Cases::all();
    files.push(("field_cases/stdin".to_string(), cases.stdin()));
    files.push(("field_cases/stdout".to_string(), cases.stdout()));
    files
}

/// The check file of key A.
pub fn key_a_file() -> Vec<u8> {
    Sample::key_a().check_file().expect("key A is solved")
}

/// What the program `examples_run` prints.
fn text_of_examples() -> Vec<u8> {
    examples::text().into_bytes()
}

/// The name of the text file of a size.
pub fn text_name(n: usize, m: usize) -> String {
    format!("n{n:02}_m{m:02}.txt")
}

/// The generator for a size: each size has a seed of its own.
fn generator(n: usize, m: usize) -> Generator {
    Generator::new((1000 * n + m) as u64)
}

/// A solving sample without a target and with a serial of two bytes.
fn solving(n: usize, m: usize, mut generator: Generator) -> Sample {
    short_serial(Sample::without_target(n, m, &mut generator))
}

/// The sample with a serial of two bytes.
fn short_serial(mut sample: Sample) -> Sample {
    sample.serial &= 0xffff;
    sample
}

/// The serials of four bytes: that of a text file, and that of the largest file.
const LONG_SERIALS: [((usize, usize), u32); 2] = [((3, 1), 2_718_281_828), ((64, 63), u32::MAX)];

/// The sizes of keys with a target: those of text files, and that of the largest
/// file.
pub const TARGETS: [(usize, usize); 4] = [(5, 2), (17, 8), (64, 27), (64, 63)];

/// How the rows of the second H of a text file lean.
fn leaning_of(n: usize, m: usize) -> Leaning {
    match (n, m) {
        (_, 1) | (17, 8) => Leaning::ZeroRow,
        (5, 2) | (64, 27) => Leaning::Multiple,
        _ => Leaning::Sum,
    }
}

/// The solving sample of a size.
fn sample(n: usize, m: usize) -> Sample {
    let mut sample = if TARGETS.contains(&(n, m)) {
        short_serial(Sample::with_target(n, m, &mut generator(n, m)))
    } else {
        solving(n, m, generator(n, m))
    };
    let long = LONG_SERIALS.iter().find(|(sizes, _)| *sizes == (n, m));
    sample.serial = long.map_or(sample.serial, |&(_, serial)| serial);
    sample
}
