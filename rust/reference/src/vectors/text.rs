//! The text files: a sample and what the entries answer for it.

use super::{generator, leaning_of};
use crate::large_field::COORDINATES;
use crate::package::{head_start, join, tag, WrittenField, HEAD};
use crate::perkcheck::perkcheck_line;
use crate::samples::{Generator, Sample};

/// Elements of F, four hexadecimal digits each.
pub fn small_elements(words: &[u16]) -> String {
    words.iter().map(|word| format!(" {word:04x}")).collect()
}

/// Elements of K, 48 hexadecimal digits each: twelve words, coordinate 0 first.
pub fn large_elements(words: &[u16]) -> String {
    words
        .chunks(COORDINATES)
        .map(|element| {
            let digits: String = element.iter().map(|word| format!("{word:04x}")).collect();
            format!(" {digits}")
        })
        .collect()
}

/// Bytes as decimal numbers.
pub fn decimal(bytes: &[u8]) -> String {
    bytes.iter().map(|byte| format!(" {byte}")).collect()
}

/// One line for each row: the name, the number of the row and what `show`
/// makes of the row.
pub fn row_lines<T>(name: &str, list: &[T], width: usize, show: fn(&[T]) -> String) -> String {
    list.chunks(width)
        .enumerate()
        .map(|(index, row)| format!("{name} {index}{}\n", show(row)))
        .collect()
}

/// A file in hexadecimal, 64 bytes a line, after the name.
pub fn file_lines(name: &str, bytes: &[u8]) -> String {
    bytes
        .chunks(64)
        .map(|part| {
            let digits: String = part.iter().map(|byte| format!("{byte:02x}")).collect();
            format!("{name} {digits}\n")
        })
        .collect()
}

/// The lines of t, polynomials and values, their names after a prefix.
fn modelled_lines(sample: &Sample, prefix: &str) -> String {
    let d = sample.d;
    let (t, polynomials) = sample.constraints().expect("no refusal applies");
    let values = sample.values(&t).expect("no refusal applies");
    let width = COORDINATES * (d + 1);
    let mut text = row_lines(&format!("{prefix}t"), &t, d, decimal);
    let name = format!("{prefix}polynomial");
    text += &row_lines(&name, &polynomials, width, large_elements);
    let name = format!("{prefix}value");
    text += &row_lines(&name, &values, COORDINATES, large_elements);
    text
}

/// The sample with positions below 2^d for which prove answers 8 or, where some
/// are spare codes, 16.
fn unsolved(sample: &Sample, generator: &mut Generator) -> Sample {
    let codes = 1usize << sample.d;
    loop {
        let positions = (0..sample.n).map(|_| generator.below(codes) as u8);
        let other = Sample {
            positions: positions.collect(),
            ..sample.clone()
        };
        if other.proof().is_err() {
            return other;
        }
    }
}

/// The lines of what the entries read.
fn input_lines(sample: &Sample) -> String {
    let Sample { n, m, d, .. } = *sample;
    let mut text = format!("n {n}\nm {m}\nd {d}\nserial {}\n", sample.serial);
    text += &row_lines("h", &sample.h, n, small_elements);
    text += &format!("x{}\n", small_elements(&sample.x));
    text += &format!("y{}\n", small_elements(&sample.y));
    text += &format!("positions{}\n", decimal(&sample.positions));
    text += &row_lines("u", &sample.u, d, decimal);
    text += &row_lines("v", &sample.v, COORDINATES * d, large_elements);
    text += &row_lines("r", &sample.r, COORDINATES, large_elements);
    text += &row_lines("s", &sample.s, COORDINATES, large_elements);
    text += &row_lines("alpha", &sample.alpha, COORDINATES, large_elements);
    text += &format!("delta{}\n", large_elements(&sample.delta));
    text += &row_lines("q", &sample.q, COORDINATES * d, large_elements);
    text + &row_lines("mask", &sample.masks, COORDINATES, large_elements)
}

/// The lines of the check file, and of changes of one byte in it.
fn check_file_lines(fields: &[WrittenField]) -> String {
    let file = join(fields);
    let changed = |place: usize| {
        let mut changed = file.clone();
        changed[place] ^= 1;
        changed
    };
    let mut text = file_lines("file", &file);
    text += &format!("line {}", perkcheck_line(&file));
    let tampered = changed(head_start(fields, tag::A) + HEAD + 1);
    text += &file_lines("tampered_file", &tampered);
    text += &format!("tampered_line {}", perkcheck_line(&tampered));

    let but_sizes = fields.iter().filter(|field| field.tag != tag::SIZES);
    for field in but_sizes.filter(|field| !field.content.is_empty()) {
        let place = head_start(fields, field.tag) + HEAD + field.content.len() - 1;
        let changed = changed(place);
        let line = perkcheck_line(&changed);
        let (old, new) = (file[place], changed[place]);
        text += &format!("change {place} {old:02x} {new:02x} {line}");
    }
    text
}

/// The lines of the rank and of the cleared form, their names after a prefix.
fn rank_lines(sample: &Sample, prefix: &str) -> String {
    let (rank, matrix) = sample.rank().expect("no refusal applies");
    let text = format!("{prefix}rank {rank}\n");
    text + &row_lines(
        &format!("{prefix}matrix"),
        &matrix,
        sample.n,
        small_elements,
    )
}

/// The lines of another H and y for the same key, which the positions solve too,
/// but the rows lean on each other: the refusals of all entries but rank.
fn leaning_lines(sample: &Sample, t: &[u8], a: &[u16]) -> String {
    let Sample { n, m, .. } = *sample;
    let generator = &mut generator(n + 100, m);
    let leaning = sample.leaning(leaning_of(n, m), generator);
    let mut text = row_lines("leaning_h", &leaning.h, n, small_elements);
    text += &format!("leaning_y{}\n", small_elements(&leaning.y));
    text += &rank_lines(&leaning, "leaning_");
    for (entry, answer) in [
        ("constraints", leaning.constraints().map(|_| ())),
        ("prove", leaning.proof().map(|_| ())),
        ("values", leaning.values(t).map(|_| ())),
        ("verify", leaning.verdict(t, a).map(|_| ())),
    ] {
        let refusal = answer.expect_err("the rows lean");
        text += &format!("leaning_{entry} {}\n", refusal.number());
    }
    text
}

/// The text file of a sample.
pub fn text(sample: &Sample) -> String {
    let (t, a) = sample.proof().expect("the sample is solved");
    let fields = sample.fields().expect("the sample is solved");
    let mut text = input_lines(sample) + &modelled_lines(sample, "");
    text += &row_lines("a", &a, COORDINATES, large_elements);
    text += &check_file_lines(&fields);

    let wrong = unsolved(sample, &mut generator(sample.m, sample.n));
    text += &format!("wrong_positions{}\n", decimal(&wrong.positions));
    text += &modelled_lines(&wrong, "wrong_");
    let refusal = wrong.proof().expect_err("the positions solve nothing");
    text += &format!("wrong_prove {}\n", refusal.number());
    text += &rank_lines(sample, "");
    text + &leaning_lines(sample, &t, &a)
}
