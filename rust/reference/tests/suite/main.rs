//! The tests of the reference implementation.
#![forbid(unsafe_code)]

mod bundles;
mod demand_3;
mod examples;
mod field_cases;
mod fields;
mod join;
mod proofs;
mod quick_look;
mod rank;
mod readers;
mod refusals;
mod vectors;
mod writer;

use reference::key::elements_of_k;
use reference::large_field::K;
use reference::samples::{elements, Sample};
use reference::Verdict;

/// The element of K with a word in coordinate 0.
fn element(word: u16) -> Vec<u16> {
    elements(&[word])
}

/// Words as elements of K.
fn large(words: &[u16]) -> Vec<K> {
    elements_of_k(words).expect("coordinates up to 2047")
}

/// Bytes in hexadecimal as the specification writes them, "0.." being 22 zero
/// bytes.
fn bytes_of(text: &str) -> Vec<u8> {
    let zeros = "00".repeat(22);
    let words = text.split_whitespace();
    let digits: String = words
        .map(|word| if word == "0.." { &zeros } else { word })
        .collect();
    (0..digits.len() / 2)
        .map(|i| u8::from_str_radix(&digits[2 * i..2 * i + 2], 16).expect("two digits"))
        .collect()
}

/// What the entry constraints writes: t, and each polynomial's coefficients.
fn constraints_of(sample: &Sample) -> (Vec<u8>, Vec<Vec<K>>) {
    let (t, polynomials) = sample.constraints().expect("no refusal applies");
    let polynomials = large(&polynomials);
    let polynomials = polynomials.chunks(sample.d + 1).map(<[K]>::to_vec);
    (t, polynomials.collect())
}

/// What the entry values writes for this t.
fn values_of(sample: &Sample, t: &[u8]) -> Vec<K> {
    large(&sample.values(t).expect("no refusal applies"))
}

/// What the entry verify answers for this t and this a.
fn verdict_of(sample: &Sample, t: &[u8], a: &[u16]) -> Verdict {
    sample.verdict(t, a).expect("no refusal applies")
}

/// The top coefficients, as words of coordinate 0; the others are zero.
fn tops(polynomials: &[Vec<K>]) -> Vec<u16> {
    polynomials
        .iter()
        .map(|polynomial| {
            let words = polynomial.last().expect("d + 1 coefficients").words();
            assert_eq!(words[1..], [0; 11], "a top outside F");
            words[0]
        })
        .collect()
}
