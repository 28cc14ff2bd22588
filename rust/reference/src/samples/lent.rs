//! The slices of a sample, by their names.

use super::{Generator, Sample};
use crate::key::Sizes;

/// A slice of bytes or of words that can be lent.
#[derive(Debug, PartialEq)]
pub enum Lent<'a> {
    /// A slice of bytes.
    Bytes(&'a mut Vec<u8>),
    /// A slice of words.
    Words(&'a mut Vec<u16>),
}

impl Lent<'_> {
    /// The number of elements.
    pub fn length(&self) -> usize {
        match self {
            Lent::Bytes(bytes) => bytes.len(),
            Lent::Words(words) => words.len(),
        }
    }

    /// Cuts the slice, or adds zeros.
    pub fn set_length(&mut self, length: usize) {
        match self {
            Lent::Bytes(bytes) => bytes.resize(length, 0),
            Lent::Words(words) => words.resize(length, 0),
        }
    }

    /// Changes one element; of a byte the lowest digits of the result count.
    pub fn change(&mut self, place: usize, change: impl FnOnce(u16) -> u16) {
        match self {
            Lent::Bytes(bytes) => bytes[place] = change(u16::from(bytes[place])) as u8,
            Lent::Words(words) => words[place] = change(words[place]),
        }
    }
}

/// What the entries with a key read: a sample, with t and a for the verifier.
#[derive(Clone, Debug)]
pub struct Material {
    /// The key and the material.
    pub sample: Sample,
    /// The masked witness.
    pub t: Vec<u8>,
    /// The proof.
    pub a: Vec<u16>,
}

impl Material {
    /// A sample that is solved, with t and a of its proof.
    pub fn of(sample: Sample) -> Material {
        let (t, a) = sample.proof().expect("the positions solve the key");
        Material { sample, t, a }
    }

    /// What a package is written from: a random key, with a target or without,
    /// and any serial, t and a. No slice beside those of a package has elements.
    pub fn of_package(n: usize, m: usize, target: bool, generator: &mut Generator) -> Material {
        let sizes = Sizes::judged(n, m).expect("sizes that are not refused");
        let y = match target {
            true => generator.target(m),
            false => vec![0; m],
        };
        let sample = Sample {
            n,
            m,
            d: sizes.d,
            h: generator.matrix(n, m),
            x: generator.words(n),
            y,
            serial: generator.serial(),
            ..Sample::default()
        };
        Material {
            sample,
            t: generator.bits(sizes.bit_bytes()),
            a: generator.words(sizes.proof_words()),
        }
    }

    /// All slices with their names, those of the key first.
    pub fn slices(&mut self) -> Vec<(&'static str, Lent<'_>)> {
        let Material { sample, t, a } = self;
        vec![
            ("h", Lent::Words(&mut sample.h)),
            ("x", Lent::Words(&mut sample.x)),
            ("y", Lent::Words(&mut sample.y)),
            ("positions", Lent::Bytes(&mut sample.positions)),
            ("u", Lent::Bytes(&mut sample.u)),
            ("v", Lent::Words(&mut sample.v)),
            ("r", Lent::Words(&mut sample.r)),
            ("s", Lent::Words(&mut sample.s)),
            ("alpha", Lent::Words(&mut sample.alpha)),
            ("delta", Lent::Words(&mut sample.delta)),
            ("q", Lent::Words(&mut sample.q)),
            ("masks", Lent::Words(&mut sample.masks)),
            ("t", Lent::Bytes(t)),
            ("a", Lent::Words(a)),
        ]
    }

    /// The slice with this name.
    pub fn lent(&mut self, name: &str) -> Lent<'_> {
        let mut slices = self.slices().into_iter();
        let slice = slices.find(|(slice, _)| *slice == name);
        slice.expect("a slice of the material").1
    }
}
