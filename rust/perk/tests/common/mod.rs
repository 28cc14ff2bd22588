//! Words of elements of K, and the keys that the tests use.
#![allow(dead_code)]

pub mod bundles;

use perk::{Key, Masks, Prover, Refusal, Verdict, WORDS};
use std::mem::take;

/// What outputs hold before a call.
pub const WORD: u16 = 0xBEEF;
pub const BYTE: u8 = 0xA5;

/// Elements of K that are elements of F, as words: each in coordinate 0.
pub fn words(elements: &[u16]) -> Vec<u16> {
    let mut words = vec![0; WORDS * elements.len()];
    for (word, element) in words.iter_mut().step_by(WORDS).zip(elements) {
        *word = *element;
    }
    words
}

/// The element of K with ones in these coordinates.
pub fn ones(coordinates: &[usize]) -> Vec<u16> {
    let mut element = vec![0; WORDS];
    for coordinate in coordinates {
        element[*coordinate] = 1;
    }
    element
}

/// Everything that the functions of a key take and write.
#[derive(Clone, Default)]
pub struct Case {
    pub n: usize,
    pub m: usize,
    pub h: Vec<u16>,
    pub x: Vec<u16>,
    pub y: Vec<u16>,
    pub positions: Vec<u8>,
    pub u: Vec<u8>,
    pub v: Vec<u16>,
    pub r: Vec<u16>,
    pub s: Vec<u16>,
    pub alpha: Vec<u16>,
    pub q: Vec<u16>,
    pub delta: Vec<u16>,
    pub masks: Vec<u16>,
    /// The masked witness and the proof that the verifier takes.
    pub t: Vec<u8>,
    pub a: Vec<u16>,
    /// The serial that a package of them has.
    pub serial: u32,
    /// Outputs; that of a package has its length.
    pub t_out: Vec<u8>,
    pub polynomials: Vec<u16>,
    pub a_out: Vec<u16>,
    pub values: Vec<u16>,
    pub package: Vec<u8>,
}

impl Case {
    /// Key A of the specification, positions 0 1, a = 5.
    pub fn key_a() -> Case {
        Case {
            n: 2,
            m: 1,
            h: vec![2, 1],
            x: vec![1, 2],
            y: vec![0],
            positions: vec![0, 1],
            u: vec![1, 0],
            v: words(&[1, 4]),
            r: vec![],
            s: vec![],
            alpha: words(&[1, 2, 1]),
            q: words(&[3, 4]),
            delta: words(&[2]),
            masks: vec![],
            t: vec![1, 1],
            a: words(&[5]),
            serial: 7,
            t_out: vec![BYTE; 2],
            polynomials: vec![WORD; 12 * 3 * 2],
            a_out: vec![WORD; 12],
            values: vec![WORD; 12 * 3],
            package: vec![BYTE; 56],
        }
    }

    /// Key A with the target 5, which the positions 1 0 solve: x' = (2 1), and H x'
    /// is 4 + 1. Now t is 0 0, and the polynomials, the values and a are those of
    /// key A.
    pub fn key_a_with_target() -> Case {
        Case {
            y: vec![5],
            positions: vec![1, 0],
            t: vec![0, 0],
            package: vec![BYTE; 56 + 5],
            ..Case::key_a()
        }
    }

    /// n = 3, m = 1, H = (1 1 1), x = (1 2 3), positions 2 0 1: every order
    /// solves this key, since 1 + 2 + 3 is 0. The offsets are 1 for digit 0 and
    /// 0 for digit 1, so z(i,j) is the product of its two bits times X^2 plus
    /// the second bit times X.
    pub fn three() -> Case {
        Case {
            n: 3,
            m: 1,
            h: vec![1, 1, 1],
            x: vec![1, 2, 3],
            y: vec![0],
            positions: vec![2, 0, 1],
            u: vec![0, 1, 1, 1, 0, 0],
            v: words(&[1, 0, 1, 0, 1, 0]),
            r: words(&[8]),
            s: words(&[16]),
            alpha: words(&[1, 4, 1, 1]),
            q: words(&[1, 2, 3, 2, 1, 0]),
            delta: words(&[2]),
            masks: words(&[40]),
            t: vec![1, 1, 1, 1, 0, 1],
            a: words(&[8, 22]),
            serial: 65535,
            t_out: vec![BYTE; 6],
            polynomials: vec![WORD; 12 * 4 * 3],
            a_out: vec![WORD; 12 * 2],
            values: vec![WORD; 12 * 4],
            package: vec![BYTE; 88],
        }
    }

    /// The same with H = (1 1 2) and the target 6. x'(0) is 3 X^2 + 2 X, x'(1) is
    /// X^2 + 2 X and x'(2) is 2 X^2 + 2 X, so H x' is 6 X^2 + 4 X, and polynomial 3
    /// is 4 X.
    pub fn three_with_target() -> Case {
        Case {
            h: vec![1, 1, 2],
            y: vec![6],
            a: words(&[8, 16]),
            package: vec![BYTE; 88 + 5],
            ..Case::three()
        }
    }

    /// n = 64 with H(e,e) = 1 and no other entry of H, x, y, offsets, masks and
    /// weights zero, positions 0 to 63: all polynomials are zero, and so is the
    /// proof.
    pub fn zero_64(m: usize) -> Case {
        let (n, d) = (64, 6);
        let mut h = vec![0; m * n];
        h.iter_mut().step_by(n + 1).for_each(|entry| *entry = 1);
        let positions: Vec<u8> = (0..64).collect();
        let digits = |position: &u8| (0..6).map(|k| position >> (5 - k) & 1).collect::<Vec<_>>();
        Case {
            n,
            m,
            h,
            x: vec![0; n],
            y: vec![0; m],
            t: positions.iter().flat_map(digits).collect(),
            positions,
            u: vec![0; n * d],
            v: vec![0; 12 * n * d],
            r: vec![0; 12 * (d - 1)],
            s: vec![0; 12 * (d - 1)],
            alpha: vec![0; 12 * (n + m)],
            q: vec![0; 12 * n * d],
            delta: vec![0; 12],
            masks: vec![0; 12 * (d - 1)],
            a: vec![0; 12 * d],
            serial: 0,
            t_out: vec![BYTE; n * d],
            polynomials: vec![WORD; 12 * (n + m) * (d + 1)],
            a_out: vec![WORD; 12 * d],
            values: vec![WORD; 12 * (n + m)],
            package: vec![BYTE; 22 + 2 * m * n + 2 * n + n * d + 24 * d],
        }
    }

    fn key(&self) -> Key<'_> {
        Key {
            n: self.n,
            m: self.m,
            h: &self.h,
            x: &self.x,
            y: &self.y,
        }
    }

    fn prover(&self) -> Prover<'_> {
        Prover {
            positions: &self.positions,
            u: &self.u,
            v: &self.v,
        }
    }

    fn masks(&self) -> Masks<'_> {
        Masks {
            r: &self.r,
            s: &self.s,
        }
    }

    pub fn constraints(&mut self) -> Result<(), Refusal> {
        let mut t = take(&mut self.t_out);
        let mut polynomials = take(&mut self.polynomials);
        let answer = perk::constraints(self.key(), self.prover(), &mut t, &mut polynomials);
        (self.t_out, self.polynomials) = (t, polynomials);
        answer
    }

    pub fn values(&mut self) -> Result<(), Refusal> {
        let mut values = take(&mut self.values);
        let answer = perk::values(self.key(), &self.t, &self.q, &self.delta, &mut values);
        self.values = values;
        answer
    }

    pub fn prove(&mut self) -> Result<(), Refusal> {
        let (mut t, mut a) = (take(&mut self.t_out), take(&mut self.a_out));
        let (prover, masks) = (self.prover(), self.masks());
        let answer = perk::prove(self.key(), prover, masks, &self.alpha, &mut t, &mut a);
        (self.t_out, self.a_out) = (t, a);
        answer
    }

    pub fn verify(&mut self) -> Result<Verdict, Refusal> {
        let (key, delta) = (self.key(), &self.delta);
        let (masks, alpha) = (&self.masks, &self.alpha);
        perk::verify(key, &self.t, &self.q, delta, masks, alpha, &self.a)
    }

    pub fn write_package(&mut self) -> Result<usize, Refusal> {
        let mut package = take(&mut self.package);
        let (serial, t, a) = (self.serial, &self.t, &self.a);
        let answer = perk::write_package(self.key(), serial, t, a, &mut package);
        self.package = package;
        answer
    }

    /// Whether every output holds what it held before.
    pub fn nothing_written(&self) -> bool {
        let bytes = self.t_out.iter().chain(&self.package);
        bytes.copied().all(|byte| byte == BYTE)
            && [&self.polynomials, &self.a_out, &self.values]
                .iter()
                .all(|output| output.iter().all(|word| *word == WORD))
    }

    /// The top coefficients of the polynomials, coordinate 0 of each; its other
    /// coordinates must be zero.
    pub fn tops(&self) -> Vec<u16> {
        let coefficients = perk::digits(self.n) + 1;
        let tops = self
            .polynomials
            .chunks(WORDS)
            .skip(coefficients - 1)
            .step_by(coefficients);
        tops.map(|top| {
            assert_eq!(top[1..], [0; 11]);
            top[0]
        })
        .collect()
    }
}
