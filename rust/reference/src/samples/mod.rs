//! Seeded test data: a generator of numbers, and keys with material.

mod bundles;
mod generator;
mod leaning;
mod lent;
mod rows;

pub use bundles::{bundle_faults, BundleFault, WrittenBundle};
pub use generator::Generator;
pub use leaning::{combination, Leaning};
pub use lent::{Lent, Material};
pub use rows::{
    in_order, independent, independent_rows, joined_rows, orthogonal_row, quotient, solved, times,
    unit_rows,
};

use crate::entries::{constraints, prove, rank, values, verify, Verdict};
use crate::key::{elements_of_k, Key, Sizes};
use crate::large_field::{COORDINATES, K};
use crate::package::{check_fields, join, package_fields, WrittenField};
use crate::refusal::Refusal;

/// Elements of K with these words in coordinate 0.
pub fn elements(list: &[u16]) -> Vec<u16> {
    let mut words = vec![0; COORDINATES * list.len()];
    for (element, word) in words.chunks_mut(COORDINATES).zip(list) {
        element[0] = *word;
    }
    words
}

/// "An honest q is u times Δ plus v", for all correlations.
pub fn honest_q(u: &[u8], v: &[u16], delta: &[u16]) -> Result<Vec<u16>, Refusal> {
    let delta = elements_of_k(delta)?[0];
    let v = elements_of_k(v)?;
    let q = u
        .iter()
        .zip(v)
        .map(|(&u, v)| K::from_bit(u == 1) * delta + v);
    Ok(q.flat_map(K::words).collect())
}

/// "an honest verifier's number is s times Δ plus r", for all masks.
pub fn honest_masks(r: &[u16], s: &[u16], delta: &[u16]) -> Result<Vec<u16>, Refusal> {
    let delta = elements_of_k(delta)?[0];
    let r = elements_of_k(r)?;
    let s = elements_of_k(s)?;
    let masks = s.into_iter().zip(r).map(|(s, r)| s * delta + r);
    Ok(masks.flat_map(K::words).collect())
}

/// A key, a witness and all material, as slices that can be lent.
#[derive(Clone, Debug, Default)]
pub struct Sample {
    /// The size n.
    pub n: usize,
    /// The size m.
    pub m: usize,
    /// The number of digits d.
    pub d: usize,
    /// H, row after row.
    pub h: Vec<u16>,
    /// The vector x.
    pub x: Vec<u16>,
    /// The target y.
    pub y: Vec<u16>,
    /// The positions.
    pub positions: Vec<u8>,
    /// The mask bits.
    pub u: Vec<u8>,
    /// The offsets.
    pub v: Vec<u16>,
    /// The mask offsets r.
    pub r: Vec<u16>,
    /// The mask factors s.
    pub s: Vec<u16>,
    /// The weights.
    pub alpha: Vec<u16>,
    /// The challenge.
    pub delta: Vec<u16>,
    /// The honest q.
    pub q: Vec<u16>,
    /// The honest mask numbers.
    pub masks: Vec<u16>,
    /// The serial.
    pub serial: u32,
}

impl Sample {
    /// A random key that the random order of its positions solves, with random
    /// material; every other one has a target.
    pub fn solving(n: usize, m: usize, generator: &mut Generator) -> Sample {
        match generator.below(2) {
            0 => Sample::without_target(n, m, generator),
            _ => Sample::with_target(n, m, generator),
        }
    }

    /// A solving sample whose y is zero.
    pub fn without_target(n: usize, m: usize, generator: &mut Generator) -> Sample {
        Sample::drawn(n, m, generator, orthogonal_row)
    }

    /// A solving sample whose y is not all zero; about a fourth of its elements
    /// are.
    pub fn with_target(n: usize, m: usize, generator: &mut Generator) -> Sample {
        loop {
            let sample = Sample::drawn(n, m, generator, |entries, generator| {
                match generator.below(4) {
                    0 => orthogonal_row(entries, generator),
                    _ => generator.words(entries.len()),
                }
            });
            if sample.has_target() {
                return sample;
            }
        }
    }

    /// A solving sample whose rows of H are drawn for x in the order of the
    /// positions; y is H times this.
    fn drawn(
        n: usize,
        m: usize,
        generator: &mut Generator,
        row: fn(&[u16], &mut Generator) -> Vec<u16>,
    ) -> Sample {
        let sizes = Sizes::judged(n, m).expect("sizes that are not refused");
        let x = generator.words(n);
        let positions = generator.order(n);
        let entries = in_order(&x, &positions);
        let h = independent_rows(m, || row(&entries, generator));
        let y = times(&h, &entries);
        let u = generator.bits(sizes.bit_bytes());
        let v = generator.words(sizes.correlation_words());
        let r = generator.words(sizes.mask_words());
        let s = generator.words(sizes.mask_words());
        let alpha = generator.words(sizes.weight_words());
        let delta = generator.words(sizes.delta_words());
        let serial = generator.serial();
        let mut sample = Sample {
            n,
            m,
            d: sizes.d,
            h,
            x,
            y,
            positions,
            u,
            v,
            r,
            s,
            alpha,
            delta,
            q: Vec::new(),
            masks: Vec::new(),
            serial,
        };
        sample.make_honest();
        sample
    }

    /// A sample whose key every order solves: all entries of x are the same.
    /// Without a target each row of H has the sum zero.
    pub fn solved_by_all(n: usize, m: usize, generator: &mut Generator) -> Sample {
        let mut sample = Sample::solving(n, m, generator);
        let target = sample.has_target();
        sample.x = vec![generator.word() | 1; n];
        sample.h = independent_rows(m, || {
            let mut row = generator.words(n);
            if !target {
                row[0] = row[1..].iter().fold(0, |sum, word| sum ^ word);
            }
            row
        });
        sample.set_target();
        sample
    }

    /// Whether y is not all zero.
    pub fn has_target(&self) -> bool {
        self.y.iter().any(|&element| element != 0)
    }

    /// Sets y to H times x in the order of the positions, which are below n: an
    /// order then solves the key.
    pub fn set_target(&mut self) {
        self.y = times(&self.h, &in_order(&self.x, &self.positions));
    }

    /// Key A of the specification with positions 0 1, Δ = 2, α = 1, 2, 1 and the
    /// serial 7.
    pub fn key_a() -> Sample {
        let mut sample = Sample {
            n: 2,
            m: 1,
            d: 1,
            h: vec![2, 1],
            x: vec![1, 2],
            y: vec![0],
            positions: vec![0, 1],
            u: vec![1, 0],
            v: elements(&[1, 4]),
            r: Vec::new(),
            s: Vec::new(),
            alpha: elements(&[1, 2, 1]),
            delta: elements(&[2]),
            q: Vec::new(),
            masks: Vec::new(),
            serial: 7,
        };
        sample.make_honest();
        sample
    }

    /// Key A with the target y = 5, which the positions 1 0 solve: x' = 2 1, and
    /// H x' = 4 + 1 = 5.
    pub fn key_a_with_target() -> Sample {
        Sample {
            y: vec![5],
            positions: vec![1, 0],
            ..Sample::key_a()
        }
    }

    /// The key with n = 3, m = 1, H = 1 0 0 and x = 0 1 2 of the examples, with
    /// positions 0 1 2 and Δ = 2.
    pub fn three() -> Sample {
        let mut sample = Sample {
            n: 3,
            d: 2,
            h: vec![1, 0, 0],
            x: vec![0, 1, 2],
            positions: vec![0, 1, 2],
            u: vec![0; 6],
            v: elements(&[1, 2, 3, 4, 5, 6]),
            r: elements(&[7]),
            s: elements(&[8]),
            alpha: elements(&[1, 2, 3, 4]),
            ..Sample::key_a()
        };
        sample.make_honest();
        sample
    }

    /// The same key with the target y = 1, which the positions 1 0 2 solve: x' = 1
    /// 0 2, and H x' = 1.
    pub fn three_with_target() -> Sample {
        Sample {
            y: vec![1],
            positions: vec![1, 0, 2],
            ..Sample::three()
        }
    }

    /// The key.
    pub fn key(&self) -> Key<'_> {
        Key {
            n: self.n,
            m: self.m,
            h: &self.h,
            x: &self.x,
            y: &self.y,
        }
    }

    /// Sets q and the mask numbers to the honest ones.
    pub fn make_honest(&mut self) {
        self.q = honest_q(&self.u, &self.v, &self.delta).expect("coordinates up to 2047");
        self.masks = honest_masks(&self.r, &self.s, &self.delta).expect("coordinates up to 2047");
    }

    /// Room for what an entry writes to a slice, with words or bytes that no
    /// entry writes; none where the sizes are refused.
    fn room<T: Clone>(&self, slice: &str, fill: T) -> Vec<T> {
        let length = self.key().sizes().map(|sizes| sizes.length_of(slice));
        vec![fill; length.unwrap_or(0)]
    }

    /// What constraints writes: t and the polynomials.
    pub fn constraints(&self) -> Result<(Vec<u8>, Vec<u16>), Refusal> {
        let mut t = self.room("t", u8::MAX);
        let mut polynomials = self.room("polynomials", u16::MAX);
        let Sample {
            positions, u, v, ..
        } = self;
        constraints(self.key(), positions, u, v, &mut t, &mut polynomials)?;
        Ok((t, polynomials))
    }

    /// What prove writes: t and a.
    pub fn proof(&self) -> Result<(Vec<u8>, Vec<u16>), Refusal> {
        let mut t = self.room("t", u8::MAX);
        let mut a = self.room("a", u16::MAX);
        let Sample {
            positions, u, v, ..
        } = self;
        let Sample { r, s, alpha, .. } = self;
        prove(self.key(), positions, u, v, r, s, alpha, &mut t, &mut a)?;
        Ok((t, a))
    }

    /// What values writes for this t.
    pub fn values(&self, t: &[u8]) -> Result<Vec<u16>, Refusal> {
        let mut written = self.room("values", u16::MAX);
        values(self.key(), t, &self.q, &self.delta, &mut written)?;
        Ok(written)
    }

    /// What verify answers for this t and this a.
    pub fn verdict(&self, t: &[u8], a: &[u16]) -> Result<Verdict, Refusal> {
        let Sample {
            q,
            delta,
            masks,
            alpha,
            ..
        } = self;
        verify(self.key(), t, q, delta, masks, alpha, a)
    }

    /// What rank answers, and the matrix that it writes.
    pub fn rank(&self) -> Result<(usize, Vec<u16>), Refusal> {
        let mut matrix = self.room("matrix", u16::MAX);
        let rank = rank(self.n, self.m, &self.h, &mut matrix)?;
        Ok((rank, matrix))
    }

    /// The fields of the check file with this t and this a.
    pub fn fields_with(&self, t: &[u8], a: &[u16]) -> Vec<WrittenField> {
        let mut fields = package_fields(self.key(), self.serial, t, a);
        fields.extend(check_fields(&self.q, &self.masks, &self.delta, &self.alpha));
        fields
    }

    /// The fields of the check file with the proof of this sample.
    pub fn fields(&self) -> Result<Vec<WrittenField>, Refusal> {
        let (t, a) = self.proof()?;
        Ok(self.fields_with(&t, &a))
    }

    /// The check file with the proof of this sample.
    pub fn check_file(&self) -> Result<Vec<u8>, Refusal> {
        Ok(join(&self.fields()?))
    }
}
