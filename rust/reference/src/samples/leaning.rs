//! Rows of H that lean on each other.

use super::rows::small;
use super::{Generator, Sample};
use crate::check_zero;
use crate::constraint;
use crate::entries::{bytes_of_bits, words_of_elements};
use crate::key::{bits, elements_of_k, rows, witness};
use crate::refusal::Refusal;
use crate::small_field::F;

/// In which way some coefficients, not all zero, combine the rows of H to zero.
#[derive(Clone, Copy, Debug, PartialEq, Eq)]
pub enum Leaning {
    /// One row is a multiple of another, by a factor that isn't zero.
    Multiple,
    /// One row is the sum of multiples of two others or more.
    Sum,
    /// One row is zero.
    ZeroRow,
    /// All rows are zero.
    AllZero,
}

impl Leaning {
    /// All ways.
    pub const ALL: [Leaning; 4] = [
        Leaning::Multiple,
        Leaning::Sum,
        Leaning::ZeroRow,
        Leaning::AllZero,
    ];

    /// The least number of rows that can lean in this way.
    pub fn least_rows(self) -> usize {
        match self {
            Leaning::Multiple => 2,
            Leaning::Sum => 3,
            Leaning::ZeroRow | Leaning::AllZero => 1,
        }
    }

    /// Its name in the names of test data.
    pub fn name(self) -> &'static str {
        match self {
            Leaning::Multiple => "multiple",
            Leaning::Sum => "sum",
            Leaning::ZeroRow => "zero_row",
            Leaning::AllZero => "all_zero",
        }
    }

    /// The ways for m rows, at least one.
    pub fn of(m: usize) -> impl Iterator<Item = Leaning> {
        let all = Leaning::ALL.into_iter();
        all.filter(move |leaning| leaning.least_rows() <= m)
    }

    /// Makes the rows of H lean: changes one of them, any one, or all. There are
    /// enough of them, they have n words of at most 2047 each, and those that
    /// stay are as they were.
    pub fn make(self, h: &mut [u16], n: usize, generator: &mut Generator) {
        let m = h.len() / n;
        assert!(self.least_rows() <= m, "{m} rows cannot lean as {self:?}");
        let changed = generator.below(m);
        let other = |generator: &mut Generator| (changed + 1 + generator.below(m - 1)) % m;
        let factor = |generator: &mut Generator| 1 + generator.below(2047) as u16;
        let mut factors = vec![0; m];
        match self {
            Leaning::Multiple => factors[other(generator)] = factor(generator),
            Leaning::Sum => {
                while factors.iter().filter(|&&factor| factor != 0).count() < 2 {
                    factors[other(generator)] = factor(generator);
                }
                // Some further ones.
                for _ in 0..generator.below(m) {
                    factors[other(generator)] = generator.word();
                }
            }
            Leaning::ZeroRow => {}
            Leaning::AllZero => return h.fill(0),
        }
        let row = combination(h, n, &factors);
        h[n * changed..n * (changed + 1)].copy_from_slice(&row);
    }
}

/// The sum of the rows of H, each times its factor. All words are at most 2047.
pub fn combination(h: &[u16], n: usize, factors: &[u16]) -> Vec<u16> {
    let mut sum = vec![F::ZERO; n];
    for (row, &factor) in h.chunks(n).zip(factors) {
        for (sum, &word) in sum.iter_mut().zip(row) {
            *sum = *sum + small(factor) * small(word);
        }
    }
    sum.into_iter().map(F::word).collect()
}

impl Sample {
    /// The sample with rows of H that lean in this way, and with a y such that
    /// its positions, which are below n, still solve the key.
    pub fn leaning(&self, leaning: Leaning, generator: &mut Generator) -> Sample {
        let mut sample = self.clone();
        leaning.make(&mut sample.h, sample.n, generator);
        sample.set_target();
        sample
    }

    /// t and a as prove makes them of the polynomials, whether the rows of H
    /// lean or not, and whether the positions solve the key: refusals 15, 16 and
    /// 8 are left out.
    pub fn unjudged_proof(&self) -> Result<(Vec<u8>, Vec<u16>), Refusal> {
        let sizes = self.key().sizes()?;
        let key = self.key().elements(sizes)?;
        let d = sizes.d;
        let u = rows(&bits(&self.u)?, d);
        let v = rows(&elements_of_k(&self.v)?, d);
        let (r, s) = (elements_of_k(&self.r)?, elements_of_k(&self.s)?);
        let alpha = elements_of_k(&self.alpha)?;
        let w = witness(&self.positions, d)?;
        let polynomials = constraint::polynomials(&key, &w, &v);
        let t = bytes_of_bits(&constraint::masked_witness(&w, &u));
        let a = words_of_elements(check_zero::proof(d, &alpha, &polynomials, &r, &s));
        Ok((t, a))
    }
}
