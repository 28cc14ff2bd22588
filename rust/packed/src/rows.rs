//! The polynomials and values of a key: the products of a row's factors for
//! every column, where each prefix of digits is multiplied once, and the sums
//! of all rows.

use crate::element::{load, mask, masked, plus, Element, Multiples, Sums, ONE, ZERO};
use reference::Key;

/// The largest number of columns.
pub const COLUMNS: usize = 64;

/// The largest number of coefficients of a polynomial.
pub const COEFFICIENTS: usize = 7;

/// The largest number of polynomials.
pub const POLYNOMIALS: usize = 2 * COLUMNS - 1;

/// A key within the limits.
#[derive(Clone, Copy)]
pub struct Within<'a> {
    /// The key.
    pub key: Key<'a>,
    /// The number of digits.
    pub d: usize,
}

impl<'a> Within<'a> {
    /// Adds row i's share to the n + m sums of `size` coefficients each. The
    /// row's products stand in `work`.
    fn share(self, sums: &mut [Element], work: &[Element], size: usize, i: usize) {
        let Key { n, m, h, x, .. } = self.key;
        let columns = size * n;
        for (sum, &product) in sums.iter_mut().zip(&work[..columns]) {
            *sum = plus(*sum, product);
        }
        for k in 0..size {
            let mut entry = Sums::new();
            for j in 0..n {
                entry.add(work[size * j + k], u64::from(x[j]));
            }
            let multiples = Multiples::of(entry.total());
            for e in 0..m {
                let sum = &mut sums[columns + size * e + k];
                let factor = u64::from(h[e * n + i]);
                *sum = plus(*sum, multiples.scaled(factor));
            }
        }
    }

    /// The factors of the power d in the n + m sums: one for each column, then y.
    fn targets(self) -> impl Iterator<Item = u64> + 'a {
        let Key { n, y, .. } = self.key;
        let columns = std::iter::repeat_n(1, n);
        columns.chain(y.iter().map(|&y| u64::from(y)))
    }

    /// Adds them to the tops of the sums.
    fn add_targets<'t>(self, tops: impl Iterator<Item = &'t mut Element>) {
        for (top, target) in tops.zip(self.targets()) {
            top[0] ^= target;
        }
    }

    /// The polynomials, d + 1 coefficients each. Digits and offsets are secret:
    /// no branch and no index depends on them.
    pub fn polynomials(self, positions: &[u8], v: &[u16], sums: &mut [Element]) {
        let size = self.d + 1;
        let mut work = [ZERO; COEFFICIENTS * COLUMNS];
        for (i, &position) in positions.iter().enumerate() {
            work[0] = ONE;
            for t in 0..self.d {
                let high = mask(u64::from(position >> t) & 1);
                let multiples = Multiples::of(load(v, self.d * i + self.d - 1 - t));
                for p in 0..1 << t {
                    let (a, b) = (size * p, size * (p + (1 << t)));
                    let mut below = ZERO;
                    for e in 0..=t {
                        let old = work[a + e];
                        let product = multiples.times(&old);
                        work[a + e] = plus(product, masked(below, !high));
                        work[b + e] = plus(product, masked(below, high));
                        below = old;
                    }
                    work[a + t + 1] = masked(below, !high);
                    work[b + t + 1] = masked(below, high);
                }
            }
            self.share(sums, &work, size, i);
        }
        self.add_targets(sums.iter_mut().skip(self.d).step_by(size));
    }

    /// The top coefficients of the polynomials, made of the digits alone.
    pub fn tops(self, positions: &[u8], sums: &mut [Element]) {
        let mut work = [ZERO; COLUMNS];
        for (i, &position) in positions.iter().enumerate() {
            work[0] = ONE;
            for t in 0..self.d {
                let high = mask(u64::from(position >> t) & 1);
                for p in 0..1 << t {
                    let old = work[p];
                    work[p] = masked(old, !high);
                    work[p + (1 << t)] = masked(old, high);
                }
            }
            self.share(sums, &work, 1, i);
        }
        self.add_targets(sums.iter_mut());
    }

    /// The values.
    pub fn values(self, bits: &[u8], q: &[u16], delta: Element, sums: &mut [Element]) {
        let mut work = [ZERO; COLUMNS];
        for i in 0..self.key.n {
            work[0] = ONE;
            for t in 0..self.d {
                let at = self.d * i + self.d - 1 - t;
                let high = mask(u64::from(bits[at]));
                let number = load(q, at);
                let factors =
                    [!high, high].map(|mask| Multiples::of(plus(number, masked(delta, mask))));
                for p in 0..1 << t {
                    let old = work[p];
                    work[p] = factors[0].times(&old);
                    work[p + (1 << t)] = factors[1].times(&old);
                }
            }
            self.share(sums, &work, 1, i);
        }
        let multiples = Multiples::of(delta);
        let power = Multiples::of((0..self.d).fold(ONE, |power, _| multiples.times(&power)));
        for (sum, target) in sums.iter_mut().zip(self.targets()) {
            *sum = plus(*sum, power.scaled(target));
        }
    }

    /// The masked witness.
    pub fn masked_witness(self, positions: &[u8], u: &[u8], t: &mut [u8]) {
        let bits = u.chunks_exact(self.d).zip(t.chunks_exact_mut(self.d));
        for (&position, (u, t)) in positions.iter().zip(bits) {
            for k in 0..self.d {
                t[k] = ((position >> (self.d - 1 - k)) & 1) ^ u[k];
            }
        }
    }
}
