//! Weighted sums of the polynomials and of the values of a key, without making
//! them: two columns that differ in one digit, the highest first, are folded
//! into one.

use crate::element::{load, mask, masked, plus, Element, Multiples, ONE, ZERO};
use crate::rows::{Within, COEFFICIENTS, COLUMNS};
use reference::Key;

/// The weights of a key's polynomials.
struct Weights {
    /// Those of the columns, zero from n on.
    columns: [Element; COLUMNS],
    /// That of x'(i), for each row i.
    entries: [Element; COLUMNS],
    /// The vector x, zero from n on.
    x: [u64; COLUMNS],
    /// That of X^d: the sum of those of the columns, and of y(e) times that of
    /// row e of H.
    target: Element,
}

impl Weights {
    /// The weights of lent words.
    fn of(key: Within, alpha: &[u16]) -> Weights {
        let mut weights = Weights {
            columns: [ZERO; COLUMNS],
            entries: [ZERO; COLUMNS],
            x: [0; COLUMNS],
            target: ZERO,
        };
        let Key { n, m, h, x, y } = key.key;
        for (j, &entry) in x.iter().enumerate() {
            weights.columns[j] = load(alpha, j);
            weights.target = plus(weights.target, weights.columns[j]);
            weights.x[j] = u64::from(entry);
        }
        for e in 0..m {
            let multiples = Multiples::of(load(alpha, n + e));
            weights.target = plus(weights.target, multiples.scaled(u64::from(y[e])));
            for i in 0..n {
                let term = multiples.scaled(u64::from(h[e * n + i]));
                weights.entries[i] = plus(weights.entries[i], term);
            }
        }
        weights
    }
}

/// Adds the coefficients below X^d of the weighted sum of the polynomials to
/// `a`. Digits and offsets are secret: no branch and no index depends on them.
pub fn polynomials(key: Within, positions: &[u8], v: &[u16], alpha: &[u16], a: &mut [Element]) {
    let d = key.d;
    let size = d + 1;
    let weights = Weights::of(key, alpha);
    let mut work = [ZERO; COEFFICIENTS * COLUMNS];
    for (i, &position) in positions.iter().enumerate() {
        let entry = Multiples::of(weights.entries[i]);
        for j in 0..1 << d {
            work[size * j] = plus(weights.columns[j], entry.scaled(weights.x[j]));
        }
        for k in 0..d {
            let half = 1 << (d - 1 - k);
            let high = mask(u64::from(position >> (d - 1 - k)) & 1);
            let offset = Multiples::of(load(v, d * i + k));
            for p in 0..half {
                let (at, other) = (size * p, size * (p + half));
                let mut below = ZERO;
                for e in 0..=k {
                    let (x, y) = (work[at + e], work[other + e]);
                    work[at + e] = plus(offset.times(&plus(x, y)), below);
                    below = plus(masked(x, !high), masked(y, high));
                }
                work[at + k + 1] = below;
            }
        }
        for (sum, &coefficient) in a.iter_mut().zip(&work[..d]) {
            *sum = plus(*sum, coefficient);
        }
    }
}

/// The weighted sum of the values.
pub fn values(key: Within, t: &[u8], q: &[u16], delta: &Multiples, alpha: &[u16]) -> Element {
    let d = key.d;
    let weights = Weights::of(key, alpha);
    let mut raised = [ZERO; COLUMNS];
    for (raised, weight) in raised.iter_mut().zip(&weights.columns[..key.key.n]) {
        *raised = delta.times(weight);
    }
    let mut total = ZERO;
    let mut work = [ZERO; COLUMNS / 2];
    for i in 0..key.key.n {
        let entry = Multiples::of(weights.entries[i]);
        let raised_entry = Multiples::of(delta.times(&weights.entries[i]));
        let mut half = 1 << (d - 1);
        let number = Multiples::of(load(q, d * i));
        let high = half * usize::from(t[d * i]);
        for p in 0..half {
            let sum = plus(weights.columns[p], weights.columns[p + half]);
            let x = weights.x[p] ^ weights.x[p + half];
            let pair = plus(sum, entry.scaled(x));
            let chosen = plus(raised[p + high], raised_entry.scaled(weights.x[p + high]));
            work[p] = plus(number.times(&pair), chosen);
        }
        for k in 1..d {
            half /= 2;
            let number = Multiples::of(load(q, d * i + k));
            let high = half * usize::from(t[d * i + k]);
            for p in 0..half {
                let pair = plus(work[p], work[p + half]);
                work[p] = plus(number.times(&pair), delta.times(&work[p + high]));
            }
        }
        total = plus(total, work[0]);
    }
    let power = (0..d).fold(weights.target, |power, _| delta.times(&power));
    plus(total, power)
}

/// The sum of the first lent mask numbers, each times its power of the
/// challenge, which is kept from one to the next.
pub fn mask_sum(masks: &[u16], count: usize, delta: &Element) -> Element {
    let (mut power, mut total) = (ONE, ZERO);
    for k in 0..count {
        let multiples = Multiples::of(power);
        total = plus(total, multiples.times(&load(masks, k)));
        power = multiples.times(delta);
    }
    total
}

/// A polynomial of lent coefficients, that of X^0 first, at the challenge.
pub fn evaluated(coefficients: &[u16], count: usize, delta: &Multiples) -> Element {
    (0..count).rev().fold(ZERO, |value, k| {
        plus(delta.times(&value), load(coefficients, k))
    })
}
