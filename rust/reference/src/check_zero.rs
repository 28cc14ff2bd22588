//! CheckZero: the proof a and the verifier's equation.

use crate::large_field::K;
use crate::polynomial::Polynomial;

/// "f is the sum of α(j) times polynomial j."
fn weighted_polynomial(alpha: &[K], polynomials: &[Polynomial]) -> Polynomial {
    let mut f = Polynomial::zero();
    for (&alpha, polynomial) in alpha.iter().zip(polynomials) {
        f = f + &Polynomial::constant(alpha) * polynomial;
    }
    f
}

/// "The mask is the sum over k below d - 1 of X^k times (s(k) X + r(k))."
fn mask(r: &[K], s: &[K]) -> Polynomial {
    let mut mask = Polynomial::zero();
    for (k, (&r, &s)) in r.iter().zip(s).enumerate() {
        mask = mask + &Polynomial::x_to(k) * &Polynomial::new(vec![r, s]);
    }
    mask
}

/// "The proof a is the d coefficients, lowest first, of f plus mask, below
/// X^d."
pub fn proof(d: usize, alpha: &[K], polynomials: &[Polynomial], r: &[K], s: &[K]) -> Vec<K> {
    let masked = weighted_polynomial(alpha, polynomials) + mask(r, s);
    (0..d).map(|power| masked.coefficient(power)).collect()
}

/// "The verifier accepts exactly when a at Δ equals the weighted sum of its
/// values plus the sum of Δ^k times its mask numbers."
pub fn accepts(a: &[K], delta: K, alpha: &[K], values: &[K], masks: &[K]) -> bool {
    let mut weighted = K::ZERO;
    for (&alpha, &value) in alpha.iter().zip(values) {
        weighted = weighted + alpha * value;
    }
    let mut mask_sum = K::ZERO;
    for (k, &mask) in masks.iter().enumerate() {
        mask_sum = mask_sum + delta.power(k) * mask;
    }
    Polynomial::new(a.to_vec()).at(delta) == weighted + mask_sum
}
