//! Polynomials in X over K.

use crate::large_field::K;
use std::ops::{Add, Mul};

/// A polynomial, "coefficients, lowest power first"; coefficients that are
/// not listed are zero.
#[derive(Clone, Debug)]
pub struct Polynomial(Vec<K>);

impl Polynomial {
    /// The polynomial with these coefficients, lowest power first.
    pub fn new(coefficients: Vec<K>) -> Polynomial {
        Polynomial(coefficients)
    }

    /// The polynomial 0.
    pub fn zero() -> Polynomial {
        Polynomial(Vec::new())
    }

    /// The polynomial with the one term c.
    pub fn constant(c: K) -> Polynomial {
        Polynomial(vec![c])
    }

    /// X to a power.
    pub fn x_to(power: usize) -> Polynomial {
        let mut coefficients = vec![K::ZERO; power];
        coefficients.push(K::ONE);
        Polynomial(coefficients)
    }

    /// The coefficient of X^power.
    pub fn coefficient(&self, power: usize) -> K {
        self.0.get(power).copied().unwrap_or(K::ZERO)
    }

    /// "A polynomial at Δ is the sum of each coefficient times its power of Δ".
    pub fn at(&self, delta: K) -> K {
        let mut value = K::ZERO;
        for (power, &coefficient) in self.0.iter().enumerate() {
            value = value + coefficient * delta.power(power);
        }
        value
    }
}

/// The sum, coefficient by coefficient. It is the difference too, since
/// "Sums are bitwise exclusive or".
impl Add for Polynomial {
    type Output = Polynomial;

    fn add(self, other: Polynomial) -> Polynomial {
        let count = self.0.len().max(other.0.len());
        let sums = (0..count).map(|power| self.coefficient(power) + other.coefficient(power));
        Polynomial(sums.collect())
    }
}

/// The product: the coefficient of X^(i + j) collects the products of the
/// coefficients of X^i and X^j.
impl Mul for &Polynomial {
    type Output = Polynomial;

    fn mul(self, other: &Polynomial) -> Polynomial {
        if self.0.is_empty() || other.0.is_empty() {
            return Polynomial::zero();
        }
        let mut product = vec![K::ZERO; self.0.len() + other.0.len() - 1];
        for (i, &a) in self.0.iter().enumerate() {
            for (j, &b) in other.0.iter().enumerate() {
                product[i + j] = product[i + j] + a * b;
            }
        }
        Polynomial(product)
    }
}
