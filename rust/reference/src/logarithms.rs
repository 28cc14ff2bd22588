//! Products and quotients in F by tables of logarithms.
//!
//! Some element of F has all others but zero among its powers. Such a generator
//! is searched for, and a product or a quotient is the power whose exponent is
//! the sum or the difference of two exponents. So zero is never divided by, and
//! no inverse is formed.

use crate::level::{Level, FIRST};
use crate::small_field::Small;
use std::sync::LazyLock;

/// The powers of a generator of F, and the exponent of each element but zero.
#[derive(Clone, Debug)]
pub struct Logarithms<const LEVEL: usize> {
    /// The powers with the exponents 0, 1, 2 and so on, each element but zero
    /// once.
    powers: Vec<Small<LEVEL>>,
    /// The exponent of the element with this number; that of zero means nothing.
    exponents: Vec<usize>,
}

/// The tables of F of the first level.
pub static OF_F: LazyLock<Logarithms<FIRST>> = LazyLock::new(Logarithms::new);

/// The powers of an element, the power 0 first, up to the last one before one
/// comes again.
fn powers<const LEVEL: usize>(element: Small<LEVEL>) -> Vec<Small<LEVEL>> {
    let mut powers = vec![Small::ONE];
    let mut power = element;
    while power != Small::ONE {
        powers.push(power);
        power = power * element;
    }
    powers
}

impl<const LEVEL: usize> Logarithms<LEVEL> {
    /// The number of elements but zero.
    pub const ORDER: usize = (1 << Level::of(LEVEL).width) - 1;

    /// The tables of the generator with the least number.
    pub fn new() -> Self {
        let others = (1..=Small::<LEVEL>::LARGEST).filter_map(Small::from_word);
        let powers = others
            .map(powers)
            .find(|powers| powers.len() == Self::ORDER)
            .expect("some element of a field has all others but zero as powers");
        let mut exponents = vec![0; Self::ORDER + 1];
        for (exponent, power) in powers.iter().enumerate() {
            exponents[usize::from(power.word())] = exponent;
        }
        Logarithms { powers, exponents }
    }

    /// The generator.
    pub fn generator(&self) -> Small<LEVEL> {
        self.powers[1]
    }

    /// The exponent of an element; none of zero.
    pub fn exponent(&self, element: Small<LEVEL>) -> Option<usize> {
        (element != Small::ZERO).then(|| self.exponents[usize::from(element.word())])
    }

    /// The power with this exponent.
    pub fn power(&self, exponent: usize) -> Small<LEVEL> {
        self.powers[exponent % Self::ORDER]
    }

    /// The product.
    pub fn product(&self, a: Small<LEVEL>, b: Small<LEVEL>) -> Small<LEVEL> {
        match (self.exponent(a), self.exponent(b)) {
            (Some(a), Some(b)) => self.power(a + b),
            _ => Small::ZERO,
        }
    }

    /// The element that times the divisor is the dividend; none where the
    /// divisor is zero.
    pub fn quotient(&self, dividend: Small<LEVEL>, divisor: Small<LEVEL>) -> Option<Small<LEVEL>> {
        let divisor = self.exponent(divisor)?;
        Some(match self.exponent(dividend) {
            Some(dividend) => self.power(dividend + Self::ORDER - divisor),
            None => Small::ZERO,
        })
    }
}

impl<const LEVEL: usize> Default for Logarithms<LEVEL> {
    fn default() -> Self {
        Logarithms::new()
    }
}
