//! The small field F.

use crate::level::{Level, FIRST};
use std::ops::{Add, Mul};

/// An element of F of a level. Of the first: "The small field F has 2,048
/// elements, written as numbers 0 to 2047. Bit i of a number is the
/// coefficient of z to the power i."
#[derive(Clone, Copy, Debug, PartialEq, Eq, Hash)]
pub struct Small<const LEVEL: usize>(u16);

/// An element of F of the first level.
pub type F = Small<FIRST>;

impl<const LEVEL: usize> Small<LEVEL> {
    /// Zero.
    pub const ZERO: Self = Small(0);

    /// One.
    pub const ONE: Self = Small(1);

    /// The largest number of an element: "numbers 0 to 2047", "elements to
    /// 4095".
    pub const LARGEST: u16 = Level::of(LEVEL).limit;

    /// The element with this number; none when the number is above the
    /// largest.
    pub fn from_word(word: u16) -> Option<Self> {
        if word > Self::LARGEST {
            None
        } else {
            Some(Small(word))
        }
    }

    /// The number of the element: "an element of F is one word".
    pub fn word(self) -> u16 {
        self.0
    }

    /// The element that times this one is one; none for zero. F has 2^width
    /// elements, so it is the power 2^width - 2, which is the product of the
    /// powers 2, 4, .., 2^(width - 1).
    pub fn inverse(self) -> Option<Self> {
        if self == Self::ZERO {
            return None;
        }
        let mut inverse = Self::ONE;
        let mut power = self;
        for _ in 1..Self::WIDTH {
            power = power * power;
            inverse = inverse * power;
        }
        Some(inverse)
    }
}

/// Products of polynomials over two elements, and the rule of the level.
impl<const LEVEL: usize> Small<LEVEL> {
    const WIDTH: usize = Level::of(LEVEL).width;

    /// z^width + z^tap + 1, the divisor that says z^width = z^tap + 1.
    const DIVISOR: u32 = (1 << Self::WIDTH) | (1 << Level::of(LEVEL).tap) | 1;

    /// The product, not reduced: the sum of z^i times b over the powers z^i
    /// that a has.
    fn long_product(a: u32, b: u32) -> u32 {
        let mut product = 0;
        for i in 0..Self::WIDTH {
            let coefficient = (a >> i) & 1;
            product ^= coefficient * (b << i);
        }
        product
    }

    /// The remainder of long division by the divisor: from the highest power
    /// down, a multiple of the divisor takes each power from z^width on away.
    fn remainder(dividend: u32) -> u32 {
        let mut rest = dividend;
        for power in (Self::WIDTH..=2 * (Self::WIDTH - 1)).rev() {
            let coefficient = (rest >> power) & 1;
            rest ^= coefficient * (Self::DIVISOR << (power - Self::WIDTH));
        }
        rest
    }
}

/// "Sums are bitwise exclusive or".
impl<const LEVEL: usize> Add for Small<LEVEL> {
    type Output = Self;

    #[allow(clippy::suspicious_arithmetic_impl)]
    fn add(self, other: Self) -> Self {
        Small(self.0 ^ other.0)
    }
}

/// "products are of polynomials over two elements, with z^11 = z^2 + 1", or
/// with the rule of the level.
impl<const LEVEL: usize> Mul for Small<LEVEL> {
    type Output = Self;

    fn mul(self, other: Self) -> Self {
        let product = Self::long_product(u32::from(self.0), u32::from(other.0));
        Small(Self::remainder(product) as u16)
    }
}
