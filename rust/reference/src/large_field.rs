//! The large field K.

use crate::level::{Level, FIRST, MOST_COORDINATES};
use crate::small_field::Small;
use std::ops::{Add, Mul};

/// An element of K of a level. Of the first: "The large field K has elements
/// of 12 coordinates from F, coordinate i belonging to Y^i". There is room for
/// the coordinates of either level; those past the level's own are zero.
#[derive(Clone, Copy, Debug, PartialEq, Eq, Hash)]
pub struct Large<const LEVEL: usize>([Small<LEVEL>; MOST_COORDINATES]);

/// An element of K of the first level.
pub type K = Large<FIRST>;

/// The number of coordinates at the first level: "elements of 12 coordinates
/// from F".
pub const COORDINATES: usize = K::COORDINATES;

impl<const LEVEL: usize> Large<LEVEL> {
    /// The number of coordinates.
    pub const COORDINATES: usize = Level::of(LEVEL).coordinates;

    /// Zero.
    pub const ZERO: Self = Large([Small::ZERO; MOST_COORDINATES]);

    /// One.
    pub const ONE: Self = Self::unit(0);

    /// Y.
    pub const Y: Self = Self::unit(1);

    /// The element with one in coordinate i and zero in the others.
    const fn unit(i: usize) -> Self {
        let mut coordinates = [Small::ZERO; MOST_COORDINATES];
        coordinates[i] = Small::ONE;
        Large(coordinates)
    }

    /// "An element of F is also the element of K with it in coordinate 0."
    pub fn from_small(element: Small<LEVEL>) -> Self {
        let mut coordinates = [Small::ZERO; MOST_COORDINATES];
        coordinates[0] = element;
        Large(coordinates)
    }

    /// A bit as the element 0 or 1, for "b times X" and "that bit times Δ".
    pub fn from_bit(bit: bool) -> Self {
        if bit {
            Self::ONE
        } else {
            Self::ZERO
        }
    }

    /// The element with these words: "one element is twelve 16-bit words,
    /// coordinate 0 first", "at the second an element of K is 23 words"; none
    /// when there are not as many words or one of them is above the limit.
    pub fn from_words(words: &[u16]) -> Option<Self> {
        if words.len() != Self::COORDINATES {
            return None;
        }
        let mut coordinates = [Small::ZERO; MOST_COORDINATES];
        for (coordinate, &word) in coordinates.iter_mut().zip(words) {
            *coordinate = Small::from_word(word)?;
        }
        Some(Large(coordinates))
    }

    /// The words of the element, "coordinate 0 first".
    pub fn words(self) -> Vec<u16> {
        let coordinates = &self.0[..Self::COORDINATES];
        coordinates.iter().map(|c| c.word()).collect()
    }

    /// A power by repeated products; "the power 0 is one, for Δ zero too".
    pub fn power(self, exponent: usize) -> Self {
        let mut result = Self::ONE;
        for _ in 0..exponent {
            result = result * self;
        }
        result
    }
}

/// Room for the coefficients of a product that is not reduced.
const LONG: usize = 2 * MOST_COORDINATES - 1;

/// The product of two polynomials in Y, not reduced: coefficient i + j
/// collects the products of coordinates i and j. Products with a zero
/// coordinate add nothing and are left out.
fn long_product<const LEVEL: usize>(a: Large<LEVEL>, b: Large<LEVEL>) -> [Small<LEVEL>; LONG] {
    let mut product = [Small::ZERO; LONG];
    for i in 0..Large::<LEVEL>::COORDINATES {
        for j in 0..Large::<LEVEL>::COORDINATES {
            if a.0[i] != Small::ZERO && b.0[j] != Small::ZERO {
                product[i + j] = product[i + j] + a.0[i] * b.0[j];
            }
        }
    }
    product
}

/// The remainder of division by Y^coordinates + Y^power + 1, so at the first
/// level "Y^12 = Y^3 + 1": from the highest power of Y down, a multiple of the
/// divisor takes each from Y^coordinates on away.
fn remainder<const LEVEL: usize>(dividend: [Small<LEVEL>; LONG]) -> Large<LEVEL> {
    let level = Level::of(LEVEL);
    let mut rest = dividend;
    for shift in (0..level.coordinates - 1).rev() {
        let c = rest[shift + level.coordinates];
        for power in [level.coordinates, level.power, 0] {
            rest[shift + power] = rest[shift + power] + c;
        }
    }
    Large(std::array::from_fn(|i| rest[i]))
}

/// The sum in K, coordinate by coordinate.
impl<const LEVEL: usize> Add for Large<LEVEL> {
    type Output = Self;

    fn add(self, other: Self) -> Self {
        Large(std::array::from_fn(|i| self.0[i] + other.0[i]))
    }
}

/// The product in K, "with Y^12 = Y^3 + 1", or with the rule of the level.
impl<const LEVEL: usize> Mul for Large<LEVEL> {
    type Output = Self;

    fn mul(self, other: Self) -> Self {
        remainder(long_product(self, other))
    }
}
