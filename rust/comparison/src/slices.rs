//! The numbers and the slices of the entries that take a key, by their names:
//! what their elements are, and their stated lengths.

use crate::kinds::Kind;
use crate::lent::Lent;
use reference::key::Sizes;
use reference::samples::Generator;
use reference::Refusal;

/// The size n.
pub const N: &str = "n";
/// The size m.
pub const M: &str = "m";

/// H.
pub const H: &str = "h";
/// The vector x.
pub const X: &str = "x";
/// The target y.
pub const Y: &str = "y";
/// The positions.
pub const POSITIONS: &str = "positions";
/// The mask bits u.
pub const U: &str = "u";
/// The offsets v.
pub const V: &str = "v";
/// The mask offsets r.
pub const R: &str = "r";
/// The mask factors s.
pub const S: &str = "s";
/// The weights α.
pub const ALPHA: &str = "alpha";
/// The masked witness t.
pub const T: &str = "t";
/// The verifier's numbers q.
pub const Q: &str = "q";
/// The challenge Δ.
pub const DELTA: &str = "delta";
/// The mask numbers.
pub const MASKS: &str = "masks";
/// The proof a.
pub const A: &str = "a";
/// The n + m polynomials.
pub const POLYNOMIALS: &str = "polynomials";
/// The n + m values.
pub const VALUES: &str = "values";
/// The matrix that rank clears.
pub const MATRIX: &str = "matrix";

/// The slices of a key, in the order in which they are lent.
pub const KEY: &[&str] = &[H, X, Y];

/// All slices.
const SLICES: &[Slice] = &[
    slice(H, Elements::Key, Sizes::h_words),
    slice(X, Elements::Key, Sizes::x_words),
    slice(Y, Elements::Key, Sizes::y_words),
    slice(POSITIONS, Elements::Positions, Sizes::position_bytes),
    slice(U, Elements::Bits, Sizes::bit_bytes),
    slice(V, Elements::Coordinates, Sizes::correlation_words),
    slice(R, Elements::Coordinates, Sizes::mask_words),
    slice(S, Elements::Coordinates, Sizes::mask_words),
    slice(ALPHA, Elements::Coordinates, Sizes::weight_words),
    slice(T, Elements::Bits, Sizes::bit_bytes),
    slice(Q, Elements::Coordinates, Sizes::correlation_words),
    slice(DELTA, Elements::Coordinates, Sizes::delta_words),
    slice(MASKS, Elements::Coordinates, Sizes::mask_words),
    slice(A, Elements::Coordinates, Sizes::proof_words),
    slice(POLYNOMIALS, Elements::Coordinates, Sizes::polynomial_words),
    slice(VALUES, Elements::Coordinates, Sizes::weight_words),
    slice(MATRIX, Elements::Key, Sizes::h_words),
];

/// What the elements of a slice are.
#[derive(Clone, Copy, Debug, PartialEq, Eq)]
pub enum Elements {
    /// Elements of F in the key.
    Key,
    /// Bits, as bytes 0 or 1.
    Bits,
    /// Coordinates of elements of K.
    Coordinates,
    /// Positions.
    Positions,
}

impl Elements {
    /// The refusal that applies when an element is too large.
    pub fn refusal(self) -> Refusal {
        match self {
            Elements::Key => Refusal::KeyElement,
            Elements::Bits => Refusal::Bit,
            Elements::Coordinates => Refusal::Coordinate,
            Elements::Positions => Refusal::Position,
        }
    }

    /// Whether they are words; else they are bytes.
    pub fn are_words(self) -> bool {
        matches!(self, Elements::Key | Elements::Coordinates)
    }
}

/// A slice of an entry.
#[derive(Clone, Copy, Debug)]
pub struct Slice {
    /// Its name.
    pub name: &'static str,
    /// What its elements are.
    pub elements: Elements,
    /// Its stated length.
    pub length: fn(Sizes) -> usize,
}

/// A line of the table.
const fn slice(name: &'static str, elements: Elements, length: fn(Sizes) -> usize) -> Slice {
    Slice {
        name,
        elements,
        length,
    }
}

/// The slice with this name.
pub fn named(name: &str) -> Slice {
    let slice = SLICES.iter().find(|slice| slice.name == name);
    *slice.unwrap_or_else(|| panic!("no slice has the name {name}"))
}

impl Slice {
    /// A slice of its stated length, whose words or bits are of this kind. No
    /// refusal applies to it. H has rows that do not depend on each other; about
    /// every other random y is all zero.
    pub fn of_kind(self, kind: Kind, sizes: Sizes, generator: &mut Generator) -> Lent {
        let len = (self.length)(sizes);
        match self.name {
            H => Lent::with_words(&kind.rows(sizes, None, generator), generator),
            Y if kind == Kind::Random && generator.below(2) == 0 => {
                self.of_length(len, Kind::Zero, sizes.d, generator)
            }
            DELTA => Lent::with_words(&kind.challenge(generator), generator),
            _ => self.of_length(len, kind, sizes.d, generator),
        }
    }

    /// A slice of any length, whose words or bits are of this kind.
    pub fn of_length(self, len: usize, kind: Kind, d: usize, generator: &mut Generator) -> Lent {
        match self.elements {
            Elements::Key | Elements::Coordinates => {
                Lent::with_words(&kind.words(len, generator), generator)
            }
            Elements::Bits => Lent::with_bytes(&kind.bits(len, generator), generator),
            Elements::Positions => {
                Lent::with_bytes(&positions_below(len, 1 << d, generator), generator)
            }
        }
    }

    /// A slice with any content, for an output.
    pub fn any(self, len: usize, generator: &mut Generator) -> Lent {
        if self.elements.are_words() {
            Lent::any_words(len, generator)
        } else {
            Lent::any_bytes(len, generator)
        }
    }

    /// An empty slice with a dangling pointer.
    pub fn dangling(self) -> Lent {
        if self.elements.are_words() {
            Lent::no_words()
        } else {
            Lent::no_bytes()
        }
    }
}

/// Random positions below a limit.
pub fn positions_below(len: usize, limit: usize, generator: &mut Generator) -> Vec<u8> {
    (0..len).map(|_| generator.below(limit) as u8).collect()
}
