//! The cases of the program `field_cases`, which compares the arithmetic of
//! crate `field` at both levels with F and K as they stand here. The form of
//! a case and of its line is described in `docs/vectors.md`.

mod cases;
mod material;

pub use cases::Cases;

use crate::large_field::Large;
use crate::level::{FIRST, SECOND};
use crate::small_field::Small;

/// The most words of a case.
pub const MOST_WORDS: usize = 320;

/// The most bytes of all cases.
pub const MOST_BYTES: usize = 65_536;

/// Declares what a case can ask for: each with its number and its name in a
/// line.
macro_rules! operations {
    ($($(#[$about:meta])* $operation:ident = $number:literal $name:literal,)*) => {
        /// What a case asks for, with its number.
        #[derive(Clone, Copy, Debug, PartialEq, Eq)]
        pub enum Operation {
            $($(#[$about])* $operation = $number,)*
        }

        /// All operations, each at the place of its number.
        pub const OPERATIONS: &[Operation] = &[$(Operation::$operation),*];

        impl Operation {
            /// The name in a line.
            fn name(self) -> &'static str {
                match self {
                    $(Operation::$operation => $name,)*
                }
            }
        }
    };
}

operations! {
    /// The sum of two elements of K.
    Plus = 1 "plus",
    /// Their product.
    Times = 2 "times",
    /// Their product, by the first one's table of multiples.
    Multiples = 3 "multiples",
    /// An element of K times one of F.
    Scaled = 4 "scaled",
    /// An element of K times 0 or 1.
    Masked = 5 "masked",
    /// A sum of elements of K times elements of F.
    Combination = 6 "combination",
    /// Whether an element of K is not zero.
    Nonzero = 7 "nonzero",
    /// Zero.
    Zero = 8 "zero",
    /// One.
    One = 9 "one",
    /// Y.
    Y = 10 "y",
    /// The product of two elements of F.
    Product = 11 "product",
    /// Whether some word is above the limit.
    Excess = 12 "excess",
    /// As [`Operation::Times`], of factors with one coordinate each.
    TermTimes = 13 "times",
    /// As [`Operation::Multiples`], of factors with one coordinate each.
    TermMultiples = 14 "multiples",
    /// The product of three elements of K.
    Chain = 15 "chain",
    /// Whether the product of two elements of K is another than the third.
    Differs = 16 "differs",
}

use Operation::*;

/// A case. Level and operation may be numbers that name none.
#[derive(Clone, Debug)]
pub struct Case {
    /// The number of the level.
    pub level: u8,
    /// The number of the operation.
    pub operation: u8,
    /// The words.
    pub words: Vec<u16>,
}

impl Case {
    /// The bytes: level, operation, the number of words and the words, two
    /// bytes for each of these, the highest first.
    pub fn bytes(&self) -> Vec<u8> {
        let count = self.words.len() as u16;
        let words = [count].into_iter().chain(self.words.iter().copied());
        let mut bytes = vec![self.level, self.operation];
        bytes.extend(words.flat_map(u16::to_be_bytes));
        bytes
    }

    /// The line, without its line end.
    pub fn line(&self) -> String {
        let result = match usize::from(self.level) {
            FIRST => self.result::<FIRST>(),
            SECOND => self.result::<SECOND>(),
            _ => None,
        };
        let Some((name, words)) = result else {
            return "refused".to_string();
        };
        let words: String = words.iter().map(|word| format!(" {word:x}")).collect();
        format!("{} {name}{words}", self.level)
    }

    /// The name and the words of the result; none when the case is refused.
    fn result<const LEVEL: usize>(&self) -> Option<(&'static str, Vec<u16>)> {
        let place = usize::from(self.operation).checked_sub(1)?;
        let &operation = OPERATIONS.get(place)?;
        let words = &self.words;
        if words.len() > MOST_WORDS {
            return None;
        }
        let result = match operation {
            Nonzero => vec![u16::from(large::<LEVEL>(words)? != Large::ZERO)],
            Differs => {
                let (a, b, c) = three::<LEVEL>(words)?;
                vec![u16::from(a * b != c)]
            }
            Excess => vec![u16::from(words.iter().any(|&word| above::<LEVEL>(word)))],
            Product => match words[..] {
                [a, b] => vec![(small::<LEVEL>(a)? * small(b)?).word()],
                _ => return None,
            },
            _ => element::<LEVEL>(operation, words)?.words(),
        };
        Some((operation.name(), result))
    }
}

/// Whether a word is above the limit of the level.
fn above<const LEVEL: usize>(word: u16) -> bool {
    word > Small::<LEVEL>::LARGEST
}

/// The element of F with this word, if there is one.
fn small<const LEVEL: usize>(word: u16) -> Option<Small<LEVEL>> {
    Small::from_word(word)
}

/// The element of K with these words, if there is one.
fn large<const LEVEL: usize>(words: &[u16]) -> Option<Large<LEVEL>> {
    Large::from_words(words)
}

/// Two elements, one after the other.
fn two<const LEVEL: usize>(words: &[u16]) -> Option<(Large<LEVEL>, Large<LEVEL>)> {
    let (a, b) = words.split_at_checked(Large::<LEVEL>::COORDINATES)?;
    Some((large(a)?, large(b)?))
}

/// Three elements, one after the other.
fn three<const LEVEL: usize>(words: &[u16]) -> Option<(Large<LEVEL>, Large<LEVEL>, Large<LEVEL>)> {
    let (a, others) = words.split_at_checked(Large::<LEVEL>::COORDINATES)?;
    let (b, c) = two(others)?;
    Some((large(a)?, b, c))
}

/// An element and a word.
fn with_word<const LEVEL: usize>(words: &[u16]) -> Option<(Large<LEVEL>, u16)> {
    let (&word, element) = words.split_last()?;
    Some((large(element)?, word))
}

/// The element with a word in one coordinate, if it has that coordinate.
fn term<const LEVEL: usize>(coordinate: u16, word: u16) -> Option<Large<LEVEL>> {
    let mut words = vec![0; Large::<LEVEL>::COORDINATES];
    *words.get_mut(usize::from(coordinate))? = word;
    large(&words)
}

/// The result of an operation that gives an element of K; none when the case
/// is refused.
fn element<const LEVEL: usize>(operation: Operation, words: &[u16]) -> Option<Large<LEVEL>> {
    match operation {
        Plus => two(words).map(|(a, b)| a + b),
        Times | Multiples => two(words).map(|(a, b)| a * b),
        TermTimes | TermMultiples => match words[..] {
            [i, a, j, b] => Some(term(i, a)? * term(j, b)?),
            _ => None,
        },
        Chain => three(words).map(|(a, b, c)| a * b * c),
        Scaled => combination(words, 1),
        Combination => combination(words, words.len() / (Large::<LEVEL>::COORDINATES + 1)),
        Masked => match with_word(words)? {
            (x, bit @ 0..=1) => Some(Large::from_bit(bit == 1) * x),
            _ => None,
        },
        Zero | One | Y if !words.is_empty() => None,
        Zero => Some(Large::ZERO),
        One => Some(Large::ONE),
        Y => Some(Large::Y),
        Nonzero | Product | Excess | Differs => None,
    }
}

/// The sum of this many terms, each an element of K and one of F that
/// multiplies it; none when the words are not those of the terms.
fn combination<const LEVEL: usize>(words: &[u16], count: usize) -> Option<Large<LEVEL>> {
    let size = Large::<LEVEL>::COORDINATES + 1;
    if words.len() != count * size {
        return None;
    }
    let mut sum = Large::ZERO;
    for term in words.chunks(size) {
        let (x, f) = with_word(term)?;
        sum = sum + Large::from_small(small(f)?) * x;
    }
    Some(sum)
}
