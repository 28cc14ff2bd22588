//! Sizes, key, digits, and lent slices turned into elements.

use crate::elimination::dependent;
use crate::large_field::{COORDINATES, K};
use crate::refusal::Refusal;
use crate::small_field::F;

/// Sizes that neither refusal 1 nor refusal 2 applies to.
#[derive(Clone, Copy, Debug, PartialEq, Eq)]
pub struct Sizes {
    /// "n is 2 to 64".
    pub n: usize,
    /// "m is 1 to n - 1".
    pub m: usize,
    /// "d is the number of binary digits of n - 1".
    pub d: usize,
}

impl Sizes {
    /// The place "sizes": 1 "n below 2 or above 64", then 2 "m is 0, or at
    /// least n". No other number is formed from n and m before.
    pub fn judged(n: usize, m: usize) -> Result<Sizes, Refusal> {
        judge_n(n)?;
        if m == 0 || m >= n {
            return Err(Refusal::SizeM);
        }
        let d = number_of_digits(n - 1);
        Ok(Sizes { n, m, d })
    }

    /// Words of H: "H has m rows of n elements of F".
    pub fn h_words(self) -> usize {
        self.m * self.n
    }

    /// Words of x: "The vector x has n elements of F."
    pub fn x_words(self) -> usize {
        self.n
    }

    /// Words of y: "a target y of m elements of F".
    pub fn y_words(self) -> usize {
        self.m
    }

    /// Bytes of the positions: "n positions, one byte each".
    pub fn position_bytes(self) -> usize {
        self.n
    }

    /// Bytes of u and of t, one for each correlation (i,k).
    pub fn bit_bytes(self) -> usize {
        self.n * self.d
    }

    /// Words of v and of q, one element of K for each correlation (i,k).
    pub fn correlation_words(self) -> usize {
        COORDINATES * self.n * self.d
    }

    /// Words of r, of s and of the mask numbers: "There are d - 1 mask
    /// correlations".
    pub fn mask_words(self) -> usize {
        COORDINATES * (self.d - 1)
    }

    /// Words of one challenge in K.
    pub fn delta_words(self) -> usize {
        COORDINATES
    }

    /// Words of the weights and of the values: "n + m elements of K".
    pub fn weight_words(self) -> usize {
        COORDINATES * (self.n + self.m)
    }

    /// Words of all polynomials: "Each of the n + m polynomials has d + 1
    /// coefficients".
    pub fn polynomial_words(self) -> usize {
        COORDINATES * (self.d + 1) * (self.n + self.m)
    }

    /// Words of a: "The proof a is the d coefficients".
    pub fn proof_words(self) -> usize {
        COORDINATES * self.d
    }

    /// The stated length of the slice with this name, in words or bytes.
    #[inline]
    pub fn length_of(self, slice: &str) -> usize {
        match slice {
            "h" | "matrix" => self.h_words(),
            "x" => self.x_words(),
            "y" => self.y_words(),
            "positions" => self.position_bytes(),
            "u" | "t" => self.bit_bytes(),
            "v" | "q" => self.correlation_words(),
            "r" | "s" | "masks" => self.mask_words(),
            "delta" => self.delta_words(),
            "alpha" | "values" => self.weight_words(),
            "polynomials" => self.polynomial_words(),
            "a" => self.proof_words(),
            _ => unreachable!("no entry takes a slice {slice}"),
        }
    }

    /// The place "slices": 3 "a lent slice isn't of its stated length", for
    /// slices each with its name and its length.
    pub fn judge_lengths<'a>(
        self,
        lent: impl IntoIterator<Item = &'a (&'a str, usize)>,
    ) -> Result<(), Refusal> {
        let mut lent = lent.into_iter();
        if lent.all(|&(slice, length)| length == self.length_of(slice)) {
            Ok(())
        } else {
            Err(Refusal::SliceLength)
        }
    }
}

/// 1 "n below 2 or above 64", of the place "sizes".
pub fn judge_n(n: usize) -> Result<(), Refusal> {
    if (2..=64).contains(&n) {
        Ok(())
    } else {
        Err(Refusal::SizeN)
    }
}

/// Slices that are lent, each as its name and its length: a list of the
/// variables that hold them.
#[macro_export]
macro_rules! lent {
    ($($slice:ident),*) => {
        [$((stringify!($slice), $slice.len())),*]
    };
}

/// The number of binary digits of a number above 0, counted by halving:
/// "1 for n = 2, 2 for n = 3, 6 for n = 64".
pub fn number_of_digits(number: usize) -> usize {
    let mut count = 0;
    let mut rest = number;
    while rest > 0 {
        count += 1;
        rest /= 2;
    }
    count
}

/// The d binary digits of a number, "highest digit first: 3 is written (0 1 1)
/// when d = 3".
pub fn digits(number: usize, d: usize) -> Vec<bool> {
    let mut lowest_first = Vec::new();
    let mut rest = number;
    for _ in 0..d {
        lowest_first.push(rest % 2 == 1);
        rest /= 2;
    }
    lowest_first.reverse();
    lowest_first
}

/// "The key is n, m, H and x", and "y is now part of the key", as it is lent.
#[derive(Clone, Copy, Debug)]
pub struct Key<'a> {
    /// The size n.
    pub n: usize,
    /// The size m.
    pub m: usize,
    /// H, row after row.
    pub h: &'a [u16],
    /// The vector x.
    pub x: &'a [u16],
    /// The target y: "a y of zeros means the old key without a target".
    pub y: &'a [u16],
}

impl Key<'_> {
    /// The place "sizes": 1, then 2.
    pub fn sizes(self) -> Result<Sizes, Refusal> {
        Sizes::judged(self.n, self.m)
    }

    /// The place "slices": 3 "a lent slice isn't of its stated length", for the
    /// key and further slices, each with its name and its length.
    pub fn judge_lengths(self, sizes: Sizes, others: &[(&str, usize)]) -> Result<(), Refusal> {
        let Key { h, x, y, .. } = self;
        let key = lent![h, x, y];
        sizes.judge_lengths(key.iter().chain(others))
    }

    /// The place "key": 4 "an element of H or x is above 2047", or one of y,
    /// then 15 of the rows of H, "after 4 and 14 and before 5". Sizes and
    /// lengths are judged before.
    pub fn judged(self, sizes: Sizes) -> Result<WellFormed, Refusal> {
        let key = self.elements(sizes)?;
        judge_rows(&key.h)?;
        Ok(key)
    }

    /// The elements of the key, or 4; nothing is said of how the rows of H stand
    /// to each other. H comes "row after row".
    pub fn elements(self, sizes: Sizes) -> Result<WellFormed, Refusal> {
        let h = elements_of_f(self.h)?;
        let x = elements_of_f(self.x)?;
        let y = elements_of_f(self.y)?;
        Ok(WellFormed {
            sizes,
            h: rows(&h, sizes.n),
            x,
            y,
        })
    }
}

/// 15 "when some coefficients from F, not all zero, combine the rows of H to
/// zero".
pub fn judge_rows(h: &[Vec<F>]) -> Result<(), Refusal> {
    if dependent(h) {
        Err(Refusal::DependentRows)
    } else {
        Ok(())
    }
}

/// A key that "is well formed": "none of refusals 1 to 4 applies to it", and it
/// "now has rows that don't lean on each other".
#[derive(Clone, Debug)]
pub struct WellFormed {
    /// n, m and d.
    pub sizes: Sizes,
    /// The m rows of H.
    pub h: Vec<Vec<F>>,
    /// The vector x.
    pub x: Vec<F>,
    /// The target y.
    pub y: Vec<F>,
}

/// Words as elements of F, or 4 "an element of H or x is above 2047", or one of
/// y.
pub fn elements_of_f(words: &[u16]) -> Result<Vec<F>, Refusal> {
    words
        .iter()
        .map(|&word| F::from_word(word).ok_or(Refusal::KeyElement))
        .collect()
}

/// Words as elements of K, "one element is twelve 16-bit words", or 6
/// "a coordinate of an element of K is above 2047".
pub fn elements_of_k(words: &[u16]) -> Result<Vec<K>, Refusal> {
    words
        .chunks(COORDINATES)
        .map(|element| K::from_words(element).ok_or(Refusal::Coordinate))
        .collect()
}

/// Bytes as bits, "Bits are lent as bytes 0 or 1", or 5 "a byte of u or t is
/// above 1".
pub fn bits(bytes: &[u8]) -> Result<Vec<bool>, Refusal> {
    bytes
        .iter()
        .map(|&byte| match byte {
            0 => Ok(false),
            1 => Ok(true),
            _ => Err(Refusal::Bit),
        })
        .collect()
}

/// The digits w(i,k) of all positions, or 7 "a position is 2^d or more":
/// "w(i,k) is digit k of position i".
pub fn witness(positions: &[u8], d: usize) -> Result<Vec<Vec<bool>>, Refusal> {
    let codes = 1usize << d;
    positions
        .iter()
        .map(|&position| {
            let position = usize::from(position);
            if position >= codes {
                return Err(Refusal::Position);
            }
            Ok(digits(position, d))
        })
        .collect()
}

/// 16 "when prove is lent a spare code": a row of digits that are those of no
/// column. None of the positions is too large.
pub fn judge_columns(w: &[Vec<bool>], sizes: Sizes) -> Result<(), Refusal> {
    let columns: Vec<Vec<bool>> = (0..sizes.n).map(|j| digits(j, sizes.d)).collect();
    if w.iter().all(|row| columns.contains(row)) {
        Ok(())
    } else {
        Err(Refusal::SpareCode)
    }
}

/// A list cut into rows: "row after row, k = 0 first".
pub fn rows<T: Clone>(list: &[T], width: usize) -> Vec<Vec<T>> {
    list.chunks(width).map(<[T]>::to_vec).collect()
}
