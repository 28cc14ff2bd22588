//! K on packed words, the arithmetic of the library in Rust.
//!
//! An element is three 64-bit words of four 16-bit lanes: coordinate i is lane
//! i mod 4 of word i / 4.

/// The number of coordinates of an element.
pub const COORDINATES: usize = 12;

/// The number of words of an element.
const WORDS: usize = 3;

/// The number of digits of a coordinate.
const DIGITS: usize = 11;

/// z^11 + z^2 + 1.
const DIVISOR: u64 = 2053;

/// The lowest bit of each lane.
const LOW_BITS: u64 = 0x0001_0001_0001_0001;

/// An element of K.
pub type Element = [u64; WORDS];

/// Zero.
pub const ZERO: Element = [0; WORDS];

/// One.
pub const ONE: Element = [1, 0, 0];

/// The multiples of an element by z^0 to z^10, one after another.
pub struct Multiples([u64; WORDS * DIGITS]);

/// Four lanes in one word.
#[inline(always)]
fn joined(lanes: &[u16]) -> u64 {
    let lane = |i: usize| u64::from(lanes[i]) << (16 * i);
    lane(0) | lane(1) | lane(2) | lane(3)
}

/// Element i of lent words.
#[inline]
pub fn load(words: &[u16], i: usize) -> Element {
    let words = &words[COORDINATES * i..][..COORDINATES];
    [
        joined(&words[..4]),
        joined(&words[4..8]),
        joined(&words[8..]),
    ]
}

/// Writes elements, one after another.
#[inline]
pub fn store(elements: &[Element], out: &mut [u16]) {
    for (element, words) in elements.iter().zip(out.chunks_exact_mut(COORDINATES)) {
        for (i, word) in words.iter_mut().enumerate() {
            *word = (element[i / 4] >> (16 * (i % 4))) as u16;
        }
    }
}

/// The sum of two elements.
#[inline]
pub fn plus(a: Element, b: Element) -> Element {
    [a[0] ^ b[0], a[1] ^ b[1], a[2] ^ b[2]]
}

/// The mask of a bit: all digits set for 1, none for 0.
#[inline]
pub fn mask(bit: u64) -> u64 {
    bit.wrapping_neg()
}

/// The element where the mask is set, else zero.
#[inline]
pub fn masked(a: Element, mask: u64) -> Element {
    [a[0] & mask, a[1] & mask, a[2] & mask]
}

/// z times each lane, with z^11 = z^2 + 1.
#[inline]
fn times_z(x: u64) -> u64 {
    (x << 1) ^ (((x >> 10) & LOW_BITS) * DIVISOR)
}

/// Y times an element, with Y^12 = Y^3 + 1.
#[inline]
fn times_y(x: Element) -> Element {
    let top = x[2] >> 48;
    [
        ((x[0] << 16) | top) ^ (top << 48),
        (x[1] << 16) | (x[0] >> 48),
        (x[2] << 16) | (x[1] >> 48),
    ]
}

impl Multiples {
    /// The table of an element.
    #[inline]
    pub fn of(element: Element) -> Multiples {
        let mut table = [0; WORDS * DIGITS];
        table[..WORDS].copy_from_slice(&element);
        for i in WORDS..WORDS * DIGITS {
            table[i] = times_z(table[i - WORDS]);
        }
        Multiples(table)
    }

    /// One word of `scaled`. The masks of one word in one loop: other forms of
    /// it are compiled to branches, which take five times as long.
    #[inline]
    fn word(&self, at: usize, factor: u64) -> u64 {
        let mut word = 0;
        for k in 0..DIGITS {
            word ^= self.0[WORDS * k + at] & ((factor >> k) % 2 * u64::MAX);
        }
        word
    }

    /// The element times an element of F: the sum of the multiples that its
    /// digits choose.
    #[inline]
    pub fn scaled(&self, factor: u64) -> Element {
        [
            self.word(0, factor),
            self.word(1, factor),
            self.word(2, factor),
        ]
    }

    /// The element times another.
    #[inline(never)]
    pub fn times(&self, other: &Element) -> Element {
        let mut product = ZERO;
        for i in (0..COORDINATES).rev() {
            let coordinate = (other[i / 4] >> (16 * (i % 4))) & 0xffff;
            product = plus(self.scaled(coordinate), times_y(product));
        }
        product
    }
}

/// A sum of elements times elements of F, one sum for each digit of the
/// factors.
pub struct Sums([u64; WORDS * DIGITS]);

impl Sums {
    /// The empty sum.
    #[inline]
    pub fn new() -> Sums {
        Sums([0; WORDS * DIGITS])
    }

    /// Adds an element times an element of F.
    #[inline]
    pub fn add(&mut self, element: Element, factor: u64) {
        for k in 0..DIGITS {
            let chosen = masked(element, (factor >> k) % 2 * u64::MAX);
            let sum = &mut self.0[WORDS * k..WORDS * (k + 1)];
            for (sum, word) in sum.iter_mut().zip(chosen) {
                *sum ^= word;
            }
        }
    }

    /// The sum.
    #[inline]
    pub fn total(&self) -> Element {
        let mut total = ZERO;
        for k in (0..DIGITS).rev() {
            let sum = &self.0[WORDS * k..WORDS * (k + 1)];
            for (total, word) in total.iter_mut().zip(sum) {
                *total = times_z(*total) ^ word;
            }
        }
        total
    }
}
