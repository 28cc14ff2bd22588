//! The rank of H by elimination, on words of 16 digits.
//!
//! An inverse in F is made once for each row that is taken, by powers, and a
//! factor once for each row that is cleared. That row then gets its multiple of
//! the row taken one digit after another: for digit k the multiple of the factor
//! by z^k is added to the words for which the other row's word has that digit.
//! H is no secret: branches depend on it.

/// The number of digits of an element of F.
const DIGITS: usize = 11;

/// z^11 + z^2 + 1.
const DIVISOR: u16 = 2053;

/// The largest number of rows.
const ROWS: usize = 63;

/// The largest number of words of H.
const WORDS: usize = 64 * ROWS;

/// z times an element of F.
#[inline]
fn times_z(element: u16) -> u16 {
    (element << 1) ^ (((element >> (DIGITS - 1)) & 1) * DIVISOR)
}

/// All digits of a word set where it has digit k, else none.
#[inline(always)]
fn mask(word: u16, k: usize) -> u16 {
    ((word >> k) & 1).wrapping_neg()
}

/// The product of two elements of F, by the multiples of the first that the
/// digits of the second choose.
#[inline]
fn product(a: u16, b: u16) -> u16 {
    let (mut sum, mut multiple) = (0, a);
    for k in 0..DIGITS {
        sum ^= multiple & mask(b, k);
        multiple = times_z(multiple);
    }
    sum
}

/// The inverse of an element of F that isn't zero: its power 2^11 - 2, the
/// square of its power 2^10 - 1.
fn inverse(element: u16) -> u16 {
    let power = (1..DIGITS).fold(1, |power, _| product(element, product(power, power)));
    product(power, power)
}

/// Adds the factor times another row to a row.
#[inline]
fn add(row: &mut [u16], other: &[u16], factor: u16) {
    let mut multiple = factor;
    for k in 0..DIGITS {
        for (word, &other) in row.iter_mut().zip(other) {
            *word ^= multiple & mask(other, k);
        }
        multiple = times_z(multiple);
    }
}

/// Clears a matrix of rows of n words, and answers its rank. No row changes its
/// place.
pub fn eliminate(matrix: &mut [u16], n: usize) -> usize {
    let m = matrix.len() / n;
    let mut used = [false; ROWS];
    let mut rank = 0;
    for column in 0..n {
        let entry = |row: usize| matrix[row * n + column];
        let Some(taken) = (0..m).find(|&row| !used[row] && entry(row) != 0) else {
            continue;
        };
        used[taken] = true;
        rank += 1;
        let (above, below) = matrix.split_at_mut((taken + 1) * n);
        let pivot = &above[taken * n + column..];
        let inverse = inverse(pivot[0]);
        for (row, used) in below.chunks_exact_mut(n).zip(&used[taken + 1..]) {
            if !used {
                let factor = product(inverse, row[column]);
                add(&mut row[column..], pivot, factor);
            }
        }
    }
    rank
}

/// Whether the rows of H, which has at most 63 rows of at most 64 words, lean on
/// each other. The elimination has memory of its own.
#[inline(never)]
pub fn leaning(h: &[u16], n: usize) -> bool {
    let mut matrix = [0; WORDS];
    let matrix = &mut matrix[..h.len()];
    matrix.copy_from_slice(h);
    eliminate(matrix, n) < h.len() / n
}
