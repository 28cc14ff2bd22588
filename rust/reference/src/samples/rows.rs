//! Rows of H: orders that solve them, and rows that do not lean on each other.

use super::Generator;
use crate::key::Key;
use crate::small_field::F;

/// The element of F with this number, which is at most 2047.
pub fn small(word: u16) -> F {
    F::from_word(word).expect("a word up to 2047")
}

/// The vector x in the order of the positions: "Entry i of x in that order is
/// the entry of x that position i names". All positions are below n.
pub fn in_order(x: &[u16], positions: &[u8]) -> Vec<u16> {
    positions
        .iter()
        .map(|&position| x[usize::from(position)])
        .collect()
}

/// The sum of the products of the entries of a row of H and of a vector.
fn sum_of_products(row: &[u16], entries: &[u16]) -> F {
    let products = row.iter().zip(entries);
    products.fold(F::ZERO, |sum, (&h, &x)| sum + small(h) * small(x))
}

/// H times a vector. All words are at most 2047.
pub fn times(h: &[u16], entries: &[u16]) -> Vec<u16> {
    let rows = h.chunks(entries.len());
    rows.map(|row| sum_of_products(row, entries).word())
        .collect()
}

/// Whether the positions are 0 to n - 1, each once, and "H times x' must equal
/// y", where x' is x in that order. All words are at most 2047.
pub fn solved(key: Key<'_>, positions: &[u8]) -> bool {
    let mut sorted = positions.to_vec();
    sorted.sort_unstable();
    if !sorted.into_iter().map(usize::from).eq(0..key.n) {
        return false;
    }
    times(key.h, &in_order(key.x, positions)) == key.y
}

/// The word that times this one, which isn't 0, is a product.
pub fn quotient(product: u16, divisor: u16) -> u16 {
    let inverse = small(divisor).inverse().expect("the divisor isn't 0");
    (small(product) * inverse).word()
}

/// A row of H with random entries, one of them changed so that the sum of
/// H(e,i) times entry i is zero.
pub fn orthogonal_row(entries: &[u16], generator: &mut Generator) -> Vec<u16> {
    let mut row = generator.words(entries.len());
    let places: Vec<usize> = (0..entries.len()).filter(|&i| entries[i] != 0).collect();
    if places.is_empty() {
        return row;
    }
    let place = places[generator.below(places.len())];
    let mut others = F::ZERO;
    for i in (0..entries.len()).filter(|&i| i != place) {
        others = others + small(row[i]) * small(entries[i]);
    }
    row[place] = quotient(others.word(), entries[place]);
    row
}

/// Rows of which none is a sum of multiples of the others. Each is kept with
/// one in the first place that isn't zero once multiples of the rows before it
/// are taken away.
#[derive(Default)]
struct Independent(Vec<(usize, Vec<F>)>);

impl Independent {
    /// Whether a row is no sum of multiples of these rows; then it joins them.
    fn join(&mut self, row: &[u16]) -> bool {
        let mut rest: Vec<F> = row.iter().map(|&word| small(word)).collect();
        let clear = |rest: &mut [F], place: usize, other: &[F]| {
            let factor = rest[place];
            for (entry, &other) in rest.iter_mut().zip(other) {
                *entry = *entry + factor * other;
            }
        };
        for (place, other) in &self.0 {
            clear(&mut rest, *place, other);
        }
        let Some(place) = rest.iter().position(|&entry| entry != F::ZERO) else {
            return false;
        };
        let inverse = rest[place].inverse().expect("the entry isn't zero");
        rest.iter_mut().for_each(|entry| *entry = *entry * inverse);
        self.0.push((place, rest));
        true
    }
}

/// Whether no sum of multiples of the rows of H, with factors from F that are
/// not all zero, is zero.
pub fn independent(h: &[u16], n: usize) -> bool {
    let mut rows = Independent::default();
    h.chunks(n).all(|row| rows.join(row))
}

/// The number of rows of H that are no sums of multiples of those before them.
/// It is the rank, found in another way than that of the entry rank.
pub fn joined_rows(h: &[u16], n: usize) -> usize {
    let mut rows = Independent::default();
    h.chunks(n).filter(|row| rows.join(row)).count()
}

/// m rows of H that do not depend on each other. Each is drawn, and drawn again
/// while it depends on those before it.
pub fn independent_rows(m: usize, mut draw: impl FnMut() -> Vec<u16>) -> Vec<u16> {
    let mut rows = Independent::default();
    let mut h = Vec::new();
    for _ in 0..m {
        let mut row = draw();
        while !rows.join(&row) {
            row = draw();
        }
        h.extend(row);
    }
    h
}

/// m rows of H with one in column e of row e, and zero in the others; m is at
/// most n.
pub fn unit_rows(n: usize, m: usize) -> Vec<u16> {
    let mut h = vec![0; m * n];
    h.iter_mut().step_by(n + 1).for_each(|entry| *entry = 1);
    h
}
