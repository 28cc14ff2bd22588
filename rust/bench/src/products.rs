//! The number of products in K that an entry of the library needs, for n rows
//! of d digits. Those for a power of the challenge and for a polynomial at the
//! challenge are counted, a product with an element of F is not.

/// Constraints: digit t takes each of the 2^t products of the digits before,
/// which has t + 1 coefficients, times v(i,k).
pub fn constraints(n: usize, d: usize) -> usize {
    n * (0..d).map(|t| (1 << t) * (t + 1)).sum::<usize>()
}

/// Values: digit t takes each of the 2^t products of the digits before times
/// both factors. The power of the challenge takes d.
pub fn values(n: usize, d: usize) -> usize {
    n * (0..d).map(|t| 2 << t).sum::<usize>() + d
}

/// Prove: digit k folds 2^(d - k) columns into half of them, one product for
/// each of k + 1 coefficients.
pub fn prove(n: usize, d: usize) -> usize {
    n * (0..d).map(|k| (1 << (d - 1 - k)) * (k + 1)).sum::<usize>()
}

/// Verify: the weights of the columns and of each row times the challenge, one
/// product for each pair of the first digit and two for each further pair; then
/// the power of the challenge and its product with the sum of the columns'
/// weights, two for each mask number, and a. The algorithm in Rust takes one
/// less: it multiplies that sum by the challenge d times.
pub fn verify(n: usize, d: usize) -> usize {
    let pairs = 1 << (d - 1);
    n + n * (1 + pairs + 2 * (pairs - 1)) + (d + 1) + 2 * (d - 1) + d
}
