//! The n + m polynomials, and the n + m values of the verifier.

use crate::key::{digits, WellFormed};
use crate::large_field::K;
use crate::polynomial::Polynomial;

/// "The masked witness t(i,k) is w(i,k) exclusive-or u(i,k)."
pub fn masked_witness(w: &[Vec<bool>], u: &[Vec<bool>]) -> Vec<Vec<bool>> {
    w.iter()
        .zip(u)
        .map(|(w_row, u_row)| w_row.iter().zip(u_row).map(|(w, u)| w ^ u).collect())
        .collect()
}

/// "let b be w(i,k) exclusive-or the complement of digit k of j", for all k.
/// The verifier calls it with t in place of w.
fn bits_of_column(row: &[bool], j: usize) -> Vec<bool> {
    let column = digits(j, row.len());
    row.iter()
        .zip(column)
        .map(|(w, digit)| w ^ !digit)
        .collect()
}

/// "The factor is b times X plus v(i,k)".
fn factor(b: bool, v: K) -> Polynomial {
    Polynomial::new(vec![v, K::from_bit(b)])
}

/// "z(i,j) is the product of its d factors." The arguments are rows i of w
/// and of v, and j.
pub fn z(w_row: &[bool], v_row: &[K], j: usize) -> Polynomial {
    let mut product = Polynomial::constant(K::ONE);
    for (b, &v) in bits_of_column(w_row, j).into_iter().zip(v_row) {
        product = &product * &factor(b, v);
    }
    product
}

/// All z(i,j), row i first.
fn all_z(key: &WellFormed, w: &[Vec<bool>], v: &[Vec<K>]) -> Vec<Vec<Polynomial>> {
    let n = key.sizes.n;
    (0..n)
        .map(|i| (0..n).map(|j| z(&w[i], &v[i], j)).collect())
        .collect()
}

/// "Polynomial j, for j below n: the sum of z(i,j) over all rows i, minus
/// X^d."
fn column_polynomial(key: &WellFormed, z: &[Vec<Polynomial>], j: usize) -> Polynomial {
    let mut sum = Polynomial::zero();
    for row in z {
        sum = sum + row[j].clone();
    }
    sum + Polynomial::x_to(key.sizes.d)
}

/// "x'(i) is the sum over j of z(i,j) times x(j)", for all rows i.
fn x_prime(key: &WellFormed, z: &[Vec<Polynomial>]) -> Vec<Polynomial> {
    let mut list = Vec::new();
    for row in z {
        let mut sum = Polynomial::zero();
        for (z, &x) in row.iter().zip(&key.x) {
            sum = sum + z * &Polynomial::constant(K::from_small(x));
        }
        list.push(sum);
    }
    list
}

/// "Polynomial n + e, for e below m: the sum over i of H(e,i) times x'(i)"; it
/// "loses y(e) times X^d".
fn row_polynomial(key: &WellFormed, x_prime: &[Polynomial], e: usize) -> Polynomial {
    let mut sum = Polynomial::zero();
    for (&h, x_prime) in key.h[e].iter().zip(x_prime) {
        sum = sum + &Polynomial::constant(K::from_small(h)) * x_prime;
    }
    let y = Polynomial::constant(K::from_small(key.y[e]));
    sum + &y * &Polynomial::x_to(key.sizes.d)
}

/// "the n + m polynomials": polynomial j for each j below n, then polynomial
/// n + e for each e below m.
pub fn polynomials(key: &WellFormed, w: &[Vec<bool>], v: &[Vec<K>]) -> Vec<Polynomial> {
    let z = all_z(key, w, v);
    let x_prime = x_prime(key, &z);
    let columns = (0..key.sizes.n).map(|j| column_polynomial(key, &z, j));
    let rows = (0..key.sizes.m).map(|e| row_polynomial(key, &x_prime, e));
    columns.chain(rows).collect()
}

/// z(i,j) of the verifier: "replaces w by t, each factor by q plus that bit
/// times Δ".
pub fn z_value(t_row: &[bool], q_row: &[K], delta: K, j: usize) -> K {
    let mut product = K::ONE;
    for (b, &q) in bits_of_column(t_row, j).into_iter().zip(q_row) {
        product = product * (q + K::from_bit(b) * delta);
    }
    product
}

/// "The verifier replaces w by t, each factor by q plus that bit times Δ, and
/// X^d by Δ^d, which gives n + m values, value j from polynomial j." Value n + e
/// "loses y(e) times Δ^d".
pub fn values(key: &WellFormed, t: &[Vec<bool>], q: &[Vec<K>], delta: K) -> Vec<K> {
    let n = key.sizes.n;
    let row = |i: usize| (0..n).map(move |j| z_value(&t[i], &q[i], delta, j));
    let z: Vec<Vec<K>> = (0..n).map(|i| row(i).collect()).collect();
    let mut values = Vec::new();
    for j in 0..n {
        let mut sum = K::ZERO;
        for row in &z {
            sum = sum + row[j];
        }
        values.push(sum + delta.power(key.sizes.d));
    }
    let mut x_prime = Vec::new();
    for row in &z {
        let mut sum = K::ZERO;
        for (&z, &x) in row.iter().zip(&key.x) {
            sum = sum + z * K::from_small(x);
        }
        x_prime.push(sum);
    }
    for (h_row, &y) in key.h.iter().zip(&key.y) {
        let mut sum = K::ZERO;
        for (&h, &x_prime) in h_row.iter().zip(&x_prime) {
            sum = sum + K::from_small(h) * x_prime;
        }
        values.push(sum + K::from_small(y) * delta.power(key.sizes.d));
    }
    values
}
