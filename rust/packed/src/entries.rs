//! The entries.

use crate::checks::{elements, keyed, ranked, Slices};
use crate::element::{load, plus, store, Element, Multiples, ZERO};
use crate::elimination::eliminate;
use crate::fold;
use crate::rows::{COEFFICIENTS, POLYNOMIALS};
use reference::{lent, Key, Refusal};

/// The number of an answer.
fn number(answer: Result<(), Refusal>) -> u32 {
    answer.map_or_else(Refusal::number, |()| 0)
}

/// The entry sum.
pub fn sum(a: &[u16], b: &[u16], out: &mut [u16]) -> u32 {
    number(elements(a, b, out).map(|(a, b, out)| {
        store(&[plus(load(a, 0), load(b, 0))], out);
    }))
}

/// The entry product.
pub fn product(a: &[u16], b: &[u16], out: &mut [u16]) -> u32 {
    number(elements(a, b, out).map(|(a, b, out)| {
        store(&[Multiples::of(load(b, 0)).times(&load(a, 0))], out);
    }))
}

/// The entry rank; the rank is written too.
pub fn rank(n: usize, m: usize, h: &[u16], matrix: &mut [u16], rank: &mut usize) -> u32 {
    number(ranked(n, m, h, matrix).map(|()| {
        matrix.copy_from_slice(h);
        *rank = eliminate(matrix, n);
    }))
}

/// The entry constraints.
pub fn constraints(
    key: Key<'_>,
    positions: &[u8],
    u: &[u8],
    v: &[u16],
    t: &mut [u8],
    polynomials: &mut [u16],
) -> u32 {
    let slices = Slices {
        lent: &lent![positions, u, v, t, polynomials],
        bits: u,
        elements: &[v],
        positions,
        columns_alone: false,
    };
    number(keyed(key, slices).map(|key| {
        let mut sums = [ZERO; COEFFICIENTS * POLYNOMIALS];
        key.polynomials(positions, v, &mut sums);
        key.masked_witness(positions, u, t);
        store(&sums, polynomials);
    }))
}

/// The entry values.
pub fn values(key: Key<'_>, t: &[u8], q: &[u16], delta: &[u16], values: &mut [u16]) -> u32 {
    let slices = Slices {
        lent: &lent![t, q, delta, values],
        bits: t,
        elements: &[q, delta],
        positions: &[],
        columns_alone: false,
    };
    number(keyed(key, slices).map(|key| {
        let mut sums = [ZERO; POLYNOMIALS];
        key.values(t, q, load(delta, 0), &mut sums);
        store(&sums, values);
    }))
}

/// The entry prove.
#[allow(clippy::too_many_arguments)]
pub fn prove(
    key: Key<'_>,
    positions: &[u8],
    u: &[u8],
    v: &[u16],
    r: &[u16],
    s: &[u16],
    alpha: &[u16],
    t: &mut [u8],
    a: &mut [u16],
) -> u32 {
    let slices = Slices {
        lent: &lent![positions, u, v, r, s, alpha, t, a],
        bits: u,
        elements: &[v, r, s, alpha],
        positions,
        columns_alone: true,
    };
    number(keyed(key, slices).and_then(|key| {
        let mut tops = [ZERO; POLYNOMIALS];
        key.tops(positions, &mut tops);
        let any = |all: u64, top: &Element| all | top[0] | top[1] | top[2];
        if tops.iter().fold(0, any) != 0 {
            return Err(Refusal::TopCoefficient);
        }
        key.masked_witness(positions, u, t);
        let mut sums = [ZERO; COEFFICIENTS];
        fold::polynomials(key, positions, v, alpha, &mut sums[..key.d]);
        for k in 0..key.d - 1 {
            sums[k] = plus(sums[k], load(r, k));
            sums[k + 1] = plus(sums[k + 1], load(s, k));
        }
        store(&sums, a);
        Ok(())
    }))
}

/// The entry verify.
pub fn verify(
    key: Key<'_>,
    t: &[u8],
    q: &[u16],
    delta: &[u16],
    masks: &[u16],
    alpha: &[u16],
    a: &[u16],
) -> u32 {
    let slices = Slices {
        lent: &lent![t, q, delta, masks, alpha, a],
        bits: t,
        elements: &[q, delta, masks, alpha, a],
        positions: &[],
        columns_alone: false,
    };
    let key = match keyed(key, slices) {
        Ok(key) => key,
        Err(refusal) => return refusal.number(),
    };
    let challenge = load(delta, 0);
    let delta = Multiples::of(challenge);
    let sum = fold::values(key, t, q, &delta, alpha);
    let expected = plus(sum, fold::mask_sum(masks, key.d - 1, &challenge));
    if fold::evaluated(a, key.d, &delta) == expected {
        0
    } else {
        255
    }
}
