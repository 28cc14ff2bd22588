//! prove and verify.

use crate::{constraints_of, large, tops, values_of, verdict_of};
use reference::key::number_of_digits;
use reference::large_field::{COORDINATES, K};
use reference::samples::{independent, Generator, Lent, Material, Sample};
use reference::{Refusal, Verdict};

/// Sizes with every d, powers of two and their neighbours.
const SIZES: [(usize, usize); 16] = [
    (2, 1),
    (3, 1),
    (3, 2),
    (4, 2),
    (5, 2),
    (7, 6),
    (8, 3),
    (9, 1),
    (12, 11),
    (16, 4),
    (17, 8),
    (24, 3),
    (32, 2),
    (33, 16),
    (63, 1),
    (64, 27),
];

#[test]
fn proofs_are_accepted() {
    let mut generator = Generator::new(20);
    for (n, m) in SIZES {
        let sample = Sample::solving(n, m, &mut generator);
        let (t, a) = sample.proof().expect("the positions solve the key");
        assert_eq!(verdict_of(&sample, &t, &a), Verdict::Accepted);
    }
}

#[test]
fn proofs_are_accepted_at_zero() {
    let mut generator = Generator::new(21);
    for (n, m) in &SIZES[..10] {
        let mut sample = Sample::solving(*n, *m, &mut generator);
        sample.delta.fill(0);
        sample.make_honest();
        let (t, a) = sample.proof().expect("the positions solve the key");
        assert_eq!(verdict_of(&sample, &t, &a), Verdict::Accepted);
        if sample.d > 1 {
            // Mask 0 counts fully, the others not at all.
            sample.masks[3] ^= 1;
            assert_eq!(verdict_of(&sample, &t, &a), Verdict::Rejected);
            sample.masks[3] ^= 1;
        }
        if sample.d > 2 {
            sample.masks[COORDINATES + 3] ^= 1;
            assert_eq!(verdict_of(&sample, &t, &a), Verdict::Accepted);
        }
    }
}

#[test]
fn the_proof_is_the_weighted_sum_with_the_mask() {
    let mut generator = Generator::new(22);
    for (n, m) in &SIZES[..12] {
        let sample = Sample::solving(*n, *m, &mut generator);
        let (t, polynomials) = constraints_of(&sample);
        let (proof_t, a) = sample.proof().expect("the positions solve the key");
        assert_eq!(proof_t, t);
        let alpha = large(&sample.alpha);
        let (r, s) = (large(&sample.r), large(&sample.s));
        for (power, &coefficient) in large(&a).iter().enumerate() {
            let mut stated = K::ZERO;
            for (&alpha, polynomial) in alpha.iter().zip(&polynomials) {
                stated = stated + alpha * polynomial[power];
            }
            if power < r.len() {
                stated = stated + r[power];
            }
            if power > 0 {
                stated = stated + s[power - 1];
            }
            assert_eq!(coefficient, stated, "coefficient {power} for n = {n}");
        }
    }
}

/// The equation with numbers that are not honest: verify accepts exactly the
/// a for which it holds.
#[test]
fn the_equation_alone_decides() {
    let mut generator = Generator::new(23);
    let mut cases = 0;
    for (n, m) in &SIZES[..12] {
        for zero in 0..3 {
            let mut sample = Sample::solving(*n, *m, &mut generator);
            sample.h = generator.matrix(*n, *m);
            sample.q = generator.words(sample.q.len());
            sample.masks = generator.words(sample.masks.len());
            match zero {
                1 => sample.alpha.fill(0),
                2 => sample.delta.fill(0),
                _ => {}
            }
            let t = generator.bits(sample.u.len());
            let delta = large(&sample.delta)[0];
            let mut right = K::ZERO;
            for (value, alpha) in values_of(&sample, &t).into_iter().zip(large(&sample.alpha)) {
                right = right + value * alpha;
            }
            let mut power = K::ONE;
            for mask in large(&sample.masks) {
                right = right + power * mask;
                power = power * delta;
            }
            // a(0) is what the other coefficients leave.
            let mut a = large(&generator.words(COORDINATES * sample.d));
            let mut others = K::ZERO;
            let mut power = delta;
            for &coefficient in &a[1..] {
                others = others + coefficient * power;
                power = power * delta;
            }
            a[0] = right + others;
            let words: Vec<u16> = a.iter().flat_map(|a| a.words()).collect();
            assert_eq!(verdict_of(&sample, &t, &words), Verdict::Accepted);
            for place in 0..COORDINATES {
                let mut other = words.clone();
                other[place] ^= 1 << generator.below(11);
                assert_eq!(verdict_of(&sample, &t, &other), Verdict::Rejected);
                cases += 1;
            }
        }
    }
    assert_eq!(cases, 12 * 3 * COORDINATES);
}

/// The slices that are changed below.
const SLICES: [&str; 9] = ["h", "x", "y", "t", "q", "delta", "masks", "alpha", "a"];

/// The material with another bit or another word in a slice that is not empty,
/// its rows of H still independent.
fn changed(material: &Material, slice: &str, generator: &mut Generator) -> Material {
    loop {
        let mut other = material.clone();
        let mut lent = other.lent(slice);
        let place = generator.below(lent.length());
        let difference = match lent {
            Lent::Bytes(_) => 1,
            Lent::Words(_) => 1 + generator.below(2047) as u16,
        };
        lent.change(place, |old| old ^ difference);
        if independent(&other.sample.h, other.sample.n) {
            return other;
        }
    }
}

#[test]
fn changed_slices_are_rejected() {
    let mut generator = Generator::new(24);
    let mut tried = [0; SLICES.len()];
    let mut rejected = [0; SLICES.len()];
    for (n, m) in &SIZES[..12] {
        let mut material = Material::of(Sample::solving(*n, *m, &mut generator));
        for round in 0..12 * SLICES.len() {
            let index = round % SLICES.len();
            if material.lent(SLICES[index]).length() == 0 {
                continue;
            }
            let Material { sample, t, a } = changed(&material, SLICES[index], &mut generator);
            tried[index] += 1;
            if verdict_of(&sample, &t, &a) == Verdict::Rejected {
                rejected[index] += 1;
            }
        }
    }
    for (index, name) in SLICES.iter().enumerate() {
        let (changed, rejected) = (tried[index], rejected[index]);
        assert!(changed >= 100, "{name}: {changed} changes");
        // A change of a or of a mask number changes one side alone.
        if ["masks", "a"].contains(name) {
            assert_eq!(rejected, changed, "{name}");
        }
        assert!(
            100 * rejected >= 95 * changed,
            "{name}: {rejected} of {changed}"
        );
    }
}

#[test]
fn tops_count_whatever_the_weights_are() {
    let mut generator = Generator::new(25);
    let mut refused = 0;
    for (n, m) in &SIZES[..10] {
        let mut sample = Sample::solving(*n, *m, &mut generator);
        sample.alpha.fill(0);
        assert!(sample.proof().is_ok());
        sample.positions[0] = sample.positions[1];
        assert_eq!(sample.proof(), Err(Refusal::TopCoefficient));
        refused += 1;
    }
    assert_eq!(refused, 10);
}

#[test]
fn a_wrong_top_in_each_polynomial_is_found() {
    // One row of H at a time has another product; all weights are zero.
    let mut generator = Generator::new(26);
    for e in 0..4 {
        let mut sample = Sample::solving(6, 4, &mut generator);
        sample.alpha.fill(0);
        let i = (0..6)
            .find(|&i| sample.x[usize::from(sample.positions[i])] != 0)
            .expect("x is not zero");
        sample.h[6 * e + i] ^= 1;
        assert!(independent(&sample.h, 6));
        assert_eq!(sample.proof(), Err(Refusal::TopCoefficient));
        // Another target of this row puts it right, and of no other row.
        let y = sample.y.clone();
        sample.set_target();
        assert!(sample.proof().is_ok());
        let differing: Vec<usize> = (0..4).filter(|&k| y[k] != sample.y[k]).collect();
        assert_eq!(differing, [e]);
    }
}

/// Each number of a byte that is no column, for every n: "n to 2^d - 1" is a spare
/// code, which constraints takes and prove does not, and more is too large.
#[test]
fn spare_codes_are_told_from_columns() {
    let mut generator = Generator::new(27);
    let mut spare_codes = 0;
    for n in 2..=64 {
        let sample = Sample::solving(n, 1, &mut generator);
        for position in n..256 {
            let mut sample = sample.clone();
            sample.positions[generator.below(n)] = position as u8;
            let is_spare = position < 1 << sample.d;
            let refusal = match is_spare {
                true => Refusal::SpareCode,
                false => Refusal::Position,
            };
            assert_eq!(sample.proof(), Err(refusal), "n = {n}, position {position}");
            spare_codes += usize::from(is_spare);
        }
    }
    // 2^d is 2 once, then 4 twice, 8 four times, .., 64 for 32 of them.
    let codes: usize = (0..6).map(|k| (2 << k) << k).sum();
    let columns: usize = (2..=64).sum();
    assert_eq!(spare_codes, codes - columns);
}

/// "none is too large": one that is decides, wherever spare codes stand.
#[test]
fn a_position_too_large_among_spare_codes() {
    let mut generator = Generator::new(28);
    for n in [3, 5, 6, 33, 50, 63] {
        let sample = Sample::solving(n, 2, &mut generator);
        for place in 0..n {
            let mut sample = sample.clone();
            sample.positions.fill(n as u8);
            assert_eq!(sample.proof(), Err(Refusal::SpareCode), "n = {n}");
            sample.positions[place] = 1 << sample.d;
            assert_eq!(sample.proof(), Err(Refusal::Position), "n = {n}");
            assert_eq!(sample.constraints(), Err(Refusal::Position), "n = {n}");
        }
    }
}

/// "the truth about top coefficients keeps covering them": constraints takes a
/// spare code, and the column that no position names has a top of one.
#[test]
fn the_tops_of_a_spare_code() {
    let mut generator = Generator::new(29);
    for n in [3, 5, 6, 7, 9, 17] {
        for code in n..1 << number_of_digits(n - 1) {
            let mut sample = Sample::solving(n, 1, &mut generator);
            let row = generator.below(n);
            let column = usize::from(sample.positions[row]);
            sample.positions[row] = code as u8;
            let tops = tops(&constraints_of(&sample).1);
            let of_columns: Vec<u16> = (0..n).map(|j| u16::from(j == column)).collect();
            assert_eq!(tops[..n], of_columns, "n = {n}, code {code}");
        }
    }
}
