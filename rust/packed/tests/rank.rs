//! The rank of H, and the refusal of rows that lean on each other, against the
//! reference.
#![forbid(unsafe_code)]

use reference::samples::{Generator, Leaning, Sample};
use reference::Refusal;

/// The answer of the entry rank, the rank and the matrix; both are as they were
/// before where it refuses.
type Outcome = (u32, usize, Vec<u16>);

/// What the matrix and the rank hold before a call.
const WORD: u16 = 0xabcd;
const RANK: usize = 99;

/// Of the entry here.
fn ours(n: usize, m: usize, h: &[u16], length: usize) -> Outcome {
    let (mut rank, mut matrix) = (RANK, vec![WORD; length]);
    let answer = packed::rank(n, m, h, &mut matrix, &mut rank);
    (answer, rank, matrix)
}

/// Of the reference.
fn stated(n: usize, m: usize, h: &[u16], length: usize) -> Outcome {
    let mut matrix = vec![WORD; length];
    match reference::rank(n, m, h, &mut matrix) {
        Ok(rank) => (0, rank, matrix),
        Err(refusal) => (refusal.number(), RANK, matrix),
    }
}

/// A matrix: full of random words, of few words, or with leaning rows.
fn matrix(n: usize, m: usize, generator: &mut Generator) -> Vec<u16> {
    let mut h = generator.words(m * n);
    match generator.below(3) {
        0 => {}
        1 => {
            let kept = 1 + generator.below(4);
            h.iter_mut()
                .filter(|_| generator.below(n) >= kept)
                .for_each(|word| *word = 0);
        }
        _ => {
            let ways: Vec<Leaning> = Leaning::of(m).collect();
            for _ in 0..1 + generator.below(3) {
                ways[generator.below(ways.len())].make(&mut h, n, generator);
            }
        }
    }
    h
}

#[test]
fn ranks_and_matrices_are_those_of_the_reference() {
    let mut generator = Generator::new(60);
    let (mut short, mut full) = (0, 0);
    for n in 2..=64 {
        for round in 0..20 {
            let m = if round == 0 {
                n - 1
            } else {
                1 + generator.below(n - 1)
            };
            let h = matrix(n, m, &mut generator);
            let outcome = ours(n, m, &h, h.len());
            assert_eq!(outcome, stated(n, m, &h, h.len()), "n = {n}, m = {m}");
            *if outcome.1 < m { &mut short } else { &mut full } += 1;
        }
    }
    assert!(short > 300 && full > 300, "{short} short, {full} full");
}

/// All elements but zero as an entry that is inverted: 1 over it is the factor.
#[test]
fn every_element_is_inverted() {
    for word in 1..2048 {
        let h = [word, 1, 0, 1, 0, word];
        assert_eq!(ours(3, 2, &h, 6), stated(3, 2, &h, 6), "{word}");
    }
}

#[test]
fn refusals_of_rank() {
    let right = [2, 1, 0, 4, 2, 0];
    let mut numbers = Vec::new();
    for n in [0, 1, 2, 3, 4, 64, 65, usize::MAX] {
        for m in [0, 1, 2, 3, 4, usize::MAX] {
            for lengths in [[6, 6], [5, 6], [6, 5], [7, 6], [6, 7], [0, 0]] {
                for large in [0, 2048, u16::MAX] {
                    let mut h = right.to_vec();
                    h[5] |= large;
                    h.resize(lengths[0], 0);
                    let outcome = ours(n, m, &h, lengths[1]);
                    assert_eq!(outcome, stated(n, m, &h, lengths[1]));
                    numbers.push(outcome.0);
                }
            }
        }
    }
    numbers.sort_unstable();
    numbers.dedup();
    assert_eq!(numbers, [0, 1, 2, 3, 4]);
}

/// The numbers that the four entries with a key answer, here and in the
/// reference.
fn answers(sample: &Sample, t: &[u8], a: &[u16]) -> ([u32; 4], [u32; 4]) {
    let sizes = sample.key().sizes().expect("sizes that are not refused");
    let words = |slice: &str| vec![WORD; sizes.length_of(slice)];
    let mut bits = vec![9; sizes.length_of("t")];
    let [mut polynomials, mut values, mut proof] = ["polynomials", "values", "a"].map(words);
    let (k, key) = (sample, sample.key());
    let ours = [
        packed::constraints(key, &k.positions, &k.u, &k.v, &mut bits, &mut polynomials),
        packed::values(key, t, &k.q, &k.delta, &mut values),
        packed::prove(
            key,
            &k.positions,
            &k.u,
            &k.v,
            &k.r,
            &k.s,
            &k.alpha,
            &mut bits,
            &mut proof,
        ),
        packed::verify(key, t, &k.q, &k.delta, &k.masks, &k.alpha, a),
    ];
    let number = |refusal: Refusal| refusal.number();
    let stated = [
        sample.constraints().map_or_else(number, |_| 0),
        sample.values(t).map_or_else(number, |_| 0),
        sample.proof().map_or_else(number, |_| 0),
        sample.verdict(t, a).map_or_else(number, |_| 0),
    ];
    (ours, stated)
}

#[test]
fn leaning_keys_are_refused() {
    let mut generator = Generator::new(61);
    for (n, m) in [(2, 1), (3, 2), (5, 3), (8, 7), (17, 16)] {
        for leaning in Leaning::of(m) {
            let right = Sample::solving(n, m, &mut generator);
            let sample = right.leaning(leaning, &mut generator);
            let (t, a) = sample.unjudged_proof().expect("words up to 2047");
            let expected = |sample: &Sample, number: u32| {
                assert_eq!(answers(sample, &t, &a), ([number; 4], [number; 4]));
            };
            expected(&sample, 15);
            let mut other = sample.clone();
            other.u[0] = 2;
            other.q[0] = 2048;
            other.positions[0] = 255;
            expected(&other, 15);
            for slice in [&mut other.x, &mut other.y] {
                let old = std::mem::replace(&mut slice[0], 2048);
                assert_ne!(old, 2048);
            }
            expected(&other, 4);
            let (t, a) = right.proof().expect("the positions solve the key");
            assert_eq!(answers(&right, &t, &a), ([0; 4], [0; 4]));
        }
    }
}
