//! Keys with positions: those that solve the key, and others.

use super::keyed::{self, Keyed};
use super::rounds::Round;
use super::{DONE, SPARE, TOP};
use crate::case::{Case, Group, Taken};
use crate::kinds::{Kind, Wanted};
use crate::slices::POSITIONS;
use reference::key::Sizes;
use reference::large_field::COORDINATES;
use reference::samples::{self, Generator, Sample};

/// A sample, and what prove answers for its positions, where it is known
/// without the reference.
pub type Witness = (Sample, Option<u32>);

/// An entry that takes a key with positions.
pub trait OnWitness: Keyed {
    /// A case with the key and the positions of a witness.
    fn of_witness(witness: &Witness, generator: &mut Generator) -> Case;
}

/// Orders that solve the key.
pub const fn solving<E: OnWitness>() -> Group {
    Group::new("every n, orders that solve the key", |generator, each| {
        for n in keyed::EVERY_N {
            for witness in solving_keys(n, generator) {
                each(E::of_witness(&witness, generator));
            }
        }
    })
}

/// Positions that don't solve the key.
pub const fn others<E: OnWitness>() -> Group {
    Group::new("every n, other positions", |generator, each| {
        for n in keyed::EVERY_N {
            for witness in other_positions(n, generator) {
                each(E::of_witness(&witness, generator));
            }
        }
    })
}

/// All positions of small keys.
pub const fn all_positions<E: OnWitness>() -> Group {
    Group::new("all positions for n = 2, 3, 4", |generator, each| {
        for n in 2..=4 {
            for m in 1..n {
                for witness in all_positions_of(n, m, generator) {
                    each(E::of_witness(&witness, generator));
                }
            }
        }
    })
}

/// The entries of x that the positions name; a spare code names none, and its
/// row has zero tops.
pub fn entries(x: &[u16], positions: &[u8]) -> Vec<u16> {
    let entry = |&position: &u8| x.get(usize::from(position)).copied().unwrap_or(0);
    positions.iter().map(entry).collect()
}

/// Whether the positions of a call solve its key.
pub fn solves(taken: &Taken) -> bool {
    samples::solved(taken.key(), taken.bytes(POSITIONS))
}

/// Whether some position of a call is a spare code; none is too large.
pub fn has_spare_code(taken: &Taken) -> bool {
    let mut positions = taken.bytes(POSITIONS).iter();
    positions.any(|&position| usize::from(position) >= taken.key().n)
}

/// H of this kind, each row of which has this sum for the positions of the
/// sample, where some entry of x is not 0.
pub fn rows_with_sums(
    sample: &Sample,
    kind: Kind,
    sums: &[u16],
    generator: &mut Generator,
) -> Vec<u16> {
    let entries = entries(&sample.x, &sample.positions);
    let wanted = Wanted {
        entries: &entries,
        sums,
    };
    kind.rows(keyed::sizes(sample.n, sample.m), Some(wanted), generator)
}

/// H of this kind with which the positions of the sample reach its y in each
/// row.
pub fn solved_rows(sample: &Sample, kind: Kind, generator: &mut Generator) -> Vec<u16> {
    rows_with_sums(sample, kind, &sample.y, generator)
}

/// Changes H, whose kind is given, so that row e alone has the top with this
/// one bit. Some entry of x is not 0.
pub fn unsolve_row(
    sample: &mut Sample,
    kind: Kind,
    e: usize,
    bit: usize,
    generator: &mut Generator,
) {
    let mut sums = sample.y.clone();
    sums[e] ^= 1 << bit;
    sample.h = rows_with_sums(sample, kind, &sums, generator);
}

/// A key of these sizes that every order solves, with unit rows of which each
/// has a second entry.
pub fn solved_by_unit_rows(sizes: Sizes, generator: &mut Generator) -> Sample {
    let mut sample = Sample::solving(sizes.n, sizes.m, generator);
    sample.x = vec![generator.word() | 1; sizes.n];
    sample.h = solved_rows(&sample, Kind::Zero, generator);
    sample
}

/// Keys of size n that the positions solve: of several m, and one that every
/// order solves.
pub fn solving_keys(n: usize, generator: &mut Generator) -> Vec<Witness> {
    let mut list = Vec::new();
    for (round, m) in keyed::some_m(n, generator).into_iter().enumerate() {
        if n <= keyed::ALL_VARIANTS || round == n % 3 {
            list.push((Sample::solving(n, m, generator), Some(DONE)));
        }
    }
    let m = 1 + generator.below(n - 1);
    let sample = Sample::solved_by_all(n, m, generator);
    list.push((with(&sample, generator.order(n)), Some(DONE)));
    list
}

/// Two indices below n that differ.
pub fn two_indices(n: usize, generator: &mut Generator) -> (usize, usize) {
    let from = generator.below(n);
    (from, (from + 1 + generator.below(n - 1)) % n)
}

/// A spare code, where there is one.
pub fn spare_code(sample: &Sample, generator: &mut Generator) -> Option<u8> {
    let spare_codes = (1 << sample.d) - sample.n;
    (spare_codes > 0).then(|| (sample.n + generator.below(spare_codes)) as u8)
}

/// Keys of size n with positions that don't solve them: two positions
/// exchanged, one of them twice, one alone, a spare code.
fn other_positions(n: usize, generator: &mut Generator) -> Vec<Witness> {
    let m = keyed::some_m(n, generator)[n % 3];
    let sample = Sample::solving(n, m, generator);
    let solved = Sample::solved_by_all(n, m, generator);
    let (from, to) = two_indices(n, generator);
    let [mut exchanged, mut twice, mut spare] = [(); 3].map(|()| sample.positions.clone());
    exchanged.swap(from, to);
    twice[to] = twice[from];
    let alone = vec![twice[to]; n];
    let mut list = vec![
        // The exchanged positions solve the key only by chance.
        (with(&sample, exchanged), None),
        (with(&sample, twice.clone()), Some(TOP)),
        (with(&solved, twice), Some(TOP)),
        (with(&solved, alone), Some(TOP)),
    ];
    if let Some(code) = spare_code(&sample, generator) {
        spare[to] = code;
        list.push((with(&sample, spare.clone()), Some(SPARE)));
        list.push((with(&solved, spare), Some(SPARE)));
    }
    if n > keyed::ALL_VARIANTS {
        let every_other = list.into_iter().skip(n % 2).step_by(2);
        return every_other.collect();
    }
    list
}

/// Keys of this size, each with all positions below 2^d.
fn all_positions_of(n: usize, m: usize, generator: &mut Generator) -> Vec<Witness> {
    let keys = [
        Sample::without_target(n, m, generator),
        Sample::with_target(n, m, generator),
        Sample::solved_by_all(n, m, generator),
        solved_by_unit_rows(keyed::sizes(n, m), generator),
    ];
    let lists = keyed::all_lists(n, 1 << keys[0].d);
    let of_key = |key: &Sample| -> Vec<Witness> {
        let positions = lists.iter().cloned();
        positions.map(|list| (with(key, list), None)).collect()
    };
    keys.iter().flat_map(of_key).collect()
}

/// A key that the positions solve, with the slices of this round: H, x, u, v,
/// the masks and the weights; y is of the kind of u, and zero where x is. One in
/// four orders is 0 to n - 1. The verifier's numbers are left out.
pub fn of_round(round: &Round, generator: &mut Generator) -> Sample {
    let Sizes { n, m, d } = round.sizes;
    let [h, x, u, v, masks, alpha] = round.kinds;
    let sizes = round.sizes;
    let mut sample = Sample {
        n,
        m,
        d,
        h: Vec::new(),
        x: x.words(sizes.x_words(), generator),
        y: u.words(sizes.y_words(), generator),
        positions: match round.number % 4 {
            3 => (0..n as u8).collect(),
            _ => generator.order(n),
        },
        u: u.bits(sizes.bit_bytes(), generator),
        v: v.words(sizes.correlation_words(), generator),
        r: masks.words(sizes.mask_words(), generator),
        s: masks.words(sizes.mask_words(), generator),
        alpha: alpha.words(sizes.weight_words(), generator),
        delta: Vec::new(),
        q: Vec::new(),
        masks: Vec::new(),
        serial: 0,
    };
    if sample.x.iter().all(|&entry| entry == 0) {
        sample.y.fill(0);
    }
    sample.h = solved_rows(&sample, h, generator);
    sample
}

/// The sample with these positions.
pub fn with(sample: &Sample, positions: Vec<u8>) -> Sample {
    Sample {
        positions,
        ..sample.clone()
    }
}

/// A key of this size that the positions don't solve: one of them is there
/// twice, or a row of H has another entry.
pub fn unsolved(n: usize, m: usize, generator: &mut Generator) -> Sample {
    let mut sample = Sample::solving(n, m, generator);
    if generator.below(2) == 0 && sample.x.iter().any(|&entry| entry != 0) {
        let (e, bit) = (generator.below(m), generator.below(11));
        unsolve_row(&mut sample, Kind::Random, e, bit, generator);
    } else {
        sample.positions[0] = sample.positions[n - 1];
    }
    sample
}

/// What prove writes for a sample whose positions solve the key: t and a, by
/// the package packed.
pub fn proof(sample: &Sample) -> (Vec<u8>, Vec<u16>) {
    let mut t = vec![0; sample.n * sample.d];
    let mut a = vec![0; COORDINATES * sample.d];
    let answer = packed::prove(
        sample.key(),
        &sample.positions,
        &sample.u,
        &sample.v,
        &sample.r,
        &sample.s,
        &sample.alpha,
        &mut t,
        &mut a,
    );
    assert_eq!(answer, DONE, "the positions solve the key");
    (t, a)
}
