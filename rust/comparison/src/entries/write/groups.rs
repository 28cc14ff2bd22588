//! The groups of write package, but for those with faults.

pub use super::by_hand::BY_HAND;

use super::{package_length, with_fields, with_output, with_room, WritePackage, OUT};
use crate::case::{Case, Group, Least};
use crate::entries::files::fields::{any_serial, serials_about_powers, HEAD};
use crate::entries::keyed::{self, of_kinds, of_sample, sizes, Keyed};
use crate::entries::lengths::with_empty;
use crate::entries::{witnesses, DONE};
use crate::kinds::Kind;
use crate::lent::Lent;
use crate::slices::{A, H, T, X, Y};
use reference::key::Sizes;
use reference::samples::{Generator, Sample};
use reference::small_field::F;

/// The groups.
pub fn own() -> Vec<Group> {
    vec![
        BY_HAND,
        EVERY_N,
        EVERY_SIZE,
        SMALL_N,
        EXTREMES,
        SERIALS,
        BITS_OF_Y,
        OUTPUTS,
        LARGE_OUTPUTS,
        EMPTY,
        PROOFS,
        LARGEST,
    ]
}

/// The done calls of the groups of every n and of the largest one.
pub fn least() -> Vec<Least> {
    let of_n = |n| Least {
        group: EVERY_N.name,
        n: vec![n],
        m: vec![1, n - 1],
        answer: DONE,
        count: 16,
    };
    let largest = Least {
        group: LARGEST.name,
        n: vec![64],
        m: LARGEST_M.to_vec(),
        answer: DONE,
        count: ROUNDS,
    };
    keyed::EVERY_N.map(of_n).chain([largest]).collect()
}

/// Serials at the edges of both lengths and of their bytes.
const EDGES: [u32; 8] = [0, 7, 255, 256, 65_535, 65_536, 16_777_216, u32::MAX];

/// y of zeros, with the first element alone, with the last alone, and any.
fn targets(m: usize, word: u16, generator: &mut Generator) -> [Vec<u16>; 4] {
    let alone = |place: usize| {
        let mut y = vec![0; m];
        y[place] = word;
        y
    };
    [
        vec![0; m],
        alone(0),
        alone(m - 1),
        Kind::Edges.words(m, generator),
    ]
}

const EVERY_N: Group = Group::new(
    "every n, y and serials of all forms, outputs exact and longer",
    |generator, each| {
        let mut turn = 0;
        for n in keyed::EVERY_N {
            for m in keyed::some_m(n, generator) {
                let right = WritePackage::right(sizes(n, m), generator);
                let word = [1, 256, 1024, F::LARGEST][n % 4];
                for y in targets(m, word, generator) {
                    for serial in [EDGES[(turn + turn / 4) % 8], any_serial(generator)] {
                        let case = with_fields(&right, &y, serial);
                        for more in [0, 1 + generator.below(40)] {
                            each(with_room(&case, more, generator));
                        }
                    }
                    turn += 1;
                }
            }
        }
    },
);

/// The kinds of H whose rows take no time to find, and those of y.
const QUICK: [Kind; 3] = [Kind::Largest, Kind::One, Kind::Zero];
const OF_Y: [Kind; 4] = [Kind::Zero, Kind::Edges, Kind::Largest, Kind::Random];

const EVERY_SIZE: Group = Group::new("every n and every m", |generator, each| {
    let mut turn = 0;
    for n in keyed::EVERY_N {
        for m in 1..n {
            let kinds = [(H, QUICK[turn % 3]), (Y, OF_Y[turn % 4])];
            let case = of_kinds::<WritePackage>(sizes(n, m), &kinds, generator);
            each(with_room(&case, [0, 1, 30][turn / 4 % 3], generator));
            turn += 1;
        }
    }
});

/// Random packages of small sizes.
pub const SMALL_N: Group = Group::new("n to 9, every m", |generator, each| {
    keyed::small_sizes(100, &mut |sizes, _| {
        each(WritePackage::right(sizes, generator));
    });
});

const EXTREMES: Group = Group::new(keyed::EXTREMES, |generator, each| {
    keyed::with_extremes(generator, &mut |sizes, turn, [h, x, t, a], generator| {
        let y = x.next_extreme(turn / 3);
        let kinds = [(H, h), (X, x), (Y, y), (T, t), (A, a)];
        each(of_kinds::<WritePackage>(sizes, &kinds, generator).answering(Some(DONE)));
    });
});

/// Serials at the edges, about powers and random ones, with and without y.
pub const SERIALS: Group = Group::new("serials of two and of four bytes", |generator, each| {
    for (n, m) in [(2, 1), (3, 2), (9, 4), (64, 63)] {
        let right = WritePackage::right(sizes(n, m), generator);
        let about = serials_about_powers().into_iter();
        let any: Vec<u32> = (0..50).map(|_| generator.serial()).collect();
        for serial in EDGES.into_iter().chain(about).chain(any) {
            for y in [vec![0; m], vec![F::LARGEST; m]] {
                let case = with_fields(&right, &y, serial);
                each(with_room(&case, generator.below(2), generator));
            }
        }
    }
});

/// y of zeros, and with each bit of each element alone; where m is large, with one
/// of each.
pub const BITS_OF_Y: Group = Group::new("y of zeros, each bit of y", |generator, each| {
    for (n, m) in [(2, 1), (3, 2), (8, 7), (64, 63)] {
        let right = WritePackage::right(sizes(n, m), generator);
        let serial = any_serial(generator);
        let zero = with_fields(&right, &vec![0; m], serial);
        each(with_room(&zero, 0, generator));
        for place in 0..m {
            for bit in (0..11).filter(|bit| m < 9 || *bit == place % 11) {
                let mut y = vec![0; m];
                y[place] = 1 << bit;
                let case = with_fields(&right, &y, serial);
                each(with_room(&case, 0, generator));
            }
        }
    }
});

/// The right case of these sizes without y and with one, each with a serial of
/// two bytes and with one of four.
fn forms(Sizes { n, m, d }: Sizes, generator: &mut Generator) -> Vec<Case> {
    let right = WritePackage::right(Sizes { n, m, d }, generator);
    let y = generator.target(m);
    let mut list = Vec::new();
    for y in [vec![0; m], y] {
        for serial in [7, u32::MAX] {
            list.push(with_fields(&right, &y, serial));
        }
    }
    list
}

/// The lengths of an output about the length of a package and of its fields, and
/// much larger ones.
fn edges_of_output(needed: usize, Sizes { n, m, d }: Sizes) -> Vec<usize> {
    let fields = [2, 2 * m * n, 2 * n, 2 * m, 2, 4, n * d, 24 * d];
    let shorter = fields.into_iter().flat_map(|len| [len, len + HEAD]);
    let shorter = shorter.chain([1, 2, 3, 4, 5, 256, needed / 2, needed]);
    let shorter = shorter.map(|less| needed.saturating_sub(less));
    let first = 0..10;
    let longer = [0, 1, 2, 3, 4, 7, 8, 24, 255, 256, needed, 65_536];
    let longer = longer.map(|more| needed + more);
    first.chain(shorter).chain(longer).collect()
}

/// Outputs of every length up to twice that of the package, and a much longer one.
pub const OUTPUTS: Group = Group::new("n to 5, outputs of all lengths", |generator, each| {
    for (n, m) in [(2, 1), (3, 2), (5, 3)] {
        for case in forms(sizes(n, m), generator) {
            let needed = package_length(&case);
            for len in (0..2 * needed).chain([needed + 65_536]) {
                each(with_output(&case, len, generator));
            }
        }
    }
});

const LARGE_OUTPUTS: Group = Group::new(
    "n to 64, outputs of lengths about those of the fields",
    |generator, each| {
        for (n, m) in [(9, 4), (17, 16), (33, 1), (64, 27), (64, 63)] {
            for case in forms(sizes(n, m), generator) {
                for len in edges_of_output(package_length(&case), sizes(n, m)) {
                    each(with_output(&case, len, generator));
                }
            }
        }
    },
);

/// Each set of slices empty beside an empty output: 3 comes before 13.
const EMPTY: Group = Group::new("empty slices and an empty output", |generator, each| {
    for (n, m) in [(2, 1), (5, 2)] {
        let right = with_output(&WritePackage::right(sizes(n, m), generator), 0, generator);
        for set in 0..1 << WritePackage::slices().len() {
            let mut case = with_empty::<WritePackage>(&right, sizes(n, m), set);
            case.outputs[OUT] = Lent::no_bytes();
            each(case);
        }
    }
});

/// Proofs that hold, and the same with a bit of t or of a changed.
const PROOFS: Group = Group::new("n to 12, proofs that hold and others", |generator, each| {
    for n in 2..=12 {
        for m in keyed::some_m(n, generator) {
            let sample = Sample::solving(n, m, generator);
            let (t, a) = witnesses::proof(&sample);
            let mut right = of_sample::<WritePackage>(&sample, generator);
            right.set_bytes(T, &t);
            right.set_words(A, &a);
            each(with_room(&right, 0, generator));
            for name in [T, A, T, A] {
                let place = generator.below(right.inputs[name].len());
                let bit = generator.below(keyed::bits_of(name));
                let other = keyed::changed(&right, name, place, bit);
                each(with_room(&other, 0, generator));
            }
        }
    }
});

/// The sizes m of the rounds at the largest n.
const LARGEST_M: [usize; 3] = [1, 27, 63];

/// The rounds for each of these.
const ROUNDS: usize = 60;

const LARGEST: Group = Group::new("n = 64, m = 1, 27 and 63", |generator, each| {
    for m in LARGEST_M {
        for round in 0..ROUNDS {
            let kind = |slice: usize| Kind::ALL[(round >> slice) % 5];
            let kinds = [(X, kind(0)), (Y, kind(1)), (T, kind(2)), (A, kind(3))];
            let case = of_kinds::<WritePackage>(sizes(64, m), &kinds, generator);
            each(case.answering(Some(DONE)));
        }
    }
});
