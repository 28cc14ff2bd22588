//! Demand 3: the values are the polynomials at the challenge, and all tops
//! are zero exactly when the positions solve the key.

use crate::fields::product_by_doubling;
use crate::{constraints_of, large, tops, values_of};
use reference::large_field::K;
use reference::level::FIRST;
use reference::samples::{
    elements, in_order, independent, independent_rows, orthogonal_row, unit_rows, Generator, Sample,
};

/// What the positions are, judged without any polynomial.
#[derive(Clone, Copy, Debug, PartialEq, Eq)]
enum Kind {
    /// The numbers 0 to n - 1, each once, and H times x in that order is y.
    Solving,
    /// The numbers 0 to n - 1, each once, but H times x in that order isn't y.
    OtherOrder,
    /// A position from n to 2^d - 1.
    Spare,
    /// All positions below n, one of them twice.
    Repeated,
}

fn kind(sample: &Sample) -> Kind {
    let Sample { n, m, .. } = *sample;
    let positions: Vec<usize> = sample.positions.iter().map(|&p| usize::from(p)).collect();
    if positions.iter().any(|&position| position >= n) {
        return Kind::Spare;
    }
    if (0..n).any(|j| !positions.contains(&j)) {
        return Kind::Repeated;
    }
    for e in 0..m {
        let mut sum = 0;
        for (i, &position) in positions.iter().enumerate() {
            sum ^= product_by_doubling::<FIRST>(sample.h[e * n + i], sample.x[position]);
        }
        if sum != sample.y[e] {
            return Kind::OtherOrder;
        }
    }
    Kind::Solving
}

/// How often each kind was met.
#[derive(Default)]
struct Counts {
    solving: usize,
    other_order: usize,
    spare: usize,
    repeated: usize,
}

impl Counts {
    fn total(&self) -> usize {
        self.solving + self.other_order + self.spare + self.repeated
    }
}

/// The sum of each coefficient times its power of Δ.
fn at(polynomial: &[K], delta: K) -> K {
    let mut value = K::ZERO;
    let mut power = K::ONE;
    for &coefficient in polynomial {
        value = value + coefficient * power;
        power = power * delta;
    }
    value
}

/// Both facts of demand 3 for one sample with honest q.
fn both_facts(sample: &Sample, counts: &mut Counts) {
    let (t, polynomials) = constraints_of(sample);
    assert_eq!(polynomials.len(), sample.n + sample.m);

    let values = values_of(sample, &t);
    let delta = large(&sample.delta)[0];
    for (j, polynomial) in polynomials.iter().enumerate() {
        assert_eq!(values[j], at(polynomial, delta), "value {j} of {sample:?}");
    }

    let kind = kind(sample);
    let all_zero = tops(&polynomials).iter().all(|&top| top == 0);
    assert_eq!(all_zero, kind == Kind::Solving, "{kind:?} of {sample:?}");
    match kind {
        Kind::Solving => counts.solving += 1,
        Kind::OtherOrder => counts.other_order += 1,
        Kind::Spare => counts.spare += 1,
        Kind::Repeated => counts.repeated += 1,
    }
}

/// Keys of one size: solved by one order, by several, by every order, and
/// random; with a target and without.
fn keys(n: usize, m: usize, generator: &mut Generator) -> Vec<Sample> {
    let solved = Sample::without_target(n, m, generator);
    let with_target = Sample::with_target(n, m, generator);
    let mut random = Sample::solving(n, m, generator);
    random.h = generator.matrix(n, m);
    let constant = Sample::solved_by_all(n, m, generator);

    // Unit rows, so that each order solves whose first m entries are zero.
    let mut unit = Sample::without_target(n, m, generator);
    unit.h = unit_rows(n, m);
    unit.x[..m].fill(0);
    // With a target no order solves.
    let mut zero_x = Sample::solving(n, m, generator);
    zero_x.x.fill(0);
    // The target of one row alone is wrong, and so no order or another solves.
    let mut other_y = Sample::solving(n, m, generator);
    other_y.y[generator.below(m)] ^= 1 + generator.below(2047) as u16;
    // Two equal entries of x: two orders solve.
    let mut equal = Sample::without_target(n, m, generator);
    let positions = &equal.positions;
    let (first, second) = (usize::from(positions[0]), usize::from(positions[1]));
    equal.x[first] = equal.x[second];
    let entries = in_order(&equal.x, &equal.positions);
    equal.h = independent_rows(m, || orthogonal_row(&entries, generator));
    let keys = vec![
        solved,
        with_target,
        random,
        constant,
        unit,
        zero_x,
        other_y,
        equal,
    ];
    assert!(keys.iter().all(|sample| independent(&sample.h, n)));
    keys
}

/// New u, v and Δ, some of them zero.
fn renew(sample: &mut Sample, generator: &mut Generator) {
    sample.u = generator.bits(sample.u.len());
    sample.v = generator.words(sample.v.len());
    sample.delta = generator.words(sample.delta.len());
    match generator.below(6) {
        0 => sample.u.fill(0),
        1 => sample.u.fill(1),
        2 => sample.v.fill(0),
        3 => sample.delta.fill(0),
        _ => {}
    }
    sample.make_honest();
}

/// Every list of n positions below 2^d.
fn all_lists(n: usize, d: usize) -> Vec<Vec<u8>> {
    let codes = 1u8 << d;
    let mut lists = vec![Vec::new()];
    for _ in 0..n {
        lists = lists
            .into_iter()
            .flat_map(|list| {
                (0..codes).map(move |position| {
                    let mut longer = list.clone();
                    longer.push(position);
                    longer
                })
            })
            .collect();
    }
    lists
}

/// All position lists, for every m and several keys.
fn exhaust(n: usize, d: usize, rounds: usize) -> Counts {
    let lists = all_lists(n, d);
    assert_eq!(lists.len(), 1 << (d * n));
    let mut generator = Generator::new(100 + n as u64);
    let mut counts = Counts::default();
    let mut runs = 0;
    for m in 1..n {
        for mut sample in keys(n, m, &mut generator) {
            assert_eq!(sample.d, d);
            for list in &lists {
                for _ in 0..rounds {
                    sample.positions = list.clone();
                    renew(&mut sample, &mut generator);
                    both_facts(&sample, &mut counts);
                    runs += 1;
                }
            }
        }
    }
    assert_eq!(counts.total(), runs);
    counts
}

#[test]
fn all_lists_for_n_2() {
    let counts = exhaust(2, 1, 20);
    assert!(counts.solving > 0 && counts.other_order > 0 && counts.repeated > 0);
    assert_eq!(counts.spare, 0);
}

#[test]
fn all_lists_for_n_3() {
    let counts = exhaust(3, 2, 5);
    assert!(counts.solving > 0 && counts.other_order > 0 && counts.repeated > 0);
    // 64 - 27 lists have a spare code, for 2 values of m, 8 keys and 5 rounds.
    assert_eq!(counts.spare, 37 * 2 * 8 * 5);
}

#[test]
fn all_lists_for_n_4() {
    let counts = exhaust(4, 2, 1);
    assert!(counts.solving > 0 && counts.other_order > 0 && counts.repeated > 0);
    assert_eq!(counts.spare, 0);
}

#[test]
fn all_lists_and_all_mask_bits_for_n_3() {
    let mut generator = Generator::new(7);
    for of in [Sample::without_target, Sample::with_target] {
        let mut sample = of(3, 1, &mut generator);
        let mut counts = Counts::default();
        for list in all_lists(3, 2) {
            sample.positions = list;
            for bits in 0..64u8 {
                sample.u = (0..6).map(|i| (bits >> i) & 1).collect();
                sample.make_honest();
                both_facts(&sample, &mut counts);
            }
        }
        assert_eq!(counts.total(), 64 * 64);
        assert!(counts.solving >= 64);
        assert_eq!(counts.spare, 37 * 64);
    }
}

/// The sample with its positions changed into another kind, if n allows it.
fn changed_positions(sample: &Sample, round: usize, generator: &mut Generator) -> Sample {
    let n = sample.n;
    let mut other = sample.clone();
    let (i, j) = (generator.below(n), generator.below(n - 1));
    let j = if j >= i { j + 1 } else { j };
    let spare = (1usize << sample.d) - n;
    match round % 4 {
        0 => {}
        1 => other.positions.swap(i, j),
        2 => other.positions[i] = other.positions[j],
        _ if spare > 0 => other.positions[i] = (n + generator.below(spare)) as u8,
        _ => other.positions = vec![generator.below(n) as u8; n],
    }
    other
}

/// A key with a target is one without where y is zero: top n + e is that of the
/// other key plus y(e), all other coefficients are the same, and value n + e has
/// y(e) Δ^d besides.
#[test]
fn the_target_is_added_at_the_top() {
    let mut generator = Generator::new(11);
    for (n, m) in [(2, 1), (3, 2), (5, 4), (9, 3), (17, 16)] {
        let sample = Sample::with_target(n, m, &mut generator);
        let mut old = sample.clone();
        old.y.fill(0);
        let ((t, with), (_, without)) = (constraints_of(&sample), constraints_of(&old));
        let (values, old_values) = (values_of(&sample, &t), values_of(&old, &t));
        let delta = large(&sample.delta)[0];
        for j in 0..n + m {
            let y = match j.checked_sub(n) {
                Some(e) => large(&elements(&sample.y[e..=e]))[0],
                None => K::ZERO,
            };
            let (below, top) = with[j].split_at(sample.d);
            assert_eq!(below, &without[j][..sample.d]);
            assert_eq!(top[0], without[j][sample.d] + y);
            let mut power = y;
            (0..sample.d).for_each(|_| power = power * delta);
            assert_eq!(values[j], old_values[j] + power);
        }
    }
}

#[test]
fn random_keys_up_to_n_64() {
    let mut generator = Generator::new(8);
    let mut counts = Counts::default();
    for n in 2..=64 {
        let rounds = match n {
            2..=20 | 31..=33 => 4,
            _ => 1,
        };
        for round in 0..rounds {
            let m = 1 + generator.below(n - 1);
            let mut sample = Sample::solving(n, m, &mut generator);
            renew(&mut sample, &mut generator);
            let sample = changed_positions(&sample, n + round, &mut generator);
            both_facts(&sample, &mut counts);
        }
    }
    for count in [
        counts.solving,
        counts.other_order,
        counts.spare,
        counts.repeated,
    ] {
        assert!(count >= 20, "{count}");
    }
}

#[test]
fn every_kind_for_n_64_and_63() {
    let mut generator = Generator::new(9);
    let mut counts = Counts::default();
    for (n, m) in [(64, 5), (63, 2)] {
        let sample = Sample::solving(n, m, &mut generator);
        for round in 0..4 {
            let sample = changed_positions(&sample, round, &mut generator);
            both_facts(&sample, &mut counts);
        }
    }
    assert_eq!(
        (
            counts.solving,
            counts.other_order,
            counts.repeated,
            counts.spare
        ),
        (2, 2, 3, 1)
    );
}
