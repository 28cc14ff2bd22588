//! The quick look at an order: against a sort and against all orders, against
//! offenders that are known by construction, and against the tops of the column
//! polynomials; and its refusals.

use crate::{constraints_of, tops};
use reference::key::number_of_digits;
use reference::samples::{Generator, Sample};
use reference::{quick_look, Refusal};
use std::collections::BTreeSet;

/// The examples, by hand.
#[test]
fn small_lists_by_hand() {
    let cases: [(&[u8], Option<usize>); 12] = [
        (&[2, 0, 1], None),
        // 2 came before.
        (&[2, 0, 2], Some(2)),
        // 3 is a spare code.
        (&[2, 3, 0], Some(1)),
        // 5 is too large.
        (&[2, 0, 5], Some(2)),
        (&[0, 1], None),
        (&[1, 0], None),
        (&[1, 1], Some(1)),
        // 2 is too large where n is 2: there is no spare code.
        (&[2, 2], Some(0)),
        // The later offender is not the answer.
        (&[0, 0, 3], Some(1)),
        (&[0, 3, 0], Some(1)),
        (&[1, 2, 3, 0, 4], None),
        (&[4, 255, 4, 7, 0], Some(1)),
    ];
    for (positions, expected) in cases {
        let answer = quick_look(positions.len(), positions);
        assert_eq!(answer, Ok(expected), "{positions:?}");
    }
}

/// Whether the positions, sorted, are the columns.
fn sorted_are_columns(n: usize, positions: &[u8]) -> bool {
    let mut sorted = positions.to_vec();
    sorted.sort_unstable();
    sorted
        .iter()
        .map(|&position| usize::from(position))
        .eq(0..n)
}

/// All orders, each by putting the last column into every place of a shorter one.
fn all_orders(n: usize) -> Vec<Vec<u8>> {
    let Some(last) = n.checked_sub(1) else {
        return vec![Vec::new()];
    };
    let mut orders = Vec::new();
    for shorter in all_orders(last) {
        for place in 0..n {
            let mut order = shorter.clone();
            order.insert(place, last as u8);
            orders.push(order);
        }
    }
    orders
}

/// How many positions an order has in common with these before they differ.
fn common(order: &[u8], positions: &[u8]) -> usize {
    let pairs = order.iter().zip(positions);
    pairs.take_while(|(one, other)| one == other).count()
}

/// The answer by all orders: the first offender is the one that ends the longest
/// beginning of an order.
fn by_orders(orders: &[Vec<u8>], positions: &[u8]) -> Option<usize> {
    let longest = orders.iter().map(|order| common(order, positions)).max();
    longest.filter(|&longest| longest < positions.len())
}

/// The answer by sets: the first positions are as many different columns up to the
/// first offender, and not beyond it.
pub fn by_sets(n: usize, positions: &[u8]) -> Option<usize> {
    let columns = |beginning: &[u8]| {
        let below = beginning
            .iter()
            .filter(|&&position| usize::from(position) < n);
        below.collect::<BTreeSet<_>>().len()
    };
    (0..positions.len()).find(|&index| columns(&positions[..=index]) <= index)
}

/// Calls `each` with every list of as many of these numbers.
fn every_list(numbers: &[u8], length: usize, each: &mut impl FnMut(&[u8])) {
    let mut places = vec![0; length];
    loop {
        let list: Vec<u8> = places.iter().map(|&place| numbers[place]).collect();
        each(&list);
        let Some(next) = places.iter().rposition(|&place| place + 1 < numbers.len()) else {
            return;
        };
        places[next] += 1;
        places[next + 1..].fill(0);
    }
}

/// Every list of these numbers against a sort, all orders and sets: how many have
/// each answer, that of orders last.
fn compared(n: usize, numbers: &[u8]) -> Vec<usize> {
    let orders = all_orders(n);
    let mut counts = vec![0; n + 1];
    every_list(numbers, n, &mut |positions| {
        let answer = quick_look(n, positions).expect("no refusal applies");
        let well = sorted_are_columns(n, positions);
        assert_eq!(answer.is_none(), well, "{positions:?}");
        assert_eq!(answer, by_orders(&orders, positions), "{positions:?}");
        assert_eq!(answer, by_sets(n, positions), "{positions:?}");
        counts[answer.unwrap_or(n)] += 1;
    });
    counts
}

/// With all bytes for n = 2: 254 are no columns.
#[test]
fn every_list_of_two() {
    let all: Vec<u8> = (0..=255).collect();
    assert_eq!(compared(2, &all), [254 * 256, 2 * 255, 2]);
}

/// With all bytes for n = 3, against a sort: 253 are no columns.
#[test]
fn every_list_of_three() {
    let mut counts = [0; 4];
    for number in 0..1u32 << 24 {
        let [_, positions @ ..] = number.to_be_bytes();
        let mut sorted = positions;
        sorted.sort_unstable();
        let answer = quick_look(3, &positions).expect("no refusal applies");
        assert_eq!(answer.is_none(), sorted == [0, 1, 2], "{positions:?}");
        counts[answer.unwrap_or(3)] += 1;
    }
    assert_eq!(counts, [253 << 16, 3 * 254 * 256, 3 * 2 * 255, 6]);
}

/// With the codes, the next numbers and some larger ones.
#[test]
fn lists_of_three_and_four_by_orders() {
    let numbers: Vec<u8> = (0..=16).chain([64, 65, 128, 254, 255]).collect();
    let of_three = [19 * 22 * 22, 3 * 20 * 22, 3 * 2 * 21, 6];
    assert_eq!(compared(3, &numbers), of_three);
    let numbers: Vec<u8> = (0..=5).chain([64, 255]).collect();
    let of_four = [4 * 512, 4 * 5 * 64, 4 * 3 * 6 * 8, 4 * 3 * 2 * 7, 24];
    assert_eq!(compared(4, &numbers), of_four);
}

/// A number of a byte that is no column.
fn no_column(n: usize, generator: &mut Generator) -> u8 {
    (n + generator.below(256 - n)) as u8
}

/// At each place of an order an offender, whatever follows it.
#[test]
fn offenders_at_each_place() {
    let mut generator = Generator::new(60);
    let (mut no_columns, mut repeated) = (0, 0);
    for n in 2..=64 {
        for place in 0..n {
            let mut positions = generator.order(n);
            assert_eq!(quick_look(n, &positions), Ok(None));
            for later in &mut positions[place + 1..] {
                if generator.below(2) == 0 {
                    *later = generator.number() as u8;
                }
            }
            let codes = 1usize << number_of_digits(n - 1);
            let spare_and_large = [n, codes - 1, codes, 255].map(|number| number as u8);
            let numbers = spare_and_large
                .into_iter()
                .chain([no_column(n, &mut generator)]);
            for number in numbers.filter(|&number| usize::from(number) >= n) {
                positions[place] = number;
                let answer = quick_look(n, &positions);
                assert_eq!(answer, Ok(Some(place)), "{positions:?}");
                no_columns += 1;
            }
            for before in 0..place {
                positions[place] = positions[before];
                let answer = quick_look(n, &positions);
                assert_eq!(answer, Ok(Some(place)), "{positions:?}");
                repeated += 1;
            }
        }
    }
    // The sums of n and of n (n - 1) / 2, n from 2 to 64.
    assert!(no_columns >= 3 * 2079, "{no_columns}");
    assert_eq!(repeated, 43_680);
}

/// Random bytes below a limit, which leave the first positions in order mostly.
#[test]
fn random_lists_by_sets() {
    let mut generator = Generator::new(61);
    let mut seen = BTreeSet::new();
    for n in 2..=64 {
        for round in 0..40 {
            let mut positions = generator.order(n);
            for _ in 0..round % 4 {
                let limit = [n, 2 * n, 256][generator.below(3)];
                positions[generator.below(n)] = generator.below(limit) as u8;
            }
            let answer = quick_look(n, &positions);
            assert_eq!(answer, Ok(by_sets(n, &positions)), "{positions:?}");
            let well = sorted_are_columns(n, &positions);
            assert_eq!(answer == Ok(None), well, "{positions:?}");
            seen.insert(answer.unwrap_or(None));
        }
    }
    assert!(seen.contains(&None) && seen.len() > 50, "{seen:?}");
}

/// All is well exactly when the tops of all column polynomials are zero: whether it
/// is, for positions below 2^d.
fn compared_with_tops(sample: &Sample) -> bool {
    let Sample {
        n, ref positions, ..
    } = *sample;
    let all = tops(&constraints_of(sample).1);
    let zero = all[..n].iter().all(|&top| top == 0);
    let answer = quick_look(n, positions).expect("no refusal applies");
    assert_eq!(answer.is_none(), zero, "{positions:?}");
    zero
}

/// Every list of codes, and of these and larger numbers, with several keys, u and v.
#[test]
fn every_list_against_the_tops() {
    let mut generator = Generator::new(62);
    for (n, orders) in [(2, 2), (3, 6), (4, 24)] {
        for m in 1..n {
            let mut sample = Sample::solving(n, m, &mut generator);
            let codes = 1 << sample.d;
            let numbers: Vec<u8> = (0..codes + 2).chain([255]).collect();
            let (mut well, mut too_large) = (0, 0);
            every_list(&numbers, n, &mut |positions| {
                sample.positions = positions.to_vec();
                if positions.iter().all(|&position| position < codes) {
                    well += usize::from(compared_with_tops(&sample));
                } else {
                    let answer = sample.constraints().map(|_| ());
                    assert_eq!(answer, Err(Refusal::Position));
                    assert!(matches!(quick_look(n, positions), Ok(Some(_))));
                    too_large += 1;
                }
            });
            let all = usize::from(codes).pow(n as u32);
            assert_eq!(well, orders);
            assert_eq!(too_large, numbers.len().pow(n as u32) - all);
        }
    }
}

/// Larger keys: orders, and one or two positions that are replaced by other codes.
#[test]
fn larger_lists_against_the_tops() {
    let mut generator = Generator::new(63);
    for n in [5, 8, 9, 16, 17] {
        let m = 1 + generator.below(n - 1);
        let mut sample = Sample::solving(n, m, &mut generator);
        let (mut well, mut offenders) = (0, 0);
        for round in 0..12 {
            sample.positions = generator.order(n);
            for _ in 0..round % 3 {
                let code = generator.below(1 << sample.d) as u8;
                sample.positions[generator.below(n)] = code;
            }
            match compared_with_tops(&sample) {
                true => well += 1,
                false => offenders += 1,
            }
        }
        assert!(well >= 4 && offenders >= 4, "{n}: {well}, {offenders}");
    }
}

/// 1 and 3, whatever the positions are, and 1 where both apply.
#[test]
fn the_refusals_and_their_order() {
    let mut generator = Generator::new(64);
    let mut refused = [0; 2];
    let sizes = (0..=66).chain([127, 128, 256, 1 << 32, (1 << 32) + 3, usize::MAX]);
    for n in sizes {
        for length in (0..=66).chain([128, 256]) {
            let well: Vec<u8> = (0..length).map(|place| place as u8).collect();
            let random = (0..length).map(|_| generator.number() as u8).collect();
            for positions in [well, random, vec![255; length]] {
                let answer = quick_look(n, &positions).map(|_| ());
                let expected = match n {
                    2..=64 if length == n => Ok(()),
                    2..=64 => Err(Refusal::SliceLength),
                    _ => Err(Refusal::SizeN),
                };
                assert_eq!(answer, expected, "n = {n}, {length} positions");
                refused[0] += usize::from(expected == Err(Refusal::SizeN));
                refused[1] += usize::from(expected == Err(Refusal::SliceLength));
            }
        }
    }
    // 10 wrong sizes with 69 lengths, and 63 right ones with 68 wrong lengths.
    assert_eq!(refused, [10 * 69 * 3, 63 * 68 * 3]);
}
