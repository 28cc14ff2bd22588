//! The groups of cases of quick look that are not refused.

use super::{counted, offending, well};
use crate::case::{Group, Least};
use crate::entries::keyed::{all_lists, sizes, EVERY_N};
use crate::entries::{DONE, OFFENDER};
use crate::slices::positions_below;
use reference::samples::Generator;

/// The groups.
pub fn all() -> Vec<Group> {
    vec![
        BY_HAND, ALL_LISTS, ORDERS, EACH_PLACE, TWO, TWINS, THREE, EQUAL, EDGES, BITS, BYTES,
        RANDOM,
    ]
}

/// The least numbers of cases for each n.
pub fn least() -> Vec<Least> {
    let least = |group: &Group, n, answer, count| Least {
        group: group.name,
        n: vec![n],
        m: Vec::new(),
        answer,
        count,
    };
    let of_n = |n: usize| {
        let kinds = Offender::of(n).len();
        // The first of two offenders can't have come before where n is 2.
        let pairs = kinds * if n == 2 { kinds - 1 } else { kinds };
        let spare = codes_of(n) - n;
        [
            least(&ORDERS, n, DONE, 2 + ANY_ORDERS),
            least(&EACH_PLACE, n, OFFENDER, kinds * n - 1),
            least(&TWO, n, OFFENDER, pairs * PLACES_OF_TWO),
            least(&TWINS, n, OFFENDER, 2 * n - 1),
            least(&EQUAL, n, OFFENDER, n + spare + 2),
            least(&BYTES, n, OFFENDER, 256 - n),
        ]
    };
    EVERY_N.flat_map(of_n).collect()
}

/// The number of codes, 2^d.
fn codes_of(n: usize) -> usize {
    1 << sizes(n, 1).d
}

/// What an offender is.
#[derive(Clone, Copy, PartialEq, Eq)]
enum Offender {
    /// It came before.
    Before,
    /// A spare code.
    Spare,
    /// 2^d, the least that is too large.
    TooLarge,
    /// The largest byte.
    Largest,
}

impl Offender {
    /// Those that n has: no spare code where it is a power of two.
    fn of(n: usize) -> Vec<Offender> {
        let mut list = vec![Offender::Before, Offender::TooLarge, Offender::Largest];
        if n < codes_of(n) {
            list.push(Offender::Spare);
        }
        list
    }

    /// The first place that it can have.
    fn first_place(self) -> usize {
        usize::from(self == Offender::Before)
    }

    /// Makes the position in this place such an offender.
    fn put(self, positions: &mut [u8], place: usize, generator: &mut Generator) {
        let (n, limit) = (positions.len(), codes_of(positions.len()));
        positions[place] = match self {
            Offender::Before => positions[generator.below(place)],
            Offender::Spare => (n + generator.below(limit - n)) as u8,
            Offender::TooLarge => limit as u8,
            Offender::Largest => u8::MAX,
        };
    }
}

/// Positions, and the index of the first offender.
type Example = (&'static [u8], Option<usize>);

/// Worked out by hand.
const EXAMPLES: &[Example] = &[
    (&[0, 1], None),
    (&[1, 0], None),
    (&[1, 1], Some(1)),
    (&[2, 0], Some(0)),
    (&[0, 255], Some(1)),
    (&[2, 0, 1], None),
    (&[2, 0, 2], Some(2)),
    (&[2, 3, 0], Some(1)),
    (&[2, 0, 5], Some(2)),
    (&[3, 3, 3], Some(0)),
    (&[1, 1, 3], Some(1)),
    (&[1, 3, 1], Some(1)),
    (&[3, 2, 1, 0], None),
    (&[3, 4, 3, 0], Some(1)),
    (&[3, 2, 3, 4], Some(2)),
    (&[4, 3, 2, 1, 0], None),
    (&[4, 3, 2, 1, 5], Some(4)),
    (&[0, 1, 0, 1, 0], Some(2)),
];

const BY_HAND: Group = Group::new("worked out by hand", |generator, each| {
    for &(positions, index) in EXAMPLES {
        each(match index {
            Some(index) => offending(positions, index, generator),
            None => well(positions, generator),
        });
    }
});

/// All lists of small n.
pub const ALL_LISTS: Group = Group::new(
    "all lists of 0 to 2^d + 1 for n = 2, 3, 4",
    |generator, each| {
        for n in 2..=4 {
            for positions in all_lists(n, codes_of(n) as u8 + 2) {
                each(counted(&positions, generator));
            }
        }
    },
);

/// The random orders of each n.
const ANY_ORDERS: usize = 6;

/// Orders: rising, falling and any.
pub const ORDERS: Group = Group::new("every n, orders", |generator, each| {
    for n in EVERY_N {
        let mut order: Vec<u8> = (0..n as u8).collect();
        each(well(&order, generator));
        order.reverse();
        each(well(&order, generator));
        for _ in 0..ANY_ORDERS {
            each(well(&generator.order(n), generator));
        }
    }
});

/// An order with one offender.
pub const EACH_PLACE: Group = Group::new(
    "every n, one offender of each kind in each place",
    |generator, each| {
        for n in EVERY_N {
            for offender in Offender::of(n) {
                for place in offender.first_place()..n {
                    let mut positions = generator.order(n);
                    offender.put(&mut positions, place, generator);
                    each(offending(&positions, place, generator));
                }
            }
        }
    },
);

/// The pairs of places that are tried for each pair of kinds.
const PLACES_OF_TWO: usize = 3;

/// Two places, the first not before this one: as far apart as can be, the last
/// two, and any.
fn places_of_two(n: usize, least: usize, generator: &mut Generator) -> [[usize; 2]; PLACES_OF_TWO] {
    let first = least + generator.below(n - 1 - least);
    let second = first + 1 + generator.below(n - 1 - first);
    [[least, n - 1], [n - 2, n - 1], [first, second]]
}

/// An order with two offenders, of which the first is answered.
pub const TWO: Group = Group::new(
    "every n, two offenders of each pair of kinds in both orders",
    |generator, each| {
        for n in EVERY_N {
            let kinds = Offender::of(n);
            for first in kinds.iter().filter(|kind| kind.first_place() < n - 1) {
                for second in &kinds {
                    for [place, other] in places_of_two(n, first.first_place(), generator) {
                        let mut positions = generator.order(n);
                        first.put(&mut positions, place, generator);
                        second.put(&mut positions, other, generator);
                        each(offending(&positions, place, generator));
                    }
                }
            }
        }
    },
);

/// A position that came just before, the first again in the last place, and one
/// of each place again at any distance.
pub const TWINS: Group = Group::new("every n, twins near and far", |generator, each| {
    for n in EVERY_N {
        let far = (1..n).map(|place| [generator.below(place), place]);
        let far: Vec<[usize; 2]> = far.collect();
        let near = (1..n).map(|place| [place - 1, place]);
        for [twin, place] in near.chain(far).chain([[0, n - 1]]) {
            let mut positions = generator.order(n);
            positions[place] = positions[twin];
            each(offending(&positions, place, generator));
        }
    }
});

/// The rounds of three for each n.
const ROUNDS_OF_THREE: usize = 4;

/// One column three times: the second of them is answered.
const THREE: Group = Group::new("every n, three times the same", |generator, each| {
    for n in 3..=*EVERY_N.end() {
        for round in 0..ROUNDS_OF_THREE {
            let mut places: Vec<u8> = generator.order(n)[..3].to_vec();
            places.sort_unstable();
            let places = match round {
                0 => [0, 1, 2],
                1 => [0, n / 2, n - 1],
                _ => [places[0], places[1], places[2]].map(usize::from),
            };
            let mut positions = generator.order(n);
            positions[places[1]] = positions[places[0]];
            positions[places[2]] = positions[places[0]];
            each(offending(&positions, places[1], generator));
        }
    }
});

/// All equal: each column, each spare code, 2^d and 255.
pub const EQUAL: Group = Group::new("every n, all equal", |generator, each| {
    for n in EVERY_N {
        for position in (0..=codes_of(n)).chain([255]) {
            let index = usize::from(position < n);
            each(offending(&vec![position as u8; n], index, generator));
        }
    }
});

/// The columns at the ends of words of 32 and 64 bits.
const AT_EDGES: [u8; 3] = [31, 32, 63];

/// The order with this column in this place.
fn with_column_at(mut order: Vec<u8>, column: u8, place: usize) -> Vec<u8> {
    let found = order.iter().position(|&other| other == column);
    order.swap(found.expect("a column of the order"), place);
    order
}

/// Columns at the ends of words: alone, and twice.
pub const EDGES: Group = Group::new("columns 31, 32 and 63", |generator, each| {
    for n in EVERY_N {
        for column in AT_EDGES.into_iter().filter(|&c| usize::from(c) < n) {
            for [place, other] in places_of_two(n, 0, generator) {
                let mut positions = with_column_at(generator.order(n), column, place);
                each(well(&positions, generator));
                positions[other] = column;
                each(offending(&positions, other, generator));
            }
        }
    }
});

/// A column with one more bit, which makes it a spare code or too large, while
/// the other bits make an order.
pub const BITS: Group = Group::new("every n, a column with one more bit", |generator, each| {
    for n in EVERY_N {
        for bit in (0..8).map(|bit| 1_u8 << bit) {
            let mut positions = generator.order(n);
            let makes_offender = |&p: &u8| p & bit == 0 && usize::from(p | bit) >= n;
            let places = positions.iter().enumerate();
            let places: Vec<usize> = places
                .filter(|(_, position)| makes_offender(position))
                .map(|(place, _)| place)
                .collect();
            if !places.is_empty() {
                let place = places[generator.below(places.len())];
                positions[place] |= bit;
                each(offending(&positions, place, generator));
            }
        }
    }
});

/// Each byte in any place of an order.
pub const BYTES: Group = Group::new("every n, each byte", |generator, each| {
    for n in EVERY_N {
        for byte in 0..=u8::MAX {
            let mut positions = generator.order(n);
            positions[generator.below(n)] = byte;
            each(counted(&positions, generator));
        }
    }
});

/// Random columns, codes and bytes, alone and after the beginning of an order.
const RANDOM: Group = Group::new("every n, random positions", |generator, each| {
    for n in EVERY_N {
        for limit in [n, codes_of(n), 256] {
            each(counted(&positions_below(n, limit, generator), generator));
            let mut positions = generator.order(n);
            let start = generator.below(n);
            positions[start..].copy_from_slice(&positions_below(n - start, limit, generator));
            each(counted(&positions, generator));
        }
    }
});
