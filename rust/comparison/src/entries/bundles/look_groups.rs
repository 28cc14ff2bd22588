//! The groups of cases of look before join. The bundles are those of joins.

use super::by_hand;
use super::join::{self, bundles_of, with_room};
use super::join_groups::{damaged_pairs, DIFFERING, EMPTY, OTHER_KEYS, OTHER_SIZES, SHAPES};
use super::look::{at_join, stated_length};
use super::parts::Pair;
use super::refused::{BESIDE_OTHERS, EACH_TWO, RIGHT};
use crate::case::{Case, Group};
use crate::entries::files::faults::any_of;
use crate::entries::write::OUT;
use crate::entries::{keyed, DONE, SHORT};
use reference::samples::Generator;

/// The groups of look before join.
pub fn all() -> Vec<Group> {
    vec![
        BY_HAND,
        EVERY_N,
        OF_SHAPES,
        POWERS,
        OF_DIFFERING,
        OF_OTHER_KEYS,
        OF_OTHER_SIZES,
        OF_BESIDE_OTHERS,
        OF_EMPTY,
        DAMAGED,
    ]
}

/// The groups of bundles that are refused.
pub fn of_refused() -> Vec<Group> {
    vec![OF_EACH_TWO, OF_BESIDE_OTHERS, OF_RIGHT]
}

/// The groups of joins in outputs of the length told.
pub fn joined() -> Vec<Group> {
    vec![
        JOINED_EVERY_N,
        JOINED_SHAPES,
        JOINED_BESIDE_OTHERS,
        JOINED_DAMAGED,
    ]
}

/// The largest number with a sign.
const LARGEST_SIGNED: usize = usize::MAX >> 1;

/// The bytes of both bundles of a join.
fn of_both(join: &Case) -> usize {
    bundles_of(join).map(<[u8]>::len).iter().sum()
}

/// The lengths of an output that a join is looked at for: none and the largest,
/// and where it is done half of the joined bundle, about its length, that of both
/// bundles, and about the largest number with a sign.
fn rooms(join: &Case) -> Vec<usize> {
    let mut rooms = vec![0, usize::MAX];
    if let Some(length) = stated_length(join) {
        rooms.extend([length / 2, length - 1, length, length + 1, of_both(join)]);
        rooms.extend([LARGEST_SIGNED, LARGEST_SIGNED + 1]);
    }
    rooms
}

/// Hands over looks at a join for all these lengths.
fn looks(join: &Case, generator: &mut Generator, each: &mut dyn FnMut(Case)) {
    for room in rooms(join) {
        each(at_join(join, room, generator));
    }
}

/// Hands over looks at one in so many of the joins of a group that these are.
fn looks_at(
    group: &Group,
    (one_in, these): (usize, fn(&Case) -> bool),
    generator: &mut Generator,
    each: &mut dyn FnMut(Case),
) {
    let draws = &mut Generator::new(generator.number());
    let mut turn = 0;
    (group.cases)(generator, &mut |join| {
        if these(&join) {
            turn += 1;
            if turn % one_in == 0 {
                looks(&join, draws, each);
            }
        }
    });
}

/// One join of those with the same bundles: done in an output of the length of the
/// joined bundle, or refused with an output without bytes.
fn once(join: &Case) -> bool {
    let room = join.outputs[OUT].len();
    match join.answer {
        Some(DONE) => stated_length(join) == Some(room),
        answer => answer != Some(SHORT) && room == 0,
    }
}

/// Hands over two bundles of each n with any m.
fn every_n(generator: &mut Generator, each: &mut dyn FnMut(&Pair, &mut Generator)) {
    for n in keyed::EVERY_N {
        let m = keyed::some_m(n, generator)[n % 3];
        each(&Pair::any(n, m, 1 + n % 8, generator), generator);
    }
}

/// Bundles whose bytes are written out.
pub const BY_HAND: Group = Group::new("by hand", |generator, each| {
    looks_at(&by_hand::JOIN, (1, once), generator, each);
});

const EVERY_N: Group = Group::new("every n, 1 to 8 groups", |generator, each| {
    every_n(generator, &mut |pair, generator| {
        looks(&with_room(pair, 0, generator), generator, each);
    });
});

/// A bundle with itself, also as one slice, with parts of itself, and with
/// bundles of other groups below, above and between its own.
pub const OF_SHAPES: Group = SHAPES.with_cases(|generator, each| {
    looks_at(&SHAPES, (9, |_| true), generator, each);
});

/// Lengths of an output about each power of two.
pub const POWERS: Group = Group::new("outputs about powers of two", |generator, each| {
    let about = |power: u32| {
        let power = 1_usize << power;
        [power - 1, power, power + 1]
    };
    for (n, m) in [(2, 1), (5, 3), (9, 4)] {
        let join = with_room(&Pair::any(n, m, 5, generator), 0, generator);
        for room in (0..usize::BITS).flat_map(about).chain([usize::MAX]) {
            each(at_join(&join, room, generator));
        }
    }
});

/// Groups that differ in t or a: 22, before 13.
pub const OF_DIFFERING: Group = DIFFERING.with_cases(|generator, each| {
    looks_at(&DIFFERING, (3, once), generator, each);
});

/// Other key fields: 21, before 22 and 13.
pub const OF_OTHER_KEYS: Group = OTHER_KEYS.with_cases(|generator, each| {
    looks_at(&OTHER_KEYS, (1, once), generator, each);
});

const OF_OTHER_SIZES: Group = OTHER_SIZES.with_cases(|generator, each| {
    looks_at(&OTHER_SIZES, (1, |_| true), generator, each);
});

/// Each set of the two bundles without bytes.
const OF_EMPTY: Group = EMPTY.with_cases(|generator, each| {
    let of_bundles = |join: &Case| join.answer != Some(SHORT);
    looks_at(&EMPTY, (1, of_bundles), generator, each);
});

/// The number of damaged pairs.
const COUNT: usize = 4_000;

/// Two bundles of one key of which one or both have changes, with no room, with
/// some, with room for both, and with the largest.
const DAMAGED: Group = Group::new("damaged bundles", |generator, each| {
    let draws = &mut Generator::new(generator.number());
    damaged_pairs(COUNT, generator, &mut |join| {
        let both = of_both(&join);
        let room = any_of(&[0, draws.below(both + 1), both, usize::MAX], draws);
        each(at_join(&join, room, draws));
    });
})
.with_any_rows();

/// Each refusal of the first with each of the second.
pub const OF_EACH_TWO: Group = EACH_TWO.with_cases(|generator, each| {
    looks_at(&EACH_TWO, (1, |_| true), generator, each);
});

/// Each refusal of the first and each of the second, beside 21, 22 and 13.
pub const OF_BESIDE_OTHERS: Group = BESIDE_OTHERS.with_cases(|generator, each| {
    looks_at(&BESIDE_OTHERS, (1, |_| true), generator, each);
});

/// The same bundles without a fault.
const OF_RIGHT: Group = RIGHT.with_cases(|generator, each| {
    let draws = &mut Generator::new(generator.number());
    (RIGHT.cases)(generator, &mut |join| {
        each(at_join(&join, usize::MAX, draws))
    });
});

/// Two bundles of each n, to be joined in an output of the length told.
const JOINED_EVERY_N: Group = EVERY_N.with_cases(|generator, each| {
    every_n(generator, &mut |pair, generator| {
        each(with_room(pair, generator.below(40), generator));
    });
});

/// A bundle with itself, with parts of itself and with others, to be joined so.
pub const JOINED_SHAPES: Group =
    SHAPES.with_cases(|generator, each| SHAPES.one_in(9, generator, each));

/// The join in an output that has room for both bundles.
fn with_room_for_both(join: Case, generator: &mut Generator) -> Case {
    let outputs = join::outputs(of_both(&join), generator);
    Case { outputs, ..join }
}

const JOINED_BESIDE_OTHERS: Group = BESIDE_OTHERS.with_cases(|generator, each| {
    let draws = &mut Generator::new(generator.number());
    (BESIDE_OTHERS.cases)(generator, &mut |join| each(with_room_for_both(join, draws)));
});

const JOINED_DAMAGED: Group = DAMAGED.with_cases(|generator, each| {
    let draws = &mut Generator::new(generator.number());
    damaged_pairs(COUNT, generator, &mut |join| {
        each(with_room_for_both(join, draws));
    });
});
