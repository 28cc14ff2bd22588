//! The entry constraints.

use super::codes;
use super::faults::fault_groups;
use super::keyed::{self, after_key, fill, of_sample, set_key, Keyed};
use super::leaning;
use super::rounds::{self, InRounds, Round};
use super::witnesses::{self, two_indices};
use super::{number, stated, stated_element, DONE};
use crate::case::{Case, Entry, Group, Stated, Taken};
use crate::kinds::{Kind, Wanted};
use crate::lent::Lent;
use crate::library;
use crate::named::Named;
use crate::slices::{positions_below, H, POLYNOMIALS, POSITIONS, T, U, V, X, Y};
use reference::key::Sizes;
use reference::samples::{Generator, Sample};
use reference::{Key, Refusal};

/// The slices and the refusals of constraints.
pub struct Constraints;

impl Keyed for Constraints {
    const READS: &'static [&'static str] = &[POSITIONS, U, V];
    const WRITES: &'static [&'static str] = &[T, POLYNOMIALS];
    const REFUSALS: &'static [Refusal] = after_key!(Bit, Coordinate, Position);
}

/// An implementation of constraints.
type Function<A> = fn(Key<'_>, &[u8], &[u8], &[u16], &mut [u8], &mut [u16]) -> A;

/// Calls an implementation.
pub fn call<A>(function: Function<A>, taken: &Taken, outputs: &mut Named<Lent>) -> A {
    let [t, polynomials] = outputs.each_mut([T, POLYNOMIALS]);
    function(
        taken.key(),
        taken.bytes(POSITIONS),
        taken.bytes(U),
        taken.words(V),
        t.bytes_mut(),
        polynomials.words_mut(),
    )
}

/// The entry constraints.
pub const CONSTRAINTS: Entry = Entry {
    name: "constraints",
    refusals: Constraints::REFUSALS,
    library: |taken, outputs| call(library::constraints, taken, outputs),
    reference: |taken, outputs| number(call(reference::constraints, taken, outputs)),
    packed: Some(|taken, outputs| call(packed::constraints, taken, outputs)),
    groups: || {
        let own = vec![
            EXAMPLES,
            EVERY_N,
            SMALL_N,
            EXTREMES,
            ALL_POSITIONS,
            ALL_MASK_BITS,
        ];
        let rounds = rounds::groups::<Constraints>();
        let taken = codes::TAKEN.to_vec();
        let leaning = leaning::groups::<Constraints>();
        [own, rounds, taken, leaning, fault_groups::<Constraints>()].concat()
    },
    table: Some(keyed::table::<Constraints>()),
    least: || [rounds::least(), leaning::least()].concat(),
    ..keyed::ENTRY
};

/// Positions below n that are no order: one of them twice, or all the same.
fn repeated(n: usize, generator: &mut Generator) -> Vec<u8> {
    let mut positions = generator.order(n);
    if generator.below(4) == 0 {
        return vec![positions[0]; n];
    }
    let (from, to) = two_indices(n, generator);
    positions[to] = positions[from];
    positions
}

/// The positions: below 2^d, below n with a repetition, and an order.
const KINDS: [fn(Sizes, &mut Generator) -> Vec<u8>; 3] = [
    |sizes, generator| positions_below(sizes.n, 1 << sizes.d, generator),
    |sizes, generator| repeated(sizes.n, generator),
    |sizes, generator| generator.order(sizes.n),
];

/// The kind that is an order.
const ORDER: usize = 2;

/// A random case whose positions are an order that solves the key.
fn solved(sizes: Sizes, generator: &mut Generator) -> Case {
    let mut case = Constraints::right(sizes, generator);
    let positions = generator.order(sizes.n);
    let wanted = Wanted {
        entries: &witnesses::entries(case.words(X), &positions),
        sums: case.words(Y),
    };
    let h = Kind::Random.rows(sizes, Some(wanted), generator);
    case.set_words(H, &h);
    case.set_bytes(POSITIONS, &positions);
    case
}

/// A random case with positions of this kind. About every other order solves the
/// key.
fn with_positions(sizes: Sizes, kind: usize, generator: &mut Generator) -> Case {
    if kind == ORDER && generator.below(2) == 0 {
        return solved(sizes, generator);
    }
    let mut case = Constraints::right(sizes, generator);
    let positions = KINDS[kind](sizes, generator);
    case.set_bytes(POSITIONS, &positions);
    case
}

const EVERY_N: Group = Group::new("every n, random keys and material", |generator, each| {
    for n in keyed::EVERY_N {
        for (round, m) in keyed::some_m(n, generator).into_iter().enumerate() {
            let kind = (n + round) % KINDS.len();
            each(with_positions(keyed::sizes(n, m), kind, generator));
        }
    }
});

const SMALL_N: Group = Group::new("n to 9, every m", |generator, each| {
    keyed::small_sizes(30, &mut |sizes, round| {
        each(with_positions(sizes, round % KINDS.len(), generator));
    });
});

const EXTREMES: Group = Group::new(keyed::EXTREMES, |generator, each| {
    keyed::with_extremes(generator, &mut |sizes, turn, [h, x, u, v], generator| {
        let mut case = with_positions(sizes, turn % KINDS.len(), generator);
        let y = x.next_extreme(turn);
        let kinds = [(H, h), (X, x), (Y, y), (U, u), (V, v)];
        fill(&mut case, &kinds, generator);
        each(case);
    });
});

impl InRounds for Constraints {
    /// Every fourth round has an order that solves the key, the others have
    /// positions of the three kinds in turn.
    fn in_round(round: &Round, generator: &mut Generator, each: &mut dyn FnMut(Case)) {
        let mut sample = witnesses::of_round(round, generator);
        if let Some(kind) = (round.number % 4).checked_sub(1) {
            sample.positions = KINDS[kind](round.sizes, generator);
        }
        each(done_with(&sample, generator));
    }
}

const ALL_POSITIONS: Group = Group::new("all positions for n = 2, 3, 4", |generator, each| {
    for n in 2..=4 {
        for m in 1..n {
            let sizes = keyed::sizes(n, m);
            for key in [Constraints::right, solved] {
                let key = key(sizes, generator);
                for positions in keyed::all_lists(n, 1 << sizes.d) {
                    let mut case = Constraints::right(sizes, generator);
                    set_key(&mut case, &key);
                    case.set_bytes(POSITIONS, &positions);
                    each(case);
                }
            }
        }
    }
});

const ALL_MASK_BITS: Group = Group::new(
    "all positions with all mask bits for n = 2, 3",
    |generator, each| {
        for n in 2..=3 {
            let sizes = keyed::sizes(n, n - 1);
            let mut case = Constraints::right(sizes, generator);
            for positions in keyed::all_lists(n, 1 << sizes.d) {
                for u in keyed::all_lists(sizes.bit_bytes(), 2) {
                    case.set_bytes(POSITIONS, &positions);
                    case.set_bytes(U, &u);
                    each(case.clone());
                }
            }
        }
    },
);

/// A case with the slices of a sample, which no refusal applies to.
fn done_with(sample: &Sample, generator: &mut Generator) -> Case {
    of_sample::<Constraints>(sample, generator).answering(Some(DONE))
}

/// The top coefficients of polynomials, from this one on.
fn stated_tops(first: usize, d: usize, tops: &[u16]) -> Vec<Stated> {
    let polynomials = (first..).zip(tops);
    polynomials
        .flat_map(|(j, &top)| stated_element(POLYNOMIALS, (d + 1) * j + d, top))
        .collect()
}

const EXAMPLES: Group = Group::new("examples of the specification", |generator, each| {
    let mut case = done_with(&Sample::key_a(), generator);
    let mut list = vec![stated(T, 0, 1_u16), stated(T, 1, 1_u16)];
    for (j, word) in [5, 5, 10].into_iter().enumerate() {
        list.extend(stated_element(POLYNOMIALS, 2 * j, word));
    }
    list.extend(stated_tops(0, 1, &[0, 0, 0]));
    case.stated = Some(list);
    each(case.clone());

    case.set_bytes(POSITIONS, &[1, 0]);
    case.stated = Some(stated_tops(2, 1, &[5]));
    each(case);

    // With the target 5 these positions solve the key.
    let mut case = done_with(&Sample::key_a_with_target(), generator);
    let mut list = vec![stated(T, 0, 0_u16), stated(T, 1, 0_u16)];
    for (j, word) in [5, 5, 10].into_iter().enumerate() {
        list.extend(stated_element(POLYNOMIALS, 2 * j, word));
    }
    list.extend(stated_tops(0, 1, &[0, 0, 0]));
    case.stated = Some(list);
    each(case);
    let mut case = done_with(&Sample::three_with_target(), generator);
    let coefficients = [16, 0, 0, 16, 7, 0, 16, 0, 0, 6, 3, 0].into_iter();
    let stated = coefficients.enumerate();
    let stated = stated.flat_map(|(index, word)| stated_element(POLYNOMIALS, index, word));
    case.stated = Some(stated.collect());
    each(case);

    // For n = 3 the key, u and v are free.
    for round in 0..20 {
        for (positions, tops) in [([1, 1, 1], [1, 0, 1]), ([0, 1, 3], [0, 0, 1])] {
            let sizes = keyed::sizes(3, 1 + round % 2);
            let mut case = Constraints::right(sizes, generator);
            case.set_bytes(POSITIONS, &positions);
            case.stated = Some(stated_tops(0, 2, &tops));
            each(case);
        }
        let mut case = Constraints::right(keyed::sizes(3, 1), generator);
        case.set_bytes(POSITIONS, &[0, 1, 4]);
        each(case.answering(Some(Refusal::Position.number())));
    }
});
