//! The entry prove.

use super::codes::{self, ONE_SPARE, ONE_TOO_LARGE};
use super::faults::{fault_groups, one_fault};
use super::keyed::{self, after_key, of_sample, Keyed};
use super::leaning;
use super::lengths::empty_slices;
use super::rounds::{self, InRounds, Round};
use super::witnesses::{self, two_indices, OnWitness, Witness};
use super::{number, stated, stated_element, DONE, SPARE, TOP};
use crate::case::{Case, Entry, Group, Least, Taken};
use crate::kinds::Kind;
use crate::lent::Lent;
use crate::library;
use crate::named::Named;
use crate::slices::{A, ALPHA, POSITIONS, R, S, T, U, V};
use reference::key::Sizes;
use reference::samples::{Generator, Leaning, Sample};
use reference::small_field::F;
use reference::{Key, Refusal};

/// The slices and the refusals of prove, with positions that solve the key.
pub struct Prove;

impl Keyed for Prove {
    const READS: &'static [&'static str] = &[POSITIONS, U, V, R, S, ALPHA];
    const WRITES: &'static [&'static str] = &[T, A];
    const REFUSALS: &'static [Refusal] =
        after_key!(Bit, Coordinate, Position, SpareCode, TopCoefficient);

    fn right(sizes: Sizes, generator: &mut Generator) -> Case {
        let sample = Sample::solving(sizes.n, sizes.m, generator);
        case(&sample, Some(DONE), generator)
    }

    /// The positions still solve the key.
    fn leaning(sizes: Sizes, leaning: Leaning, generator: &mut Generator) -> Case {
        let sample = Sample::solving(sizes.n, sizes.m, generator);
        case(&sample.leaning(leaning, generator), None, generator)
    }
}

/// The same with positions that don't solve the key: the answer without another
/// fault is 8.
pub struct Unsolved;

impl Keyed for Unsolved {
    const READS: &'static [&'static str] = Prove::READS;
    const WRITES: &'static [&'static str] = Prove::WRITES;
    const REFUSALS: &'static [Refusal] = Prove::REFUSALS;

    fn right(sizes: Sizes, generator: &mut Generator) -> Case {
        let sample = witnesses::unsolved(sizes.n, sizes.m, generator);
        case(&sample, Some(TOP), generator)
    }
}

/// An implementation of prove.
type Function<A> =
    fn(Key<'_>, &[u8], &[u8], &[u16], &[u16], &[u16], &[u16], &mut [u8], &mut [u16]) -> A;

/// Calls an implementation.
pub fn call<Answer>(
    function: Function<Answer>,
    taken: &Taken,
    outputs: &mut Named<Lent>,
) -> Answer {
    let [t, a] = outputs.each_mut([T, A]);
    function(
        taken.key(),
        taken.bytes(POSITIONS),
        taken.bytes(U),
        taken.words(V),
        taken.words(R),
        taken.words(S),
        taken.words(ALPHA),
        t.bytes_mut(),
        a.words_mut(),
    )
}

/// The entry prove.
pub const PROVE: Entry = Entry {
    name: "prove",
    refusals: Prove::REFUSALS,
    library: |taken, outputs| call(library::prove, taken, outputs),
    reference: |taken, outputs| number(call(reference::prove, taken, outputs)),
    packed: Some(|taken, outputs| call(packed::prove, taken, outputs)),
    groups: || {
        let own = vec![
            EXAMPLES,
            witnesses::solving::<Prove>(),
            witnesses::others::<Prove>(),
            TWO_COLUMNS,
            ONE_ROW,
            SMALL_N,
            EXTREMES,
            UNSOLVED,
            ONE_SPARE,
            ONE_TOO_LARGE,
            witnesses::all_positions::<Prove>(),
            one_fault::<Unsolved>().named("one fault, positions that do not solve the key"),
            empty_slices::<Unsolved>().named("empty slices, positions that do not solve the key"),
        ];
        let rounds = rounds::groups::<Prove>();
        let leaning = leaning::groups::<Prove>();
        [own, rounds, leaning, fault_groups::<Prove>()].concat()
    },
    least: || {
        let unsolved = Least {
            group: UNSOLVED.name,
            n: UNSOLVED_N.to_vec(),
            m: Vec::new(),
            answer: TOP,
            count: 12,
        };
        let of_rows = leaning::least();
        [rounds::least(), codes::least(), of_rows, vec![unsolved]].concat()
    },
    table: Some(keyed::table::<Prove>()),
    ..keyed::ENTRY
};

/// A case with a sample and its answer.
fn case(sample: &Sample, answer: Option<u32>, generator: &mut Generator) -> Case {
    of_sample::<Prove>(sample, generator).answering(answer)
}

impl OnWitness for Prove {
    fn of_witness((sample, answer): &Witness, generator: &mut Generator) -> Case {
        case(sample, *answer, generator)
    }
}

impl InRounds for Prove {
    fn in_round(round: &Round, generator: &mut Generator, each: &mut dyn FnMut(Case)) {
        let sample = witnesses::of_round(round, generator);
        each(case(&sample, Some(DONE), generator));
    }
}

const EXAMPLES: Group = Group::new("examples of the specification", |generator, each| {
    let key_a = Sample::key_a();
    let mut accepted = case(&key_a, Some(DONE), generator);
    let mut list = vec![stated(T, 0, 1_u16), stated(T, 1, 1_u16)];
    list.extend(stated_element(A, 0, 5));
    accepted.stated = Some(list);
    each(accepted);
    let other = witnesses::with(&key_a, vec![1, 0]);
    each(case(&other, Some(TOP), generator));
    // The same with the target 5, which these positions solve.
    let with_target = Sample::key_a_with_target();
    let mut accepted = case(&with_target, Some(DONE), generator);
    let mut list = vec![stated(T, 0, 0_u16), stated(T, 1, 0_u16)];
    list.extend(stated_element(A, 0, 5));
    accepted.stated = Some(list);
    each(accepted);
    let other = witnesses::with(&with_target, vec![0, 1]);
    each(case(&other, Some(TOP), generator));
    let mut accepted = case(&Sample::three_with_target(), Some(DONE), generator);
    let a = [31, 10].into_iter().enumerate();
    let stated = a.flat_map(|(power, word)| stated_element(A, power, word));
    accepted.stated = Some(stated.collect());
    each(accepted);
    // For n = 3 the key and the material are free.
    for round in 0..20 {
        for (positions, answer) in [
            (vec![0, 1, 3], SPARE),
            (vec![1, 1, 1], TOP),
            (vec![0, 1, 4], Refusal::Position.number()),
        ] {
            let sample = Sample::solving(3, 1 + round % 2, generator);
            let sample = witnesses::with(&sample, positions);
            each(case(&sample, Some(answer), generator));
        }
    }
});

// Where all positions are columns, the number of columns with a top of one is even.
const TWO_COLUMNS: Group = Group::new("two columns alone with tops of one", |generator, each| {
    for n in [3, 5, 6, 7, 9, 17] {
        let m = 1 + generator.below(n - 1);
        for i in 0..n {
            // Position i is that of another row, and the rows of H are solved.
            let mut sample = Sample::solving(n, m, generator);
            let other = (i + 1 + generator.below(n - 1)) % n;
            sample.positions[i] = sample.positions[other];
            sample.h = witnesses::solved_rows(&sample, Kind::Random, generator);
            each(case(&sample, Some(TOP), generator));
        }
    }
});

const ONE_ROW: Group = Group::new(
    "each row of H alone with a top of one bit",
    |generator, each| {
        for (n, m) in [(2, 1), (3, 2), (5, 4), (9, 8), (17, 3)] {
            for e in 0..m {
                for bit in 0..11 {
                    let mut sample = Sample::solving(n, m, generator);
                    // An entry that isn't 0 is there.
                    sample.x[0] |= 1;
                    witnesses::unsolve_row(&mut sample, Kind::Random, e, bit, generator);
                    each(case(&sample, Some(TOP), generator));
                }
            }
        }
    },
);

const SMALL_N: Group = Group::new("n to 9, every m", |generator, each| {
    keyed::small_sizes(12, &mut |Sizes { n, m, .. }, round| {
        let (sample, answer) = match round % 3 {
            2 => (witnesses::unsolved(n, m, generator), TOP),
            _ => (Sample::solving(n, m, generator), DONE),
        };
        each(case(&sample, Some(answer), generator));
    });
});

/// Keys, of which all are solved but some of the last: random, one that every
/// order solves with unit rows, one with x and y zero, and one whose H and x are
/// 2047 where they aren't 0, solved when n is even, with y zero.
const KEYS: [fn(Sizes, &mut Generator) -> Sample; 4] = [
    |Sizes { n, m, .. }, generator| Sample::solving(n, m, generator),
    witnesses::solved_by_unit_rows,
    |Sizes { n, m, .. }, generator| {
        let mut sample = Sample::solving(n, m, generator);
        sample.x.fill(0);
        sample.y.fill(0);
        sample.h = generator.matrix(n, m);
        sample
    },
    |sizes, generator| {
        let mut sample = Sample::solving(sizes.n, sizes.m, generator);
        sample.x.fill(F::LARGEST);
        sample.h = if sizes.n % 2 == 0 {
            sample.y.fill(0);
            witnesses::solved_rows(&sample, Kind::Largest, generator)
        } else {
            Kind::Largest.rows(sizes, None, generator)
        };
        sample
    },
];

const EXTREMES: Group = Group::new(keyed::EXTREMES, |generator, each| {
    keyed::with_extremes(generator, &mut |sizes, turn, kinds, generator| {
        let [u, v, masks, alpha] = kinds;
        let sample = KEYS[turn % KEYS.len()](sizes, generator);
        let mut case = case(&sample, None, generator);
        let kinds = [(U, u), (V, v), (R, masks), (S, masks), (ALPHA, alpha)];
        keyed::fill(&mut case, &kinds, generator);
        each(case);
    });
});

/// The sizes of the next group.
const UNSOLVED_N: [usize; 2] = [rounds::LARGEST, rounds::ABOVE_A_POWER[0]];

const UNSOLVED: Group = Group::new(
    "n = 64 and 33, a position repeated, or one row of H",
    |generator, each| {
        for n in UNSOLVED_N {
            for number in 0..12 {
                let sample = unsolved_in(rounds::round(n, number), generator);
                each(case(&sample, Some(TOP), generator));
            }
        }
    },
);

/// A sample of a round whose positions don't solve the key. Some weights are all
/// 0, and x is random.
fn unsolved_in(mut round: Round, generator: &mut Generator) -> Sample {
    let number = round.number;
    let [h, _, u, v, masks, _] = round.kinds;
    let alpha = match number % 3 {
        0 => Kind::Zero,
        _ => Kind::ALL[number % 2],
    };
    round.kinds = [h, Kind::Random, u, v, masks, alpha];
    let mut sample = witnesses::of_round(&round, generator);
    let Sizes { n, m, .. } = round.sizes;
    let (from, to) = two_indices(n, generator);
    match number % 4 {
        0 => sample.positions[to] = sample.positions[from],
        1 => sample.positions[n - 1] = sample.positions[0],
        _ => {
            let e = [0, m - 1, generator.below(m)][number % 3];
            let bit = generator.below(11);
            witnesses::unsolve_row(&mut sample, h, e, bit, generator);
        }
    }
    // In some of them the rows of H are solved, and a column is not.
    if number % 8 < 2 {
        sample.h = witnesses::solved_rows(&sample, h, generator);
    }
    sample
}
