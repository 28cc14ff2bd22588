//! The entry values.

use super::faults::fault_groups;
use super::keyed::{self, after_key, of_kinds, of_sample, set_key, sizes_of, Keyed};
use super::leaning;
use super::rounds::{self, InRounds, Round};
use super::{number, stated_element, DONE};
use crate::case::{Case, Entry, Group, Taken};
use crate::kinds::Kind;
use crate::lent::Lent;
use crate::library;
use crate::named::Named;
use crate::slices::{positions_below, DELTA, H, Q, T, VALUES as OUT, X, Y};
use reference::constraint::masked_witness;
use reference::key::{bits, rows, witness, Sizes};
use reference::samples::{honest_q, Generator, Sample};
use reference::{Key, Refusal};

/// The slices and the refusals of values.
pub struct Values;

impl Keyed for Values {
    const READS: &'static [&'static str] = &[T, Q, DELTA];
    const WRITES: &'static [&'static str] = &[OUT];
    const REFUSALS: &'static [Refusal] = after_key!(Bit, Coordinate);
}

/// An implementation of values.
type Function<A> = fn(Key<'_>, &[u8], &[u16], &[u16], &mut [u16]) -> A;

/// Calls an implementation.
pub fn call<A>(function: Function<A>, taken: &Taken, outputs: &mut Named<Lent>) -> A {
    function(
        taken.key(),
        taken.bytes(T),
        taken.words(Q),
        taken.words(DELTA),
        outputs[OUT].words_mut(),
    )
}

/// The entry values.
pub const VALUES: Entry = Entry {
    name: "values",
    refusals: Values::REFUSALS,
    library: |taken, outputs| call(library::values, taken, outputs),
    reference: |taken, outputs| number(call(reference::values, taken, outputs)),
    packed: Some(|taken, outputs| call(packed::values, taken, outputs)),
    groups: || {
        let own = vec![EXAMPLES, HONEST, ANY_NUMBERS, SMALL_N, EXTREMES, ALL_T];
        let rounds = rounds::groups::<Values>();
        let leaning = leaning::groups::<Values>();
        [own, rounds, leaning, fault_groups::<Values>()].concat()
    },
    table: Some(keyed::table::<Values>()),
    least: || [rounds::least(), leaning::least()].concat(),
    ..keyed::ENTRY
};

/// A case with a random key, the masked witness of random positions and honest
/// numbers at a challenge of this kind.
fn honest(sizes: Sizes, challenge: Kind, generator: &mut Generator) -> Case {
    let mut case = any_numbers(sizes, challenge, generator);
    make_honest(&mut case, generator);
    case
}

/// Sets t to the masked witness of random positions, and q to honest numbers.
fn make_honest(case: &mut Case, generator: &mut Generator) {
    let sizes = sizes_of(case);
    let Sizes { n, d, .. } = sizes;
    let positions = positions_below(n, 1 << d, generator);
    let u = generator.bits(sizes.bit_bytes());
    let v = generator.words(sizes.correlation_words());
    let w = witness(&positions, d).expect("positions below 2^d");
    let u_rows = rows(&bits(&u).expect("bits"), d);
    let t: Vec<u8> = masked_witness(&w, &u_rows)
        .concat()
        .into_iter()
        .map(u8::from)
        .collect();
    let q = honest_q(&u, &v, case.words(DELTA)).expect("coordinates up to 2047");
    case.set_bytes(T, &t);
    case.set_words(Q, &q);
}

/// A case with a random key, and any t and q at a challenge of this kind.
fn any_numbers(sizes: Sizes, challenge: Kind, generator: &mut Generator) -> Case {
    with_kinds(sizes, &[(DELTA, challenge)], generator)
}

/// A case with slices of these kinds, the others random.
fn with_kinds(sizes: Sizes, kinds: &[(&str, Kind)], generator: &mut Generator) -> Case {
    of_kinds::<Values>(sizes, kinds, generator).answering(Some(DONE))
}

const HONEST: Group = Group::new(
    "every n, honest numbers, challenge random, zero or one",
    |generator, each| {
        keyed::every_size(generator, &mut |sizes, turn, generator| {
            each(honest(sizes, Kind::CHALLENGES[turn % 3], generator));
        });
    },
);

const ANY_NUMBERS: Group = Group::new(
    "every n, any numbers, challenge random, zero or one",
    |generator, each| {
        for n in keyed::EVERY_N {
            let m = keyed::some_m(n, generator)[(n + 1) % 3];
            let challenge = Kind::CHALLENGES[n / 3 % 3];
            each(any_numbers(keyed::sizes(n, m), challenge, generator));
        }
    },
);

const SMALL_N: Group = Group::new("n to 9, every m", |generator, each| {
    keyed::small_sizes(30, &mut |sizes, round| {
        let case = if round % 2 == 0 { honest } else { any_numbers };
        each(case(sizes, Kind::CHALLENGES[round % 3], generator));
    });
});

const EXTREMES: Group = Group::new(keyed::EXTREMES, |generator, each| {
    keyed::with_extremes(generator, &mut |sizes, turn, [h, x, t, q], generator| {
        let delta = Kind::EXTREMES[turn % 3];
        let y = x.next_extreme(turn / 3);
        let kinds = [(H, h), (X, x), (Y, y), (T, t), (Q, q), (DELTA, delta)];
        each(with_kinds(sizes, &kinds, generator));
    });
});

impl InRounds for Values {
    /// Every other round has honest numbers.
    fn in_round(round: &Round, generator: &mut Generator, each: &mut dyn FnMut(Case)) {
        let [h, x, t, q, delta, y] = round.kinds;
        let kinds = [(H, h), (X, x), (Y, y), (T, t), (Q, q), (DELTA, delta)];
        let mut case = with_kinds(round.sizes, &kinds, generator);
        if round.number % 2 == 1 {
            make_honest(&mut case, generator);
        }
        each(case);
    }
}

const ALL_T: Group = Group::new("all t for n = 2, 3, 4", |generator, each| {
    for n in 2..=4 {
        for m in 1..n {
            let sizes = keyed::sizes(n, m);
            for _ in 0..6 {
                let key = Values::right(sizes, generator);
                for t in keyed::all_lists(sizes.bit_bytes(), 2) {
                    let mut case = Values::right(sizes, generator);
                    set_key(&mut case, &key);
                    case.set_bytes(T, &t);
                    each(case);
                }
            }
        }
    }
});

const EXAMPLES: Group = Group::new("examples of the specification", |generator, each| {
    let examples: [(Sample, &[u8], &[u16]); 3] = [
        (Sample::key_a(), &[1, 1], &[5, 5, 10]),
        (Sample::key_a_with_target(), &[0, 0], &[5, 5, 10]),
        (
            Sample::three_with_target(),
            &[0, 1, 0, 0, 1, 0],
            &[16, 30, 16, 0],
        ),
    ];
    for (sample, t, values) in examples {
        let mut case = of_sample::<Values>(&sample, generator);
        case.set_bytes(T, t);
        let values = values.iter().enumerate();
        let stated = values.flat_map(|(j, &word)| stated_element(OUT, j, word));
        case.stated = Some(stated.collect());
        each(case.answering(Some(DONE)));
    }
});
