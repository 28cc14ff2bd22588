//! The entry verify.
//!
//! - `changes`: accepted cases with one element changed.

mod changes;

use super::faults::fault_groups;
use super::keyed::{self, after_key, fill, of_kinds, of_sample, of_sizes, sizes_of, Keyed};
use super::leaning;
use super::rounds::{self, InRounds, Round};
use super::witnesses;
use super::{DONE, REJECTED};
use crate::case::{Case, Entry, Group, Taken};
use crate::kinds::Kind;
use crate::lent::Lent;
use crate::library;
use crate::slices::{A, ALPHA, DELTA, H, MASKS, Q, T, X, Y};
use changes::{with_any_change, with_bit_changed};
use reference::key::{elements_of_k, Sizes};
use reference::large_field::{COORDINATES, K};
use reference::samples::{self, Generator, Leaning, Sample};
use reference::{Key, Refusal, Verdict};

/// The slices and the refusals of verify.
pub struct Verify;

impl Keyed for Verify {
    const READS: &'static [&'static str] = &[T, Q, DELTA, MASKS, ALPHA, A];
    const WRITES: &'static [&'static str] = &[];
    const DONE: &'static [u32] = &[DONE, REJECTED];
    const REFUSALS: &'static [Refusal] = after_key!(Bit, Coordinate);

    /// About every other case is accepted.
    fn right(sizes: Sizes, generator: &mut Generator) -> Case {
        let case = balanced(of_sizes::<Verify>(sizes, generator));
        if generator.below(2) == 0 {
            return case;
        }
        let index = generator.below(COORDINATES);
        with_bit_changed(&case, A, index, generator).answering(Some(REJECTED))
    }

    /// A proof that would be accepted; from some n on, where the reference takes
    /// long to make one, any numbers.
    fn leaning(sizes: Sizes, leaning: Leaning, generator: &mut Generator) -> Case {
        if sizes.n > keyed::ALL_VARIANTS {
            return leaning::of_right::<Verify>(sizes, leaning, generator);
        }
        let mut sample = Sample::solving(sizes.n, sizes.m, generator);
        sample = sample.leaning(leaning, generator);
        sample.make_honest();
        let (t, a) = sample.unjudged_proof().expect("material within its limits");
        let mut case = of_sample::<Verify>(&sample, generator);
        case.set_bytes(T, &t);
        case.set_words(A, &a);
        case
    }
}

/// An implementation of verify.
type Function<A> = fn(Key<'_>, &[u8], &[u16], &[u16], &[u16], &[u16], &[u16]) -> A;

/// Calls an implementation.
fn call<Answer>(function: Function<Answer>, taken: &Taken) -> Answer {
    function(
        taken.key(),
        taken.bytes(T),
        taken.words(Q),
        taken.words(DELTA),
        taken.words(MASKS),
        taken.words(ALPHA),
        taken.words(A),
    )
}

/// The entry verify.
pub const VERIFY: Entry = Entry {
    name: "verify",
    done: Verify::DONE,
    refusals: Verify::REFUSALS,
    library: |taken, _| call(library::verify, taken),
    reference: |taken, _| match call(reference::verify, taken) {
        Ok(Verdict::Accepted) => DONE,
        Ok(Verdict::Rejected) => REJECTED,
        Err(refusal) => refusal.number(),
    },
    packed: Some(|taken, _| call(packed::verify, taken)),
    groups: || {
        let own = vec![
            EXAMPLES,
            HONEST,
            changes::CHANGED,
            changes::EVERY_BIT,
            ZEROS,
            changes::CHALLENGE_ZERO,
            ANY_NUMBERS,
            SMALL_N,
            EXTREMES,
            changes::ALL_T,
        ];
        let rounds = rounds::groups::<Verify>();
        let leaning = leaning::groups::<Verify>();
        [own, rounds, leaning, fault_groups::<Verify>()].concat()
    },
    table: Some(keyed::table::<Verify>()),
    least: || [rounds::least(), leaning::least()].concat(),
    ..keyed::ENTRY
};

/// A case with the proof of a sample whose positions solve the key.
fn honest(sample: &Sample, generator: &mut Generator) -> Case {
    let (t, a) = witnesses::proof(sample);
    let mut case = of_sample::<Verify>(sample, generator);
    case.set_bytes(T, &t);
    case.set_words(A, &a);
    case.answering(Some(DONE))
}

/// The proof of a random sample at a challenge of this kind.
fn honest_at(Sizes { n, m, .. }: Sizes, challenge: Kind, generator: &mut Generator) -> Case {
    honest(&sample(n, m, challenge, generator), generator)
}

/// A random sample whose positions solve the key, with a challenge of this kind.
pub fn sample(n: usize, m: usize, challenge: Kind, generator: &mut Generator) -> Sample {
    let mut sample = Sample::solving(n, m, generator);
    sample.delta = challenge.challenge(generator);
    sample.make_honest();
    sample
}

/// The elements of an input.
fn elements(input: &Lent) -> Vec<K> {
    elements_of_k(input.words()).expect("coordinates up to 2047")
}

/// The case with coefficient 0 of a such that the equation of the verifier
/// holds. The values are those of the package packed.
fn balanced(mut case: Case) -> Case {
    let mut values = vec![0; sizes_of(&case).weight_words()];
    let [t, q, delta] = [T, Q, DELTA].map(|name| &case.inputs[name]);
    let answer = packed::values(case.key(), t.bytes(), q.words(), delta.words(), &mut values);
    assert_eq!(answer, DONE, "no refusal applies");

    let delta = elements(delta)[0];
    let [masks, alpha, a] = [MASKS, ALPHA, A].map(|name| elements(&case.inputs[name]));
    let values = elements_of_k(&values).expect("values of K");
    let mut sum = K::ZERO;
    for (alpha, value) in alpha.into_iter().zip(values) {
        sum = sum + alpha * value;
    }
    for (k, mask) in masks.into_iter().enumerate() {
        sum = sum + delta.power(k) * mask;
    }
    for (k, coefficient) in a.into_iter().enumerate().skip(1) {
        sum = sum + delta.power(k) * coefficient;
    }
    case.inputs[A].words_mut()[..COORDINATES].copy_from_slice(&sum.words());
    case.answering(Some(DONE))
}

const EXAMPLES: Group = Group::new("examples of the specification", |generator, each| {
    let (key_a, with_target) = (Sample::key_a(), Sample::key_a_with_target());
    let three = Sample::three_with_target();
    let examples: [(&Sample, &[u8], &[u16], u32); 8] = [
        (&key_a, &[1, 1], &[5], DONE),
        (&key_a, &[1, 1], &[4], REJECTED),
        (&with_target, &[0, 0], &[5], DONE),
        (&with_target, &[0, 0], &[4], REJECTED),
        // The proof of the one key for the other.
        (&key_a, &[0, 0], &[5], REJECTED),
        (&with_target, &[1, 1], &[5], REJECTED),
        (&three, &[0, 1, 0, 0, 1, 0], &[31, 10], DONE),
        (&three, &[0, 1, 0, 0, 1, 0], &[31, 11], REJECTED),
    ];
    for (sample, t, a, answer) in examples {
        let mut case = of_sample::<Verify>(sample, generator);
        case.set_bytes(T, t);
        case.set_words(A, &samples::elements(a));
        each(case.answering(Some(answer)));
    }
});

const HONEST: Group = Group::new(
    "every n, honest proofs, challenge random, zero or one",
    |generator, each| {
        keyed::every_size(generator, &mut |sizes, turn, generator| {
            each(honest_at(sizes, Kind::CHALLENGES[turn % 3], generator));
        });
    },
);

const ZEROS: Group = Group::new(
    "every n, challenge, weights or a zero",
    |generator, each| {
        for n in keyed::EVERY_N {
            let m = keyed::some_m(n, generator)[(n + 1) % 3];
            for set in 1..8 {
                if n <= keyed::ALL_VARIANTS || set == 1 + n % 7 {
                    each(with_zeros(n, m, set, generator));
                }
            }
            // With zero weights every key, every t and every q is accepted.
            let mut case = of_sizes::<Verify>(keyed::sizes(n, m), generator);
            fill(&mut case, &[(ALPHA, Kind::Zero)], generator);
            if n % 2 == 0 {
                fill(
                    &mut case,
                    &[(MASKS, Kind::Zero), (A, Kind::Zero)],
                    generator,
                );
                each(case.answering(Some(DONE)));
            } else {
                each(balanced(case));
            }
        }
    },
);

/// An honest proof with challenge, weights or a zero, as the bits of the set
/// say.
fn with_zeros(n: usize, m: usize, set: usize, generator: &mut Generator) -> Case {
    let mut sample = sample(n, m, Kind::CHALLENGES[set & 1], generator);
    if set & 2 != 0 {
        sample.alpha.fill(0);
    }
    let mut case = honest(&sample, generator);
    if set & 4 != 0 {
        fill(&mut case, &[(A, Kind::Zero)], generator);
        case.answer = None;
    }
    case
}

const ANY_NUMBERS: Group = Group::new(
    "every n, any numbers for which the equation holds, and a changed",
    |generator, each| {
        for n in keyed::EVERY_N {
            let m = keyed::some_m(n, generator)[(n + 2) % 3];
            let kinds = [(DELTA, Kind::CHALLENGES[n / 3 % 3])];
            let case = of_kinds::<Verify>(keyed::sizes(n, m), &kinds, generator);
            let case = balanced(case);
            with_any_change(&case, A, generator)
                .into_iter()
                .for_each(&mut *each);
            each(case);
        }
    },
);

const SMALL_N: Group = Group::new("n to 9, every m", |generator, each| {
    keyed::small_sizes(12, &mut |sizes, round| {
        let case = if round % 2 == 0 {
            honest_at(sizes, Kind::CHALLENGES[round % 3], generator)
        } else {
            Verify::right(sizes, generator)
        };
        if round % 4 == 0 {
            let names = case.inputs.names();
            let input = names[generator.below(names.len())];
            let changed = with_any_change(&case, input, generator);
            changed.into_iter().for_each(&mut *each);
        }
        each(case);
    });
});

const EXTREMES: Group = Group::new(keyed::EXTREMES, |generator, each| {
    keyed::with_extremes(generator, &mut |sizes, turn, kinds, generator| {
        let [key, t, q, sums] = kinds;
        let kinds = [
            (H, key),
            (X, key),
            (Y, key.next_extreme(turn / 27)),
            (T, t),
            (Q, q),
            (DELTA, Kind::EXTREMES[turn % 3]),
            (MASKS, sums),
            (ALPHA, sums.next_extreme(turn / 3)),
            (A, sums.next_extreme(turn / 9)),
        ];
        let case = of_kinds::<Verify>(sizes, &kinds, generator);
        if turn % 2 == 0 {
            each(case);
        } else {
            each(balanced(case));
        }
    });
});

/// An accepted case with the slices of a round: every third an honest proof,
/// the others any numbers for which the equation holds.
fn accepted(round: &Round, generator: &mut Generator) -> Case {
    let Round { sizes, kinds, .. } = *round;
    if round.number % 3 == 2 {
        let mut sample = witnesses::of_round(round, generator);
        sample.delta = Kind::ALL[round.number / 3 % 5].challenge(generator);
        sample.make_honest();
        return honest(&sample, generator);
    }
    let [h, x, t, q, delta, alpha] = kinds;
    let kinds = [
        (H, h),
        (X, x),
        (Y, t),
        (T, t),
        (Q, q),
        (DELTA, delta),
        (MASKS, q),
        (ALPHA, alpha),
        (A, delta),
    ];
    balanced(of_kinds::<Verify>(sizes, &kinds, generator))
}

impl InRounds for Verify {
    /// An accepted case, and in every fourth round the same with one bit
    /// changed, in each slice in turn.
    fn in_round(round: &Round, generator: &mut Generator, each: &mut dyn FnMut(Case)) {
        let case = accepted(round, generator);
        if round.number % 4 == 1 {
            let names = case.inputs.names();
            let input = names[round.number / 4 % names.len()];
            let changed = with_any_change(&case, input, generator);
            changed.into_iter().for_each(&mut *each);
        }
        each(case);
    }
}
