//! The check of perkcheck: reads a check file, then verifies it. It answers as
//! verify does, or the refusal of the reader.

use super::files::fields::{
    any_fields, content_mut, content_of, dependent_rows, holds, set_target, zero_target, Holds,
};
use super::files::{self, groups, table, File, Reader, BYTES};
use super::readers::{self, key_a};
use super::{keyed, verify, witnesses, DEPENDENT, DONE, REJECTED};
use crate::case::{Case, Entry, Group, Table};
use crate::kinds::Kind;
use crate::lent::Lent;
use crate::library;
use crate::named::Named;
use reference::key::elements_of_k;
use reference::large_field::{COORDINATES, K};
use reference::package::{check_fields, join, package_fields, tag, WrittenField};
use reference::samples::{self, Generator, Leaning, Sample};
use reference::Verdict;

/// The check of a check file.
pub struct Check;

impl Reader for Check {
    const FILE: File = File::CheckFile;
    const DAMAGED: usize = 16_000;
    const LARGE: &'static [(usize, usize)] = &[(12, 5), (16, 3), (17, 8)];

    /// A file that isn't refused is accepted or rejected.
    fn case(bytes: Lent, answer: Option<u32>, _: &mut Generator) -> Case {
        case(bytes, answer.filter(|&answer| answer != DONE))
    }

    /// Honest files.
    fn fields(n: usize, m: usize, generator: &mut Generator) -> Vec<WrittenField> {
        honest(n, m, Kind::Random, generator)
    }
}

/// The answers without a refusal.
const ANSWERS: &[&str] = &["0", "255"];

/// The check of a check file.
pub const CHECK: Entry = Entry {
    name: "check",
    done: &[DONE, REJECTED],
    library: |taken, _| library::check(taken.bytes(BYTES)),
    reference: |taken, _| match reference::check(taken.bytes(BYTES)) {
        Ok((_, Verdict::Accepted)) => DONE,
        Ok((_, Verdict::Rejected)) => REJECTED,
        Err(refusal) => refusal.number(),
    },
    table: Some(Table {
        of: "field",
        columns: || table::columns(File::CheckFile, ANSWERS),
        rows: || table::rows(File::CheckFile, ANSWERS),
        cell: |answer, taken| {
            let bytes = taken.bytes(BYTES);
            let (row, column) = table::cell(bytes, reference::judge_check_file(bytes));
            match answer {
                REJECTED => (row, REJECTED.to_string()),
                _ => (row, column),
            }
        },
    }),
    groups: || {
        let own = vec![
            EXAMPLES, HONEST, LEANING, TARGETS, CHANGED, EVERY_BIT, ZEROS,
        ];
        [own, groups::fault_groups::<Check>()].concat()
    },
    ..readers::ENTRY
};

/// A case with these bytes.
fn case(bytes: Lent, answer: Option<u32>) -> Case {
    let case = Case::new(Named::new(), files::input(bytes), Named::new());
    case.answering(answer)
}

/// A case with the bytes of these fields.
fn of_fields(fields: &[WrittenField], answer: Option<u32>, generator: &mut Generator) -> Case {
    case(Lent::with_bytes(&join(fields), generator), answer)
}

/// The fields of an honest check file, with a challenge of this kind.
pub fn honest(n: usize, m: usize, challenge: Kind, generator: &mut Generator) -> Vec<WrittenField> {
    fields_of(&verify::sample(n, m, challenge, generator))
}

/// The fields of the check file of a sample that is solved.
fn fields_of(sample: &Sample) -> Vec<WrittenField> {
    let (t, a) = witnesses::proof(sample);
    let mut fields = package_fields(sample.key(), sample.serial, &t, &a);
    fields.extend(check_fields(
        &sample.q,
        &sample.masks,
        &sample.delta,
        &sample.alpha,
    ));
    fields
}

/// The fields with one bit of this field changed, so that no refusal applies to
/// the file, and what is answered where it is known without the reference: K
/// has no zero divisors, so a change of a or of a mask number is seen when the
/// challenge isn't zero. The sizes are no such field.
pub fn changed(
    fields: &[WrittenField],
    tag: u8,
    generator: &mut Generator,
) -> (Vec<WrittenField>, Option<u32>) {
    let answer = match tag {
        tag::SERIAL => Some(DONE),
        tag::A | tag::MASKS => Some(REJECTED),
        _ => None,
    };
    loop {
        let mut fields = fields.to_vec();
        let content = content_mut(&mut fields, tag);
        let len = content.len();
        match holds(tag) {
            Some(Holds::Serial) => {
                content[generator.below(len)] ^= 1 << generator.below(8);
                // A serial of four bytes must still need them.
                if let [0, 0, _, _] = content[..] {
                    continue;
                }
            }
            Some(Holds::Bits) => content[generator.below(len)] ^= 1,
            _ => {
                let bit = generator.below(11);
                content[2 * generator.below(len / 2) + 1 - bit / 8] ^= 1 << (bit % 8);
            }
        }
        if !dependent_rows(&fields) && !fields.iter().any(zero_target) {
            return (fields, answer);
        }
    }
}

/// The tags of the fields after the sizes that have content.
pub fn changeable(fields: &[WrittenField]) -> Vec<u8> {
    let filled = fields.iter().filter(|field| !field.content.is_empty());
    let tags = filled.map(|field| field.tag);
    tags.filter(|&tag| holds(tag) != Some(Holds::Sizes))
        .collect()
}

const EXAMPLES: Group = Group::new("key A", |generator, each| {
    for fields in key_a(File::CheckFile) {
        each(of_fields(&fields, Some(DONE), generator));
        let mut other = fields.clone();
        let a = content_mut(&mut other, tag::A);
        assert_eq!(a[..2], [0, 5]);
        a[1] = 4;
        each(of_fields(&other, Some(REJECTED), generator));
        // With the other of the two targets, none and 5.
        let mut other = fields.clone();
        other.retain(|field| field.tag != tag::Y);
        if other.len() == fields.len() {
            set_target(&mut other, &[5]);
        }
        each(of_fields(&other, Some(REJECTED), generator));
    }
});

/// The answer to the file of a solved sample with another y: the elements that
/// differ count with their weights and with Δ^d.
fn answer_with(sample: &Sample, y: &[u16]) -> u32 {
    let elements = |words: &[u16]| elements_of_k(words).expect("coordinates up to 2047");
    let differences = sample.y.iter().zip(y).map(|(one, other)| one ^ other);
    let differences = elements(&samples::elements(&differences.collect::<Vec<_>>()));
    let weights = elements(&sample.alpha[COORDINATES * sample.n..]);
    let terms = weights.into_iter().zip(differences);
    let sum = terms.fold(K::ZERO, |sum, (alpha, y)| sum + alpha * y);
    if sum == K::ZERO || elements(&sample.delta)[0] == K::ZERO {
        DONE
    } else {
        REJECTED
    }
}

const TARGETS: Group = Group::new(
    "n to 20 and larger, y left out, put in or changed",
    |generator, each| {
        for n in (2..=20).chain([32, 33, 64]) {
            let m = keyed::some_m(n, generator)[n % 3];
            for challenge in Kind::CHALLENGES {
                let mut sample = verify::sample(n, m, challenge, generator);
                if generator.below(4) == 0 {
                    // Weights that leave the rows of H out.
                    sample.alpha[COORDINATES * n..].fill(0);
                }
                let fields = fields_of(&sample);
                for y in other_targets(&sample, generator) {
                    let answer = answer_with(&sample, &y);
                    let mut fields = fields.clone();
                    set_target(&mut fields, &y);
                    fields.retain(|field| !zero_target(field));
                    each(of_fields(&fields, Some(answer), generator));
                }
            }
        }
    },
);

/// The y of a sample, zeros, any, and one with one bit changed.
fn other_targets(sample: &Sample, generator: &mut Generator) -> Vec<Vec<u16>> {
    let mut changed = sample.y.clone();
    changed[generator.below(sample.m)] ^= 1 << generator.below(11);
    let any = generator.words(sample.m);
    vec![sample.y.clone(), vec![0; sample.m], any, changed]
}

const HONEST: Group = Group::new(
    "every n, honest files, challenge random, zero or one",
    |generator, each| {
        for n in keyed::EVERY_N {
            for (round, m) in keyed::some_m(n, generator).into_iter().enumerate() {
                if n <= 12 || round == n % 3 {
                    let challenge = Kind::CHALLENGES[(n / 3 + round) % 3];
                    let fields = honest(n, m, challenge, generator);
                    each(of_fields(&fields, Some(DONE), generator));
                }
            }
        }
    },
);

/// Files that would be accepted, but for their rows.
pub const LEANING: Group = Group::new(
    "n to 12, proofs that hold, rows of H that lean",
    |generator, each| {
        for n in 2..=12 {
            for m in 1..n {
                for leaning in Leaning::of(m) {
                    let sample = verify::sample(n, m, Kind::Random, generator);
                    let fields = leaning_fields(&sample.leaning(leaning, generator));
                    each(of_fields(&fields, Some(DEPENDENT), generator));
                }
            }
        }
    },
)
.with_any_rows();

/// The fields of the check file of a sample whose rows lean, with the t and the a
/// that would be accepted.
pub fn leaning_fields(sample: &Sample) -> Vec<WrittenField> {
    let (t, a) = sample.unjudged_proof().expect("material within its limits");
    sample.fields_with(&t, &a)
}

const CHANGED: Group = Group::new(
    "n to 20 and larger, one bit changed in each field, no refusal",
    |generator, each| {
        for n in (2..=20).chain([32, 33, 64]) {
            let m = keyed::some_m(n, generator)[(n + 1) % 3];
            let fields = honest(n, m, Kind::Random, generator);
            let rounds = if n < 10 { 10 } else { 1 };
            for tag in changeable(&fields).repeat(rounds) {
                let (fields, answer) = changed(&fields, tag, generator);
                each(of_fields(&fields, answer, generator));
            }
        }
    },
);

/// The bytes of an honest file. Whatever bit of H is changed, the rows do not
/// depend on each other.
fn honest_with_bits(n: usize, m: usize, generator: &mut Generator) -> Vec<u8> {
    loop {
        let fields = honest(n, m, Kind::Random, generator);
        let len = content_of(&fields, tag::H).len();
        let mut bits = (0..8 * len).map(|bit| {
            let mut fields = fields.clone();
            content_mut(&mut fields, tag::H)[bit / 8] ^= 1 << (bit % 8);
            dependent_rows(&fields)
        });
        if !bits.any(|dependent| dependent) {
            return join(&fields);
        }
    }
}

const EVERY_BIT: Group = Group::new(
    "every bit of an honest file changed, for n = 2, 3",
    |generator, each| {
        for (n, m) in [(2, 1), (3, 2)] {
            let bytes = honest_with_bits(n, m, generator);
            for bit in 0..8 * bytes.len() {
                let mut bytes = bytes.clone();
                bytes[bit / 8] ^= 1 << (bit % 8);
                each(case(Lent::with_bytes(&bytes, generator), None));
            }
        }
    },
);

/// Fields that are zero together.
const ZERO_FIELDS: [&[u8]; 4] = [
    &[tag::ALPHA],
    &[tag::MASKS, tag::A],
    &[tag::DELTA],
    &[tag::Q, tag::T],
];

const ZEROS: Group = Group::new(
    "challenge, weights or a zero, any numbers",
    |generator, each| {
        for n in 2..=20 {
            for set in 0..16 {
                let m = keyed::some_m(n, generator)[set % 3];
                let mut fields = any_fields(n, m, generator);
                for (bit, list) in ZERO_FIELDS.into_iter().enumerate() {
                    if set >> bit & 1 == 1 {
                        for &tag in list {
                            content_mut(&mut fields, tag).fill(0);
                        }
                    }
                }
                // With zero weights, masks and a, the equation is 0 = 0.
                let answer = (set & 3 == 3).then_some(DONE);
                each(of_fields(&fields, answer, generator));
            }
        }
    },
);
