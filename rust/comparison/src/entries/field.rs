//! The entries sum and product in K.

use super::{number, stated, DONE};
use crate::case::{decided, Call, Case, Entry, Group, Taken};
use crate::lent::Lent;
use crate::library;
use crate::named::Named;
use reference::large_field::{COORDINATES, K};
use reference::samples::Generator;
use reference::small_field::F;
use reference::Refusal;

/// The first operand.
const A: &str = "a";
/// The second operand.
const B: &str = "b";
/// The result.
const OUT: &str = "out";

/// The refusals in the order in which they are decided.
const REFUSALS: &[Refusal] = &[Refusal::SliceLength, Refusal::Coordinate];

/// 3: "a lent slice isn't of its stated length".
const LENGTH: u32 = 3;

/// 6: "a coordinate of an element of K is above 2047".
const COORDINATE: u32 = 6;

/// The entry sum.
pub const SUM: Entry = Entry {
    name: "sum",
    library: |taken, outputs| call(library::sum, taken, outputs),
    reference: |taken, outputs| number(call(reference::sum, taken, outputs)),
    ..ENTRY
};

/// The entry product.
pub const PRODUCT: Entry = Entry {
    name: "product",
    library: |taken, outputs| call(library::product, taken, outputs),
    reference: |taken, outputs| number(call(reference::product, taken, outputs)),
    groups: || [GROUPS, &[EXAMPLES]].concat(),
    ..ENTRY
};

/// An entry that takes two elements and writes one.
const ENTRY: Entry = Entry {
    name: "",
    done: &[DONE],
    refusals: REFUSALS,
    library: NONE,
    reference: NONE,
    packed: None,
    rows: None,
    package: None,
    table: None,
    groups: || GROUPS.to_vec(),
    least: Vec::new,
};

/// No entry yet.
const NONE: Call = |_, _| unreachable!("each entry has its own");

/// The groups of both.
const GROUPS: &[Group] = &[
    RANDOM,
    SPECIAL,
    TWICE,
    LENGTHS,
    COORDINATES_ABOVE,
    BOTH_FAULTS,
    RANDOM_FAULTS,
];

/// An implementation of sum or product.
type Function<A> = fn(&[u16], &[u16], &mut [u16]) -> A;

/// Calls an implementation; a case with one operand lends it twice.
fn call<Answer>(function: Function<Answer>, taken: &Taken, outputs: &mut Named<Lent>) -> Answer {
    let a = &taken.inputs[A];
    let b = taken.inputs.get(B).unwrap_or(a);
    function(a.words(), b.words(), outputs[OUT].words_mut())
}

/// A case with these operands and an output of this length.
fn case(
    generator: &mut Generator,
    a: &[u16],
    b: &[u16],
    out_len: usize,
    answer: Option<u32>,
) -> Case {
    let [a, b] = [a, b].map(|words| Lent::with_words(words, generator));
    let out = Lent::any_words(out_len, generator);
    let inputs = Named::from([(A, a), (B, b)]);
    Case::new(Named::new(), inputs, Named::from([(OUT, out)])).answering(answer)
}

/// A case that isn't refused.
fn right(generator: &mut Generator, a: &[u16], b: &[u16]) -> Case {
    case(generator, a, b, COORDINATES, Some(DONE))
}

/// A random element; in one of four most coordinates are 0.
fn element(generator: &mut Generator) -> Vec<u16> {
    let mut words = generator.words(COORDINATES);
    if generator.below(4) == 0 {
        for word in &mut words {
            if generator.below(4) != 0 {
                *word = 0;
            }
        }
    }
    words
}

/// The element with a word in coordinate i and 0 in the others.
fn single(i: usize, word: u16) -> Vec<u16> {
    let mut words = vec![0; COORDINATES];
    words[i] = word;
    words
}

/// A word above 2047.
fn above(generator: &mut Generator) -> u16 {
    F::LARGEST + 1 + generator.below(usize::from(u16::MAX - F::LARGEST)) as u16
}

const RANDOM: Group = Group::new("random elements", |generator, each| {
    for _ in 0..100_000 {
        let a = element(generator);
        let b = element(generator);
        each(right(generator, &a, &b));
    }
});

/// Zero, powers of Y, single bits, and elements with the largest word in some
/// or all coordinates.
fn special() -> Vec<Vec<u16>> {
    let mut list = vec![vec![0; COORDINATES]];
    // Y^22 is the highest power in a product that is not reduced.
    list.extend((0..=22).map(|power| K::Y.power(power).words().to_vec()));
    for i in 0..COORDINATES {
        list.extend((1..11).map(|bit| single(i, 1 << bit)));
        list.push(single(i, F::LARGEST));
        let mut others = vec![F::LARGEST; COORDINATES];
        others[i] = 0;
        list.push(others);
    }
    for word in [1, 2, 0b010_1010_1010, 0b101_0101_0101, 1024, F::LARGEST] {
        list.push(vec![word; COORDINATES]);
    }
    for rest in 0..4 {
        let every_fourth = |i| if i % 4 == rest { F::LARGEST } else { 0 };
        list.push((0..COORDINATES).map(every_fourth).collect());
    }
    list.extend([3, 5, 517, 1023, 2043, 2046].map(|word| single(0, word)));
    list
}

const SPECIAL: Group = Group::new("all pairs of special elements", |generator, each| {
    let list = special();
    for a in &list {
        for b in &list {
            each(right(generator, a, b));
        }
    }
});

const TWICE: Group = Group::new("one slice lent as both operands", |generator, each| {
    let mut list = special();
    list.extend((0..1_000).map(|_| element(generator)));
    for a in list {
        let mut case = right(generator, &a, &a);
        case.inputs.remove(B);
        each(case);
    }
});

/// A case with slices of these lengths and all words up to 2047.
fn of_lengths(generator: &mut Generator, [a, b, out]: [usize; 3]) -> Case {
    let right = [a, b, out].iter().all(|&length| length == COORDINATES);
    let answer = if right { DONE } else { LENGTH };
    let a = generator.words(a);
    let b = generator.words(b);
    case(generator, &a, &b, out, Some(answer))
}

/// The lengths that are tried for each slice.
const TRIED: std::ops::RangeInclusive<usize> = 0..=26;

/// The right lengths.
const RIGHT: [usize; 3] = [COORDINATES; 3];

const LENGTHS: Group = Group::new("lengths", |generator, each| {
    // 268 and 65548 are 12 in their lowest 8 and 16 bits.
    for slice in 0..3 {
        for length in TRIED.chain([120, 268, 65_548]) {
            let mut lengths = RIGHT;
            lengths[slice] = length;
            each(of_lengths(generator, lengths));
        }
    }
    for (one, other) in [(0, 1), (0, 2), (1, 2)] {
        for length in TRIED {
            for other_length in TRIED {
                let mut lengths = RIGHT;
                lengths[one] = length;
                lengths[other] = other_length;
                each(of_lengths(generator, lengths));
            }
        }
    }
    for _ in 0..1_000 {
        let lengths = [(); 3].map(|()| generator.below(TRIED.end() + 1));
        each(of_lengths(generator, lengths));
    }
    // Empty slices with dangling pointers, in each set of places.
    for set in 1..8 {
        let mut case = of_lengths(generator, RIGHT);
        for (place, name) in [A, B, OUT].into_iter().enumerate() {
            if set >> place & 1 == 1 {
                *case.slice_mut(name) = Lent::no_words();
            }
        }
        case.answer = Some(LENGTH);
        each(case);
    }
});

const COORDINATES_ABOVE: Group = Group::new("coordinates about 2047", |generator, each| {
    for i in 0..COORDINATES {
        let mut words = vec![2047, 2048, 2049, 4095, 4096, 8192, 16_384];
        words.extend([32_767, 32_768, 34_815, 63_488, 65_535]);
        words.extend((0..20).map(|_| above(generator)));
        for word in words {
            let answer = if word > F::LARGEST { COORDINATE } else { DONE };
            for elements in [element, |_: &mut Generator| vec![0; COORDINATES]] {
                let a = elements(generator);
                let mut b = elements(generator);
                b[i] = word;
                each(case(generator, &a, &b, COORDINATES, Some(answer)));
                each(case(generator, &b, &a, COORDINATES, Some(answer)));
            }
        }
        // A coordinate of each operand.
        for j in 0..COORDINATES {
            let mut a = element(generator);
            let mut b = element(generator);
            a[i] = above(generator);
            b[j] = above(generator);
            each(case(generator, &a, &b, COORDINATES, Some(COORDINATE)));
        }
    }
});

const BOTH_FAULTS: Group = Group::new(
    "wrong length and coordinate above 2047",
    |generator, each| {
        for slice in 0..3 {
            for length in TRIED.filter(|&length| length != COORDINATES) {
                for _ in 0..20 {
                    let mut lengths = RIGHT;
                    lengths[slice] = length;
                    let mut a = generator.words(lengths[0]);
                    let mut b = generator.words(lengths[1]);
                    // At least one of the operands has a word.
                    for words in [&mut a, &mut b] {
                        if !words.is_empty() {
                            let place = generator.below(words.len());
                            words[place] = above(generator);
                        }
                    }
                    let both = [Refusal::Coordinate, Refusal::SliceLength];
                    let answer = decided(REFUSALS, &both).number();
                    each(case(generator, &a, &b, lengths[2], Some(answer)));
                }
            }
        }
    },
);

const RANDOM_FAULTS: Group = Group::new("random faults", |generator, each| {
    for _ in 0..20_000 {
        let mut lengths = RIGHT;
        for length in &mut lengths {
            if generator.below(8) == 0 {
                *length = generator.below(TRIED.end() + 1);
            }
        }
        let mut a = generator.words(lengths[0]);
        let mut b = generator.words(lengths[1]);
        for words in [&mut a, &mut b] {
            if !words.is_empty() && generator.below(4) == 0 {
                let place = generator.below(words.len());
                words[place] = generator.number() as u16;
            }
        }
        each(case(generator, &a, &b, lengths[2], None));
    }
});

/// A product that the specification states.
fn product(generator: &mut Generator, a: &[u16], b: &[u16], product: &[u16]) -> Case {
    let words = product.iter().enumerate();
    let words = words.map(|(index, &word)| stated(OUT, index, word));
    Case {
        stated: Some(words.collect()),
        ..right(generator, a, b)
    }
}

const EXAMPLES: Group = Group::new("examples of the specification", |generator, each| {
    // Examples in F, at Y^i and Y^j: Y^i times Y^j is Y^(i + j).
    for (a, b, word) in [(1024, 2, 5), (1024, 1024, 517), (2047, 2, 2043)] {
        for i in 0..COORDINATES {
            for j in 0..COORDINATES - i {
                let word = single(i + j, word);
                each(product(generator, &single(i, a), &single(j, b), &word));
                each(product(generator, &single(i, b), &single(j, a), &word));
            }
        }
    }
    for (j, ones) in [(1, &[0, 3][..]), (11, &[1, 4, 10])] {
        let mut words = vec![0; COORDINATES];
        for &i in ones {
            words[i] = 1;
        }
        each(product(generator, &single(11, 1), &single(j, 1), &words));
        each(product(generator, &single(j, 1), &single(11, 1), &words));
    }
});
