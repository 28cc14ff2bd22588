//! What the entries that take a key, or of a key n, m and H alone, have in
//! common: their slices, their refusals, and cases that no refusal applies to.

use super::DONE;
use crate::case::{Case, Cell, Entry, Rows, Table, Taken};
use crate::kinds::Kind;
use crate::lent::Lent;
use crate::named::Named;
use crate::slices::{self, Slice, KEY, M, N, Y};
use reference::key::{number_of_digits, Sizes};
use reference::samples::{Generator, Leaning, Sample};
use reference::small_field::F;
use reference::Refusal;

/// An entry that takes a key, then other slices.
pub trait Keyed: Sized {
    /// The slices of the key that it reads.
    const OF_KEY: &'static [&'static str] = KEY;
    /// The slices that it reads after those of the key.
    const READS: &'static [&'static str];
    /// The slices that it writes.
    const WRITES: &'static [&'static str];
    /// The sizes that it writes, after the slices.
    const SIZES: &'static [&'static str] = &[];
    /// The answers that are no refusal.
    const DONE: &'static [u32] = &[DONE];
    /// The refusals in the order in which they are decided.
    const REFUSALS: &'static [Refusal];

    /// A random case that no refusal applies to, but for the last of prove.
    fn right(sizes: Sizes, generator: &mut Generator) -> Case {
        of_sizes::<Self>(sizes, generator).answering(Some(DONE))
    }

    /// A case that no refusal before 15 applies to, with rows of H that lean in
    /// this way.
    fn leaning(sizes: Sizes, leaning: Leaning, generator: &mut Generator) -> Case {
        super::leaning::of_right::<Self>(sizes, leaning, generator)
    }

    /// Adds the numbers and the outputs that are not among the lists above to a
    /// case with its inputs.
    fn add_others(_: &mut Case, _: &mut Generator) {}

    /// The slices that it reads, those of the key first.
    fn inputs() -> Vec<Slice> {
        let names = Self::OF_KEY.iter().chain(Self::READS);
        names.map(|name| slices::named(name)).collect()
    }

    /// The slices that it writes.
    fn outputs() -> Vec<Slice> {
        let names = Self::WRITES.iter();
        names.map(|name| slices::named(name)).collect()
    }

    /// All slices, outputs after inputs.
    fn slices() -> Vec<Slice> {
        [Self::inputs(), Self::outputs()].concat()
    }
}

/// What the entries that take a key have the same.
pub const ENTRY: Entry = Entry {
    name: "",
    done: &[DONE],
    refusals: &[],
    library: |_, _| unreachable!("each entry has its own"),
    reference: |_, _| unreachable!("each entry has its own"),
    packed: None,
    rows: Some(rows_of_key),
    package: None,
    table: None,
    groups: Vec::new,
    least: Vec::new,
};

/// The refusals of an entry in the order in which they are decided: those of a
/// key that isn't well formed, of which 15 comes last, then its own.
macro_rules! after_key {
    ($($own:ident),*) => {
        &[
            Refusal::SizeN,
            Refusal::SizeM,
            Refusal::SliceLength,
            Refusal::KeyElement,
            Refusal::DependentRows,
            $(Refusal::$own),*
        ]
    };
}

pub(super) use after_key;

/// The refusals that are decided before the rows of H are judged. They are those
/// of rank.
pub const BEFORE_ROWS: &[Refusal] = &[
    Refusal::SizeN,
    Refusal::SizeM,
    Refusal::SliceLength,
    Refusal::KeyElement,
];

/// n and H of a call whose answer is none of these.
fn rows_of_key(taken: &Taken, answer: u32) -> Option<(usize, Vec<u16>)> {
    let before = BEFORE_ROWS.iter().any(|refusal| refusal.number() == answer);
    let key = taken.key();
    (!before).then(|| (key.n, key.h.to_vec()))
}

/// What y is: all zero, not all zero, of another length than m, or with an
/// element above 2047, of any length.
pub const TARGETS: [&str; 4] = ["zero", "nonzero", "length", "above"];

/// What y of a call is.
pub fn target_of(taken: &Taken) -> &'static str {
    let y = taken.words(Y);
    let [zero, nonzero, length, above] = TARGETS;
    if y.iter().any(|&word| word > F::LARGEST) {
        above
    } else if y.len() != taken.numbers[M] {
        length
    } else if y.iter().any(|&word| word != 0) {
        nonzero
    } else {
        zero
    }
}

/// The answers that an entry can give for such a y: all, or the refusals up to
/// the one that applies to it.
pub fn answers_for<E: Keyed>(target: &str) -> Vec<String> {
    let up_to = |last| {
        let place = E::REFUSALS.iter().position(|&refusal| refusal == last);
        &E::REFUSALS[..place.map_or(0, |place| place + 1)]
    };
    let (done, refusals) = match target {
        "length" => (&[][..], up_to(Refusal::SliceLength)),
        "above" => (&[][..], up_to(Refusal::KeyElement)),
        _ => (E::DONE, E::REFUSALS),
    };
    let refusals = refusals.iter().map(|refusal| refusal.number());
    let answers = done.iter().copied().chain(refusals);
    answers.map(|answer| answer.to_string()).collect()
}

/// The table of an entry that takes a key: what y is, and the answers.
pub const fn table<E: Keyed>() -> Table {
    Table {
        of: Y,
        columns: || answers_for::<E>(TARGETS[0]),
        rows: || -> Rows {
            let rows = TARGETS.map(|row| (row.to_string(), answers_for::<E>(row)));
            rows.into_iter().filter(|row| !row.1.is_empty()).collect()
        },
        cell: |answer, taken| -> Cell { (target_of(taken).to_string(), answer.to_string()) },
    }
}

/// Any sizes, also those that are refused; d is at least 1.
pub fn sizes(n: usize, m: usize) -> Sizes {
    let d = number_of_digits(n.saturating_sub(1)).max(1);
    Sizes { n, m, d }
}

/// The sizes of a key, also those that are refused.
pub fn sizes_of(taken: &Taken) -> Sizes {
    sizes(taken.numbers[N], taken.numbers[M])
}

/// Every n that isn't refused.
pub const EVERY_N: std::ops::RangeInclusive<usize> = 2..=64;

/// Up to this n some groups try all their variants of a case; above, the
/// variants take turns.
pub const ALL_VARIANTS: usize = 24;

/// The lowest m, the highest and any.
pub fn some_m(n: usize, generator: &mut Generator) -> [usize; 3] {
    [1, n - 1, 1 + generator.below(n - 1)]
}

/// Every list of n numbers below a limit.
pub fn all_lists(n: usize, limit: u8) -> Vec<Vec<u8>> {
    let mut lists = vec![Vec::new()];
    for _ in 0..n {
        let longer = |list: &Vec<u8>| -> Vec<Vec<u8>> {
            (0..limit)
                .map(|last| [&list[..], &[last]].concat())
                .collect()
        };
        lists = lists.iter().flat_map(longer).collect();
    }
    lists
}

/// The numbers of a key.
pub fn numbers(sizes: Sizes) -> Named<usize> {
    Named::from([(N, sizes.n), (M, sizes.m)])
}

/// A case with these inputs.
fn with_inputs<E: Keyed>(
    sizes: Sizes,
    generator: &mut Generator,
    mut input: impl FnMut(Slice, &mut Generator) -> Lent,
) -> Case {
    let inputs = E::inputs().into_iter();
    let inputs = inputs.map(|slice| (slice.name, input(slice, generator)));
    let inputs = inputs.collect();
    let outputs = E::outputs().into_iter();
    let outputs = outputs.map(|slice| (slice.name, slice.any((slice.length)(sizes), generator)));
    let mut outputs: Named<Lent> = outputs.collect();
    for name in E::SIZES {
        outputs.push(name, Lent::any_size(generator));
    }
    let mut case = Case::new(numbers(sizes), inputs, outputs);
    E::add_others(&mut case, generator);
    case
}

/// A case with slices of the lengths of these sizes and random content, which
/// neither 3 nor a later refusal applies to.
pub fn of_sizes<E: Keyed>(sizes: Sizes, generator: &mut Generator) -> Case {
    of_kinds::<E>(sizes, &[], generator)
}

/// The same, where some inputs hold what their kinds say.
pub fn of_kinds<E: Keyed>(sizes: Sizes, kinds: &[(&str, Kind)], generator: &mut Generator) -> Case {
    with_inputs::<E>(sizes, generator, |slice, generator| {
        let kind = kinds.iter().find(|(name, _)| *name == slice.name);
        let kind = kind.map_or(Kind::Random, |&(_, kind)| kind);
        slice.of_kind(kind, sizes, generator)
    })
}

/// A case with the slices of a sample; those that it doesn't have are random.
pub fn of_sample<E: Keyed>(sample: &Sample, generator: &mut Generator) -> Case {
    let sizes = sizes(sample.n, sample.m);
    with_inputs::<E>(sizes, generator, |slice, generator| {
        let lent = from_sample(sample, slice.name, generator);
        lent.unwrap_or_else(|| slice.of_kind(Kind::Random, sizes, generator))
    })
}

/// A slice of a sample.
fn from_sample(sample: &Sample, name: &str, generator: &mut Generator) -> Option<Lent> {
    let words = match name {
        slices::H => &sample.h,
        slices::X => &sample.x,
        slices::Y => &sample.y,
        slices::V => &sample.v,
        slices::R => &sample.r,
        slices::S => &sample.s,
        slices::ALPHA => &sample.alpha,
        slices::DELTA => &sample.delta,
        slices::Q => &sample.q,
        slices::MASKS => &sample.masks,
        slices::POSITIONS => return Some(Lent::with_bytes(&sample.positions, generator)),
        slices::U => return Some(Lent::with_bytes(&sample.u, generator)),
        _ => return None,
    };
    Some(Lent::with_words(words, generator))
}

/// Fills inputs with what their kinds say.
pub fn fill(case: &mut Case, kinds: &[(&str, Kind)], generator: &mut Generator) {
    let sizes = sizes_of(case);
    for &(name, kind) in kinds {
        case.inputs[name] = slices::named(name).of_kind(kind, sizes, generator);
    }
}

/// Fills inputs, those of one list alike: one in four all 0, and one in four of
/// the largest value or, for Δ, one.
pub fn fill_any(case: &mut Case, lists: &[&[&'static str]], generator: &mut Generator) {
    for list in lists {
        let turn = generator.below(4);
        for &name in *list {
            let kinds = match name {
                slices::DELTA => Kind::CHALLENGES,
                _ => Kind::EXTREMES,
            };
            fill(case, &[(name, kinds[turn.saturating_sub(1)])], generator);
        }
    }
}

/// Sets the slices of the key to those of another case of the same sizes.
pub fn set_key(case: &mut Case, other: &Case) {
    for name in KEY {
        case.set_words(name, other.words(name));
    }
}

/// The case with one bit changed in this element of an input, so that no
/// refusal applies to it.
pub fn changed(case: &Case, input: &str, index: usize, bit: usize) -> Case {
    let mut case = case.clone();
    case.inputs[input].change(index, bit);
    case.answering(None)
}

/// How many bits an element of this input has.
pub fn bits_of(input: &str) -> usize {
    match slices::named(input).elements {
        slices::Elements::Bits => 1,
        _ => 11,
    }
}

/// The extremes that are tried for n: all 81 combinations of four kinds, each
/// random, all 0, or of the largest value; from 8 on one combination.
pub fn extremes(n: usize) -> Vec<[Kind; 4]> {
    let combination = |c: usize| [c % 3, c / 3 % 3, c / 9 % 3, c / 27].map(|k| Kind::EXTREMES[k]);
    match n {
        2..=7 => (0..81).map(combination).collect(),
        // 1 to 80: not all random
        _ => vec![combination(1 + 7 * n % 80)],
    }
}

/// Takes sizes, a number that goes on, and the kinds of four slices.
pub type OfExtremes<'a> = dyn FnMut(Sizes, usize, [Kind; 4], &mut Generator) + 'a;

/// The name of the groups with extremes.
pub const EXTREMES: &str = "every n, words all 0 or 2047, bits all 0 or 1";

/// Hands over sizes of every n, the lowest m, the highest or any in turn, with a
/// number that goes on and the kinds of four slices.
pub fn with_extremes(generator: &mut Generator, each: &mut OfExtremes<'_>) {
    for n in EVERY_N {
        for (round, kinds) in extremes(n).into_iter().enumerate() {
            let m = some_m(n, generator)[(n + round / 3) % 3];
            each(sizes(n, m), n + round, kinds, generator);
        }
    }
}

/// Hands over all sizes with n up to 9, each in this many rounds.
pub fn small_sizes(rounds: usize, each: &mut dyn FnMut(Sizes, usize)) {
    for n in 2..=9 {
        for m in 1..n {
            for round in 0..rounds {
                each(sizes(n, m), round);
            }
        }
    }
}

/// Hands over every n with the lowest m, the highest and any, above some n one
/// of these in turn; and a number that goes on.
pub fn every_size(generator: &mut Generator, each: &mut dyn FnMut(Sizes, usize, &mut Generator)) {
    for n in EVERY_N {
        for (round, m) in some_m(n, generator).into_iter().enumerate() {
            if n <= ALL_VARIANTS || round == n % 3 {
                each(sizes(n, m), n / 3 + round, generator);
            }
        }
    }
}
