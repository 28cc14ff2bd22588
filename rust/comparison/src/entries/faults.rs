//! The groups of cases with faults, for every entry that takes a key, and for
//! rank.

use super::files::fields::HEAD;
use super::keyed::{of_sizes, sizes, Keyed, EVERY_N};
use super::write::{package_length, OUT};
use crate::case::{decided, Case, Group};
use crate::kinds::Kind;
use crate::lent::Lent;
use crate::slices::{self, Elements, H, M, N, POSITIONS};
use reference::key::Sizes;
use reference::large_field::COORDINATES;
use reference::samples::{Generator, Leaning};
use reference::small_field::F;
use reference::Refusal;
use std::collections::BTreeSet;

/// The groups of an entry whose cases have faults.
pub fn fault_groups<E: Keyed>() -> Vec<Group> {
    vec![
        sizes_out_of_range::<E>(),
        one_fault::<E>(),
        every_place::<E>(),
        super::lengths::other_lengths::<E>(),
        super::lengths::empty_slices::<E>(),
        two_faults::<E>(),
        random_faults::<E>(),
    ]
}

/// A fault of a case.
#[derive(Clone, Copy, Debug)]
pub enum Fault {
    /// The number with this name has this value.
    Number(&'static str, usize),
    /// The slice with this name has this length.
    Length(&'static str, usize),
    /// The input with this name has, in this place, this value.
    Element(&'static str, usize, u16),
    /// The rows of H lean on each other in this way.
    Lean(Leaning),
    /// The position in this place is this spare code.
    Spare(usize, u16),
    /// The output is shorter than the package by this many bytes, or empty.
    Short(usize),
}

impl Fault {
    /// The refusal that applies.
    fn refusal(self) -> Refusal {
        match self {
            Fault::Number(M, _) => Refusal::SizeM,
            Fault::Number(..) => Refusal::SizeN,
            Fault::Length(..) => Refusal::SliceLength,
            Fault::Element(name, ..) => slices::named(name).elements.refusal(),
            Fault::Lean(_) => Refusal::DependentRows,
            Fault::Spare(..) => Refusal::SpareCode,
            Fault::Short(_) => Refusal::ShortOutput,
        }
    }

    /// Its place in the order in which an entry decides.
    fn order<E: Keyed>(self) -> usize {
        let refusal = self.refusal();
        let order = E::REFUSALS.iter().position(|&other| other == refusal);
        order.expect("a refusal of the entry")
    }

    /// Puts the fault into a case with d digits. A place that the slice doesn't
    /// have becomes its last one. A position that is too large stays. Rows lean
    /// where the sizes and H have no other fault yet.
    fn apply<E: Keyed>(self, case: &mut Case, d: usize, generator: &mut Generator) {
        match self {
            Fault::Number(name, number) => case.numbers[name] = number,
            Fault::Length(name, len) => {
                let slice = slices::named(name);
                *case.slice_mut(name) = if E::WRITES.contains(&name) {
                    slice.any(len, generator)
                } else {
                    slice.of_length(len, Kind::Random, d, generator)
                };
            }
            Fault::Element(name, place, value) => {
                let input = &mut case.inputs[name];
                if !input.is_empty() {
                    input.set(place.min(input.len() - 1), value);
                }
            }
            Fault::Lean(leaning) => {
                let n = case.numbers[N];
                leaning.make(case.inputs[H].words_mut(), n, generator);
            }
            Fault::Spare(place, code) => {
                let positions = &mut case.inputs[POSITIONS];
                let place = place.min(positions.len().saturating_sub(1));
                if !positions.is_empty() && positions.element(place) < 1 << d {
                    positions.set(place, code);
                }
            }
            Fault::Short(by) => {
                let len = package_length(case).saturating_sub(by);
                case.outputs[OUT] = Lent::any_bytes(len, generator);
            }
        }
    }
}

/// The case with these faults; the refusal that is decided first is the answer.
/// With no fault the answer stays. Rows of H that lean are made before the other
/// faults, so that these stand in or beside such rows.
pub fn with_faults<E: Keyed>(
    case: &Case,
    d: usize,
    faults: &[Fault],
    generator: &mut Generator,
) -> Case {
    let mut case = case.clone();
    let mut faults = faults.to_vec();
    faults.sort_by_key(|fault| fault.order::<E>());
    let leaning = |fault: &&Fault| matches!(fault, Fault::Lean(_));
    let others = faults.iter().filter(|fault| !leaning(fault));
    for fault in faults.iter().filter(leaning).chain(others) {
        fault.apply::<E>(&mut case, d, generator);
    }
    if let Some(first) = faults.first() {
        case.answer = Some(first.refusal().number());
    }
    case
}

/// Values above the limit of a slice's elements; many, or the lowest and the
/// highest.
fn values_above(elements: Elements, d: usize, many: bool) -> Vec<u16> {
    let (limit, highest, others): (_, _, &[u16]) = match elements {
        Elements::Key | Elements::Coordinates => (
            F::LARGEST,
            u16::MAX,
            &[2049, 2303, 4095, 4096, 8192, 16_384, 32_767, 32_768, 63_488],
        ),
        Elements::Bits => (1, 255, &[3, 4, 16, 127, 128, 129, 254]),
        Elements::Positions => (
            (1 << d) - 1,
            255,
            &[2, 4, 8, 16, 32, 64, 127, 128, 192, 254],
        ),
    };
    let mut values = vec![limit + 1, highest];
    if many {
        values.push(limit + 2);
        values.extend(others.iter().filter(|&&value| value > limit));
    }
    values
}

/// Wrong numbers for these sizes; many, or few.
fn number_faults(Sizes { n, m, .. }: Sizes, many: bool) -> Vec<Fault> {
    let of_n = |n| Fault::Number(N, n);
    let of_m = |m| Fault::Number(M, m);
    let half = 1 << (usize::BITS - 1);
    let mut list = Vec::new();
    list.extend([0, 1, 65, 1 << 32, usize::MAX].map(of_n));
    list.extend([0, n, n + 1, 1 << 32, usize::MAX].map(of_m));
    if many {
        // Some have the right number in their lowest 8, 16, 32 or 63 bits.
        list.extend([66, 127, 128, 255, 256, 256 + n, 65_536 + n].map(of_n));
        list.extend([(1 << 32) + n, half, half + n, usize::MAX - 1].map(of_n));
        list.extend([2 * n, n + 64, n + 256, 256 + m, 65_536 + m].map(of_m));
        list.extend([(1 << 32) + m, half, half + m, usize::MAX - 1].map(of_m));
    }
    list
}

/// Other lengths than this one; many, or few.
fn wrong_lengths(len: usize, many: bool) -> BTreeSet<usize> {
    let less = |count| len.saturating_sub(count);
    let mut lengths = BTreeSet::from([0, less(1), len + 1, 2 * len]);
    if many {
        lengths.extend([1, 2, len / 2, less(2), len + 2, 2 * len + 1, 3 * len]);
        lengths.extend([less(COORDINATES), len + COORDINATES]);
        // In their lowest 8 and 16 bits these are right.
        lengths.extend([len + 256, len + 65_536]);
    }
    lengths.remove(&len);
    lengths
}

/// Every kind of fault for these sizes; many of each, or few.
fn faults<E: Keyed>(sizes: Sizes, many: bool, generator: &mut Generator) -> Vec<Fault> {
    let mut list = number_faults(sizes, many);
    for slice in E::slices() {
        let lengths = wrong_lengths((slice.length)(sizes), many).into_iter();
        list.extend(lengths.map(|len| Fault::Length(slice.name, len)));
    }
    for slice in E::inputs() {
        let len = (slice.length)(sizes);
        if len == 0 {
            continue;
        }
        for place in [0, len - 1, generator.below(len)] {
            let values = values_above(slice.elements, sizes.d, many).into_iter();
            let fault = |value| Fault::Element(slice.name, place, value);
            list.extend(values.map(fault));
        }
    }
    let Sizes { n, m, d } = sizes;
    if E::REFUSALS.contains(&Refusal::DependentRows) {
        list.extend(Leaning::of(m).map(Fault::Lean));
    }
    if E::REFUSALS.contains(&Refusal::SpareCode) && n < 1 << d {
        for place in [0, n - 1, generator.below(n)] {
            list.extend([n, (1 << d) - 1].map(|code| Fault::Spare(place, code as u16)));
        }
    }
    if E::REFUSALS.contains(&Refusal::ShortOutput) {
        list.extend([1, usize::MAX].map(Fault::Short));
        if many {
            list.extend([2, 3, HEAD + 2 * m, 24 * d, 24 * d + HEAD].map(Fault::Short));
        }
    }
    list
}

/// The refusals of sizes that apply.
fn of_sizes_out_of_range(n: usize, m: usize) -> Vec<Refusal> {
    let mut list = Vec::new();
    if !EVERY_N.contains(&n) {
        list.push(Refusal::SizeN);
    }
    if m == 0 || m >= n {
        list.push(Refusal::SizeM);
    }
    list
}

/// n or m out of their range, with slices of the lengths that these sizes would
/// have, or empty ones.
fn sizes_out_of_range<E: Keyed>() -> Group {
    Group::new("sizes out of range", |generator, each| {
        let mut tried = BTreeSet::new();
        for n in [0usize, 1, 65, 66, 100, 127, 128, 129] {
            tried.extend([0, 1, 2, 63, 64, n / 2].map(|m| (n, m)));
            tried.extend([n.saturating_sub(1), n, n + 1].map(|m| (n, m)));
        }
        for n in [2, 3, 4, 5, 8, 9, 32, 33, 63, 64] {
            tried.extend([0, n, n + 1, 2 * n].map(|m| (n, m)));
        }
        for (n, m) in tried {
            let refusal = decided(E::REFUSALS, &of_sizes_out_of_range(n, m));
            let case = of_sizes::<E>(sizes(n, m), generator);
            each(case.answering(Some(refusal.number())));
        }
        let huge = [1 << 16, 1 << 32, 1 << 62, 1 << 63];
        let huge = huge.into_iter().chain([usize::MAX - 1, usize::MAX]);
        for n in [0, 1, 2, 64].into_iter().chain(huge.clone()) {
            for m in [0].into_iter().chain(huge.clone()) {
                let refusal = decided(E::REFUSALS, &of_sizes_out_of_range(n, m));
                let mut empty = of_sizes::<E>(sizes(0, 0), generator);
                empty.numbers[N] = n;
                empty.numbers[M] = m;
                each(empty.answering(Some(refusal.number())));
            }
        }
    })
}

/// The sizes at which faults are tried: with one digit, with and without spare
/// codes, and the largest.
pub const TRIED: [(usize, usize); 7] = [(2, 1), (3, 1), (4, 3), (5, 2), (8, 7), (33, 16), (64, 27)];

/// One fault of each kind in each slice.
pub fn one_fault<E: Keyed>() -> Group {
    Group::new("one fault", |generator, each| {
        for (n, m) in TRIED {
            let sizes = sizes(n, m);
            let case = E::right(sizes, generator);
            for fault in faults::<E>(sizes, true, generator) {
                each(with_faults::<E>(&case, sizes.d, &[fault], generator));
            }
        }
    })
    .with_any_rows()
}

/// A value above the limit in each place of each input.
fn every_place<E: Keyed>() -> Group {
    Group::new("an element too large in every place", |generator, each| {
        for (n, m) in [(2, 1), (5, 3), (33, 7)] {
            let sizes = sizes(n, m);
            let case = E::right(sizes, generator);
            for slice in E::inputs() {
                let values = values_above(slice.elements, sizes.d, true);
                for place in 0..(slice.length)(sizes) {
                    let value = values[generator.below(values.len())];
                    let fault = Fault::Element(slice.name, place, value);
                    each(with_faults::<E>(&case, sizes.d, &[fault], generator));
                }
            }
        }
    })
}

/// Two faults of different refusals, for all pairs of faults: the one that is
/// decided first is the answer.
pub fn two_faults<E: Keyed>() -> Group {
    Group::new("two faults", |generator, each| {
        for (n, m) in [(2, 1), (5, 2), (64, 27)] {
            let sizes = sizes(n, m);
            let case = E::right(sizes, generator);
            let list = faults::<E>(sizes, false, generator);
            for early in &list {
                for late in &list {
                    if early.order::<E>() < late.order::<E>() {
                        let both = [*late, *early];
                        each(with_faults::<E>(&case, sizes.d, &both, generator));
                    }
                }
            }
        }
    })
    .with_any_rows()
}

/// Up to four faults at any sizes; small ones also without a fault.
fn random_faults<E: Keyed>() -> Group {
    Group::new("random faults", |generator, each| {
        for _ in 0..2_000 {
            let small = generator.below(2) == 0;
            let n = 2 + generator.below(if small { 7 } else { 63 });
            let sizes = sizes(n, 1 + generator.below(n - 1));
            let list = faults::<E>(sizes, true, generator);
            let count = usize::from(!small) + generator.below(4);
            let faults: Vec<Fault> = (0..count)
                .map(|_| list[generator.below(list.len())])
                .collect();
            let case = if faults.is_empty() {
                E::right(sizes, generator)
            } else {
                of_sizes::<E>(sizes, generator)
            };
            each(with_faults::<E>(&case, sizes.d, &faults, generator));
        }
    })
    .with_any_rows()
}
