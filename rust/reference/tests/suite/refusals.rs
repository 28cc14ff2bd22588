//! The refusals of the entries with lent slices: each number, each slice,
//! their order, and outputs that stay as they were.

use reference::large_field::COORDINATES;
use reference::package::package_bytes;
use reference::samples::{independent, Generator, Leaning, Lent, Material, Sample};
use reference::Refusal;
use std::collections::BTreeSet;

/// What the entries with a key write.
#[derive(Clone, Debug, PartialEq)]
struct Outputs {
    t: Vec<u8>,
    polynomials: Vec<u16>,
    a: Vec<u16>,
    values: Vec<u16>,
    matrix: Vec<u16>,
    package: Vec<u8>,
}

/// The output that has no stated length: a shorter one than the package is
/// refused, and a longer one is not.
const PACKAGE: &str = "package_out";

impl Outputs {
    /// The slices with their names.
    fn slices(&mut self) -> Vec<(&'static str, Lent<'_>)> {
        vec![
            ("t_out", Lent::Bytes(&mut self.t)),
            ("polynomials_out", Lent::Words(&mut self.polynomials)),
            ("a_out", Lent::Words(&mut self.a)),
            ("values_out", Lent::Words(&mut self.values)),
            ("matrix_out", Lent::Words(&mut self.matrix)),
            (PACKAGE, Lent::Bytes(&mut self.package)),
        ]
    }
}

/// All that is lent to any of the entries with a key.
#[derive(Clone, Debug)]
struct Call {
    inputs: Material,
    outputs: Outputs,
}

impl Call {
    fn new(n: usize, m: usize) -> Call {
        let sample = Sample::solving(n, m, &mut Generator::new(30));
        let sizes = sample.key().sizes().expect("sizes that are not refused");
        let words = |slice: &str| vec![0xabcd; sizes.length_of(slice)];
        let inputs = Material::of(sample);
        let Material { sample, t, a } = &inputs;
        let package = package_bytes(sample.key(), sample.serial, t, a);
        Call {
            outputs: Outputs {
                t: vec![0xee; sizes.length_of("t")],
                polynomials: words("polynomials"),
                a: words("a"),
                values: words("values"),
                matrix: words("matrix"),
                package: vec![0xee; package.len()],
            },
            inputs,
        }
    }

    /// The slice with this name.
    fn lent(&mut self, name: &str) -> Lent<'_> {
        let slices = self.inputs.slices().into_iter();
        let mut slices = slices.chain(self.outputs.slices());
        let slice = slices.find(|(slice, _)| *slice == name);
        slice.expect("a slice of an entry").1
    }

    /// The names of the outputs that are not those of another call.
    fn differing(&self, other: &Call) -> Vec<&'static str> {
        let (mut ours, mut others) = (self.outputs.clone(), other.outputs.clone());
        let pairs = ours.slices().into_iter().zip(others.slices());
        let differing = pairs.filter(|(ours, others)| ours.1 != others.1);
        differing.map(|(ours, _)| ours.0).collect()
    }

    /// Runs the entry, which answers this refusal and writes nothing.
    fn refused(mut self, entry: &Entry, number: u32, label: &str) {
        let before = self.outputs.clone();
        let answer = (entry.run)(&mut self).map_err(Refusal::number);
        assert_eq!(answer, Err(number), "{}: {label}", entry.name);
        assert_eq!(self.outputs, before, "{}: {label}", entry.name);
    }
}

/// An entry with a key.
struct Entry {
    name: &'static str,
    /// The slices of the key that it reads.
    key: &'static [&'static str],
    /// The slices that it reads beside those.
    inputs: &'static [&'static str],
    /// The slices that it writes.
    outputs: &'static [&'static str],
    /// The numbers of its refusals, in the order in which they are judged.
    order: &'static [u32],
    run: fn(&mut Call) -> Result<(), Refusal>,
}

/// The slices of the key.
const KEY: [&str; 3] = ["h", "x", "y"];

const ENTRIES: [Entry; 6] = [
    Entry {
        name: "constraints",
        key: &KEY,
        inputs: &["positions", "u", "v"],
        outputs: &["t_out", "polynomials_out"],
        order: &[1, 2, 3, 4, 15, 5, 6, 7],
        run: |Call { inputs, outputs }| {
            let k = &inputs.sample;
            let (t, polynomials) = (&mut outputs.t, &mut outputs.polynomials);
            reference::constraints(k.key(), &k.positions, &k.u, &k.v, t, polynomials)
        },
    },
    Entry {
        name: "prove",
        key: &KEY,
        inputs: &["positions", "u", "v", "r", "s", "alpha"],
        outputs: &["t_out", "a_out"],
        order: &[1, 2, 3, 4, 15, 5, 6, 7, 16, 8],
        run: |Call { inputs, outputs }| {
            let k = &inputs.sample;
            let (r, s, alpha) = (&k.r, &k.s, &k.alpha);
            let (t, a) = (&mut outputs.t, &mut outputs.a);
            reference::prove(k.key(), &k.positions, &k.u, &k.v, r, s, alpha, t, a)
        },
    },
    Entry {
        name: "values",
        key: &KEY,
        inputs: &["t", "q", "delta"],
        outputs: &["values_out"],
        order: &[1, 2, 3, 4, 15, 5, 6],
        run: |Call { inputs, outputs }| {
            let k = &inputs.sample;
            reference::values(k.key(), &inputs.t, &k.q, &k.delta, &mut outputs.values)
        },
    },
    Entry {
        name: "verify",
        key: &KEY,
        inputs: &["t", "q", "delta", "masks", "alpha", "a"],
        outputs: &[],
        order: &[1, 2, 3, 4, 15, 5, 6],
        run: |Call { inputs, .. }| {
            let Material { sample, t, a } = inputs;
            sample.verdict(t, a).map(|_| ())
        },
    },
    Entry {
        name: "rank",
        key: &["h"],
        inputs: &[],
        outputs: &["matrix_out"],
        order: &[1, 2, 3, 4],
        run: |Call { inputs, outputs }| {
            let Sample { n, m, h, .. } = &inputs.sample;
            reference::rank(*n, *m, h, &mut outputs.matrix).map(|_| ())
        },
    },
    Entry {
        name: "write_package",
        key: &KEY,
        inputs: &["t", "a"],
        outputs: &[PACKAGE],
        order: &[1, 2, 3, 4, 15, 5, 6, 13],
        run: |Call { inputs, outputs }| {
            let Material { sample, t, a } = inputs;
            let out = &mut outputs.package;
            reference::write_package(sample.key(), sample.serial, t, a, out).map(|_| ())
        },
    },
];

impl Entry {
    /// All slices, those of the key first.
    fn slices(&self) -> impl Iterator<Item = &'static str> {
        let lists = [self.key, self.inputs, self.outputs];
        lists.into_iter().flatten().copied()
    }

    /// The place of a number in the order.
    fn place(&self, number: u32) -> usize {
        let place = self.order.iter().position(|&other| other == number);
        place.expect("a number of the entry")
    }
}

/// A fault: its number, a label, and what it does to a call.
struct Fault {
    number: u32,
    label: String,
    change: Box<dyn Fn(&mut Call)>,
}

impl Fault {
    fn new(number: u32, label: String, change: impl Fn(&mut Call) + 'static) -> Fault {
        Fault {
            number,
            label,
            change: Box::new(change),
        }
    }
}

/// Sizes that are refused.
fn size_faults(n: usize) -> Vec<Fault> {
    let of_n = [0, 1, 65, 66, 1 << 32, usize::MAX].map(|other| {
        let change = move |call: &mut Call| call.inputs.sample.n = other;
        Fault::new(1, format!("n = {other}"), change)
    });
    let of_m = [0, n, n + 1, 1 << 32, usize::MAX].map(|other| {
        let change = move |call: &mut Call| call.inputs.sample.m = other;
        Fault::new(2, format!("m = {other}"), change)
    });
    of_n.into_iter().chain(of_m).collect()
}

/// Other lengths of a slice.
fn length_faults(name: &'static str, length: usize) -> Vec<Fault> {
    let mut lengths = vec![length + 1, length + COORDINATES, 2 * length + 1];
    if length > 0 {
        lengths.extend([length - 1, 0]);
    }
    let fault = |other| {
        let label = format!("{name} has length {other}");
        Fault::new(3, label, move |call| call.lent(name).set_length(other))
    };
    lengths.into_iter().map(fault).collect()
}

/// Lengths of the output that are shorter than the package.
fn room_faults(length: usize) -> Vec<Fault> {
    let fault = |other| {
        let label = format!("the output has length {other}");
        Fault::new(13, label, move |call| call.lent(PACKAGE).set_length(other))
    };
    [length - 1, length / 2, 1, 0].map(fault).into()
}

/// Elements of a slice that are too large, at its first and its last place.
fn value_faults(name: &'static str, length: usize, d: usize) -> Vec<Fault> {
    let (number, values) = match name {
        _ if KEY.contains(&name) => (4, [2048, 65_535]),
        "u" | "t" => (5, [2, 255]),
        "positions" => (7, [1 << d, 255]),
        _ => (6, [2048, 65_535]),
    };
    let mut list = Vec::new();
    let Some(last) = length.checked_sub(1) else {
        return list;
    };
    for value in values {
        for place in [0, last] {
            let label = format!("{name} has {value} at {place}");
            let change = move |call: &mut Call| call.lent(name).change(place, |_| value);
            list.push(Fault::new(number, label, change));
        }
    }
    list
}

/// Positions that are spare codes, at the first and the last place, where n
/// leaves some.
fn spare_faults(n: usize, d: usize) -> Vec<Fault> {
    let mut list = Vec::new();
    for code in n..1 << d {
        for place in [0, n - 1] {
            let label = format!("the spare code {code} at {place}");
            let change = move |call: &mut Call| call.inputs.sample.positions[place] = code as u8;
            list.push(Fault::new(16, label, change));
        }
    }
    list
}

/// Rows of H that lean on each other, in every way that m rows can.
fn row_faults(m: usize) -> Vec<Fault> {
    let fault = |leaning: Leaning| {
        let change = move |call: &mut Call| {
            let Sample { n, h, .. } = &mut call.inputs.sample;
            leaning.make(h, *n, &mut Generator::new(31));
        };
        Fault::new(15, format!("the rows lean: {leaning:?}"), change)
    };
    Leaning::of(m).map(fault).collect()
}

/// Positions, rows of H and targets that are no solution.
fn top_faults() -> [Fault; 3] {
    [
        Fault::new(8, "a position is repeated".to_string(), |call| {
            let positions = &mut call.inputs.sample.positions;
            positions[0] = positions[1];
        }),
        Fault::new(8, "a row of H is wrong".to_string(), |call| {
            let Sample { n, h, .. } = &mut call.inputs.sample;
            h[0] ^= 1;
            assert!(independent(h, *n));
        }),
        Fault::new(8, "an element of y is wrong".to_string(), |call| {
            let Sample { y, .. } = &mut call.inputs.sample;
            *y.last_mut().expect("m is above 0") ^= 1;
        }),
    ]
}

/// Every fault of an entry for these sizes.
fn faults(entry: &Entry, call: &Call) -> Vec<Fault> {
    let Sample { n, m, d, .. } = call.inputs.sample;
    let mut list = size_faults(n);
    for name in entry.slices() {
        let length = call.clone().lent(name).length();
        list.extend(match name {
            PACKAGE => room_faults(length),
            _ => length_faults(name, length),
        });
        if !entry.outputs.contains(&name) {
            list.extend(value_faults(name, length, d));
        }
    }
    if entry.order.contains(&15) {
        list.extend(row_faults(m));
    }
    if entry.order.contains(&16) {
        list.extend(spare_faults(n, d));
    }
    if entry.order.contains(&8) {
        list.extend(top_faults());
    }
    list
}

/// Sizes without and with masks, and with spare codes.
const SIZES: [(usize, usize); 4] = [(2, 1), (3, 1), (4, 3), (5, 2)];

#[test]
fn calls_without_a_fault_are_answered() {
    for (n, m) in SIZES {
        for entry in ENTRIES {
            let mut call = Call::new(n, m);
            assert_eq!((entry.run)(&mut call), Ok(()), "{}", entry.name);
            let written = call.differing(&Call::new(n, m));
            assert_eq!(written, entry.outputs, "{}", entry.name);
        }
    }
}

#[test]
fn every_number_of_every_entry() {
    for entry in ENTRIES {
        let mut seen = BTreeSet::new();
        for (n, m) in SIZES {
            let call = Call::new(n, m);
            for fault in faults(&entry, &call) {
                let mut call = call.clone();
                (fault.change)(&mut call);
                call.refused(&entry, fault.number, &fault.label);
                seen.insert(fault.number);
            }
        }
        let stated: BTreeSet<u32> = entry.order.iter().copied().collect();
        assert_eq!(seen, stated, "{}", entry.name);
    }
}

/// Two faults at once: the order of the entry decides. The fault that is judged
/// later is made first, so that a slice is shortened after its elements are set.
#[test]
fn every_pair_of_faults() {
    for entry in ENTRIES {
        let mut pairs = BTreeSet::new();
        for (n, m) in [(2, 1), (5, 2)] {
            let call = Call::new(n, m);
            let list = faults(&entry, &call);
            for early in &list {
                let after = |late: &&Fault| entry.place(late.number) > entry.place(early.number);
                for late in list.iter().filter(after) {
                    let mut call = call.clone();
                    (late.change)(&mut call);
                    (early.change)(&mut call);
                    let label = format!("{}, {}", early.label, late.label);
                    call.refused(&entry, early.number, &label);
                    pairs.insert((early.number, late.number));
                }
            }
        }
        let count = entry.order.len();
        assert_eq!(pairs.len(), count * (count - 1) / 2, "{}", entry.name);
    }
}

/// The refusals of sum and product, in the order in which they are judged.
const ORDER_OF_ELEMENTS: [Refusal; 2] = [Refusal::SliceLength, Refusal::Coordinate];

#[test]
fn sum_and_product() {
    type OnElements = fn(&[u16], &[u16], &mut [u16]) -> Result<(), Refusal>;
    let entries: [OnElements; 2] = [reference::sum, reference::product];
    let right = vec![2047; COORDINATES];
    let room = vec![0xabcd; COORDINATES];
    for entry in entries {
        let refused = |a: &[u16], b: &[u16], out: &[u16], refusal: Refusal| {
            let mut written = out.to_vec();
            assert_eq!(entry(a, b, &mut written), Err(refusal));
            assert_eq!(written, out);
        };
        let [first, second] = ORDER_OF_ELEMENTS;
        for length in [0, 1, 11, 13, 24] {
            for slice in 0..3 {
                // A length that is not stated, with words above 2047 where it
                // is longer.
                let mut lent = [right.clone(), right.clone(), room.clone()];
                lent[slice].resize(length, 2048);
                let [a, b, out] = lent;
                refused(&a, &b, &out, first);
            }
        }
        for place in 0..COORDINATES {
            for slice in 0..2 {
                for word in [2048, 65_535] {
                    let mut lent = [right.clone(), right.clone()];
                    lent[slice][place] = word;
                    let [a, b] = lent;
                    refused(&a, &b, &room, second);
                    refused(&a, &b, &room[1..], first);
                }
            }
        }
        let mut out = room.clone();
        assert_eq!(entry(&right, &right, &mut out), Ok(()));
        assert_ne!(out, room);
    }
}
