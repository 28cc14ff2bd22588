//! The rows: which entries are called with what.

use crate::bundles::{self, Pair};
use crate::implementation::{
    material, written_words, Found, OnBytes, OnElements, OnKey, OnMatrix, OnPackage, OnPositions,
    ALL, FILED, KEYED, QUICK_LOOK, RANK, WRITE,
};
use crate::measure::{Calls, Row, Subject};
use crate::products;
use reference::package::{package_bytes, package_of};
use reference::samples::{Generator, Material, Sample};
use reference::Refusal;
use std::hint::black_box;

/// The sizes n and m. The first four grow with n.
pub const SIZES: [(usize, usize); 5] = [(8, 3), (16, 7), (32, 13), (64, 27), (64, 63)];

/// The number of pairs of independent operands.
const PAIRS: usize = 64;

/// The entry and form of the row that gives the time of one product.
pub const ONE_PRODUCT: (&str, &str) = ("product", "independent");

/// The sizes n and m of the packages that are written, the longest one last.
const WRITTEN: [(usize, usize); 2] = [(64, 27), (64, 63)];

/// The sizes n of the orders that are looked at, and what their rows say.
const ORDERS: [(usize, &str); 2] = [(8, "n = 8"), (64, "n = 64")];

/// What all rows are called with.
pub struct Inputs {
    /// The keys with their material.
    materials: Vec<Material>,
    /// Orders, and what their rows say.
    orders: Vec<(&'static str, Vec<u8>)>,
    /// A check file.
    pub file: Vec<u8>,
    /// Its package.
    pub package: Vec<u8>,
    /// Bundles.
    pub bundles: Vec<Pair>,
}

impl Inputs {
    /// Inputs with this check file, which is well formed.
    pub fn of(file: Vec<u8>) -> Inputs {
        let mut generator = Generator::new(3);
        let materials = SIZES
            .iter()
            .map(|&(n, m)| {
                material(Sample {
                    serial: u32::MAX,
                    ..Sample::with_target(n, m, &mut generator)
                })
            })
            .collect();
        let orders = ORDERS.map(|(n, form)| (form, generator.order(n)));
        Inputs {
            materials,
            orders: orders.to_vec(),
            package: package_of(&file).to_vec(),
            file,
            bundles: Pair::all(),
        }
    }

    /// The material of the packages that are written. Their keys have a target,
    /// and their serials four bytes.
    fn written(&self) -> impl Iterator<Item = &Material> {
        let sizes = |Material { sample, .. }: &Material| (sample.n, sample.m);
        let all = self.materials.iter();
        all.filter(move |material| WRITTEN.contains(&sizes(material)))
    }
}

/// One call; the compiler knows neither the slices nor the use of the result.
fn call(entry: OnElements, a: &[u16; 12], b: &[u16; 12], out: &mut [u16; 12]) {
    let answer = entry(
        black_box(&a[..]),
        black_box(&b[..]),
        black_box(&mut out[..]),
    );
    assert_eq!(answer, 0);
}

/// A random element.
fn element(generator: &mut Generator) -> [u16; 12] {
    std::array::from_fn(|_| generator.word())
}

/// Calls whose operands are the results of the two calls before.
fn chain(entry: OnElements) -> Calls<'static> {
    let mut generator = Generator::new(1);
    let mut elements = [(); 3].map(|()| element(&mut generator));
    Box::new(move |count| {
        let [mut a, mut b, mut c] = elements.each_mut();
        for _ in 0..count {
            call(entry, a, b, c);
            (a, b, c) = (b, c, a);
        }
    })
}

/// Calls whose operands are no results.
fn independent(entry: OnElements) -> Calls<'static> {
    let mut generator = Generator::new(2);
    let a = [(); PAIRS].map(|()| element(&mut generator));
    let b = [(); PAIRS].map(|()| element(&mut generator));
    let mut out = [[0; 12]; PAIRS];
    Box::new(move |count| {
        for i in 0..count {
            let i = i % PAIRS;
            call(entry, &a[i], &b[i], &mut out[i]);
        }
    })
}

/// Calls with a key.
fn with_key(entry: OnKey, material: &Material, words: usize) -> Calls<'_> {
    let mut t = material.t.clone();
    let mut out = vec![0; words];
    Box::new(move |count| {
        for _ in 0..count {
            let answer = entry(
                black_box(material),
                black_box(&mut t[..]),
                black_box(&mut out[..]),
            );
            assert_eq!(answer, 0);
        }
    })
}

/// Calls with an H whose rows do not lean on each other.
fn with_matrix(entry: OnMatrix, material: &Material) -> Calls<'_> {
    let Sample { n, m, ref h, .. } = material.sample;
    let mut matrix = vec![0; h.len()];
    Box::new(move |count| {
        for _ in 0..count {
            let mut rank = 0;
            let answer = entry(
                n,
                m,
                black_box(&h[..]),
                black_box(&mut matrix[..]),
                &mut rank,
            );
            assert_eq!((answer, rank), (0, m));
        }
    })
}

/// Calls with an order, all of which is read.
fn with_order(entry: OnPositions, positions: &[u8]) -> Calls<'_> {
    Box::new(move |count| {
        for _ in 0..count {
            let mut index = usize::MAX;
            let answer = entry(positions.len(), black_box(positions), &mut index);
            assert_eq!((answer, index), (0, usize::MAX));
        }
    })
}

/// The package of some material.
fn package(Material { sample, t, a }: &Material) -> Vec<u8> {
    package_bytes(sample.key(), sample.serial, t, a)
}

/// Calls that write a package.
fn writing(entry: OnPackage, material: &Material) -> Calls<'_> {
    let length = package(material).len();
    with_room(entry, material, length, (0, length))
}

/// Calls that make all checks of a package and write nothing: the output is one
/// byte short.
fn checking(entry: OnPackage, material: &Material) -> Calls<'_> {
    let room = package(material).len() - 1;
    with_room(entry, material, room, (Refusal::ShortOutput.number(), 0))
}

/// Calls that write a package into an output of this length, with what they
/// answer and the length that they write.
fn with_room(
    entry: OnPackage,
    material: &Material,
    room: usize,
    expected: (u32, usize),
) -> Calls<'_> {
    let mut out = vec![0; room];
    Box::new(move |count| {
        for _ in 0..count {
            let mut length = 0;
            let answer = entry(black_box(material), black_box(&mut out[..]), &mut length);
            assert_eq!((answer, length), expected);
        }
    })
}

/// Copies of bytes.
pub fn copying(bytes: Vec<u8>) -> Calls<'static> {
    let mut out = vec![0; bytes.len()];
    Box::new(move |count| {
        for _ in 0..count {
            black_box(&mut out[..]).copy_from_slice(black_box(&bytes));
        }
    })
}

/// Calls with bytes.
fn with_bytes(entry: OnBytes, bytes: &[u8]) -> Calls<'_> {
    let mut found = Found::default();
    Box::new(move |count| {
        for _ in 0..count {
            black_box(entry(black_box(bytes), black_box(&mut found)));
        }
    })
}

/// The rows on elements.
fn on_elements(rows: &mut Vec<Row>) {
    let mut push = |entry, form, products, calls| {
        rows.push(Row {
            subject: Subject {
                entry,
                sizes: None,
                form,
                products,
                process: false,
            },
            calls,
        });
    };
    let all = ALL.iter();
    let sums = all.clone().map(|one| Some(independent(one.sum)));
    push("sum", "independent", None, sums.collect());
    let chains = all.clone().map(|one| Some(chain(one.product)));
    push("product", "chain", Some(1), chains.collect());
    let products = all.map(|one| Some(independent(one.product)));
    push(ONE_PRODUCT.0, ONE_PRODUCT.1, Some(1), products.collect());
}

/// The rows on orders.
fn on_orders<'a>(inputs: &'a Inputs, rows: &mut Vec<Row<'a>>) {
    for (form, positions) in &inputs.orders {
        let calls = ALL
            .iter()
            .map(|one| one.quick_look.map(|entry| with_order(entry, positions)));
        rows.push(Row {
            subject: Subject {
                entry: QUICK_LOOK,
                sizes: None,
                form,
                products: None,
                process: false,
            },
            calls: calls.collect(),
        });
    }
}

/// What is timed of the writing of a package by one implementation.
pub struct Writing<'a> {
    /// The sizes n and m.
    pub sizes: (usize, usize),
    /// The name of the implementation.
    pub name: &'static str,
    /// The bytes of the package.
    pub bytes: usize,
    /// Its calls that write, its calls that make the checks alone, and copies.
    pub calls: [Calls<'a>; 3],
}

/// The writing of packages by the implementations whose instructions are counted.
pub fn writings(inputs: &Inputs) -> Vec<Writing<'_>> {
    let mut list = Vec::new();
    for material in inputs.written() {
        for one in ALL.iter().filter(|one| one.counted) {
            let Some(write) = one.write else { continue };
            list.push(Writing {
                sizes: (material.sample.n, material.sample.m),
                name: one.name,
                bytes: package(material).len(),
                calls: [
                    writing(write, material),
                    checking(write, material),
                    copying(package(material)),
                ],
            });
        }
    }
    list
}

/// The rows, always in the same order.
pub fn rows(inputs: &Inputs) -> Vec<Row<'_>> {
    let mut rows = Vec::new();
    on_elements(&mut rows);
    let products = [
        products::constraints,
        products::values,
        products::prove,
        products::verify,
    ];
    for (entry, name) in KEYED.into_iter().enumerate() {
        for material in &inputs.materials {
            let Sample { n, m, d, .. } = material.sample;
            let words = written_words(&material.sample)[entry];
            let calls = ALL
                .iter()
                .map(|one| Some(with_key(one.keyed[entry], material, words)));
            rows.push(Row {
                subject: Subject {
                    entry: name,
                    sizes: Some((n, m)),
                    form: "",
                    products: Some(products[entry](n, d)),
                    process: false,
                },
                calls: calls.collect(),
            });
        }
    }
    for material in &inputs.materials {
        let Sample { n, m, .. } = material.sample;
        let calls = ALL
            .iter()
            .map(|one| one.rank.map(|rank| with_matrix(rank, material)));
        rows.push(Row {
            subject: Subject {
                entry: RANK,
                sizes: Some((n, m)),
                form: "",
                products: None,
                process: false,
            },
            calls: calls.collect(),
        });
    }
    on_orders(inputs, &mut rows);
    for material in inputs.written() {
        let Sample { n, m, .. } = material.sample;
        let calls = ALL
            .iter()
            .map(|one| one.write.map(|write| writing(write, material)));
        rows.push(Row {
            subject: Subject {
                entry: WRITE,
                sizes: Some((n, m)),
                form: "",
                products: None,
                process: false,
            },
            calls: calls.collect(),
        });
    }
    for (entry, name) in FILED.into_iter().enumerate() {
        let (bytes, form) = match name {
            "read_package" | "field" => (&inputs.package, "largest package"),
            _ => (&inputs.file, "largest file"),
        };
        let calls = ALL
            .iter()
            .map(|one| one.filed.map(|filed| with_bytes(filed[entry], bytes)));
        rows.push(Row {
            subject: Subject {
                entry: name,
                sizes: None,
                form,
                products: None,
                process: false,
            },
            calls: calls.collect(),
        });
    }
    bundles::rows(&inputs.bundles, &mut rows);
    rows
}
