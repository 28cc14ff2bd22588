//! The file `write.txt`: packages with all that they are written from, and calls
//! of the entry write package that are refused.

use super::text::{decimal, file_lines, large_elements, row_lines, small_elements};
use crate::entries::write_package;
use crate::large_field::COORDINATES;
use crate::refusal::Refusal;
use crate::samples::{elements, unit_rows, Generator, Material, Sample};

/// The name of the file.
pub const NAME: &str = "write.txt";

/// Words or bytes in a line of a refused call.
const LINE: usize = 64;

/// What the outputs hold before a call.
const BEFORE: u8 = 0xff;

/// Serials about the ends of two bytes, and with single bytes that are not zero.
const SERIALS: [u32; 11] = [
    0,
    1,
    255,
    256,
    65_535,
    65_536,
    65_537,
    16_777_215,
    16_777_216,
    2_147_483_648,
    u32::MAX,
];

/// Sizes with a key without a target and one with a target: the least and the
/// largest n of each d, and (64,27).
const SIZES: [(usize, usize); 13] = [
    (2, 1),
    (3, 2),
    (4, 1),
    (5, 4),
    (8, 3),
    (9, 1),
    (16, 15),
    (17, 8),
    (32, 13),
    (33, 16),
    (64, 1),
    (64, 27),
    (64, 63),
];

/// Material with a name.
type Named = (String, Material);

/// What the entry answers.
type Answer = Result<usize, Refusal>;

/// The material for n = 3 and m = 2 whose package has 101 bytes.
fn small() -> Material {
    Material {
        sample: Sample {
            n: 3,
            m: 2,
            d: 2,
            h: vec![2, 1, 0, 0, 4, 3],
            x: vec![1, 2, 4],
            y: vec![5, 10],
            serial: 7,
            ..Sample::default()
        },
        t: vec![1, 0, 0, 1, 1, 1],
        a: elements(&[5, 6]),
    }
}

/// What the entry answers for an output of this length, and the output
/// afterwards.
fn written(Material { sample, t, a }: &Material, length: usize) -> (Answer, Vec<u8>) {
    let mut out = vec![BEFORE; length];
    let answer = write_package(sample.key(), sample.serial, t, a, &mut out);
    (answer, out)
}

/// The refusal for an output of this length, which keeps what it holds.
fn refusal_of(material: &Material, length: usize) -> Refusal {
    let (answer, out) = written(material, length);
    assert_eq!(out, vec![BEFORE; length]);
    answer.expect_err("the call is refused")
}

/// The package, written to a longer output.
fn package_of(material: &Material) -> Vec<u8> {
    let (answer, mut out) = written(material, 10_000);
    let rest = out.split_off(answer.expect("no refusal applies"));
    assert!(rest.iter().all(|&byte| byte == BEFORE));
    out
}

/// The lines of a package.
fn lines_of_case((name, material): &Named) -> String {
    let Material { sample, t, a } = material;
    let Sample { n, m, d, .. } = *sample;
    let package = package_of(material);
    let short = refusal_of(material, package.len() - 1);
    let mut text = format!("case {name}\nn {n}\nm {m}\n");
    text += &row_lines("h", &sample.h, n, small_elements);
    text += &format!("x{}\n", small_elements(&sample.x));
    text += &format!("y{}\n", small_elements(&sample.y));
    text += &format!("serial {}\n", sample.serial);
    text += &row_lines("t", t, d, decimal);
    text += &row_lines("a", a, COORDINATES, large_elements);
    text += &format!("length {}\n", package.len());
    text += &file_lines("package", &package);
    text + &format!("short_answer {}\n", short.number())
}

/// The lines of a slice of a refused call: its length and its words or bytes.
fn lent_lines<T>(name: &str, unit: &str, list: &[T], show: fn(&[T]) -> String) -> String {
    let parts = list.chunks(LINE).map(show);
    let lines = parts.map(|part| format!("{name}_{unit}{part}\n"));
    format!("{name}_length {}\n", list.len()) + &lines.collect::<String>()
}

/// The lines of a call that is refused, with the length of the output.
fn lines_of_refused(name: &str, material: &Material, out: usize, refusal: Refusal) -> String {
    let Material { sample, t, a } = material;
    let Sample { n, m, h, x, y, .. } = sample;
    assert_eq!(refusal_of(material, out), refusal, "{name}");
    let mut text = format!("refused {name}\nn {n}\nm {m}\n");
    for (name, list) in [("h", h), ("x", x), ("y", y)] {
        text += &lent_lines(name, "words", list, small_elements);
    }
    text += &format!("serial {}\n", sample.serial);
    text += &lent_lines("t", "bytes", t, decimal);
    text += &lent_lines("a", "words", a, small_elements);
    text + &format!("out_length {out}\nanswer {}\n", refusal.number())
}

/// Packages of key A: without a target and with y = 5, each with several
/// serials.
fn key_a_cases() -> Vec<Named> {
    let mut list = Vec::new();
    for (name, sample) in [
        ("key_a", Sample::key_a()),
        ("key_a_target", Sample::key_a_with_target()),
    ] {
        let material = Material::of(sample);
        list.push((name.to_string(), material.clone()));
        for serial in SERIALS {
            let mut other = material.clone();
            other.sample.serial = serial;
            list.push((format!("{name}_serial_{serial}"), other));
        }
    }
    list
}

/// Targets of which some elements or bytes are zero.
fn target_cases(generator: &mut Generator) -> Vec<Named> {
    let mut list = Vec::new();
    for y in [
        [0, 0],
        [1, 0],
        [0, 1],
        [256, 0],
        [0, 256],
        [0, 1024],
        [2047, 2047],
    ] {
        let mut material = small();
        material.sample.y = y.to_vec();
        list.push((format!("n03_m02_y_{}_{}", y[0], y[1]), material));
    }
    for (n, m) in [(5, 4), (17, 8)] {
        for place in [0, m / 2, m - 1] {
            let mut material = Material::of_package(n, m, false, generator);
            material.sample.y[place] = 1 + generator.below(2047) as u16;
            list.push((format!("n{n:02}_m{m:02}_y_at_{place}"), material));
        }
    }
    list
}

/// The least and the largest words, bits and serials.
fn extreme_cases() -> [Named; 2] {
    let (mut least, mut largest) = (small(), small());
    for (material, word) in [(&mut least, 0), (&mut largest, 2047)] {
        let Material { sample, t, a } = material;
        for list in [&mut sample.h, &mut sample.x, &mut sample.y, a] {
            list.fill(word);
        }
        t.fill(u8::from(word > 0));
    }
    // So that the rows do not lean on each other.
    least.sample.h = unit_rows(3, 2);
    largest.sample.h[5] = 2046;
    least.sample.serial = 0;
    largest.sample.serial = u32::MAX;
    [
        ("n03_m02_least".to_string(), least),
        ("n03_m02_largest".to_string(), largest),
    ]
}

/// Keys of several sizes. The last package is the longest one.
fn size_cases(generator: &mut Generator) -> Vec<Named> {
    let mut list = Vec::new();
    for (n, m) in SIZES {
        for (word, target) in [("no_target", false), ("target", true)] {
            let mut material = Material::of_package(n, m, target, generator);
            if (n, m, target) == (64, 63, true) {
                material.sample.serial = u32::MAX;
            }
            list.push((format!("n{n:02}_m{m:02}_{word}"), material));
        }
    }
    list
}

/// All packages.
fn cases() -> Vec<Named> {
    let generator = &mut Generator::new(5_000);
    let mut list = key_a_cases();
    list.extend(target_cases(generator));
    list.extend(extreme_cases());
    list.extend(size_cases(generator));
    list
}

/// What a refused call changes of [`small`], and of the length of the output.
type Change<'a> = &'a dyn Fn(&mut Material, &mut usize);

/// The lines of refused calls.
struct Refused(String);

impl Refused {
    /// The length of the package of [`small`].
    const LENGTH: usize = 101;

    /// Adds a call with these changes, one after another.
    fn add(&mut self, name: &str, refusal: Refusal, changes: &[Change]) {
        let (mut material, mut out) = (small(), Refused::LENGTH);
        for change in changes {
            change(&mut material, &mut out);
        }
        self.0 += &lines_of_refused(name, &material, out, refusal);
    }

    /// Sizes: 1 and 2.
    fn sizes(&mut self) {
        const MOST: usize = u32::MAX as usize;
        for n in [0, 1, 65, MOST] {
            let change: Change = &|material, _| material.sample.n = n;
            self.add(&format!("n_{n}"), Refusal::SizeN, &[change]);
        }
        for m in [0, 3, 4, MOST] {
            let change: Change = &|material, _| material.sample.m = m;
            self.add(&format!("m_{m}"), Refusal::SizeM, &[change]);
        }
    }

    /// Slices of other lengths: 3.
    fn lengths(&mut self) {
        for (slice, lengths) in [
            ("h", &[0, 5, 7, 9][..]),
            ("x", &[0, 2, 4]),
            ("y", &[0, 1, 3]),
            ("t", &[0, 5, 7, 9]),
            ("a", &[0, 12, 23, 25, 36]),
        ] {
            for &length in lengths {
                let change: Change = &|material, _| material.lent(slice).set_length(length);
                let name = format!("{slice}_length_{length}");
                self.add(&name, Refusal::SliceLength, &[change]);
            }
        }
    }

    /// Values that are too large: 4, 5 and 6.
    fn values(&mut self) {
        for (slice, refusal, values) in [
            (
                "h",
                Refusal::KeyElement,
                &[(0, 2048), (3, 4096), (5, 2048), (5, 65_535)][..],
            ),
            (
                "x",
                Refusal::KeyElement,
                &[(0, 2048), (2, 2048), (2, 65_535)],
            ),
            (
                "y",
                Refusal::KeyElement,
                &[(0, 2048), (1, 2048), (1, 65_535)],
            ),
            ("t", Refusal::Bit, &[(0, 2), (3, 128), (5, 2), (5, 255)]),
            (
                "a",
                Refusal::Coordinate,
                &[(0, 2048), (11, 2048), (12, 4096), (23, 2048), (23, 65_535)],
            ),
        ] {
            for &(place, value) in values {
                let change: Change = &|material, _| material.lent(slice).change(place, |_| value);
                self.add(&format!("{slice}_{value}_at_{place}"), refusal, &[change]);
            }
        }
    }

    /// Rows of H that lean on each other: 15.
    fn rows(&mut self) {
        for (name, h) in [
            ("h_multiple", [2, 1, 0, 4, 2, 0]),
            ("h_same", [2, 1, 0, 2, 1, 0]),
            ("h_first_zero", [0, 0, 0, 0, 4, 3]),
            ("h_second_zero", [2, 1, 0, 0, 0, 0]),
            ("h_zero", [0; 6]),
        ] {
            let change: Change = &|material, _| material.sample.h = h.to_vec();
            self.add(name, Refusal::DependentRows, &[change]);
        }
    }

    /// Outputs shorter than the package, by one byte and by more: 13. With a
    /// serial of four bytes it has two bytes more, and without y seven less.
    fn outputs(&mut self) {
        for (serial, lengths) in [
            (7, &[0, 1, 3, 50, 94, 100][..]),
            (0, &[100]),
            (65_535, &[100]),
            (65_536, &[100, 101, 102]),
            (u32::MAX, &[101, 102]),
        ] {
            for &length in lengths {
                let change: Change = &|material, out| {
                    material.sample.serial = serial;
                    *out = length;
                };
                let name = format!("serial_{serial}_out_length_{length}");
                self.add(&name, Refusal::ShortOutput, &[change]);
            }
        }
        for length in [0, 92, 93] {
            let change: Change = &|material, out| {
                material.sample.y.fill(0);
                *out = length;
            };
            let name = format!("y_0_out_length_{length}");
            self.add(&name, Refusal::ShortOutput, &[change]);
        }
    }

    /// Two faults at once, for each pair of numbers: the one that is judged first
    /// is the answer. It is made last, since it may shorten a slice.
    fn pairs(&mut self) {
        let faults: [(Refusal, Change); 8] = [
            (Refusal::SizeN, &|material, _| material.sample.n = 65),
            (Refusal::SizeM, &|material, _| material.sample.m = 0),
            (Refusal::SliceLength, &|material, _| material.a.truncate(12)),
            (Refusal::KeyElement, &|material, _| {
                material.sample.y[1] = 2048;
            }),
            (Refusal::DependentRows, &|material, _| {
                material.sample.h = vec![2, 1, 0, 4, 2, 0];
            }),
            (Refusal::Bit, &|material, _| material.t[5] = 2),
            (Refusal::Coordinate, &|material, _| material.a[0] = 2048),
            (Refusal::ShortOutput, &|_, out| *out = Refused::LENGTH - 1),
        ];
        for (place, &(early, first)) in faults.iter().enumerate() {
            for &(late, second) in &faults[place + 1..] {
                let name = format!("two_{}_{}", early.number(), late.number());
                self.add(&name, early, &[second, first]);
            }
        }
        // A longer output is no fault.
        let long: Change = &|_, out| *out = 200;
        for &(refusal, fault) in &faults[..7] {
            let name = format!("out_length_200_{}", refusal.number());
            self.add(&name, refusal, &[fault, long]);
        }
    }
}

/// The lines of all calls that are refused.
fn refused_lines() -> String {
    let mut refused = Refused(String::new());
    refused.sizes();
    refused.lengths();
    refused.values();
    refused.rows();
    refused.outputs();
    refused.pairs();
    refused.0
}

/// The file.
pub fn text() -> String {
    let cases: String = cases().iter().map(lines_of_case).collect();
    cases + &refused_lines()
}
