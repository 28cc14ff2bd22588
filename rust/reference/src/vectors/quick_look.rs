//! The file `quick_look.txt`: lists of positions with what the quick look answers,
//! and calls of it that are refused.

use super::text::decimal;
use crate::entries::quick_look;
use crate::key::number_of_digits;
use crate::refusal::Refusal;
use crate::samples::Generator;
use std::collections::BTreeSet;

/// The name of the file.
pub const NAME: &str = "quick_look.txt";

/// What the quick look answers in C when a position is an offender.
pub const OFFENDER: u32 = 255;

/// Positions in a line of a refused call.
const LINE: usize = 64;

/// The sizes n, with and without spare codes.
pub const SIZES: [usize; 8] = [2, 3, 5, 8, 17, 33, 63, 64];

/// Positions with a name.
type Named = (String, Vec<u8>);

/// The columns in order.
fn columns(n: usize) -> Vec<u8> {
    (0..n).map(|column| column as u8).collect()
}

/// The number of codes, 2^d.
fn codes(n: usize) -> usize {
    1 << number_of_digits(n - 1)
}

/// Short lists with each kind of offender.
fn examples() -> Vec<Named> {
    let lists: [&[u8]; 5] = [&[2, 0, 1], &[2, 0, 2], &[2, 3, 0], &[2, 0, 5], &[1, 1]];
    let name = |list: &[u8]| format!("example{}", decimal(list).replace(' ', "_"));
    let named = lists.iter().map(|list| (name(list), list.to_vec()));
    named.collect()
}

/// Orders.
fn orders(n: usize, generator: &mut Generator) -> Vec<Named> {
    let reversed = columns(n).into_iter().rev().collect();
    vec![
        ("identity".to_string(), columns(n)),
        ("reversed".to_string(), reversed),
        ("order".to_string(), generator.order(n)),
    ]
}

/// The first place, a middle one and the last.
fn places(n: usize) -> BTreeSet<usize> {
    BTreeSet::from([0, n / 2, n - 1])
}

/// An order with a number that is no column in one place: the least and the largest
/// spare code, where there are any, 2^d and 255. Modulo 2^d it would be an order
/// again, unless it is a spare code then.
fn no_columns(n: usize, generator: &mut Generator) -> Vec<Named> {
    let codes = codes(n);
    let mut list = Vec::new();
    let numbers = BTreeSet::from([n, codes - 1, codes, 255]);
    for number in numbers.into_iter().filter(|&number| number >= n) {
        for place in places(n) {
            let mut positions = generator.order(n);
            let same = |&position: &u8| usize::from(position) == number % codes;
            if let Some(other) = positions.iter().position(same) {
                positions.swap(place, other);
            }
            positions[place] = number as u8;
            list.push((format!("{number}_at_{place}"), positions));
        }
    }
    list
}

/// An order in which a position is replaced by one before it: by the first one, or
/// by the one just before.
fn repeated(n: usize, generator: &mut Generator) -> Vec<Named> {
    let middle = n / 2;
    let pairs = [
        (0, 1),
        (0, middle),
        (0, n - 1),
        (middle - 1, middle),
        (n - 2, n - 1),
    ];
    let mut list = Vec::new();
    for (before, place) in BTreeSet::from(pairs) {
        let mut positions = generator.order(n);
        positions[place] = positions[before];
        list.push((format!("repeated_{before}_{place}"), positions));
    }
    list
}

/// An order with two offenders of different kinds, at the second place and the last:
/// the first position repeated, a spare code, where there is one, and 2^d.
fn two_offenders(n: usize, generator: &mut Generator) -> Vec<Named> {
    let mut kinds = vec!["repeated", "spare", "large"];
    kinds.retain(|&kind| kind != "spare" || n < codes(n));
    let mut list = Vec::new();
    for first in &kinds {
        for second in kinds.iter().filter(|&second| second != first) {
            let mut positions = generator.order(n);
            for (kind, place) in [(first, 1), (second, n - 1)] {
                positions[place] = match *kind {
                    "repeated" => positions[0],
                    "spare" => n as u8,
                    _ => codes(n) as u8,
                };
            }
            list.push((format!("{first}_{second}"), positions));
        }
    }
    list
}

/// The same number everywhere: a column, and one that is none.
fn all_equal(n: usize) -> Vec<Named> {
    let all = |number: usize| (format!("all_{number}"), vec![number as u8; n]);
    vec![all(n - 1), all(n)]
}

/// All lists of positions, each as long as its n.
fn lists() -> Vec<Named> {
    let generator = &mut Generator::new(6_000);
    let mut list = examples();
    for n in SIZES {
        let mut named = orders(n, generator);
        named.extend(no_columns(n, generator));
        named.extend(repeated(n, generator));
        if n > 2 {
            named.extend(two_offenders(n, generator));
        }
        named.extend(all_equal(n));
        let with_size = |(name, positions)| (format!("n{n:02}_{name}"), positions);
        list.extend(named.into_iter().map(with_size));
    }
    list
}

/// The lines of a list that is not refused.
fn case_lines((name, positions): &Named) -> String {
    let n = positions.len();
    let text = format!("case {name}\nn {n}\npositions{}\n", decimal(positions));
    match quick_look(n, positions).expect("no refusal applies") {
        None => text + "answer 0\n",
        Some(index) => text + &format!("answer {OFFENDER}\nindex {index}\n"),
    }
}

/// The lines of a call that is refused.
fn lines_of_refused(name: &str, n: usize, positions: &[u8], refusal: Refusal) -> String {
    assert_eq!(quick_look(n, positions), Err(refusal), "{name}");
    let length = positions.len();
    let mut text = format!("refused {name}\nn {n}\npositions_length {length}\n");
    for part in positions.chunks(LINE) {
        text += &format!("positions_bytes{}\n", decimal(part));
    }
    text + &format!("answer {}\n", refusal.number())
}

/// Numbers that are too large for n. The low 32 or 63 bits of some are 3.
const TOO_LARGE: [u64; 5] = [
    u32::MAX as u64,
    (1 << 32) + 3,
    1 << 63,
    (1 << 63) + 3,
    u64::MAX,
];

/// The lines of all calls that are refused: 1 and 3 alone, each with offenders, and
/// both at once.
fn refused_lines() -> String {
    let mut text = String::new();
    let mut add = |name: &str, n: usize, positions: &[u8], refusal| {
        text += &lines_of_refused(name, n, positions, refusal);
    };
    for n in [0, 1, 65] {
        add(&format!("n_{n}"), n, &columns(n), Refusal::SizeN);
    }
    for n in TOO_LARGE {
        add(&format!("n_{n}"), n as usize, &[2, 0, 1], Refusal::SizeN);
    }
    add("n_1_position_255", 1, &[255], Refusal::SizeN);
    add("n_65_positions_255", 65, &[255; 65], Refusal::SizeN);
    for (n, length) in [(0, 2), (1, 0), (1, 2), (65, 0), (65, 64)] {
        let name = format!("n_{n}_length_{length}");
        add(&name, n, &columns(length), Refusal::SizeN);
    }
    for n in [2, 3, 64] {
        for length in [0, n - 1, n + 1] {
            let name = format!("n_{n}_length_{length}");
            add(&name, n, &columns(length), Refusal::SliceLength);
        }
    }
    for length in [2, 4] {
        let name = format!("n_3_length_{length}_positions_255");
        add(&name, 3, &vec![255; length], Refusal::SliceLength);
    }
    text
}

/// The file.
pub fn text() -> String {
    let cases: String = lists().iter().map(case_lines).collect();
    cases + &refused_lines()
}
