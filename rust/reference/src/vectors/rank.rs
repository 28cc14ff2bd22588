//! The file `rank.txt`: matrices with their rank and their cleared form, and
//! calls of the entry rank that are refused.

use super::text::{row_lines, small_elements};
use crate::entries::rank;
use crate::refusal::Refusal;
use crate::samples::{combination, unit_rows, Generator, Leaning};

/// The name of the file.
pub const NAME: &str = "rank.txt";

/// Words of H in a line of a refused call.
const WORDS: usize = 64;

/// A matrix with a name and its number of columns.
type Named = (String, usize, Vec<u16>);

/// Sizes with every way to lean, and with two matrices of few entries.
const SMALL: [(usize, usize); 5] = [(3, 2), (4, 3), (5, 2), (5, 4), (8, 7)];

/// Larger sizes, each with one way to lean.
const LARGE: [(usize, usize, Leaning); 5] = [
    (16, 15, Leaning::Sum),
    (17, 8, Leaning::Multiple),
    (33, 32, Leaning::ZeroRow),
    (64, 27, Leaning::Sum),
    (64, 63, Leaning::Multiple),
];

/// Rows that lean in this way, and otherwise not.
fn leaning(n: usize, m: usize, leaning: Leaning, generator: &mut Generator) -> Vec<u16> {
    let mut h = generator.matrix(n, m);
    leaning.make(&mut h, n, generator);
    h
}

/// Rows of one to three entries at random places, none of them in a column of
/// zeros.
fn sparse(n: usize, m: usize, generator: &mut Generator) -> Vec<u16> {
    let zeros = generator.below(n);
    let mut h = vec![0; m * n];
    for row in h.chunks_mut(n) {
        for _ in 0..1 + generator.below(3) {
            let column = generator.below(n);
            if column != zeros {
                row[column] = generator.word();
            }
        }
    }
    h
}

/// Rows whose first entries stand in columns of their own, which come in random
/// order: each row is skipped until its column comes.
fn disordered(n: usize, m: usize, generator: &mut Generator) -> Vec<u16> {
    let order = generator.order(n);
    let mut h = generator.words(m * n);
    for (row, &column) in h.chunks_mut(n).zip(&order) {
        let column = usize::from(column);
        row[..column].fill(0);
        row[column] |= 1;
    }
    h
}

/// Half of the rows, and sums of multiples of them in between.
fn half(n: usize, m: usize, generator: &mut Generator) -> Vec<u16> {
    let basis = generator.matrix(n, m.div_ceil(2));
    let rows = (0..m).map(|e| match e % 2 {
        0 => basis[n * (e / 2)..n * (e / 2 + 1)].to_vec(),
        _ => combination(&basis, n, &generator.words(m.div_ceil(2))),
    });
    rows.collect::<Vec<_>>().concat()
}

/// The matrix of the example in docs/specification.md, with this last entry.
fn specified(last: u16) -> Vec<u16> {
    vec![0, 1, 2, 3, 2, 4, 6, 1, 1, 6, 11, last]
}

/// All matrices.
fn matrices() -> Vec<Named> {
    let generator = &mut Generator::new(4_000);
    let mut list: Vec<Named> = vec![
        ("key_a".to_string(), 2, vec![2, 1]),
        ("n02_m01_zero_row".to_string(), 2, vec![0, 0]),
        ("n02_m01_second_column".to_string(), 2, vec![0, 2047]),
        ("n03_m02_by_2".to_string(), 3, vec![2, 1, 0, 4, 2, 0]),
        ("n05_m04_2047".to_string(), 5, vec![2047; 20]),
        ("n04_m03_specification".to_string(), 4, specified(1038)),
        (
            "n04_m03_specification_not_leaning".to_string(),
            4,
            specified(1039),
        ),
    ];
    let mut push = |n, m, name: &str, h| list.push((format!("n{n:02}_m{m:02}_{name}"), n, h));
    for (n, m) in SMALL {
        push(n, m, "independent", generator.matrix(n, m));
        for way in Leaning::of(m) {
            push(n, m, way.name(), leaning(n, m, way, generator));
        }
        push(n, m, "sparse_0", sparse(n, m, generator));
        push(n, m, "sparse_1", sparse(n, m, generator));
        push(n, m, "disordered", disordered(n, m, generator));
        let units = unit_rows(n, m);
        let reversed = units.chunks(n).rev().flatten().copied();
        push(n, m, "units_from_last", reversed.collect());
    }
    for (n, m, way) in LARGE {
        push(n, m, "independent", generator.matrix(n, m));
        push(n, m, way.name(), leaning(n, m, way, generator));
        match n {
            64 => push(n, m, "disordered", disordered(n, m, generator)),
            _ => {
                push(n, m, "sparse", sparse(n, m, generator));
                push(n, m, "disordered", disordered(n, m, generator));
                push(n, m, "half", half(n, m, generator));
            }
        }
    }
    list
}

/// The lines of a matrix that is not refused.
fn case_lines((name, n, h): &Named) -> String {
    let m = h.len() / n;
    let mut matrix = vec![u16::MAX; h.len()];
    let rank = rank(*n, m, h, &mut matrix).expect("no refusal applies");
    let mut text = format!("case {name}\nn {n}\nm {m}\n");
    text += &row_lines("h", h, *n, small_elements);
    text += &format!("rank {rank}\n");
    text + &row_lines("matrix", &matrix, *n, small_elements)
}

/// A call that is refused: its sizes, H and the length of the matrix.
struct Call {
    n: usize,
    m: usize,
    h: Vec<u16>,
    matrix: usize,
}

impl Call {
    /// The call for n = 3, m = 2, whose second row is 2 times the first: nothing
    /// is refused.
    fn right() -> Call {
        Call {
            n: 3,
            m: 2,
            h: vec![2, 1, 0, 4, 2, 0],
            matrix: 6,
        }
    }

    /// The lines, with the answer.
    fn lines(&self, name: &str, refusal: Refusal) -> String {
        let before = vec![u16::MAX; self.matrix];
        let mut matrix = before.clone();
        let answer = rank(self.n, self.m, &self.h, &mut matrix);
        assert_eq!(answer, Err(refusal), "{name}");
        assert_eq!(matrix, before, "{name}");
        let Call { n, m, h, matrix } = self;
        let mut text = format!("refused {name}\nn {n}\nm {m}\nh_length {}\n", h.len());
        for words in h.chunks(WORDS) {
            text += &format!("h_words{}\n", small_elements(words));
        }
        text + &format!("matrix_length {matrix}\nanswer {}\n", refusal.number())
    }
}

/// The lines of all calls that are refused: each number, and two at once, of
/// which the lower one is the answer.
fn refused_lines() -> String {
    let mut text = String::new();
    let mut add = |name: &str, refusal, change: &dyn Fn(&mut Call)| {
        let mut call = Call::right();
        change(&mut call);
        text += &call.lines(name, refusal);
    };
    const MOST: usize = u32::MAX as usize;
    for n in [0, 1, 65, MOST] {
        add(&format!("n_{n}"), Refusal::SizeN, &|call| call.n = n);
    }
    for m in [0, 3, 4, MOST] {
        add(&format!("m_{m}"), Refusal::SizeM, &|call| call.m = m);
    }
    for length in [0, 5, 7, 9] {
        let of_h = |call: &mut Call| call.h.resize(length, 0);
        add(&format!("h_length_{length}"), Refusal::SliceLength, &of_h);
        let of_matrix = |call: &mut Call| call.matrix = length;
        let name = format!("matrix_length_{length}");
        add(&name, Refusal::SliceLength, &of_matrix);
    }
    for (place, word) in [(0, 2048), (3, 4096), (5, 2048), (5, 65_535)] {
        let name = format!("h_{word}_at_{place}");
        add(&name, Refusal::KeyElement, &|call| call.h[place] = word);
    }
    add("n_65_m_0", Refusal::SizeN, &|call| {
        (call.n, call.m) = (65, 0)
    });
    add("n_1_m_1", Refusal::SizeN, &|call| (call.n, call.m) = (1, 1));
    add("n_65_h_length_5", Refusal::SizeN, &|call| {
        call.n = 65;
        call.h.truncate(5);
    });
    add("n_1_h_2048", Refusal::SizeN, &|call| {
        call.n = 1;
        call.h[0] = 2048;
    });
    add("m_3_matrix_length_5", Refusal::SizeM, &|call| {
        call.m = 3;
        call.matrix = 5;
    });
    add("m_0_h_2048", Refusal::SizeM, &|call| {
        call.m = 0;
        call.h[0] = 2048;
    });
    add("h_length_7_h_2048", Refusal::SliceLength, &|call| {
        call.h.push(0);
        call.h[0] = 2048;
    });
    add("matrix_length_7_h_2048", Refusal::SliceLength, &|call| {
        call.matrix = 7;
        call.h[5] = 2048;
    });
    text
}

/// The file.
pub fn text() -> String {
    let cases: String = matrices().iter().map(case_lines).collect();
    cases + &refused_lines()
}
