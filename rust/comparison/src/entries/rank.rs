//! The entry rank: the rank of H by elimination, and the form that H is cleared
//! to in the matrix that the caller lends.

use super::faults::fault_groups;
use super::keyed::{self, of_sizes, sizes, Keyed, BEFORE_ROWS};
use super::{stated, texts, DONE};
use crate::case::{Case, Cell, Entry, Group, Least, Rows, Stated, Table, Taken};
use crate::kinds::Kind;
use crate::lent::Lent;
use crate::library;
use crate::named::Named;
use crate::slices::{H, M, MATRIX, N};
use reference::key::Sizes;
use reference::samples::{combination, independent_rows, unit_rows, Generator, Leaning};
use reference::small_field::F;
use reference::Refusal;

/// The rank that is written.
pub const OUT: &str = "rank";

/// The slices and the refusals of rank, which takes no x and no y.
pub struct Rank;

impl Keyed for Rank {
    const OF_KEY: &'static [&'static str] = &[H];
    const READS: &'static [&'static str] = &[];
    const WRITES: &'static [&'static str] = &[MATRIX];
    const SIZES: &'static [&'static str] = &[OUT];
    const REFUSALS: &'static [Refusal] = BEFORE_ROWS;
}

/// The entry rank. Its rows may be any.
pub const RANK: Entry = Entry {
    name: "rank",
    refusals: Rank::REFUSALS,
    library: |taken, outputs| call(library::rank, taken, outputs),
    reference: by_reference,
    packed: Some(|taken, outputs| call(packed::rank, taken, outputs)),
    rows: None,
    groups: || {
        let own = vec![
            EXAMPLES,
            RANDOM,
            SPARSE,
            OF_KINDS,
            OF_RANK,
            TRIANGLES,
            LEANING,
            SMALL,
            LARGEST,
            MANY_ROUNDS,
        ];
        [own, fault_groups::<Rank>()].concat()
    },
    table: Some(Table {
        of: "m",
        columns: || texts(&[RANKS.as_slice(), &REFUSED].concat()),
        rows,
        cell,
    }),
    least,
    ..keyed::ENTRY
};

/// An implementation of rank in which the rank is written.
type Function = fn(usize, usize, &[u16], &mut [u16], &mut usize) -> u32;

/// Calls an implementation.
fn call(function: Function, taken: &Taken, outputs: &mut Named<Lent>) -> u32 {
    let [matrix, rank] = outputs.each_mut([MATRIX, OUT]);
    function(
        taken.numbers[N],
        taken.numbers[M],
        taken.words(H),
        matrix.words_mut(),
        rank.size_mut(),
    )
}

/// The side of the reference.
fn by_reference(taken: &Taken, outputs: &mut Named<Lent>) -> u32 {
    let [matrix, rank] = outputs.each_mut([MATRIX, OUT]);
    let Taken { numbers, .. } = taken;
    match reference::rank(numbers[N], numbers[M], taken.words(H), matrix.words_mut()) {
        Ok(found) => {
            *rank.size_mut() = found;
            DONE
        }
        Err(refusal) => refusal.number(),
    }
}

/// The columns of done calls: the rank is 0, below m, or m.
const RANKS: [&str; 3] = ["none", "short", "full"];

/// The columns of refusals.
const REFUSED: [&str; 4] = ["1", "2", "3", "4"];

/// The rows: sizes that are refused, one row of H, the most, and between.
const OF_M: [&str; 4] = ["wrong", "one", "most", "between"];

/// The rows with the columns that they can have. The rank of one row is never
/// short but not 0.
fn rows() -> Rows {
    let [none, short, full] = RANKS;
    let [of_n, of_m, length, element] = REFUSED;
    let [wrong, one, most, between] = OF_M;
    let all = [none, short, full, length, element];
    vec![
        (wrong.to_string(), texts(&[of_n, of_m])),
        (one.to_string(), texts(&[none, full, length, element])),
        (most.to_string(), texts(&all)),
        (between.to_string(), texts(&all)),
    ]
}

/// The row and the column of a call.
fn cell(answer: u32, case: &Case) -> Cell {
    let (n, m) = (case.numbers[N], case.numbers[M]);
    let [wrong, one, most, between] = OF_M;
    let row = match Sizes::judged(n, m) {
        Err(_) => wrong,
        Ok(_) if m == 1 => one,
        Ok(_) if m == n - 1 => most,
        Ok(_) => between,
    };
    let [none, short, full] = RANKS;
    let column = match reference::rank(n, m, case.words(H), &mut vec![0; case.words(H).len()]) {
        Ok(_) if answer != DONE => answer.to_string(),
        Ok(0) => none.to_string(),
        Ok(rank) if rank < m => short.to_string(),
        Ok(_) => full.to_string(),
        Err(_) => answer.to_string(),
    };
    (row.to_string(), column)
}

/// The done calls of the groups of every n: two of one row, two of the most, and
/// two more where there are sizes between.
fn least() -> Vec<Least> {
    let of_n = |group: &Group, n: usize, m: &[usize], count| Least {
        group: group.name,
        n: vec![n],
        m: m.to_vec(),
        answer: DONE,
        count,
    };
    let largest = |group: &Group, count| Least {
        group: group.name,
        n: vec![64],
        m: LARGEST_M.to_vec(),
        answer: DONE,
        count,
    };
    let mut list = Vec::new();
    for group in &[RANDOM, SPARSE, OF_KINDS, OF_RANK, TRIANGLES, LEANING] {
        for n in keyed::EVERY_N {
            list.push(of_n(group, n, &[1, n - 1], 2));
            list.push(of_n(group, n, &[], 2 * (n - 1).min(3)));
        }
    }
    list.extend([largest(&LARGEST, ROUNDS), largest(&MANY_ROUNDS, MANY)]);
    list
}

/// A case with these rows, which no refusal applies to.
fn case(n: usize, h: &[u16], generator: &mut Generator) -> Case {
    let mut case = of_sizes::<Rank>(sizes(n, h.len() / n), generator);
    case.set_words(H, h);
    case.answering(Some(DONE))
}

/// The case with this rank, where it is known without the reference.
fn with_rank(mut case: Case, rank: usize) -> Case {
    case.stated = Some(vec![stated(OUT, 0, rank as u64)]);
    case
}

/// The words of the matrix that are known.
fn stated_words(words: &[u16]) -> Vec<Stated> {
    let words = words.iter().enumerate();
    words
        .map(|(index, &word)| stated(MATRIX, index, word))
        .collect()
}

/// Sizes of every n: the lowest m, the highest, and one between.
fn each_size(generator: &mut Generator, each: &mut dyn FnMut(Sizes, &mut Generator)) {
    for n in keyed::EVERY_N {
        let mut list = vec![1];
        if n > 2 {
            list.push(n - 1);
        }
        if n > 3 {
            list.push(2 + generator.below(n - 3));
        }
        for m in list {
            each(sizes(n, m), generator);
        }
    }
}

/// n, H, its rank and its cleared form, worked out by hand.
type Example = (usize, &'static [u16], usize, &'static [u16]);

/// 1024 times 2 is 5 in F.
const BY_HAND: &[Example] = &[
    (2, &[2, 1], 1, &[2, 1]),
    (2, &[0, 2047], 1, &[0, 2047]),
    (2, &[0, 0], 0, &[0, 0]),
    // The second row is 2 times the first, and then not.
    (3, &[1024, 1, 3, 5, 2, 6], 1, &[1024, 1, 3, 0, 0, 0]),
    (3, &[5, 2, 6, 1024, 1, 3], 1, &[5, 2, 6, 0, 0, 0]),
    (3, &[1024, 1, 3, 5, 2, 7], 2, &[1024, 1, 3, 0, 0, 1]),
    // Row 1 is taken before row 0, and neither changes then.
    (3, &[0, 1, 4, 1, 1, 2], 2, &[0, 1, 4, 1, 1, 2]),
    // Row 2 loses row 1, and then row 0 where it leans on both.
    (
        4,
        &[0, 1, 4, 7, 1, 1, 2, 0, 1, 1, 7, 0],
        3,
        &[0, 1, 4, 7, 1, 1, 2, 0, 0, 0, 5, 0],
    ),
    (
        4,
        &[0, 1, 4, 7, 1, 1, 2, 0, 1, 0, 6, 7],
        2,
        &[0, 1, 4, 7, 1, 1, 2, 0, 0, 0, 0, 0],
    ),
    // A column of zeros takes no row.
    (4, &[0, 0, 3, 1, 0, 0, 6, 3], 2, &[0, 0, 3, 1, 0, 0, 0, 1]),
];

const EXAMPLES: Group = Group::new("worked out by hand", |generator, each| {
    for &(n, h, rank, form) in BY_HAND {
        let mut case = with_rank(case(n, h, generator), rank);
        case.stated
            .get_or_insert_default()
            .extend(stated_words(form));
        each(case);
    }
    // Unit rows are cleared already, in any order of their columns.
    for n in keyed::EVERY_N {
        let mut h = unit_rows(n, n - 1);
        h.iter_mut()
            .for_each(|word| *word *= 1 + generator.below(2047) as u16);
        let order = generator.order(n);
        let mut moved = vec![0; h.len()];
        for (row, other) in h.chunks(n).zip(moved.chunks_mut(n)) {
            for (&column, &word) in order.iter().zip(row) {
                other[usize::from(column)] = word;
            }
        }
        for h in [h, moved] {
            let mut case = with_rank(case(n, &h, generator), n - 1);
            case.stated.get_or_insert_default().extend(stated_words(&h));
            each(case);
        }
    }
});

const RANDOM: Group = Group::new("every n, random words", |generator, each| {
    each_size(generator, &mut |Sizes { n, m, .. }, generator| {
        for _ in 0..if n < 24 { 8 } else { 2 } {
            each(case(n, &generator.words(m * n), generator));
        }
    });
});

/// Words of which about one in so many isn't 0, and some whole columns are 0.
fn sparse(n: usize, m: usize, one_in: usize, generator: &mut Generator) -> Vec<u16> {
    let empty: Vec<bool> = (0..n).map(|_| generator.below(4) == 0).collect();
    let word = |index: usize| {
        let zero = empty[index % n] || generator.below(one_in) != 0;
        match generator.below(3) {
            _ if zero => 0,
            0 => 1,
            _ => generator.word(),
        }
    };
    (0..m * n).map(word).collect()
}

const SPARSE: Group = Group::new("every n, most words 0", |generator, each| {
    each_size(generator, &mut |Sizes { n, m, .. }, generator| {
        for one_in in [2, 4, n] {
            let h = sparse(n, m, one_in, generator);
            each(case(n, &h, generator));
        }
    });
});

const OF_KINDS: Group = Group::new("every n, words of all kinds", |generator, each| {
    each_size(generator, &mut |Sizes { n, m, .. }, generator| {
        for kind in Kind::ALL {
            let h = kind.words(m * n, generator);
            let rank = match kind {
                Kind::Zero => Some(0),
                Kind::One | Kind::Largest => Some(1),
                Kind::Random | Kind::Edges => None,
            };
            let case = case(n, &h, generator);
            each(match rank {
                Some(rank) => with_rank(case, rank),
                None => case,
            });
        }
        let case = of_sizes::<Rank>(sizes(n, m), generator);
        each(with_rank(case.answering(Some(DONE)), m));
    });
});

/// m rows of this rank: as many that do not lean on each other, in any places,
/// and between them sums of multiples of these, some of which are zero. Many rows
/// do not lean since they begin in different columns.
fn of_rank(n: usize, m: usize, rank: usize, generator: &mut Generator) -> Vec<u16> {
    let base = match rank {
        0..=16 => independent_rows(rank, || generator.words(n)),
        _ => triangle(n, rank, true, generator),
    };
    let mut places: Vec<usize> = (0..m).collect();
    for last in (1..m).rev() {
        places.swap(last, generator.below(last + 1));
    }
    let mut h = vec![0; m * n];
    for (number, &place) in places.iter().enumerate() {
        let factors: Vec<u16> = match generator.below(4) {
            _ if number < rank => (0..rank).map(|row| u16::from(row == number)).collect(),
            0 => vec![0; rank],
            1 => (0..rank).map(|row| u16::from(row == 0)).collect(),
            _ => generator.words(rank),
        };
        let row = match rank {
            0 => vec![0; n],
            _ => combination(&base, n, &factors),
        };
        h[n * place..n * (place + 1)].copy_from_slice(&row);
    }
    h
}

const OF_RANK: Group = Group::new("every n, rows of each rank", |generator, each| {
    each_size(generator, &mut |Sizes { n, m, .. }, generator| {
        let mut ranks = vec![0, 1, m - 1, m, generator.below(m + 1)];
        if n <= 9 {
            ranks = (0..=m).collect();
        }
        for rank in ranks {
            let h = of_rank(n, m, rank, generator);
            each(with_rank(case(n, &h, generator), rank));
        }
    });
});

/// m rows, each with its first word that isn't 0 in another column, in any order
/// of these columns: the rows are taken in another order than they stand. With
/// `full` the words after it are random, else 0.
fn triangle(n: usize, m: usize, full: bool, generator: &mut Generator) -> Vec<u16> {
    let mut h = Vec::with_capacity(m * n);
    for &first in &generator.order(n)[..m] {
        let first = usize::from(first);
        let mut row = vec![0; n];
        row[first] = 1 + generator.below(2047) as u16;
        if full {
            row[first + 1..].copy_from_slice(&generator.words(n - first - 1));
        }
        h.extend(row);
    }
    h
}

const TRIANGLES: Group = Group::new(
    "every n, rows that are taken in another order",
    |generator, each| {
        each_size(generator, &mut |Sizes { n, m, .. }, generator| {
            for full in [false, true] {
                let h = triangle(n, m, full, generator);
                // No two of them have their first words in one column, so none
                // is changed.
                let mut right = with_rank(case(n, &h, generator), m);
                right
                    .stated
                    .get_or_insert_default()
                    .extend(stated_words(&h));
                each(right);
                // A sum of all of them in the place of one, below or above.
                let mut other = h.clone();
                let factors = generator.words(m);
                let e = generator.below(m);
                other[n * e..n * (e + 1)].copy_from_slice(&combination(&h, n, &factors));
                each(case(n, &other, generator));
            }
        });
    },
);

const LEANING: Group = Group::new("every n, rows that lean", |generator, each| {
    each_size(generator, &mut |sizes, generator| {
        for leaning in Leaning::of(sizes.m) {
            let mut case = of_sizes::<Rank>(sizes, generator).answering(Some(DONE));
            leaning.make(case.inputs[H].words_mut(), sizes.n, generator);
            let rank = match leaning {
                Leaning::AllZero => 0,
                _ => sizes.m - 1,
            };
            each(with_rank(case, rank));
        }
    });
});

/// Small sizes, and the words of which all matrices are tried.
const ALL_OF: [(usize, usize, &[u16]); 5] = [
    (2, 1, &[0, 1, 2, 1024, F::LARGEST]),
    (3, 1, &[0, 1, F::LARGEST]),
    (3, 2, &[0, 1, 2]),
    (4, 2, &[0, 1]),
    (4, 3, &[0, 1]),
];

/// All small matrices of some words.
pub const SMALL: Group = Group::new("all small matrices of some words", |generator, each| {
    for (n, m, words) in ALL_OF {
        for list in keyed::all_lists(m * n, words.len() as u8) {
            let h: Vec<u16> = list
                .iter()
                .map(|&place| words[usize::from(place)])
                .collect();
            each(case(n, &h, generator));
        }
    }
});

/// The sizes m of many rounds at the largest n.
const LARGEST_M: [usize; 3] = [1, 27, 63];

/// The rounds for each of these.
const ROUNDS: usize = 30;

/// The rounds for each of these that are compared with the package packed.
const MANY: usize = 100;

/// This many rounds for each m at the largest n.
fn rounds(count: usize, generator: &mut Generator, each: &mut dyn FnMut(Case)) {
    for m in LARGEST_M {
        for round in 0..count {
            let h = match round % 5 {
                0 => generator.words(m * 64),
                1 => sparse(64, m, 2 + round % 30, generator),
                2 => triangle(64, m, true, generator),
                _ => of_rank(64, m, generator.below(m + 1), generator),
            };
            each(case(64, &h, generator));
        }
    }
}

/// Rounds at the largest n.
pub const LARGEST: Group = Group::new("n = 64, m = 1, 27 and 63", |generator, each| {
    rounds(ROUNDS, generator, each);
});

const MANY_ROUNDS: Group = Group::new(
    "n = 64, m = 1, 27 and 63, many rounds, by packed",
    |generator, each| rounds(MANY, generator, each),
)
.by_packed();
