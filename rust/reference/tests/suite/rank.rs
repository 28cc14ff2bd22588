//! The rank of H: against searches for combinations, against ranks that are
//! known by construction, and against the elimination done in place; what the
//! cleared form is; and 15 of keys that are solved.

use reference::elimination::cleared;
use reference::key::{elements_of_f, rows};
use reference::level::{FIRST, SECOND};
use reference::logarithms::Logarithms;
use reference::samples::{
    combination, independent, joined_rows, unit_rows, Generator, Leaning, Sample,
};
use reference::small_field::{Small, F};
use reference::Refusal;
use std::collections::BTreeSet;

/// The element of F with this number.
fn small<const LEVEL: usize>(word: u16) -> Small<LEVEL> {
    Small::from_word(word).expect("a word up to the largest")
}

/// What the entry rank answers and writes for an H that it does not refuse.
fn rank_of(n: usize, h: &[u16]) -> (usize, Vec<u16>) {
    let mut matrix = vec![0xabcd; h.len()];
    let rank = reference::rank(n, h.len() / n, h, &mut matrix).expect("no refusal applies");
    (rank, matrix)
}

/// The tables of a level: a generator, and quotients of all its powers.
fn tables<const LEVEL: usize>() -> Logarithms<LEVEL> {
    let tables = Logarithms::<LEVEL>::new();
    let all = 1..=Small::<LEVEL>::LARGEST;
    let mut seen = BTreeSet::new();
    for exponent in 0..Logarithms::<LEVEL>::ORDER {
        let power = tables.power(exponent);
        assert_eq!(tables.exponent(power), Some(exponent));
        assert_eq!(tables.power(exponent + 1), power * tables.generator());
        seen.insert(power.word());
    }
    assert!(seen.into_iter().eq(all.clone()));
    assert_eq!(tables.exponent(Small::ZERO), None);
    for word in all {
        let element = small(word);
        assert_eq!(tables.quotient(element, Small::ZERO), None);
        assert_eq!(tables.quotient(Small::ZERO, element), Some(Small::ZERO));
        assert_eq!(tables.quotient(element, element), Some(Small::ONE));
        assert_eq!(tables.quotient(Small::ONE, element), element.inverse());
    }
    tables
}

#[test]
fn logarithms_of_the_first_level() {
    let tables = tables::<FIRST>();
    for a in 0..=F::LARGEST {
        for b in 0..=F::LARGEST {
            let (a, b) = (small(a), small(b));
            let product = tables.product(a, b);
            assert_eq!(product, a * b);
            if b != F::ZERO {
                assert_eq!(tables.quotient(product, b), Some(a));
            }
        }
    }
}

#[test]
fn logarithms_of_the_second_level() {
    let tables = tables::<SECOND>();
    let mut generator = Generator::new(50);
    for _ in 0..200_000 {
        let (a, b) = (generator.small::<SECOND>(), generator.small());
        let product = tables.product(a, b);
        assert_eq!(product, a * b);
        if b != Small::ZERO {
            assert_eq!(tables.quotient(product, b), Some(a));
        }
    }
}

/// By hand: the second row is 2 times the first; a row is skipped; columns and
/// rows of zeros; a row below that is taken first stays as it is.
#[test]
fn small_matrices_by_hand() {
    let cases: [(usize, &[u16], usize, &[u16]); 7] = [
        (2, &[2, 1], 1, &[2, 1]),
        (2, &[0, 0], 0, &[0, 0]),
        (3, &[2, 1, 0, 4, 2, 0], 1, &[2, 1, 0, 0, 0, 0]),
        // Column 0: row 1, and 4 / 2 = 2, so row 2 becomes 4 + 4, 5 + 2 1, 6 + 2 3.
        (
            4,
            &[0, 0, 7, 0, 2, 1, 3, 0, 4, 5, 6, 0],
            3,
            &[0, 0, 7, 0, 2, 1, 3, 0, 0, 7, 0, 0],
        ),
        // Column 0: row 1; column 1: row 2, after row 1 is added; column 2: row 0.
        (
            4,
            &[0, 0, 1, 0, 1, 1, 0, 0, 1, 0, 0, 5],
            3,
            &[0, 0, 1, 0, 1, 1, 0, 0, 0, 1, 0, 5],
        ),
        // Column 1: row 0, added to row 1; column 3: none is left but row 1.
        (
            4,
            &[0, 1, 1, 0, 0, 1, 1, 9, 0, 0, 0, 0],
            2,
            &[0, 1, 1, 0, 0, 0, 0, 9, 0, 0, 0, 0],
        ),
        // 1024 times 2 is 5, and 5 / 1024 is 2.
        (3, &[1024, 0, 1, 5, 0, 2], 1, &[1024, 0, 1, 0, 0, 0]),
    ];
    for (n, h, rank, matrix) in cases {
        assert_eq!(rank_of(n, h), (rank, matrix.to_vec()), "{h:?}");
    }
    // The example of docs/specification.md: row 1 is taken, then row 0, and row 2
    // leans on both, unless its last entry is another one.
    let h = [0, 1, 2, 3, 2, 4, 6, 1, 1, 6, 11, 1038];
    assert_eq!(
        rank_of(4, &h),
        (2, vec![0, 1, 2, 3, 2, 4, 6, 1, 0, 0, 0, 0])
    );
    let h = [0, 1, 2, 3, 2, 4, 6, 1, 1, 6, 11, 1039];
    assert_eq!(
        rank_of(4, &h),
        (3, vec![0, 1, 2, 3, 2, 4, 6, 1, 0, 0, 0, 1])
    );
}

/// Whether some coefficients, not all zero, combine the rows to zero: all of
/// them are tried. The first that isn't zero may be one.
fn found_by_search(h: &[u16], n: usize) -> bool {
    fn search(sum: &[F], rows: &[Vec<F>]) -> bool {
        let Some((row, rest)) = rows.split_first() else {
            return sum.iter().all(|&entry| entry == F::ZERO);
        };
        (0..=F::LARGEST).any(|factor| {
            let factor = small(factor);
            let terms = sum.iter().zip(row);
            let sum: Vec<F> = terms.map(|(&sum, &entry)| sum + factor * entry).collect();
            search(&sum, rest)
        })
    }
    let rows = rows(&elements_of_f(h).expect("words up to 2047"), n);
    (0..rows.len()).any(|first| search(&rows[first], &rows[first + 1..]))
}

/// Two rows, of which about every second pair leans.
#[test]
fn the_rank_of_two_rows_against_a_search() {
    let mut generator = Generator::new(51);
    let mut leaning = 0;
    for round in 0..60 {
        let n = 3 + generator.below(3);
        let mut h: Vec<u16> = (0..2 * n).map(|_| generator.below(4) as u16).collect();
        if round % 2 == 0 {
            let ways: Vec<Leaning> = Leaning::of(2).collect();
            ways[round / 2 % ways.len()].make(&mut h, n, &mut generator);
        }
        let found = found_by_search(&h, n);
        assert_eq!(rank_of(n, &h).0 < 2, found, "{h:?}");
        assert_eq!(!independent(&h, n), found, "{h:?}");
        leaning += usize::from(found);
    }
    assert!((25..=50).contains(&leaning), "{leaning}");
}

/// Three rows: one that is a sum of multiples of the others, and one more word.
#[test]
fn the_rank_of_three_rows_against_a_search() {
    let mut generator = Generator::new(52);
    let n = 4;
    let mut h = generator.words(3 * n);
    Leaning::Sum.make(&mut h, n, &mut generator);
    assert!(found_by_search(&h, n));
    assert_eq!(rank_of(n, &h).0, 2);
    h[generator.below(3 * n)] ^= 1;
    assert!(!found_by_search(&h, n));
    assert_eq!(rank_of(n, &h).0, 3);
}

/// The sums of some of the rows, whose entries are 0 and 1: their number is 2 to
/// the power of the rank, in F as in the field with these two elements.
fn rank_of_bits(h: &[u16], n: usize) -> usize {
    let rows: Vec<u64> = h
        .chunks(n)
        .map(|row| row.iter().fold(0, |bits, &bit| 2 * bits + u64::from(bit)))
        .collect();
    let mut sums = BTreeSet::from([0]);
    for row in rows {
        let more: Vec<u64> = sums.iter().map(|sum| sum ^ row).collect();
        sums.extend(more);
    }
    assert!(sums.len().is_power_of_two());
    sums.len().trailing_zeros() as usize
}

/// Entries 0 and 1, and the same after each row and each column is multiplied by
/// an element that isn't zero, which changes no rank.
#[test]
fn the_rank_of_bits_against_all_sums() {
    let mut generator = Generator::new(53);
    let mut seen = BTreeSet::new();
    for _ in 0..600 {
        let n = 2 + generator.below(10);
        let m = 1 + generator.below(n - 1);
        let sparse = 2 + generator.below(4);
        let bits = (0..m * n).map(|_| u16::from(generator.below(sparse) == 0));
        let mut h: Vec<u16> = bits.collect();
        let rank = rank_of_bits(&h, n);
        assert_eq!(rank_of(n, &h).0, rank, "{h:?}");
        let factors: Vec<F> = (0..m + n)
            .map(|_| small(1 + generator.below(2047) as u16))
            .collect();
        for (place, entry) in h.iter_mut().enumerate() {
            let (row, column) = (place / n, m + place % n);
            *entry = (factors[row] * factors[column] * small(*entry)).word();
        }
        assert_eq!(rank_of(n, &h).0, rank, "{h:?}");
        seen.insert((m, rank));
    }
    assert!(seen.len() > 30, "{seen:?}");
}

/// Sizes from the least to the largest, with m = n - 1 and less.
const SIZES: [(usize, usize); 14] = [
    (2, 1),
    (3, 1),
    (3, 2),
    (4, 3),
    (5, 2),
    (8, 7),
    (9, 4),
    (16, 15),
    (17, 8),
    (32, 31),
    (33, 16),
    (63, 1),
    (64, 27),
    (64, 63),
];

/// H with m rows of n words and this rank: as many rows that begin in columns of
/// their own, and sums of multiples of them, all in random order.
fn of_rank(n: usize, m: usize, rank: usize, generator: &mut Generator) -> Vec<u16> {
    let mut columns: Vec<u8> = generator.order(n)[..rank].to_vec();
    columns.sort_unstable();
    let mut basis = Vec::new();
    for &column in &columns {
        let mut row = generator.words(n);
        row[..usize::from(column)].fill(0);
        row[usize::from(column)] = 1 + generator.below(2047) as u16;
        basis.extend(row);
    }
    let mut list: Vec<Vec<u16>> = basis.chunks(n).map(<[u16]>::to_vec).collect();
    while list.len() < m {
        let factors = generator.words(rank);
        list.push(combination(&basis, n, &factors));
    }
    let order = generator.order(m);
    let rows = order.iter().map(|&place| list[usize::from(place)].clone());
    rows.collect::<Vec<_>>().concat()
}

/// The elimination in place, with a mark for each used row and an inverse for
/// each row taken: another way to the same matrix.
fn in_place(n: usize, h: &[u16]) -> (usize, Vec<u16>) {
    let m = h.len() / n;
    let mut matrix = elements_of_f(h).expect("words up to 2047");
    let mut used = vec![false; m];
    for column in 0..n {
        let entry = |row: usize| row * n + column;
        let taken = (0..m).find(|&row| !used[row] && matrix[entry(row)] != F::ZERO);
        let Some(taken) = taken else { continue };
        used[taken] = true;
        let inverse = matrix[entry(taken)].inverse().expect("it isn't zero");
        for row in (taken + 1..m).filter(|&row| !used[row]) {
            let factor = matrix[entry(row)] * inverse;
            for other in column..n {
                matrix[row * n + other] =
                    matrix[row * n + other] + factor * matrix[taken * n + other];
            }
        }
    }
    let rank = used.into_iter().filter(|&used| used).count();
    (rank, matrix.into_iter().map(F::word).collect())
}

/// What the cleared form is: as many rows as the rank are not zero, each begins
/// in a column of its own, each is the old row plus a sum of multiples of rows
/// above it, and the sums of multiples of all rows are the same.
fn judge_cleared(n: usize, h: &[u16], rank: usize, matrix: &[u16]) {
    let m = h.len() / n;
    let begins: Vec<Option<usize>> = matrix
        .chunks(n)
        .map(|row| row.iter().position(|&word| word != 0))
        .collect();
    let columns: BTreeSet<usize> = begins.iter().copied().flatten().collect();
    assert_eq!(columns.len(), rank);
    assert_eq!(begins.iter().flatten().count(), rank);
    for (row, begin) in begins.iter().enumerate() {
        // Below the row that was taken for a column, all rows that were unused
        // then, which begin later or not at all, are zero there.
        let Some(column) = *begin else { continue };
        for below in row + 1..m {
            if begins[below].is_none_or(|later| later > column) {
                assert_eq!(matrix[below * n + column], 0);
            }
        }
    }
    let mut above = Vec::new();
    for (old, new) in h.chunks(n).zip(matrix.chunks(n)) {
        let added: Vec<u16> = old.iter().zip(new).map(|(old, new)| old ^ new).collect();
        let with = joined_rows(&[&above[..], &added].concat(), n);
        assert_eq!(with, joined_rows(&above, n));
        above.extend_from_slice(old);
    }
    assert_eq!(joined_rows(h, n), rank);
    assert_eq!(joined_rows(&[h, matrix].concat(), n), rank);
}

#[test]
fn ranks_known_by_construction() {
    let mut generator = Generator::new(54);
    let mut ranks = 0;
    for (n, m) in SIZES {
        let mut list: Vec<usize> = (0..=m).collect();
        if m > 8 {
            list = vec![0, 1, 2, m / 2, m - 2, m - 1, m];
        }
        for rank in list {
            let h = of_rank(n, m, rank, &mut generator);
            let (answered, matrix) = rank_of(n, &h);
            assert_eq!(answered, rank, "n = {n}, m = {m}");
            judge_cleared(n, &h, rank, &matrix);
            assert_eq!(in_place(n, &h), (rank, matrix));
            ranks += 1;
        }
    }
    assert!(ranks >= 70, "{ranks}");
}

/// Rows with few entries: columns without one, and rows that are skipped and
/// taken later.
#[test]
fn sparse_matrices() {
    let mut generator = Generator::new(55);
    let (mut skipped, mut short, mut full) = (0, 0, 0);
    for round in 0..400 {
        let (n, m) = SIZES[round % SIZES.len()];
        let most = 1 + generator.below(4);
        let mut h = vec![0; m * n];
        for row in h.chunks_mut(n) {
            for _ in 0..1 + generator.below(most) {
                row[generator.below(n)] = generator.word();
            }
        }
        if round % 3 == 0 {
            let column = generator.below(n);
            h.iter_mut().skip(column).step_by(n).for_each(|e| *e = 0);
        }
        let (rank, matrix) = rank_of(n, &h);
        judge_cleared(n, &h, rank, &matrix);
        assert_eq!(in_place(n, &h), (rank, matrix));
        let taken = cleared(&rows(&elements_of_f(&h).expect("words up to 2047"), n)).taken;
        skipped += usize::from(!taken.is_sorted());
        short += usize::from(rank < m);
        full += usize::from(rank == m);
    }
    assert!(
        skipped > 100 && short > 100 && full > 50,
        "{skipped} {short} {full}"
    );
}

/// Every n with m = n - 1: unit rows, as they are, from the last to the first,
/// and with one of them a sum of others.
#[test]
fn unit_rows_of_every_size() {
    let mut generator = Generator::new(56);
    for n in 2..=64 {
        let m = n - 1;
        let h = unit_rows(n, m);
        assert_eq!(rank_of(n, &h), (m, h.clone()));
        let reversed: Vec<u16> = h.chunks(n).rev().flatten().copied().collect();
        assert_eq!(rank_of(n, &reversed), (m, reversed.clone()));
        for leaning in Leaning::of(m) {
            let mut h = h.clone();
            leaning.make(&mut h, n, &mut generator);
            let rank = if leaning == Leaning::AllZero {
                0
            } else {
                m - 1
            };
            assert_eq!(rank_of(n, &h).0, rank, "n = {n}, {leaning:?}");
        }
    }
}

/// One row: it leans exactly when it is zero.
#[test]
fn one_row() {
    for n in [2, 3, 64] {
        for place in 0..n {
            for word in [1, 2, 1024, 2047] {
                let mut h = vec![0; n];
                h[place] = word;
                assert_eq!(rank_of(n, &h), (1, h));
            }
        }
        assert_eq!(rank_of(n, &vec![0; n]), (0, vec![0; n]));
    }
}

/// A key whose rows lean is refused with 15, also where the positions solve it
/// and the equation holds; another H alone puts it right.
#[test]
fn leaning_keys_are_refused() {
    let mut generator = Generator::new(57);
    let mut refused = 0;
    for (n, m) in SIZES.into_iter().filter(|&(n, _)| n < 40) {
        for leaning in Leaning::of(m) {
            let right = Sample::solving(n, m, &mut generator);
            let sample = right.leaning(leaning, &mut generator);
            let (t, a) = sample.unjudged_proof().expect("words up to 2047");
            assert_eq!(sample.constraints(), Err(Refusal::DependentRows));
            assert_eq!(sample.proof(), Err(Refusal::DependentRows));
            assert_eq!(sample.values(&t), Err(Refusal::DependentRows));
            assert_eq!(sample.verdict(&t, &a), Err(Refusal::DependentRows));
            let (rank, _) = sample.rank().expect("a short rank is no refusal");
            assert!(rank < m && !independent(&sample.h, n));
            assert_eq!(right.rank().map(|(rank, _)| rank), Ok(m));
            assert_eq!(right.unjudged_proof(), right.proof());
            refused += 1;
        }
    }
    assert!(refused > 30, "{refused}");
}

/// "An office loaded a key whose second row was a multiple of its first": twice
/// as many rows would leave fewer orders, but the second row asks for nothing.
#[test]
fn a_second_row_that_is_a_multiple() {
    let sample = Sample {
        n: 3,
        m: 2,
        h: vec![2, 1, 0, 4, 2, 0],
        x: vec![1, 2, 2],
        y: vec![0, 0],
        ..Sample::three()
    };
    assert_eq!(
        sample.key().judged(sample.key().sizes().unwrap()).err(),
        Some(Refusal::DependentRows)
    );
    assert_eq!(sample.rank(), Ok((1, vec![2, 1, 0, 0, 0, 0])));
    // 4 of x comes before, and 5 of u after.
    let mut other = sample.clone();
    other.u[0] = 2;
    assert_eq!(other.constraints(), Err(Refusal::DependentRows));
    other.x[2] = 2048;
    assert_eq!(other.constraints(), Err(Refusal::KeyElement));
    assert_eq!(other.rank(), sample.rank());
    other.h[5] = 2048;
    assert_eq!(other.rank(), Err(Refusal::KeyElement));
}
