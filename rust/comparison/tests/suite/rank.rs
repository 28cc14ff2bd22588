//! The groups of rank find other ways to eliminate, and other ways to refuse.
//! Each stands in the place of the library.

use crate::common::finds;
use comparison::case::{Call, Taken};
use comparison::entries::faults::{one_fault, two_faults};
use comparison::entries::rank::{Rank, LARGEST, OUT, RANK, SMALL};
use comparison::lent::Lent;
use comparison::named::Named;
use comparison::slices::{H, M, MATRIX, N};
use reference::logarithms::OF_F;
use reference::small_field::F;

/// Whether all small matrices of some words find this function in the place of the
/// library.
fn small_find(library: Call) -> bool {
    finds(SMALL, RANK, library)
}

/// Whether one fault of a call does.
fn one_fault_finds(library: Call) -> bool {
    finds(one_fault::<Rank>(), RANK, library)
}

/// Whether two faults of a call do.
fn two_faults_find(library: Call) -> bool {
    finds(two_faults::<Rank>(), RANK, library)
}

/// Whether matrices of the largest n do.
fn largest_find(library: Call) -> bool {
    finds(LARGEST, RANK, library)
}

/// The element of F with this number.
fn element(word: u16) -> F {
    F::from_word(word).expect("a word up to 2047")
}

/// Rows of words, to be cleared.
struct Rows<'a> {
    n: usize,
    words: &'a mut [u16],
    used: Vec<bool>,
}

impl Rows<'_> {
    /// The number of rows.
    fn count(&self) -> usize {
        self.used.len()
    }

    /// A word.
    fn at(&self, row: usize, column: usize) -> u16 {
        self.words[self.n * row + column]
    }

    /// The unused rows with a word that isn't 0 in a column.
    fn candidates(&self, column: usize) -> Vec<usize> {
        let rows = 0..self.count();
        rows.filter(|&row| !self.used[row] && self.at(row, column) != 0)
            .collect()
    }

    /// Adds the multiple of a row to another that makes its word in a column 0.
    fn clear(&mut self, row: usize, taken: usize, column: usize) {
        let [word, other] = [row, taken].map(|row| element(self.at(row, column)));
        let factor = OF_F.quotient(word, other).expect("the word isn't 0");
        for i in 0..self.n {
            let product = OF_F.product(factor, element(self.at(taken, i)));
            self.words[self.n * row + i] ^= product.word();
        }
    }

    /// Exchanges two rows.
    fn exchange(&mut self, one: usize, other: usize) {
        for i in 0..self.n {
            self.words.swap(self.n * one + i, self.n * other + i);
        }
        self.used.swap(one, other);
    }
}

/// One step of an elimination: what is done with a column, given the rows that
/// could be taken; the rows are those of a call that isn't refused.
type Step = fn(&mut Rows, usize, &[usize]);

/// Takes the lowest row, and clears the column in the unused rows below it.
fn right(rows: &mut Rows, column: usize, candidates: &[usize]) {
    let taken = candidates[0];
    rows.used[taken] = true;
    for &row in &candidates[1..] {
        rows.clear(row, taken, column);
    }
}

/// Rank with this step, in the order of these columns. Refusals are those of the
/// reference.
fn eliminated(taken: &Taken, outputs: &mut Named<Lent>, reversed: bool, step: Step) -> u32 {
    let answer = (RANK.reference)(taken, outputs);
    if answer != 0 {
        return answer;
    }
    let [matrix, rank] = outputs.each_mut([MATRIX, OUT]);
    matrix.words_mut().copy_from_slice(taken.words(H));
    let n = taken.numbers[N];
    let mut rows = Rows {
        n,
        words: matrix.words_mut(),
        used: vec![false; taken.numbers[M]],
    };
    let mut count = 0;
    for column in 0..n {
        let column = if reversed { n - 1 - column } else { column };
        let candidates = rows.candidates(column);
        if !candidates.is_empty() {
            step(&mut rows, column, &candidates);
            count += 1;
        }
    }
    *rank.size_mut() = count;
    answer
}

/// A program with another step.
macro_rules! with_step {
    ($step:expr) => {
        |taken, outputs| eliminated(taken, outputs, false, $step)
    };
}

#[test]
fn no_fault() {
    for finds in [small_find, one_fault_finds, two_faults_find, largest_find] {
        assert!(!finds(RANK.reference));
        assert!(!finds(with_step!(right)));
    }
}

#[test]
fn the_highest_row_is_taken() {
    assert!(small_find(with_step!(|rows, column, candidates| {
        let mut candidates = candidates.to_vec();
        candidates.reverse();
        right(rows, column, &candidates);
    })));
}

#[test]
fn rows_change_places() {
    assert!(small_find(with_step!(|rows, column, candidates| {
        let first = rows.used.iter().position(|used| !used);
        let (first, found) = (first.expect("an unused row"), candidates[0]);
        rows.exchange(first, found);
        let mut candidates = rows.candidates(column);
        candidates.sort_unstable();
        right(rows, column, &candidates);
    })));
}

#[test]
fn used_rows_below_are_cleared_too() {
    assert!(small_find(with_step!(|rows, column, candidates| {
        let taken = candidates[0];
        for row in taken + 1..rows.count() {
            if rows.at(row, column) != 0 {
                rows.clear(row, taken, column);
            }
        }
        rows.used[taken] = true;
    })));
}

#[test]
fn used_rows_above_are_cleared_too() {
    assert!(small_find(with_step!(|rows, column, candidates| {
        right(rows, column, candidates);
        let taken = candidates[0];
        for row in 0..taken {
            if rows.at(row, column) != 0 {
                rows.clear(row, taken, column);
            }
        }
    })));
}

#[test]
fn the_row_taken_begins_with_one() {
    assert!(small_find(with_step!(|rows, column, candidates| {
        right(rows, column, candidates);
        let taken = candidates[0];
        let first = element(rows.at(taken, column));
        for i in 0..rows.n {
            let word = element(rows.at(taken, i));
            let word = OF_F.quotient(word, first).expect("the word isn't 0");
            rows.words[rows.n * taken + i] = word.word();
        }
    })));
}

#[test]
fn the_last_row_is_not_cleared() {
    assert!(small_find(with_step!(|rows, column, candidates| {
        let last = rows.count() - 1;
        let others: Vec<usize> = candidates.iter().copied().filter(|&e| e < last).collect();
        match others[..] {
            [] => rows.used[last] = true,
            _ => right(rows, column, &others),
        }
    })));
}

#[test]
fn columns_from_the_last() {
    assert!(small_find(|taken, outputs| eliminated(
        taken, outputs, true, right
    )));
}

/// The reference's answer, with another rank.
fn other_rank(taken: &Taken, outputs: &mut Named<Lent>, change: fn(usize, usize) -> usize) -> u32 {
    let answer = (RANK.reference)(taken, outputs);
    if answer == 0 {
        let rank = outputs[OUT].size_mut();
        *rank = change(*rank, taken.numbers[M]);
    }
    answer
}

#[test]
fn a_rank_one_too_large() {
    assert!(small_find(|taken, outputs| {
        other_rank(taken, outputs, |rank, _| rank + 1)
    }));
    // Where it is short alone.
    assert!(small_find(|taken, outputs| {
        other_rank(taken, outputs, |rank, m| m.min(rank + 1))
    }));
    assert!(small_find(|taken, outputs| other_rank(
        taken,
        outputs,
        |_, m| m
    )));
}

#[test]
fn a_short_rank_is_refused() {
    assert!(small_find(|taken, outputs| {
        let before = outputs.clone();
        let answer = (RANK.reference)(taken, outputs);
        if answer == 0 && *outputs[OUT].size_mut() < taken.numbers[M] {
            *outputs = before;
            return 15;
        }
        answer
    }));
}

/// The reference's answer, and a word of an output changed where it is a refusal.
fn changed_on(number: u32, output: &str, taken: &Taken, outputs: &mut Named<Lent>) -> u32 {
    let answer = (RANK.reference)(taken, outputs);
    if answer == number && !outputs[output].is_empty() {
        outputs[output].change(0, 0);
    }
    answer
}

#[test]
fn an_output_changed_on_a_refusal() {
    assert!(one_fault_finds(|taken, outputs| changed_on(
        4, MATRIX, taken, outputs
    )));
    assert!(one_fault_finds(|taken, outputs| changed_on(
        3, MATRIX, taken, outputs
    )));
    assert!(one_fault_finds(|taken, outputs| changed_on(
        1, OUT, taken, outputs
    )));
    assert!(one_fault_finds(|taken, outputs| changed_on(
        4, OUT, taken, outputs
    )));
}

#[test]
fn h_copied_before_it_is_refused() {
    assert!(one_fault_finds(|taken, outputs| {
        let answer = (RANK.reference)(taken, outputs);
        let h = taken.words(H);
        let matrix = outputs[MATRIX].words_mut();
        if answer == 4 {
            matrix.copy_from_slice(h);
        }
        answer
    }));
}

#[test]
fn refusals_in_another_order() {
    // 4 before 3.
    assert!(two_faults_find(|taken, outputs| {
        let above = taken.words(H).iter().any(|&word| word > F::LARGEST);
        match (RANK.reference)(taken, outputs) {
            3 if above => 4,
            answer => answer,
        }
    }));
    // 2 before 1.
    assert!(two_faults_find(|taken, outputs| {
        let (n, m) = (taken.numbers[N], taken.numbers[M]);
        match (RANK.reference)(taken, outputs) {
            1 if m == 0 || m >= n => 2,
            answer => answer,
        }
    }));
    // 3 before 2.
    assert!(two_faults_find(|taken, outputs| {
        let short = taken.words(H).is_empty();
        match (RANK.reference)(taken, outputs) {
            2 if short => 3,
            answer => answer,
        }
    }));
}

#[test]
fn the_length_of_the_matrix_is_not_looked_at() {
    assert!(one_fault_finds(|taken, outputs| {
        let sizes = taken.numbers[M].checked_mul(taken.numbers[N]);
        let right = sizes == Some(taken.words(H).len());
        match (RANK.reference)(taken, outputs) {
            3 if right => 0,
            answer => answer,
        }
    }));
}

#[test]
fn only_the_largest_is_wrong() {
    assert!(largest_find(|taken, outputs| {
        let answer = (RANK.reference)(taken, outputs);
        if answer == 0 && (taken.numbers[N], taken.numbers[M]) == (64, 63) {
            let matrix = outputs[MATRIX].words_mut();
            let last = matrix.len() - 1;
            matrix[last] ^= 1;
        }
        answer
    }));
}
