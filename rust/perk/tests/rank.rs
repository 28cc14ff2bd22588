//! The rank of H and its cleared form, worked out by hand; the refusals of rank;
//! and keys whose rows lean on each other.

mod common;

use common::{Case, WORD};
use perk::Refusal::{self, DependentRows, KeyElement, SizeM, SizeN, SliceLength};
use perk::{rank, WORDS};

/// H has this rank and this cleared form.
fn cleared(n: usize, h: &[u16], stated: usize, form: &[u16]) {
    let mut matrix = vec![WORD; h.len()];
    assert_eq!(rank(n, h.len() / n, h, &mut matrix), Ok(stated), "{h:?}");
    assert_eq!(matrix, form, "{h:?}");
}

#[test]
fn one_row() {
    cleared(2, &[2, 1], 1, &[2, 1]);
    cleared(2, &[0, 2047], 1, &[0, 2047]);
    cleared(2, &[0, 0], 0, &[0, 0]);
    cleared(4, &[0, 0, 0, 1], 1, &[0, 0, 0, 1]);
    cleared(64, &[0; 64], 0, &[0; 64]);
}

// 1024 times 2 is 5 in F.
#[test]
fn the_second_row_is_a_multiple() {
    cleared(3, &[1024, 1, 3, 5, 2, 6], 1, &[1024, 1, 3, 0, 0, 0]);
    cleared(3, &[5, 2, 6, 1024, 1, 3], 1, &[5, 2, 6, 0, 0, 0]);
    cleared(3, &[1024, 1, 3, 5, 2, 7], 2, &[1024, 1, 3, 0, 0, 1]);
    // zero times the first
    cleared(3, &[1024, 1, 3, 0, 0, 0], 1, &[1024, 1, 3, 0, 0, 0]);
    // the first row is the zero one
    cleared(3, &[0, 0, 0, 5, 2, 6], 1, &[0, 0, 0, 5, 2, 6]);
}

// Column 0 takes row 1, since row 0 has zero there; column 1 then takes row 0, the
// lowest unused one. Neither changes its place, and row 1, used, is not cleared
// by row 0, though it stands below it.
#[test]
fn used_rows_stay_and_none_is_exchanged() {
    cleared(3, &[0, 1, 4, 1, 1, 2], 2, &[0, 1, 4, 1, 1, 2]);
    // row 2 loses row 1 and then row 0: 1 1 7 - 1 1 2 is 0 0 5
    let h = [0, 1, 4, 7, 1, 1, 2, 0, 1, 1, 7, 0];
    cleared(4, &h, 3, &[0, 1, 4, 7, 1, 1, 2, 0, 0, 0, 5, 0]);
    let h = [0, 1, 4, 7, 1, 1, 2, 0, 1, 0, 6, 7];
    cleared(4, &h, 2, &[0, 1, 4, 7, 1, 1, 2, 0, 0, 0, 0, 0]);
}

// A column of zeros takes no row; the next one takes the lowest unused row.
#[test]
fn columns_without_a_row() {
    let h = [0, 0, 3, 1, 0, 0, 6, 3];
    cleared(4, &h, 2, &[0, 0, 3, 1, 0, 0, 0, 1]);
    cleared(4, &[0; 12], 0, &[0; 12]);
    // every row has the same entries
    let ones = [1; 12];
    cleared(4, &ones, 1, &[1, 1, 1, 1, 0, 0, 0, 0, 0, 0, 0, 0]);
}

#[test]
fn the_largest_matrix() {
    let (n, m) = (64, 63);
    let mut h = vec![0; m * n];
    for e in 0..m {
        h[e * n + n - 1 - e] = 2047;
    }
    cleared(n, &h, 63, &h);
    // row 62 becomes the sum of rows 0 and 61
    let mut form = h.clone();
    for i in 0..n {
        h[62 * n + i] = h[i] ^ h[61 * n + i];
        form[62 * n + i] = 0;
    }
    cleared(n, &h, 62, &form);
}

/// The answer to these sizes, with H of zeros, or of 2048s, and a matrix of these
/// lengths. The matrix keeps its content.
fn refused(sizes: (usize, usize), element: u16, h: usize, matrix: usize) -> Refusal {
    let mut words = vec![WORD; matrix];
    let answer = rank(sizes.0, sizes.1, &vec![element; h], &mut words);
    assert!(words.iter().all(|word| *word == WORD));
    answer.expect_err("a refusal")
}

#[test]
fn refusals_in_their_order() {
    for n in [0, 1, 65, usize::MAX] {
        for m in [0, 1, 2, n] {
            assert_eq!(refused((n, m), 2048, 5, 7), SizeN);
        }
    }
    for n in [2, 3, 64] {
        for m in [0, n, n + 1, usize::MAX] {
            assert_eq!(refused((n, m), 2048, 5, 7), SizeM);
        }
    }
    for (h, matrix) in [(5, 6), (7, 6), (0, 6), (6, 5), (6, 7), (6, 0), (12, 6)] {
        for element in [0, 2048] {
            assert_eq!(refused((3, 2), element, h, matrix), SliceLength);
        }
    }
    for element in [2048, 4096, 65535] {
        assert_eq!(refused((3, 2), element, 6, 6), KeyElement);
    }
    for place in 0..6 {
        let mut h = [0; 6];
        h[place] = 2048;
        let mut matrix = [WORD; 6];
        assert_eq!(rank(3, 2, &h, &mut matrix), Err(KeyElement));
        assert_eq!(matrix, [WORD; 6]);
    }
}

#[test]
fn nothing_beside_the_matrix_is_written() {
    let mut buffer = [WORD; 18];
    assert_eq!(rank(3, 2, &[1, 2, 3, 4, 5, 6], &mut buffer[6..12]), Ok(2));
    assert_eq!(buffer[..6], [WORD; 6]);
    assert_eq!(buffer[12..], [WORD; 6]);
}

/// A key of three rows for n = 4, with x and y zero: every order solves it where
/// its rows do not lean on each other.
fn four(h: [u16; 12]) -> Case {
    Case {
        n: 4,
        m: 3,
        h: h.to_vec(),
        x: vec![0; 4],
        y: vec![0; 3],
        positions: vec![3, 1, 0, 2],
        u: vec![0; 8],
        v: vec![0; WORDS * 8],
        r: vec![0; WORDS],
        s: vec![0; WORDS],
        alpha: vec![0; WORDS * 7],
        q: vec![0; WORDS * 8],
        delta: vec![0; WORDS],
        masks: vec![0; WORDS],
        t: vec![0; 8],
        a: vec![0; WORDS * 2],
        serial: 7,
        t_out: vec![common::BYTE; 8],
        polynomials: vec![WORD; WORDS * 7 * 3],
        a_out: vec![WORD; WORDS * 2],
        values: vec![WORD; WORDS * 7],
        package: vec![common::BYTE; 110],
    }
}

/// What the five functions of a key answer.
fn answers(case: &mut Case) -> [Result<(), Refusal>; 5] {
    let values = case.values();
    let verdict = case.verify().map(|_| ());
    let package = case.write_package().map(|_| ());
    [values, verdict, case.constraints(), case.prove(), package]
}

#[test]
fn keys_whose_rows_lean() {
    let independent = [1024, 1, 3, 0, 0, 7, 0, 0, 0, 0, 0, 9];
    assert_eq!(answers(&mut four(independent)), [Ok(()); 5]);
    for h in [
        // row 1 is 2 times row 0, row 2 is 2 times row 0, row 2 is row 1
        [1024, 1, 3, 0, 5, 2, 6, 0, 0, 0, 0, 9],
        [1024, 1, 3, 0, 0, 7, 0, 0, 5, 2, 6, 0],
        [1024, 1, 3, 0, 0, 7, 0, 0, 0, 7, 0, 0],
        // row 2 is row 1 plus 2 times row 0, and row 0 is row 1 plus row 2
        [1024, 1, 3, 0, 0, 7, 0, 0, 5, 5, 6, 0],
        [1, 2, 4, 8, 0, 2, 4, 8, 1, 0, 0, 0],
        // a row of zeros, and all
        [0, 0, 0, 0, 0, 7, 0, 0, 0, 0, 0, 9],
        [1024, 1, 3, 0, 0, 0, 0, 0, 0, 0, 0, 9],
        [1024, 1, 3, 0, 0, 7, 0, 0, 0, 0, 0, 0],
        [0; 12],
    ] {
        let mut case = four(h);
        assert_eq!(answers(&mut case), [Err(DependentRows); 5], "{h:?}");
        assert!(case.nothing_written());
        // x and y above the limit come before, a bit of u or t after
        (case.u[0], case.t[0]) = (2, 2);
        assert_eq!(answers(&mut case), [Err(DependentRows); 5], "{h:?}");
        case.y[2] = 2048;
        assert_eq!(answers(&mut case), [Err(KeyElement); 5], "{h:?}");
        (case.x[3], case.y[2]) = (2048, 0);
        assert_eq!(answers(&mut case), [Err(KeyElement); 5], "{h:?}");
        case.x.pop();
        assert_eq!(answers(&mut case), [Err(SliceLength); 5], "{h:?}");
        assert!(case.nothing_written());
    }
}
