//! Sums and products in K: the examples of the specification, the limit and
//! the refusals.

mod common;

use common::{ones, words, WORD};
use perk::Refusal::{Coordinate, SliceLength};
use perk::{product, sum, Refusal};

/// A function of two elements of K.
type Entry = fn(&[u16], &[u16], &mut [u16]) -> Result<(), Refusal>;

/// What the function writes.
fn result(entry: Entry, a: &[u16], b: &[u16]) -> Vec<u16> {
    let mut out = vec![WORD; 12];
    assert_eq!(entry(a, b, &mut out), Ok(()));
    out
}

/// The function refuses, and `out` keeps its content.
fn refused(entry: Entry, a: &[u16], b: &[u16], out_len: usize, refusal: Refusal) {
    let mut out = vec![WORD; out_len];
    assert_eq!(entry(a, b, &mut out), Err(refusal));
    assert_eq!(out, vec![WORD; out_len]);
}

#[test]
fn products_of_the_specification() {
    assert_eq!(result(product, &words(&[1024]), &words(&[2])), words(&[5]));
    assert_eq!(
        result(product, &words(&[1024]), &words(&[1024])),
        words(&[517])
    );
    assert_eq!(
        result(product, &words(&[2047]), &words(&[2])),
        words(&[2043])
    );
    assert_eq!(result(product, &ones(&[11]), &ones(&[1])), ones(&[0, 3]));
    assert_eq!(
        result(product, &ones(&[11]), &ones(&[11])),
        ones(&[1, 4, 10])
    );
}

#[test]
fn sums_are_exclusive_or() {
    let a: Vec<u16> = (0..12).map(|i| 2047 - 100 * i).collect();
    let b: Vec<u16> = (0..12).map(|i| 170 * i).collect();
    let xor: Vec<u16> = a.iter().zip(&b).map(|(a, b)| a ^ b).collect();
    assert_eq!(result(sum, &a, &b), xor);
}

#[test]
fn an_operand_may_be_lent_twice() {
    let y = ones(&[11]);
    assert_eq!(result(product, &y, &y), ones(&[1, 4, 10]));
    assert_eq!(result(sum, &y, &y), vec![0; 12]);
}

#[test]
fn the_limit_is_2047() {
    assert_eq!(
        result(product, &words(&[2047]), &words(&[1])),
        words(&[2047])
    );
    let one = words(&[1]);
    for entry in [sum as Entry, product] {
        for coordinate in 0..12 {
            let mut above = vec![0; 12];
            above[coordinate] = 2048;
            refused(entry, &above, &one, 12, Coordinate);
            refused(entry, &one, &above, 12, Coordinate);
        }
    }
}

#[test]
fn lengths_come_before_coordinates() {
    let above = vec![2048; 12];
    for entry in [sum as Entry, product] {
        for len in [0, 1, 11, 13, 24] {
            let wrong = vec![2048; len];
            refused(entry, &wrong, &above, 12, SliceLength);
            refused(entry, &above, &wrong, 12, SliceLength);
            refused(entry, &above, &above, len, SliceLength);
        }
        refused(entry, &[], &[], 0, SliceLength);
    }
}

#[test]
fn nothing_beside_the_output_is_written() {
    let mut buffer = [WORD; 36];
    product(&words(&[1024]), &words(&[2]), &mut buffer[12..24]).unwrap();
    assert_eq!(buffer[..12], [WORD; 12]);
    assert_eq!(buffer[12..24], words(&[5]));
    assert_eq!(buffer[24..], [WORD; 12]);
}
