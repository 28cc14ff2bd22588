//! The cases of the program `field_cases`: lines that are stated, and what
//! the cases must cover.

use crate::fields::product_by_powers_of_y;
use reference::field_cases::{Case, Cases, Operation, OPERATIONS};
use reference::large_field::Large;
use reference::level::{Level, FIRST, SECOND};
use std::collections::BTreeSet;

fn line(level: u8, operation: Operation, words: &[u16]) -> String {
    Case {
        level,
        operation: operation as u8,
        words: words.to_vec(),
    }
    .line()
}

#[test]
fn stated_lines() {
    use Operation::*;
    assert_eq!(line(1, Product, &[1 << 10, 2]), "1 product 5");
    assert_eq!(line(2, Product, &[1 << 11, 2]), "2 product 9");
    assert_eq!(line(1, Product, &[2048, 1]), "refused");
    assert_eq!(line(2, Product, &[2048, 1]), "2 product 800");
    assert_eq!(
        line(1, TermTimes, &[11, 1, 1, 3]),
        "1 times 3 0 0 3 0 0 0 0 0 0 0 0"
    );
    assert_eq!(
        line(2, TermMultiples, &[22, 1, 1, 3]),
        "2 multiples 3 0 0 0 0 3 0 0 0 0 0 0 0 0 0 0 0 0 0 0 0 0 0"
    );
    assert_eq!(line(1, Y, &[]), "1 y 0 1 0 0 0 0 0 0 0 0 0 0");
    assert_eq!(
        line(1, Combination, &[]),
        "1 combination".to_string() + &" 0".repeat(12)
    );
    assert_eq!(line(2, Excess, &[4095, 0]), "2 excess 0");
    assert_eq!(line(2, Excess, &[0, 4096]), "2 excess 1");
    assert_eq!(line(3, One, &[]), "refused");
    let numbers = OPERATIONS.iter().map(|&operation| operation as usize);
    assert!(numbers.eq(1..=OPERATIONS.len()));
}

/// The cases of an operation that have a result.
fn answered(cases: &Cases, level: usize, operation: Operation) -> Vec<&Case> {
    let named =
        |case: &&Case| usize::from(case.level) == level && case.operation == operation as u8;
    let cases = cases.list().iter().filter(named);
    cases.filter(|case| case.line() != "refused").collect()
}

/// The words of a line.
fn words(case: &Case) -> Vec<u16> {
    let line = case.line();
    let words = line.split(' ').skip(2);
    words
        .map(|word| u16::from_str_radix(word, 16).expect("a word in hexadecimal"))
        .collect()
}

fn covered<const LEVEL: usize>() {
    use Operation::*;
    let Level {
        width, coordinates, ..
    } = Level::of(LEVEL);
    let cases = Cases::all();
    let of = |operation| answered(&cases, LEVEL, operation);
    for &operation in OPERATIONS {
        assert!(!of(operation).is_empty(), "{operation:?}");
    }

    // Every pair of coordinates, with words whose product is reduced.
    for operation in [TermTimes, TermMultiples] {
        let mut pairs = BTreeSet::new();
        for case in of(operation) {
            let [i, a, j, b] = case.words[..] else {
                panic!("{} words", case.words.len());
            };
            if a.min(b) >> (width - 1) == 1 {
                pairs.insert((i, j));
            }
        }
        assert_eq!(pairs.len(), coordinates * coordinates);
    }

    // A combination with a term for each power of z alone.
    let powers: Vec<u16> = (0..width).map(|i| 1 << i).collect();
    let factors = |case: &Case| -> Vec<u16> {
        let last = case.words.iter().skip(coordinates);
        last.step_by(coordinates + 1).copied().collect()
    };
    assert!(of(Combination).iter().any(|case| factors(case) == powers));

    // Products by the second way.
    for operation in [Times, Multiples] {
        for case in of(operation) {
            let (a, b) = case.words.split_at(coordinates);
            let [a, b] = [a, b].map(|words| Large::<LEVEL>::from_words(words).unwrap());
            assert_eq!(words(case), product_by_powers_of_y(a, b).words());
        }
    }
}

#[test]
fn the_first_level_is_covered() {
    covered::<FIRST>();
}

#[test]
fn the_second_level_is_covered() {
    covered::<SECOND>();
}

#[test]
fn a_line_for_each_case() {
    let cases = Cases::all();
    let stdout = String::from_utf8(cases.stdout()).expect("text");
    assert_eq!(stdout.lines().count(), cases.list().len());
    assert!(stdout.ends_with("\nrefused\n"), "the last case is cut");
}
