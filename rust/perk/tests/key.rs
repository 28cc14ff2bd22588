//! The functions of a key on the examples of the specification, and on one key
//! with masks that is worked out by hand.

mod common;

use common::{words, Case};
use perk::Refusal::{Position, SpareCode, TopCoefficient};
use perk::{digits, Verdict};

#[test]
fn digits_of_n_minus_1() {
    for (n, d) in [
        (2, 1),
        (3, 2),
        (4, 2),
        (5, 3),
        (8, 3),
        (9, 4),
        (16, 4),
        (17, 5),
        (32, 5),
        (33, 6),
        (64, 6),
    ] {
        assert_eq!(digits(n), d, "n = {n}");
    }
    assert_eq!((digits(0), digits(1)), (0, 0));
}

#[test]
fn key_a_constraints() {
    let mut case = Case::key_a();
    assert_eq!(case.constraints(), Ok(()));
    assert_eq!(case.t_out, [1, 1]);
    assert_eq!(case.polynomials, words(&[5, 0, 5, 0, 10, 0]));
    assert_eq!(case.tops(), [0, 0, 0]);
}

#[test]
fn key_a_values() {
    let mut case = Case::key_a();
    assert_eq!(case.values(), Ok(()));
    assert_eq!(case.values, words(&[5, 5, 10]));
}

#[test]
fn key_a_prove() {
    let mut case = Case::key_a();
    assert_eq!(case.prove(), Ok(()));
    assert_eq!(case.t_out, [1, 1]);
    assert_eq!(case.a_out, words(&[5]));
}

#[test]
fn key_a_verify() {
    let mut case = Case::key_a();
    assert_eq!(case.verify(), Ok(Verdict::Accepted));
    case.a = words(&[4]);
    assert_eq!(case.verify(), Ok(Verdict::Rejected));
}

#[test]
fn key_a_in_another_order() {
    let mut case = Case::key_a();
    case.positions = vec![1, 0];
    assert_eq!(case.prove(), Err(TopCoefficient));
    assert!(case.nothing_written());
    assert_eq!(case.constraints(), Ok(()));
    assert_eq!(case.t_out, [0, 0]);
    assert_eq!(case.tops(), [0, 0, 5]);
}

#[test]
fn three_positions_1_1_1() {
    let mut case = Case::three();
    case.positions = vec![1, 1, 1];
    assert_eq!(case.prove(), Err(TopCoefficient));
    assert!(case.nothing_written());
    assert_eq!(case.constraints(), Ok(()));
    assert_eq!(case.tops()[..3], [1, 0, 1]);
}

#[test]
fn three_positions_0_1_3() {
    let mut case = Case::three();
    case.positions = vec![0, 1, 3];
    assert_eq!(case.prove(), Err(SpareCode));
    assert!(case.nothing_written());
    assert_eq!(case.constraints(), Ok(()));
    assert_eq!(case.tops()[..3], [0, 0, 1]);
}

#[test]
fn three_positions_0_1_4() {
    let mut case = Case::three();
    case.positions = vec![0, 1, 4];
    assert_eq!(case.constraints(), Err(Position));
    assert_eq!(case.prove(), Err(Position));
    assert!(case.nothing_written());
}

// The second bit of z(i,j) is 1 when position i and j are both even or both odd.
// Positions 2 0 1 have two even ones and an odd one: column 1 has X once, the
// others have it twice, which is 0. The row of H has 2 X, from x(1) = 2.
#[test]
fn three_constraints() {
    let mut case = Case::three();
    assert_eq!(case.constraints(), Ok(()));
    assert_eq!(case.t_out, [1, 1, 1, 1, 0, 1]);
    assert_eq!(
        case.polynomials,
        words(&[0, 0, 0, 0, 1, 0, 0, 0, 0, 0, 2, 0])
    );
}

// X and 2 X at 2.
#[test]
fn three_values() {
    let mut case = Case::three();
    assert_eq!(case.values(), Ok(()));
    assert_eq!(case.values, words(&[0, 2, 0, 4]));
}

// f is 4 X + 2 X = 6 X, the mask is 16 X + 8, so a is 8 + 22 X.
#[test]
fn three_prove() {
    let mut case = Case::three();
    assert_eq!(case.prove(), Ok(()));
    assert_eq!(case.t_out, [1, 1, 1, 1, 0, 1]);
    assert_eq!(case.a_out, words(&[8, 22]));
}

// a at 2 is 8 + 44 = 36; the weighted sum is 8 + 4 = 12, the mask number is 40.
#[test]
fn three_verify() {
    let mut case = Case::three();
    assert_eq!(case.verify(), Ok(Verdict::Accepted));
    for index in 0..case.a.len() {
        case.a[index] ^= 1;
        assert_eq!(case.verify(), Ok(Verdict::Rejected), "word {index}");
        case.a[index] ^= 1;
    }
    case.masks[0] ^= 1;
    assert_eq!(case.verify(), Ok(Verdict::Rejected));
}

#[test]
fn key_a_with_a_target() {
    let mut case = Case::key_a_with_target();
    assert_eq!(case.constraints(), Ok(()));
    assert_eq!(case.t_out, [0, 0]);
    assert_eq!(case.polynomials, words(&[5, 0, 5, 0, 10, 0]));
    assert_eq!(case.values(), Ok(()));
    assert_eq!(case.values, words(&[5, 5, 10]));
    assert_eq!(case.prove(), Ok(()));
    assert_eq!(case.a_out, words(&[5]));
    assert_eq!(case.verify(), Ok(Verdict::Accepted));
    // without the target, or with another one, the same order does not solve
    // the key, and the proof is rejected
    for y in [0, 4, 2047] {
        let mut case = Case {
            y: vec![y],
            ..Case::key_a_with_target()
        };
        assert_eq!(case.prove(), Err(TopCoefficient));
        assert!(case.nothing_written());
        assert_eq!(case.constraints(), Ok(()));
        assert_eq!(case.tops(), [0, 0, 5 ^ y]);
        assert_eq!(case.verify(), Ok(Verdict::Rejected));
    }
    // the order that solves key A without a target
    let mut case = Case {
        y: vec![5],
        ..Case::key_a()
    };
    assert_eq!(case.prove(), Err(TopCoefficient));
    assert!(case.nothing_written());
    assert_eq!(case.verify(), Ok(Verdict::Rejected));
}

// f is 4 X + 4 X = 0, so a is the mask. At 2 polynomial 3 is 8, the weighted sum is
// 8 + 8 = 0, and a is 8 + 32 = 40, the mask number.
#[test]
fn three_with_a_target() {
    let mut case = Case::three_with_target();
    assert_eq!(case.constraints(), Ok(()));
    assert_eq!(
        case.polynomials,
        words(&[0, 0, 0, 0, 1, 0, 0, 0, 0, 0, 4, 0])
    );
    assert_eq!(case.values(), Ok(()));
    assert_eq!(case.values, words(&[0, 2, 0, 8]));
    assert_eq!(case.prove(), Ok(()));
    assert_eq!(case.a_out, words(&[8, 16]));
    assert_eq!(case.verify(), Ok(Verdict::Accepted));
    case.y = vec![7];
    assert_eq!(case.verify(), Ok(Verdict::Rejected));
}

#[test]
fn r_and_s_are_not_exchanged() {
    let mut case = Case::three();
    (case.r, case.s) = (case.s, case.r);
    assert_eq!(case.prove(), Ok(()));
    assert_eq!(case.a_out, words(&[16, 6 ^ 8]));
}

#[test]
fn the_largest_keys() {
    for m in [1, 27, 63] {
        let mut case = Case::zero_64(m);
        assert_eq!(case.constraints(), Ok(()));
        assert_eq!(case.t_out, case.t);
        assert!(case.polynomials.iter().all(|word| *word == 0));
        assert_eq!(case.values(), Ok(()));
        assert!(case.values.iter().all(|word| *word == 0));
        case.t_out.fill(common::BYTE);
        assert_eq!(case.prove(), Ok(()));
        assert_eq!(case.t_out, case.t);
        assert!(case.a_out.iter().all(|word| *word == 0));
        assert_eq!(case.verify(), Ok(Verdict::Accepted));
        case.a[71] = 1;
        assert_eq!(case.verify(), Ok(Verdict::Accepted), "at challenge zero");
        case.a[0] = 1;
        assert_eq!(case.verify(), Ok(Verdict::Rejected));
    }
}

#[test]
fn the_limit_2047_passes() {
    let mut case = Case::key_a();
    case.v[23] = 2047;
    assert_eq!(case.prove(), Ok(()));
    let largest: [fn(&mut Case); 7] = [
        |case| case.h[0] = 2047,
        |case| case.x[0] = 2047,
        |case| case.y[0] = 2047,
        |case| case.q[0] = 2047,
        |case| case.delta[0] = 2047,
        |case| case.alpha[0] = 2047,
        |case| case.a[0] = 2047,
    ];
    for set in largest {
        let mut case = Case::key_a();
        set(&mut case);
        assert!(case.verify().is_ok());
    }
}
