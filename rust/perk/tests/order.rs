//! Quick looks at positions: every list of a small n against a sort, an order with
//! one position changed at every n, the refusals, the numbers of the C function, and
//! what the functions of a key answer for the same positions.

mod common;

use common::Case;
use perk::Refusal::{self, Position, SizeN, SliceLength, SpareCode, TopCoefficient};
use perk::{c, digits, quick_look, Look};

/// The index of the first offender, by sorting: the positions up to it are the first
/// that, sorted, have one twice or end with no column.
fn by_sort(n: usize, positions: &[u8]) -> Look {
    for index in 0..positions.len() {
        let mut sorted = positions[..=index].to_vec();
        sorted.sort();
        let twice = sorted.windows(2).any(|pair| pair[0] == pair[1]);
        if twice || usize::from(sorted[index]) >= n {
            return Look::Offender(index);
        }
    }
    Look::Well
}

/// Calls `test` with every list of n of these numbers; how many there are.
fn for_each_list(n: usize, numbers: &[u8], mut test: impl FnMut(&[u8])) -> usize {
    let count = numbers.len().pow(n as u32);
    for mut code in 0..count {
        let mut list = vec![0; n];
        for position in &mut list {
            *position = numbers[code % numbers.len()];
            code /= numbers.len();
        }
        test(&list);
    }
    count
}

#[test]
fn by_hand() {
    for (positions, stated) in [
        (&[2, 0, 1][..], Look::Well),
        // 2 came before; 3 is a spare code; 5 is too large
        (&[2, 0, 2], Look::Offender(2)),
        (&[2, 3, 0], Look::Offender(1)),
        (&[2, 0, 5], Look::Offender(2)),
        (&[1, 1], Look::Offender(1)),
        // of two offenders the first, of either kind
        (&[4, 0, 0], Look::Offender(0)),
        (&[1, 1, 3], Look::Offender(1)),
        (&[1, 1, 1], Look::Offender(1)),
        // n = 5: the later of two that are far apart
        (&[3, 1, 0, 2, 3], Look::Offender(4)),
        (&[3, 1, 0, 2, 4], Look::Well),
    ] {
        let found = quick_look(positions.len(), positions);
        assert_eq!(found, Ok(stated), "{positions:?}");
    }
}

// All is well exactly where the sorted positions are 0 to n - 1.
#[test]
fn every_list_of_a_small_n() {
    let all: Vec<u8> = (0..=255).collect();
    // columns, spare codes where there are any, and some that are too large
    let some = [0, 1, 2, 3, 4, 5, 8, 64, 255];
    let sizes = [
        (2, &all[..], 2),
        (3, &some, 6),
        (4, &some, 24),
        (5, &some, 120),
    ];
    for (n, numbers, orders) in sizes {
        let mut well = 0;
        let lists = for_each_list(n, numbers, |list| {
            assert_eq!(quick_look(n, list), Ok(by_sort(n, list)), "{list:?}");
            let mut sorted = list.to_vec();
            sorted.sort();
            let order = sorted.into_iter().map(usize::from).eq(0..n);
            assert_eq!(quick_look(n, list) == Ok(Look::Well), order, "{list:?}");
            well += usize::from(order);
        });
        assert_eq!((lists, well), (numbers.len().pow(n as u32), orders));
    }
}

// A column from further on in 0, 1, .. is met again at its own place; any other
// number that is not the one there is an offender where it stands.
#[test]
fn one_position_changed_at_every_n() {
    for n in 2..=64 {
        let order: Vec<u8> = (0..n as u8).collect();
        for index in 0..n {
            for number in 0..=255 {
                let mut positions = order.clone();
                positions[index] = number;
                let offender = match usize::from(number) {
                    number if number == index => Look::Well,
                    number if index < number && number < n => Look::Offender(number),
                    _ => Look::Offender(index),
                };
                let found = quick_look(n, &positions);
                assert_eq!(found, Ok(offender), "n {n}, {number} at {index}");
            }
        }
    }
}

#[test]
fn refusals_in_their_order() {
    let mut sizes = vec![0, 1, 65, 66, 128, 256, 258, usize::MAX, usize::MAX / 2 + 1];
    sizes.extend([(1 << 32) + 3, (1 << 63) + 3]);
    for n in sizes {
        // with lengths that are n, where memory has them, and with others
        for length in [0, 1, 2, 3, 64, 65, 66, 128] {
            for number in [0, 1, 255] {
                assert_eq!(quick_look(n, &vec![number; length]), Err(SizeN), "{n}");
            }
        }
    }
    for n in 2..=64 {
        for length in (0..=130).filter(|length| *length != n) {
            let positions: Vec<u8> = (0..length as u8).collect();
            assert_eq!(quick_look(n, &positions), Err(SliceLength), "{n} {length}");
            let found = quick_look(n, &vec![255; length]);
            assert_eq!(found, Err(SliceLength), "{n} {length}");
        }
    }
}

/// The number that the C function answers, and the index after it.
fn of_c(n: usize, positions: &[u8], mut index: usize) -> (u32, usize) {
    let (start, len) = (positions.as_ptr(), positions.len());
    // SAFETY: the pointer and the length are those of one slice, and `index` is a
    // variable of this function, which no other overlaps.
    let number = unsafe { c::perk_quick_look(n, start, len, &mut index) };
    (number, index)
}

// 255 is an offender here, and what it is of other functions, rejected, does not
// matter; index is written with it alone.
#[test]
fn numbers_of_the_c_function() {
    for before in [0, 1, 2, 3, 7, usize::MAX] {
        assert_eq!(of_c(3, &[2, 0, 1], before), (0, before));
        assert_eq!(of_c(3, &[3, 0, 1], before), (255, 0));
        assert_eq!(of_c(3, &[2, 2, 1], before), (255, 1));
        assert_eq!(of_c(3, &[2, 0, 255], before), (255, 2));
        assert_eq!(of_c(65, &[2, 0, 1], before), (1, before));
        assert_eq!(of_c(1, &[0], before), (1, before));
        assert_eq!(of_c(3, &[2, 0], before), (3, before));
        assert_eq!(of_c(3, &[2, 0, 1, 255], before), (3, before));
    }
    let numbers = Refusal::ALL.map(Refusal::number);
    assert!(!numbers.contains(&0) && !numbers.contains(&255));
}

// For a key with n = 3: a look finds all well exactly where constraints takes the
// positions and writes tops of zero for the three columns.
#[test]
fn as_the_tops_of_the_columns() {
    let (mut well, mut tops_not_zero, mut too_large) = (0, 0, 0);
    for_each_list(3, &[0, 1, 2, 3, 4, 5], |positions| {
        let mut case = Case::three();
        case.positions = positions.to_vec();
        let stated = match case.constraints() {
            Ok(()) => case.tops()[..3] == [0; 3],
            Err(refusal) => {
                assert_eq!(refusal, Position);
                too_large += 1;
                false
            }
        };
        let found = quick_look(3, positions).expect("a look");
        assert_eq!(found == Look::Well, stated, "{positions:?}");
        well += usize::from(stated);
        tops_not_zero += usize::from(!stated);
    });
    // 6 of 4^3 lists below 2^d, and 6^3 - 4^3 with one that is not
    assert_eq!((well, tops_not_zero, too_large), (6, 210, 152));
}

// Every order solves this key, so that prove refuses exactly what has an offender.
#[test]
fn as_prove_refuses() {
    let most = 1 << digits(3);
    for_each_list(3, &[0, 1, 2, 3, 4, 255], |positions| {
        let mut case = Case::three();
        case.positions = positions.to_vec();
        let stated = match quick_look(3, positions).expect("a look") {
            Look::Well => Ok(()),
            Look::Offender(_) if positions.iter().any(|p| *p >= most) => Err(Position),
            Look::Offender(_) if positions.iter().any(|p| *p >= 3) => Err(SpareCode),
            Look::Offender(index) => {
                assert!(positions[..index].contains(&positions[index]));
                Err(TopCoefficient)
            }
        };
        assert_eq!(case.prove(), stated, "{positions:?}");
    });
}
