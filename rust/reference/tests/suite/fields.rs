//! The fields F and K of both levels: laws, rules, and a second way to
//! multiply.

use crate::element;
use reference::large_field::{Large, K};
use reference::level::{Level, FIRST, SECOND};
use reference::samples::Generator;
use reference::small_field::Small;
use reference::{product, sum};
use std::fmt::Debug;
use std::ops::{Add, Mul};

/// Each of these as a test of the first and of the second level.
macro_rules! at_both_levels {
    ($($name:ident),*) => {
        $(mod $name {
            #[test]
            fn first() {
                super::$name::<{ super::FIRST }>();
            }

            #[test]
            fn second() {
                super::$name::<{ super::SECOND }>();
            }
        })*
    };
}

at_both_levels!(
    numbers_of_f,
    product_of_f_on_all_pairs,
    laws_of_f,
    every_element_of_f_is_a_root_of_the_field_equation,
    every_nonzero_element_of_f_has_an_inverse,
    laws_of_k,
    f_inside_k,
    powers_of_y,
    product_of_k_by_another_way,
    elements_of_k_are_roots_of_the_field_equation,
    the_rule_of_k_is_irreducible
);

fn f<const LEVEL: usize>(word: u16) -> Small<LEVEL> {
    Small::from_word(word).expect("a word up to the limit")
}

/// The product in F by another way: the powers of z one after another, each
/// reduced at once.
pub fn product_by_doubling<const LEVEL: usize>(a: u16, b: u16) -> u16 {
    let Level { width, tap, .. } = Level::of(LEVEL);
    let mut multiple = a;
    let mut result = 0;
    for bit in 0..width {
        if (b >> bit) & 1 == 1 {
            result ^= multiple;
        }
        multiple <<= 1;
        if multiple >> width == 1 {
            multiple ^= (1 << width) | (1 << tap) | 1;
        }
    }
    result
}

#[test]
fn limits() {
    assert_eq!(Small::<1>::LARGEST, 2047);
    assert_eq!(Small::<2>::LARGEST, 4095);
    assert_eq!(Large::<1>::COORDINATES, 12);
    assert_eq!(Large::<2>::COORDINATES, 23);
}

/// z^11 = z^2 + 1 and Y^12 = Y^3 + 1; z^12 = z^3 + 1 and Y^23 = Y^5 + 1.
#[test]
fn rules() {
    assert_eq!(f::<FIRST>(1 << 10) * f(2), f(0b101));
    assert_eq!(f::<SECOND>(1 << 11) * f(2), f(0b1001));
    let y = Large::<1>::Y;
    assert_eq!(y.power(11) * y, y.power(3) + Large::ONE);
    let y = Large::<2>::Y;
    assert_eq!(y.power(22) * y, y.power(5) + Large::ONE);
}

fn numbers_of_f<const LEVEL: usize>() {
    let limit = Small::<LEVEL>::LARGEST;
    assert_eq!(usize::from(limit) + 1, 1 << Level::of(LEVEL).width);
    assert_eq!(
        Small::<LEVEL>::from_word(limit).map(Small::word),
        Some(limit)
    );
    assert_eq!(Small::<LEVEL>::from_word(limit + 1), None);
    assert_eq!(Small::<LEVEL>::from_word(u16::MAX), None);
    assert_eq!(Small::<LEVEL>::ZERO.word(), 0);
    assert_eq!(Small::<LEVEL>::ONE.word(), 1);
}

fn product_of_f_on_all_pairs<const LEVEL: usize>() {
    for a in 0..=Small::<LEVEL>::LARGEST {
        for b in 0..=Small::<LEVEL>::LARGEST {
            let product = (f::<LEVEL>(a) * f(b)).word();
            assert_eq!(product, product_by_doubling::<LEVEL>(a, b), "{a} times {b}");
        }
    }
}

/// The laws of a field of characteristic two, on drawn elements.
fn laws<T>(rounds: usize, zero: T, one: T, mut draw: impl FnMut() -> T)
where
    T: Copy + Debug + PartialEq + Add<Output = T> + Mul<Output = T>,
{
    for _ in 0..rounds {
        let (a, b, c) = (draw(), draw(), draw());
        assert_eq!(a + b, b + a);
        assert_eq!((a + b) + c, a + (b + c));
        assert_eq!(a + zero, a);
        assert_eq!(a + a, zero);
        assert_eq!(a * b, b * a);
        assert_eq!((a * b) * c, a * (b * c));
        assert_eq!(a * (b + c), a * b + a * c);
        assert_eq!(a * one, a);
        assert_eq!(a * zero, zero);
    }
    assert_ne!(one, zero);
}

fn laws_of_f<const LEVEL: usize>() {
    let mut generator = Generator::new(1);
    let draw = || generator.small::<LEVEL>();
    laws(20_000, Small::ZERO, Small::ONE, draw);
}

/// Each is its own power 2^width.
fn every_element_of_f_is_a_root_of_the_field_equation<const LEVEL: usize>() {
    for word in 0..=Small::<LEVEL>::LARGEST {
        let mut power = f::<LEVEL>(word);
        for _ in 0..Level::of(LEVEL).width {
            power = power * power;
        }
        assert_eq!(power, f(word));
    }
}

/// So the rule of F is irreducible.
fn every_nonzero_element_of_f_has_an_inverse<const LEVEL: usize>() {
    let largest = Small::<LEVEL>::LARGEST;
    for word in 1..=largest {
        // The order of the group is the largest number.
        let mut inverse = Small::ONE;
        for _ in 0..largest - 1 {
            inverse = inverse * f::<LEVEL>(word);
        }
        assert_eq!(inverse * f(word), Small::ONE, "{word}");
    }
}

fn laws_of_k<const LEVEL: usize>() {
    let mut generator = Generator::new(2);
    let draw = || generator.large::<LEVEL>();
    laws(3_000, Large::ZERO, Large::ONE, draw);
}

fn f_inside_k<const LEVEL: usize>() {
    let mut generator = Generator::new(3);
    let inside = Large::<LEVEL>::from_small;
    for _ in 0..5_000 {
        let (a, b) = (generator.small(), generator.small());
        assert_eq!(inside(a) + inside(b), inside(a + b));
        assert_eq!(inside(a) * inside(b), inside(a * b));
        assert_eq!(inside(a) == inside(b), a == b);
        assert_eq!(inside(a).words()[0], a.word());
        // An element of F multiplies each coordinate.
        let c = generator.large();
        let words = (inside(a) * c).words();
        for (word, coordinate) in words.iter().zip(c.words()) {
            assert_eq!(*word, product_by_doubling::<LEVEL>(a.word(), coordinate));
        }
    }
    assert_eq!(inside(Small::ZERO), Large::ZERO);
    assert_eq!(inside(Small::ONE), Large::ONE);
    assert_eq!(Large::<LEVEL>::from_bit(false), Large::ZERO);
    assert_eq!(Large::<LEVEL>::from_bit(true), Large::ONE);
}

fn powers_of_y<const LEVEL: usize>() {
    let Level {
        coordinates, power, ..
    } = Level::of(LEVEL);
    let y = Large::<LEVEL>::Y;
    for i in 0..coordinates {
        let mut words = vec![0; coordinates];
        words[i] = 1;
        assert_eq!(y.power(i).words(), words);
    }
    assert_eq!(y.power(coordinates), y.power(power) + Large::ONE);
    assert_eq!(Large::<LEVEL>::ZERO.power(0), Large::ONE);
    assert_eq!(Large::<LEVEL>::ZERO.power(1), Large::ZERO);
}

/// The product in K by another way: the powers of Y one after another, each
/// reduced at once.
pub fn product_by_powers_of_y<const LEVEL: usize>(
    a: Large<LEVEL>,
    b: Large<LEVEL>,
) -> Large<LEVEL> {
    let Level {
        coordinates, power, ..
    } = Level::of(LEVEL);
    let mut multiple = a.words();
    let mut result = vec![0; coordinates];
    for coordinate in b.words() {
        for i in 0..coordinates {
            result[i] ^= product_by_doubling::<LEVEL>(multiple[i], coordinate);
        }
        multiple.rotate_right(1);
        multiple[power] ^= multiple[0];
    }
    Large::from_words(&result).expect("coordinates up to the limit")
}

fn product_of_k_by_another_way<const LEVEL: usize>() {
    let mut generator = Generator::new(4);
    for _ in 0..5_000 {
        let (a, b) = (generator.large::<LEVEL>(), generator.large());
        assert_eq!(a * b, product_by_powers_of_y(a, b));
    }
}

/// The number of digits of an element of K, whose field has 2^digits elements.
fn digits<const LEVEL: usize>() -> usize {
    Level::of(LEVEL).width * Level::of(LEVEL).coordinates
}

/// a to the power 2^count.
fn squared<const LEVEL: usize>(a: Large<LEVEL>, count: usize) -> Large<LEVEL> {
    (0..count).fold(a, |power, _| power * power)
}

fn elements_of_k_are_roots_of_the_field_equation<const LEVEL: usize>() {
    // In a field of 2^digits elements each is its own power 2^digits.
    let mut generator = Generator::new(5);
    for _ in 0..100 {
        let a = generator.large::<LEVEL>();
        let mut power = a;
        for squarings in 1..=digits::<LEVEL>() {
            power = power * power;
            assert!(
                squarings == digits::<LEVEL>() || power != a,
                "in a smaller field"
            );
        }
        assert_eq!(power, a);
    }
}

/// Rabin's test over F, with q elements: Y is its own power q^coordinates, and
/// for each prime p that divides the number of coordinates its power
/// q^(coordinates / p) plus Y is a unit.
fn the_rule_of_k_is_irreducible<const LEVEL: usize>() {
    let Level {
        width, coordinates, ..
    } = Level::of(LEVEL);
    let y = Large::<LEVEL>::Y;
    assert_eq!(squared(y, width * coordinates), y);
    let divides = |p: &usize| coordinates.is_multiple_of(*p);
    let prime = |p: &usize| (2..*p).all(|i| !p.is_multiple_of(i));
    for p in (2..=coordinates).filter(divides).filter(prime) {
        let difference = squared(y, width * (coordinates / p)) + y;
        // The power 2^digits - 1 is the product of all powers 2^i.
        let mut power = difference;
        let mut product = Large::ONE;
        for _ in 0..digits::<LEVEL>() {
            product = product * power;
            power = power * power;
        }
        assert_eq!(product, Large::ONE, "{p}");
    }
}

#[test]
fn entries_sum_and_product() {
    let mut generator = Generator::new(6);
    for _ in 0..1_000 {
        let (a, b): (K, K) = (generator.element(), generator.element());
        let mut out = element(9);
        assert_eq!(sum(&a.words(), &b.words(), &mut out), Ok(()));
        assert_eq!(out, (a + b).words());
        assert_eq!(product(&a.words(), &b.words(), &mut out), Ok(()));
        assert_eq!(out, product_by_powers_of_y(a, b).words());
    }
}
