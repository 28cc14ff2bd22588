//! The twelve examples of the specification, its edges, and the file of key A.

use crate::{bytes_of, constraints_of, element, large, tops, values_of, verdict_of};
use reference::constraint::z;
use reference::key::{digits, number_of_digits};
use reference::large_field::K;
use reference::package::{field_of, join, package_part, tag, WrittenField};
use reference::samples::{elements, Sample};
use reference::small_field::F;
use reference::{
    check, perkcheck_line, product, read_check_file, read_package, sum, Contents, Refusal, Verdict,
};

fn product_in_f(a: u16, b: u16) -> u16 {
    let (a, b) = (F::from_word(a).unwrap(), F::from_word(b).unwrap());
    (a * b).word()
}

#[test]
fn example_01_1024_times_2() {
    assert_eq!(product_in_f(1024, 2), 5);
}

#[test]
fn example_02_1024_times_1024() {
    assert_eq!(product_in_f(1024, 1024), 517);
}

#[test]
fn example_03_2047_times_2() {
    assert_eq!(product_in_f(2047, 2), 2043);
}

/// The words with ones in these coordinates.
fn ones(coordinates: &[usize]) -> [u16; 12] {
    let mut words = [0; 12];
    for &i in coordinates {
        words[i] = 1;
    }
    words
}

#[test]
fn example_04_y_11_times_y() {
    let mut out = [9; 12];
    assert_eq!(product(&ones(&[11]), &ones(&[1]), &mut out), Ok(()));
    assert_eq!(out, ones(&[0, 3]));
    assert_eq!(K::Y.power(11) * K::Y, K::from_words(&out).unwrap());
}

#[test]
fn example_05_y_11_times_y_11() {
    let mut out = [9; 12];
    assert_eq!(product(&ones(&[11]), &ones(&[11]), &mut out), Ok(()));
    assert_eq!(out, ones(&[1, 4, 10]));
}

#[test]
fn example_06_key_a_polynomials() {
    let (t, polynomials) = constraints_of(&Sample::key_a());
    assert_eq!(t, [1, 1]);
    let lowest: Vec<K> = polynomials.iter().map(|polynomial| polynomial[0]).collect();
    assert_eq!(lowest, large(&elements(&[5, 5, 10])));
    assert_eq!(tops(&polynomials), [0, 0, 0]);
}

#[test]
fn example_07_key_a_values() {
    let sample = Sample::key_a();
    assert_eq!(sample.delta, element(2));
    assert_eq!(sample.q, elements(&[3, 4]));
    assert_eq!(values_of(&sample, &[1, 1]), large(&elements(&[5, 5, 10])));
}

#[test]
fn example_08_key_a_proof() {
    let sample = Sample::key_a();
    let (t, a) = sample.proof().expect("key A is solved");
    assert_eq!((t, a), (vec![1, 1], element(5)));
    assert_eq!(verdict_of(&sample, &[1, 1], &element(5)), Verdict::Accepted);
    assert_eq!(verdict_of(&sample, &[1, 1], &element(4)), Verdict::Rejected);
}

/// The key with n = 3, other material and these positions.
fn three(positions: &[u8]) -> Sample {
    let mut sample = Sample {
        positions: positions.to_vec(),
        u: vec![1, 0, 0, 1, 1, 1],
        v: elements(&[3, 5, 7, 11, 13, 17]),
        r: element(19),
        s: element(23),
        alpha: elements(&[29, 31, 37, 41]),
        ..Sample::three()
    };
    sample.make_honest();
    sample
}

#[test]
fn example_09_positions_1_1_1() {
    let (_, polynomials) = constraints_of(&three(&[1, 1, 1]));
    assert_eq!(tops(&polynomials)[..3], [1, 0, 1]);
}

#[test]
fn example_10_positions_0_1_3() {
    let sample = three(&[0, 1, 3]);
    let (_, polynomials) = constraints_of(&sample);
    assert_eq!(tops(&polynomials), [0, 0, 1, 0]);
    assert_eq!(sample.proof(), Err(Refusal::SpareCode));
    assert_eq!(Refusal::SpareCode.number(), 16);
    // The same key with the third position put right is solved.
    assert!(three(&[0, 1, 2]).proof().is_ok());
}

#[test]
fn example_11_key_a_positions_1_0() {
    let mut sample = Sample::key_a();
    sample.positions = vec![1, 0];
    let (_, polynomials) = constraints_of(&sample);
    assert_eq!(tops(&polynomials), [0, 0, 5]);
    assert_eq!(sample.proof(), Err(Refusal::TopCoefficient));
    assert_eq!(Refusal::TopCoefficient.number(), 8);
}

#[test]
fn example_12_positions_0_1_4() {
    let sample = three(&[0, 1, 4]);
    assert_eq!(sample.proof(), Err(Refusal::Position));
    assert_eq!(Refusal::Position.number(), 7);
    assert_eq!(sample.constraints(), Err(Refusal::Position));
}

/// Key A with y = 5 and the positions 1 0, by hand: x' = 2 1, and H x' = 4 + 1 = 5.
///
/// - w = (1 0) and u = (1 0), so t = (0 0). Row 0 is 1, X + 1; row 1 is X + 4, 4.
/// - Polynomials 0 and 1 are 5. x'(0) = 1 + 2 (X + 1) = 2 X + 3, x'(1) = (X + 4) +
///   8 = X + 12, and polynomial 2 is 2 (2 X + 3) + (X + 12) + 5 X = 10.
/// - α = (1, 2, 1), so a = 5 + 10 + 10 = 5.
/// - Δ = 2 and q = (3, 4). Row 0 is 1, 3; row 1 is 6, 4. The values are 1 + 6 + 2 =
///   5, 3 + 4 + 2 = 5 and 2 (1 + 6) + (6 + 8) + 5 Δ = 10.
#[test]
fn key_a_with_a_target() {
    let sample = Sample::key_a_with_target();
    let (t, polynomials) = constraints_of(&sample);
    assert_eq!(t, [0, 0]);
    let stated = elements(&[5, 0, 5, 0, 10, 0]);
    assert_eq!(polynomials.concat(), large(&stated));
    assert_eq!(sample.proof(), Ok((vec![0, 0], element(5))));
    assert_eq!(values_of(&sample, &t), large(&elements(&[5, 5, 10])));
    assert_eq!(verdict_of(&sample, &t, &element(5)), Verdict::Accepted);
    assert_eq!(verdict_of(&sample, &t, &element(4)), Verdict::Rejected);
    // The order that solves key A without a target, and this one without y.
    let other = Sample {
        positions: vec![0, 1],
        ..sample.clone()
    };
    assert_eq!(tops(&constraints_of(&other).1), [0, 0, 5]);
    assert_eq!(other.proof(), Err(Refusal::TopCoefficient));
    let other = Sample {
        y: vec![0],
        ..sample
    };
    assert_eq!(tops(&constraints_of(&other).1), [0, 0, 5]);
    assert_eq!(verdict_of(&other, &t, &element(5)), Verdict::Rejected);
}

/// n = 3 with y = 1 and the positions 1 0 2, by hand: v is (1, 2), (3, 4), (5, 6),
/// u is zero, and q is v.
///
/// - Row 0, digits 0 1: 2 X + 2, X^2 + 3 X + 2, 2.
/// - Row 1, digits 0 0: X^2 + 7 X + 12, 4 X + 12, 3 X + 12.
/// - Row 2, digits 1 0: 5 X + 30, 30, X^2 + 3 X + 30.
///
/// Columns: 16, 7 X + 16, 16. x'(0) is (X^2 + 3 X + 2) + 2 2, and polynomial 3 is
/// that plus X^2: 3 X + 6. α = (1, 2, 3, 4): f = 16 + (14 X + 32) + 48 + (12 X + 24)
/// = 2 X + 24, the mask is 8 X + 7, and a = (31, 10). At Δ = 2 the values are 16,
/// 30, 16 and 0, and the mask number is 23.
#[test]
fn three_with_a_target() {
    let sample = Sample::three_with_target();
    let (t, polynomials) = constraints_of(&sample);
    assert_eq!(t, [0, 1, 0, 0, 1, 0]);
    let stated = elements(&[16, 0, 0, 16, 7, 0, 16, 0, 0, 6, 3, 0]);
    assert_eq!(polynomials.concat(), large(&stated));
    let a = elements(&[31, 10]);
    assert_eq!(sample.proof(), Ok((t.clone(), a.clone())));
    assert_eq!(values_of(&sample, &t), large(&elements(&[16, 30, 16, 0])));
    assert_eq!(sample.masks, element(23));
    assert_eq!(verdict_of(&sample, &t, &a), Verdict::Accepted);
    let other = elements(&[31, 11]);
    assert_eq!(verdict_of(&sample, &t, &other), Verdict::Rejected);
}

/// The file of key A with y = 5: that of key A with field 04 after 03 and t = 0 0.
#[test]
fn file_of_key_a_with_a_target() {
    let file = Sample::key_a_with_target().check_file().unwrap();
    let mut stated = key_a_of_the_specification();
    let t = 5 + 7 + 7 + 5 + 3;
    stated[t..t + 2].fill(0);
    stated.splice(19..19, [4, 0, 2, 0, 5]);
    assert_eq!(file, stated);
    assert_eq!(perkcheck_line(&file), "serial 7 n 2 m 1 accepted\n");
    let without = [&file[..19], &file[24..]].concat();
    assert_eq!(perkcheck_line(&without), "serial 7 n 2 m 1 rejected\n");
    let mut zero = file;
    zero[23] = 0;
    assert_eq!(perkcheck_line(&zero), "refused 14\n");
}

/// The file of key A as the specification writes it.
fn key_a_of_the_specification() -> Vec<u8> {
    let text = "01 0002 0201  02 0004 0002 0001  03 0004 0001 0002  05 0002 0007 \
                06 0002 0101  07 0018 0005 0..  11 0030 0003 0.. 0004 0..  12 0000 \
                13 0018 0002 0..  14 0048 0001 0.. 0002 0.. 0001 0..";
    bytes_of(text)
}

/// The fields of that file.
fn fields_of_key_a() -> Vec<WrittenField> {
    let fields = Sample::key_a().fields().expect("key A is solved");
    assert_eq!(join(&fields), key_a_of_the_specification());
    fields
}

/// The line for that file with a change of the field with this tag.
fn line_with(tag: u8, change: impl FnOnce(&mut Vec<u8>)) -> String {
    let mut fields = fields_of_key_a();
    change(&mut field_of(&mut fields, tag).content);
    perkcheck_line(&join(&fields))
}

#[test]
fn file_of_key_a() {
    let file = key_a_of_the_specification();
    assert_eq!(file.len(), 212);
    assert_eq!(Sample::key_a().check_file().unwrap(), file);
    let contents = Contents {
        n: 2,
        m: 1,
        serial: 7,
    };
    assert_eq!(read_check_file(&file), Ok(contents));
    assert_eq!(check(&file), Ok((contents, Verdict::Accepted)));
    assert_eq!(perkcheck_line(&file), "serial 7 n 2 m 1 accepted\n");
    let line = line_with(tag::A, |a| {
        assert_eq!(a[..2], [0, 5]);
        a[1] = 4;
    });
    assert_eq!(line, "serial 7 n 2 m 1 rejected\n");
    let package = join(package_part(&fields_of_key_a()));
    assert_eq!(package, file[..56]);
    assert_eq!(read_package(&package), Ok(contents));
    assert_eq!(read_package(&file), Err(Refusal::BytesFollow));
    assert_eq!(read_check_file(&package), Err(Refusal::BytesMissing));
}

#[test]
fn edge_sizes() {
    let line = |n: u8, m: u8| line_with(tag::SIZES, |sizes| *sizes = vec![n, m]);
    for n in [0, 1, 65] {
        assert_eq!(line(n, 1), "refused 1\n");
    }
    // n = 64 passes, and then the length of H is not the stated one.
    assert_eq!(line(64, 1), "refused 11\n");
    assert_eq!(line(2, 2), "refused 2\n");
    assert_eq!(line(2, 0), "refused 2\n");
}

#[test]
fn edge_words() {
    let line = |word: u16| line_with(tag::H, |h| h[..2].copy_from_slice(&word.to_be_bytes()));
    assert!(line(2047).starts_with("serial 7 "));
    assert_eq!(line(2048), "refused 4\n");
    let mut out = element(9);
    assert_eq!(sum(&element(2047), &element(1), &mut out), Ok(()));
    assert_eq!(out, element(2046));
    let refusal = sum(&element(2048), &element(1), &mut out);
    assert_eq!(refusal, Err(Refusal::Coordinate));
    assert_eq!(
        (Refusal::KeyElement.number(), Refusal::Coordinate.number()),
        (4, 6)
    );
    assert_eq!(out, element(2046));
}

#[test]
fn edge_empty_file() {
    assert_eq!(perkcheck_line(&[]), "refused 9\n");
    assert_eq!(read_package(&[]), Err(Refusal::BytesMissing));
}

#[test]
fn digits_highest_first() {
    assert_eq!(digits(3, 3), [false, true, true]);
    assert_eq!(digits(4, 3), [true, false, false]);
    for (n, d) in [(2, 1), (3, 2), (4, 2), (5, 3), (8, 3), (9, 4), (64, 6)] {
        assert_eq!(number_of_digits(n - 1), d);
    }
    // Without mask bits t is the digits of the positions.
    let mut sample = three(&[1, 2, 3]);
    sample.u.fill(0);
    sample.make_honest();
    assert_eq!(constraints_of(&sample).0, [0, 1, 1, 0, 1, 1]);
    sample.u = vec![1, 0, 0, 0, 0, 1];
    assert_eq!(constraints_of(&sample).0, [1, 1, 1, 0, 1, 0]);
}

/// z(i,j) by hand for d = 2, position 1, that is (0 1), and v = (2, 4): b is 1
/// where the digits of position and column agree.
#[test]
fn coefficients_of_one_row() {
    let v = large(&elements(&[2, 4]));
    let row = [false, true];
    // (X + 2) 4, (X + 2)(X + 4), 2 times 4, 2 (X + 4).
    let stated = [[8, 4, 0], [8, 6, 1], [8, 0, 0], [8, 2, 0]];
    for (j, stated) in stated.iter().enumerate() {
        let z = z(&row, &v, j);
        let words: Vec<u16> = (0..3)
            .map(|power| z.coefficient(power).words()[0])
            .collect();
        assert_eq!(words, stated, "column {j}");
    }
}

#[test]
fn numbers_of_the_refusals() {
    let numbers = Refusal::ALL.map(Refusal::number);
    let stated = [
        1, 2, 3, 4, 5, 6, 7, 8, 9, 10, 11, 12, 13, 14, 15, 16, 19, 20, 21, 22,
    ];
    assert_eq!(numbers, stated);
}

/// The lines of `examples_run` that the specification states.
#[test]
fn text_of_examples_run() {
    let text = reference::examples::text();
    let mut lines = text.lines();
    for line in [
        "1024 times 2: done 5",
        "1024 times 1024: done 517",
        "2047 times 2: done 2043",
        "Y^11 times Y: done 1+1Y^3",
        "Y^11 times Y^11: done 0+1Y^1+1Y^4+1Y^10",
        "key A, positions 0 1, constraints: done, t 1 1, polynomials 5 0 5 0 10 0, tops 0 0 0",
        "key A, positions 0 1, prove: done, t 1 1, a 5",
        "key A, values: done 5 5 10",
        "key A, a = 5, verify: accepted",
        "key A, a = 4, verify: rejected",
    ] {
        assert_eq!(lines.next(), Some(line));
    }
    for (start, end) in [
        ("n = 3, positions 1 1 1, constraints: done", "tops 1 0 1 1"),
        ("n = 3, positions 1 1 1, prove:", " refused 8"),
        ("n = 3, positions 0 1 3, constraints: done", "tops 0 0 1 0"),
        ("n = 3, positions 0 1 3, prove:", " refused 16"),
        ("key A, positions 1 0, constraints: done", "tops 0 0 5"),
        ("key A, positions 1 0, prove:", " refused 8"),
        ("n = 3, positions 0 1 4, constraints:", " refused 7"),
        ("n = 3, positions 0 1 4, prove:", " refused 7"),
        (
            "key A, y = 5, positions 1 0, constraints: done, t 0 0",
            "polynomials 5 0 5 0 10 0, tops 0 0 0",
        ),
        ("key A, y = 5, positions 1 0, prove: done, t 0 0", "a 5"),
        ("key A, y = 5, values: done", " 5 5 10"),
        ("key A, y = 5, a = 5, verify:", " accepted"),
        ("key A, y = 5, a = 4, verify:", " rejected"),
        (
            "key A, y = 5, positions 0 1, constraints: done",
            "tops 0 0 5",
        ),
        ("key A, y = 5, positions 0 1, prove:", " refused 8"),
        (
            "n = 3, y = 1, positions 1 0 2, constraints: done, t 0 1 0 0 1 0",
            "polynomials 16 0 0 16 7 0 16 0 0 6 3 0, tops 0 0 0 0",
        ),
        (
            "n = 3, y = 1, positions 1 0 2, prove: done, t 0 1 0 0 1 0",
            "a 31 10",
        ),
        (
            "n = 3, y = 1, positions 0 1 2, constraints: done",
            "tops 0 0 0 1",
        ),
        ("n = 3, y = 1, positions 0 1 2, prove:", " refused 8"),
        ("n = 1, m = 1: constraints refused 1", "verify refused 1"),
        ("n = 65, m = 1: constraints refused 1", "verify refused 1"),
        ("n = 2, m = 1: constraints done", "verify accepted"),
        ("n = 2, m = 2: constraints refused 2", "verify refused 2"),
        ("2047 times 1:", " done 2047"),
        ("2048 times 1:", " refused 6"),
    ] {
        let line = lines.next().expect("a line for each example");
        assert!(line.starts_with(start) && line.ends_with(end), "{line}");
    }
    let last = "n = 64, m = 63: constraints done, prove done, values done, verify accepted";
    assert_eq!(lines.last(), Some(last));
    assert!(text.ends_with('\n'));
}
