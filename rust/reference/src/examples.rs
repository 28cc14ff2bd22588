//! The text of the program `examples_run`: the examples of the specification and
//! its edges, a line each, as the entries here answer them.
//!
//! An element of K is its coordinate 0, then each other coordinate c that isn't
//! zero as `+cY^i`.

use crate::entries::{product, Verdict};
use crate::key::Sizes;
use crate::large_field::COORDINATES;
use crate::refusal::Refusal;
use crate::samples::{elements, unit_rows, Material, Sample};

/// Y to a power below 12.
fn y(power: usize) -> Vec<u16> {
    let mut words = vec![0; COORDINATES];
    words[power] = 1;
    words
}

/// An element of K as text, after a space.
fn shown(element: &[u16]) -> String {
    let mut text = format!(" {}", element[0]);
    for (i, word) in element.iter().enumerate().skip(1) {
        if *word != 0 {
            text += &format!("+{word}Y^{i}");
        }
    }
    text
}

/// Elements of K as text.
fn shown_all(words: &[u16]) -> String {
    words.chunks(COORDINATES).map(shown).collect()
}

/// Bytes as text, each after a space.
fn shown_bytes(bytes: &[u8]) -> String {
    bytes.iter().map(|byte| format!(" {byte}")).collect()
}

/// An answer as text, with what stands after it when nothing is refused.
fn answered(answer: Result<String, Refusal>) -> String {
    match answer {
        Ok(written) => format!(" done{written}"),
        Err(refusal) => format!(" refused {}", refusal.number()),
    }
}

/// The product of two elements.
fn product_of(a: &[u16], b: &[u16]) -> String {
    let mut out = vec![0; COORDINATES];
    answered(product(a, b, &mut out).map(|()| shown_all(&out)))
}

/// The answer of verify for this t and this a, as text.
fn verdict_of(sample: &Sample, t: &[u8], a: &[u16]) -> String {
    match sample.verdict(t, a) {
        Ok(Verdict::Accepted) => " accepted".to_string(),
        Ok(Verdict::Rejected) => " rejected".to_string(),
        Err(refusal) => answered(Err(refusal)),
    }
}

/// The lines of constraints and prove for these positions.
fn prover_lines(name: &str, sample: &Sample, positions: &[u8]) -> String {
    let mut sample = sample.clone();
    sample.positions = positions.to_vec();
    let head = format!("{name}, positions{}", shown_bytes(positions));

    let constraints = answered(sample.constraints().map(|(t, polynomials)| {
        let coefficients: Vec<&[u16]> = polynomials.chunks(COORDINATES).collect();
        let tops = coefficients.chunks(sample.d + 1);
        let tops: String = tops.map(|polynomial| shown(polynomial[sample.d])).collect();
        let (t, polynomials) = (shown_bytes(&t), shown_all(&polynomials));
        format!(", t{t}, polynomials{polynomials}, tops{tops}")
    }));
    let prove = answered(sample.proof().map(|(t, a)| {
        let (t, a) = (shown_bytes(&t), shown_all(&a));
        format!(", t{t}, a{a}")
    }));
    format!("{head}, constraints:{constraints}\n{head}, prove:{prove}\n")
}

/// The line of all four entries, with this t and this a for the verifier.
fn line(name: &str, sample: &Sample, t: &[u8], a: &[u16]) -> String {
    let [constraints, prove, values] = [
        sample.constraints().map(|_| ()),
        sample.proof().map(|_| ()),
        sample.values(t).map(|_| ()),
    ]
    .map(|answer| answered(answer.map(|()| String::new())));
    let verify = verdict_of(sample, t, a);
    format!("{name}: constraints{constraints}, prove{prove}, values{values}, verify{verify}\n")
}

/// n = 64, m = 63: H has unit rows; x, y, u and the masks are zero, and v and the
/// weights but for two elements; the positions are 0 to 63, and Δ is 2. Since x
/// and y are zero, every order solves the key.
fn largest() -> Sample {
    let sizes = Sizes::judged(64, 63).expect("sizes that are not refused");
    let mut sample = Sample::key_a();
    (sample.n, sample.m, sample.d) = (sizes.n, sizes.m, sizes.d);
    sample.h = unit_rows(sizes.n, sizes.m);
    sample.x = vec![0; sizes.x_words()];
    sample.y = vec![0; sizes.y_words()];
    sample.positions = (0..64).collect();
    sample.u = vec![0; sizes.bit_bytes()];
    sample.v = vec![0; sizes.correlation_words()];
    sample.v[0] = 1;
    sample.v[sizes.correlation_words() - COORDINATES] = 2;
    sample.r = vec![0; sizes.mask_words()];
    sample.s = vec![0; sizes.mask_words()];
    sample.alpha = vec![0; sizes.weight_words()];
    sample.alpha[0] = 1;
    sample.alpha[sizes.weight_words() - COORDINATES] = 2;
    sample.make_honest();
    sample
}

/// The slices with a limit of 2047 and their names in the lines, in the order
/// of the lines.
const LIMITED: [(&str, &str); 8] = [
    ("h", "H"),
    ("x", "x"),
    ("y", "y"),
    ("v", "v"),
    ("q", "q"),
    ("delta", "challenge"),
    ("alpha", "weights"),
    ("a", "a"),
];

/// The lines of a key with these positions and material, and of verify for each
/// of these proofs.
fn example_lines(name: &str, sample: &Sample, proofs: &[&[u16]]) -> String {
    let mut text = prover_lines(name, sample, &sample.positions);
    let (t, _) = sample.proof().expect("the positions solve the key");
    let values = answered(sample.values(&t).map(|values| shown_all(&values)));
    text += &format!("{name}, values:{values}\n");
    for a in proofs {
        let verdict = verdict_of(sample, &t, &elements(a));
        text += &format!("{name}, a ={}, verify:{verdict}\n", shown_all(&elements(a)));
    }
    text
}

/// All lines.
pub fn text() -> String {
    let mut text = String::new();
    for (a, b) in [(1024, 2), (1024, 1024), (2047, 2)] {
        let product = product_of(&elements(&[a]), &elements(&[b]));
        text += &format!("{a} times {b}:{product}\n");
    }
    text += &format!("Y^11 times Y:{}\n", product_of(&y(11), &y(1)));
    text += &format!("Y^11 times Y^11:{}\n", product_of(&y(11), &y(11)));

    let key_a = Sample::key_a();
    text += &example_lines("key A", &key_a, &[&[5], &[4]]);
    text += &prover_lines("n = 3", &Sample::three(), &[1, 1, 1]);
    text += &prover_lines("n = 3", &Sample::three(), &[0, 1, 3]);
    text += &prover_lines("key A", &key_a, &[1, 0]);
    text += &prover_lines("n = 3", &Sample::three(), &[0, 1, 4]);

    let with_target = Sample::key_a_with_target();
    text += &example_lines("key A, y = 5", &with_target, &[&[5], &[4]]);
    text += &prover_lines("key A, y = 5", &with_target, &[0, 1]);
    let with_target = Sample::three_with_target();
    text += &prover_lines("n = 3, y = 1", &with_target, &[1, 0, 2]);
    text += &prover_lines("n = 3, y = 1", &with_target, &[0, 1, 2]);

    let sizes = |n: usize, m: usize| {
        let sample = Sample {
            n,
            m,
            ..key_a.clone()
        };
        line(
            &format!("n = {n}, m = {m}"),
            &sample,
            &[1, 1],
            &elements(&[5]),
        )
    };
    text += &sizes(1, 1);
    text += &sizes(65, 1);
    text += &sizes(2, 1);
    text += &sizes(2, 2);

    for word in [2047, 2048] {
        let product = product_of(&elements(&[word]), &elements(&[1]));
        text += &format!("{word} times 1:{product}\n");
    }
    for (slice, name) in LIMITED {
        for word in [2047, 2048] {
            let mut material = Material::of(key_a.clone());
            material.lent(slice).change(0, |_| word);
            let Material { sample, t, a } = material;
            text += &line(&format!("{name} {word}"), &sample, &t, &a);
        }
    }
    let largest = largest();
    let (t, a) = largest.proof().expect("every order solves the key");
    text + &line("n = 64, m = 63", &largest, &t, &a)
}
