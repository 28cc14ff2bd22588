//! A whole run at n = 64, m = 27: makes a key with a target that a secret order
//! solves, proves it, writes the package and the check file, checks it, and reads
//! the package's fields back.
//!
//!     cd rust && cargo run -p perk --example whole_run
//!
//! The numbers come from a small generator with a fixed seed, so that every run
//! prints the same lines. In real use the secrets are random, the weights are
//! taken after the prover's commitment to its correlations and t, and the
//! challenge after that to a.

use perk::{Key, Masks, Prover, Refusal, WORDS};
use std::iter::repeat_with;

const N: usize = 64;
const M: usize = 27;
const D: usize = perk::digits(N);

/// Above 65535, so that it takes four bytes; a smaller one takes two.
const SERIAL: u32 = 3_000_004_711;

/// A generator of test numbers (xorshift); no source of secrets.
struct Generator(u64);

impl Generator {
    /// A number below a bound, which is at most 2048.
    fn below(&mut self, bound: u16) -> u16 {
        self.0 ^= self.0 << 13;
        self.0 ^= self.0 >> 7;
        self.0 ^= self.0 << 17;
        ((self.0 >> 32) % u64::from(bound)) as u16
    }

    /// Elements of F.
    fn words(&mut self, count: usize) -> Vec<u16> {
        repeat_with(|| self.below(2048)).take(count).collect()
    }
}

/// a times b in F, where z^11 = z^2 + 1.
fn times(a: u16, b: u16) -> u16 {
    let mut product = 0;
    for bit in (0..11).rev() {
        product <<= 1; // times z
        if product > 2047 {
            product ^= 0b1000_0000_0101;
        }
        if b >> bit & 1 == 1 {
            product ^= a;
        }
    }
    product
}

/// The m rows of H. Among the first m columns row e has a 1 in column e and 0 in
/// the others, so the rows do not depend on each other. The entries after these
/// are random.
fn rows(random: &mut Generator) -> Vec<u16> {
    let mut h = Vec::new();
    for e in 0..M {
        let mut row = vec![0; M];
        row[e] = 1;
        row.extend(random.words(N - M));
        h.extend(row);
    }
    h
}

/// H times x in the order of the positions: the target y.
fn target(h: &[u16], ordered: &[u16]) -> Vec<u16> {
    let product = |row: &[u16]| {
        let entries = row.iter().zip(ordered);
        entries.fold(0, |sum, (h, x)| sum ^ times(*h, *x))
    };
    h.chunks(N).map(product).collect()
}

/// a delta + b in K.
fn line(a: &[u16], delta: &[u16], b: &[u16]) -> Result<[u16; WORDS], Refusal> {
    let (mut product, mut sum) = ([0; WORDS], [0; WORDS]);
    perk::product(a, delta, &mut product)?;
    perk::sum(&product, b, &mut sum)?;
    Ok(sum)
}

/// The bytes of words, highest first.
fn bytes(words: &[u16]) -> Vec<u8> {
    words.iter().flat_map(|word| word.to_be_bytes()).collect()
}

/// A field: tag, length, content.
fn field(tag: u8, content: &[u8]) -> Vec<u8> {
    let length = (content.len() as u16).to_be_bytes();
    [&[tag][..], &length, content].concat()
}

/// What the library says of a check file.
fn said(file: &[u8]) -> String {
    match perk::check(file) {
        Ok(verdict) => verdict.to_string(),
        Err(refusal) => format!("refused {}: {refusal}", refusal.number()),
    }
}

fn main() -> Result<(), Refusal> {
    let random = &mut Generator(2025);

    // the key: x has different entries, none of them 0, and y is made for the
    // secret order
    let mut x = Vec::new();
    while x.len() < N {
        let element = random.below(2048);
        if element != 0 && !x.contains(&element) {
            x.push(element);
        }
    }
    let mut positions: Vec<u8> = (0..N as u8).collect();
    for i in (1..N).rev() {
        positions.swap(i, random.below(i as u16 + 1).into());
    }
    let ordered: Vec<u16> = positions.iter().map(|i| x[usize::from(*i)]).collect();
    let h = rows(random);
    let y = target(&h, &ordered);
    let key = Key {
        n: N,
        m: M,
        h: &h,
        x: &x,
        y: &y,
    };

    // the prover's part
    let u: Vec<u8> = repeat_with(|| random.below(2) as u8).take(N * D).collect();
    let v = random.words(WORDS * N * D);
    let r = random.words(WORDS * (D - 1));
    let s = random.words(WORDS * (D - 1));
    let alpha = random.words(WORDS * (N + M));
    let prover = Prover {
        positions: &positions,
        u: &u,
        v: &v,
    };
    let masks = Masks { r: &r, s: &s };
    let (mut t, mut a) = (vec![0; N * D], vec![0; WORDS * D]);
    perk::prove(key, prover, masks, &alpha, &mut t, &mut a)?;
    println!("proved: t has {} bytes, a has {D} elements of K", t.len());

    // another order does not solve the key
    let mut other = positions.clone();
    other.swap(0, 1);
    let prover = Prover {
        positions: &other,
        ..prover
    };
    if let Err(refusal) = perk::prove(key, prover, masks, &alpha, &mut t, &mut a) {
        println!("another order: refused {}: {refusal}", refusal.number());
    }

    // the verifier's part: the challenge, q = u delta + v and the mask numbers
    // s delta + r
    let delta = random.words(WORDS);
    let mut q = Vec::new();
    for (u, v) in u.iter().zip(v.chunks(WORDS)) {
        let mut bit = [0; WORDS];
        bit[0] = u16::from(*u);
        q.extend(line(&bit, &delta, v)?);
    }
    let mut numbers = Vec::new();
    for (r, s) in r.chunks(WORDS).zip(s.chunks(WORDS)) {
        numbers.extend(line(s, &delta, r)?);
    }
    let verdict = perk::verify(key, &t, &q, &delta, &numbers, &alpha, &a)?;
    println!("verify: {verdict}");

    // the package, and the check file, which begins with it
    let mut written = vec![0; perk::LARGEST_PACKAGE_BYTES];
    let length = perk::write_package(key, SERIAL, &t, &a, &mut written)?;
    written.truncate(length);
    let file = [
        written.clone(),
        field(0x11, &bytes(&q)),
        field(0x12, &bytes(&numbers)),
        field(0x13, &bytes(&delta)),
        field(0x14, &bytes(&alpha)),
    ]
    .concat();
    println!("check file of {} bytes: {}", file.len(), said(&file));

    // the package is found again, with its fields
    let package = perk::package_of(&file)?;
    assert_eq!(package, written);
    let contents = perk::read_package(package)?;
    let (n, m, serial) = (contents.n, contents.m, contents.serial);
    println!(
        "package of {} bytes: serial {serial} n {n} m {m}",
        package.len()
    );
    assert_eq!(perk::field(package, 0x01), [N as u8, M as u8]);
    assert_eq!(perk::field(package, 0x02), bytes(&h));
    assert_eq!(perk::field(package, 0x03), bytes(&x));
    assert_eq!(perk::field(package, 0x04), bytes(&y));
    assert_eq!(perk::field(package, 0x05), SERIAL.to_be_bytes());
    assert_eq!(perk::field(package, 0x06), t);
    assert_eq!(perk::field(package, 0x07), bytes(&a));

    // one byte changed: the last of y, the last of a, and the first of the file
    let mut changed = file.clone();
    changed[5 + 3 + 2 * M * N + 3 + 2 * N + 3 + 2 * M - 1] ^= 1;
    println!("last byte of y changed: {}", said(&changed));
    let mut changed = file.clone();
    changed[package.len() - 1] ^= 1;
    println!("last byte of a changed: {}", said(&changed));
    let mut changed = file.clone();
    changed[0] ^= 1;
    println!("first byte changed: {}", said(&changed));
    Ok(())
}
