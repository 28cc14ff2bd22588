//! Proves key A of the specification and verifies the proof, then reads its
//! check file: n = 2, m = 1, H = (2 1), x = (1 2), so d is 1 and there are no
//! masks.
//!
//!     cd rust && cargo run -p perk --example key_a

use perk::{Key, Masks, Prover, WORDS};
use std::error::Error;

/// The check file of key A.
const CHECK_FILE: &[u8] = include_bytes!("../../../vectors/key_a.check");

/// The tag of the masked witness t.
const T: u8 = 0x06;

/// An element of F, as an element of K: in coordinate 0.
fn k(f: u16) -> [u16; WORDS] {
    let mut element = [0; WORDS];
    element[0] = f;
    element
}

fn main() -> Result<(), Box<dyn Error>> {
    let key = Key {
        n: 2,
        m: 1,
        h: &[2, 1],
        x: &[1, 2],
        y: &[0], // no target
    };

    // the prover's part
    let prover = Prover {
        positions: &[0, 1],
        u: &[1, 0],
        v: &[k(1), k(4)].concat(),
    };
    let masks = Masks { r: &[], s: &[] };
    let alpha = [k(1), k(2), k(1)].concat();
    let mut t = [0; 2];
    let mut a = [0; WORDS];
    perk::prove(key, prover, masks, &alpha, &mut t, &mut a)?;
    println!("t = {} {}, a = {}", t[0], t[1], a[0]);

    // the verifier's part: challenge delta = 2, and q = u delta + v
    let (q, delta) = ([k(3), k(4)].concat(), k(2));
    let verdict = perk::verify(key, &t, &q, &delta, &[], &alpha, &a)?;
    println!("{verdict}");
    a[0] ^= 1;
    let verdict = perk::verify(key, &t, &q, &delta, &[], &alpha, &a)?;
    println!("{verdict}");

    // the check file, which begins with the package
    let contents = perk::read_check_file(CHECK_FILE)?;
    println!(
        "serial {} n {} m {}",
        contents.serial, contents.n, contents.m
    );
    let package = perk::package_of(CHECK_FILE)?;
    println!("t = {:?}", perk::field(package, T));
    println!("{}", perk::check(CHECK_FILE)?);
    Ok(())
}
