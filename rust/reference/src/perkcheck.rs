//! The program `perkcheck`, from the bytes of a check file to its line.

use crate::entries::{verify, Verdict};
use crate::key::Key;
use crate::package::{check_file_field, read_check_file, tag, words, Contents};
use crate::refusal::Refusal;

/// "reads a check file of at most 32,768 bytes from standard input".
pub const LIMIT: usize = 32_768;

/// Reads a check file, then runs verify on its fields.
pub fn check(bytes: &[u8]) -> Result<(Contents, Verdict), Refusal> {
    let contents = read_check_file(bytes)?;
    let words = |tag| words(check_file_field(bytes, tag));
    let y = match words(tag::Y) {
        // "absent means all zero"
        absent if absent.is_empty() => vec![0; contents.m],
        y => y,
    };
    let key = Key {
        n: contents.n,
        m: contents.m,
        h: &words(tag::H),
        x: &words(tag::X),
        y: &y,
    };
    let t = check_file_field(bytes, tag::T);
    let [q, delta, masks, alpha, a] =
        [tag::Q, tag::DELTA, tag::MASKS, tag::ALPHA, tag::A].map(words);
    let verdict = verify(key, t, &q, &delta, &masks, &alpha, &a)?;
    Ok((contents, verdict))
}

/// The line: "prints one line: `serial`, the serial, `n`, n, `m`, m, all
/// decimal, and `accepted` or `rejected`; or `refused` and the number in
/// decimal. Words and numbers are parted by one space, and a line end
/// follows." Of more than 32,768 bytes "the rest is not read".
pub fn perkcheck_line(bytes: &[u8]) -> String {
    let read = &bytes[..bytes.len().min(LIMIT)];
    match check(read) {
        Ok((Contents { n, m, serial }, Verdict::Accepted)) => {
            format!("serial {serial} n {n} m {m} accepted\n")
        }
        Ok((Contents { n, m, serial }, Verdict::Rejected)) => {
            format!("serial {serial} n {n} m {m} rejected\n")
        }
        Err(refusal) => format!("refused {}\n", refusal.number()),
    }
}
