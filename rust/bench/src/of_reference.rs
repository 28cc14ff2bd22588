//! The entries of the reference as functions like those of `comparison::library`.

use reference::vectors::quick_look::OFFENDER;
use reference::{Contents, Joined, Key, Refusal, Verdict};

/// The number of an answer.
fn number(answer: Result<(), Refusal>) -> u32 {
    answer.map_or_else(Refusal::number, |()| 0)
}

/// The number of a verdict.
fn of_verdict(answer: Result<Verdict, Refusal>) -> u32 {
    match answer {
        Ok(Verdict::Accepted) => 0,
        Ok(Verdict::Rejected) => 255,
        Err(refusal) => refusal.number(),
    }
}

/// Declares functions whose last parameters are written.
macro_rules! entries {
    ($($name:ident ($($key:ident)?) ($($input:ident: $read:ty),*) ($($output:ident: $written:ty),*) $answer:ident;)*) => {$(
        #[allow(clippy::too_many_arguments)]
        pub fn $name(
            $($key: Key<'_>,)?
            $($input: &[$read],)*
            $($output: &mut [$written],)*
        ) -> u32 {
            $answer(reference::$name($($key,)? $($input,)* $($output),*))
        }
    )*};
}

entries! {
    sum () (a: u16, b: u16) (out: u16) number;
    product () (a: u16, b: u16) (out: u16) number;
    constraints (key) (positions: u8, u: u8, v: u16) (t: u8, polynomials: u16) number;
    values (key) (t: u8, q: u16, delta: u16) (values: u16) number;
    prove (key) (positions: u8, u: u8, v: u16, r: u16, s: u16, alpha: u16) (t: u8, a: u16) number;
    verify (key) (t: u8, q: u16, delta: u16, masks: u16, alpha: u16, a: u16) () of_verdict;
}

/// The entry rank.
pub fn rank(n: usize, m: usize, h: &[u16], matrix: &mut [u16], rank: &mut usize) -> u32 {
    number(reference::rank(n, m, h, matrix).map(|answered| *rank = answered))
}

/// The entry quick look.
pub fn quick_look(n: usize, positions: &[u8], index: &mut usize) -> u32 {
    match reference::quick_look(n, positions) {
        Ok(None) => 0,
        Ok(Some(offender)) => {
            *index = offender;
            OFFENDER
        }
        Err(refusal) => refusal.number(),
    }
}

/// The entry write package.
pub fn write_package(
    key: Key<'_>,
    serial: u32,
    t: &[u8],
    a: &[u16],
    out: &mut [u8],
    length: &mut usize,
) -> u32 {
    number(reference::write_package(key, serial, t, a, out).map(|answered| *length = answered))
}

/// The entry read bundle.
pub fn read_bundle(bytes: &[u8], n: &mut u32, m: &mut u32, groups: &mut usize) -> u32 {
    number(reference::read_bundle(bytes).map(|contents| {
        (*n, *m) = (contents.n as u32, contents.m as u32);
        *groups = contents.groups;
    }))
}

/// Writes what the join or the look before it answers.
fn sized(answer: Result<Joined, Refusal>, length: &mut usize, groups: &mut usize) -> u32 {
    number(answer.map(|joined| (*length, *groups) = (joined.length, joined.groups)))
}

/// The entry join bundles.
pub fn join_bundles(
    first: &[u8],
    second: &[u8],
    out: &mut [u8],
    length: &mut usize,
    groups: &mut usize,
) -> u32 {
    sized(reference::join_bundles(first, second, out), length, groups)
}

/// The entry look before join.
pub fn look_before_join(
    first: &[u8],
    second: &[u8],
    room: usize,
    length: &mut usize,
    groups: &mut usize,
) -> u32 {
    let answer = reference::look_before_join(first, second, room);
    sized(answer, length, groups)
}

/// Writes what a reader answers.
fn written(answer: Result<Contents, Refusal>, n: &mut u32, m: &mut u32, serial: &mut u32) -> u32 {
    number(answer.map(|contents| {
        (*n, *m) = (contents.n as u32, contents.m as u32);
        *serial = contents.serial;
    }))
}

/// The entry read package.
pub fn read_package(bytes: &[u8], n: &mut u32, m: &mut u32, serial: &mut u32) -> u32 {
    written(reference::read_package(bytes), n, m, serial)
}

/// The entry read check file.
pub fn read_check_file(bytes: &[u8], n: &mut u32, m: &mut u32, serial: &mut u32) -> u32 {
    written(reference::read_check_file(bytes), n, m, serial)
}

/// The entry field.
pub fn field(bytes: &[u8], tag: u8, start: &mut usize) -> usize {
    let range = reference::field_range(bytes, tag);
    *start = range.start;
    range.len()
}

/// The entry check.
pub fn check(bytes: &[u8]) -> u32 {
    of_verdict(reference::check(bytes).map(|(_, verdict)| verdict))
}
