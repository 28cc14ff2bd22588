//! The bundles of vectors/bundle.txt: what the reference answered for each, and
//! what it wrote; for two bundles, what it told before.

#[path = "common/parts.rs"]
mod parts;

use parts::Part;
use perk::{join_bundles, look_before_join, read_bundle, Bundle, Joined, Refusal};

const TEXT: &str = include_str!("../../../vectors/bundle.txt");

/// What outputs hold before a call.
const BYTE: u8 = 0xA5;

/// The names of the lines with which parts begin.
const KINDS: [&str; 6] = [
    "case",
    "refused",
    "join",
    "join_refused",
    "look",
    "look_refused",
];

/// What lines of this file hold besides numbers of their own.
trait Lines {
    /// The numbers in the lines with this name, at least one.
    fn numbers(&self, name: &str) -> Vec<usize>;

    /// The bytes in all lines with this name, which are as many as another line says.
    fn bytes(&self, name: &str) -> Vec<u8>;

    /// The refusal in the one line with this name.
    fn refusal(&self, name: &str) -> Refusal;
}

impl Lines for Part {
    fn numbers(&self, name: &str) -> Vec<usize> {
        let numbers = self.values(name).map(|value| value.parse());
        let numbers: Result<Vec<usize>, _> = numbers.collect();
        let numbers = numbers.expect("numbers");
        assert!(!numbers.is_empty(), "{name}");
        numbers
    }

    fn bytes(&self, name: &str) -> Vec<u8> {
        let digits: String = self.values(name).collect();
        let pairs = (0..digits.len()).step_by(2).map(|at| &digits[at..at + 2]);
        let bytes = pairs.map(|pair| u8::from_str_radix(pair, 16).expect("a byte"));
        let bytes: Vec<u8> = bytes.collect();
        assert_eq!(bytes.len(), self.number(&format!("{name}_length")));
        bytes
    }

    fn refusal(&self, name: &str) -> Refusal {
        let number = self.number(name) as u32;
        let refusal = Refusal::ALL
            .into_iter()
            .find(|refusal| refusal.number() == number);
        refusal.expect("a refusal")
    }
}

/// The parts of the file that begin with a line of this name.
fn parts(kind: &str) -> Vec<Part> {
    parts::parts(TEXT, &KINDS, kind)
}

#[test]
fn bundles_that_are_read() {
    for part in parts("case") {
        let stated = Bundle {
            n: part.number("n"),
            m: part.number("m"),
            groups: part.number("groups"),
        };
        let name = part.name();
        assert_eq!(read_bundle(&part.bytes("bundle")), Ok(stated), "{name}");
    }
}

#[test]
fn bundles_that_are_refused() {
    for part in parts("refused") {
        let refusal = part.refusal("answer");
        let name = part.name();
        assert_eq!(read_bundle(&part.bytes("bundle")), Err(refusal), "{name}");
    }
}

#[test]
fn bundles_that_are_joined() {
    for part in parts("join") {
        let (first, second) = (part.bytes("first"), part.bytes("second"));
        let joined = part.bytes("joined");
        let stated = Joined {
            length: joined.len(),
            groups: part.number("groups"),
        };
        for more in [0, 1, 40] {
            let mut out = vec![BYTE; joined.len() + more];
            let name = part.name();
            assert_eq!(
                join_bundles(&first, &second, &mut out),
                Ok(stated),
                "{name}"
            );
            assert_eq!(out, [&joined[..], &vec![BYTE; more]].concat());
        }
        let mut out = vec![BYTE; joined.len() - 1];
        let refusal = part.refusal("short_answer");
        assert_eq!(join_bundles(&first, &second, &mut out), Err(refusal));
        assert_eq!(out, vec![BYTE; joined.len() - 1]);
    }
}

#[test]
fn joins_that_are_refused() {
    for part in parts("join_refused") {
        let (first, second) = (part.bytes("first"), part.bytes("second"));
        let length = part.number("out_length");
        let mut out = vec![BYTE; length];
        let refusal = part.refusal("answer");
        let name = part.name();
        assert_eq!(
            join_bundles(&first, &second, &mut out),
            Err(refusal),
            "{name}"
        );
        assert_eq!(out, vec![BYTE; length], "{name}");
    }
}

/// Calls `test` with each look of this kind and the two bundles that it is for:
/// those of the join of that kind with the same name.
fn for_each_look(kind: &str, of: &str, test: impl Fn(&Part, &[u8], &[u8])) {
    let (looks, joins) = (parts(kind), parts(of));
    assert_eq!(looks.len(), joins.len());
    for (look, join) in looks.iter().zip(&joins) {
        assert_eq!(look.name(), join.name());
        test(look, &join.bytes("first"), &join.bytes("second"));
    }
}

/// What a look answers for each room that lines of this name have.
fn told(look: &Part, rooms: &str, first: &[u8], second: &[u8], stated: Result<Joined, Refusal>) {
    for room in look.numbers(rooms) {
        let answer = look_before_join(first, second, room);
        assert_eq!(answer, stated, "{}, {room}", look.name());
    }
}

#[test]
fn looks_before_joins() {
    for_each_look("look", "join", |look, first, second| {
        let stated = Joined {
            length: look.number("length"),
            groups: look.number("groups"),
        };
        told(look, "room", first, second, Ok(stated));
        let refusal = look.refusal("short_answer");
        told(look, "short_room", first, second, Err(refusal));
    });
}

#[test]
fn looks_before_refused_joins() {
    for_each_look("look_refused", "join_refused", |look, first, second| {
        let refusal = look.refusal("answer");
        told(look, "room", first, second, Err(refusal));
    });
}
