//! The lists of vectors/quick_look.txt: what the reference answered for each.

#[path = "common/parts.rs"]
mod parts;

use parts::Part;
use perk::{quick_look, Look, Refusal};

const TEXT: &str = include_str!("../../../vectors/quick_look.txt");

/// The parts of the file that begin with a line of this name.
fn parts(kind: &str) -> Vec<Part> {
    parts::parts(TEXT, &["case", "refused"], kind)
}

/// The positions in all lines with this name.
fn positions(part: &Part, name: &str) -> Vec<u8> {
    let numbers = part.values(name).flat_map(|value| value.split(' '));
    let numbers = numbers.map(|number| number.parse().expect("a number"));
    numbers.collect()
}

#[test]
fn lists_that_are_looked_at() {
    let mut answers = [0, 0];
    for part in parts("case") {
        let positions = positions(&part, "positions");
        let stated = match part.number("answer") {
            0 => {
                assert!(part.values("index").next().is_none());
                answers[0] += 1;
                Look::Well
            }
            255 => {
                answers[1] += 1;
                Look::Offender(part.number("index"))
            }
            number => panic!("{}: {number}", part.name()),
        };
        let found = quick_look(part.number("n"), &positions);
        assert_eq!(found, Ok(stated), "{}", part.name());
    }
    assert!(answers.iter().all(|count| *count > 0));
}

#[test]
fn lists_that_are_refused() {
    let mut answered = vec![];
    for part in parts("refused") {
        let positions = positions(&part, "positions_bytes");
        assert_eq!(positions.len(), part.number("positions_length"));
        let number = part.number("answer") as u32;
        let found = quick_look(part.number("n"), &positions).map_err(Refusal::number);
        assert_eq!(found, Err(number), "{}", part.name());
        answered.push(number);
    }
    answered.sort();
    answered.dedup();
    assert_eq!(answered, [1, 3]);
}
