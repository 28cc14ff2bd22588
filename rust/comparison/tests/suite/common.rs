//! An entry that copies one byte, to be run with faults.

use comparison::case::{Call, Case, Entry, Group, Taken};
use comparison::lent::Lent;
use comparison::named::Named;
use comparison::run::Run;
use reference::samples::Generator;
use reference::Refusal;

/// The input.
pub const INPUT: &str = "input";

/// The output.
pub const OUTPUT: &str = "output";

/// Copies one byte; 3 when a slice isn't of length 1, then 5 when the byte is
/// above 1.
pub fn right(taken: &Taken, outputs: &mut Named<Lent>) -> u32 {
    let input = taken.bytes(INPUT);
    let output = outputs[OUTPUT].bytes_mut();
    if input.len() != 1 || output.len() != 1 {
        return 3;
    }
    if input[0] > 1 {
        return 5;
    }
    output[0] = input[0];
    0
}

/// A case with this input, an output of this length and an answer.
pub fn case(generator: &mut Generator, input: &[u8], len: usize, answer: u32) -> Case {
    let inputs = Named::from([(INPUT, Lent::with_bytes(input, generator))]);
    let outputs = Named::from([(OUTPUT, Lent::any_bytes(len, generator))]);
    Case::new(Named::new(), inputs, outputs).answering(Some(answer))
}

/// Cases that reach each answer.
pub const ALL: Group = Group::new("all", |generator, each| {
    for byte in [0, 1, 0, 1] {
        each(case(generator, &[byte], 1, 0));
    }
    each(case(generator, &[2], 1, 5));
    each(case(generator, &[0, 0], 1, 3));
    each(case(generator, &[0], 0, 3));
});

/// The entry with another function in the place of the library, and other
/// groups.
pub fn entry(library: Call, groups: fn() -> Vec<Group>) -> Entry {
    Entry {
        name: "copy",
        done: &[0],
        refusals: &[Refusal::SliceLength, Refusal::Bit],
        library,
        reference: right,
        packed: None,
        rows: None,
        package: None,
        table: None,
        groups,
        least: Vec::new,
    }
}

/// Whether a run over this entry passes.
pub fn passes(entry: &Entry, spoil: Option<usize>) -> bool {
    let mut run = Run::new(1, spoil);
    run.entry(entry);
    run.finish()
}

/// Whether a group finds this function in the place of the library of an entry: a
/// case of it differs.
pub fn finds(group: Group, entry: Entry, library: Call) -> bool {
    let entry = Entry {
        library,
        table: None,
        ..entry
    };
    Run::new(1, None).finds(&entry, &group)
}
