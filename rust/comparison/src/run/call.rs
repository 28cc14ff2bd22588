//! One call, and what differs after it.

use crate::case::{Call, Case, Entry, Taken};
use crate::lent::Lent;
use crate::named::Named;
use std::fmt::Write;
use std::hint::black_box;

/// The state after a call.
pub struct After {
    /// The answer.
    pub answer: u32,
    /// What it took.
    pub taken: Taken,
    /// The slices that it writes.
    pub outputs: Named<Lent>,
}

/// Calls one implementation on its own copy of the case. The compiler may not
/// assume that the inputs and the guards keep their content.
pub fn called(call: Call, case: &Case) -> After {
    let taken = black_box(case.taken.clone());
    let mut outputs = black_box(case.outputs.clone());
    let answer = call(&taken, &mut outputs);
    black_box(After {
        answer,
        taken,
        outputs,
    })
}

/// The first difference between two lists of slices, guards included.
pub fn first_difference(found: &Named<Lent>, expected: &Named<Lent>) -> Option<String> {
    let mut pairs = found.iter().zip(expected.iter());
    pairs.find_map(|((name, found), (_, expected))| {
        let difference = found.difference(expected)?;
        Some(format!("{name}, {difference}"))
    })
}

/// What the expected side does otherwise than the case states.
pub fn expected_fault(case: &Case, expected: &After) -> Option<String> {
    if let Some(answer) = case.answer.filter(|&answer| answer != expected.answer) {
        let found = expected.answer;
        return Some(format!("the reference answers {found}, stated is {answer}"));
    }
    let mut stated = case.stated.iter().flatten();
    stated.find_map(|stated| {
        let found = expected.outputs[stated.output].element(stated.index);
        (found != stated.value).then(|| format!("the reference writes {found}: {stated:?}"))
    })
}

/// What the library does otherwise than expected: the answer, or the first word
/// that differs. The inputs keep their content, and on a refusal the outputs
/// too.
pub fn difference(entry: &Entry, case: &Case, found: &After, expected: &After) -> Option<String> {
    if found.answer != expected.answer {
        return Some(format!(
            "answer {}, expected {}",
            found.answer, expected.answer
        ));
    }
    let refused = !entry.done.contains(&found.answer);
    first_difference(&found.taken.inputs, &case.inputs)
        .or_else(|| first_difference(&found.outputs, &expected.outputs))
        .or_else(|| first_difference(&found.outputs, &case.outputs).filter(|_| refused))
}

/// Alters word N of the outputs, counted through all of them and from the first
/// again after the last, or the answer of an entry without outputs; whether
/// there is a word.
pub fn alter(expected: &mut After, n: usize) -> bool {
    if expected.outputs.is_empty() {
        expected.answer ^= 1;
        return true;
    }
    let words: usize = expected
        .outputs
        .iter()
        .map(|(_, output)| output.len())
        .sum();
    let mut rest = n.checked_rem(words).unwrap_or(0);
    for (_, output) in expected.outputs.iter_mut() {
        if rest < output.len() {
            output.change(rest, 0);
            return true;
        }
        rest -= output.len();
    }
    false
}

/// The case as text.
pub fn description(case: &Case) -> String {
    let mut text = String::new();
    for (name, number) in case.numbers.iter() {
        let _ = writeln!(text, "    {name} = {number}");
    }
    for (name, input) in case.inputs.iter() {
        let _ = writeln!(text, "    {name} = {input}");
    }
    for (name, output) in case.outputs.iter() {
        let _ = writeln!(text, "    {name} before = {output}");
    }
    text
}
