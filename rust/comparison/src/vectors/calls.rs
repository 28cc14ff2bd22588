//! The calls for one file, and what is compared after each.

use super::list::{Line, List, COORDINATES};
use super::text::{Text, Witness};
use super::{Outcome, Setting};
use crate::case::{Case, Entry, Taken};
use crate::entries::constraints::Constraints;
use crate::entries::keyed::{numbers, sizes, Keyed};
use crate::entries::prove::Prove;
use crate::entries::values::Values;
use crate::entries::verify::Verify;
use crate::lent::Lent;
use crate::named::Named;
use crate::run::call::{alter, called, first_difference, After};
use reference::samples::Generator;

/// The answer without a refusal.
const DONE: u32 = 0;

/// What a file states of the result of a call.
#[derive(Clone, Default)]
pub struct Stated<'a> {
    /// The answer; where there is none the call must be done.
    pub answer: Option<&'a List>,
    /// The first words of outputs, whose others keep their value; an output
    /// without a list may hold anything.
    pub outputs: Named<&'a List>,
}

impl<'a> Stated<'a> {
    /// These outputs of a call.
    pub fn outputs<const N: usize>(outputs: [(&'static str, &'a List); N]) -> Stated<'a> {
        Stated {
            answer: None,
            outputs: Named::from(outputs),
        }
    }

    /// The answer of a call, which writes nothing.
    pub fn answer(answer: &'a List) -> Stated<'a> {
        Stated {
            answer: Some(answer),
            outputs: Named::new(),
        }
    }
}

/// Sets an element of a slice.
fn put(lent: &mut Lent, index: usize, value: u64) {
    match lent {
        Lent::Numbers(_) => *lent.number_mut() = value as u32,
        Lent::Sizes(_) => *lent.size_mut() = value as usize,
        _ => lent.set(index, value as u16),
    }
}

/// The calls for one file.
pub struct Comparison<'a> {
    /// What is called.
    pub setting: &'a Setting<'a>,
    /// For the guards, and the content of outputs before a call.
    pub generator: &'a mut Generator,
    /// What was done.
    pub outcome: Outcome,
}

impl Comparison<'_> {
    /// A slice of bytes to read.
    pub fn bytes(&mut self, list: &List) -> Lent {
        Lent::with_bytes(&list.bytes(), self.generator)
    }

    /// A slice of words to read.
    pub fn words(&mut self, list: &List) -> Lent {
        Lent::with_words(&list.words16(), self.generator)
    }

    /// The entry with this name.
    fn entry(&self, name: &str) -> Result<&Entry, String> {
        let mut entries = self.setting.entries.iter();
        let entry = entries.find(|entry| entry.name == name);
        entry.ok_or_else(|| format!("no entry {name}"))
    }

    /// Calls an entry of the library and compares what it does with what is
    /// stated, guards included. Gives the outputs.
    pub fn call(
        &mut self,
        name: &str,
        taken: Taken,
        outputs: Named<Lent>,
        stated: Stated,
    ) -> Result<Named<Lent>, String> {
        let entry = self.entry(name)?;
        let case = Case::new(taken.numbers, taken.inputs, outputs);
        let found = called(entry.library, &case);
        let mut expected = After {
            answer: stated.answer.map_or(DONE, |list| list.value(0) as u32),
            taken: case.taken,
            outputs: case.outputs,
        };
        let done = entry.done.contains(&expected.answer);
        for (name, output) in expected.outputs.iter_mut() {
            if let Some(list) = stated.outputs.get(name) {
                for (index, word) in list.words.iter().enumerate() {
                    put(output, index, word.value);
                }
            } else if done {
                for index in 0..output.len() {
                    put(output, index, found.outputs[name].element(index));
                }
            }
        }
        self.count(&stated, done);

        let spoiled = self.alter(&stated, &mut expected);
        match difference(name, &found, &expected, &stated) {
            None => Ok(found.outputs),
            Some(text) if spoiled => {
                self.outcome.found = true;
                Err(text + " (altered by --spoil)")
            }
            Some(text) => Err(text),
        }
    }

    /// Counts a call.
    fn count(&mut self, stated: &Stated, done: bool) {
        let words = stated.outputs.iter().map(|(_, list)| list.len());
        self.outcome.words += words.sum::<usize>();
        self.outcome.answers += usize::from(stated.answer.is_some());
        self.outcome.calls += 1;
        self.outcome.done += usize::from(done);
    }

    /// Alters a word of what is expected, if one is still to be altered and the
    /// file states outputs; whether it did.
    fn alter(&mut self, stated: &Stated, expected: &mut After) -> bool {
        let possible = !self.outcome.altered && !stated.outputs.is_empty();
        let word = self.setting.spoil.filter(|_| possible);
        let altered = word.is_some_and(|n| alter(expected, n));
        self.outcome.altered |= altered;
        altered
    }

    /// A sum or product; the result where it is stated.
    fn operation(
        &mut self,
        name: &str,
        [a, b]: [&[u16]; 2],
        result: Option<&List>,
    ) -> Result<Vec<u16>, String> {
        let [a, b] = [a, b].map(|words| Lent::with_words(words, self.generator));
        let out = Lent::any_words(COORDINATES, self.generator);
        let taken = Taken {
            numbers: Named::new(),
            inputs: Named::from([("a", a), ("b", b)]),
        };
        let stated = Stated {
            answer: None,
            outputs: result.map(|list| ("out", list)).into_iter().collect(),
        };
        let out = self.call(name, taken, Named::from([("out", out)]), stated)?;
        Ok(out["out"].words().to_vec())
    }

    /// A times b plus c is the result.
    pub fn product_and_sum(
        &mut self,
        [a, b, c]: [&[u16]; 3],
        result: Option<&List>,
    ) -> Result<Vec<u16>, String> {
        let product = self.operation("product", [a, b], None)?;
        self.operation("sum", [&product, c], result)
    }

    /// The numbers q and the mask numbers: u times the challenge plus v, s times
    /// the challenge plus r.
    pub fn numbers(&mut self, text: &Text) -> Result<(), String> {
        let delta = text.delta.words16();
        for (index, bit) in text.u.words16().into_iter().enumerate() {
            let mut u = [0; COORDINATES];
            u[0] = bit;
            let v = text.v.element(index).words16();
            self.product_and_sum([&u, &delta, &v], Some(&text.q.element(index)))?;
        }
        for index in 0..text.d - 1 {
            let [s, r] = [&text.s, &text.r].map(|list| list.element(index).words16());
            self.product_and_sum([&s, &delta, &r], Some(&text.mask.element(index)))?;
        }
        Ok(())
    }

    /// Each value is its polynomial at the challenge.
    fn at_challenge(&mut self, text: &Text, witness: &Witness) -> Result<(), String> {
        let delta = text.delta.words16();
        for j in 0..witness.value.len() / COORDINATES {
            let value = witness.value.element(j);
            let coefficient = |k| {
                let index = (text.d + 1) * j + k;
                witness.polynomial.element(index).words16()
            };
            let mut sum = coefficient(text.d);
            for k in (0..text.d).rev() {
                let result = Some(&value).filter(|_| k == 0);
                sum = self.product_and_sum([&sum, &delta, &coefficient(k)], result)?;
            }
        }
        Ok(())
    }

    /// An entry that takes a key, with these slices; its outputs are as long as
    /// theirs. What it writes is stated by them, where no answer is.
    pub fn keyed<E: Keyed>(
        &mut self,
        name: &str,
        [n, m]: [usize; 2],
        slices: &Named<&List>,
        answer: Option<&List>,
    ) -> Result<(), String> {
        let inputs = E::inputs().into_iter().map(|slice| {
            let list = slices[slice.name];
            let lent = if slice.elements.are_words() {
                self.words(list)
            } else {
                self.bytes(list)
            };
            (slice.name, lent)
        });
        let taken = Taken {
            inputs: inputs.collect(),
            numbers: numbers(sizes(n, m)),
        };
        let outputs = E::outputs().into_iter();
        let lengths = outputs.map(|slice| (slice, slices[slice.name].len()));
        let written = lengths.map(|(slice, len)| (slice.name, slice.any(len, self.generator)));
        let written = written.collect();
        let stated = match answer {
            Some(answer) => Stated::answer(answer),
            None => Stated {
                answer: None,
                outputs: E::WRITES.iter().map(|&name| (name, slices[name])).collect(),
            },
        };
        self.call(name, taken, written, stated)?;
        Ok(())
    }

    /// The entries constraints and values.
    pub fn witness(&mut self, text: &Text, witness: &Witness) -> Result<(), String> {
        let slices = text.slices(witness);
        self.keyed::<Constraints>("constraints", text.sizes(), &slices, None)?;
        self.keyed::<Values>("values", text.sizes(), &slices, None)?;
        self.at_challenge(text, witness)
    }

    /// The entry prove, with what it writes or its refusal.
    pub fn prove(
        &mut self,
        text: &Text,
        witness: &Witness,
        refusal: Option<&List>,
    ) -> Result<(), String> {
        // A refused call has an output of the length of a too.
        let slices = text.slices(witness);
        self.keyed::<Prove>("prove", text.sizes(), &slices, refusal)
    }

    /// The entry verify.
    pub fn verify(&mut self, slices: &Named<&List>, line: &Line) -> Result<(), String> {
        let sizes = [line.n.value(0), line.m.value(0)];
        self.keyed::<Verify>("verify", sizes, slices, Some(&line.verdict))
    }
}

/// What the library does otherwise than stated: the answer, or the first word
/// that differs, with its place in the file.
fn difference(name: &str, found: &After, expected: &After, stated: &Stated) -> Option<String> {
    if found.answer != expected.answer {
        let place = stated.answer.map(|list| format!("{}: ", list.place(0)));
        return Some(format!(
            "{}{name}, answer {}, expected {}",
            place.unwrap_or_default(),
            found.answer,
            expected.answer
        ));
    }
    if let Some(text) = first_difference(&found.taken.inputs, &expected.taken.inputs) {
        return Some(format!("{name}, {text}"));
    }
    for (output, lent) in found.outputs.iter() {
        if let Some(difference) = lent.difference(&expected.outputs[output]) {
            let list = stated.outputs.get(output);
            let place = list
                .zip(usize::try_from(difference.index).ok())
                .filter(|(list, word)| *word < list.len() && !difference.guard)
                .map(|(list, word)| format!("{}: ", list.place(word)));
            return Some(format!(
                "{}{name}, {output}, {difference}",
                place.unwrap_or_default()
            ));
        }
    }
    None
}
