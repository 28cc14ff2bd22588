//! An entry, its groups of cases, and one case.

use crate::lent::Lent;
use crate::named::Named;
use crate::slices::{H, M, N, X, Y};
use reference::samples::Generator;
use reference::{Key, Refusal};
use std::ops::{Deref, DerefMut};

/// What an entry takes.
#[derive(Clone, Debug, Default)]
pub struct Taken {
    /// The numbers passed by value.
    pub numbers: Named<usize>,
    /// The slices that it reads.
    pub inputs: Named<Lent>,
}

impl Taken {
    /// The key.
    pub fn key(&self) -> Key<'_> {
        Key {
            n: self.numbers[N],
            m: self.numbers[M],
            h: self.words(H),
            x: self.words(X),
            y: self.words(Y),
        }
    }

    /// The words of an input.
    pub fn words(&self, name: &str) -> &[u16] {
        self.inputs[name].words()
    }

    /// The bytes of an input.
    pub fn bytes(&self, name: &str) -> &[u8] {
        self.inputs[name].bytes()
    }
}

/// Calls an entry with what a case has, and writes to its outputs; the answer.
pub type Call = fn(&Taken, &mut Named<Lent>) -> u32;

/// A public entry.
#[derive(Clone, Copy)]
pub struct Entry {
    /// The name in the specification.
    pub name: &'static str,
    /// The answers that are no refusal.
    pub done: &'static [u32],
    /// The refusals that it can answer, in the order in which they are decided.
    pub refusals: &'static [Refusal],
    /// The entry of the library.
    pub library: Call,
    /// The entry of the reference.
    pub reference: Call,
    /// The entry of the package packed, where it has one.
    pub packed: Option<Call>,
    /// The rows of H of a call, where the entry takes a key or a file.
    pub rows: Option<FindRows>,
    /// The package of a call, where the entry reads a file: each is written
    /// again from its fields.
    pub package: Option<FindPackage>,
    /// A table of its cases, where the answers alone don't tell them apart.
    pub table: Option<Table>,
    /// The groups of cases.
    pub groups: fn() -> Vec<Group>,
    /// How many cases of some groups reach an answer, at least.
    pub least: fn() -> Vec<Least>,
}

/// n and H of a call with this answer; none where a refusal of the sizes, the
/// slices or the key comes before anything could be said of the rows.
pub type FindRows = fn(&Taken, u32) -> Option<(usize, Vec<u16>)>;

/// The package of a call with this answer: the file, or what a check file begins
/// with; none where the file is refused.
pub type FindPackage = fn(&Taken, u32) -> Option<Vec<u8>>;

/// The least number of cases of a group, for each of these sizes, that reach an
/// answer.
#[derive(Clone)]
pub struct Least {
    /// The name of the group.
    pub group: &'static str,
    /// The sizes n.
    pub n: Vec<usize>,
    /// The sizes m for each n; with none all m are counted together.
    pub m: Vec<usize>,
    /// The answer.
    pub answer: u32,
    /// The number of cases.
    pub count: usize,
}

/// A cell of a table: the names of its row and of its column.
pub type Cell = (String, String);

/// The rows of a table: each with its name, and the columns that a case in it
/// can have.
pub type Rows = Vec<(String, Vec<String>)>;

/// A table of the cases of an entry. Each cell that is named must be reached.
#[derive(Clone, Copy)]
pub struct Table {
    /// What the names of the rows are.
    pub of: &'static str,
    /// The names of the columns.
    pub columns: fn() -> Vec<String>,
    /// The rows.
    pub rows: fn() -> Rows,
    /// The row and the column of a case, given what the reference answers.
    pub cell: fn(u32, &Case) -> Cell,
}

/// Whose answers and outputs are expected.
#[derive(Clone, Copy, Debug, PartialEq, Eq)]
pub enum Expected {
    /// Those of the reference.
    Reference,
    /// Those of the package packed, which is quicker.
    Packed,
}

/// Hands over the cases of a group, one after another.
pub type Cases = fn(&mut Generator, &mut dyn FnMut(Case));

/// A group of cases of one entry.
#[derive(Clone, Copy)]
pub struct Group {
    /// What its cases have in common.
    pub name: &'static str,
    /// Its cases.
    pub cases: Cases,
    /// Whose answers are expected.
    pub expected: Expected,
    /// Whether rows of H may depend on each other; else that is a fault of the
    /// case.
    pub any_rows: bool,
}

impl Group {
    /// A group whose answers are compared with those of the reference, and whose
    /// rows of H do not depend on each other.
    pub const fn new(name: &'static str, cases: Cases) -> Group {
        Group {
            name,
            cases,
            expected: Expected::Reference,
            any_rows: false,
        }
    }

    /// The group with another name.
    pub const fn named(self, name: &'static str) -> Group {
        Group { name, ..self }
    }

    /// The group with other cases.
    pub const fn with_cases(self, cases: Cases) -> Group {
        Group { cases, ..self }
    }

    /// Hands over one in so many of its cases.
    pub fn one_in(&self, count: usize, generator: &mut Generator, each: &mut dyn FnMut(Case)) {
        let mut turn = 0;
        (self.cases)(generator, &mut |case| {
            turn += 1;
            if turn % count == 0 {
                each(case);
            }
        });
    }

    /// The group, compared with the package packed.
    pub const fn by_packed(self) -> Group {
        let expected = Expected::Packed;
        Group { expected, ..self }
    }

    /// The group, in which rows of H may depend on each other.
    pub const fn with_any_rows(self) -> Group {
        let any_rows = true;
        Group { any_rows, ..self }
    }
}

/// What one call takes, its outputs before the call, and what is known of the
/// result without the reference.
#[derive(Clone, Debug, Default)]
pub struct Case {
    /// The numbers and the slices that the entry reads.
    pub taken: Taken,
    /// The slices that the entry writes, with random content.
    pub outputs: Named<Lent>,
    /// The answer, where the case is made for one.
    pub answer: Option<u32>,
    /// What the outputs hold after the call, where the specification states it.
    pub stated: Option<Vec<Stated>>,
}

impl Case {
    /// A case of which nothing is known.
    pub fn new(numbers: Named<usize>, inputs: Named<Lent>, outputs: Named<Lent>) -> Case {
        Case {
            taken: Taken { numbers, inputs },
            outputs,
            answer: None,
            stated: None,
        }
    }

    /// The case with this answer, where one is known.
    pub fn answering(self, answer: Option<u32>) -> Case {
        Case { answer, ..self }
    }

    /// A slice of the case, an input or an output.
    pub fn slice_mut(&mut self, name: &str) -> &mut Lent {
        let input = self.taken.inputs.get_mut(name);
        input.unwrap_or_else(|| &mut self.outputs[name])
    }

    /// Sets the bytes of an input.
    pub fn set_bytes(&mut self, name: &str, bytes: &[u8]) {
        self.inputs[name].bytes_mut().copy_from_slice(bytes);
    }

    /// Sets the words of an input.
    pub fn set_words(&mut self, name: &str, words: &[u16]) {
        self.inputs[name].words_mut().copy_from_slice(words);
    }
}

impl Deref for Case {
    type Target = Taken;

    fn deref(&self) -> &Taken {
        &self.taken
    }
}

impl DerefMut for Case {
    fn deref_mut(&mut self) -> &mut Taken {
        &mut self.taken
    }
}

/// An element of an output that the specification states.
#[derive(Clone, Copy, Debug, PartialEq, Eq)]
pub struct Stated {
    /// The name of the output.
    pub output: &'static str,
    /// The index of the element.
    pub index: usize,
    /// Its value.
    pub value: u64,
}

/// The refusal that is decided first among those that apply, by the list of an
/// entry.
pub fn decided(list: &[Refusal], applying: &[Refusal]) -> Refusal {
    let first = list.iter().find(|refusal| applying.contains(refusal));
    *first.expect("a refusal of the entry applies")
}
