//! The entry quick look: the file of quick looks, and the positions of text files,
//! where the tops of their column polynomials tell whether all is well.

use super::calls::{Comparison, Stated};
use super::list::{error, List, Word};
use super::text::{Form, Lines, Text, Witness};
use crate::case::Taken;
use crate::entries::quick_look::INDEX;
use crate::lent::Lent;
use crate::named::Named;
use crate::slices::{N, POSITIONS};

/// The name of the file.
pub const NAME: &str = "quick_look.txt";

/// The name of the entry.
const QUICK_LOOK: &str = "quick look";

/// All is well.
const WELL: u64 = 0;

/// Some position is no column or came before.
const OFFENDER: u64 = 255;

/// A part of the file that is not refused.
struct Looked {
    positions: List,
    answer: List,
    /// The index of the offender; no word where all is well.
    index: List,
}

/// A part of the file with a refusal.
struct Refused {
    n: usize,
    positions: List,
    answer: List,
}

impl Looked {
    /// The next part.
    fn read(lines: &mut Lines) -> Result<Looked, String> {
        lines.part("case")?;
        let n = lines.number("n")?;
        let positions = lines.single(POSITIONS, n, Form::Small)?;
        let answer = lines.single("answer", 1, Form::Decimal)?;
        let index = match answer.words[0].value {
            WELL => List::zeros(INDEX, 0),
            OFFENDER => lines.single(INDEX, 1, Form::Small)?,
            _ => return error(answer.words[0].line, "answer is neither 0 nor 255"),
        };
        Ok(Looked {
            positions,
            answer,
            index,
        })
    }
}

impl Refused {
    /// The next part.
    fn read(lines: &mut Lines) -> Result<Refused, String> {
        lines.part("refused")?;
        Ok(Refused {
            n: lines.single("n", 1, Form::Size)?.value(0),
            positions: lines.lent("positions_length", "positions_bytes", Form::Small)?,
            answer: lines.single("answer", 1, Form::Decimal)?,
        })
    }
}

/// The answer that the tops of the column polynomials tell, at the place of the
/// first word of a top that isn't zero, or of the last word.
fn told_by_tops(text: &Text, witness: &Witness) -> List {
    let list = &witness.polynomial;
    let tops = (0..text.n.value(0)).map(|j| list.element((text.d + 1) * j + text.d));
    let words: Vec<Word> = tops.flat_map(|top| top.words).collect();
    let nonzero = words.iter().find(|word| word.value != 0);
    let (place, value) = match nonzero {
        Some(word) => (word, OFFENDER),
        None => (&words[words.len() - 1], WELL),
    };
    List {
        name: list.name,
        words: vec![Word { value, ..*place }],
    }
}

impl Comparison<'_> {
    /// The entry quick look.
    fn quick_look(&mut self, n: usize, positions: &List, stated: Stated) -> Result<(), String> {
        let taken = Taken {
            numbers: Named::from([(N, n)]),
            inputs: Named::from([(POSITIONS, self.bytes(positions))]),
        };
        let outputs = Named::from([(INDEX, Lent::any_size(self.generator))]);
        self.call(QUICK_LOOK, taken, outputs, stated)?;
        Ok(())
    }

    /// The file of quick looks: parts that are not refused, then parts that are, at
    /// least one of each.
    pub fn quick_looks(&mut self, content: &[u8]) -> Result<(), String> {
        let content = std::str::from_utf8(content).map_err(|error| error.to_string())?;
        let lines = &mut Lines::new(content)?;
        let mut looked = Vec::new();
        while looked.is_empty() || lines.next_name() == Some("case") {
            looked.push(Looked::read(lines)?);
        }
        let mut refused = Vec::new();
        while refused.is_empty() || lines.next_name().is_some() {
            refused.push(Refused::read(lines)?);
        }
        for part in looked {
            let stated = Stated {
                answer: Some(&part.answer),
                outputs: Named::from([(INDEX, &part.index)]),
            };
            self.quick_look(part.positions.len(), &part.positions, stated)?;
        }
        for part in refused {
            self.quick_look(part.n, &part.positions, Stated::answer(&part.answer))?;
        }
        Ok(())
    }

    /// A quick look at positions of a text. The index stays where all is well, and
    /// else the text does not state it.
    pub fn quick_look_at(&mut self, text: &Text, witness: &Witness) -> Result<(), String> {
        let answer = told_by_tops(text, witness);
        let mut stated = Stated::answer(&answer);
        let unchanged = List::zeros(INDEX, 0);
        if answer.words[0].value == WELL {
            stated.outputs.push(INDEX, &unchanged);
        }
        self.quick_look(text.n.value(0), &witness.positions, stated)
    }
}
