//! The entry rank: the file of ranks, and the ranks of the keys of text files;
//! and of each of these the key whose rows lean on each other.

use super::calls::{Comparison, Stated};
use super::list::{List, Word, COORDINATES};
use super::text::{Form, Lines, Text};
use crate::case::Taken;
use crate::entries::constraints::Constraints;
use crate::entries::keyed::{numbers, sizes};
use crate::entries::prove::Prove;
use crate::entries::rank::OUT;
use crate::entries::values::Values;
use crate::entries::verify::Verify;
use crate::lent::Lent;
use crate::named::Named;
use crate::slices::{H, MATRIX};

/// The name of the file.
pub const NAME: &str = "rank.txt";

/// The name of the entry.
const RANK: &str = "rank";

/// A part of the file with a rank.
struct Ranked {
    sizes: [usize; 2],
    h: List,
    rank: List,
    matrix: List,
}

/// A part of the file with a refusal.
struct Refused {
    sizes: [usize; 2],
    h: List,
    /// The length of the matrix that is lent.
    matrix: usize,
    answer: List,
}

impl Ranked {
    /// The next part.
    fn read(lines: &mut Lines) -> Result<Ranked, String> {
        lines.part("case")?;
        let [n, m] = [lines.number("n")?, lines.number("m")?];
        Ok(Ranked {
            sizes: [n, m],
            h: lines.numbered("h", m, n, Form::F)?,
            rank: lines.single("rank", 1, Form::Small)?,
            matrix: lines.numbered("matrix", m, n, Form::F)?,
        })
    }
}

impl Refused {
    /// The next part.
    fn read(lines: &mut Lines) -> Result<Refused, String> {
        lines.part("refused")?;
        Ok(Refused {
            sizes: [lines.number("n")?, lines.number("m")?],
            h: lines.lent("h_length", "h_words", Form::F)?,
            matrix: lines.number("matrix_length")?,
            answer: lines.single("answer", 1, Form::Decimal)?,
        })
    }
}

/// An element of F of a list, as an element of K.
fn as_element(list: &List, index: usize) -> List {
    let first = list.words[index];
    let mut words = vec![Word { value: 0, ..first }; COORDINATES];
    words[0] = first;
    List {
        name: list.name,
        words,
    }
}

impl Comparison<'_> {
    /// What rank takes, and the outputs that it is lent.
    fn rank_call(&mut self, [n, m]: [usize; 2], h: &List, matrix: usize) -> (Taken, Named<Lent>) {
        let taken = Taken {
            numbers: numbers(sizes(n, m)),
            inputs: Named::from([(H, self.words(h))]),
        };
        let matrix = Lent::any_words(matrix, self.generator);
        let rank = Lent::any_size(self.generator);
        (taken, Named::from([(MATRIX, matrix), (OUT, rank)]))
    }

    /// The entry rank, with what it writes.
    fn rank(
        &mut self,
        sizes: [usize; 2],
        h: &List,
        rank: &List,
        matrix: &List,
    ) -> Result<(), String> {
        let (taken, outputs) = self.rank_call(sizes, h, matrix.len());
        let stated = Stated::outputs([(MATRIX, matrix), (OUT, rank)]);
        self.call(RANK, taken, outputs, stated)?;
        Ok(())
    }

    /// The file of ranks: parts with a rank, then parts with a refusal, at least
    /// one of each.
    pub fn ranks(&mut self, content: &[u8]) -> Result<(), String> {
        let content = std::str::from_utf8(content).map_err(|error| error.to_string())?;
        let lines = &mut Lines::new(content)?;
        let mut ranked = Vec::new();
        while ranked.is_empty() || lines.next_name() == Some("case") {
            ranked.push(Ranked::read(lines)?);
        }
        let mut refused = Vec::new();
        while refused.is_empty() || lines.next_name().is_some() {
            refused.push(Refused::read(lines)?);
        }
        for part in ranked {
            self.rank(part.sizes, &part.h, &part.rank, &part.matrix)?;
        }
        for part in refused {
            let (taken, outputs) = self.rank_call(part.sizes, &part.h, part.matrix);
            self.call(RANK, taken, outputs, Stated::answer(&part.answer))?;
        }
        Ok(())
    }

    /// Each row of H times x, in the order of the positions of a text, is its
    /// element of y, by products and sums in K.
    fn solved(&mut self, text: &Text, h: &List, y: &List) -> Result<(), String> {
        let [n, m] = text.sizes();
        for e in 0..m {
            let mut sum = vec![0; COORDINATES];
            for i in 0..n {
                let position = text.solving.positions.value(i);
                if position >= n {
                    let place = text.solving.positions.place(i);
                    return Err(format!("{place}: no column"));
                }
                let h = as_element(h, n * e + i).words16();
                let x = as_element(&text.x, position).words16();
                let result = as_element(y, e);
                let result = Some(&result).filter(|_| i == n - 1);
                sum = self.product_and_sum([&h, &x, &sum], result)?;
            }
        }
        Ok(())
    }

    /// The ranks of a text, and the refusals for the rows that lean.
    pub fn leaning(&mut self, text: &Text) -> Result<(), String> {
        let sizes = text.sizes();
        let leaning = &text.leaning;
        self.rank(sizes, &text.h, &text.rank, &text.matrix)?;
        self.rank(sizes, &leaning.h, &leaning.rank, &leaning.matrix)?;
        self.solved(text, &text.h, &text.y)?;
        self.solved(text, &leaning.h, &leaning.y)?;
        let slices = text.leaning_slices();
        self.keyed::<Constraints>("constraints", sizes, &slices, Some(&leaning.constraints))?;
        self.keyed::<Prove>("prove", sizes, &slices, Some(&leaning.prove))?;
        self.keyed::<Values>("values", sizes, &slices, Some(&leaning.values))?;
        self.keyed::<Verify>("verify", sizes, &slices, Some(&leaning.verify))
    }
}
