//! Reads a text file of `vectors/`. Its form is that of `docs/vectors.md`, and
//! any other is an error.

use super::list::{decimal, error, hexadecimal, Line, List, Word, COORDINATES};
use crate::named::Named;
use crate::slices;

/// The most bytes of a line before its line feed.
const LINE: usize = 511;

/// The most bytes of a file on a line.
const BYTES: usize = 64;

/// The most words of a slice of any length on a line.
const WORDS: usize = 64;

/// One byte of the check file changed.
#[derive(Clone, Debug)]
pub struct Change {
    /// The offset, the byte before and the byte after.
    pub bytes: List,
    /// The line of the changed file.
    pub line: Line,
}

/// A witness with what it gives.
#[derive(Clone, Debug)]
pub struct Witness {
    /// The positions.
    pub positions: List,
    /// The masked witness.
    pub t: List,
    /// The coefficients of the polynomials.
    pub polynomial: List,
    /// The verifier's values.
    pub value: List,
}

/// Another H and y that the same positions solve, with rows that lean on each
/// other.
#[derive(Clone, Debug)]
pub struct Leaning {
    /// The matrix.
    pub h: List,
    /// The target.
    pub y: List,
    /// The rank of the matrix.
    pub rank: List,
    /// The matrix that rank writes.
    pub matrix: List,
    /// The refusal of constraints.
    pub constraints: List,
    /// The refusal of prove.
    pub prove: List,
    /// The refusal of values.
    pub values: List,
    /// The refusal of verify.
    pub verify: List,
}

/// The content of a text file.
#[derive(Clone, Debug)]
pub struct Text {
    /// The size n.
    pub n: List,
    /// The size m.
    pub m: List,
    /// The number of digits.
    pub d: usize,
    /// The serial.
    pub serial: List,
    /// The matrix.
    pub h: List,
    /// The vector.
    pub x: List,
    /// The target.
    pub y: List,
    /// The mask bits.
    pub u: List,
    /// The offsets.
    pub v: List,
    /// The masks.
    pub r: List,
    /// The factors of the masks.
    pub s: List,
    /// The weights.
    pub alpha: List,
    /// The challenge.
    pub delta: List,
    /// The numbers.
    pub q: List,
    /// The mask numbers.
    pub mask: List,
    /// The witness that solves the key.
    pub solving: Witness,
    /// The proof.
    pub a: List,
    /// The check file.
    pub file: List,
    /// Its line.
    pub line: Line,
    /// The check file with a changed proof.
    pub tampered_file: List,
    /// Its line.
    pub tampered_line: Line,
    /// The changes of one byte.
    pub changes: Vec<Change>,
    /// The witness that doesn't solve the key.
    pub wrong: Witness,
    /// The refusal of prove for it.
    pub wrong_prove: List,
    /// The rank of the matrix.
    pub rank: List,
    /// The matrix that rank writes.
    pub matrix: List,
    /// The key with rows that lean on each other.
    pub leaning: Leaning,
}

impl Text {
    /// The slices of this witness, by their names.
    pub fn slices<'a>(&'a self, witness: &'a Witness) -> Named<&'a List> {
        Named::from([
            (slices::H, &self.h),
            (slices::X, &self.x),
            (slices::Y, &self.y),
            (slices::POSITIONS, &witness.positions),
            (slices::U, &self.u),
            (slices::V, &self.v),
            (slices::R, &self.r),
            (slices::S, &self.s),
            (slices::ALPHA, &self.alpha),
            (slices::T, &witness.t),
            (slices::Q, &self.q),
            (slices::DELTA, &self.delta),
            (slices::MASKS, &self.mask),
            (slices::A, &self.a),
            (slices::POLYNOMIALS, &witness.polynomial),
            (slices::VALUES, &witness.value),
        ])
    }

    /// The slices of the witness that solves the key, with the H and the y of the
    /// one whose rows lean.
    pub fn leaning_slices(&self) -> Named<&List> {
        let mut slices = self.slices(&self.solving);
        slices[slices::H] = &self.leaning.h;
        slices[slices::Y] = &self.leaning.y;
        slices
    }

    /// The sizes n and m.
    pub fn sizes(&self) -> [usize; 2] {
        [self.n.value(0), self.m.value(0)]
    }
}

/// The forms of values.
#[derive(Clone, Copy)]
pub enum Form {
    /// A decimal number up to the largest of 32 bits.
    Decimal,
    /// A decimal number up to the largest of 64 bits.
    Size,
    /// A decimal number up to 255.
    Small,
    /// An element of F.
    F,
    /// An element of K.
    K,
}

impl Form {
    /// The words of one value.
    fn words(self, text: &str) -> Option<Vec<u64>> {
        let count = match self {
            Form::Decimal => return decimal::<u32>(text).map(|number| vec![number.into()]),
            Form::Size => return decimal::<u64>(text).map(|number| vec![number]),
            Form::Small => return decimal::<u8>(text).map(|number| vec![number.into()]),
            Form::F => 1,
            Form::K => COORDINATES,
        };
        hexadecimal(text, 4).filter(|words| words.len() == count)
    }
}

/// The lines that are still to be read.
pub struct Lines<'a> {
    /// The words of each line.
    lines: Vec<Vec<&'a str>>,
    /// How many were read.
    read: usize,
}

impl<'a> Lines<'a> {
    /// The lines of a text.
    pub fn new(text: &'a str) -> Result<Lines<'a>, String> {
        let Some(all) = text.strip_suffix('\n') else {
            return Err("no line feed at the end".to_string());
        };
        let mut lines = Vec::new();
        for (index, line) in all.split('\n').enumerate() {
            let words: Vec<&str> = line.split(' ').collect();
            if line.len() > LINE || words.len() < 2 || words.contains(&"") {
                return error(index + 1, "not a name and its values, or too long");
            }
            lines.push(words);
        }
        Ok(Lines { lines, read: 0 })
    }

    /// The name of the next line; none at the end.
    pub fn next_name(&self) -> Option<&'a str> {
        self.lines.get(self.read).map(|words| words[0])
    }

    /// The values of the next line, which has this name, and its number.
    pub fn next(&mut self, name: &str) -> Result<(usize, Vec<&'a str>), String> {
        let line = self.read + 1;
        match self.next_name() {
            Some(found) if found == name => {
                self.read += 1;
                Ok((line, self.lines[line - 1][1..].to_vec()))
            }
            Some(found) => error(line, format!("{name} expected, {found} found")),
            None => error(line, format!("{name} is missing")),
        }
    }

    /// Adds the values of a line to a list.
    pub fn add(
        list: &mut List,
        line: usize,
        values: &[&str],
        count: usize,
        form: Form,
    ) -> Result<(), String> {
        let name = list.name;
        if values.len() != count {
            let found = values.len();
            return error(line, format!("{name} has {found} values, not {count}"));
        }
        let mut place = 0;
        for value in values {
            let Some(words) = form.words(value) else {
                return error(line, format!("{name} has a wrong value {value}"));
            };
            for value in words {
                list.words.push(Word { value, line, place });
                place += 1;
            }
        }
        Ok(())
    }

    /// A name with one line.
    pub fn single(&mut self, name: &'static str, count: usize, form: Form) -> Result<List, String> {
        let words = Vec::new();
        let mut list = List { name, words };
        let (line, values) = self.next(name)?;
        Lines::add(&mut list, line, &values, count, form)?;
        Ok(list)
    }

    /// A name with one decimal number.
    pub fn number(&mut self, name: &'static str) -> Result<usize, String> {
        Ok(self.single(name, 1, Form::Decimal)?.value(0))
    }

    /// The name of a part, which is one word.
    pub fn part(&mut self, kind: &'static str) -> Result<&'a str, String> {
        let (line, values) = self.next(kind)?;
        match values[..] {
            [name] => Ok(name),
            _ => error(line, format!("{kind} has no name of one word")),
        }
    }

    /// A part with this name.
    pub fn part_named(&mut self, kind: &'static str, name: &str) -> Result<(), String> {
        match self.part(kind)? {
            found if found == name => Ok(()),
            found => error(self.read, format!("{name} expected, {found} found")),
        }
    }

    /// Sizes that rise, on one line or more.
    pub fn sizes(&mut self, name: &'static str) -> Result<List, String> {
        let words = Vec::new();
        let mut list = List { name, words };
        while list.is_empty() || self.next_name() == Some(name) {
            let (line, values) = self.next(name)?;
            Lines::add(&mut list, line, &values, 1, Form::Size)?;
        }
        match list.words.is_sorted_by(|one, next| one.value < next.value) {
            true => Ok(list),
            false => error(self.read, format!("{name} does not rise")),
        }
    }

    /// A slice of any length: its length, then its words on as many lines as they
    /// need.
    pub fn lent(
        &mut self,
        length: &'static str,
        name: &'static str,
        form: Form,
    ) -> Result<List, String> {
        let length = self.number(length)?;
        let words = Vec::new();
        let mut list = List { name, words };
        while list.len() < length {
            let (line, values) = self.next(name)?;
            let count = WORDS.min(length - list.len());
            Lines::add(&mut list, line, &values, count, form)?;
        }
        Ok(list)
    }

    /// A name with this many numbered lines.
    pub fn numbered(
        &mut self,
        name: &'static str,
        lines: usize,
        count: usize,
        form: Form,
    ) -> Result<List, String> {
        let words = Vec::new();
        let mut list = List { name, words };
        for number in 0..lines {
            let (line, values) = self.next(name)?;
            if values[0] != number.to_string() {
                return error(line, format!("{name} {number} expected"));
            }
            Lines::add(&mut list, line, &values[1..], count, form)?;
        }
        Ok(list)
    }

    /// Adds the bytes of the next line, which has the name of the list; the
    /// number of the line.
    fn add_bytes(&mut self, list: &mut List) -> Result<usize, String> {
        let name = list.name;
        let (line, values) = self.next(name)?;
        let bytes = match values[..] {
            [value] => hexadecimal(value, 2).filter(|bytes| bytes.len() <= BYTES),
            _ => None,
        };
        let Some(bytes) = bytes else {
            return error(line, format!("{name} has wrong bytes"));
        };
        let bytes = bytes.into_iter().enumerate();
        list.words
            .extend(bytes.map(|(place, value)| Word { value, line, place }));
        Ok(line)
    }

    /// The bytes of a file, on one line or more.
    pub fn bytes(&mut self, name: &'static str) -> Result<List, String> {
        let words = Vec::new();
        let mut list = List { name, words };
        while list.is_empty() || self.next_name() == Some(name) {
            self.add_bytes(&mut list)?;
        }
        Ok(list)
    }

    /// A slice of bytes of any length: its length, then its bytes, as many on
    /// each line but the last as a line can have.
    pub fn slice(
        &mut self,
        length: &'static str,
        name: &'static str,
    ) -> Result<(List, List), String> {
        let length = self.single(length, 1, Form::Decimal)?;
        let words = Vec::new();
        let mut list = List { name, words };
        while list.len() < length.value(0) {
            let before = list.len();
            let line = self.add_bytes(&mut list)?;
            if list.len() != length.value(0).min(before + BYTES) {
                return error(line, format!("{name} has a wrong number of bytes"));
            }
        }
        Ok((length, list))
    }

    /// A line of perkcheck.
    fn line(&mut self, name: &'static str) -> Result<Line, String> {
        let (line, values) = self.next(name)?;
        Line::new(name, line, 0, &values)
    }

    /// No line is left.
    pub fn end(&self) -> Result<(), String> {
        match self.next_name() {
            Some(found) => error(self.read + 1, format!("the end expected, {found} found")),
            None => Ok(()),
        }
    }

    /// All changes of one byte, at least one.
    fn changes(&mut self) -> Result<Vec<Change>, String> {
        const NAME: &str = "change";
        let mut changes = Vec::new();
        while changes.is_empty() || self.next_name() == Some(NAME) {
            let (line, values) = self.next(NAME)?;
            let [offset, before, after, words @ ..] = &values[..] else {
                return error(line, "change has too few values");
            };
            let byte = |text| hexadecimal(text, 2).filter(|bytes| bytes.len() == 1);
            let (Some(offset), Some(before), Some(after)) =
                (decimal::<u32>(offset), byte(before), byte(after))
            else {
                return error(line, "change has a wrong offset or byte");
            };
            let values = [offset.into(), before[0], after[0]];
            let values = values.into_iter().enumerate();
            let bytes = List {
                name: NAME,
                words: values
                    .map(|(place, value)| Word { value, line, place })
                    .collect(),
            };
            let line = Line::new(NAME, line, 3, words)?;
            changes.push(Change { bytes, line });
        }
        Ok(changes)
    }
}

/// The content of a text file.
pub fn parsed(text: &str) -> Result<Text, String> {
    let mut lines = Lines::new(text)?;
    let lines = &mut lines;
    let n_list = lines.single("n", 1, Form::Small)?;
    let m_list = lines.single("m", 1, Form::Small)?;
    let d_list = lines.single("d", 1, Form::Small)?;
    let (n, m, d) = (n_list.value(0), m_list.value(0), d_list.value(0));
    if d == 0 {
        return error(3, "d is 0");
    }
    let serial = lines.single("serial", 1, Form::Decimal)?;
    let h = lines.numbered("h", m, n, Form::F)?;
    let x = lines.single("x", n, Form::F)?;
    let y = lines.single("y", m, Form::F)?;
    let positions = lines.single("positions", n, Form::Small)?;
    let u = lines.numbered("u", n, d, Form::Small)?;
    let v = lines.numbered("v", n, d, Form::K)?;
    let r = lines.numbered("r", d - 1, 1, Form::K)?;
    let s = lines.numbered("s", d - 1, 1, Form::K)?;
    let alpha = lines.numbered("alpha", n + m, 1, Form::K)?;
    let delta = lines.single("delta", 1, Form::K)?;
    let q = lines.numbered("q", n, d, Form::K)?;
    let mask = lines.numbered("mask", d - 1, 1, Form::K)?;
    let solving = Witness {
        positions,
        t: lines.numbered("t", n, d, Form::Small)?,
        polynomial: lines.numbered("polynomial", n + m, d + 1, Form::K)?,
        value: lines.numbered("value", n + m, 1, Form::K)?,
    };
    let content = Text {
        n: n_list,
        m: m_list,
        d,
        serial,
        h,
        x,
        y,
        u,
        v,
        r,
        s,
        alpha,
        delta,
        q,
        mask,
        solving,
        a: lines.numbered("a", d, 1, Form::K)?,
        file: lines.bytes("file")?,
        line: lines.line("line")?,
        tampered_file: lines.bytes("tampered_file")?,
        tampered_line: lines.line("tampered_line")?,
        changes: lines.changes()?,
        wrong: Witness {
            positions: lines.single("wrong_positions", n, Form::Small)?,
            t: lines.numbered("wrong_t", n, d, Form::Small)?,
            polynomial: lines.numbered("wrong_polynomial", n + m, d + 1, Form::K)?,
            value: lines.numbered("wrong_value", n + m, 1, Form::K)?,
        },
        wrong_prove: lines.single("wrong_prove", 1, Form::Decimal)?,
        rank: lines.single("rank", 1, Form::Small)?,
        matrix: lines.numbered("matrix", m, n, Form::F)?,
        leaning: Leaning {
            h: lines.numbered("leaning_h", m, n, Form::F)?,
            y: lines.single("leaning_y", m, Form::F)?,
            rank: lines.single("leaning_rank", 1, Form::Small)?,
            matrix: lines.numbered("leaning_matrix", m, n, Form::F)?,
            constraints: lines.single("leaning_constraints", 1, Form::Decimal)?,
            prove: lines.single("leaning_prove", 1, Form::Decimal)?,
            values: lines.single("leaning_values", 1, Form::Decimal)?,
            verify: lines.single("leaning_verify", 1, Form::Decimal)?,
        },
    };
    lines.end()?;
    Ok(content)
}
