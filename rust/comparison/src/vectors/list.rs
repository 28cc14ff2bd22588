//! Words of a file with the places where it states them.

use std::fmt::Display;
use std::str::FromStr;

/// The number of coordinates of an element of K.
pub const COORDINATES: usize = 12;

/// The answers for the verdicts of a line.
const VERDICTS: [(&str, u64); 2] = [("accepted", 0), ("rejected", 255)];

/// A word, and where the file states it.
#[derive(Clone, Copy, Debug)]
pub struct Word {
    /// Its value.
    pub value: u64,
    /// The line, the first is 1; 0 in a file without lines.
    pub line: usize,
    /// The place among the words of the line, counted from 0 after the name and
    /// the line number; in a file without lines, the offset.
    pub place: usize,
}

/// The words of one name.
#[derive(Clone, Debug)]
pub struct List {
    /// The name.
    pub name: &'static str,
    /// The words, those of all its lines.
    pub words: Vec<Word>,
}

/// The line of perkcheck for a file that isn't refused.
#[derive(Clone, Debug)]
pub struct Line {
    /// The text, without a line feed.
    pub text: String,
    /// n.
    pub n: List,
    /// m.
    pub m: List,
    /// The serial.
    pub serial: List,
    /// The answer of verify and check.
    pub verdict: List,
}

impl List {
    /// The words of several lists, under the name of the first.
    pub fn joined(lists: &[&List]) -> List {
        List {
            name: lists[0].name,
            words: lists.iter().flat_map(|list| list.words.clone()).collect(),
        }
    }

    /// Zeros that no line states.
    pub fn zeros(name: &'static str, count: usize) -> List {
        List::of_bytes(name, &vec![0; count])
    }

    /// The bytes of a file without lines.
    pub fn of_bytes(name: &'static str, bytes: &[u8]) -> List {
        let words = bytes.iter().enumerate().map(|(place, &byte)| Word {
            value: byte.into(),
            line: 0,
            place,
        });
        List {
            name,
            words: words.collect(),
        }
    }

    /// Whether all words are zero.
    pub fn is_zero(&self) -> bool {
        self.words.iter().all(|word| word.value == 0)
    }

    /// The number of words.
    pub fn len(&self) -> usize {
        self.words.len()
    }

    /// Whether there is no word.
    pub fn is_empty(&self) -> bool {
        self.words.is_empty()
    }

    /// The value of a word.
    pub fn value(&self, index: usize) -> usize {
        self.words[index].value as usize
    }

    /// The words as sizes.
    pub fn sizes(&self) -> Vec<usize> {
        self.words.iter().map(|word| word.value as usize).collect()
    }

    /// A part of the list.
    pub fn part(&self, start: usize, len: usize) -> List {
        List {
            name: self.name,
            words: self.words[start..start + len].to_vec(),
        }
    }

    /// Element I of a list of elements of K.
    pub fn element(&self, index: usize) -> List {
        self.part(COORDINATES * index, COORDINATES)
    }

    /// The words as bytes; the parser allows no larger ones where a name has
    /// bytes.
    pub fn bytes(&self) -> Vec<u8> {
        self.words.iter().map(|word| word.value as u8).collect()
    }

    /// The words as words of 16 bits.
    pub fn words16(&self) -> Vec<u16> {
        self.words.iter().map(|word| word.value as u16).collect()
    }

    /// Each word as this many bytes, the highest first.
    pub fn in_bytes(&self, count: usize) -> List {
        let bytes = |&word: &Word| {
            let shifts = (0..count).rev().map(|place| 8 * place);
            shifts.map(move |shift| Word {
                value: word.value >> shift & 0xff,
                ..word
            })
        };
        List {
            name: self.name,
            words: self.words.iter().flat_map(bytes).collect(),
        }
    }

    /// Each two bytes as a word, the highest first. Their number is even.
    pub fn joined_bytes(&self) -> List {
        let pair = |pair: &[Word]| Word {
            value: pair[0].value << 8 | pair[1].value,
            ..pair[0]
        };
        List {
            name: self.name,
            words: self.words.chunks_exact(2).map(pair).collect(),
        }
    }

    /// Where a word is stated.
    pub fn place(&self, index: usize) -> String {
        let Word { line, place, .. } = self.words[index];
        match line {
            0 => format!("{}, byte {place}", self.name),
            _ => format!("{}, line {line}, word {place}", self.name),
        }
    }
}

impl Line {
    /// The line of perkcheck with these words, under a name. The places of its
    /// words are counted from `start`.
    pub fn new(
        name: &'static str,
        line: usize,
        start: usize,
        words: &[&str],
    ) -> Result<Line, String> {
        let list = |place: usize, value: Option<u64>| match value {
            Some(value) => Ok(List {
                name,
                words: vec![Word {
                    value,
                    line,
                    place: start + place,
                }],
            }),
            None => error(line, format!("{name} has a wrong word {}", start + place)),
        };
        let &["serial", serial, "n", n, "m", m, verdict] = words else {
            return error(line, format!("{name} is no line of perkcheck"));
        };
        let number = |text| decimal::<u32>(text).map(u64::from);
        let answer = VERDICTS.iter().find(|(name, _)| *name == verdict);
        Ok(Line {
            text: words.join(" "),
            serial: list(1, number(serial))?,
            n: list(3, number(n))?,
            m: list(5, number(m))?,
            verdict: list(6, answer.map(|&(_, answer)| answer))?,
        })
    }
}

/// An error in a line.
pub fn error<T>(line: usize, what: impl Display) -> Result<T, String> {
    Err(format!("line {line}: {what}"))
}

/// A decimal number without a sign and without leading zeros.
pub fn decimal<T: FromStr + ToString>(text: &str) -> Option<T> {
    let number: T = text.parse().ok()?;
    (number.to_string() == text).then_some(number)
}

/// Numbers of the same count of lower-case hexadecimal digits.
pub fn hexadecimal(text: &str, digits: usize) -> Option<Vec<u64>> {
    let right = |byte| matches!(byte, b'0'..=b'9' | b'a'..=b'f');
    if text.is_empty() || !text.len().is_multiple_of(digits) || !text.bytes().all(right) {
        return None;
    }
    let starts = (0..text.len()).step_by(digits);
    starts
        .map(|start| u64::from_str_radix(&text[start..start + digits], 16).ok())
        .collect()
}
