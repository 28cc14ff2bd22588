//! Lent slices. Each is the middle of a buffer that has random guard words on
//! both sides, so that a write outside of the slice is seen. A single number
//! that an entry writes is a slice of length 1.

use reference::samples::Generator;
use std::fmt;

/// The least number of guard words on each side, more than one element of K
/// has.
const GUARD: usize = 32;

/// The number of elements of a slice that are shown.
const SHOWN: usize = 120;

/// The buffer of one lent slice: guard, content, guard.
#[derive(Clone, Debug)]
pub struct Buffer<T> {
    all: Vec<T>,
    /// The number of guard words before the content.
    start: usize,
    /// The number of words of the content.
    len: usize,
}

/// Two buffers differ in a word.
#[derive(Clone, Copy, Debug, PartialEq, Eq)]
pub struct Difference {
    /// The index of the word in the content; below 0 or from the length on it
    /// is a guard word.
    pub index: isize,
    /// Whether it is a guard word.
    pub guard: bool,
    /// The word in the first buffer.
    pub found: u64,
    /// The word in the second buffer.
    pub expected: u64,
}

/// A word of a buffer.
pub trait Word: Copy + Eq {
    /// Any word.
    fn any(generator: &mut Generator) -> Self;
    /// The word as a number.
    fn number(self) -> u64;
}

macro_rules! words {
    ($($word:ty),*) => {$(
        impl Word for $word {
            fn any(generator: &mut Generator) -> $word {
                generator.number() as $word
            }

            fn number(self) -> u64 {
                self as u64
            }
        }
    )*};
}

words!(u8, u16, u32, usize);

/// Any words.
fn any<T: Word>(len: usize, generator: &mut Generator) -> Vec<T> {
    (0..len).map(|_| T::any(generator)).collect()
}

impl<T: Word> Buffer<T> {
    /// A buffer with this content. The number of guard words before it varies,
    /// so that the content begins at varying addresses.
    fn new(content: &[T], generator: &mut Generator) -> Buffer<T> {
        Buffer::followed(content, &[], generator)
    }

    /// A buffer with this content, and these words as the first of the guard
    /// after it.
    fn followed(content: &[T], next: &[T], generator: &mut Generator) -> Buffer<T> {
        let start = GUARD + generator.below(8);
        let mut all = any(start, generator);
        all.extend_from_slice(content);
        all.extend_from_slice(next);
        all.extend(any::<T>(GUARD, generator));
        Buffer {
            all,
            start,
            len: content.len(),
        }
    }

    /// A buffer without any memory: its empty content has a dangling pointer.
    fn dangling() -> Buffer<T> {
        Buffer {
            all: Vec::new(),
            start: 0,
            len: 0,
        }
    }

    fn content(&self) -> &[T] {
        &self.all[self.start..self.start + self.len]
    }

    fn content_mut(&mut self) -> &mut [T] {
        &mut self.all[self.start..self.start + self.len]
    }

    /// The first word in which this buffer and another of the same form differ,
    /// those of the content first.
    fn difference(&self, expected: &Buffer<T>) -> Option<Difference> {
        if self.all == expected.all {
            return None;
        }
        let start = self.start as isize;
        let differences = self.all.iter().zip(&expected.all).enumerate();
        differences
            .filter(|(_, (found, expected))| found != expected)
            .map(|(place, (&found, &expected))| Difference {
                index: place as isize - start,
                guard: !(self.start..self.start + self.len).contains(&place),
                found: found.number(),
                expected: expected.number(),
            })
            .min_by_key(|difference| difference.guard)
    }
}

/// A lent slice of bytes, of 16-bit words, of 32-bit numbers or of sizes.
#[derive(Clone, Debug)]
pub enum Lent {
    /// A slice of bytes.
    Bytes(Buffer<u8>),
    /// A slice of words.
    Words(Buffer<u16>),
    /// A slice of numbers.
    Numbers(Buffer<u32>),
    /// A slice of sizes.
    Sizes(Buffer<usize>),
}

/// What the buffer of a lent slice gives, whatever its elements are.
macro_rules! buffer {
    ($lent:expr, $buffer:ident => $value:expr) => {
        match $lent {
            Lent::Bytes($buffer) => $value,
            Lent::Words($buffer) => $value,
            Lent::Numbers($buffer) => $value,
            Lent::Sizes($buffer) => $value,
        }
    };
}

impl Lent {
    /// A slice with these bytes.
    pub fn with_bytes(content: &[u8], generator: &mut Generator) -> Lent {
        Lent::Bytes(Buffer::new(content, generator))
    }

    /// A slice with these bytes, followed by others in the memory.
    pub fn with_bytes_before(content: &[u8], next: &[u8], generator: &mut Generator) -> Lent {
        Lent::Bytes(Buffer::followed(content, next, generator))
    }

    /// A slice with these words.
    pub fn with_words(content: &[u16], generator: &mut Generator) -> Lent {
        Lent::Words(Buffer::new(content, generator))
    }

    /// A slice of bytes with random content, for an output.
    pub fn any_bytes(len: usize, generator: &mut Generator) -> Lent {
        let content: Vec<u8> = any(len, generator);
        Lent::with_bytes(&content, generator)
    }

    /// A slice of words with random content, for an output.
    pub fn any_words(len: usize, generator: &mut Generator) -> Lent {
        let content: Vec<u16> = any(len, generator);
        Lent::with_words(&content, generator)
    }

    /// One number of 32 bits with random content, for an output.
    pub fn any_number(generator: &mut Generator) -> Lent {
        let content: Vec<u32> = any(1, generator);
        Lent::Numbers(Buffer::new(&content, generator))
    }

    /// One size with random content, for an output.
    pub fn any_size(generator: &mut Generator) -> Lent {
        let content: Vec<usize> = any(1, generator);
        Lent::Sizes(Buffer::new(&content, generator))
    }

    /// An empty slice of bytes with a dangling pointer.
    pub fn no_bytes() -> Lent {
        Lent::Bytes(Buffer::dangling())
    }

    /// An empty slice of words with a dangling pointer.
    pub fn no_words() -> Lent {
        Lent::Words(Buffer::dangling())
    }

    /// The content of a slice of bytes.
    pub fn bytes(&self) -> &[u8] {
        match self {
            Lent::Bytes(buffer) => buffer.content(),
            _ => panic!("other elements where bytes are lent"),
        }
    }

    /// The content of a slice of bytes, to write.
    pub fn bytes_mut(&mut self) -> &mut [u8] {
        match self {
            Lent::Bytes(buffer) => buffer.content_mut(),
            _ => panic!("other elements where bytes are lent"),
        }
    }

    /// The content of a slice of words.
    pub fn words(&self) -> &[u16] {
        match self {
            Lent::Words(buffer) => buffer.content(),
            _ => panic!("other elements where words are lent"),
        }
    }

    /// The content of a slice of words, to write.
    pub fn words_mut(&mut self) -> &mut [u16] {
        match self {
            Lent::Words(buffer) => buffer.content_mut(),
            _ => panic!("other elements where words are lent"),
        }
    }

    /// The number of 32 bits, to write.
    pub fn number_mut(&mut self) -> &mut u32 {
        match self {
            Lent::Numbers(buffer) => &mut buffer.content_mut()[0],
            _ => panic!("other elements where a number is lent"),
        }
    }

    /// The size, to write.
    pub fn size_mut(&mut self) -> &mut usize {
        match self {
            Lent::Sizes(buffer) => &mut buffer.content_mut()[0],
            _ => panic!("other elements where a size is lent"),
        }
    }

    /// The number of elements.
    pub fn len(&self) -> usize {
        buffer!(self, buffer => buffer.len)
    }

    /// Whether the slice has no element.
    pub fn is_empty(&self) -> bool {
        self.len() == 0
    }

    /// An element.
    pub fn element(&self, index: usize) -> u64 {
        buffer!(self, buffer => buffer.content()[index].number())
    }

    /// Sets an element of a slice of bytes, to a value that is a byte, or of a
    /// slice of words.
    pub fn set(&mut self, index: usize, value: u16) {
        match self {
            Lent::Bytes(buffer) => {
                buffer.content_mut()[index] = value.try_into().expect("a byte");
            }
            _ => self.words_mut()[index] = value,
        }
    }

    /// Changes one bit of an element.
    pub fn change(&mut self, index: usize, bit: usize) {
        buffer!(self, buffer => buffer.content_mut()[index] ^= 1 << bit);
    }

    /// The first word in which this slice, guards included, and another of the
    /// same form differ.
    pub fn difference(&self, expected: &Lent) -> Option<Difference> {
        match (self, expected) {
            (Lent::Bytes(found), Lent::Bytes(expected)) => found.difference(expected),
            (Lent::Words(found), Lent::Words(expected)) => found.difference(expected),
            (Lent::Numbers(found), Lent::Numbers(expected)) => found.difference(expected),
            (Lent::Sizes(found), Lent::Sizes(expected)) => found.difference(expected),
            _ => panic!("slices of other elements"),
        }
    }
}

/// The length, then the first elements in decimal.
impl fmt::Display for Lent {
    fn fmt(&self, f: &mut fmt::Formatter<'_>) -> fmt::Result {
        write!(f, "({})", self.len())?;
        for index in 0..self.len().min(SHOWN) {
            write!(f, " {}", self.element(index))?;
        }
        if self.len() > SHOWN {
            write!(f, " ..")?;
        }
        Ok(())
    }
}

/// The word, its place and both values.
impl fmt::Display for Difference {
    fn fmt(&self, f: &mut fmt::Formatter<'_>) -> fmt::Result {
        let guard = if self.guard { " (guard)" } else { "" };
        let Difference {
            index,
            found,
            expected,
            ..
        } = self;
        write!(f, "word {index}{guard} is {found}, expected {expected}")
    }
}
