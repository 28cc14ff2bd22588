//! What the cases of a level are made of.

use crate::level::Level;
use crate::samples::Generator;

/// An element and a word after it.
pub fn joined(element: &[u16], word: u16) -> Vec<u16> {
    [element, &[word]].concat()
}

/// What the cases of a level are made of.
pub struct Material<const LEVEL: usize> {
    /// The powers of z.
    pub powers: Vec<u16>,
    /// Edges of F.
    pub factors: Vec<u16>,
    /// The element with all words at the limit.
    pub full: Vec<u16>,
    /// Elements with the highest power of z in one coordinate.
    pub tops: Vec<Vec<u16>>,
    /// Zero, one, Y, the highest power of Y, the full element, and two
    /// patterns of bits.
    pub edges: Vec<Vec<u16>>,
    generator: Generator,
}

impl<const LEVEL: usize> Material<LEVEL> {
    /// That of the level.
    pub fn new() -> Self {
        let level = Level::of(LEVEL);
        let limit = level.limit;
        let powers: Vec<u16> = (0..level.width).map(|i| 1 << i).collect();
        let high = *powers.last().expect("a power of z");
        let mut material = Material {
            powers,
            factors: vec![0, 1, 2, high, limit],
            full: vec![limit; level.coordinates],
            tops: Vec::new(),
            edges: Vec::new(),
            generator: Generator::new(LEVEL as u64),
        };
        let last = level.coordinates - 1;
        material.tops = (0..=last).map(|i| material.single(i, high)).collect();
        material.edges = [(0, 0), (0, 1), (1, 1), (last, 1)]
            .map(|(i, word)| material.single(i, word))
            .to_vec();
        for word in [limit, 0x5555 & limit, 0xaaaa & limit] {
            material.edges.push(vec![word; level.coordinates]);
        }
        material
    }

    /// The element with a word in coordinate i.
    fn single(&self, i: usize, word: u16) -> Vec<u16> {
        let mut words = vec![0; self.full.len()];
        words[i] = word;
        words
    }

    /// A random element of K.
    pub fn element(&mut self) -> Vec<u16> {
        self.generator.large::<LEVEL>().words()
    }

    /// A random element of F.
    pub fn word(&mut self) -> u16 {
        self.generator.small::<LEVEL>().word()
    }

    /// A random element of F with the highest power of z.
    pub fn high_word(&mut self) -> u16 {
        self.word() | self.powers[self.powers.len() - 1]
    }
}
