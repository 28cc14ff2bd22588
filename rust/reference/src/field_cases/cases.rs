//! The cases in their order.

use super::material::{joined, Material};
use super::Operation::{self, *};
use super::{two, Case, MOST_BYTES, MOST_WORDS, OPERATIONS};
use crate::large_field::Large;
use crate::level::{FIRST, SECOND};
use crate::small_field::Small;

/// The cases.
pub struct Cases(Vec<Case>);

impl Cases {
    /// All cases in their order.
    pub fn all() -> Cases {
        let mut cases = Cases(Vec::new());
        cases.of_level::<FIRST>();
        cases.of_level::<SECOND>();
        cases.no_level();
        cases
    }

    /// The cases as a list.
    pub fn list(&self) -> &[Case] {
        &self.0
    }

    /// What the program reads. Its end is a case without its last byte.
    pub fn stdin(&self) -> Vec<u8> {
        let mut bytes: Vec<u8> = self.0.iter().flat_map(Case::bytes).collect();
        bytes.pop();
        assert!(bytes.len() < MOST_BYTES, "{} bytes", bytes.len());
        bytes
    }

    /// What the program prints. The case that is cut is refused.
    pub fn stdout(&self) -> Vec<u8> {
        let (_, whole) = self.0.split_last().expect("a last case");
        let lines: String = whole.iter().map(|case| case.line() + "\n").collect();
        (lines + "refused\n").into_bytes()
    }

    /// Adds a case of which only numbers and words are told.
    fn raw(&mut self, level: u8, operation: u8, words: &[u16]) {
        self.0.push(Case {
            level,
            operation,
            words: words.to_vec(),
        });
    }

    /// Adds a case that has a result.
    fn add<const LEVEL: usize>(&mut self, operation: Operation, words: &[u16]) {
        self.raw(LEVEL as u8, operation as u8, words);
        let line = self.0.last().expect("a case").line();
        assert_ne!(line, "refused", "{operation:?} {words:?}");
    }

    /// Adds a case that is refused.
    fn refused(&mut self, level: usize, operation: u8, words: &[u16]) {
        self.raw(level as u8, operation, words);
        let line = self.0.last().expect("a case").line();
        assert_eq!(line, "refused", "{operation} {words:?}");
    }

    /// The cases of a level.
    fn of_level<const LEVEL: usize>(&mut self) {
        let mut material = Material::<LEVEL>::new();
        for operation in [Zero, One, Y] {
            self.add::<LEVEL>(operation, &[]);
        }
        self.small_products(&mut material);
        self.terms(&mut material);
        self.pairs(&mut material);
        self.scaled(&mut material);
        self.combinations(&mut material);
        self.masked_and_nonzero(&material);
        self.of_products(&mut material);
        self.excess(&mut material);
        self.ill_formed(&mut material);
    }

    /// Products in F: all pairs of powers of z and of edges, and random ones.
    fn small_products<const LEVEL: usize>(&mut self, material: &mut Material<LEVEL>) {
        for list in [material.powers.clone(), material.factors.clone()] {
            for &a in &list {
                for &b in &list {
                    self.add::<LEVEL>(Product, &[a, b]);
                }
            }
        }
        for _ in 0..32 {
            let words = [material.word(), material.word()];
            self.add::<LEVEL>(Product, &words);
        }
    }

    /// Products of single terms, for every pair of coordinates. Both words
    /// have the highest power of z, so that each product is reduced in F.
    fn terms<const LEVEL: usize>(&mut self, material: &mut Material<LEVEL>) {
        let coordinates = Large::<LEVEL>::COORDINATES as u16;
        for operation in [TermTimes, TermMultiples] {
            for i in 0..coordinates {
                for j in 0..coordinates {
                    let words = [i, material.high_word(), j, material.high_word()];
                    self.add::<LEVEL>(operation, &words);
                }
            }
        }
    }

    /// Sums and products: edges with words at the limit and with random
    /// elements, random pairs, and for products the highest power of z in each
    /// coordinate.
    fn pairs<const LEVEL: usize>(&mut self, material: &mut Material<LEVEL>) {
        let mut pairs = Vec::new();
        for edge in material.edges.clone() {
            pairs.push([edge.clone(), material.full.clone()]);
            pairs.push([material.element(), edge]);
        }
        for _ in 0..8 {
            pairs.push([material.element(), material.element()]);
        }
        for pair in &pairs {
            self.add::<LEVEL>(Plus, &pair.concat());
        }
        for top in material.tops.clone() {
            pairs.push([top, material.element()]);
        }
        for operation in [Times, Multiples] {
            for pair in &pairs {
                self.add::<LEVEL>(operation, &pair.concat());
            }
        }
    }

    /// Edges times edges of F, the highest power of z in each coordinate times
    /// z, a random element times each power of z, and random ones.
    fn scaled<const LEVEL: usize>(&mut self, material: &mut Material<LEVEL>) {
        for x in material.edges.clone() {
            for f in material.factors.clone() {
                self.add::<LEVEL>(Scaled, &joined(&x, f));
            }
        }
        for x in material.tops.clone() {
            self.add::<LEVEL>(Scaled, &joined(&x, 2));
        }
        for f in material.powers.clone() {
            self.add::<LEVEL>(Scaled, &joined(&material.element(), f));
        }
        for _ in 0..8 {
            let words = joined(&material.element(), material.word());
            self.add::<LEVEL>(Scaled, &words);
        }
    }

    /// Combinations without a term, with one for each power of z alone and
    /// for all powers together, with edges, with a term twice, and random ones.
    fn combinations<const LEVEL: usize>(&mut self, material: &mut Material<LEVEL>) {
        let powers = material.powers.clone();
        self.add::<LEVEL>(Combination, &[]);
        for &f in powers.iter().chain(&material.factors.clone()) {
            let words = joined(&material.element(), f);
            self.add::<LEVEL>(Combination, &words);
        }
        for x in [material.full.clone(), material.element()] {
            let same: Vec<u16> = powers.iter().flat_map(|&f| joined(&x, f)).collect();
            self.add::<LEVEL>(Combination, &same);
        }
        let mut other = Vec::new();
        for &f in &powers {
            other.extend(joined(&material.element(), f));
        }
        self.add::<LEVEL>(Combination, &other);
        for part in material.tops.chunks(powers.len()) {
            let terms = part.iter().zip(&powers);
            let tops: Vec<u16> = terms.flat_map(|(x, &f)| joined(x, f)).collect();
            self.add::<LEVEL>(Combination, &tops);
        }
        let twice = joined(&material.element(), material.word());
        self.add::<LEVEL>(Combination, &twice.repeat(2));
        for count in [2, 3, 5, 8] {
            let mut words = Vec::new();
            for _ in 0..count {
                words.extend(joined(&material.element(), material.word()));
            }
            self.add::<LEVEL>(Combination, &words);
        }
    }

    /// Edges times 0 and 1, the highest power of z in each coordinate times 1,
    /// and whether they are zero.
    fn masked_and_nonzero<const LEVEL: usize>(&mut self, material: &Material<LEVEL>) {
        for x in &material.edges {
            self.add::<LEVEL>(Masked, &joined(x, 0));
        }
        for x in material.edges.iter().chain(&material.tops) {
            self.add::<LEVEL>(Masked, &joined(x, 1));
            self.add::<LEVEL>(Nonzero, x);
        }
    }

    /// Products as factors of products, and compared with an element: the
    /// product itself, and one with another digit in the first or the last
    /// coordinate.
    fn of_products<const LEVEL: usize>(&mut self, material: &mut Material<LEVEL>) {
        for _ in 0..4 {
            let words = [(); 3].map(|()| material.element()).concat();
            self.add::<LEVEL>(Chain, &words);
        }
        self.add::<LEVEL>(Chain, &material.full.repeat(3));
        let last = material.full.len() - 1;
        for digit in [0, *material.powers.last().expect("a power of z")] {
            for i in [0, last] {
                let [a, b] = [material.element(), material.full.clone()];
                let (x, y) = two::<LEVEL>(&[&a[..], &b].concat()).expect("two elements");
                let mut product = (x * y).words();
                product[i] ^= digit;
                self.add::<LEVEL>(Differs, &[a, b, product].concat());
            }
        }
    }

    /// Words up to the limit and above it, at several places.
    fn excess<const LEVEL: usize>(&mut self, material: &mut Material<LEVEL>) {
        let limit = Small::<LEVEL>::LARGEST;
        self.add::<LEVEL>(Excess, &[]);
        self.add::<LEVEL>(Excess, &[limit; 16]);
        for bit in 0..u16::BITS {
            self.add::<LEVEL>(Excess, &[1 << bit]);
        }
        for place in [0, 1, 8, 15] {
            for word in [limit + 1, u16::MAX] {
                let mut words: Vec<u16> = (0..16).map(|_| material.word()).collect();
                self.add::<LEVEL>(Excess, &words);
                words[place] = word;
                self.add::<LEVEL>(Excess, &words);
            }
        }
    }

    /// Cases of this level that are refused.
    fn ill_formed<const LEVEL: usize>(&mut self, material: &mut Material<LEVEL>) {
        let coordinates = Large::<LEVEL>::COORDINATES;
        let above = Small::<LEVEL>::LARGEST + 1;
        let x = material.element();
        let forms: [(Operation, Vec<u16>); 12] = [
            (Plus, x.repeat(2)),
            (Times, x.repeat(2)),
            (Multiples, x.repeat(2)),
            (Scaled, joined(&x, 1)),
            (Masked, joined(&x, 1)),
            (Combination, joined(&x, 1).repeat(2)),
            (Nonzero, x.clone()),
            (Product, vec![1, 1]),
            (TermTimes, vec![0, 1, 0, 1]),
            (TermMultiples, vec![0, 1, 0, 1]),
            (Chain, x.repeat(3)),
            (Differs, x.repeat(3)),
        ];
        for (operation, words) in forms {
            self.add::<LEVEL>(operation, &words);
            let number = operation as u8;
            self.refused(LEVEL, number, &words[1..]);
            self.refused(LEVEL, number, &[&words[..], &[0]].concat());
            for place in [0, words.len() - 1] {
                let mut other = words.clone();
                other[place] = above;
                self.refused(LEVEL, number, &other);
            }
        }
        for operation in [Zero, One, Y] {
            self.refused(LEVEL, operation as u8, &[0]);
        }
        for operation in [Plus, Masked, TermTimes] {
            self.refused(LEVEL, operation as u8, &[]);
        }
        self.refused(LEVEL, Masked as u8, &joined(&x, 2));
        for operation in [TermTimes, TermMultiples] {
            let c = coordinates as u16;
            self.refused(LEVEL, operation as u8, &[c, 1, 0, 1]);
            self.refused(LEVEL, operation as u8, &[0, 1, c, 1]);
        }
        for number in [0, OPERATIONS.len() as u8 + 1, u8::MAX] {
            self.refused(LEVEL, number, &[]);
        }
    }

    /// Cases of no level, with the most words and with more, one that has a
    /// result after them, and the one that is cut.
    fn no_level(&mut self) {
        for level in [0, 3, usize::from(u8::MAX)] {
            self.refused(level, One as u8, &[]);
        }
        self.add::<FIRST>(Excess, &[0; MOST_WORDS]);
        self.refused(1, Excess as u8, &[0; MOST_WORDS + 1]);
        self.add::<SECOND>(Y, &[]);
        self.add::<FIRST>(Product, &[1, 1]);
    }
}
