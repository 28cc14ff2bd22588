//! The generator of numbers.

use super::independent_rows;
use crate::key::Sizes;
use crate::large_field::{Large, K};
use crate::level::FIRST;
use crate::package::Group;
use crate::small_field::Small;
use std::collections::BTreeSet;

/// The generator splitmix64. The same seed gives the same numbers.
#[derive(Clone, Debug)]
pub struct Generator(u64);

impl Generator {
    /// A generator with this seed.
    pub fn new(seed: u64) -> Generator {
        Generator(seed)
    }

    /// The next number.
    pub fn number(&mut self) -> u64 {
        self.0 = self.0.wrapping_add(0x9e37_79b9_7f4a_7c15);
        let mut mixed = self.0;
        mixed = (mixed ^ (mixed >> 30)).wrapping_mul(0xbf58_476d_1ce4_e5b9);
        mixed = (mixed ^ (mixed >> 27)).wrapping_mul(0x94d0_49bb_1331_11eb);
        mixed ^ (mixed >> 31)
    }

    /// A number below `limit`, which is above 0.
    pub fn below(&mut self, limit: usize) -> usize {
        (self.number() % limit as u64) as usize
    }

    /// An element of F of a level.
    pub fn small<const LEVEL: usize>(&mut self) -> Small<LEVEL> {
        let word = self.below(usize::from(Small::<LEVEL>::LARGEST) + 1);
        Small::from_word(word as u16).expect("a word up to the largest")
    }

    /// An element of K of a level.
    pub fn large<const LEVEL: usize>(&mut self) -> Large<LEVEL> {
        let count = Large::<LEVEL>::COORDINATES;
        let words: Vec<u16> = (0..count).map(|_| self.small::<LEVEL>().word()).collect();
        Large::from_words(&words).expect("words of elements of F")
    }

    /// A word 0 to 2047.
    pub fn word(&mut self) -> u16 {
        self.small::<FIRST>().word()
    }

    /// Words 0 to 2047.
    pub fn words(&mut self, count: usize) -> Vec<u16> {
        (0..count).map(|_| self.word()).collect()
    }

    /// H of a key: m rows of n words 0 to 2047 that do not depend on each
    /// other, m at most n.
    pub fn matrix(&mut self, n: usize, m: usize) -> Vec<u16> {
        independent_rows(m, || self.words(n))
    }

    /// A target y of m words 0 to 2047, not all zero.
    pub fn target(&mut self, m: usize) -> Vec<u16> {
        let mut y = self.words(m);
        if y.iter().all(|&word| word == 0) {
            y[m - 1] = 1;
        }
        y
    }

    /// Bytes 0 or 1.
    pub fn bits(&mut self, count: usize) -> Vec<u8> {
        (0..count).map(|_| self.below(2) as u8).collect()
    }

    /// A serial: every other one takes any value of 32 bits, and the others one
    /// that fits two bytes.
    pub fn serial(&mut self) -> u32 {
        let number = self.number();
        match number >> 63 {
            0 => u32::from(number as u16),
            _ => number as u32,
        }
    }

    /// Serials that strictly rise, of both lengths.
    pub fn serials(&mut self, count: usize) -> Vec<u32> {
        let mut serials = BTreeSet::new();
        while serials.len() < count {
            serials.insert(self.serial());
        }
        serials.into_iter().collect()
    }

    /// A group of a bundle of these sizes.
    pub fn group(&mut self, sizes: Sizes, serial: u32) -> Group {
        Group {
            serial,
            t: self.bits(sizes.bit_bytes()),
            a: self.words(sizes.proof_words()),
        }
    }

    /// An element of K of the first level.
    pub fn element(&mut self) -> K {
        self.large()
    }

    /// The numbers 0 to n - 1 in random order.
    pub fn order(&mut self, n: usize) -> Vec<u8> {
        let mut order: Vec<u8> = (0..n).map(|position| position as u8).collect();
        for last in (1..n).rev() {
            order.swap(last, self.below(last + 1));
        }
        order
    }
}
