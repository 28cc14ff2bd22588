//! What a slice holds: random words, words at the edges, or all the same.

use reference::key::Sizes;
use reference::large_field::{COORDINATES, K};
use reference::samples::{independent, quotient, Generator};
use reference::small_field::F;

/// What the words or the bits of a slice are.
#[derive(Clone, Copy, Debug, PartialEq, Eq)]
pub enum Kind {
    /// Random words, or random bits.
    Random,
    /// Words 0, 1, 2047 and others, or random bits.
    Edges,
    /// All 0.
    Zero,
    /// All 1.
    One,
    /// All 2047, or bits that are all 1.
    Largest,
}

/// What the rows of H must give.
#[derive(Clone, Copy, Debug)]
pub struct Wanted<'a> {
    /// The factors of the words of a row.
    pub entries: &'a [u16],
    /// The sum of the products, for each row.
    pub sums: &'a [u16],
}

impl Kind {
    /// All kinds.
    pub const ALL: [Kind; 5] = [
        Kind::Random,
        Kind::Edges,
        Kind::Zero,
        Kind::One,
        Kind::Largest,
    ];

    /// Random, all 0, and all of the largest value.
    pub const EXTREMES: [Kind; 3] = [Kind::Random, Kind::Zero, Kind::Largest];

    /// The kinds of challenges: random, zero and one.
    pub const CHALLENGES: [Kind; 3] = [Kind::Random, Kind::Zero, Kind::One];

    /// The kind that comes this many places after this one among the extremes,
    /// and from the first again after the last.
    pub fn next_extreme(self, places: usize) -> Kind {
        let place = Kind::EXTREMES.iter().position(|&kind| kind == self);
        Kind::EXTREMES[(place.unwrap_or(0) + places) % 3]
    }

    /// A word of this kind.
    fn word(self, generator: &mut Generator) -> u16 {
        match self {
            Kind::Random => generator.word(),
            Kind::Edges => {
                let any = generator.word();
                [0, 1, F::LARGEST, any][generator.below(4)]
            }
            Kind::Zero => 0,
            Kind::One => 1,
            Kind::Largest => F::LARGEST,
        }
    }

    /// Words of this kind.
    pub fn words(self, len: usize, generator: &mut Generator) -> Vec<u16> {
        (0..len).map(|_| self.word(generator)).collect()
    }

    /// Bits of this kind.
    pub fn bits(self, len: usize, generator: &mut Generator) -> Vec<u8> {
        match self {
            Kind::Random | Kind::Edges => generator.bits(len),
            Kind::Zero => vec![0; len],
            Kind::One | Kind::Largest => vec![1; len],
        }
    }

    /// A challenge of this kind; of the kind of ones it is one.
    pub fn challenge(self, generator: &mut Generator) -> Vec<u16> {
        match self {
            Kind::One => K::ONE.words().to_vec(),
            _ => self.words(COORDINATES, generator),
        }
    }

    /// H with rows that do not depend on each other, and that give what is
    /// wanted where this is stated and some entry isn't 0. Rows of one word have
    /// it from column e on and 0 before; rows of zeros have a single one. Sizes
    /// that are refused have any rows.
    pub fn rows(
        self,
        sizes: Sizes,
        wanted: Option<Wanted<'_>>,
        generator: &mut Generator,
    ) -> Vec<u16> {
        let Sizes { n, m, .. } = sizes;
        if Sizes::judged(n, m).is_err() {
            return self.words(m * n, generator);
        }
        let place = wanted.and_then(|wanted| wanted.entries.iter().rposition(|&x| x != 0));
        // The word at this place follows from the others of its row, so its
        // column is the last.
        let others = (0..n).filter(|&column| Some(column) != place);
        let columns: Vec<usize> = others.chain(place).collect();
        loop {
            let mut h = Vec::with_capacity(m * n);
            for e in 0..m {
                let mut row = self.row(e, &columns, generator);
                if let (Some(wanted), Some(place)) = (wanted, place) {
                    complete(&mut row, place, wanted.entries, wanted.sums[e]);
                }
                h.extend(row);
            }
            let drawn = matches!(self, Kind::Random | Kind::Edges);
            if !drawn || independent(&h, n) {
                return h;
            }
        }
    }

    /// Row e of H, with the columns in this order.
    fn row(self, e: usize, columns: &[usize], generator: &mut Generator) -> Vec<u16> {
        let (word, count) = match self {
            Kind::Random | Kind::Edges => return self.words(columns.len(), generator),
            Kind::Zero => (1, 1),
            Kind::One | Kind::Largest => (self.word(generator), columns.len()),
        };
        let mut row = vec![0; columns.len()];
        for &column in columns[e..].iter().take(count) {
            row[column] = word;
        }
        row
    }
}

/// The element of F with this number.
fn element(word: u16) -> F {
    F::from_word(word).expect("a word up to 2047")
}

/// Changes the word at this place, whose entry isn't 0, so that the row times
/// the entries has this sum.
fn complete(row: &mut [u16], place: usize, entries: &[u16], sum: u16) {
    row[place] = 0;
    let products = row.iter().zip(entries);
    let others = products.fold(element(sum), |sum, (&h, &x)| sum + element(h) * element(x));
    row[place] = quotient(others.word(), entries[place]);
}
