//! The time of a call.

use std::hint::black_box;
use std::time::{Duration, Instant};

/// The least time of an implementation's calls in one turn.
pub const LEAST: Duration = Duration::from_micros(200);

/// The number of turns.
pub const TURNS: usize = 2000;

/// After this time an implementation of a row takes part in no more turns.
const LONGEST: Duration = Duration::from_millis(800);

/// Calls an entry as many times as it is told.
pub type Calls<'a> = Box<dyn FnMut(usize) + 'a>;

/// What a row of the table is about.
#[derive(Clone, Debug, PartialEq)]
pub struct Subject {
    /// The entry.
    pub entry: &'static str,
    /// The sizes n and m, where it has a key.
    pub sizes: Option<(usize, usize)>,
    /// What it is called with, where it has none.
    pub form: &'static str,
    /// The number of products in K that one call of the library needs.
    pub products: Option<usize>,
    /// Whether a call starts a process.
    pub process: bool,
}

/// A row of the table: the same work by each implementation that has it.
pub struct Row<'a> {
    /// What it is about.
    pub subject: Subject,
    /// The calls of each implementation.
    pub calls: Vec<Option<Calls<'a>>>,
}

/// A row with what was measured, for each implementation.
pub struct Measured {
    /// What it is about.
    pub subject: Subject,
    /// The time of one call in nanoseconds, in each turn that an implementation
    /// took part in, from the first on.
    turns: Vec<Option<Vec<f64>>>,
    /// The instructions of one call.
    pub instructions: Vec<Option<u64>>,
}

impl Measured {
    /// The time of one call of an implementation in nanoseconds: the median, but
    /// for a process the least, since what else runs on the machine delays its
    /// start.
    pub fn time(&self, one: usize) -> Option<f64> {
        let times = self.turns[one].clone()?;
        if self.subject.process {
            times.into_iter().min_by(f64::total_cmp)
        } else {
            median(times)
        }
    }

    /// The median of the turns' ratios of the times of two implementations.
    pub fn ratio(&self, a: usize, b: usize) -> Option<f64> {
        let turns = self.turns[a]
            .iter()
            .flatten()
            .zip(self.turns[b].iter().flatten());
        median(turns.map(|(a, b)| a / b).collect())
    }
}

/// The median; none of no numbers.
pub fn median(mut numbers: Vec<f64>) -> Option<f64> {
    numbers.sort_by(f64::total_cmp);
    let middle = numbers.len() / 2;
    let upper = *numbers.get(middle)?;
    if numbers.len() % 2 == 1 {
        return Some(upper);
    }
    Some((numbers[middle - 1] + upper) / 2.0)
}

/// The time of a number of calls.
fn time(calls: &mut Calls, count: usize) -> Duration {
    let start = Instant::now();
    calls(black_box(count));
    start.elapsed()
}

/// The turns of one implementation of a row.
struct Turns<'a> {
    calls: Calls<'a>,
    /// The number of calls in one turn.
    count: usize,
    /// The time of all turns.
    total: Duration,
    /// The times of one call in nanoseconds.
    times: Vec<f64>,
}

impl<'a> Turns<'a> {
    /// None yet; finds the number of calls.
    fn new(mut calls: Calls<'a>) -> Turns<'a> {
        let mut count = 1;
        while time(&mut calls, count) < LEAST {
            count *= 2;
        }
        Turns {
            calls,
            count,
            total: Duration::ZERO,
            times: Vec::new(),
        }
    }

    /// One more, unless they took too long.
    fn take(&mut self) {
        if self.total < LONGEST {
            let time = time(&mut self.calls, self.count);
            self.total += time;
            let nanoseconds = time.as_secs_f64() * 1e9;
            self.times.push(nanoseconds / self.count as f64);
        }
    }
}

/// The times of one call of three kinds of calls in nanoseconds, in each of the
/// turns that all of them took part in. In a turn they are called one after
/// another, in the opposite order in every second turn, each after a call that is
/// not timed, so that it matters little which kind was called before.
pub fn triples(calls: [Calls; 3]) -> Vec<[f64; 3]> {
    let mut all = calls.map(Turns::new);
    let take = |turns: &mut Turns| {
        (turns.calls)(1);
        turns.take();
    };
    for turn in 0..TURNS {
        if turn % 2 == 0 {
            all.iter_mut().for_each(take);
        } else {
            all.iter_mut().rev().for_each(take);
        }
    }
    let [a, b, c] = all.map(|turns| turns.times);
    let triples = a.into_iter().zip(b).zip(c);
    triples.map(|((a, b), c)| [a, b, c]).collect()
}

/// Times the rows, in the order of their lists of instructions. In a turn the
/// implementations of a row are called one after another, so that a busy machine
/// slows them down alike; every second turn calls them in the opposite order.
pub fn measured(rows: Vec<Row>, instructions: Vec<Vec<Option<u64>>>) -> Vec<Measured> {
    let (subjects, mut rows): (Vec<_>, Vec<Vec<_>>) = rows
        .into_iter()
        .map(|row| {
            let calls = row.calls.into_iter();
            let turns = calls.map(|calls| calls.map(Turns::new)).collect();
            (row.subject, turns)
        })
        .unzip();
    for turn in 0..TURNS {
        for row in &mut rows {
            let implementations = row.iter_mut().flatten();
            if turn % 2 == 0 {
                implementations.for_each(Turns::take);
            } else {
                implementations.rev().for_each(Turns::take);
            }
        }
    }
    let rows = subjects.into_iter().zip(rows).zip(instructions);
    rows.map(|((subject, row), instructions)| Measured {
        subject,
        turns: row
            .into_iter()
            .map(|one| one.map(|turns| turns.times))
            .collect(),
        instructions,
    })
    .collect()
}
