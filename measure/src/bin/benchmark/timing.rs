//! Times of ways to do the same work.

use std::time::Instant;

/// Many short rounds, so that some meet a machine that does nothing else; few of work that is longer than a round.
const ROUNDS: usize = 36;
const LONG_ROUNDS: usize = 9;
const ROUND_NANOSECONDS: u128 = 5_000_000;

/// Whose way it is.
#[derive(Clone, Copy, PartialEq, Eq)]
pub enum Contender {
    Library,
    /// Plain Rust, as a good engineer writes it.
    Rust,
    Doubles,
    /// The second implementation.
    Reference,
    /// A part of the work that no other way is known to do without.
    Limit,
}

impl Contender {
    pub fn name(self) -> &'static str {
        match self {
            Contender::Library => "library",
            Contender::Rust => "Rust",
            Contender::Doubles => "doubles",
            Contender::Reference => "reference",
            Contender::Limit => "limit",
        }
    }

    /// The same within a sentence.
    pub fn with_article(self) -> String {
        match self {
            Contender::Rust | Contender::Doubles => self.name().to_string(),
            Contender::Library | Contender::Reference | Contender::Limit => {
                format!("the {}", self.name())
            }
        }
    }
}

/// A way to do the work: one call does so many pieces of it.
pub struct Way<'work> {
    contender: Contender,
    pieces: usize,
    work: Box<dyn FnMut() + 'work>,
}

impl<'work> Way<'work> {
    pub fn new(contender: Contender, pieces: usize, work: impl FnMut() + 'work) -> Way<'work> {
        Way {
            contender,
            pieces,
            work: Box::new(work),
        }
    }

    fn nanoseconds(&mut self, calls: usize) -> u128 {
        let start = Instant::now();
        for _ in 0..calls {
            (self.work)();
        }
        start.elapsed().as_nanos()
    }

    /// How many calls a round has.
    fn calls(&mut self) -> usize {
        let once = self.nanoseconds(3) / 3 + 1;
        (ROUND_NANOSECONDS / once).max(1) as usize
    }
}

/// The least time of one piece of work among the rounds, of each contender, in nanoseconds.
pub struct Times {
    least: Vec<(Contender, f64)>,
}

impl Times {
    /// The ways take turns, so that they meet the same machine.
    pub fn of(mut ways: Vec<Way>) -> Times {
        let calls: Vec<usize> = ways.iter_mut().map(Way::calls).collect();
        let mut least = vec![f64::INFINITY; ways.len()];
        let rounds = if calls.contains(&1) {
            LONG_ROUNDS
        } else {
            ROUNDS
        };
        for _ in 0..rounds {
            for ((way, calls), least) in ways.iter_mut().zip(&calls).zip(&mut least) {
                let spent = way.nanoseconds(*calls) as f64;
                *least = least.min(spent / (calls * way.pieces) as f64);
            }
        }
        let contenders = ways.iter().map(|way| way.contender);
        Times {
            least: contenders.zip(least).collect(),
        }
    }

    /// The times in the order of the ways.
    pub fn in_order(&self) -> Vec<f64> {
        self.least.iter().map(|(_, time)| *time).collect()
    }

    pub fn get(&self, contender: Contender) -> Option<f64> {
        let mut least = self.least.iter();
        least
            .find(|(who, _)| *who == contender)
            .map(|(_, time)| *time)
    }

    /// The library's time as a multiple of another's.
    pub fn ratio(&self, to: Contender) -> Option<f64> {
        Some(self.get(Contender::Library)? / self.get(to)?)
    }
}

/// A time in the unit that reads best.
pub fn time_text(nanoseconds: f64) -> String {
    if nanoseconds < 1_000.0 {
        format!("{nanoseconds:.1} ns")
    } else {
        format!("{:.2} µs", nanoseconds / 1_000.0)
    }
}
