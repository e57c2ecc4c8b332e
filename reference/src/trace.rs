//! One number of a map followed back to the data it comes from, a step a line.
//! The numbers are those that `loss`, `map` and `lookup` reckon with; here they become text.

mod entry;
mod point;

pub use entry::entry;
pub use point::point;

use crate::refusal::Refusal;
use std::fmt::{Display, Write};

/// Why there is no trace.
#[derive(Clone, PartialEq, Eq, Debug)]
pub enum NoTrace {
    Refused(Refusal),
    /// What is asked for is not on the grid; the text says what is.
    NotOnGrid(String),
}

impl From<Refusal> for NoTrace {
    fn from(refusal: Refusal) -> NoTrace {
        NoTrace::Refused(refusal)
    }
}

/// The lines of a trace.
struct Lines {
    text: String,
}

impl Lines {
    fn new() -> Lines {
        Lines {
            text: String::new(),
        }
    }

    /// A line: the name of the step, and the step.
    fn add(&mut self, name: &str, step: impl Display) {
        writeln!(self.text, "{name:<18}{step}").expect("a string takes every text");
    }
}
