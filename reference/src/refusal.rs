//! Document 01, "Refusals": the number returned and the place given; and document
//! 02, C-14: which number of its field a refused ratio or sensor number is.

use std::fmt;

/// A refusal: its number in the table of refusals, and its place.
#[derive(Clone, Copy, PartialEq, Eq, Debug)]
pub struct Refusal {
    pub number: u8,
    pub place: usize,
    /// Which number of its field was refused, from 0: of 31 and 32 alone.
    pub index: Option<usize>,
}

impl Refusal {
    pub(crate) fn at(number: u8, place: usize) -> Refusal {
        Refusal {
            number,
            place,
            index: None,
        }
    }

    /// Refusal 31 or 32, of the number with this index in its field.
    pub(crate) fn at_index(number: u8, place: usize, index: usize) -> Refusal {
        Refusal {
            number,
            place,
            index: Some(index),
        }
    }

    /// The line of a stored answer: the map program's, and behind it the index where
    /// there is one.
    pub fn line_with_index(&self) -> String {
        match self.index {
            Some(index) => format!("{self} number {index}"),
            None => self.to_string(),
        }
    }
}

/// The line of "The map program", without its line feed. It never tells the index.
impl fmt::Display for Refusal {
    fn fmt(&self, f: &mut fmt::Formatter) -> fmt::Result {
        write!(f, "refused {} at {}", self.number, self.place)
    }
}

#[cfg(test)]
mod tests {
    use super::*;

    #[test]
    fn lines_with_and_without_an_index() {
        let refusals = [
            Refusal::at(4, 3),
            Refusal::at_index(31, 11, 0),
            Refusal::at_index(32, 46, 8),
        ];
        let program_lines = refusals.map(|refusal| refusal.to_string());
        let expected = ["refused 4 at 3", "refused 31 at 11", "refused 32 at 46"];
        assert_eq!(program_lines, expected);
        let stored_lines = refusals.map(|refusal| refusal.line_with_index());
        let expected = [
            "refused 4 at 3",
            "refused 31 at 11 number 0",
            "refused 32 at 46 number 8",
        ];
        assert_eq!(stored_lines, expected);
    }
}
