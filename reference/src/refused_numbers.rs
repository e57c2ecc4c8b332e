//! Document 02, C-14: a tally of the ratios and sensor numbers that were refused, by which number of its field each was.

use crate::refusal::Refusal;
use std::collections::BTreeMap;
use std::fmt;

/// A refusal with an index, and how many numbers its field has.
const INDEXED: [(u8, usize); 2] = [(31, 1), (32, 9)];

/// The letters of the cases that are refused so. What the map program writes has no index, but the refusal has.
const LETTERS: [(char, &str); 5] = [
    ('r', "data read"),
    ('p', "data for the map program"),
    ('b', "data built"),
    ('w', "writes"),
    ('s', "steps"),
];

/// Whether cases with a letter have a number that is refused so: steps have no ratio.
fn occurs(letter: char, number: u8) -> bool {
    letter != 's' || number == 32
}

/// How many cases were refused with an index.
#[derive(Default)]
pub struct RefusedNumbers {
    /// By the letter of the case, the number of the refusal and the index.
    cases: BTreeMap<(char, u8, usize), u64>,
}

impl RefusedNumbers {
    /// The refusal of a case with this letter; those without an index do not count.
    pub fn add(&mut self, letter: char, refusal: Refusal) {
        if let Some(index) = refusal.index {
            let key = (letter, refusal.number, index);
            *self.cases.entry(key).or_default() += 1;
        }
    }

    /// How many cases with a letter were refused with this number and this index.
    pub fn count(&self, letter: char, number: u8, index: usize) -> u64 {
        self.cases
            .get(&(letter, number, index))
            .copied()
            .unwrap_or(0)
    }

    /// Each letter and refusal with a count for each index.
    fn groups(&self) -> Vec<(String, Vec<u64>)> {
        let mut groups = Vec::new();
        for (number, index_count) in INDEXED {
            let letters = LETTERS.into_iter();
            for (letter, cases) in letters.filter(|(letter, _)| occurs(*letter, number)) {
                let count = |index| self.count(letter, number, index);
                let name = format!("refusal {number} of {cases}");
                groups.push((name, (0..index_count).map(count).collect()));
            }
        }
        groups
    }

    /// Each count under its name.
    pub fn counts(&self) -> Vec<(String, u64)> {
        let mut counts = Vec::new();
        for (group, indices) in self.groups() {
            let named = indices.into_iter().enumerate();
            counts.extend(named.map(|(index, count)| (format!("{group}, number {index}"), count)));
        }
        counts
    }
}

impl fmt::Display for RefusedNumbers {
    fn fmt(&self, f: &mut fmt::Formatter) -> fmt::Result {
        let mut groups = self.groups();
        groups.retain(|(_, indices)| indices.iter().any(|count| *count > 0));
        for (group, indices) in groups {
            let counts = indices.iter().enumerate();
            let counts: Vec<String> = counts.map(|(i, count)| format!("{i}: {count}")).collect();
            writeln!(f, "{group} by index: {}", counts.join(", "))?;
        }
        Ok(())
    }
}
