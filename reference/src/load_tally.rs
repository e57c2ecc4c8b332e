//! Document 02, C-16: a tally of the texts that were loaded, by how they ended, and of the listings that were printed and loaded back.

use crate::map::Map;
use crate::refusal::Refusal;
use crate::stored::LOAD_REFUSALS;
use std::collections::{BTreeMap, BTreeSet};
use std::fmt;
use std::hash::{BuildHasher, BuildHasherDefault, DefaultHasher};

/// How many different texts and counts of lent entries ended how.
#[derive(Default)]
pub struct LoadTally {
    /// Hashes of the text and the count.
    inputs: BTreeSet<u64>,
    accepted: u64,
    refusals: BTreeMap<u8, u64>,
    /// The places of each refusal, at most a thousand.
    places: BTreeMap<u8, BTreeSet<usize>>,
    /// Those with 42 at the text's length.
    refused_at_end: u64,
    /// Loaded maps whose listing is not their text.
    pub listed_otherwise: u64,
    /// Printed listings that were loaded, and those of them that gave another map.
    loaded_back: u64,
    pub loaded_otherwise: u64,
}

impl LoadTally {
    /// The answer for a text and so many lent entries.
    pub fn add(&mut self, text: &[u8], entries: usize, answer: &Result<Map, Refusal>) {
        let hasher = BuildHasherDefault::<DefaultHasher>::default();
        if !self.inputs.insert(hasher.hash_one((text, entries))) {
            return;
        }
        let Err(Refusal { number, place, .. }) = *answer else {
            self.accepted += 1;
            return;
        };
        *self.refusals.entry(number).or_default() += 1;
        self.refused_at_end += u64::from(number == 42 && place == text.len());
        let places = self.places.entry(number).or_default();
        if places.len() < 1_000 {
            places.insert(place);
        }
    }

    /// A printed listing, and whether it loads to its own map.
    pub fn add_back(&mut self, is_same: bool) {
        self.loaded_back += 1;
        self.loaded_otherwise += u64::from(!is_same);
    }

    pub fn accepted(&self) -> u64 {
        self.accepted
    }

    /// How many loads were refused with a number.
    pub fn refused_with(&self, number: u8) -> u64 {
        self.refusals.get(&number).copied().unwrap_or(0)
    }

    /// At how many different places loads were refused with a number.
    pub fn place_count(&self, number: u8) -> u64 {
        self.places.get(&number).map_or(0, |p| p.len() as u64)
    }

    /// How many loads were refused with 42 at the text's length.
    pub fn refused_at_end(&self) -> u64 {
        self.refused_at_end
    }

    /// Each count under its name.
    pub fn counts(&self) -> Vec<(String, u64)> {
        let mut counts = vec![
            ("loads accepted".to_string(), self.accepted),
            (
                "loads refused with 42 at a line".to_string(),
                self.refused_with(42) - self.refused_at_end,
            ),
            (
                "loads refused with 42 at the text's length".to_string(),
                self.refused_at_end,
            ),
            ("listings loaded back".to_string(), self.loaded_back),
        ];
        for number in LOAD_REFUSALS {
            let name = format!("loads refused with {number}");
            counts.push((name, self.refused_with(number)));
        }
        for number in [41, 42, 11] {
            let name = format!("places of loads refused with {number}");
            counts.push((name, self.place_count(number)));
        }
        counts
    }
}

impl fmt::Display for LoadTally {
    fn fmt(&self, f: &mut fmt::Formatter) -> fmt::Result {
        let (accepted, otherwise) = (self.accepted, self.listed_otherwise);
        writeln!(
            f,
            "different inputs loaded: {accepted}, with another listing: {otherwise}"
        )?;
        for number in LOAD_REFUSALS {
            let (count, places) = (self.refused_with(number), self.place_count(number));
            writeln!(
                f,
                "refusal {number} of a load: {count} different inputs at {places} places"
            )?;
        }
        let at_end = self.refused_at_end;
        writeln!(f, "of these 42 at the text's length: {at_end}")?;
        let (back, otherwise) = (self.loaded_back, self.loaded_otherwise);
        writeln!(
            f,
            "printed listings loaded: {back}, of these to another map: {otherwise}"
        )
    }
}
