//! A tally of the calls with many questions to one map, by how they ended and by which point was refused.

use crate::lookup::{LentMap, LossesRefusal, Question};
use crate::stored::LOSSES_REFUSALS;
use std::collections::{BTreeMap, BTreeSet};
use std::fmt;
use std::hash::{BuildHasher, BuildHasherDefault, DefaultHasher};

/// The refusals that are of a point.
const POINT_REFUSALS: [u8; 2] = [20, 21];

/// How many different calls ended how.
#[derive(Default)]
pub struct LossesTally {
    /// Hashes of the map, the room and the points.
    inputs: BTreeSet<u64>,
    /// Points in all calls.
    points: u64,
    answered: u64,
    answered_without_points: u64,
    /// Calls answered in just as much room as they have points, with points.
    answered_in_exact_room: u64,
    /// Losses of all answered calls, and the negative ones among them.
    losses: u64,
    negative_losses: u64,
    refusals: BTreeMap<u8, u64>,
    /// Those of the first point. All others with a point are of a later one.
    of_first_point: BTreeMap<u8, u64>,
}

impl LossesTally {
    /// The answer of a map for these points, with room for so many losses.
    pub fn add(
        &mut self,
        map: &LentMap,
        room: usize,
        questions: &[Question],
        answer: Result<&[i128], LossesRefusal>,
    ) {
        let hasher = BuildHasherDefault::<DefaultHasher>::default();
        if !self.inputs.insert(hasher.hash_one((map, room, questions))) {
            return;
        }
        self.points += questions.len() as u64;
        match answer {
            Ok(losses) => self.add_answered(losses, room),
            Err(LossesRefusal { refusal, point }) => {
                *self.refusals.entry(refusal.number).or_default() += 1;
                if point == Some(0) {
                    *self.of_first_point.entry(refusal.number).or_default() += 1;
                }
            }
        }
    }

    fn add_answered(&mut self, losses: &[i128], room: usize) {
        self.answered += 1;
        self.answered_without_points += u64::from(losses.is_empty());
        self.answered_in_exact_room += u64::from(!losses.is_empty() && room == losses.len());
        self.losses += losses.len() as u64;
        self.negative_losses += losses.iter().filter(|loss| **loss < 0).count() as u64;
    }

    pub fn calls(&self) -> u64 {
        self.inputs.len() as u64
    }

    pub fn points(&self) -> u64 {
        self.points
    }

    pub fn answered(&self) -> u64 {
        self.answered
    }

    pub fn losses(&self) -> u64 {
        self.losses
    }

    pub fn negative_losses(&self) -> u64 {
        self.negative_losses
    }

    /// How many calls were refused with a number.
    pub fn refused_with(&self, number: u8) -> u64 {
        self.refusals.get(&number).copied().unwrap_or(0)
    }

    /// How many of these were refused for the first point.
    pub fn refused_at_first_point(&self, number: u8) -> u64 {
        self.of_first_point.get(&number).copied().unwrap_or(0)
    }

    /// How many were refused for a later point, of 20 and 21.
    pub fn refused_at_later_point(&self, number: u8) -> u64 {
        self.refused_with(number) - self.refused_at_first_point(number)
    }

    /// Each count under its name.
    pub fn counts(&self) -> Vec<(String, u64)> {
        let mut counts = vec![
            ("calls with losses".to_string(), self.answered),
            (
                "calls answered without points".to_string(),
                self.answered_without_points,
            ),
            (
                "calls answered in exactly the room of their points".to_string(),
                self.answered_in_exact_room,
            ),
            ("negative losses of calls".to_string(), self.negative_losses),
        ];
        for number in LOSSES_REFUSALS {
            let name = format!("calls refused with {number}");
            counts.push((name, self.refused_with(number)));
        }
        for number in POINT_REFUSALS {
            let name = format!("calls refused with {number} at the first point");
            counts.push((name, self.refused_at_first_point(number)));
            let name = format!("calls refused with {number} at a later point");
            counts.push((name, self.refused_at_later_point(number)));
        }
        counts
    }
}

impl fmt::Display for LossesTally {
    fn fmt(&self, f: &mut fmt::Formatter) -> fmt::Result {
        let (calls, points) = (self.calls(), self.points);
        writeln!(
            f,
            "different calls with many questions: {calls}, points in them: {points}"
        )?;
        let (answered, without_points) = (self.answered, self.answered_without_points);
        let exact = self.answered_in_exact_room;
        writeln!(
            f,
            "calls answered: {answered}, of these without points: {without_points}, in exactly the room of their points: {exact}"
        )?;
        let (losses, negative) = (self.losses, self.negative_losses);
        writeln!(
            f,
            "losses of these calls: {losses}, of these negative: {negative}"
        )?;
        for number in LOSSES_REFUSALS {
            let count = self.refused_with(number);
            write!(f, "refusal {number} of a call: {count} different inputs")?;
            if POINT_REFUSALS.contains(&number) {
                let first = self.refused_at_first_point(number);
                let later = self.refused_at_later_point(number);
                write!(f, ", of the first point: {first}, of a later one: {later}")?;
            }
            writeln!(f)?;
        }
        Ok(())
    }
}
