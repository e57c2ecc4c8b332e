//! Document 02, C-17: a tally of the drags that were asked for, by how they ended, by where the retarder speed was and by how the drag went there. Each answer is held against the exact line of every segment that has the speed.

use crate::refusal::Refusal;
use crate::retarder::{RetarderNumbers, POINTS};
use crate::stored::DRAG_REFUSALS;
use std::collections::{BTreeMap, BTreeSet};
use std::fmt;
use std::hash::{BuildHasher, BuildHasherDefault, DefaultHasher};

/// Between two neighbouring points.
pub const SEGMENTS: usize = POINTS.len() - 1;

/// A segment that has the retarder speed. Speeds are in ten-thousandths of rpm, drags in hundredths of Nm.
pub struct Segment {
    pub index: usize,
    width: i128,
    /// From the lower point to the speed.
    above_lower: i128,
    lower_drag: i128,
    /// From the lower point to the upper one.
    pub rise: i128,
}

impl Segment {
    /// How far an answer is above the exact line, in parts of which a hundredth of Nm has as many as the segment is wide.
    fn excess(&self, answer: u32) -> i128 {
        (i128::from(answer) - self.lower_drag) * self.width - self.rise * self.above_lower
    }

    /// Never below the exact line, and less than a hundredth above.
    fn holds(&self, answer: u32) -> bool {
        (0..self.width).contains(&self.excess(answer))
    }

    pub fn is_at_end(&self) -> bool {
        self.above_lower == 0 || self.above_lower == self.width
    }
}

/// The segments that have the retarder speed: two at a point between the first and the last, else one, or none outside the table.
pub fn segments(numbers: &RetarderNumbers) -> Vec<Segment> {
    let speed = i128::from(numbers.speed) * i128::from(numbers.ratio);
    let pairs = numbers.readings.iter().zip(&numbers.bearing_losses);
    let drags = pairs.map(|(reading, loss)| i128::from(*reading) - i128::from(*loss));
    let points = POINTS.iter().map(|point| i128::from(*point) * 10_000);
    let ends: Vec<(i128, i128)> = points.zip(drags).collect();
    let all = ends.windows(2).enumerate().map(|(index, ends)| {
        let ((lower, lower_drag), (upper, upper_drag)) = (ends[0], ends[1]);
        Segment {
            index,
            width: upper - lower,
            above_lower: speed - lower,
            lower_drag,
            rise: upper_drag - lower_drag,
        }
    });
    all.filter(|segment| (0..=segment.width).contains(&segment.above_lower))
        .collect()
}

/// How many different inputs ended how.
#[derive(Default)]
pub struct DragTally {
    /// Hashes of what was handed over.
    inputs: BTreeSet<u64>,
    answered: u64,
    refusals: BTreeMap<u8, u64>,
    /// Answers that are the exact drag. All others are rounded up.
    exact: u64,
    /// Answers at a point. All others are between two points.
    at_point: u64,
    /// Answers between two points, by the segment, and by how the drag goes there.
    between: [u64; SEGMENTS],
    falling: u64,
    rising: u64,
    level: u64,
    /// Answers that are not within their limits in every segment that has the speed, of all inputs.
    pub outside: u64,
}

impl DragTally {
    /// The answer for what was handed over.
    pub fn add(&mut self, numbers: &RetarderNumbers, answer: &Result<u32, Refusal>) {
        let segments = segments(numbers);
        if let Ok(drag) = answer {
            let holds = segments.iter().all(|segment| segment.holds(*drag));
            self.outside += u64::from(segments.is_empty() || !holds);
        }
        let hasher = BuildHasherDefault::<DefaultHasher>::default();
        if !self.inputs.insert(hasher.hash_one(numbers)) {
            return;
        }
        match answer {
            Ok(drag) => {
                self.answered += 1;
                if let Some(segment) = segments.first() {
                    self.add_answered(segment, *drag);
                }
            }
            Err(refusal) => *self.refusals.entry(refusal.number).or_default() += 1,
        }
    }

    fn add_answered(&mut self, segment: &Segment, drag: u32) {
        self.exact += u64::from(segment.excess(drag) == 0);
        if segment.is_at_end() {
            self.at_point += 1;
            return;
        }
        self.between[segment.index] += 1;
        self.falling += u64::from(segment.rise < 0);
        self.rising += u64::from(segment.rise > 0);
        self.level += u64::from(segment.rise == 0);
    }

    pub fn answered(&self) -> u64 {
        self.answered
    }

    /// How many drags were refused with a number.
    pub fn refused_with(&self, number: u8) -> u64 {
        self.refusals.get(&number).copied().unwrap_or(0)
    }

    /// Each count under its name.
    pub fn counts(&self) -> Vec<(String, u64)> {
        let mut counts = vec![
            ("drags answered".to_string(), self.answered),
            ("drags exact".to_string(), self.exact),
            ("drags rounded up".to_string(), self.answered - self.exact),
            ("drags at a point".to_string(), self.at_point),
            ("drags where they fall".to_string(), self.falling),
            ("drags where they rise".to_string(), self.rising),
            ("drags where they are level".to_string(), self.level),
        ];
        for number in DRAG_REFUSALS {
            let name = format!("drags refused with {number}");
            counts.push((name, self.refused_with(number)));
        }
        for (ends, count) in POINTS.windows(2).zip(self.between) {
            let name = format!("drags between {} and {} rpm", ends[0], ends[1]);
            counts.push((name, count));
        }
        counts
    }
}

impl fmt::Display for DragTally {
    fn fmt(&self, f: &mut fmt::Formatter) -> fmt::Result {
        let (answered, exact, outside) = (self.answered, self.exact, self.outside);
        let rounded_up = answered - exact;
        writeln!(
            f,
            "different inputs with a drag: {answered}, exact: {exact}, rounded up: {rounded_up}, outside its limits: {outside}"
        )?;
        let (at_point, falling, rising, level) =
            (self.at_point, self.falling, self.rising, self.level);
        writeln!(
            f,
            "drags at a point: {at_point}, between two points where it falls: {falling}, rises: {rising}, is level: {level}"
        )?;
        let between = POINTS.iter().zip(self.between);
        let between: Vec<String> = between
            .map(|(point, count)| format!("{point}: {count}"))
            .collect();
        writeln!(
            f,
            "drags between two points, by the lower one in rpm: {}",
            between.join(", ")
        )?;
        for number in DRAG_REFUSALS {
            let count = self.refused_with(number);
            writeln!(f, "refusal {number} of a drag: {count} different inputs")?;
        }
        Ok(())
    }
}
