//! Document 02, C-15: a tally of the steps that were asked for, by how the torque stands to the sensor's limit and by which steps are 0. The refused numbers of sensors are among all refused numbers.

use crate::loss::SensorSteps;
use crate::refusal::Refusal;
use std::fmt;

/// The steps in their order.
const NAMES: [char; 5] = ['a', 'b', 'g', 'h', 'U'];

/// How often steps were answered, and how often they were refused for the torque.
#[derive(Default)]
pub struct StepsTally {
    pub answered: u64,
    /// Those at a torque of exactly 100 × N.
    pub answered_at_limit: u64,
    /// Refused with 7.
    pub above_limit: u64,
    /// Those at a torque one hundredth above 100 × N.
    pub just_above_limit: u64,
    /// Answers in which a step is 0, for each step.
    pub zero: [u64; 5],
}

impl StepsTally {
    /// The answer for a sensor with this N at a torque.
    pub fn add(&mut self, nominal: u16, torque: u32, answer: &Result<SensorSteps, Refusal>) {
        let limit = 100 * u32::from(nominal);
        match answer {
            Ok(steps) => {
                self.answered += 1;
                self.answered_at_limit += u64::from(torque == limit);
                for (count, step) in self.zero.iter_mut().zip(steps.in_order()) {
                    *count += u64::from(step == 0);
                }
            }
            Err(refusal) if refusal.number == 7 => {
                self.above_limit += 1;
                self.just_above_limit += u64::from(torque == limit + 1);
            }
            Err(_) => {}
        }
    }

    /// Each count under its name.
    pub fn counts(&self) -> Vec<(String, u64)> {
        let mut counts = vec![
            ("steps answered".to_string(), self.answered),
            (
                "steps answered at 100 × N".to_string(),
                self.answered_at_limit,
            ),
            ("steps refused with 7".to_string(), self.above_limit),
            (
                "steps refused with 7 just above 100 × N".to_string(),
                self.just_above_limit,
            ),
        ];
        for (name, zero) in NAMES.into_iter().zip(self.zero) {
            counts.push((format!("steps with {name} 0"), zero));
            counts.push((format!("steps with {name} above 0"), self.answered - zero));
        }
        counts
    }
}

impl fmt::Display for StepsTally {
    fn fmt(&self, f: &mut fmt::Formatter) -> fmt::Result {
        let (answered, at_limit) = (self.answered, self.answered_at_limit);
        writeln!(
            f,
            "steps answered: {answered}, of these at 100 × N: {at_limit}"
        )?;
        let zero = NAMES.into_iter().zip(self.zero);
        let zero: Vec<String> = zero
            .map(|(name, count)| format!("{name}: {count}"))
            .collect();
        writeln!(f, "steps answered with 0, by step: {}", zero.join(", "))?;
        let (above, just_above) = (self.above_limit, self.just_above_limit);
        writeln!(
            f,
            "steps refused with 7: {above}, of these a hundredth above 100 × N: {just_above}"
        )
    }
}
