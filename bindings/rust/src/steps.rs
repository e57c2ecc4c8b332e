//! The steps of a sensor's uncertainty.

use crate::{answered, c, index_of, Refusal, Sensor};

/// The steps of a sensor's uncertainty at a torque: the four parts in the order of the annex, then
/// the root over them, each rounded up to a grain, of which 100 make a hundredth of Nm.
#[derive(Clone, Copy, PartialEq, Eq, Debug)]
pub struct Steps {
    /// a.
    pub temperature_on_sensitivity: u64,
    /// b.
    pub temperature_on_zero: u64,
    /// g.
    pub calibration: u64,
    /// h.
    pub parasitic_loads: u64,
    /// U, of the sensor.
    pub uncertainty: u64,
}

impl Steps {
    /// a, b, g, h and U.
    pub fn in_order(&self) -> [u64; 5] {
        [
            self.temperature_on_sensitivity,
            self.temperature_on_zero,
            self.calibration,
            self.parasitic_loads,
            self.uncertainty,
        ]
    }
}

impl Sensor {
    /// The steps of its uncertainty at a torque that it measured, in hundredths of Nm. A build takes
    /// U of each sensor of each row from them. Refusals 32 and then 7, both at 0.
    ///
    /// ```
    /// let sensor = axle::Sensor::from([1_000, 100, 50, 200, 2_000, 30, 100, 200, 50]);
    /// let steps = sensor.steps(100_000)?; // at 1,000.00 Nm
    /// assert_eq!(steps.in_order(), [400, 200, 1_000, 30, 2_066]);
    /// # Ok::<(), axle::Refusal>(())
    /// ```
    pub fn steps(&self, torque: u32) -> Result<Steps, Refusal> {
        // The array has all its places.
        let answer = unsafe { c::axle_steps(self.numbers().as_ptr(), torque) };
        let steps = Steps {
            temperature_on_sensitivity: answer.temperature_on_sensitivity,
            temperature_on_zero: answer.temperature_on_zero,
            calibration: answer.calibration,
            parasitic_loads: answer.parasitic_loads,
            uncertainty: answer.uncertainty,
        };
        let index = index_of(answer.has_index, answer.index);
        answered(answer.refusal, answer.place, index, steps)
    }
}
