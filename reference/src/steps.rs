//! Document 02, request C-15: the steps of a sensor's uncertainty in the order of
//! the standard's text. The build takes its U from the same steps.

use crate::loss::{self, SensorSteps};
use crate::map::test_torque;
use crate::refusal::Refusal;
use crate::writer::tested_sensor;

/// The steps of the sensor of nine numbers, in the order of tag 6, at a torque in
/// hundredths of Nm. Refused are a number outside its range, with 32 as by the
/// writer, then a torque above N, with 7; both with place 0.
pub fn checked_steps(numbers: [u16; 9], torque: u32) -> Result<SensorSteps, Refusal> {
    let sensor = tested_sensor(numbers)?;
    test_torque(torque, &sensor, 0)?;
    Ok(loss::sensor_steps(&sensor, torque))
}
