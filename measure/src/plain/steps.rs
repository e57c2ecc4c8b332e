//! The steps of a sensor's uncertainty at a torque.

use super::sensor::{fixed_parts, fixed_squares, sensitivity, uncertainty};
use axle::Sensor;
use std::ops::RangeInclusive;

/// Of the nine numbers in the order of the data.
const RANGES: [RangeInclusive<u16>; 9] = [
    1..=50_000,
    0..=10_000,
    0..=10_000,
    0..=10_000,
    1_000..=10_000,
    0..=10_000,
    0..=1_000,
    0..=500,
    10..=100,
];

/// a, b, g, h and U in grains, of a sensor's nine numbers and a torque in hundredths of Nm.
#[inline(never)]
pub fn steps(numbers: &[u16; 9], torque: u32) -> Option<[u64; 5]> {
    let mut right = true;
    for (number, range) in numbers.iter().zip(&RANGES) {
        right &= range.contains(number);
    }
    let sensor = Sensor::from(*numbers);
    if !right || torque > 100 * u32::from(sensor.nominal) {
        return None;
    }
    let (factor, divisor) = sensitivity(&sensor);
    let on_sensitivity = (factor * u64::from(torque)).div_ceil(divisor);
    let fixed @ [on_zero, calibration, parasitic] = fixed_parts(&sensor);
    let root = uncertainty(on_sensitivity, fixed_squares(fixed));
    Some([on_sensitivity, on_zero, calibration, parasitic, root])
}
