//! The steps of a sensor's uncertainty.

use crate::roots::root_up;
use axle::Sensor;

/// The parts that do not depend on the torque, in grains: b, g and h.
pub fn fixed_parts(sensor: &Sensor) -> [u64; 3] {
    let nominal = u64::from(sensor.nominal);
    let on_zero = u64::from(sensor.zero) * u64::from(sensor.difference) * nominal;
    let calibration = u64::from(sensor.calibration) * nominal * 10;
    let parasitic = u64::from(sensor.parasitic) * u64::from(sensor.share) * nominal;
    [
        on_zero.div_ceil(1_000 * u64::from(sensor.span)),
        calibration.div_ceil(u64::from(sensor.advancement)),
        parasitic.div_ceil(100_000),
    ]
}

/// What a torque is multiplied with and then divided by for a.
pub fn sensitivity(sensor: &Sensor) -> (u64, u64) {
    (
        u64::from(sensor.sensitivity) * u64::from(sensor.difference),
        100_000 * u64::from(sensor.span),
    )
}

/// b*b + 3*g*g + h*h.
pub fn fixed_squares([on_zero, calibration, parasitic]: [u64; 3]) -> u64 {
    on_zero * on_zero + 3 * calibration * calibration + parasitic * parasitic
}

/// n / d rounded up, where n + d fits. Quicker in each row than `div_ceil`, which looks at the remainder.
#[inline(always)]
#[allow(clippy::manual_div_ceil)]
pub fn quotient_up(n: u64, d: u64) -> u64 {
    (n + (d - 1)) / d
}

/// U in grains.
#[inline(always)]
pub fn uncertainty(on_sensitivity: u64, fixed_squares: u64) -> u64 {
    let squares = on_sensitivity * on_sensitivity + fixed_squares;
    root_up(quotient_up(4 * squares, 3))
}

/// How many bits a rise and a fraction have behind the point.
const RISE_BITS: u32 = 46;

/// A quotient below 2^18, with so many bits behind the point, rounded up.
fn fixed_point(dividend: u64, divisor: u64) -> u64 {
    (u128::from(dividend) << RISE_BITS).div_ceil(u128::from(divisor)) as u64
}

/// What the rows need of a sensor.
#[derive(Clone, Copy)]
pub struct PreparedSensor {
    /// The largest torque that it measures, in hundredths of Nm.
    pub limit: u32,
    /// What a rises by with each hundredth of Nm.
    rise: u64,
    /// What rounds a up: 1 less the divisor's reciprocal.
    below_one: u64,
    fixed_squares: u64,
}

impl PreparedSensor {
    pub fn of(sensor: &Sensor) -> PreparedSensor {
        let (factor, divisor) = sensitivity(sensor);
        PreparedSensor {
            limit: 100 * u32::from(sensor.nominal),
            rise: fixed_point(factor, divisor),
            below_one: fixed_point(divisor - 1, divisor),
            fixed_squares: fixed_squares(fixed_parts(sensor)),
        }
    }

    /// a in grains, at a torque within the limit. What the two numbers are too large by comes to less than the divisor's
    /// reciprocal, as 5,000,001 / 2^46 is less than 1 / 10,000,000: so no whole number is passed.
    #[inline(always)]
    fn on_sensitivity(&self, torque: u32) -> u64 {
        let sum = u128::from(torque) * u128::from(self.rise) + u128::from(self.below_one);
        (sum >> RISE_BITS) as u64
    }

    /// U in grains, at a torque within the limit.
    #[inline(always)]
    pub fn uncertainty(&self, torque: u32) -> u64 {
        uncertainty(self.on_sensitivity(torque), self.fixed_squares)
    }
}

#[cfg(test)]
mod tests {
    use super::*;

    /// Of each divisor, about the torques at which a comes to a whole number: the largest sensors, and factors that have no divisor in common with it.
    #[test]
    fn a_is_rounded_up_as_by_a_division() {
        for span in 10..=100 {
            for (sensitivity, difference) in [(10_000, 500), (9_973, 499), (1, 1), (7, 11), (0, 0)]
            {
                let sensor = Sensor {
                    nominal: 50_000,
                    sensitivity,
                    difference,
                    span,
                    advancement: 1_000,
                    ..Sensor::default()
                };
                let prepared = PreparedSensor::of(&sensor);
                let (factor, divisor) = super::sensitivity(&sensor);
                for torque in torques_about_whole_numbers(factor, divisor) {
                    let expected = (factor * u64::from(torque)).div_ceil(divisor);
                    assert_eq!(prepared.on_sensitivity(torque), expected);
                }
            }
        }
    }

    /// The last torque at each of many whole numbers, and one above it; both ends.
    fn torques_about_whole_numbers(factor: u64, divisor: u64) -> Vec<u32> {
        let last = |whole: u64| (whole * divisor).checked_div(factor).unwrap_or(0);
        let most = (factor * 5_000_000) / divisor;
        let wholes = (0..=most).step_by(1 + most as usize / 2_000);
        let mut torques: Vec<u32> = wholes
            .flat_map(|whole| [last(whole) as u32, last(whole) as u32 + 1])
            .collect();
        torques.extend([0, 1, 4_999_999, 5_000_000]);
        torques.retain(|torque| *torque <= 5_000_000);
        torques
    }
}
