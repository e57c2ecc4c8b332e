//! The loss at a point, at many points, and the nearest point of the grid.

use super::map::{Axes, Map};
use axle::Grid;
use axle::Point;

/// Of a question's units, how many an rpm and a Nm have.
const SPEED_UNITS: u32 = 10;
const TORQUE_UNITS: u32 = 100;

/// The last cell whose lower end is not above the number, or the first.
#[inline(always)]
fn cell(axis: &[u16], units: u32, number: u32) -> usize {
    let number = number / units;
    axis[1..axis.len() - 1].partition_point(|inner| u32::from(*inner) <= number)
}

/// A quotient rounded up, the dividend of at most 2^61 and the quotient below 2^26 on both sides of 0. That of doubles is at most one off.
#[inline(always)]
fn quotient_up(dividend: i64, divisor: i64) -> i64 {
    let mut quotient = (dividend as f64 / divisor as f64) as i64;
    let mut rest = dividend - quotient * divisor;
    while rest > 0 {
        quotient += 1;
        rest -= divisor;
    }
    while rest <= -divisor {
        quotient -= 1;
        rest += divisor;
    }
    quotient
}

impl Axes<'_> {
    #[inline(always)]
    fn contain(&self, speed: u32, torque: u32) -> bool {
        let last_speed = self.speeds[self.speeds.len() - 1];
        let last_torque = self.torques[self.torques.len() - 1];
        (SPEED_UNITS * u32::from(self.speeds[0]) <= speed)
            & (speed <= SPEED_UNITS * u32::from(last_speed))
            & (torque <= TORQUE_UNITS * u32::from(last_torque))
    }
}

impl Map<'_> {
    /// The loss at a point, none outside the axes.
    #[inline(always)]
    fn loss(&self, speed: u32, torque: u32) -> Option<i64> {
        self.axes
            .contain(speed, torque)
            .then(|| self.interpolated(speed, torque))
    }

    /// The loss at a point that the axes contain.
    #[inline(always)]
    fn interpolated(&self, speed: u32, torque: u32) -> i64 {
        let Axes { speeds, torques } = self.axes;
        let i = cell(speeds, SPEED_UNITS, speed);
        let j = cell(torques, TORQUE_UNITS, torque);
        let [before, behind] = [i, i + 1].map(|i| i64::from(SPEED_UNITS) * i64::from(speeds[i]));
        let [left, right] = [j, j + 1].map(|j| i64::from(TORQUE_UNITS) * i64::from(torques[j]));
        let (speed, torque) = (i64::from(speed), i64::from(torque));
        let line = |i: usize| {
            let corners = &self.entries[i * torques.len() + j..][..2];
            i64::from(corners[0]) * (right - torque) + i64::from(corners[1]) * (torque - left)
        };
        let sum = line(i) * (behind - speed) + line(i + 1) * (speed - before);
        quotient_up(sum, (behind - before) * (right - left))
    }
}

/// The loss in hundredths of Nm at a speed in tenths of rpm and a torque in hundredths of Nm.
#[inline(never)]
pub fn loss(grid: &Grid, entries: &[u32], speed: u32, torque: u32) -> Option<i64> {
    Map::of(grid, entries)?.loss(speed, torque)
}

/// The losses at many points of a map, in the first places of what is lent.
#[inline(never)]
pub fn losses(grid: &Grid, entries: &[u32], points: &[Point], losses: &mut [i64]) -> Option<()> {
    let map = Map::of(grid, entries)?;
    let losses = losses.get_mut(..points.len())?;
    for (loss, point) in losses.iter_mut().zip(points) {
        *loss = map.loss(point.speed, point.torque)?;
    }
    Some(())
}

/// The nearest number of an axis, the lower one of two that are equally near.
#[inline(always)]
fn nearest_number(axis: &[u16], units: u32, number: u32) -> u16 {
    let lower = cell(axis, units, number);
    let ends = [axis[lower], axis[lower + 1]];
    let [before, behind] = ends.map(|end| u64::from(units * u32::from(end)));
    // This holds below the first number, too, and not above the last.
    if 2 * u64::from(number) <= before + behind {
        ends[0]
    } else {
        ends[1]
    }
}

/// The nearest speed in rpm and the nearest torque in Nm.
#[inline(never)]
pub fn nearest(grid: &Grid, speed: u32, torque: u32) -> Option<(u16, u16)> {
    let axes = Axes::of(grid)?;
    Some((
        nearest_number(axes.speeds, SPEED_UNITS, speed),
        nearest_number(axes.torques, TORQUE_UNITS, torque),
    ))
}

#[cfg(test)]
mod tests {
    use super::*;

    /// At whole quotients and beside them, of dividends that doubles hold no more.
    #[test]
    fn a_quotient_is_rounded_up_as_by_a_division() {
        for divisor in [
            1_000,
            999_983,
            149_950_000_000,
            149_949_999_999,
            140_000_000_001,
        ] {
            for quotient in (0..20_000_000_i64).step_by(997) {
                for beside in [-1, 0, 1] {
                    for dividend in [quotient * divisor + beside, beside - quotient * divisor] {
                        let expected = -(-dividend).div_euclid(divisor);
                        assert_eq!(quotient_up(dividend, divisor), expected);
                    }
                }
            }
        }
    }
}
