//! Document 01, "Standard loss" and "Measured loss", the latter over one output
//! sensor or over two (request C-11) and with the allowance of document 02, C-13.

use crate::component::{Measured, Row, Sensor};

/// A fraction of whole numbers as its rule makes it, not reduced.
#[derive(Clone, Copy, PartialEq, Eq, Debug)]
pub struct Fraction {
    pub numerator: u128,
    pub denominator: u128,
}

impl Fraction {
    pub fn rounded_up(self) -> u128 {
        self.numerator.div_ceil(self.denominator)
    }
}

/// One line of the table: efficiency e in percent, T0 and T1 in Nm.
pub struct Line {
    pub name: &'static str,
    pub efficiency: u128,
    pub drag_constant: u128,
    pub drag_per_ratio: u128,
}

const fn line(
    name: &'static str,
    efficiency: u128,
    drag_constant: u128,
    drag_per_ratio: u128,
) -> Line {
    Line {
        name,
        efficiency,
        drag_constant,
        drag_per_ratio,
    }
}

const LINES: [Line; 5] = [
    line("SR", 98, 70, 20),
    line("SRT", 96, 80, 20),
    line("SP", 96, 80, 20),
    line("HR", 97, 70, 20),
    line("HRT", 95, 90, 20),
];

/// The table's line of this number, 1 to 5.
pub fn line_of(number: u8) -> &'static Line {
    &LINES[usize::from(number) - 1]
}

/// The exact standard loss in hundredths of Nm.
/// The denominator is the same for all torques.
pub fn standard_loss(line: u8, ratio: u16, torque: u16) -> Fraction {
    let line = line_of(line);
    let (ratio, torque) = (u128::from(ratio), u128::from(torque));
    let efficiency = line.efficiency;
    // Ratio in thousandths and loss in hundredths leave one tenth.
    let tenths = 1_000 * line.drag_constant + line.drag_per_ratio * ratio;
    Fraction {
        numerator: tenths * efficiency + 1_000 * torque * (100 - efficiency),
        denominator: 10 * efficiency,
    }
}

/// The entry of the standard rule, in hundredths of Nm.
pub fn standard_entry(line: u8, ratio: u16, torque: u16) -> u128 {
    standard_loss(line, ratio, torque).rounded_up()
}

/// One sensor's uncertainty with the numbers that lead to it, in grains.
#[derive(Clone, Copy, PartialEq, Eq, Debug)]
pub struct SensorSteps {
    /// a, b, g and h before they are rounded up.
    pub unrounded: [Fraction; 4],
    /// a, b, g and h.
    pub parts: [u128; 4],
    /// What 3 U U must reach.
    pub sum_of_squares: u128,
    /// U.
    pub uncertainty: u128,
}

impl SensorSteps {
    /// a, b, g, h and U.
    pub fn in_order(&self) -> [u128; 5] {
        let [a, b, g, h] = self.parts;
        [a, b, g, h, self.uncertainty]
    }
}

/// The steps of a sensor at a torque in hundredths of Nm.
pub fn sensor_steps(sensor: &Sensor, torque: u32) -> SensorSteps {
    let unrounded = unrounded_parts(sensor, torque);
    let parts = unrounded.map(Fraction::rounded_up);
    let sum_of_squares = sum_of_part_squares(parts);
    SensorSteps {
        unrounded,
        parts,
        sum_of_squares,
        uncertainty: least_uncertainty(sum_of_squares),
    }
}

/// The parts a, b, g and h in grains, not rounded; torque in hundredths.
fn unrounded_parts(sensor: &Sensor, torque: u32) -> [Fraction; 4] {
    let torque = u128::from(torque);
    let nominal = u128::from(sensor.nominal);
    let difference = u128::from(sensor.difference);
    let span = u128::from(sensor.span);
    let sensitivity = u128::from(sensor.sensitivity) * difference * torque;
    let zero = u128::from(sensor.zero) * difference * nominal;
    let calibration = u128::from(sensor.calibration) * nominal * 10;
    let parasitic = u128::from(sensor.parasitic) * u128::from(sensor.share) * nominal;
    let part = |numerator, denominator| Fraction {
        numerator,
        denominator,
    };
    [
        part(sensitivity, 100_000 * span),
        part(zero, 1_000 * span),
        part(calibration, u128::from(sensor.advancement)),
        part(parasitic, 100_000),
    ]
}

/// The parts a, b, g and h in grains, each rounded up; torque in hundredths.
pub fn sensor_parts(sensor: &Sensor, torque: u32) -> [u128; 4] {
    unrounded_parts(sensor, torque).map(Fraction::rounded_up)
}

/// 4 (aa + bb + 3gg + hh).
fn sum_of_part_squares(parts: [u128; 4]) -> u128 {
    let [a, b, g, h] = parts;
    4 * (a * a + b * b + 3 * g * g + h * h)
}

/// The smallest U whose square, three times, reaches this.
fn least_uncertainty(sum_of_squares: u128) -> u128 {
    // U U is whole, so it may as well reach the next whole number.
    root_rounded_up(sum_of_squares.div_ceil(3))
}

/// U of a sensor with the parts a, b, g and h.
pub fn sensor_uncertainty(parts: [u128; 4]) -> u128 {
    least_uncertainty(sum_of_part_squares(parts))
}

/// V in grains, before it is rounded up; from U of the input sensor.
fn uncertainty_at_wheel(input: u128, ratio: u16) -> Fraction {
    Fraction {
        numerator: input * u128::from(ratio),
        denominator: 1_000,
    }
}

/// The uncertainty of a loss with the numbers that lead to it, in grains.
#[derive(Clone, Copy, PartialEq, Eq, Debug)]
pub struct UncertaintySteps {
    /// V before it is rounded up. W is U of an output sensor.
    pub at_wheel: Fraction,
    /// VV, and WW of each output sensor.
    pub sum_of_squares: u128,
    /// The loss uncertainty.
    pub uncertainty: u128,
}

/// The steps from U of all sensors to the loss uncertainty: one root of all squares.
fn uncertainty_steps(
    input: u128,
    ratio: u16,
    outputs: impl Iterator<Item = u128>,
) -> UncertaintySteps {
    let at_wheel = uncertainty_at_wheel(input, ratio);
    let rounded = at_wheel.rounded_up();
    let output_squares: u128 = outputs.map(|output| output * output).sum();
    let sum_of_squares = rounded * rounded + output_squares;
    UncertaintySteps {
        at_wheel,
        sum_of_squares,
        uncertainty: root_rounded_up(sum_of_squares),
    }
}

/// The loss uncertainty in grains, from U of the input sensor and of each output sensor.
pub fn loss_uncertainty(input: u128, ratio: u16, outputs: &[u128]) -> u128 {
    uncertainty_steps(input, ratio, outputs.iter().copied()).uncertainty
}

/// One measured entry with the numbers that lead to it.
#[derive(Clone, PartialEq, Eq, Debug)]
pub struct MeasuredSteps {
    pub input: SensorSteps,
    /// One for each output sensor.
    pub outputs: Vec<SensorSteps>,
    pub loss_uncertainty: UncertaintySteps,
    /// The measured loss in thousandths of a hundredth of Nm.
    pub loss: u128,
    /// The allowance, in `PARTS` of a hundredth of Nm.
    pub allowance: u128,
    /// How far the loss uncertainty is above the allowance, in the same parts.
    pub above_allowance: u128,
    /// The entry in hundredths of Nm, before it is rounded up.
    pub entry: Fraction,
}

/// Parts of a hundredth of Nm in which the measured loss, a twentieth of it and
/// a grain are whole.
pub const PARTS: u128 = 20_000;

/// A grain is the hundredth part of a hundredth of Nm.
pub const PARTS_OF_A_GRAIN: u128 = PARTS / 100;

/// 1 Nm at the input as it is at the wheel under this ratio, in the same parts.
pub fn newton_metre_at_wheel(ratio: u16) -> u128 {
    100 * PARTS * u128::from(ratio) / 1_000
}

/// The steps of a measured row's entry, or None when its loss is under zero.
pub fn measured_steps(ratio: u16, measured: &Measured, row: &Row) -> Option<MeasuredSteps> {
    let loss = measured_loss(ratio, row)?;
    let input = sensor_steps(&measured.input, row.input);
    let outputs: Vec<SensorSteps> = measured
        .outputs
        .iter()
        .zip(&row.outputs)
        .map(|(sensor, torque)| sensor_steps(sensor, *torque))
        .collect();
    let of_outputs = outputs.iter().map(|steps| steps.uncertainty);
    let loss_uncertainty = uncertainty_steps(input.uncertainty, ratio, of_outputs);
    let allowance = allowance(ratio, loss);
    let in_parts = PARTS_OF_A_GRAIN * loss_uncertainty.uncertainty;
    let above_allowance = in_parts.saturating_sub(allowance);
    Some(MeasuredSteps {
        input,
        outputs,
        loss_uncertainty,
        loss,
        allowance,
        above_allowance,
        entry: Fraction {
            numerator: PARTS / 1_000 * loss + above_allowance,
            denominator: PARTS,
        },
    })
}

/// The entry of the measured rule in hundredths of Nm, not capped, or None
/// when the measured loss is under zero.
pub fn measured_entry(ratio: u16, measured: &Measured, row: &Row) -> Option<u128> {
    measured_steps(ratio, measured, row).map(|steps| steps.entry.rounded_up())
}

/// Measured loss in thousandths of a hundredth of Nm, None under zero.
pub(crate) fn measured_loss(ratio: u16, row: &Row) -> Option<u128> {
    let input_at_wheel = u128::from(row.input) * u128::from(ratio);
    input_at_wheel.checked_sub(1_000 * u128::from(row.output()))
}

/// 5 % of a loss, in `PARTS`. The loss comes in thousandths of a hundredth of
/// Nm, and a part is a twentieth of one: the number stays the same.
pub fn five_percent(loss: u128) -> u128 {
    loss
}

/// Document 02, C-13: the allowance of a loss in thousandths of a hundredth of
/// Nm, in `PARTS`.
pub(crate) fn allowance(ratio: u16, loss: u128) -> u128 {
    five_percent(loss).max(newton_metre_at_wheel(ratio))
}

/// The root of a whole number, rounded up to a whole number.
fn root_rounded_up(square: u128) -> u128 {
    let root = square.isqrt();
    if root * root < square {
        root + 1
    } else {
        root
    }
}

#[cfg(test)]
mod tests {
    use super::*;

    #[test]
    fn facts_of_the_table() {
        assert!(LINES
            .iter()
            .all(|line| (95..=98).contains(&line.efficiency) && line.drag_per_ratio == 20));
    }

    #[test]
    fn root_is_the_least_that_reaches() {
        for square in 0..10_000_u128 {
            let root = root_rounded_up(square);
            assert!(root * root >= square);
            assert!(root == 0 || (root - 1) * (root - 1) < square);
        }
    }

    #[test]
    fn uncertainty_is_the_least_that_reaches() {
        for a in 0..40_u128 {
            for g in 0..40_u128 {
                let needed = 4 * (a * a + 3 * g * g + 1);
                let uncertainty = sensor_uncertainty([a, 1, g, 0]);
                assert!(3 * uncertainty * uncertainty >= needed);
                assert!(3 * (uncertainty - 1) * (uncertainty - 1) < needed);
            }
        }
    }
}
