//! The same rule in doubles, as a spreadsheet reckons it: every step of the rule has its cell, with its rounding, and a row's tests are columns beside it. Most answers are those of the rule; where a step comes out a little above or below a whole number they are not, which is why the library reckons in whole numbers.

use crate::plain::{Component, LINES};
use std::io::Write;

/// The nine numbers of a sensor.
struct Sensor {
    nominal: f64,
    sensitivity: f64,
    zero: f64,
    calibration: f64,
    advancement: f64,
    parasitic: f64,
    share: f64,
    difference: f64,
    span: f64,
}

impl Sensor {
    fn of(body: &[u8]) -> Sensor {
        let number = |i: usize| f64::from(u16::from_be_bytes([body[2 * i], body[2 * i + 1]]));
        Sensor {
            nominal: number(0),
            sensitivity: number(1) / 1e6,
            zero: number(2) / 1e6,
            calibration: number(3) / 1e6,
            advancement: number(4) / 1e3,
            parasitic: number(5) / 1e6,
            share: number(6) / 1e3,
            difference: number(7) / 10.0,
            span: number(8),
        }
    }

    /// U in grains, at a torque in Nm.
    fn uncertainty(&self, torque: f64) -> f64 {
        let a = (1e4 * self.sensitivity * self.difference * torque / self.span).ceil();
        let b = (1e4 * self.zero * self.difference * self.nominal / self.span).ceil();
        let g = (1e4 * self.calibration * self.nominal / self.advancement).ceil();
        let h = (1e4 * self.parasitic * self.share * self.nominal).ceil();
        (2.0 * (a * a / 3.0 + b * b / 3.0 + g * g + h * h / 3.0).sqrt()).ceil()
    }
}

fn hundredths_up(loss: f64) -> f64 {
    (loss * 100.0).ceil() / 100.0
}

/// A row's torque at this place, in Nm.
fn torque_at(row: &[u8], place: usize) -> f64 {
    let start = 4 * place;
    let bytes = [row[start], row[start + 1], row[start + 2], row[start + 3]];
    f64::from(u32::from_be_bytes(bytes)) / 100.0
}

/// A row's entry in Nm, torques in Nm.
#[inline]
fn measured_entry<const OUTPUTS: usize>(
    ratio: f64,
    input_sensor: &Sensor,
    output_sensors: &[Sensor; OUTPUTS],
    torque: f64,
    row: &[u8],
) -> Option<f64> {
    let input = torque_at(row, 0);
    let at_wheel = (input_sensor.uncertainty(input) * ratio).ceil();
    let mut measured = input <= input_sensor.nominal;
    let (mut output, mut squares) = (0.0, at_wheel * at_wheel);
    for (index, sensor) in output_sensors.iter().enumerate() {
        let at_sensor = torque_at(row, 1 + index);
        measured &= at_sensor <= sensor.nominal;
        output += at_sensor;
        let at_output = sensor.uncertainty(at_sensor);
        squares += at_output * at_output;
    }
    let loss = input * ratio - output;
    let uncertainty = squares.sqrt().ceil() / 1e4;
    let allowance = (0.05 * loss).max(ratio);
    let entry = hundredths_up(loss + (uncertainty - allowance).max(0.0));
    let right = measured && (output - torque).abs() <= 5.0 && loss >= 0.0 && entry <= 1e5;
    right.then_some(entry)
}

fn measured_entries<const OUTPUTS: usize>(
    data: &[u8],
    component: &Component,
    entries: &mut Vec<f64>,
) -> Option<()> {
    // The sensors' bodies of 18 bytes stand before the head of the rows, each behind its own.
    let rows = data.len() - component.rows.len();
    let sensor = |from_last: usize| Sensor::of(&data[rows - 21 * from_last..]);
    let input = sensor(1 + OUTPUTS);
    let outputs: [Sensor; OUTPUTS] = std::array::from_fn(|index| sensor(OUTPUTS - index));
    let ratio = component.ratio as f64 / 1e3;
    let torques = component.torques();
    for (index, row) in component.rows.chunks_exact(4 + 4 * OUTPUTS).enumerate() {
        let torque = f64::from(torques[index % torques.len()]);
        entries.push(measured_entry(ratio, &input, &outputs, torque, row)?);
    }
    Some(())
}

/// The entries of valid data, in Nm.
#[inline(never)]
pub fn build(data: &[u8]) -> Option<Vec<f64>> {
    let component = Component::read(data)?;
    let torques = component.torques();
    let mut entries = Vec::with_capacity(component.speeds().len() * torques.len());
    match component.kind {
        2 => measured_entries::<1>(data, &component, &mut entries)?,
        3 => measured_entries::<2>(data, &component, &mut entries)?,
        _ => {
            let ratio = component.ratio as f64 / 1e3;
            let (efficiency, drag) = LINES[usize::from(component.line) - 1];
            let (efficiency, drag) = (efficiency as f64, drag as f64);
            for _ in component.speeds() {
                for torque in torques {
                    let loss = drag
                        + 20.0 * ratio
                        + f64::from(*torque) * (100.0 - efficiency) / efficiency;
                    entries.push(hundredths_up(loss));
                }
            }
        }
    }
    Some(entries)
}

/// Where the lower of a number's neighbours is in the axis. On long axes the search is quicker than to count without branches.
#[inline(always)]
fn lower_neighbour(axis: &[f64], number: f64) -> usize {
    axis[1..axis.len() - 1].partition_point(|inner| *inner <= number)
}

/// Linear in torque and in speed between the four entries around the point. Nothing is tested, and nothing rounded.
#[inline(always)]
fn interpolated(
    speeds: &[f64],
    torques: &[f64],
    entries: &[f64],
    (speed, torque): (f64, f64),
) -> f64 {
    let i = lower_neighbour(speeds, speed);
    let j = lower_neighbour(torques, torque);
    let x = (speed - speeds[i]) / (speeds[i + 1] - speeds[i]);
    let y = (torque - torques[j]) / (torques[j + 1] - torques[j]);
    let line = |i: usize| {
        let corners = &entries[i * torques.len() + j..][..2];
        corners[0] + y * (corners[1] - corners[0])
    };
    let (lower, upper) = (line(i), line(i + 1));
    lower + x * (upper - lower)
}

/// The loss in Nm at a speed in rpm and a torque in Nm, as a simulation has it today.
#[inline(never)]
pub fn bilinear(speeds: &[f64], torques: &[f64], entries: &[f64], point: (f64, f64)) -> f64 {
    interpolated(speeds, torques, entries, point)
}

/// The losses at many points in one call.
#[inline(never)]
pub fn bilinear_at_all(
    speeds: &[f64],
    torques: &[f64],
    entries: &[f64],
    points: &[(f64, f64)],
    losses: &mut [f64],
) {
    for (loss, point) in losses.iter_mut().zip(points) {
        *loss = interpolated(speeds, torques, entries, *point);
    }
}

fn nearest_number(axis: &[u16], number: f64) -> f64 {
    let mut nearest = f64::from(axis[0]);
    for candidate in axis {
        let candidate = f64::from(*candidate);
        if (candidate - number).abs() < (nearest - number).abs() {
            nearest = candidate;
        }
    }
    nearest
}

#[inline(never)]
pub fn nearest(speeds: &[u16], torques: &[u16], speed: f64, torque: f64) -> (f64, f64) {
    (
        nearest_number(speeds, speed),
        nearest_number(torques, torque),
    )
}

#[inline(never)]
pub fn listing(speeds: &[u16], torques: &[u16], entries: &[f64], text: &mut Vec<u8>) -> usize {
    text.clear();
    text.extend(b"speed,torque,loss\n");
    for (speed, row) in speeds.iter().zip(entries.chunks_exact(torques.len())) {
        for (torque, entry) in torques.iter().zip(row) {
            let _ = writeln!(text, "{speed},{torque},{entry:.2}");
        }
    }
    text.len()
}
