//! Valid component data of every kind, over the whole ranges with their ends on purpose.

use crate::component::measured_tags;
use crate::data::{Data, Field, SENSOR_RANGES};
use crate::random::Source;

const HIGHEST_TORQUE: u64 = 5_000_000; // hundredths of Nm

/// How many speeds and torques: mostly few, so that many files are small in sum.
pub fn grid_size(source: &mut Source) -> (usize, usize) {
    match source.below(40) {
        0..=9 => (2, 2),
        10..=29 => (source.between(2, 4) as usize, source.between(2, 5) as usize),
        30..=35 => (source.between(2, 32) as usize, 2),
        36..=38 => (2, source.between(2, 64) as usize),
        _ => (
            source.with_ends(2, 12) as usize,
            source.with_ends(2, 12) as usize,
        ),
    }
}

/// Strictly rising numbers within a range: spread out, or packed together.
fn rising(source: &mut Source, count: usize, lowest: u64, highest: u64) -> Vec<u16> {
    let mut numbers = Vec::new();
    if source.once_in(6) {
        let first = source.with_ends(lowest, highest + 1 - count as u64);
        return (0..count as u64).map(|i| (first + i) as u16).collect();
    }
    while numbers.len() < count {
        let number = source.with_ends(lowest, highest) as u16;
        if !numbers.contains(&number) {
            numbers.push(number);
        }
    }
    numbers.sort_unstable();
    numbers
}

pub fn speeds(source: &mut Source, count: usize) -> Vec<u16> {
    rising(source, count, 1, 3_000)
}

/// The first torque does not exceed the first step; often it is equal to it, or 0.
pub fn torques(source: &mut Source, count: usize) -> Vec<u16> {
    let mut torques = rising(source, count, 0, 50_000);
    torques[0] = source.with_ends(0, u64::from(torques[1] / 2)) as u16;
    if source.once_in(4) && torques[1].is_multiple_of(2) {
        torques[0] = torques[1] / 2;
    }
    torques
}

/// A sensor's influences; its nominal torque comes from the rows.
fn sensor(source: &mut Source) -> [u16; 9] {
    let way = source.below(5);
    let mut numbers = [0; 9];
    for (number, (lowest, highest)) in numbers.iter_mut().zip(SENSOR_RANGES) {
        let (lowest, highest) = (u64::from(lowest), u64::from(highest));
        *number = match way {
            0 => lowest,
            1 => source.with_ends(lowest, highest),
            2 => source.between(lowest, highest),
            _ => source.with_ends(lowest, lowest + (highest - lowest) / 20),
        } as u16;
    }
    if source.once_in(3) {
        numbers[source.between(1, 7) as usize] = 0;
        numbers[4] = numbers[4].max(1_000);
    }
    numbers
}

/// Input and output torque of a row that keeps the rules of the output torque and of the loss. The output torque is at most the highest.
fn row(source: &mut Source, ratio: u64, torque: u64, highest: u64) -> (u64, u64) {
    let aim = torque * 100;
    let output = source
        .with_ends(aim.saturating_sub(500), aim + 500)
        .min(highest);
    let least = (output * 1_000).div_ceil(ratio);
    let (input, output) = match source.below(6) {
        0 => no_loss(least, ratio, aim, highest).unwrap_or((least, output)),
        1 => (least, output),
        2 => (least + source.between(0, 3), output),
        3 => (least + source.between(0, 9_000_000 * 1_000 / ratio), output),
        _ => (
            least + least * source.between(0, 60) / 1_000 + source.between(0, 2_000),
            output,
        ),
    };
    (input.min(HIGHEST_TORQUE).max(least), output)
}

/// A row near to the wanted one whose loss is exactly zero.
fn no_loss(input: u64, ratio: u64, aim: u64, highest: u64) -> Option<(u64, u64)> {
    let whole = (input.saturating_sub(100)..=input).find(|n| (n * ratio).is_multiple_of(1_000))?;
    let output = whole * ratio / 1_000;
    (output.abs_diff(aim) <= 500 && output <= highest).then_some((whole, output))
}

/// An output torque as so many sensors have it together: even parts, all at one of them, or any parts.
fn parts(source: &mut Source, output: u64, sensors: u64) -> Vec<u64> {
    let (mut parts, mut rest) = (Vec::new(), output);
    for others in (1..sensors).rev() {
        let least = rest.saturating_sub(others * HIGHEST_TORQUE);
        let part = match source.below(3) {
            0 => rest / (1 + others),
            _ => source.with_ends(least, rest.min(HIGHEST_TORQUE)),
        };
        parts.push(part);
        rest -= part;
    }
    parts.push(rest);
    parts
}

/// A nominal torque that a sensor's largest torque does not exceed, often only just.
fn nominal(source: &mut Source, largest: u64) -> u16 {
    let least = largest.div_ceil(100).max(1);
    source.with_ends(least, 50_000) as u16
}

/// What measured data with so many output sensors has after tag 5.
fn measurement(
    source: &mut Source,
    outputs: u64,
    ratio: u64,
    speeds: usize,
    torques: &[u16],
) -> (Vec<[u16; 9]>, Vec<Vec<u32>>) {
    // What the output sensors can have together, and what the input sensor can have, at the wheel.
    let highest = (outputs * HIGHEST_TORQUE).min(HIGHEST_TORQUE * ratio / 1_000);
    let mut rows = Vec::new();
    for _ in 0..speeds {
        for torque in torques {
            let (input, output) = row(source, ratio, u64::from(*torque), highest);
            rows.push(row_torques(source, input, output, outputs));
        }
    }
    (sensors(source, &rows), rows)
}

/// The torques of a row with this input and this output torque, the latter in parts.
pub fn row_torques(source: &mut Source, input: u64, output: u64, outputs: u64) -> Vec<u32> {
    let mut torques = vec![input as u32];
    let parts = parts(source, output, outputs);
    torques.extend(parts.into_iter().map(|part| part as u32));
    torques
}

/// A sensor for each torque of the rows.
pub fn sensors(source: &mut Source, rows: &[Vec<u32>]) -> Vec<[u16; 9]> {
    let mut sensors: Vec<[u16; 9]> = rows[0].iter().map(|_| sensor(source)).collect();
    for (place, sensor) in sensors.iter_mut().enumerate() {
        let largest = rows.iter().map(|row| row[place]).max().unwrap_or(0);
        sensor[0] = nominal(source, largest.into());
    }
    sensors
}

/// A ratio, often a round one or an end of the range.
pub fn ratio(source: &mut Source) -> u16 {
    let ratio = match source.below(3) {
        0 => source.one_of(&[1_000, 2_000, 3_000, 5_000, 20_000]),
        _ => source.with_ends(1_000, 20_000),
    };
    ratio as u16
}

/// Data of a kind with so many speeds and torques. A very uncertain sensor may still bring an entry above the limit (10).
pub fn data_of(source: &mut Source, kind: u8, speed_count: usize, torque_count: usize) -> Data {
    let ratio = ratio(source);
    let torques = torques(source, torque_count);
    let line = source.between(1, 5) as u8;
    let speeds = speeds(source, speed_count);
    let mut fields = Field::of_every_kind(kind, line, ratio, &speeds, &torques);
    if let Some(tags) = measured_tags(kind) {
        let outputs = tags.outputs.len() as u64;
        let (sensors, rows) = measurement(source, outputs, ratio.into(), speed_count, &torques);
        fields.extend(Field::of_measurement(kind, &sensors, &rows));
    }
    Data::of(fields)
}

/// Data of any kind and any size, measured more often than standard.
pub fn data(source: &mut Source) -> Data {
    let kind = source.one_of(&[1, 1, 2, 2, 2, 3, 3, 3]);
    let (speeds, torques) = grid_size(source);
    data_of(source, kind, speeds, torques)
}

/// Data of any kind and any size up to the largest.
pub fn large_data(source: &mut Source) -> Data {
    let kind = source.between(1, 3) as u8;
    let (speeds, torques) = (source.with_ends(2, 32), source.with_ends(2, 64));
    data_of(source, kind, speeds as usize, torques as usize)
}
