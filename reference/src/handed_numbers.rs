//! Numbers as a caller may hand them to the writer: right, with faults, or with chance damage.

use crate::component::measured_tags;
use crate::data::{range, Data};
use crate::faults::{raise_input_limit, rows_at_limits};
use crate::lent_maps;
use crate::lookup::Axis;
use crate::random::Source;
use crate::writer::HandedNumbers;
use std::{array, slice};

/// As many row torques as a case may have.
const MOST_ROW_TORQUES: usize = 8_192;

/// The tags of the input sensor, the output sensor and the right sensor.
const SENSOR_TAGS: [u8; 3] = [6, 7, 9];

/// The numbers of valid data; what is not looked at is by chance.
pub fn of_data(source: &mut Source, data: &Data) -> HandedNumbers {
    let numbers = |tag: u8| -> Vec<u16> {
        let numbers = data.numbers(tag);
        numbers.iter().map(|number| *number as u16).collect()
    };
    let row_torques = match measured_tags(data.kind()) {
        Some(tags) => data.numbers(tags.rows),
        None => (0..source.below(16))
            .map(|_| source.draw() as u32)
            .collect(),
    };
    HandedNumbers {
        kind: numbers(1)[0],
        line: numbers(2)[0],
        ratio: numbers(3)[0],
        speeds: lent_maps::axis(source, &numbers(4), 32),
        torques: lent_maps::axis(source, &numbers(5), 64),
        sensors: SENSOR_TAGS.map(|tag| match numbers(tag).try_into() {
            Ok(sensor) => sensor,
            Err(_) => array::from_fn(|_| source.draw() as u16),
        }),
        row_torques,
    }
}

/// How many sensors a kind has.
pub fn sensor_count(kind: u16) -> usize {
    let tags = u8::try_from(kind).ok().and_then(measured_tags);
    tags.map_or(0, |tags| 1 + tags.outputs.len())
}

/// Each number that is looked at and has a range, with its range, in the order of the tests.
pub fn ranged(numbers: &mut HandedNumbers) -> Vec<(&mut u16, (u16, u16))> {
    let sensor_count = sensor_count(numbers.kind);
    let mut fields = vec![
        (1, slice::from_mut(&mut numbers.kind)),
        (2, slice::from_mut(&mut numbers.line)),
        (3, slice::from_mut(&mut numbers.ratio)),
        (4, counted(&mut numbers.speeds)),
        (5, counted(&mut numbers.torques)),
    ];
    let sensors = numbers.sensors[..sensor_count].iter_mut();
    for (tag, sensor) in SENSOR_TAGS.into_iter().zip(sensors) {
        fields.push((tag, sensor));
    }
    let mut ranged = Vec::new();
    for (tag, numbers) in fields {
        for (index, number) in numbers.iter_mut().enumerate() {
            ranged.push((number, range(tag, index).expect("a tag with ranges")));
        }
    }
    ranged
}

/// The numbers of an axis that its count names, as far as there are places.
fn counted(axis: &mut Axis) -> &mut [u16] {
    let count = axis.count.min(axis.numbers.len());
    &mut axis.numbers[..count]
}

/// So many row torques; where there are too few they begin again, and where there are none they are 0.
pub fn set_row_torque_count(numbers: &mut HandedNumbers, count: usize) {
    let count = count.min(MOST_ROW_TORQUES);
    let before = numbers.row_torques.iter().copied();
    numbers.row_torques = before.cycle().take(count).collect();
    numbers.row_torques.resize(count, 0);
}

/// Other torques in a row; no change where the row is not there.
pub fn set_row(numbers: &mut HandedNumbers, row: usize, torques: &[u32]) {
    let mut rows = numbers.row_torques.chunks_exact_mut(torques.len());
    if let Some(before) = rows.nth(row) {
        before.copy_from_slice(torques);
    }
}

/// The numbers of valid data with one to three faults, so that the order of refusals counts.
pub fn with_faults(source: &mut Source, data: &Data) -> HandedNumbers {
    let mut data = data.clone();
    if source.once_in(2) {
        raise_input_limit(&mut data);
    }
    let mut numbers = of_data(source, &data);
    for _ in 0..source.between(1, 3) {
        match source.below(8) {
            0..=2 => number_fault(source, &mut numbers),
            3 => count_fault(source, &mut numbers),
            4 => order_fault(source, &mut numbers),
            5 => row_count_fault(source, &mut numbers),
            _ => row_fault(source, &data, &mut numbers),
        }
    }
    numbers
}

/// The numbers of valid data with the highest limit for the input sensor and one row at a limit, or just beyond it: nothing else hides 7 to 10.
pub fn with_row_at_limit(source: &mut Source, data: &Data) -> HandedNumbers {
    let mut data = data.clone();
    raise_input_limit(&mut data);
    let mut numbers = of_data(source, &data);
    row_fault(source, &data, &mut numbers);
    numbers
}

/// A number just outside its range, at its end, or anything.
fn number_fault(source: &mut Source, numbers: &mut HandedNumbers) {
    let mut ranged = ranged(numbers);
    let place = source.index(ranged.len());
    let (number, (lowest, highest)) = &mut ranged[place];
    **number = match source.below(6) {
        0 => lowest.wrapping_sub(1),
        1 | 2 => *highest + 1,
        3 => *lowest,
        4 => *highest,
        _ => source.draw() as u16,
    };
}

/// One number more or less on an axis, or a count that no axis has.
fn count_fault(source: &mut Source, numbers: &mut HandedNumbers) {
    let axis = match source.below(2) {
        0 => &mut numbers.speeds,
        _ => &mut numbers.torques,
    };
    let count = axis.count as u64;
    axis.count = source.one_of(&[
        0,
        1,
        33,
        65,
        count.wrapping_sub(1),
        count.wrapping_add(1),
        count ^ 1 << 32,
        count ^ 1 << 63,
    ]) as usize;
}

/// An axis number equal to the one before or below it, or a first torque above the first step.
fn order_fault(source: &mut Source, numbers: &mut HandedNumbers) {
    let axis = match source.below(3) {
        0 => counted(&mut numbers.speeds),
        1 => counted(&mut numbers.torques),
        _ => {
            let torques = &mut numbers.torques.numbers;
            torques[0] = torques[1] / 2 + 1;
            return;
        }
    };
    if axis.len() > 1 {
        let place = source.between(1, axis.len() as u64 - 1) as usize;
        axis[place] = axis[place - 1].saturating_sub(source.below(2) as u16);
    }
}

/// Other than the right number of row torques.
fn row_count_fault(source: &mut Source, numbers: &mut HandedNumbers) {
    let count = numbers.row_torques.len();
    let any = source.index(2 * count + 1);
    let choices = [
        0,
        count.saturating_sub(1),
        count + 1,
        count / 2 * 3,
        count / 3 * 2,
        any,
    ];
    set_row_torque_count(numbers, source.one_of(&choices));
}

/// A row at one of its limits, or just beyond it.
fn row_fault(source: &mut Source, data: &Data, numbers: &mut HandedNumbers) {
    let row_count = data.rows().len();
    if row_count > 0 {
        let row = source.index(row_count);
        let rows = rows_at_limits(data, row);
        set_row(numbers, row, &rows[source.index(rows.len())]);
    }
}

/// The numbers of valid data with flipped bits: in one to three of all numbers and counts that are looked at.
pub fn damaged(source: &mut Source, data: &Data) -> HandedNumbers {
    let mut numbers = of_data(source, data);
    for _ in 0..source.between(1, 3) {
        match source.below(6) {
            0 => numbers.speeds.count ^= 1 << source.below(64),
            1 => numbers.torques.count ^= 1 << source.below(64),
            2 | 3 if !numbers.row_torques.is_empty() => {
                let place = source.index(numbers.row_torques.len());
                numbers.row_torques[place] ^= 1 << source.below(32);
            }
            _ => {
                let mut ranged = ranged(&mut numbers);
                let place = source.index(ranged.len());
                *ranged[place].0 ^= 1 << source.below(16);
            }
        }
    }
    numbers
}
