//! The entries of component data.

use super::component::{Component, LINES};
use super::map::LARGEST_ENTRY;
use super::sensor::{quotient_up, PreparedSensor};
use crate::roots::root_up;
use axle::Grid;

/// Builds the map of data into the lent entries, and answers its axes; none where a row is refused or too few entries are lent.
#[inline(never)]
pub fn build(data: &[u8], entries: &mut [u32]) -> Option<Grid> {
    let component = Component::read(data)?;
    let grid = component.grid;
    let entries = entries.get_mut(..grid.speed_count * grid.torque_count)?;
    match component.kind {
        2 => Bench::<1>::of(&component).fill(&component, entries)?,
        3 => Bench::<2>::of(&component).fill(&component, entries)?,
        _ => fill_standard(&component, entries),
    }
    Some(grid)
}

/// The first speed's entries, and copies of them.
fn fill_standard(component: &Component, entries: &mut [u32]) {
    let torques = component.torques();
    let (efficiency, drag) = LINES[usize::from(component.line) - 1];
    let constant = efficiency * (1_000 * drag + 20 * component.ratio);
    let (first, rest) = entries.split_at_mut(torques.len());
    for (entry, torque) in first.iter_mut().zip(torques) {
        let loaded = 1_000 * u64::from(*torque) * (100 - efficiency);
        *entry = (constant + loaded).div_ceil(10 * efficiency) as u32;
    }
    for row in rest.chunks_exact_mut(torques.len()) {
        row.copy_from_slice(first);
    }
}

/// What all rows have in common: the ratio in thousandths, and the sensors.
#[derive(Clone, Copy)]
struct Bench<const OUTPUTS: usize> {
    ratio: u64,
    input: PreparedSensor,
    outputs: [PreparedSensor; OUTPUTS],
}

/// A row's torque at this place, in hundredths of Nm.
#[inline(always)]
fn torque_at(row: &[u8], place: usize) -> u32 {
    let start = 4 * place;
    u32::from_be_bytes([row[start], row[start + 1], row[start + 2], row[start + 3]])
}

impl<const OUTPUTS: usize> Bench<OUTPUTS> {
    fn of(component: &Component) -> Bench<OUTPUTS> {
        let [input, ..] = component.sensors;
        Bench {
            ratio: component.ratio,
            input: PreparedSensor::of(&input),
            outputs: std::array::from_fn(|i| PreparedSensor::of(&component.sensors[1 + i])),
        }
    }

    fn fill(self, component: &Component, entries: &mut [u32]) -> Option<()> {
        let torques = component.torques();
        let row_length = 4 + 4 * OUTPUTS;
        let runs = component.rows.chunks_exact(row_length * torques.len());
        for (rows, entries) in runs.zip(entries.chunks_exact_mut(torques.len())) {
            let rows = rows.chunks_exact(row_length);
            for ((row, torque), entry) in rows.zip(torques).zip(entries) {
                *entry = self.entry(u32::from(*torque), row)?;
            }
        }
        Some(())
    }

    /// The entry of a row at an axis torque in Nm, none where 7 to 10 refuse it.
    #[inline(always)]
    fn entry(&self, torque: u32, row: &[u8]) -> Option<u32> {
        let input = torque_at(row, 0);
        let mut measured = input <= self.input.limit;
        let mut output = 0u32;
        for (index, sensor) in self.outputs.iter().enumerate() {
            let at_sensor = torque_at(row, 1 + index);
            measured &= at_sensor <= sensor.limit;
            // What passes here has a torque above its limit.
            output = output.wrapping_add(at_sensor);
        }
        if !measured || output.abs_diff(100 * torque) > 500 {
            return None;
        }
        let loss = (u64::from(input) * self.ratio).checked_sub(1_000 * u64::from(output))?;
        let allowance = loss.max(2_000 * self.ratio);
        let above = (200 * self.uncertainty(input, row)).saturating_sub(allowance);
        let entry = quotient_up(20 * loss + above, 20_000);
        (entry <= u64::from(LARGEST_ENTRY)).then_some(entry as u32)
    }

    /// The loss uncertainty of a row in grains.
    #[inline(always)]
    fn uncertainty(&self, input: u32, row: &[u8]) -> u64 {
        let at_wheel = quotient_up(self.input.uncertainty(input) * self.ratio, 1_000);
        let mut squares = at_wheel * at_wheel;
        for (index, sensor) in self.outputs.iter().enumerate() {
            let at_output = sensor.uncertainty(torque_at(row, 1 + index));
            squares += at_output * at_output;
        }
        root_up(squares)
    }
}
