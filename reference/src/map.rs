//! Document 01, the build: "Standard loss", "Measured loss" and the order of
//! "Refusals" after the fields: 12, then 11, then the rows: 7 of each torque, 8, 9, 10.

use crate::component::{self, output_place, Component, Kind, Measured, Row, Sensor};
use crate::loss;
use crate::refusal::Refusal;

/// The largest entry, in hundredths of Nm.
pub(crate) const LARGEST_ENTRY: u32 = 10_000_000;

/// How far an output torque may be from its axis torque, in hundredths of Nm.
const LARGEST_DISTANCE: u64 = 500;

/// A built map. Entries in hundredths of Nm, speeds outer, torques inner.
#[derive(Clone, PartialEq, Eq, Debug)]
pub struct Map {
    pub speeds: Vec<u16>,
    pub torques: Vec<u16>,
    pub entries: Vec<u32>,
}

/// The place of an entry, and of its row, among those of a map with so many torques.
pub fn entry_index(torque_count: usize, speed_index: usize, torque_index: usize) -> usize {
    speed_index * torque_count + torque_index
}

/// Builds the map of the data into so many lent entries.
pub fn build(data: &[u8], lent_entries: usize) -> Result<Map, Refusal> {
    let component = component::read(data)?;
    let needed = component.speeds.len() * component.torques.len();
    if lent_entries < needed {
        return Err(Refusal::at(11, needed));
    }
    let entries = match &component.kind {
        Kind::Standard => standard_entries(&component),
        Kind::Measured(measured) => {
            measured_entries(component.ratio, &component.torques, measured)?
        }
    };
    Ok(Map {
        speeds: component.speeds,
        torques: component.torques,
        entries,
    })
}

/// Refusal 10 cannot come here, so that no row's offset is missed: the largest
/// entry is HRT's at ratio 20.000 and 50,000 Nm, 9,000 + 40,000 + 263,158 =
/// 312,158 hundredths (rounded up), far under 10,000,000.
fn standard_entries(component: &Component) -> Vec<u32> {
    let row: Vec<u32> = component
        .torques
        .iter()
        .map(|torque| loss::standard_entry(component.line, component.ratio, *torque))
        .map(|entry| u32::try_from(entry).expect("a standard entry is at most 312,158"))
        .collect();
    row.repeat(component.speeds.len())
}

/// The entries of the rows, or the refusal of the first row that breaks a rule.
pub(crate) fn measured_entries(
    ratio: u16,
    torques: &[u16],
    measured: &Measured,
) -> Result<Vec<u32>, Refusal> {
    let mut entries = Vec::with_capacity(measured.rows.len());
    for (index, row) in measured.rows.iter().enumerate() {
        let place = measured.row_place(index);
        let axis_torque = torques[index % torques.len()];
        test_row(row, measured, axis_torque, place)?;
        let entry = loss::measured_entry(ratio, measured, row).ok_or(Refusal::at(9, place))?;
        if entry > u128::from(LARGEST_ENTRY) {
            return Err(Refusal::at(10, place));
        }
        entries.push(u32::try_from(entry).expect("an entry is at most 10,000,000"));
    }
    Ok(entries)
}

/// Refusals 7 of the input and of each output, and 8 of their sum, of a row at
/// this place.
fn test_row(row: &Row, measured: &Measured, axis_torque: u16, place: usize) -> Result<(), Refusal> {
    test_torque(row.input, &measured.input, place)?;
    for (index, (torque, sensor)) in row.outputs.iter().zip(&measured.outputs).enumerate() {
        test_torque(*torque, sensor, output_place(place, index))?;
    }
    if row.output().abs_diff(100 * u64::from(axis_torque)) > LARGEST_DISTANCE {
        return Err(Refusal::at(8, output_place(place, 0)));
    }
    Ok(())
}

/// Refusal 7.
pub(crate) fn test_torque(torque: u32, sensor: &Sensor, place: usize) -> Result<(), Refusal> {
    if torque > 100 * u32::from(sensor.nominal) {
        return Err(Refusal::at(7, place));
    }
    Ok(())
}
