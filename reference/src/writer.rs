//! Document 02, request C-12, "Writing component data": the numbers are tested
//! in the order of the reader, and laid out as the fields of their kind. Refusals
//! 31 and 32 are those of request C-14.
//! The rules of a row, 7 to 10, are those of the build.

use crate::component::{
    first_torque_allowed, measured_tags, AxisRule, Component, Kind, Measured, MeasuredTags, Row,
    Sensor, KIND_RANGE, LINE_RANGE, RATIO_RANGE, SPEED_RULE, TORQUE_RULE,
};
use crate::lookup::Axis;
use crate::map;
use crate::refusal::Refusal;
use std::iter;
use std::ops::RangeInclusive;

/// What a caller hands over. Nothing is known of it until it is tested.
#[derive(Clone, PartialEq, Eq, Hash, Debug)]
pub struct HandedNumbers {
    pub kind: u16,
    pub line: u16,
    pub ratio: u16,
    /// 32 places.
    pub speeds: Axis,
    /// 64 places.
    pub torques: Axis,
    /// The input sensor, the output sensor (of kind 3 the left one), the right
    /// sensor; the numbers of each in the order of the data.
    pub sensors: [[u16; 9]; 3],
    /// The torques of all rows, in the order of the data.
    pub row_torques: Vec<u32>,
}

impl HandedNumbers {
    /// The numbers of data that was read; what its kind does not have is 0 or empty.
    pub fn of(component: &Component) -> HandedNumbers {
        let mut sensors = [[0; 9]; 3];
        let mut row_torques = Vec::new();
        if let Kind::Measured(measured) = &component.kind {
            sensors[0] = measured.input.numbers();
            for (numbers, output) in sensors[1..].iter_mut().zip(&measured.outputs) {
                *numbers = output.numbers();
            }
            for row in &measured.rows {
                row_torques.push(row.input);
                row_torques.extend(&row.outputs);
            }
        }
        HandedNumbers {
            kind: u16::from(component.kind.number()),
            line: u16::from(component.line),
            ratio: component.ratio,
            speeds: Axis::padded(&component.speeds, &SPEED_RULE),
            torques: Axis::padded(&component.torques, &TORQUE_RULE),
            sensors,
            row_torques,
        }
    }
}

/// Writes the file to the start of the buffer and answers its length. A refused
/// call writes nothing.
pub fn write(numbers: &HandedNumbers, buffer: &mut [u8]) -> Result<usize, Refusal> {
    let file = TestedNumbers::of(numbers)?.file();
    let length = file.len();
    let Some(start) = buffer.get_mut(..length) else {
        return Err(Refusal::at(30, length));
    };
    start.copy_from_slice(&file);
    Ok(length)
}

fn refused<T>(number: u8) -> Result<T, Refusal> {
    Err(Refusal::at(number, 0))
}

/// The numbers that stand in the file; they have passed refusals 3 to 10, 31 and 32.
struct TestedNumbers<'numbers> {
    kind: u8,
    line: u8,
    ratio: u16,
    speeds: &'numbers [u16],
    torques: &'numbers [u16],
    measurement: Option<Measurement<'numbers>>,
}

/// What a measured kind has beside them.
struct Measurement<'numbers> {
    tags: MeasuredTags,
    sensors: &'numbers [[u16; 9]],
    row_torques: &'numbers [u32],
}

impl TestedNumbers<'_> {
    fn of(numbers: &HandedNumbers) -> Result<TestedNumbers<'_>, Refusal> {
        let kind = tested_byte(numbers.kind, KIND_RANGE)?;
        let line = tested_byte(numbers.line, LINE_RANGE)?;
        test_ratio(numbers.ratio)?;
        let speeds = tested_axis(&numbers.speeds, &SPEED_RULE)?;
        let torques = tested_axis(&numbers.torques, &TORQUE_RULE)?;
        if !first_torque_allowed(torques) {
            return refused(6);
        }
        let measurement = match measured_tags(kind) {
            None => None,
            Some(tags) => Some(Measurement::of(numbers, tags, speeds.len(), torques)?),
        };
        Ok(TestedNumbers {
            kind,
            line,
            ratio: numbers.ratio,
            speeds,
            torques,
            measurement,
        })
    }

    /// The bytes of the file.
    fn file(&self) -> Vec<u8> {
        let mut file = field(1, &[self.kind]);
        file.extend(field(2, &[self.line]));
        file.extend(number_field(3, &[self.ratio]));
        file.extend(number_field(4, self.speeds));
        file.extend(number_field(5, self.torques));
        if let Some(measurement) = &self.measurement {
            file.extend(measurement.fields());
        }
        file
    }
}

impl Measurement<'_> {
    /// Tests the sensors that the kind has, how many row torques there are, and the rows.
    fn of<'numbers>(
        numbers: &'numbers HandedNumbers,
        tags: MeasuredTags,
        speed_count: usize,
        torques: &[u16],
    ) -> Result<Measurement<'numbers>, Refusal> {
        let sensors = &numbers.sensors[..1 + tags.outputs.len()];
        let input = tested_sensor(sensors[0])?;
        let outputs = sensors[1..].iter().copied().map(tested_sensor);
        let outputs = outputs.collect::<Result<Vec<Sensor>, Refusal>>()?;
        let row_torques = &numbers.row_torques;
        if row_torques.len() != sensors.len() * speed_count * torques.len() {
            return refused(3);
        }
        let measured = Measured {
            input,
            outputs,
            rows: rows(row_torques, sensors.len()),
            // No offset is told: the place of each refusal is 0.
            rows_start: 0,
        };
        map::measured_entries(numbers.ratio, torques, &measured)
            .or_else(|refusal| refused(refusal.number))?;
        Ok(Measurement {
            tags,
            sensors,
            row_torques,
        })
    }

    fn fields(&self) -> Vec<u8> {
        let sensor_tags = iter::once(&6).chain(self.tags.outputs);
        let mut fields: Vec<u8> = sensor_tags
            .zip(self.sensors)
            .flat_map(|(tag, numbers)| number_field(*tag, numbers))
            .collect();
        let rows: Vec<u8> = self
            .row_torques
            .iter()
            .flat_map(|torque| torque.to_be_bytes())
            .collect();
        fields.extend(field(self.tags.rows, &rows));
        fields
    }
}

/// Refusal 4 of a kind, a line or an axis number.
fn test_number(number: u16, range: &RangeInclusive<u16>) -> Result<(), Refusal> {
    if !range.contains(&number) {
        return refused(4);
    }
    Ok(())
}

/// Refusal 31.
fn test_ratio(ratio: u16) -> Result<(), Refusal> {
    if !RATIO_RANGE.contains(&ratio) {
        return Err(Refusal::at_index(31, 0, 0));
    }
    Ok(())
}

/// A number that has one byte in the file. Its range is tested before it is narrowed.
fn tested_byte(number: u16, range: RangeInclusive<u16>) -> Result<u8, Refusal> {
    test_number(number, &range)?;
    Ok(u8::try_from(number).expect("a range within a byte"))
}

/// The numbers of an axis that count: 3, then at each number 4 before 5.
fn tested_axis<'axis>(axis: &'axis Axis, rule: &AxisRule) -> Result<&'axis [u16], Refusal> {
    if !rule.count.contains(&axis.count) {
        return refused(3);
    }
    let numbers = &axis.numbers[..axis.count];
    for (place, number) in numbers.iter().enumerate() {
        test_number(*number, &rule.range)?;
        if place > 0 && *number <= numbers[place - 1] {
            return refused(5);
        }
    }
    Ok(numbers)
}

/// Refusal 32 of a sensor's numbers, from left to right.
pub(crate) fn tested_sensor(numbers: [u16; 9]) -> Result<Sensor, Refusal> {
    Sensor::of(numbers).map_err(|index| Refusal::at_index(32, 0, index))
}

/// Rows with one torque for each sensor, the input's first.
fn rows(row_torques: &[u32], sensor_count: usize) -> Vec<Row> {
    row_torques
        .chunks_exact(sensor_count)
        .map(|row| Row {
            input: row[0],
            outputs: row[1..].to_vec(),
        })
        .collect()
}

/// A field: its tag, the length of its body in two bytes, and the body.
fn field(tag: u8, body: &[u8]) -> Vec<u8> {
    let length = u16::try_from(body.len()).expect("the longest body has 24,576 bytes");
    let [high, low] = length.to_be_bytes();
    [&[tag, high, low], body].concat()
}

/// A field of numbers of two bytes.
fn number_field(tag: u8, numbers: &[u16]) -> Vec<u8> {
    let body: Vec<u8> = numbers.iter().flat_map(|n| n.to_be_bytes()).collect();
    field(tag, &body)
}
