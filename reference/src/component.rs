//! Document 01, "Component data", with refusals 1 to 6 and 12 of "Refusals"; kind 3
//! of request C-11; and refusals 31 and 32 of request C-14.

use crate::refusal::Refusal;
use std::ops::RangeInclusive;

pub(crate) const KIND_RANGE: RangeInclusive<u16> = 1..=3;
pub(crate) const LINE_RANGE: RangeInclusive<u16> = 1..=5;
pub(crate) const RATIO_RANGE: RangeInclusive<u16> = 1_000..=20_000;

/// The rules of an axis: how many numbers it has, and their range.
pub(crate) struct AxisRule {
    pub(crate) count: RangeInclusive<usize>,
    pub(crate) range: RangeInclusive<u16>,
}

pub(crate) const SPEED_RULE: AxisRule = AxisRule {
    count: 2..=32,
    range: 1..=3_000,
};
pub(crate) const TORQUE_RULE: AxisRule = AxisRule {
    count: 2..=64,
    range: 0..=50_000,
};

const SENSOR_LENGTH: usize = 18;
const TORQUE_LENGTH: usize = 4;

/// The tags of a measured kind that come after tag 6.
#[derive(Clone, Copy, PartialEq, Eq, Debug)]
pub struct MeasuredTags {
    /// Those of the output sensors, in their order.
    pub outputs: &'static [u8],
    pub rows: u8,
}

/// Kind 2 has one output sensor, kind 3 the left and the right one; kind 1 is
/// not measured.
pub fn measured_tags(kind: u8) -> Option<MeasuredTags> {
    match kind {
        2 => Some(MeasuredTags {
            outputs: &[7],
            rows: 8,
        }),
        3 => Some(MeasuredTags {
            outputs: &[7, 9],
            rows: 10,
        }),
        _ => None,
    }
}

/// The nine numbers of tag 6, 7 or 9, in their order; document 01's letter of each.
#[derive(Clone, Copy, PartialEq, Eq, Debug)]
pub struct Sensor {
    /// N, Nm.
    pub nominal: u16,
    /// w, ppm.
    pub sensitivity: u16,
    /// z, ppm.
    pub zero: u16,
    /// c, ppm.
    pub calibration: u16,
    /// k, thousandths.
    pub advancement: u16,
    /// s, ppm.
    pub parasitic: u16,
    /// p, thousandths.
    pub share: u16,
    /// d, tenths of K.
    pub difference: u16,
    /// R, K.
    pub span: u16,
}

impl Sensor {
    /// The sensor of nine numbers in their order, or the index, from 0, of the first
    /// that is outside its range.
    pub fn of(numbers: [u16; 9]) -> Result<Sensor, usize> {
        const PPM: RangeInclusive<u16> = 0..=10_000;
        let ranges = [
            1..=50_000,
            PPM,
            PPM,
            PPM,
            1_000..=10_000,
            PPM,
            0..=1_000,
            0..=500,
            10..=100,
        ];
        let outside = |index: &usize| !ranges[*index].contains(&numbers[*index]);
        if let Some(index) = (0..numbers.len()).find(outside) {
            return Err(index);
        }
        let [nominal, sensitivity, zero, calibration, advancement, parasitic, share, difference, span] =
            numbers;
        Ok(Sensor {
            nominal,
            sensitivity,
            zero,
            calibration,
            advancement,
            parasitic,
            share,
            difference,
            span,
        })
    }

    /// The nine numbers in their order: N, w, z, c, k, s, p, d, R.
    pub fn numbers(&self) -> [u16; 9] {
        [
            self.nominal,
            self.sensitivity,
            self.zero,
            self.calibration,
            self.advancement,
            self.parasitic,
            self.share,
            self.difference,
            self.span,
        ]
    }
}

/// One row of tag 8 or 10, its torques in hundredths of Nm.
#[derive(Clone, PartialEq, Eq, Debug)]
pub struct Row {
    pub input: u32,
    /// One for each output sensor.
    pub outputs: Vec<u32>,
}

impl Row {
    /// The output torque: the sum of what the output sensors have. Two highest
    /// numbers of four bytes are above a u32.
    pub fn output(&self) -> u64 {
        self.outputs.iter().copied().map(u64::from).sum()
    }
}

/// What measured data has after tag 5.
#[derive(Clone, PartialEq, Eq, Debug)]
pub struct Measured {
    pub input: Sensor,
    /// One for kind 2; left, then right for kind 3.
    pub outputs: Vec<Sensor>,
    pub rows: Vec<Row>,
    /// Offset of the first row in the data.
    pub rows_start: usize,
}

impl Measured {
    /// How many bytes a row has: the input torque, and one torque for each output sensor.
    pub fn row_length(&self) -> usize {
        TORQUE_LENGTH * (1 + self.outputs.len())
    }

    /// Where the row of this index starts in the data.
    pub fn row_place(&self, index: usize) -> usize {
        self.rows_start + self.row_length() * index
    }
}

/// Where the torque of this output sensor stands in a row that starts at this place.
pub fn output_place(row_place: usize, output_index: usize) -> usize {
    row_place + TORQUE_LENGTH * (1 + output_index)
}

/// The kind of the data, with the fields that only this kind has.
#[derive(Clone, PartialEq, Eq, Debug)]
pub enum Kind {
    Standard,
    Measured(Measured),
}

impl Kind {
    /// The number of tag 1.
    pub fn number(&self) -> u8 {
        match self {
            Kind::Standard => 1,
            Kind::Measured(measured) if measured.outputs.len() == 1 => 2,
            Kind::Measured(_) => 3,
        }
    }
}

/// Component data as read; the rows of a measured one are not yet tested.
#[derive(Clone, PartialEq, Eq, Debug)]
pub struct Component {
    pub kind: Kind,
    pub line: u8,
    pub ratio: u16,
    pub speeds: Vec<u16>,
    pub torques: Vec<u16>,
}

/// The reading place: everything before `offset` has been read.
#[derive(Clone, Copy)]
struct Cursor<'data> {
    data: &'data [u8],
    offset: usize,
}

/// A field's body, and where it starts in the data.
#[derive(Clone, Copy)]
struct Field<'data> {
    body: &'data [u8],
    start: usize,
}

impl<'data> Cursor<'data> {
    /// The field with this tag, and the cursor behind it. Within the head and
    /// the body's extent the tests come in the order 1, 2, 3, 1.
    fn field(
        self,
        tag: u8,
        length_allowed: impl Fn(usize) -> bool,
    ) -> Result<(Field<'data>, Cursor<'data>), Refusal> {
        let refuse = |number| Err(Refusal::at(number, self.offset));
        let left = &self.data[self.offset..];
        match left.len() {
            0 => return refuse(2),
            1 | 2 => return refuse(1),
            _ => {}
        }
        if left[0] != tag {
            return refuse(2);
        }
        let length = usize::from(u16::from_be_bytes([left[1], left[2]]));
        if !length_allowed(length) {
            return refuse(3);
        }
        let Some(body) = left[3..].get(..length) else {
            return refuse(1);
        };
        let start = self.offset + 3;
        let behind = Cursor {
            data: self.data,
            offset: start + length,
        };
        Ok((Field { body, start }, behind))
    }

    /// Refusal 12 when bytes are left.
    fn end(self) -> Result<(), Refusal> {
        if self.offset < self.data.len() {
            return Err(Refusal::at(12, self.offset));
        }
        Ok(())
    }
}

impl Field<'_> {
    /// The two-byte number at this place of the body, with its offset.
    fn number(self, position: usize) -> (u16, usize) {
        let bytes = [self.body[position], self.body[position + 1]];
        (u16::from_be_bytes(bytes), self.start + position)
    }

    /// A number of an axis.
    fn number_within(self, position: usize, range: &RangeInclusive<u16>) -> Result<u16, Refusal> {
        let (number, offset) = self.number(position);
        if !range.contains(&number) {
            return Err(Refusal::at(4, offset));
        }
        Ok(number)
    }

    /// The only number of its body.
    fn ratio(self) -> Result<u16, Refusal> {
        let (ratio, offset) = self.number(0);
        if !RATIO_RANGE.contains(&ratio) {
            return Err(Refusal::at_index(31, offset, 0));
        }
        Ok(ratio)
    }

    /// The only byte of a one-byte body.
    fn byte_within(self, range: RangeInclusive<u16>) -> Result<u8, Refusal> {
        let byte = self.body[0];
        if !range.contains(&u16::from(byte)) {
            return Err(Refusal::at(4, self.start));
        }
        Ok(byte)
    }

    /// The numbers of an axis, at each 4 before 5.
    fn axis(self, range: &RangeInclusive<u16>) -> Result<Vec<u16>, Refusal> {
        let mut numbers: Vec<u16> = Vec::new();
        for position in (0..self.body.len()).step_by(2) {
            let number = self.number_within(position, range)?;
            if numbers.last().is_some_and(|before| number <= *before) {
                return Err(Refusal::at(5, self.start + position));
            }
            numbers.push(number);
        }
        Ok(numbers)
    }

    fn sensor(self) -> Result<Sensor, Refusal> {
        let numbers = std::array::from_fn(|index| self.number(2 * index).0);
        Sensor::of(numbers).map_err(|index| Refusal::at_index(32, self.start + 2 * index, index))
    }

    /// Rows of so many bytes.
    fn rows(self, row_length: usize) -> Vec<Row> {
        let torque = |bytes: &[u8]| u32::from_be_bytes([bytes[0], bytes[1], bytes[2], bytes[3]]);
        self.body
            .chunks_exact(row_length)
            .map(|row| {
                let (input, outputs) = row.split_at(TORQUE_LENGTH);
                Row {
                    input: torque(input),
                    outputs: outputs.chunks_exact(TORQUE_LENGTH).map(torque).collect(),
                }
            })
            .collect()
    }
}

/// Reads the whole of the data: the fields in their order, then 12.
pub fn read(data: &[u8]) -> Result<Component, Refusal> {
    let start = Cursor { data, offset: 0 };
    let (field, cursor) = start.field(1, |length| length == 1)?;
    let kind_number = field.byte_within(KIND_RANGE)?;
    let (field, cursor) = cursor.field(2, |length| length == 1)?;
    let line = field.byte_within(LINE_RANGE)?;
    let (field, cursor) = cursor.field(3, |length| length == 2)?;
    let ratio = field.ratio()?;
    let (field, cursor) = cursor.field(4, |length| axis_length(&SPEED_RULE, length))?;
    let speeds = field.axis(&SPEED_RULE.range)?;
    let (field, cursor) = cursor.field(5, |length| axis_length(&TORQUE_RULE, length))?;
    let torques = field.axis(&TORQUE_RULE.range)?;
    if !first_torque_allowed(&torques) {
        return Err(Refusal::at(6, field.start));
    }
    let (kind, cursor) = match measured_tags(kind_number) {
        None => (Kind::Standard, cursor),
        Some(tags) => read_measured(cursor, tags, speeds.len() * torques.len())?,
    };
    cursor.end()?;
    Ok(Component {
        kind,
        line,
        ratio,
        speeds,
        torques,
    })
}

/// Tag 6, then the output sensors and the rows of the kind.
fn read_measured(
    cursor: Cursor<'_>,
    tags: MeasuredTags,
    points: usize,
) -> Result<(Kind, Cursor<'_>), Refusal> {
    let (field, mut cursor) = cursor.field(6, |length| length == SENSOR_LENGTH)?;
    let mut measured = Measured {
        input: field.sensor()?,
        outputs: Vec::new(),
        rows: Vec::new(),
        rows_start: 0,
    };
    for tag in tags.outputs {
        let (field, behind) = cursor.field(*tag, |length| length == SENSOR_LENGTH)?;
        measured.outputs.push(field.sensor()?);
        cursor = behind;
    }
    let row_length = measured.row_length();
    let (field, cursor) = cursor.field(tags.rows, |length| length == row_length * points)?;
    measured.rows = field.rows(row_length);
    measured.rows_start = field.start;
    Ok((Kind::Measured(measured), cursor))
}

/// Where the body of the field with this tag starts, in data that reads and has it.
pub fn body_start(data: &[u8], tag: u8) -> Option<usize> {
    let mut cursor = Cursor { data, offset: 0 };
    loop {
        let found = *data.get(cursor.offset)?;
        let (field, behind) = cursor.field(found, |_| true).ok()?;
        if found == tag {
            return Some(field.start);
        }
        cursor = behind;
    }
}

fn axis_length(rule: &AxisRule, length: usize) -> bool {
    length.is_multiple_of(2) && rule.count.contains(&(length / 2))
}

/// Tag 5's last rule, which refusal 6 stands for: the torques are rising already.
pub(crate) fn first_torque_allowed(torques: &[u16]) -> bool {
    torques[0] <= torques[1] - torques[0]
}
