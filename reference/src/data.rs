//! Component data as fields that can be changed one by one, right or wrong, and laid out as bytes.

use crate::component::measured_tags;
use std::iter;

/// The least and the largest value of each of a sensor's nine numbers.
pub const SENSOR_RANGES: [(u16, u16); 9] = [
    (1, 50_000),
    (0, 10_000),
    (0, 10_000),
    (0, 10_000),
    (1_000, 10_000),
    (0, 10_000),
    (0, 1_000),
    (0, 500),
    (10, 100),
];

/// A field: its length is kept apart from its body, so that it can be wrong.
#[derive(Clone)]
pub struct Field {
    pub tag: u8,
    pub length: u16,
    pub body: Vec<u8>,
}

impl Field {
    pub fn new(tag: u8, body: Vec<u8>) -> Field {
        Field {
            tag,
            length: body.len() as u16,
            body,
        }
    }

    pub fn of_numbers(tag: u8, numbers: &[u16]) -> Field {
        Field::new(tag, numbers.iter().flat_map(|n| n.to_be_bytes()).collect())
    }

    /// Tags 1 to 5, which every kind has.
    pub fn of_every_kind(
        kind: u8,
        line: u8,
        ratio: u16,
        speeds: &[u16],
        torques: &[u16],
    ) -> Vec<Field> {
        vec![
            Field::new(1, vec![kind]),
            Field::new(2, vec![line]),
            Field::of_numbers(3, &[ratio]),
            Field::of_numbers(4, speeds),
            Field::of_numbers(5, torques),
        ]
    }

    /// Tag 8 or 10: the torques of each row.
    fn of_rows(tag: u8, rows: &[impl AsRef<[u32]>]) -> Field {
        let bytes = rows
            .iter()
            .flat_map(|row| row.as_ref())
            .flat_map(|torque| torque.to_be_bytes());
        Field::new(tag, bytes.collect())
    }

    /// What a measured kind has after tag 5: its sensors, the input's first, and rows with a torque for each of them.
    pub fn of_measurement(
        kind: u8,
        sensors: &[[u16; 9]],
        rows: &[impl AsRef<[u32]>],
    ) -> Vec<Field> {
        let tags = measured_tags(kind).expect("a measured kind");
        let sensor_tags = iter::once(&6).chain(tags.outputs);
        let mut fields: Vec<Field> = sensor_tags
            .zip(sensors)
            .map(|(tag, numbers)| Field::of_numbers(*tag, numbers))
            .collect();
        fields.push(Field::of_rows(tags.rows, rows));
        fields
    }

    /// How many bytes a number of the field has.
    pub fn width(&self) -> usize {
        match self.tag {
            1 | 2 => 1,
            8 | 10 => 4,
            _ => 2,
        }
    }

    pub fn number_count(&self) -> usize {
        self.body.len() / self.width()
    }

    pub fn number(&self, index: usize) -> u32 {
        let width = self.width();
        self.body[index * width..][..width]
            .iter()
            .fold(0, |n, byte| n * 256 + u32::from(*byte))
    }

    pub fn set_number(&mut self, index: usize, number: u32) {
        let width = self.width();
        let bytes = number.to_be_bytes();
        self.body[index * width..][..width].copy_from_slice(&bytes[4 - width..]);
    }

    /// The range of a number of the field.
    pub fn range(&self, index: usize) -> Option<(u32, u32)> {
        let (lowest, highest) = range(self.tag, index)?;
        Some((u32::from(lowest), u32::from(highest)))
    }
}

/// The least and the largest value of a number under a tag; a row's numbers have none.
pub fn range(tag: u8, index: usize) -> Option<(u16, u16)> {
    match tag {
        1 => Some((1, 3)),
        2 => Some((1, 5)),
        3 => Some((1_000, 20_000)),
        4 => Some((1, 3_000)),
        5 => Some((0, 50_000)),
        6 | 7 | 9 => Some(SENSOR_RANGES[index]),
        _ => None,
    }
}

/// The fields in their order, and bytes after them.
#[derive(Clone)]
pub struct Data {
    pub fields: Vec<Field>,
    pub rest: Vec<u8>,
}

impl Data {
    /// These fields, and nothing after them.
    pub fn of(fields: Vec<Field>) -> Data {
        Data {
            fields,
            rest: Vec::new(),
        }
    }

    pub fn bytes(&self) -> Vec<u8> {
        let mut bytes = Vec::new();
        for field in &self.fields {
            bytes.push(field.tag);
            bytes.extend(field.length.to_be_bytes());
            bytes.extend(&field.body);
        }
        bytes.extend(&self.rest);
        bytes
    }

    pub fn field_mut(&mut self, tag: u8) -> Option<&mut Field> {
        self.fields.iter_mut().find(|field| field.tag == tag)
    }

    /// The numbers of the first field with a tag.
    pub fn numbers(&self, tag: u8) -> Vec<u32> {
        let found = self.fields.iter().find(|field| field.tag == tag);
        found.map_or(Vec::new(), |field| {
            (0..field.number_count()).map(|i| field.number(i)).collect()
        })
    }

    /// Another number at this index of the first field with a tag; no change where there is no such field.
    pub fn set_number(&mut self, tag: u8, index: usize, number: u32) {
        if let Some(field) = self.field_mut(tag) {
            field.set_number(index, number);
        }
    }

    /// The number of tag 1 in valid data.
    pub fn kind(&self) -> u8 {
        self.numbers(1)[0] as u8
    }

    /// The torques of each row, the input's first; none in standard data.
    pub fn rows(&self) -> Vec<Vec<u32>> {
        let Some(tags) = measured_tags(self.kind()) else {
            return Vec::new();
        };
        let torques = self.numbers(tags.rows);
        let rows = torques.chunks_exact(1 + tags.outputs.len());
        rows.map(<[u32]>::to_vec).collect()
    }
}
