//! Component data written from numbers, without any test of them.

use reference::lookup::{Axis, LentMap};
use reference::map::{self, Map};
use reference::refusal::Refusal;
use reference::writer::HandedNumbers;

/// N, w, z, c, k, s, p, d, R.
pub type SensorNumbers = [u16; 9];

/// A sensor of this nominal torque without any influence.
pub fn quiet_sensor(nominal: u16) -> SensorNumbers {
    [nominal, 0, 0, 0, 1_000, 0, 0, 0, 10]
}

/// The numbers of component data. It is of kind 1 without sensors, of kind 2
/// with two, of kind 3 with three.
#[derive(Clone)]
pub struct Numbers {
    pub line: u8,
    pub ratio: u16,
    pub speeds: Vec<u16>,
    pub torques: Vec<u16>,
    /// The input sensor first.
    pub sensors: Vec<SensorNumbers>,
    /// Each with one torque for each sensor.
    pub rows: Vec<Vec<u32>>,
}

impl Numbers {
    pub fn standard(line: u8, ratio: u16, speeds: &[u16], torques: &[u16]) -> Numbers {
        Numbers {
            line,
            ratio,
            speeds: speeds.to_vec(),
            torques: torques.to_vec(),
            sensors: Vec::new(),
            rows: Vec::new(),
        }
    }

    /// Measured, with the same row at every speed for each torque.
    pub fn measured<const SENSORS: usize>(
        ratio: u16,
        torques: &[u16],
        sensors: [SensorNumbers; SENSORS],
        rows: &[[u32; SENSORS]],
    ) -> Numbers {
        Numbers {
            sensors: sensors.to_vec(),
            rows: rows.repeat(2).iter().map(|row| row.to_vec()).collect(),
            ..Numbers::standard(1, ratio, &[100, 200], torques)
        }
    }

    /// The tags of the sensors, and of the rows.
    fn measured_tags(&self) -> (&'static [u8], u8) {
        match self.sensors.len() {
            0 => (&[], 0),
            2 => (&[6, 7], 8),
            3 => (&[6, 7, 9], 10),
            count => panic!("{count} sensors"),
        }
    }

    fn kind(&self) -> u8 {
        u8::try_from(self.sensors.len().max(1)).unwrap()
    }

    /// The same numbers for the writer. All bits are set where nothing is looked at.
    pub fn handed(&self) -> HandedNumbers {
        let mut sensors = [[u16::MAX; 9]; 3];
        sensors[..self.sensors.len()].copy_from_slice(&self.sensors);
        HandedNumbers {
            kind: u16::from(self.kind()),
            line: u16::from(self.line),
            ratio: self.ratio,
            speeds: axis(&self.speeds, 32),
            torques: axis(&self.torques, 64),
            sensors,
            row_torques: self.rows.concat(),
        }
    }

    pub fn bytes(&self) -> Vec<u8> {
        let mut data = field(1, &[self.kind()]);
        data.extend(field(2, &[self.line]));
        data.extend(numbers_field(3, &[self.ratio]));
        data.extend(numbers_field(4, &self.speeds));
        data.extend(numbers_field(5, &self.torques));
        let (sensor_tags, rows_tag) = self.measured_tags();
        for (tag, sensor) in sensor_tags.iter().zip(&self.sensors) {
            data.extend(numbers_field(*tag, sensor));
        }
        if rows_tag > 0 {
            data.extend(field(rows_tag, &rows_body(&self.rows)));
        }
        data
    }

    /// Where the rows start.
    pub fn rows_start(&self) -> usize {
        self.bytes().len() - 4 * self.rows.concat().len()
    }

    pub fn build(&self) -> Result<Map, Refusal> {
        map::build(&self.bytes(), self.speeds.len() * self.torques.len())
    }
}

pub fn field(tag: u8, body: &[u8]) -> Vec<u8> {
    let length = u16::try_from(body.len()).unwrap();
    let mut bytes = vec![tag];
    bytes.extend(length.to_be_bytes());
    bytes.extend(body);
    bytes
}

pub fn numbers_field(tag: u8, numbers: &[u16]) -> Vec<u8> {
    let body: Vec<u8> = numbers
        .iter()
        .flat_map(|number| number.to_be_bytes())
        .collect();
    field(tag, &body)
}

fn rows_body(rows: &[Vec<u32>]) -> Vec<u8> {
    let torques = rows.iter().flatten();
    torques.flat_map(|torque| torque.to_be_bytes()).collect()
}

/// So many places; the count is that of the numbers.
pub fn axis(numbers: &[u16], places: usize) -> Axis {
    let count = numbers.len();
    let mut numbers = numbers.to_vec();
    numbers.resize(places, u16::MAX);
    Axis { numbers, count }
}

pub fn lent(map: &Map) -> LentMap {
    LentMap::of(map, map.entries.clone())
}

pub fn lent_of(speeds: &[u16], torques: &[u16], entries: &[u32]) -> LentMap {
    LentMap {
        speeds: axis(speeds, speeds.len()),
        torques: axis(torques, torques.len()),
        entries: entries.to_vec(),
    }
}

pub fn refused<T>(number: u8, place: usize) -> Result<T, Refusal> {
    Err(Refusal {
        number,
        place,
        index: None,
    })
}

/// Refusal 31 or 32 of request C-14, of the number with this index in its field.
pub fn refused_at_index<T>(number: u8, place: usize, index: usize) -> Result<T, Refusal> {
    Err(Refusal {
        number,
        place,
        index: Some(index),
    })
}

/// The map program's example.
pub fn example() -> Numbers {
    Numbers::standard(1, 3_000, &[100, 200], &[0, 1_000])
}

/// A sensor of this nominal torque that is uncertain by its calibration alone.
fn calibrated_sensor(nominal: u16) -> SensorNumbers {
    [nominal, 0, 0, 100, 1_000, 0, 0, 0, 10]
}

/// The sensors of "Reckoned by hand", one row for 3,000 Nm with this input
/// torque and a harmless one for 6,000 Nm.
pub fn calibrated(input: u32) -> Numbers {
    Numbers::measured(
        3_000,
        &[3_000, 6_000],
        [10_000, 40_000].map(calibrated_sensor),
        &[[input, 300_000], [220_000, 600_000]],
    )
}

/// The same of kind 3: V, W and W' are 60,000, 60,000 and 30,000 grains, and
/// their root is 90,000. The row for 3,000 Nm is given.
pub fn half_shafts(row: [u32; 3]) -> Numbers {
    Numbers::measured(
        3_000,
        &[3_000, 6_000],
        [10_000, 30_000, 15_000].map(calibrated_sensor),
        &[row, [220_000, 350_000, 250_000]],
    )
}

/// The data of the largest map of a kind.
pub fn largest(kind: usize) -> Numbers {
    let speeds: Vec<u16> = (1..=32).map(|index| 90 * index).collect();
    let torques: Vec<u16> = (0..64).map(|index| 700 * index).collect();
    let mut numbers = Numbers::standard(5, 19_905, &speeds, &torques);
    if kind == 1 {
        return numbers;
    }
    let sensors = [
        [2_676, 5_700, 52, 178, 6_893, 47, 545, 356, 72],
        [50_000, 311, 17, 93, 9_999, 1_001, 777, 499, 97],
        [31_000, 407, 23, 101, 1_003, 883, 991, 101, 11],
    ];
    numbers.sensors = sensors[..kind].to_vec();
    numbers.rows = (0..32 * 64)
        .map(|index| {
            let output = 100 * u32::from(torques[index % 64]);
            let extra = 50 + u32::try_from(index).unwrap();
            let input = output * 10 / 199 + extra;
            // Kind 3 has more than half of it at the left.
            let right = if kind == 3 { output * 3 / 7 } else { 0 };
            [input, output - right, right][..kind].to_vec()
        })
        .collect();
    numbers
}

/// A plain generator of numbers, the same at every run.
pub struct Chance(pub u64);

impl Chance {
    pub fn up_to(&mut self, largest: u64) -> u64 {
        self.0 = self
            .0
            .wrapping_mul(6_364_136_223_846_793_005)
            .wrapping_add(1_442_695_040_888_963_407);
        (self.0 >> 33) % (largest + 1)
    }

    pub fn between(&mut self, least: u16, largest: u16) -> u16 {
        least + u16::try_from(self.up_to(u64::from(largest - least))).unwrap()
    }
}
