//! A bench run as a firm has it: measured data over the grid of Regulation (EU) 2017/2400, Annex VII, paragraphs 4.3.3 to 4.3.5.
//! The losses are made up: a share of the torque, a drag that rises with speed, and readings that stray.

use crate::data::{Data, Field};
use crate::random::Source;

const SEED: u64 = 20_172_400;

/// 41 teeth to 11, in thousandths.
const RATIO: u16 = 3_727;

/// N, w, z, c, k, s, p, d and R. No part of either sensor is ever a whole number of grains.
const INPUT_SENSOR: [u16; 9] = [6_000, 183, 97, 211, 1_900, 947, 113, 143, 10];
const OUTPUT_SENSOR: [u16; 9] = [20_000, 191, 89, 223, 1_700, 509, 127, 97, 30];

/// The prescribed steps of 50 rpm from 50 rpm on, up to a coach's 110 km/h on tyres of 0.90 m.
fn speeds() -> Vec<u16> {
    (50..=650).step_by(50).collect()
}

/// The prescribed torques from 250 Nm to 20,000 Nm, and between 1,000 Nm and 2,000 Nm two more: the steps of 250 Nm go on.
fn torques() -> Vec<u16> {
    let low = (250..=2_000).step_by(250);
    let middle = (3_000..=10_000).step_by(1_000);
    let high = (12_000..=20_000).step_by(2_000);
    low.chain(middle).chain(high).collect()
}

/// A number between this much below zero and above it, near zero more often than far from it.
fn stray(source: &mut Source, most: u64) -> i64 {
    (source.between(0, most) + source.between(0, most)) as i64 - most as i64
}

/// The axle's loss at the wheel in hundredths of Nm, torque likewise, speed in rpm.
fn loss(speed: i64, torque: i64) -> i64 {
    let drag = 1_800 + 6 * speed + speed * speed / 120;
    // The teeth rub less as the oil film grows with speed.
    let millionths = 20_000 + 350_000 / speed;
    drag + torque * millionths / 1_000_000
}

/// Input and output torque as read, in hundredths of Nm.
fn row(source: &mut Source, speed: u16, torque: u16) -> [u32; 2] {
    let nominal = 100 * i64::from(OUTPUT_SENSOR[0]);
    let output = (100 * i64::from(torque) + stray(source, 470)).min(nominal);
    let at_wheel = output + loss(i64::from(speed), output);
    let input = 1_000 * at_wheel / i64::from(RATIO) + stray(source, 30);
    [input, output].map(|torque| u32::try_from(torque).expect("a torque of the bench"))
}

/// The component data of the bench run.
pub fn data() -> Data {
    let mut source = Source::new(SEED, 0);
    let (speeds, torques) = (speeds(), torques());
    let mut rows = Vec::new();
    for speed in &speeds {
        for torque in &torques {
            rows.push(row(&mut source, *speed, *torque));
        }
    }
    let mut fields = Field::of_every_kind(2, 1, RATIO, &speeds, &torques);
    let sensors = [INPUT_SENSOR, OUTPUT_SENSOR];
    fields.extend(Field::of_measurement(2, &sensors, &rows));
    Data::of(fields)
}
