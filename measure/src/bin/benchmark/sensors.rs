//! The drag of a retarder and the steps of a sensor.

use crate::subject::QUESTIONS;
use crate::table::{print_row, Bar};
use crate::timing::{Contender, Way};
use axle::Sensor;
use measure::plain;
use reference::random::Source;
use reference::retarder::{self, RetarderNumbers};
use reference::steps::checked_steps;
use std::hint::black_box;

/// Retarders with readings at all thirteen points, at drive speeds over all of them.
fn retarders() -> Vec<RetarderNumbers> {
    let mut source = Source::new(17, 0);
    let mut torques = |lowest, highest| -> Vec<u32> {
        (0..13)
            .map(|_| source.between(lowest, highest) as u32)
            .collect()
    };
    let numbers = (0..QUESTIONS).map(|i| RetarderNumbers {
        readings: torques(2_000, 30_000),
        bearing_losses: torques(0, 2_000),
        ratio: 1_333,
        speed: 1_501 + (36_008 * i / (QUESTIONS - 1)) as u32,
    });
    numbers.collect()
}

fn library_drag(asked: &RetarderNumbers) -> Option<u32> {
    let (readings, bearing_losses) = (&asked.readings, &asked.bearing_losses);
    axle::retarder_drag(readings, bearing_losses, asked.ratio, asked.speed).ok()
}

fn plain_drag(asked: &RetarderNumbers) -> Option<u32> {
    let (readings, bearing_losses) = (&asked.readings, &asked.bearing_losses);
    plain::drag(readings, bearing_losses, asked.ratio, asked.speed)
}

pub fn measure_drag(what: &str, bars: &[Bar]) {
    let all = retarders();
    for asked in &all {
        let drag = retarder::drag(asked).ok();
        assert!(drag.is_some());
        assert_eq!((library_drag(asked), plain_drag(asked)), (drag, drag));
    }
    let each = |drag: fn(&RetarderNumbers) -> Option<u32>| {
        for asked in &all {
            black_box(drag(black_box(asked)));
        }
    };
    let ways = vec![
        Way::new(Contender::Library, QUESTIONS, || each(library_drag)),
        Way::new(Contender::Rust, QUESTIONS, || each(plain_drag)),
    ];
    print_row(what, bars, ways);
}

/// Good sensors, each with a torque that it measures.
fn sensors() -> Vec<([u16; 9], u32)> {
    let mut source = Source::new(15, 0);
    let mut number = |lowest, highest| source.between(lowest, highest) as u16;
    let sensors = (0..QUESTIONS).map(|_| {
        [
            number(5_000, 50_000),
            number(50, 300),
            number(50, 300),
            number(100, 800),
            number(1_000, 2_000),
            number(50, 300),
            number(300, 900),
            number(50, 150),
            number(20, 80),
        ]
    });
    let sensors: Vec<[u16; 9]> = sensors.collect();
    let mut torque = |nominal: u16| source.between(0, 100 * u64::from(nominal)) as u32;
    let with_torque = sensors.iter().map(|sensor| (*sensor, torque(sensor[0])));
    with_torque.collect()
}

fn library_steps(numbers: [u16; 9], torque: u32) -> Option<[u64; 5]> {
    let steps = Sensor::from(numbers).steps(torque);
    steps.ok().map(|steps| steps.in_order())
}

pub fn measure_steps(what: &str, bars: &[Bar]) {
    let all = sensors();
    for (numbers, torque) in &all {
        assert!(checked_steps(*numbers, *torque).is_ok());
        let plain = plain::steps(numbers, *torque);
        assert!(plain.is_some());
        assert_eq!(library_steps(*numbers, *torque), plain);
    }
    let ways = vec![
        Way::new(Contender::Library, QUESTIONS, || {
            for (numbers, torque) in black_box(&all) {
                black_box(library_steps(*numbers, *torque));
            }
        }),
        Way::new(Contender::Rust, QUESTIONS, || {
            for (numbers, torque) in black_box(&all) {
                black_box(plain::steps(numbers, *torque));
            }
        }),
    ];
    print_row(what, bars, ways);
}
