//! Request C-15, the steps of a sensor's uncertainty: cases reckoned by hand, the rules of document 01 over cases by chance, and the same steps and refusals in the build, its trace and the writer.

use crate::support::*;
use reference::cases::Case;
use reference::component::{self, Kind};
use reference::examples::files;
use reference::faults::row_faults;
use reference::listing::MOST_ENTRIES;
use reference::loss::measured_steps;
use reference::map::{self, build};
use reference::random::Source;
use reference::refusal::Refusal;
use reference::steps::checked_steps;
use reference::steps_cases::by_chance;
use reference::trace;
use reference::valid;
use reference::writer::write;

const SEED: u64 = 15;

/// None of its parts is like another.
const SENSOR: SensorNumbers = [1_000, 100, 50, 200, 2_000, 30, 100, 200, 50];

fn steps(sensor: SensorNumbers, torque: u32) -> Result<[u128; 5], Refusal> {
    checked_steps(sensor, torque).map(|steps| steps.in_order())
}

fn with(index: usize, number: u16) -> SensorNumbers {
    let mut sensor = SENSOR;
    sensor[index] = number;
    sensor
}

#[test]
fn temperature_calibration_parasitic_loads_then_the_root() {
    assert_eq!(steps(SENSOR, 50_000), Ok([200, 200, 1_000, 30, 2_027]));
    // Without w, z, c and s in turn one step is gone, and the root is smaller.
    let without = [1, 2, 3, 5].map(|index| steps(with(index, 0), 50_000));
    let expected = [
        [0, 200, 1_000, 30, 2_014],
        [200, 0, 1_000, 30, 2_014],
        [200, 200, 0, 30, 329],
        [200, 200, 1_000, 0, 2_027],
    ];
    assert_eq!(without, expected.map(Ok));
}

#[test]
fn zero_is_a_number() {
    assert_eq!(steps([1, 0, 0, 0, 1_000, 0, 0, 0, 10], 0), Ok([0; 5]));
    assert_eq!(steps([1, 0, 0, 0, 1_000, 0, 0, 0, 10], 100), Ok([0; 5]));
    assert_eq!(steps(SENSOR, 0), Ok([0, 200, 1_000, 30, 2_014]));
    assert_eq!(steps(with(7, 0), 50_000), Ok([0, 0, 1_000, 30, 2_001]));
}

#[test]
fn the_highest_steps() {
    let sensor = [
        50_000, 10_000, 10_000, 10_000, 1_000, 10_000, 1_000, 500, 10,
    ];
    let expected = [25_000_000, 25_000_000, 5_000_000, 5_000_000, 42_426_407];
    assert_eq!(steps(sensor, 5_000_000), Ok(expected));
}

#[test]
fn a_wrong_number_comes_before_a_torque_above() {
    let seven = refused(7, 0);
    assert!(steps(SENSOR, 100_000).is_ok());
    assert_eq!(steps(SENSOR, 100_001), seven);
    assert_eq!(steps(SENSOR, u32::MAX), seven);
    assert_eq!(steps(with(0, 0), 1), refused_at_index(32, 0, 0));
    assert_eq!(steps(with(8, 101), 100_001), refused_at_index(32, 0, 8));
    assert_eq!(steps([u16::MAX; 9], u32::MAX), refused_at_index(32, 0, 0));
}

/// Document 01, each rule multiplied out: the least whole number that is not below its fraction, and the least U.
#[test]
fn each_step_is_the_least_that_reaches() {
    let mut answered = 0;
    for number in 0..4_000 {
        let Case::Steps { sensor, torque } = by_chance(SEED, number) else {
            panic!("not steps");
        };
        let Ok(found) = steps(sensor, torque) else {
            continue;
        };
        let [n, w, z, c, k, s, p, d, r] = sensor.map(u128::from);
        let fractions = [
            (w * d * u128::from(torque), 100_000 * r),
            (z * d * n, 1_000 * r),
            (c * n * 10, k),
            (s * p * n, 100_000),
        ];
        let [a, b, g, h, u] = found;
        for (part, (numerator, denominator)) in [a, b, g, h].into_iter().zip(fractions) {
            assert!(part * denominator >= numerator, "{sensor:?} {torque}");
            let one_less = part.checked_sub(1).map(|part| part * denominator);
            assert!(one_less.is_none_or(|product| product < numerator));
        }
        let needed = 4 * (a * a + b * b + 3 * g * g + h * h);
        assert!(3 * u * u >= needed, "{sensor:?} {torque}");
        let one_less = u.checked_sub(1).map(|u| 3 * u * u);
        assert!(one_less.is_none_or(|square| square < needed));
        answered += 1;
    }
    assert!(answered > 1_500, "{answered}");
}

/// The writer's answer with this input sensor, without room for the file.
fn written(sensor: SensorNumbers) -> Refusal {
    let mut numbers = calibrated(0);
    numbers.sensors[0] = sensor;
    write(&numbers.handed(), &mut []).unwrap_err()
}

#[test]
fn wrong_numbers_are_refused_as_by_the_writer() {
    for index in 0..9 {
        for number in [0, 9, 101, 501, 999, 1_001, 10_001, 50_001, u16::MAX] {
            let sensor = with(index, number);
            let answer = steps(sensor, 0);
            let of_writer = written(sensor);
            if of_writer.number == 32 {
                assert_eq!(answer, Err(of_writer), "{sensor:?}");
            } else {
                assert!(answer.is_ok(), "{sensor:?}");
            }
        }
        let wrong = with(index, u16::MAX);
        assert_eq!(steps(wrong, 0), Err(written(wrong)));
        assert_eq!(steps(wrong, 0), refused_at_index(32, 0, index));
    }
}

#[test]
fn the_build_has_these_steps_of_each_row() {
    let source = &mut Source::new(SEED, 0);
    let mut rows = [0; 2];
    for _ in 0..200 {
        let data = valid::data(source).bytes();
        if build(&data, MOST_ENTRIES).is_err() {
            continue;
        }
        let component = component::read(&data).unwrap();
        let Kind::Measured(measured) = &component.kind else {
            continue;
        };
        for row in &measured.rows {
            let of_build = measured_steps(component.ratio, measured, row).unwrap();
            let asked = checked_steps(measured.input.numbers(), row.input);
            assert_eq!(asked, Ok(of_build.input));
            let outputs = measured.outputs.iter().zip(&row.outputs);
            for ((sensor, torque), of_build) in outputs.zip(of_build.outputs) {
                let asked = checked_steps(sensor.numbers(), *torque);
                assert_eq!(asked, Ok(of_build));
            }
            rows[measured.outputs.len() - 1] += 1;
        }
    }
    assert!(rows.iter().all(|count| *count > 200), "{rows:?}");
}

/// The sensor and the torque that stand at this place of a row.
fn sensor_and_torque(data: &[u8], place: usize) -> (SensorNumbers, u32) {
    let component = component::read(data).unwrap();
    let Kind::Measured(measured) = component.kind else {
        panic!("measured data");
    };
    let index = (place - measured.rows_start) % measured.row_length() / 4;
    let sensors = [&[measured.input], &measured.outputs[..]].concat();
    let torque = data[place..place + 4].try_into().unwrap();
    (sensors[index].numbers(), u32::from_be_bytes(torque))
}

#[test]
fn the_build_refuses_a_torque_where_the_call_does() {
    let source = &mut Source::new(SEED, 1);
    let mut refusals = 0;
    for kind in [2, 3] {
        for _ in 0..40 {
            let data = valid::data_of(source, kind, 2, 3);
            for data in row_faults(&data, source.index(6)) {
                let Err(refusal) = build(&data, MOST_ENTRIES) else {
                    continue;
                };
                if refusal.number == 7 {
                    let (sensor, torque) = sensor_and_torque(&data, refusal.place);
                    assert_eq!(steps(sensor, torque), refused(7, 0));
                    refusals += 1;
                }
            }
        }
    }
    assert!(refusals > 100, "{refusals}");
}

/// The first number of a text that has signs for thousands.
fn number(text: &str) -> u128 {
    let digits = text.trim_start().replace(',', "");
    let end = digits.find(|c: char| !c.is_ascii_digit());
    digits[..end.unwrap_or(digits.len())].parse().unwrap()
}

/// The sensors of a trace, with the torque and the steps of each.
fn traced(text: &str) -> Vec<(SensorNumbers, u32, [u128; 5])> {
    let mut found = Vec::new();
    let mut lines = text.lines();
    while let Some(line) = lines.next() {
        let Some((_, numbers)) = line.split_once("N ").filter(|_| line.contains("sensor ")) else {
            continue;
        };
        let numbers: Vec<u16> = numbers
            .split(", ")
            .map(|text| number(text.trim_start_matches(char::is_alphabetic)) as u16)
            .collect();
        let mut value = |name: &str, before: &str| {
            let line = lines.find(|line| line.starts_with(&format!("{name:<18}")));
            let line = &line.expect("a line of this name")[18..];
            number(line.split_once(before).expect("a number").1)
        };
        let torque = value("C", "") as u32;
        let parts = ["a", "b", "g", "h"].map(|name| value(name, "rounded up"));
        let [a, b, g, h] = parts;
        let steps = [a, b, g, h, value("U", "")];
        found.push((numbers.try_into().unwrap(), torque, steps));
    }
    found
}

#[test]
fn a_trace_shows_these_steps() {
    for (name, sensors) in [
        ("measured.axle", 2),
        ("half-shafts.axle", 3),
        ("bench-run.axle", 2),
    ] {
        let file = files().into_iter().find(|file| file.name == name);
        let data = file.unwrap().content;
        let map = map::build(&data, MOST_ENTRIES).unwrap();
        for torque in &map.torques {
            let speed = map.speeds[map.speeds.len() - 1];
            let text = trace::entry(&data, speed.into(), (*torque).into()).unwrap();
            let traced = traced(&text);
            assert_eq!(traced.len(), sensors, "{name}");
            for (sensor, torque, shown) in traced {
                assert_eq!(steps(sensor, torque), Ok(shown), "{name}");
            }
        }
    }
}
