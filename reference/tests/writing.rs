//! The writer over generated numbers, right and wrong: against the reader, the build, and another way to lay the numbers out.

use reference::cases::{Case, MOST_ENTRIES, MOST_TEXT};
use reference::component::{self, measured_tags};
use reference::data::{Data, Field};
use reference::lookup::Axis;
use reference::map;
use reference::random::Source;
use reference::refusal::Refusal;
use reference::valid;
use reference::write_cases::{by_chance, systematic};
use reference::writer::{write, HandedNumbers};
use std::collections::BTreeMap;

const SEED: u64 = 12;

/// The numbers of generated writes.
fn handed() -> Vec<HandedNumbers> {
    let mut cases = systematic(SEED);
    cases.extend((0..3_000).map(|number| by_chance(SEED, number, true)));
    let numbers = cases.into_iter().filter_map(|case| match case {
        Case::Write { numbers, .. } => Some(numbers),
        _ => None,
    });
    numbers.collect()
}

fn written(numbers: &HandedNumbers) -> Result<Vec<u8>, Refusal> {
    let mut buffer = vec![0; MOST_TEXT];
    let length = write(numbers, &mut buffer)?;
    buffer.truncate(length);
    Ok(buffer)
}

/// The numbers that the count names, past the places 0. A field cannot hold all counts; 1,000 is as wrong as any above.
fn counted(axis: &Axis) -> Vec<u16> {
    let mut numbers = axis.numbers.clone();
    numbers.resize(axis.count.min(1_000), 0);
    numbers
}

/// The numbers laid out as data, without any test. For a kind or a line of two bytes there is 0, which is as wrong.
fn laid_out(numbers: &HandedNumbers) -> Vec<u8> {
    let [kind, line] = [numbers.kind, numbers.line].map(|n| u8::try_from(n).unwrap_or(0));
    let (speeds, torques) = (counted(&numbers.speeds), counted(&numbers.torques));
    let mut fields = Field::of_every_kind(kind, line, numbers.ratio, &speeds, &torques);
    if measured_tags(kind).is_some() {
        // How many torques a row has is the same to the bytes.
        let rows: Vec<&[u32]> = numbers.row_torques.chunks(1).collect();
        fields.extend(Field::of_measurement(kind, &numbers.sensors, &rows));
    }
    Data::of(fields).bytes()
}

#[test]
fn accepted_and_refused_as_by_the_build() {
    let (mut accepted, mut refused) = (0, BTreeMap::new());
    for numbers in handed() {
        let data = laid_out(&numbers);
        match (written(&numbers), map::build(&data, MOST_ENTRIES)) {
            (Ok(file), Ok(_)) => {
                assert_eq!(file, data);
                accepted += 1;
            }
            (Err(refusal), Err(of_build)) => {
                let expected = Refusal {
                    place: 0,
                    ..of_build
                };
                assert_eq!(refusal, expected, "{numbers:?}");
                *refused.entry(refusal.number).or_insert(0) += 1;
            }
            (answer, of_build) => panic!("{answer:?} and {of_build:?} of {numbers:?}"),
        }
    }
    assert!(accepted > 1_000, "{accepted}");
    assert_eq!(
        refused.keys().copied().collect::<Vec<u8>>(),
        [3, 4, 5, 6, 7, 8, 9, 10, 31, 32]
    );
    assert!(refused.values().all(|count| *count > 30), "{refused:?}");
}

#[test]
fn files_are_read_back_as_the_same_numbers() {
    for mut numbers in handed() {
        let Ok(file) = written(&numbers) else {
            continue;
        };
        let component = component::read(&file).unwrap();
        // What is not looked at is not in the file.
        for axis in [&mut numbers.speeds, &mut numbers.torques] {
            axis.numbers[axis.count..].fill(0);
        }
        let sensor_count = match numbers.kind {
            1 => {
                numbers.row_torques.clear();
                0
            }
            kind => usize::from(kind),
        };
        numbers.sensors[sensor_count..].fill([0; 9]);
        assert_eq!(HandedNumbers::of(&component), numbers);
    }
}

#[test]
fn data_written_again_is_the_same() {
    let mut same = [0; 3];
    for number in 0..5_000 {
        let data = valid::data(&mut Source::new(SEED, number)).bytes();
        let component = component::read(&data).unwrap();
        let answer = written(&HandedNumbers::of(&component));
        match map::build(&data, MOST_ENTRIES) {
            Ok(_) => {
                assert_eq!(answer, Ok(data));
                same[usize::from(component.kind.number()) - 1] += 1;
            }
            Err(refusal) => assert_eq!(answer.unwrap_err().number, refusal.number),
        }
    }
    assert!(same.iter().all(|count| *count > 1_000), "{same:?}");
}
