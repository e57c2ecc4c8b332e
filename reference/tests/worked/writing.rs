//! Request C-12, "Writing component data": cases reckoned by hand.

use crate::support::*;
use reference::component;
use reference::data::SENSOR_RANGES;
use reference::refusal::Refusal;
use reference::writer::{write, HandedNumbers};

const ALL_ROOM: usize = 30_000;

/// The file in a buffer of so many bytes. What is no part of it must be kept.
fn written_in(room: usize, numbers: &HandedNumbers) -> Result<Vec<u8>, Refusal> {
    let before: Vec<u8> = (0..room).map(|place| place as u8 ^ 0xA5).collect();
    let mut buffer = before.clone();
    let answer = write(numbers, &mut buffer);
    let length = answer.unwrap_or(0);
    assert_eq!(buffer[length..], before[length..]);
    buffer.truncate(length);
    answer.map(|_| buffer)
}

fn written(numbers: &HandedNumbers) -> Result<Vec<u8>, Refusal> {
    written_in(ALL_ROOM, numbers)
}

/// Only whether the numbers are accepted, after a change.
fn changed(numbers: &Numbers, change: impl FnOnce(&mut HandedNumbers)) -> Result<(), Refusal> {
    let mut handed = numbers.handed();
    change(&mut handed);
    written(&handed).map(|_| ())
}

fn of_each_kind() -> [Numbers; 3] {
    [
        example(),
        calibrated(110_000),
        half_shafts([110_000, 200_000, 100_000]),
    ]
}

#[test]
fn the_listings_numbers() {
    let bytes = [
        0x01, 0x00, 0x01, 0x01, 0x02, 0x00, 0x01, 0x01, 0x03, 0x00, 0x02, 0x0B, 0xB8, 0x04, 0x00,
        0x04, 0x00, 0x64, 0x00, 0xC8, 0x05, 0x00, 0x04, 0x00, 0x00, 0x03, 0xE8,
    ];
    let numbers = example().handed();
    for room in [27, 28, ALL_ROOM] {
        assert_eq!(written_in(room, &numbers).unwrap(), bytes);
    }
    for room in [0, 1, 26] {
        assert_eq!(written_in(room, &numbers), refused(30, 27));
    }
}

#[test]
fn lengths_of_files() {
    let lengths = |all: [Numbers; 3]| all.map(|n| written(&n.handed()).unwrap().len());
    assert_eq!(lengths(of_each_kind()), [27, 104, 141]);
    assert_eq!(lengths([1, 2, 3].map(largest)), [211, 16_640, 24_853]);
}

#[test]
fn written_data_reads_back() {
    let largest = [1, 2, 3].map(largest);
    for numbers in of_each_kind().iter().chain(&largest) {
        let file = written(&numbers.handed()).unwrap();
        assert_eq!(file, numbers.bytes());
        let component = component::read(&file).unwrap();
        assert_eq!(written(&HandedNumbers::of(&component)), Ok(file));
    }
}

#[test]
fn room_is_tested_last() {
    for numbers in of_each_kind() {
        let file = numbers.bytes();
        let (handed, length) = (numbers.handed(), file.len());
        for room in [0, length - 1] {
            assert_eq!(written_in(room, &handed), refused(30, length));
        }
        for room in [length, length + 1] {
            assert_eq!(written_in(room, &handed), Ok(file.clone()));
        }
    }
    assert_eq!(written_in(0, &calibrated(99_999).handed()), refused(9, 0));
    assert_eq!(
        written_in(0, &calibrated(100_000).handed()),
        refused(30, 104)
    );
}

#[test]
fn kind_line_and_ratio() {
    for numbers in of_each_kind() {
        // The last byte of 257 to 259 is that of a kind and of a line.
        for wrong in [0, 4, 256, 257, 258, 259, 65_535] {
            assert_eq!(changed(&numbers, |n| n.kind = wrong), refused(4, 0));
        }
        for wrong in [0, 6, 256, 257, 65_535] {
            assert_eq!(changed(&numbers, |n| n.line = wrong), refused(4, 0));
        }
        for wrong in [0, 999, 20_001, 65_535] {
            let expected = refused_at_index(31, 0, 0);
            assert_eq!(changed(&numbers, |n| n.ratio = wrong), expected);
        }
        for line in 1..=5 {
            assert_eq!(changed(&numbers, |n| n.line = line), Ok(()));
        }
    }
    for ratio in [1_000, 20_000] {
        assert_eq!(changed(&example(), |n| n.ratio = ratio), Ok(()));
    }
    let all_wrong = |n: &mut HandedNumbers| (n.kind, n.line, n.ratio) = (4, 9, 999);
    assert_eq!(changed(&example(), all_wrong), refused(4, 0));
}

#[test]
fn counts_of_the_axes() {
    let numbers = largest(1);
    let with_counts = |speeds: usize, torques: usize| {
        changed(&numbers, |n| {
            (n.speeds.count, n.torques.count) = (speeds, torques)
        })
    };
    let beyond = [0, 1, 65, 66, 258, 65_538, 1 << 63, usize::MAX];
    for count in beyond.into_iter().chain([33, 64, (1 << 32) + 2]) {
        assert_eq!(with_counts(count, 64), refused(3, 0));
    }
    for count in beyond.into_iter().chain([(1 << 32) + 64]) {
        assert_eq!(with_counts(32, count), refused(3, 0));
    }
    for (speeds, torques) in [(2, 2), (2, 64), (3, 3), (32, 2), (32, 64)] {
        assert_eq!(with_counts(speeds, torques), Ok(()));
    }
}

#[test]
fn numbers_of_the_axes() {
    let with = |speeds: &[u16], torques: &[u16]| {
        let numbers = Numbers::standard(1, 3_000, speeds, torques);
        written(&numbers.handed()).map(|_| ())
    };
    assert_eq!(with(&[1, 3_000], &[0, 50_000]), Ok(()));
    assert_eq!(with(&[0, 3_000], &[0, 1]), refused(4, 0));
    assert_eq!(with(&[1, 3_001], &[0, 1]), refused(4, 0));
    assert_eq!(with(&[1, 2], &[0, 50_001]), refused(4, 0));
    // At each number 4 before 5, and the left number before the right.
    assert_eq!(with(&[100, 0], &[0, 1]), refused(4, 0));
    assert_eq!(with(&[100, 100, 0], &[0, 1]), refused(5, 0));
    // The speeds before the torques.
    assert_eq!(with(&[5, 5], &[0]), refused(5, 0));
    assert_eq!(with(&[5, 6], &[0]), refused(3, 0));
    assert_eq!(with(&[5], &[1, 1]), refused(3, 0));
    assert_eq!(with(&[1, 2], &[10, 20]), Ok(()));
    assert_eq!(with(&[1, 2], &[11, 21]), refused(6, 0));
    assert_eq!(with(&[1, 2], &[11, 21, 21]), refused(5, 0));
    assert_eq!(with(&[1, 2], &[11, 21, 50_001]), refused(4, 0));
    assert_eq!(with(&[1, 2], &[25_000, 50_000]), Ok(()));
    assert_eq!(with(&[1, 2], &[25_001, 50_000]), refused(6, 0));
}

/// Each number of each sensor at both ends of its range, and one beyond.
fn expect_sensor_ranges(numbers: &Numbers) {
    for sensor in 0..numbers.sensors.len() {
        for (index, (least, most)) in SENSOR_RANGES.into_iter().enumerate() {
            // No row torques are there, so 3 shows that the sensors passed.
            let with = |number: u16| {
                changed(numbers, |n| {
                    n.sensors[sensor][index] = number;
                    n.row_torques.clear();
                })
            };
            assert_eq!(with(least), refused(3, 0));
            assert_eq!(with(most), refused(3, 0));
            let expected = refused_at_index(32, 0, index);
            assert_eq!(with(most + 1), expected);
            if least > 0 {
                assert_eq!(with(least - 1), expected);
            }
        }
    }
}

#[test]
fn sensor_numbers() {
    for numbers in &of_each_kind()[1..] {
        expect_sensor_ranges(numbers);
    }
}

#[test]
fn counts_of_row_torques() {
    for (numbers, right) in [
        (calibrated(110_000), 8),
        (half_shafts([110_000, 200_000, 100_000]), 12),
    ] {
        for count in 0..=24 {
            let answer = changed(&numbers, |n| n.row_torques.resize(count, 0));
            let expected = if count == right {
                Ok(())
            } else {
                refused(3, 0)
            };
            assert_eq!(answer, expected);
        }
        // Before the rows themselves.
        let short = |n: &mut HandedNumbers| n.row_torques = vec![u32::MAX; right - 1];
        assert_eq!(changed(&numbers, short), refused(3, 0));
        let whole = |n: &mut HandedNumbers| n.row_torques = vec![u32::MAX; right];
        assert_eq!(changed(&numbers, whole), refused(7, 0));
    }
}

/// The first row of "Reckoned by hand" with these torques; the last row breaks a rule, too.
fn with_row<const SENSORS: usize>(numbers: &Numbers, row: [u32; SENSORS]) -> Result<(), Refusal> {
    let mut numbers = numbers.clone();
    numbers.rows[0] = row.to_vec();
    let alone = changed(&numbers, |_| ());
    numbers.rows[3] = vec![u32::MAX; SENSORS];
    let expected = if alone.is_ok() { refused(7, 0) } else { alone };
    assert_eq!(changed(&numbers, |_| ()), expected);
    alone
}

#[test]
fn rows_in_their_order() {
    // Input up to 10,000 Nm, output up to 40,000 Nm; ratio 20.000 for 10.
    let numbers = calibrated(110_000);
    assert_eq!(with_row(&numbers, [1_000_001, u32::MAX]), refused(7, 0));
    assert_eq!(with_row(&numbers, [0, 4_000_001]), refused(7, 0));
    assert_eq!(with_row(&numbers, [0, 300_501]), refused(8, 0));
    assert_eq!(with_row(&numbers, [0, 299_499]), refused(8, 0));
    assert_eq!(with_row(&numbers, [0, 300_500]), refused(9, 0));
    assert_eq!(with_row(&numbers, [99_999, 300_000]), refused(9, 0));
    assert_eq!(with_row(&numbers, [100_000, 300_000]), Ok(()));
    let steep = Numbers {
        ratio: 20_000,
        ..numbers
    };
    // A loss of 100,000.00 Nm, and 0.20 Nm more.
    assert_eq!(with_row(&steep, [515_000, 300_000]), Ok(()));
    assert_eq!(with_row(&steep, [515_001, 300_000]), refused(10, 0));
}

#[test]
fn rows_of_two_sides_in_their_order() {
    // Left up to 30,000 Nm, right up to 15,000 Nm.
    let numbers = half_shafts([110_000, 200_000, 100_000]);
    let most = u32::MAX;
    assert_eq!(with_row(&numbers, [1_000_001, 0, 0]), refused(7, 0));
    assert_eq!(with_row(&numbers, [0, 3_000_001, 0]), refused(7, 0));
    assert_eq!(with_row(&numbers, [0, 0, 1_500_001]), refused(7, 0));
    assert_eq!(with_row(&numbers, [0, 3_000_000, 1_500_000]), refused(8, 0));
    assert_eq!(with_row(&numbers, [0, 200_000, 100_501]), refused(8, 0));
    assert_eq!(with_row(&numbers, [0, 200_000, 100_500]), refused(9, 0));
    assert_eq!(with_row(&numbers, [100_000, 0, 300_000]), Ok(()));
    // In four bytes the sum would be 300,000.
    assert_eq!(with_row(&numbers, [110_000, most, 300_001]), refused(7, 0));
}

#[test]
fn what_is_not_looked_at() {
    let [standard, measured, sides] = of_each_kind();
    for filling in [0, 1, u16::MAX] {
        for count in [0, 1, 7, 8, 12] {
            let other = |n: &mut HandedNumbers| {
                n.sensors = [[filling; 9]; 3];
                n.row_torques = vec![u32::MAX; count];
            };
            assert_eq!(changed(&standard, other), Ok(()));
        }
        let right = |n: &mut HandedNumbers| n.sensors[2] = [filling; 9];
        assert_eq!(changed(&measured, right), Ok(()));
        let expected = match filling {
            // N may be 1, but no k.
            1 => refused_at_index(32, 0, 4),
            _ => refused_at_index(32, 0, 0),
        };
        assert_eq!(changed(&sides, right), expected);
        for numbers in [&standard, &measured, &sides] {
            let mut handed = numbers.handed();
            handed.speeds.numbers[2..].fill(filling);
            handed.torques.numbers[2..].fill(filling);
            assert_eq!(written(&handed).unwrap(), numbers.bytes());
        }
    }
}
