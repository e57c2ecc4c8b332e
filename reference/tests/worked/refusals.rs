//! "Refusals" of the build: numbers, places and order.

use crate::support::*;
use reference::data::SENSOR_RANGES;
use reference::map::build;
use reference::refusal::Refusal;

fn prefix(count: usize) -> Vec<u8> {
    let fields = [
        field(1, &[2]),
        field(2, &[1]),
        numbers_field(3, &[3_000]),
        numbers_field(4, &[100, 200]),
        numbers_field(5, &[3_000, 6_000]),
    ];
    fields[..count].concat()
}

/// Accepted data of a kind, and the tags of its fields in their order.
fn of_each_kind() -> [(Numbers, &'static [u8]); 3] {
    [
        (example(), &[1, 2, 3, 4, 5]),
        (calibrated(110_000), &[1, 2, 3, 4, 5, 6, 7, 8]),
        (
            half_shafts([110_000, 200_000, 100_000]),
            &[1, 2, 3, 4, 5, 6, 7, 9, 10],
        ),
    ]
}

#[test]
fn heads_in_every_place() {
    for (numbers, tags) in of_each_kind() {
        let whole = numbers.bytes();
        let mut head = 0;
        for tag in tags {
            assert_eq!(build(&whole[..head], 4), refused(2, head));
            for cut in [head + 1, head + 2] {
                assert_eq!(build(&whole[..cut], 4), refused(1, head));
            }
            let length = usize::from(u16::from_be_bytes([whole[head + 1], whole[head + 2]]));
            for cut in head + 3..head + 3 + length {
                assert_eq!(build(&whole[..cut], 4), refused(1, head));
            }
            let mut other = whole[..head + 3].to_vec();
            other[head + 2] ^= 1;
            for wrong in (0..=255).filter(|wrong| wrong != tag) {
                other[head] = wrong;
                assert_eq!(build(&other, 4), refused(2, head));
            }
            other[head] = *tag;
            assert_eq!(build(&other, 4), refused(3, head));
            head += 3 + length;
        }
        assert_eq!(head, whole.len());
        assert!(build(&whole, 4).is_ok());
    }
}

#[test]
fn fields_of_another_kind() {
    let [standard, measured, sides] = of_each_kind().map(|(numbers, _)| numbers.bytes());
    let under = |kind: u8, data: &[u8]| {
        let mut data = data.to_vec();
        data[3] = kind;
        build(&data, 4).map(|_| ())
    };
    assert_eq!(under(2, &standard), refused(2, 27));
    assert_eq!(under(3, &standard), refused(2, 27));
    assert_eq!(under(1, &measured), refused(12, 27));
    assert_eq!(under(1, &sides), refused(12, 27));
    // Tag 8 where 9 is due, and the other way round.
    assert_eq!(under(3, &measured), refused(2, 69));
    assert_eq!(under(2, &sides), refused(2, 69));
    for (kind, data) in [(1, &standard), (2, &measured), (3, &sides)] {
        assert_eq!(under(kind, data), Ok(()));
        for no_kind in [0, 4, 255] {
            assert_eq!(under(no_kind, data), refused(4, 3));
        }
    }
}

#[test]
fn short_heads_come_before_tags() {
    assert_eq!(build(&[], 0), refused(2, 0));
    assert_eq!(build(&[1], 0), refused(1, 0));
    assert_eq!(build(&[9], 0), refused(1, 0));
    assert_eq!(build(&[9, 9], 0), refused(1, 0));
    assert_eq!(build(&[9, 9, 9], 0), refused(2, 0));
    assert_eq!(build(&[1, 0, 1, 1, 9], 0), refused(1, 4));
    // A field's numbers come before the next field's head.
    assert_eq!(build(&[1, 0, 1, 4, 9], 0), refused(4, 3));
}

#[test]
fn lengths_of_the_axes() {
    for (tag, fields, most) in [(4, 3, 32), (5, 4, 64)] {
        let place = prefix(fields).len();
        let with_length = |length: usize| {
            let mut data = prefix(fields);
            data.extend(field(tag, &vec![0xFF; length]));
            build(&data, 0)
        };
        for length in [0, 1, 2, 3, 5, 2 * most - 1, 2 * most + 1, 2 * most + 2] {
            assert_eq!(with_length(length), refused(3, place));
        }
        for length in [4, 6, 2 * most] {
            assert_eq!(with_length(length), refused(4, place + 3));
        }
    }
}

#[test]
fn kind_line_and_ratio() {
    for kind in [0, 4, 255] {
        assert_eq!(build(&field(1, &[kind]), 0), refused(4, 3));
    }
    for kind in [1, 2, 3] {
        assert_eq!(build(&field(1, &[kind]), 0), refused(2, 4));
    }
    for line in [0, 6] {
        let numbers = Numbers { line, ..example() };
        assert_eq!(numbers.build(), refused(4, 7));
    }
    for line in 1..=5 {
        assert!(Numbers { line, ..example() }.build().is_ok());
    }
    for ratio in [0, 999, 20_001] {
        let numbers = Numbers { ratio, ..example() };
        assert_eq!(numbers.build(), refused_at_index(31, 11, 0));
    }
    for ratio in [1_000, 20_000] {
        assert!(Numbers { ratio, ..example() }.build().is_ok());
    }
}

#[test]
fn speeds_left_to_right() {
    let with = |speeds: &[u16]| {
        let numbers = Numbers::standard(1, 3_000, speeds, &[0, 1_000]);
        numbers.build().map(|_| ())
    };
    assert_eq!(with(&[1, 3_000]), Ok(()));
    assert_eq!(with(&[0, 3_000]), refused(4, 16));
    assert_eq!(with(&[1, 3_001]), refused(4, 18));
    assert_eq!(with(&[100, 100]), refused(5, 18));
    assert_eq!(with(&[100, 99]), refused(5, 18));
    // At each number 4 before 5, and the left number before the right.
    assert_eq!(with(&[100, 0]), refused(4, 18));
    assert_eq!(with(&[100, 100, 3_001]), refused(5, 18));
}

#[test]
fn torques_and_the_first_step() {
    let with = |torques: &[u16]| {
        let numbers = Numbers::standard(1, 3_000, &[100, 200], torques);
        numbers.build().map(|_| ())
    };
    assert_eq!(with(&[10, 20]), Ok(()));
    assert_eq!(with(&[11, 21]), refused(6, 23));
    assert_eq!(with(&[0, 1]), Ok(()));
    assert_eq!(with(&[0, 50_000]), Ok(()));
    assert_eq!(with(&[25_000, 50_000]), Ok(()));
    assert_eq!(with(&[0, 50_001]), refused(4, 25));
    assert_eq!(with(&[0, 0]), refused(5, 25));
    // 6 comes after all numbers.
    assert_eq!(with(&[11, 21, 21]), refused(5, 27));
    assert_eq!(with(&[11, 21, 50_001]), refused(4, 27));
}

#[test]
fn six_comes_before_the_next_field() {
    let mut data = Numbers::standard(1, 3_000, &[100, 200], &[11, 21]).bytes();
    data.push(0);
    assert_eq!(build(&data, 0), refused(6, 23));
}

/// Each number of each sensor of the data at both ends of its range, and one beyond.
fn expect_sensor_ranges(numbers: &Numbers) {
    for sensor in 0..numbers.sensors.len() {
        for (index, (least, most)) in SENSOR_RANGES.into_iter().enumerate() {
            // No entries are lent, so 11 shows that the sensors' numbers passed.
            let with = |number: u16| {
                let mut numbers = numbers.clone();
                numbers.sensors[sensor][index] = number;
                build(&numbers.bytes(), 0)
            };
            let place = 30 + 21 * sensor + 2 * index;
            assert_eq!(with(least), refused(11, 4));
            assert_eq!(with(most), refused(11, 4));
            let expected = refused_at_index(32, place, index);
            assert_eq!(with(most + 1), expected);
            if least > 0 {
                assert_eq!(with(least - 1), expected);
            }
        }
    }
}

#[test]
fn sensor_numbers() {
    let quiet = quiet_sensor(100);
    let rows = [[0, 0], [0, 1_000]];
    expect_sensor_ranges(&Numbers::measured(1_000, &[0, 10], [quiet; 2], &rows));
    let rows = [[0, 0, 0], [0, 600, 400]];
    expect_sensor_ranges(&Numbers::measured(1_000, &[0, 10], [quiet; 3], &rows));
}

#[test]
fn lengths_of_the_rows() {
    // Four points: 32 bytes of kind 2, 48 of kind 3.
    for (numbers, length) in [
        (calibrated(110_000), 32_u16),
        (half_shafts([110_000, 200_000, 100_000]), 48),
    ] {
        let whole = numbers.bytes();
        let head = numbers.rows_start() - 3;
        for other in [0, 8, 12, 24, 32, 36, 47, 48, 49, 60, 64, 65_535] {
            // As many bytes as the length says, and none.
            let mut data = whole[..head + 1].to_vec();
            data.extend(u16::to_be_bytes(other));
            let cut = build(&data, 4);
            data.resize(head + 3 + usize::from(other), 0);
            let filled = build(&data, 0);
            if other == length {
                assert_eq!((cut, filled), (refused(1, head), refused(11, 4)));
            } else {
                assert_eq!((cut, filled), (refused(3, head), refused(3, head)));
            }
        }
    }
}

#[test]
fn twelve_then_eleven_then_rows() {
    for numbers in [calibrated(99_999), half_shafts([99_999, 200_000, 100_000])] {
        let mut data = numbers.bytes();
        let place = data.len();
        assert_eq!(build(&data, 0), refused(11, 4));
        assert_eq!(build(&data, 3), refused(11, 4));
        assert_eq!(build(&data, 4), refused(9, numbers.rows_start()));
        data.push(0);
        assert_eq!(build(&data, 0), refused(12, place));
        assert_eq!(build(&data, 4), refused(12, place));
    }
    // For kind 1, the fields of kind 2 are bytes after the last field.
    let mut data = example().bytes();
    data.extend(numbers_field(6, &quiet_sensor(1)));
    assert_eq!(build(&data, 4), refused(12, 27));
    assert_eq!(build(&example().bytes(), 3), refused(11, 4));
    assert!(build(&example().bytes(), 4).is_ok());
}

/// Ratio 20.000, input up to 10,000 Nm, output up to 40,000 Nm, of kind 3 the
/// right one up to 30,000 Nm; torques 0 and 2,000 Nm. The second row at the
/// first speed is given.
fn with_row<const SENSORS: usize>(row: [u32; SENSORS]) -> Result<(), Refusal> {
    let nominal = [10_000, 40_000, 30_000];
    let sensors = std::array::from_fn(|index| quiet_sensor(nominal[index]));
    let mut harmless = [0; SENSORS];
    harmless[..2].copy_from_slice(&[10_000, 200_000]);
    let mut numbers = Numbers::measured(20_000, &[0, 2_000], sensors, &[[0; SENSORS], harmless]);
    numbers.rows[1] = row.to_vec();
    // The row behind it breaks the first rule of all.
    numbers.rows[3] = vec![u32::MAX; SENSORS];
    let start = numbers.rows_start();
    match numbers.build() {
        Err(refusal) if refusal.place == start + 12 * SENSORS => Ok(()),
        Err(refusal) => refused(refusal.number, refusal.place - start),
        Ok(_) => panic!("the last row is refused"),
    }
}

#[test]
fn a_row_in_its_order() {
    assert_eq!(with_row([1_000_001, u32::MAX]), refused(7, 8));
    assert_eq!(with_row([0, 4_000_001]), refused(7, 12));
    assert_eq!(with_row([0, 4_000_000]), refused(8, 12));
    assert_eq!(with_row([0, 200_501]), refused(8, 12));
    assert_eq!(with_row([0, 200_500]), refused(9, 8));
    assert_eq!(with_row([0, 199_499]), refused(8, 12));
    assert_eq!(with_row([0, 199_500]), refused(9, 8));
    assert_eq!(with_row([9_999, 200_000]), refused(9, 8));
    assert_eq!(with_row([10_000, 200_000]), Ok(()));
    assert_eq!(with_row([10_025, 200_500]), Ok(()));
    assert_eq!(with_row([1_000_000, 200_000]), refused(10, 8));
}

#[test]
fn a_row_of_two_sides_in_its_order() {
    const MOST: u32 = u32::MAX;
    // Input, left, right; the row starts at 12.
    assert_eq!(with_row([1_000_001, MOST, MOST]), refused(7, 12));
    assert_eq!(with_row([0, 4_000_001, 0]), refused(7, 16));
    assert_eq!(with_row([0, 4_000_001, 3_000_001]), refused(7, 16));
    assert_eq!(with_row([0, 0, 3_000_001]), refused(7, 20));
    // The right one above its own limit only, and the left one at its own.
    assert_eq!(with_row([0, 4_000_000, 3_000_001]), refused(7, 20));
    assert_eq!(with_row([0, 4_000_000, 3_000_000]), refused(8, 16));
    // The sum decides 8, told at the left torque.
    assert_eq!(with_row([0, 100_000, 100_501]), refused(8, 16));
    assert_eq!(with_row([0, 100_501, 100_000]), refused(8, 16));
    assert_eq!(with_row([0, 100_000, 100_500]), refused(9, 12));
    assert_eq!(with_row([0, 99_999, 99_500]), refused(8, 16));
    assert_eq!(with_row([0, 99_500, 99_999]), refused(8, 16));
    assert_eq!(with_row([0, 99_500, 100_000]), refused(9, 12));
    assert_eq!(with_row([0, 200_501, 0]), refused(8, 16));
    assert_eq!(with_row([0, 0, 199_499]), refused(8, 16));
    // No side alone is tested.
    assert_eq!(with_row([10_000, 200_000, 0]), Ok(()));
    assert_eq!(with_row([10_000, 0, 200_000]), Ok(()));
    assert_eq!(with_row([9_999, 1, 199_999]), refused(9, 12));
    assert_eq!(with_row([10_025, 200_499, 1]), Ok(()));
    assert_eq!(with_row([510_000, 150_000, 50_000]), Ok(()));
    assert_eq!(with_row([510_001, 150_000, 50_000]), refused(10, 12));
    assert_eq!(with_row([1_000_000, 0, 200_000]), refused(10, 12));
}

#[test]
fn sums_that_four_bytes_do_not_hold() {
    const MOST: u32 = u32::MAX;
    assert_eq!(with_row([0, MOST, MOST]), refused(7, 16));
    assert_eq!(with_row([0, MOST, 0]), refused(7, 16));
    assert_eq!(with_row([0, 0, MOST]), refused(7, 20));
    // In four bytes these would come round to the axis torque.
    assert_eq!(with_row([10_000, MOST, 200_001]), refused(7, 16));
    assert_eq!(with_row([10_000, 200_001, MOST]), refused(7, 20));
    assert_eq!(with_row([MOST, MOST, MOST]), refused(7, 12));
}

#[test]
fn limits_are_passed_when_met() {
    // An entry of 10,000,000 and one above.
    assert_eq!(with_row([510_000, 200_000]), Ok(()));
    assert_eq!(with_row([510_001, 200_000]), refused(10, 8));
    // A loss of zero, and an input torque of N.
    let rows = [[0, 0], [1_000, 1_000]];
    let sensors = [quiet_sensor(10), quiet_sensor(10)];
    let numbers = Numbers::measured(1_000, &[0, 10], sensors, &rows);
    assert_eq!(numbers.build().unwrap().entries, [0, 0, 0, 0]);
    let above = |row: [u32; 2]| {
        let mut numbers = numbers.clone();
        numbers.rows[3] = row.to_vec();
        numbers.build().map(|_| ())
    };
    let place = numbers.rows_start() + 24;
    assert_eq!(above([1_001, 1_000]), refused(7, place));
    assert_eq!(above([1_000, 1_001]), refused(7, place + 4));
}

#[test]
fn output_torque_near_zero() {
    let sensors = [quiet_sensor(100), quiet_sensor(100)];
    let with = |row| {
        let rows = [row, [2_000, 1_000]];
        let numbers = Numbers::measured(1_000, &[0, 10], sensors, &rows);
        numbers.build().map(|map| map.entries[0])
    };
    assert_eq!(with([500, 500]), Ok(0));
    let place = Numbers::measured(1_000, &[0, 10], sensors, &[[0, 0]; 2]).rows_start();
    assert_eq!(with([600, 501]), refused(8, place + 4));
}
