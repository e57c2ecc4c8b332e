//! Component data written from numbers: cases reckoned by hand for request C-12 of document 02.

mod parsed;

use axle::{Grid, Map, Numbers, Refusal, Sensor, MAXIMUM_FILE_LENGTH};
use parsed::numbers_of;

/// The data of document 01, "The map program".
const STANDARD: [u8; 27] = [
    0x01, 0x00, 0x01, 0x01, 0x02, 0x00, 0x01, 0x01, 0x03, 0x00, 0x02, 0x0B, 0xB8, 0x04, 0x00, 0x04,
    0x00, 0x64, 0x00, 0xC8, 0x05, 0x00, 0x04, 0x00, 0x00, 0x03, 0xE8,
];

const MEASURED: &[u8] = include_bytes!("../../../examples/measured.axle");
const HALF_SHAFTS: &[u8] = include_bytes!("../../../examples/half-shafts.axle");
const REFUSED: &[u8] = include_bytes!("../../../examples/refused.axle");
const LARGEST: &[u8] = include_bytes!("../../../crates/lossmap/stdin");

/// The numbers of the listing in document 01.
fn standard() -> Numbers {
    Numbers {
        kind: 1,
        line: 1,
        ratio: 3_000,
        speeds: vec![100, 200],
        torques: vec![0, 1_000],
        ..Numbers::default()
    }
}

/// A sensor that is uncertain by its calibration alone, as in "Reckoned by hand".
fn calibrated(nominal: u16) -> Sensor {
    Sensor {
        nominal,
        sensitivity: 0,
        zero: 0,
        calibration: 100,
        advancement: 1_000,
        parasitic: 0,
        share: 0,
        difference: 0,
        span: 10,
    }
}

/// The numbers of examples/measured.axle.
fn measured() -> Numbers {
    Numbers {
        kind: 2,
        torques: vec![1_000, 3_000],
        input: calibrated(10_000),
        output: calibrated(40_000),
        rows: [34_000, 100_000, 110_000, 300_000].repeat(2),
        ..standard()
    }
}

/// The numbers of examples/half-shafts.axle.
fn half_shafts() -> Numbers {
    Numbers {
        kind: 3,
        output: calibrated(30_000),
        right: calibrated(15_000),
        rows: vec![
            34_000, 60_000, 40_000, 102_000, 200_000, 100_000, 34_500, 35_000, 65_200, 110_000,
            120_000, 180_000,
        ],
        ..measured()
    }
}

/// A sensor whose every number is beyond its range.
fn garbage() -> Sensor {
    Sensor::from([u16::MAX; 9])
}

/// Refused with this number at 0, however much room there is, and the lent bytes are left.
#[track_caller]
fn assert_refused(numbers: &Numbers, number: u32) {
    assert_refused_with(numbers, number, None);
}

/// The same, of the number with this index in its field.
#[track_caller]
fn assert_refused_with(numbers: &Numbers, number: u32, index: Option<usize>) {
    let place = 0;
    let refusal = Refusal {
        number,
        place,
        index,
    };
    assert_eq!(numbers.write(), Err(refusal));
    let mut file = [7; 150];
    assert_eq!(numbers.write_to(&mut file), Err(refusal));
    assert_eq!(numbers.write_to(&mut []), Err(refusal));
    assert_eq!(file, [7; 150]);
}

/// The refusal of lent bytes that are fewer than these.
fn too_short(length: usize) -> Result<usize, Refusal> {
    Err(Refusal {
        number: 30,
        place: length,
        index: None,
    })
}

#[track_caller]
fn assert_accepted(numbers: &Numbers) {
    let file = numbers.write().expect("accepted");
    assert!(Map::build(&file).is_ok(), "what is written builds");
    assert_eq!(numbers_of(&file), *numbers, "and says the same numbers");
}

#[test]
fn the_files_byte_for_byte() {
    assert_eq!(standard().write(), Ok(STANDARD.to_vec()));
    assert_eq!(measured().write(), Ok(MEASURED.to_vec()));
    assert_eq!(half_shafts().write(), Ok(HALF_SHAFTS.to_vec()));
}

#[test]
fn room_and_length() {
    for (numbers, length) in [(standard(), 27), (measured(), 104), (half_shafts(), 141)] {
        let mut file = [7; 150];
        for room in [0, 1, length - 1] {
            let answer = numbers.write_to(&mut file[..room]);
            assert_eq!(answer, too_short(length));
        }
        assert_eq!(file, [7; 150]);
        let whole = numbers.write().expect("accepted");
        for room in [length, length + 1, 150] {
            let mut file = [7; 150];
            assert_eq!(numbers.write_to(&mut file[..room]), Ok(length));
            assert_eq!(file[..length], whole);
            assert!(file[length..].iter().all(|byte| *byte == 7));
        }
    }
}

/// The largest grid, with the same torque at the input and at the output of a point; of kind 3 a
/// quarter of it is at the right.
fn largest(numbers: Numbers) -> Numbers {
    let row = |torque: u32| match numbers.kind {
        1 => vec![],
        2 => vec![100 * torque; 2],
        _ => vec![100 * torque, 75 * torque, 25 * torque],
    };
    let of_a_speed: Vec<u32> = (1..=64).flat_map(row).collect();
    Numbers {
        speeds: (1..=32).collect(),
        torques: (1..=64).collect(),
        rows: of_a_speed.repeat(32),
        ..numbers
    }
}

#[test]
fn the_longest_files() {
    let lengths = [standard(), measured(), half_shafts()].map(|numbers| {
        let numbers = largest(numbers);
        assert_accepted(&numbers);
        numbers.write().expect("accepted").len()
    });
    assert_eq!(lengths, [211, 16_640, 24_853]);
    assert_eq!(MAXIMUM_FILE_LENGTH, 24_853);
}

#[test]
fn what_a_kind_does_not_have_is_not_looked_at() {
    for count in [0, 1, 7, 8, 2_049] {
        let numbers = Numbers {
            input: garbage(),
            output: garbage(),
            right: garbage(),
            rows: vec![u32::MAX; count],
            ..standard()
        };
        assert_eq!(numbers.write(), Ok(STANDARD.to_vec()));
    }
    let numbers = Numbers {
        right: garbage(),
        ..measured()
    };
    assert_eq!(numbers.write(), Ok(MEASURED.to_vec()));
}

#[test]
fn kind_line_and_ratio() {
    let axle = |kind, line, ratio| Numbers {
        kind,
        line,
        ratio,
        ..standard()
    };
    assert_refused(&axle(4, 9, 999), 4);
    for kind in [0, 4, 256, 257, 258, u16::MAX] {
        assert_refused(&axle(kind, 1, 3_000), 4);
    }
    for line in [0, 6, 256, 257, u16::MAX] {
        assert_refused(&axle(1, line, 3_000), 4);
    }
    for ratio in [0, 999, 20_001, u16::MAX] {
        assert_refused_with(&axle(1, 1, ratio), 31, Some(0));
    }
    for line in 1..=5 {
        assert_accepted(&axle(1, line, 1_000));
        assert_accepted(&axle(1, line, 20_000));
    }
}

/// Standard data over these axes.
fn over(speeds: &[u16], torques: &[u16]) -> Numbers {
    Numbers {
        speeds: speeds.to_vec(),
        torques: torques.to_vec(),
        ..standard()
    }
}

#[test]
fn counts_of_the_axes() {
    let rising: Vec<u16> = (1..=3_000).collect();
    for count in [0, 1, 33, 34, 64, 65, 3_000] {
        assert_refused(&over(&rising[..count], &[0, 1]), 3);
    }
    for count in [0, 1, 65, 66, 3_000] {
        assert_refused(&over(&[1, 2], &rising[..count]), 3);
    }
    for (speeds, torques) in [(2, 2), (32, 2), (2, 64), (32, 64)] {
        assert_accepted(&over(&rising[..speeds], &rising[..torques]));
    }
    // The count comes before the numbers, and the speeds before the torques.
    assert_refused(&over(&[0; 33], &[0, 1]), 3);
    assert_refused(&over(&[1, 2], &[9; 65]), 3);
    assert_refused(&over(&[5, 5], &[0]), 5);
}

/// Standard data written on a grid with the counts 2 and 2 and this number past them, or with other
/// counts. Its own axes are not looked at.
fn on_grid(past: u16, change: impl Fn(&mut Grid)) -> Result<Vec<u8>, Refusal> {
    let mut grid = Grid {
        speeds: [past; 32],
        speed_count: 2,
        torques: [past; 64],
        torque_count: 2,
    };
    grid.speeds[..2].copy_from_slice(&[100, 200]);
    grid.torques[..2].copy_from_slice(&[0, 1_000]);
    change(&mut grid);
    let mut file = vec![7; 300];
    let length = over(&[], &[9; 70]).write_on_grid(&grid, &mut file)?;
    file.truncate(length);
    Ok(file)
}

#[test]
fn counts_of_any_size() {
    let refused = Err(Refusal {
        number: 3,
        place: 0,
        index: None,
    });
    for count in [0, 1, 33, 64, 65, 1 << 32, (1 << 32) + 2, usize::MAX] {
        let written = on_grid(0, |grid| grid.speed_count = count);
        assert_eq!(written, refused, "{} speeds", count);
    }
    for count in [0, 1, 65, 128, 1 << 32, (1 << 32) + 2, usize::MAX] {
        let written = on_grid(0, |grid| grid.torque_count = count);
        assert_eq!(written, refused, "{} torques", count);
    }
}

#[test]
fn what_stands_past_the_counts_means_nothing() {
    for past in [0, 1, 500, u16::MAX] {
        assert_eq!(on_grid(past, |_| ()), Ok(STANDARD.to_vec()));
    }
}

#[test]
fn numbers_of_the_axes() {
    assert_accepted(&over(&[1, 3_000], &[0, 50_000]));
    for speeds in [[0, 1], [1, 3_001], [u16::MAX, 1], [0, 0]] {
        assert_refused(&over(&speeds, &[0, 1]), 4);
    }
    assert_refused(&over(&[1, 2], &[0, 50_001]), 4);
    for axis in [[5, 5], [5, 4]] {
        assert_refused(&over(&axis, &[0, 1]), 5);
        assert_refused(&over(&[1, 2], &axis), 5);
    }
    // Number by number, of each 4 before 5.
    assert_refused(&over(&[5, 5, 0], &[0, 1]), 5);
    assert_refused(&over(&[5, 0, 5], &[0, 1]), 4);
    // The first step: 6 after all numbers.
    assert_accepted(&over(&[1, 2], &[10, 20]));
    assert_refused(&over(&[1, 2], &[11, 21]), 6);
    assert_refused(&over(&[1, 2], &[11, 21, 21]), 5);
    assert_refused(&over(&[1, 2], &[11, 21, 50_001]), 4);
}

/// Document 01: the ranges of a sensor's numbers.
const RANGES: [(u16, u16); 9] = [
    (1, 50_000),
    (0, 10_000),
    (0, 10_000),
    (0, 10_000),
    (1_000, 10_000),
    (0, 10_000),
    (0, 1_000),
    (0, 500),
    (10, 100),
];

type ToSensor = fn(&mut Numbers) -> &mut Sensor;

#[test]
fn numbers_of_the_sensors() {
    let (input, output): (ToSensor, ToSensor) = (|n| &mut n.input, |n| &mut n.output);
    let sensors: [(Numbers, ToSensor); 5] = [
        (measured(), input),
        (measured(), output),
        (half_shafts(), input),
        (half_shafts(), output),
        (half_shafts(), |n| &mut n.right),
    ];
    for (numbers, sensor) in sensors {
        for (index, (lowest, highest)) in RANGES.into_iter().enumerate() {
            let with = |number: u16| {
                let mut changed = numbers.clone();
                let mut all = sensor(&mut changed).numbers();
                all[index] = number;
                *sensor(&mut changed) = Sensor::from(all);
                changed
            };
            for outside in [lowest.wrapping_sub(1), highest + 1, u16::MAX] {
                assert_refused_with(&with(outside), 32, Some(index));
            }
            assert_accepted(&with(highest));
            // A nominal torque of 1 Nm is in its range, and below the readings.
            match index {
                0 => assert_refused(&with(lowest), 7),
                _ => assert_accepted(&with(lowest)),
            }
        }
    }
}

#[test]
fn counts_of_row_torques() {
    for count in [0, 1, 2, 4, 7, 9, 10, 12, 16, 4_096] {
        let mut numbers = measured();
        numbers.rows.resize(count, 0);
        assert_refused(&numbers, 3);
    }
    for count in [0, 4, 8, 9, 11, 13, 15, 6_144] {
        let mut numbers = half_shafts();
        numbers.rows.resize(count, 0);
        assert_refused(&numbers, 3);
    }
    // After the sensors.
    let mut numbers = measured();
    numbers.rows.pop();
    numbers.output.span = 9;
    assert_refused_with(&numbers, 32, Some(8));
}

/// Numbers with another torque of a row, by its index among all torques.
fn with_torque(mut numbers: Numbers, index: usize, torque: u32) -> Numbers {
    numbers.rows[index] = torque;
    numbers
}

#[test]
fn rows_of_kind_2() {
    let with = |index, torque| with_torque(measured(), index, torque);
    assert_refused(&with(0, 1_000_001), 7);
    assert_refused(&with(1, 4_000_001), 7);
    assert_refused(&with(7, u32::MAX), 7);
    assert_refused(&with(1, 100_501), 8);
    assert_refused(&with(1, 99_499), 8);
    assert_accepted(&with(1, 100_500));
    assert_accepted(&with(1, 99_500));
    assert_refused(&with(2, 99_999), 9);
    assert_accepted(&with(2, 100_000));
    let mut numbers = with(0, 1_000_000);
    numbers.ratio = 20_000;
    assert_refused(&numbers, 10);
}

#[test]
fn rows_of_kind_3() {
    let with = |index, torque| with_torque(half_shafts(), index, torque);
    assert_refused(&with(3, 1_000_001), 7);
    assert_refused(&with(4, 3_000_001), 7);
    assert_refused(&with(5, 1_500_001), 7);
    // 3,000.00 Nm and 5.00 more pass, all at one side too.
    assert_accepted(&with(5, 100_500));
    assert_refused(&with(5, 100_501), 8);
    assert_accepted(&with_torque(with(4, 300_000), 5, 0));
    // Added in four bytes the sides would come round to 3,000.00 Nm.
    assert_refused(&with_torque(with(4, 300_001), 5, u32::MAX), 7);
    assert_refused(&with(3, 99_999), 9);
    assert_accepted(&with(3, 100_000));
    let mut numbers = with(3, 1_000_000);
    numbers.ratio = 20_000;
    assert_refused(&numbers, 10);
}

/// Numbers of which none is right.
fn all_wrong() -> Numbers {
    Numbers {
        kind: 4,
        line: 9,
        ratio: 999,
        speeds: vec![0; 33],
        torques: vec![60_000],
        input: garbage(),
        output: garbage(),
        right: garbage(),
        rows: vec![u32::MAX; 11],
    }
}

type Mend = fn(&mut Numbers);

/// What numbers that are all wrong are refused with, and what mends that alone; one after the other.
/// Of a ratio and of a sensor it is number 0.
const MENDED: [(u32, Mend); 20] = [
    (4, |n| n.kind = 3),
    (4, |n| n.line = 1),
    (31, |n| n.ratio = 3_000),
    (3, |n| n.speeds = vec![0, 0]),
    (4, |n| n.speeds = vec![7, 7]),
    (5, |n| n.speeds = vec![100, 200]),
    (3, |n| n.torques = vec![60_000, 60_000]),
    (4, |n| n.torques = vec![3_000, 3_000]),
    (5, |n| n.torques = vec![2_000, 3_000]),
    (6, |n| n.torques = vec![1_000, 3_000]),
    (32, |n| n.input = calibrated(10_000)),
    (32, |n| n.output = calibrated(30_000)),
    (32, |n| n.right = calibrated(15_000)),
    (3, |n| n.rows = vec![u32::MAX; 12]),
    (7, |n| n.rows[0] = 33_333),
    (7, |n| n.rows[1] = 60_000),
    (7, |n| n.rows[2] = 40_501),
    (8, |n| n.rows[2] = 40_000),
    (9, |n| n.rows[0] = 34_000),
    (7, |n| n.rows = half_shafts().rows),
];

#[test]
fn the_order_of_the_tests() {
    let mut numbers = all_wrong();
    for (number, mend) in MENDED {
        let index = matches!(number, 31 | 32).then_some(0);
        assert_refused_with(&numbers, number, index);
        mend(&mut numbers);
    }
    assert_eq!(numbers.write_to(&mut [0; 140]), too_short(141));
    assert_eq!(numbers.write(), Ok(HALF_SHAFTS.to_vec()));
}

/// The data of every example.
fn examples() -> Vec<Vec<u8>> {
    let folder = concat!(env!("CARGO_MANIFEST_DIR"), "/../../examples");
    let entries = std::fs::read_dir(folder).expect("a folder");
    let paths = entries.map(|entry| entry.expect("an entry").path());
    let data = paths.filter(|path| path.extension().map_or(false, |ending| ending == "axle"));
    data.map(|path| std::fs::read(path).expect("read"))
        .collect()
}

#[test]
fn accepted_data_written_again() {
    let mut accepted = examples();
    accepted.retain(|data| Map::build(data).is_ok());
    assert_eq!(accepted.len(), 4);
    accepted.push(LARGEST.to_vec());
    for data in accepted {
        assert_eq!(numbers_of(&data).write(), Ok(data));
    }
}

#[test]
fn refused_data_written_again() {
    let number = Map::build(REFUSED).expect_err("refused").number;
    assert_eq!(number, 9);
    assert_refused(&numbers_of(REFUSED), number);
}
