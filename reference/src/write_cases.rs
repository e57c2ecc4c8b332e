//! The sequences of writes. Those that do not depend on chance alone: each number and each count at its limits and beyond, rows and rooms at theirs, faults in pairs, what is not looked at, and the longest files. And writes by chance.

use crate::cases::{room_for, Case, MOST_TEXT};
use crate::data::{Data, Field};
use crate::faults::rows_at_limits;
use crate::handed_numbers::{
    damaged, of_data, ranged, sensor_count, set_row, set_row_torque_count, with_faults,
    with_row_at_limit,
};
use crate::map;
use crate::random::Source;
use crate::valid;
use crate::writer::{self, HandedNumbers};

/// Changes the seed: the draws for writes are none of those for other cases.
const SEQUENCE: u64 = 0xA076_1D64_78BD_642F;

/// The random numbers for one write.
fn source_of(seed: u64, number: u64) -> Source {
    Source::new(seed ^ SEQUENCE, number)
}

/// A write by chance; the number and the seed decide it. Large maps occur only where they are wanted.
pub fn by_chance(seed: u64, number: u64, large_maps: bool) -> Case {
    let source = &mut source_of(seed, number);
    let data = if large_maps && source.once_in(150) {
        valid::large_data(source)
    } else {
        valid::data(source)
    };
    let numbers = match source.below(4) {
        0 => of_data(source, &data),
        1 => with_faults(source, &data),
        2 => with_row_at_limit(source, &data),
        _ => damaged(source, &data),
    };
    let needed = writer::write(&numbers, &mut [0; MOST_TEXT]).unwrap_or(100);
    Case::Write {
        room: room_for(source, needed),
        numbers,
    }
}

/// The writes that do not depend on chance alone, for each kind.
pub fn systematic(seed: u64) -> Vec<Case> {
    let source = &mut source_of(seed, u64::MAX);
    let mut cases = Vec::new();
    for kind in 1..=3 {
        let data = small_data(kind);
        let numbers = of_data(source, &data);
        let mut handed = numbers_at_limits(&numbers);
        handed.extend(counts_at_limits(&numbers));
        handed.extend(with_axes(&numbers));
        handed.extend(with_other_row_counts(&numbers));
        handed.extend(with_rows_at_limits(&numbers, &data));
        handed.extend(not_looked_at(&numbers));
        cases.extend(handed.into_iter().map(with_all_room));
        cases.extend(with_two_faults(&numbers));
        cases.extend(rooms(source, &data));
        let other = accepted_data(source, kind, 3, 4);
        cases.extend(rooms(source, &other));
        cases.push(longest(source, kind));
    }
    cases
}

fn with_all_room(numbers: HandedNumbers) -> Case {
    Case::Write {
        numbers,
        room: MOST_TEXT,
    }
}

const SENSORS: [[u16; 9]; 3] = [
    [45_000, 183, 97, 211, 1_900, 947, 113, 143, 20],
    [40_000, 191, 89, 223, 1_700, 509, 127, 97, 30],
    [35_000, 401, 83, 307, 1_300, 607, 131, 151, 40],
];

/// Input, left and right torque. None is above 1 Nm, no loss is under zero at any ratio, and each second output torque is 5.00 Nm below its axis torque.
const ROWS: [[u32; 3]; 4] = [[99, 55, 40], [100, 38, 62], [98, 51, 43], [100, 44, 56]];

/// Data of a kind with two speeds and two torques. It is still accepted with its line, its ratio or a number of a sensor at an end of the range.
pub fn small_data(kind: u8) -> Data {
    let mut fields = Field::of_every_kind(kind, 2, 3_000, &[100, 200], &[1, 6]);
    match kind {
        2 => {
            let rows = ROWS.map(|[input, left, right]| [input, left + right]);
            fields.extend(Field::of_measurement(2, &SENSORS[..2], &rows));
        }
        3 => fields.extend(Field::of_measurement(3, &SENSORS, &ROWS)),
        _ => {}
    }
    Data::of(fields)
}

/// Data by chance that the build accepts.
fn accepted_data(source: &mut Source, kind: u8, speeds: usize, torques: usize) -> Data {
    loop {
        let data = valid::data_of(source, kind, speeds, torques);
        if map::build(&data.bytes(), speeds * torques).is_ok() {
            return data;
        }
    }
}

fn changed(numbers: &HandedNumbers, change: impl FnOnce(&mut HandedNumbers)) -> HandedNumbers {
    let mut changed = numbers.clone();
    change(&mut changed);
    changed
}

/// Each number in turn at both ends of its range and just outside it; a kind and a line also where the last byte alone would be right.
fn numbers_at_limits(numbers: &HandedNumbers) -> Vec<HandedNumbers> {
    let count = ranged(&mut numbers.clone()).len();
    let mut all = Vec::new();
    for place in 0..count {
        let (_, (lowest, highest)) = ranged(&mut numbers.clone())[place];
        let mut values = vec![lowest, highest, highest + 1];
        values.extend(lowest.checked_sub(1));
        values.extend((highest < 10).then_some(256 + lowest));
        let with = |value| changed(numbers, |n| *ranged(n)[place].0 = value);
        all.extend(values.into_iter().map(with));
    }
    all
}

/// Counts at the limits of both axes, beyond them, and such that would be right in four bytes, two or one.
const COUNTS: [u64; 17] = [
    0,
    1,
    3,
    31,
    32,
    33,
    63,
    64,
    65,
    258,
    65_538,
    (1 << 32) + 2,
    (1 << 32) + 32,
    1 << 63,
    (1 << 63) + 2,
    u64::MAX - 1,
    u64::MAX,
];

/// Each count on each axis. All places have rising numbers, so that nothing but the count is wrong.
fn counts_at_limits(numbers: &HandedNumbers) -> Vec<HandedNumbers> {
    let mut all = Vec::new();
    let rising = changed(numbers, continue_axes);
    for count in COUNTS.map(|count| count as usize) {
        all.push(changed(&rising, |n| n.speeds.count = count));
        all.push(changed(&rising, |n| n.torques.count = count));
    }
    all
}

/// The places past the counts go on in steps of one.
fn continue_axes(numbers: &mut HandedNumbers) {
    for axis in [&mut numbers.speeds, &mut numbers.torques] {
        for place in axis.count..axis.numbers.len() {
            axis.numbers[place] = axis.numbers[place - 1] + 1;
        }
    }
}

/// Speeds and torques at the limits of their order, beyond them, and with two faults.
const AXES: [(&[u16], &[u16]); 26] = [
    (&[1, 3_000], &[1, 2]),
    (&[2_999, 3_000], &[0, 1]),
    (&[1, 2, 3], &[0, 50_000]),
    (&[100, 100], &[1, 2]),
    (&[100, 99], &[1, 2]),
    (&[100, 0], &[1, 2]),
    (&[0, 0], &[1, 2]),
    (&[100, 100, 0], &[1, 2]),
    (&[100, 3_001, 3_001], &[1, 2]),
    (&[5, 5], &[0]),
    (&[5, 6], &[0]),
    (&[5], &[1, 1]),
    (&[100, 200], &[0, 0]),
    (&[100, 200], &[2, 3]),
    (&[100, 200], &[10, 20]),
    (&[100, 200], &[11, 21]),
    (&[100, 200], &[11, 21, 21]),
    (&[100, 200], &[11, 21, 50_001]),
    (&[100, 200], &[11, 21, 22]),
    (&[100, 200], &[25_000, 50_000]),
    (&[100, 200], &[25_001, 50_000]),
    (&[100, 200], &[49_999, 50_000]),
    (&[100, 200], &[50_000, 50_000]),
    (&[100, 200], &[50_001, 50_001]),
    (&[100, 200], &[65_535, 0]),
    (&[100, 200], &[1, 2, 1]),
];

fn with_axes(numbers: &HandedNumbers) -> Vec<HandedNumbers> {
    let with = |(speeds, torques): (&[u16], &[u16])| {
        changed(numbers, |n| {
            n.speeds.numbers[..speeds.len()].copy_from_slice(speeds);
            n.speeds.count = speeds.len();
            n.torques.numbers[..torques.len()].copy_from_slice(torques);
            n.torques.count = torques.len();
        })
    };
    AXES.into_iter().map(with).collect()
}

/// Row torques one and a whole row short and over, none, one a point, those of the other kind, and twice as many. For kind 1 none of them counts.
fn with_other_row_counts(numbers: &HandedNumbers) -> Vec<HandedNumbers> {
    let sensors = sensor_count(numbers.kind);
    let points = numbers.speeds.count * numbers.torques.count;
    let right = sensors * points;
    let mut counts = vec![0, 1, points, 2 * points, 3 * points, 2 * right, right + 1];
    counts.extend([right + sensors, right.saturating_sub(1), right - sensors]);
    counts.sort_unstable();
    counts.dedup();
    counts.retain(|count| *count != right);
    let with = |count| changed(numbers, |n| set_row_torque_count(n, count));
    counts.into_iter().map(with).collect()
}

/// Each row at its limits and just beyond them.
fn with_rows_at_limits(numbers: &HandedNumbers, data: &Data) -> Vec<HandedNumbers> {
    let mut all = Vec::new();
    for row in 0..data.rows().len() {
        let mut limits = rows_at_limits(data, row);
        limits.sort_unstable();
        limits.dedup();
        let with = |torques: Vec<u32>| changed(numbers, |n| set_row(n, row, &torques));
        all.extend(limits.into_iter().map(with));
    }
    all
}

/// Other numbers where nothing is looked at: past the counts, and in the sensors and the rows that the kind does not have.
fn not_looked_at(numbers: &HandedNumbers) -> Vec<HandedNumbers> {
    let mut all = vec![changed(numbers, continue_axes)];
    for filling in [0, 1, 65_535] {
        all.push(changed(numbers, |n| {
            let (speed_count, torque_count) = (n.speeds.count, n.torques.count);
            n.speeds.numbers[speed_count..].fill(filling);
            n.torques.numbers[torque_count..].fill(filling);
        }));
        all.push(changed(numbers, |n| {
            n.sensors[sensor_count(n.kind)..].fill([filling; 9]);
            if n.kind == 1 {
                n.row_torques.fill(u32::MAX);
            }
        }));
    }
    all
}

/// What makes a write wrong, in its numbers or in its room.
type Fault = fn(&mut HandedNumbers, &mut usize);

const FAULTS_OF_EVERY_KIND: [Fault; 10] = [
    |n, _| n.kind = 4,
    |n, _| n.line = 9,
    |n, _| n.ratio = 999,
    |n, _| n.speeds.count = 33,
    |n, _| n.speeds.numbers[0] = 0,
    |n, _| n.speeds.numbers[1] = n.speeds.numbers[0],
    |n, _| n.torques.count = 1,
    |n, _| n.torques.numbers[0] = 50_001,
    |n, _| n.torques.numbers[1] = n.torques.numbers[0],
    |n, _| n.torques.numbers[..2].copy_from_slice(&[2, 3]),
];

const SENSOR_FAULTS: [Fault; 3] = [
    |n, _| n.sensors[0][1] = 10_001,
    |n, _| n.sensors[1][4] = 999,
    |n, _| n.sensors[2][8] = 101,
];

/// Of the first row: 7 for each torque.
const TORQUE_FAULTS: [Fault; 3] = [
    |n, _| n.row_torques[0] = 4_500_001,
    |n, _| n.row_torques[1] = 4_000_001,
    |n, _| n.row_torques[2] = 3_500_001,
];

/// Of the first row 8, 9 and 10; then 7 of the last row.
const ROW_FAULTS: [Fault; 4] = [
    |n, _| n.row_torques[1] = 601,
    |n, _| n.row_torques[0] = 0,
    |n, _| n.row_torques[0] = 3_400_000,
    |n, _| *n.row_torques.last_mut().expect("a last row") = u32::MAX,
];

/// The faults that a kind can have, in the order of the tests.
fn faults(kind: u16) -> Vec<Fault> {
    let mut faults = FAULTS_OF_EVERY_KIND.to_vec();
    let sensors = sensor_count(kind);
    if sensors > 0 {
        faults.extend(&SENSOR_FAULTS[..sensors]);
        faults.push(|n, _| n.row_torques.truncate(n.row_torques.len() - 1));
        faults.extend(&TORQUE_FAULTS[..sensors]);
        faults.extend(ROW_FAULTS);
    }
    faults.push(|_, room| *room = 0);
    faults
}

/// Each fault with each later one, and alone. Those of every kind are tried among themselves with kind 1, and with the others with kind 3.
/// The earlier one is put in last: it stays where both are in one number.
fn with_two_faults(numbers: &HandedNumbers) -> Vec<Case> {
    let faults = faults(numbers.kind);
    let of_measured_kinds = FAULTS_OF_EVERY_KIND.len();
    let (first_earlier, first_later) = match numbers.kind {
        1 => (0, 0),
        2 => (of_measured_kinds, of_measured_kinds),
        _ => (0, of_measured_kinds),
    };
    let mut cases = Vec::new();
    for (place, earlier) in faults.iter().enumerate().skip(first_earlier) {
        for later in &faults[place.max(first_later)..] {
            let (mut numbers, mut room) = (numbers.clone(), MOST_TEXT);
            later(&mut numbers, &mut room);
            earlier(&mut numbers, &mut room);
            cases.push(Case::Write { numbers, room });
        }
    }
    cases
}

/// No room, some, and about as much as the file needs.
fn rooms(source: &mut Source, data: &Data) -> Vec<Case> {
    let length = data.bytes().len();
    let rooms = [0, 1, 3, length / 2, length - 1, length, length + 1];
    let with = |room| Case::Write {
        numbers: of_data(source, data),
        room,
    };
    rooms.map(with).into()
}

/// The largest map of a kind, with no more room than its file needs.
fn longest(source: &mut Source, kind: u8) -> Case {
    let data = accepted_data(source, kind, 32, 64);
    Case::Write {
        numbers: of_data(source, &data),
        room: data.bytes().len(),
    }
}
