//! The stored cases have what they must have of writes: for each kind the ends of every range, each refusal, rooms of every size, what is not looked at, the longest files; and every build written again.

use reference::cases::Case;
use reference::data::SENSOR_RANGES;
use reference::handed_numbers::{ranged, sensor_count};
use reference::refusal::Refusal;
use reference::reply::{reply, Seen};
use reference::stored::{stored_cases, WRITE_REFUSALS};
use reference::writer::{write, HandedNumbers};
use std::collections::BTreeSet;
use std::sync::LazyLock;

/// A stored write, and its answer.
struct Write {
    numbers: HandedNumbers,
    room: usize,
    answer: Result<usize, Refusal>,
}

impl Write {
    fn accepted(&self) -> bool {
        self.answer.is_ok()
    }

    fn refused_with(&self, number: u8) -> bool {
        self.answer.is_err_and(|refusal| refusal.number == number)
    }

    /// How many speeds and torques there are said to be.
    fn counts(&self) -> (usize, usize) {
        (self.numbers.speeds.count, self.numbers.torques.count)
    }

    /// The numbers that have a range, with their ranges.
    fn ranged(&self) -> Vec<(u16, (u16, u16))> {
        let mut numbers = self.numbers.clone();
        let ranged = ranged(&mut numbers).into_iter();
        ranged.map(|(number, range)| (*number, range)).collect()
    }
}

static WRITES: LazyLock<Vec<Write>> = LazyLock::new(|| {
    let cases = stored_cases().into_iter().filter_map(|case| match case {
        Case::Write { numbers, room } => Some(Write {
            answer: write(&numbers, &mut vec![0; room]),
            numbers,
            room,
        }),
        _ => None,
    });
    cases.collect()
});

fn writes(kind: u16) -> impl Iterator<Item = &'static Write> {
    WRITES
        .iter()
        .filter(move |write| write.numbers.kind == kind)
}

fn occurs(kind: u16, what: &str, holds: impl FnMut(&Write) -> bool) {
    let found = writes(kind).any(holds);
    assert!(found, "no write of kind {kind} with {what}");
}

/// Places among the numbers that have a range. Of a map with two speeds and two torques the sensors follow after four numbers of the axes.
const LINE: usize = 1;
const RATIO: usize = 2;
const SPEEDS: [usize; 2] = [3, 4];
const TORQUES: [usize; 2] = [5, 6];
const SENSORS: usize = 7;

#[test]
fn numbers_are_accepted_at_both_ends() {
    for kind in 1..=3 {
        let sensors = SENSORS..SENSORS + 9 * sensor_count(kind);
        for place in [LINE, RATIO].into_iter().chain(sensors) {
            let number_and_range = |write: &Write| match write.accepted() {
                true if write.counts() == (2, 2) => Some(write.ranged()[place]),
                _ => None,
            };
            let what = format!("number {place} at an end of its range");
            for end in [|range: (u16, u16)| range.0, |range: (u16, u16)| range.1] {
                occurs(kind, &what, |write| {
                    number_and_range(write).is_some_and(|(number, range)| number == end(range))
                });
            }
        }
    }
    for (speed, torque) in [(1, 0), (3_000, 50_000)] {
        occurs(1, "a speed at an end of its range", |write| {
            write.accepted() && write.numbers.speeds.numbers[..2].contains(&speed)
        });
        occurs(1, "a torque at an end of its range", |write| {
            write.accepted() && write.numbers.torques.numbers[..2].contains(&torque)
        });
    }
}

/// The refusal of a number at a place among those that have a range.
fn refusal_of_number(place: usize) -> Refusal {
    let (number, index) = match place {
        RATIO => (31, Some(0)),
        SENSORS.. => (32, Some((place - SENSORS) % 9)),
        _ => (4, None),
    };
    Refusal {
        number,
        place: 0,
        index,
    }
}

/// The first number outside its range, and its place, in a map with two speeds and two torques that is refused for a number.
fn first_outside(write: &Write) -> Option<(usize, u16)> {
    let refusal = write.answer.err()?;
    if write.counts() != (2, 2) || !matches!(refusal.number, 4 | 31 | 32) {
        return None;
    }
    let outside =
        |(_, (number, (low, high))): &(usize, (u16, (u16, u16)))| number < low || number > high;
    let (place, (number, _)) = write.ranged().into_iter().enumerate().find(outside)?;
    assert_eq!(refusal, refusal_of_number(place), "{:?}", write.numbers);
    Some((place, number))
}

#[test]
fn numbers_are_refused_just_outside_their_ranges() {
    for kind in 1..=3 {
        let found: BTreeSet<(usize, u16)> = writes(kind).filter_map(first_outside).collect();
        let mut due = vec![(LINE, 0), (LINE, 6), (RATIO, 999), (RATIO, 20_001)];
        due.extend(SPEEDS.map(|place| (place, 0)));
        due.extend(SPEEDS.map(|place| (place, 3_001)));
        due.extend(TORQUES.map(|place| (place, 50_001)));
        for sensor in 0..sensor_count(kind) {
            for (index, (lowest, highest)) in SENSOR_RANGES.into_iter().enumerate() {
                let place = SENSORS + 9 * sensor + index;
                due.push((place, highest + 1));
                due.extend(lowest.checked_sub(1).map(|below| (place, below)));
            }
        }
        due.retain(|outside| !found.contains(outside));
        assert_eq!(due, [], "kind {kind}");
    }
    for kind in [0, 4, 257] {
        occurs(kind, "4", |write| write.refused_with(4));
    }
}

#[test]
fn each_kind_has_each_of_its_refusals() {
    for number in WRITE_REFUSALS {
        for kind in 1..=3 {
            let of_measurement = matches!(number, 7..=10 | 32);
            if kind > 1 || !of_measurement {
                let what = format!("refusal {number}");
                occurs(kind, &what, |write| write.refused_with(number));
            }
        }
        occurs(3, &format!("refusal {number} and no room"), |write| {
            write.refused_with(number) && write.room == 0
        });
    }
}

#[test]
fn rooms_about_the_length() {
    for (kind, longest) in [(1, 211), (2, 16_640), (3, 24_853)] {
        for more in [0, 1] {
            occurs(kind, "just enough room", |write| {
                write.answer.is_ok_and(|length| write.room == length + more)
            });
        }
        for room in [|_| 0, |length: usize| length - 1] {
            occurs(kind, "too little room", |write| {
                let needed = write.answer.map_or_else(|refusal| refusal.place, |_| 0);
                write.refused_with(30) && write.room == room(needed)
            });
        }
        occurs(kind, "the longest file", |w| w.answer == Ok(longest));
    }
}

#[test]
fn counts_of_every_size() {
    for kind in 1..=3 {
        for count in [0, 1, 65, (1 << 32) + 2, 1 << 63, usize::MAX] {
            occurs(kind, "a wrong count of speeds", |write| {
                write.refused_with(3) && write.counts() == (count, 2)
            });
            occurs(kind, "a wrong count of torques", |write| {
                write.refused_with(3) && write.counts() == (2, count)
            });
        }
        occurs(kind, "33 speeds", |write| {
            write.refused_with(3) && write.counts() == (33, 2)
        });
    }
    for kind in [2, 3] {
        let sensors = sensor_count(kind);
        let right = 4 * sensors;
        for count in [0, right - sensors, right - 1, right + 1, right + sensors] {
            occurs(kind, &format!("{count} row torques"), |write| {
                let row_torques = write.numbers.row_torques.len();
                write.refused_with(3) && write.counts() == (2, 2) && row_torques == count
            });
        }
    }
}

/// Of a write refused with 7: which torque of its row is the first above its sensor, from 0, and by how much.
fn torque_above(write: &Write) -> Option<(usize, u32)> {
    if !write.refused_with(7) {
        return None;
    }
    let sensors = &write.numbers.sensors[..sensor_count(write.numbers.kind)];
    let torques = write.numbers.row_torques.iter().enumerate();
    let mut above = torques.filter_map(|(place, torque)| {
        let place = place % sensors.len();
        let above = torque.saturating_sub(100 * u32::from(sensors[place][0]));
        (above > 0).then_some((place, above))
    });
    above.next()
}

#[test]
fn each_torque_of_a_row_is_above_its_sensor() {
    for kind in [2, 3] {
        let found: BTreeSet<(usize, u32)> = writes(kind).filter_map(torque_above).collect();
        for place in 0..sensor_count(kind) {
            assert!(found.contains(&(place, 1)), "kind {kind}, torque {place}");
        }
    }
}

/// Whether some number of a sensor is outside its range.
fn is_no_sensor(numbers: &[u16; 9]) -> bool {
    let mut ranges = numbers.iter().zip(SENSOR_RANGES);
    ranges.any(|(number, (lowest, highest))| !(lowest..=highest).contains(number))
}

#[test]
fn what_is_not_looked_at_is_wrong() {
    occurs(1, "wrong sensors and rows", |write| {
        let HandedNumbers {
            sensors,
            row_torques,
            ..
        } = &write.numbers;
        write.accepted() && sensors.iter().all(is_no_sensor) && row_torques.contains(&u32::MAX)
    });
    occurs(1, "no row torques", |write| {
        write.accepted() && write.numbers.row_torques.is_empty()
    });
    occurs(2, "a wrong right sensor", |write| {
        write.accepted() && is_no_sensor(&write.numbers.sensors[2])
    });
    for kind in 1..=3 {
        for filling in [0, u16::MAX] {
            occurs(
                kind,
                "the same number in all places past the counts",
                |write| {
                    let mut axes = [&write.numbers.speeds, &write.numbers.torques].into_iter();
                    write.accepted()
                        && axes.all(|axis| axis.numbers[2..].iter().all(|n| *n == filling))
                },
            );
        }
    }
}

/// How many cases were stored before there were writes, before there were those of the allowances, and before those of the refused numbers. They keep their numbers.
const CASES_BEFORE_WRITES: usize = 4_942;
const CASES_BEFORE_ALLOWANCES: usize = 6_209;
const CASES_BEFORE_REFUSED_NUMBERS: usize = 6_446;

#[test]
fn writes_are_between_earlier_and_later_cases() {
    let cases = stored_cases();
    let earlier = cases.iter().take(CASES_BEFORE_REFUSED_NUMBERS);
    for (number, case) in earlier.enumerate() {
        let is_due = (CASES_BEFORE_WRITES..CASES_BEFORE_ALLOWANCES).contains(&number);
        assert_eq!(case.letter() == 'w', is_due, "case {number}");
    }
}

#[test]
fn every_build_is_written_again() {
    let mut seen = Seen::default();
    let mut again = 0;
    for case in stored_cases() {
        if let Case::Build { .. } = case {
            let text = String::from_utf8(reply(&case, &mut seen)).unwrap();
            let mut lines = text.lines();
            if lines.next() == Some("entries kept") {
                assert_eq!(lines.next(), Some("written again"));
                again += 1;
            }
        }
    }
    assert_eq!(again, seen.maps.values().sum::<u64>());
}
