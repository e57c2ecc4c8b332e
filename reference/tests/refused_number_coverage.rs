//! The stored cases of request C-14 have what they must have: each ratio and sensor number outside its range, alone and among other faults, for each way to hand it over; and each answer is that of the first fault, with its index.

use reference::cases::Case;
use reference::component;
use reference::data::SENSOR_RANGES;
use reference::handed_numbers::sensor_count;
use reference::listing::MOST_ENTRIES;
use reference::map;
use reference::refusal::Refusal;
use reference::reply::{reply, Seen};
use reference::stored::stored_cases;
use reference::writer::{write, HandedNumbers};
use std::collections::{BTreeMap, BTreeSet};
use std::sync::LazyLock;

/// How many cases were stored before those of this request.
const EARLIER_CASES: usize = 6_446;

/// Data read, data for the map program, data built, and numbers handed to the writer.
const LETTERS: [char; 4] = ['r', 'p', 'b', 'w'];

/// The tags of the input sensor, the output sensor and the right sensor.
const SENSOR_TAGS: [u8; 3] = [6, 7, 9];

/// What is wrong, in the order of the tests: first 4 of kind and line and 31, then 3 to 5 of the speeds and 3 to 6 of the torques, then 32, then 3 of the rows.
#[derive(Clone, Copy, PartialEq, Eq, PartialOrd, Ord, Debug)]
enum Fault {
    Kind,
    Line,
    Ratio,
    Speeds(u8),
    Torques(u8),
    Sensor { sensor: usize, index: usize },
    RowCount,
    BytesBehind,
}

impl Fault {
    /// How it is refused: the number and the index.
    fn told(self) -> (u8, Option<usize>) {
        match self {
            Fault::Kind | Fault::Line => (4, None),
            Fault::Ratio => (31, Some(0)),
            Fault::Speeds(number) | Fault::Torques(number) => (number, None),
            Fault::Sensor { index, .. } => (32, Some(index)),
            Fault::RowCount => (3, None),
            Fault::BytesBehind => (12, None),
        }
    }
}

const AXIS_FAULTS: [Fault; 7] = [
    Fault::Speeds(3),
    Fault::Speeds(4),
    Fault::Speeds(5),
    Fault::Torques(3),
    Fault::Torques(4),
    Fault::Torques(5),
    Fault::Torques(6),
];

/// What a stored case hands over, right or wrong, where it has all fields of a kind.
struct Handed {
    letter: char,
    kind: u16,
    line: u16,
    ratio: u16,
    speeds: Vec<u16>,
    torques: Vec<u16>,
    /// Those that the kind has.
    sensors: Vec<[u16; 9]>,
    row_torques: Vec<u32>,
    bytes_behind: usize,
    /// Entries for a map, bytes for a file.
    lent: usize,
    answer: Result<(), Refusal>,
}

fn two_byte_numbers(body: &[u8]) -> Vec<u16> {
    let pairs = body.chunks_exact(2);
    pairs.map(|b| u16::from_be_bytes([b[0], b[1]])).collect()
}

/// The body of the field with this tag, which is taken off the front of the data.
fn take_field<'data>(data: &mut &'data [u8], tag: u8) -> Option<&'data [u8]> {
    let (head, behind) = data.split_at_checked(3)?;
    let length = usize::from(u16::from_be_bytes([head[1], head[2]]));
    let (body, rest) = behind.split_at_checked(length)?;
    if head[0] != tag {
        return None;
    }
    *data = rest;
    Some(body)
}

/// The sensors and the row torques at the front of the data, none in standard data.
fn take_measurement(data: &mut &[u8]) -> Option<(Vec<[u16; 9]>, Vec<u32>)> {
    let (mut sensors, mut row_torques) = (Vec::new(), Vec::new());
    for tag in SENSOR_TAGS {
        if let Some(body) = take_field(data, tag) {
            sensors.push(two_byte_numbers(body).try_into().ok()?);
        }
    }
    if !sensors.is_empty() {
        let tag = if sensors.len() == 2 { 8 } else { 10 };
        let torques = take_field(data, tag)?.chunks_exact(4);
        row_torques = torques
            .map(|b| u32::from_be_bytes([b[0], b[1], b[2], b[3]]))
            .collect();
    }
    Some((sensors, row_torques))
}

impl Handed {
    fn of(case: &Case) -> Option<Handed> {
        match case {
            Case::Read(data) => Handed::of_data('r', data, 0, component::read(data).map(|_| ())),
            Case::Program(data) => {
                let answer = map::build(data, MOST_ENTRIES).map(|_| ());
                Handed::of_data('p', data, MOST_ENTRIES, answer)
            }
            Case::Build { data, entries, .. } => {
                let answer = map::build(data, *entries).map(|_| ());
                Handed::of_data('b', data, *entries, answer)
            }
            Case::Write { numbers, room } => Some(Handed::of_numbers(numbers, *room)),
            Case::Map { .. }
            | Case::Steps { .. }
            | Case::Load { .. }
            | Case::Drag(_)
            | Case::Losses { .. } => None,
        }
    }

    fn of_data(
        letter: char,
        data: &[u8],
        lent: usize,
        answer: Result<(), Refusal>,
    ) -> Option<Handed> {
        let rest = &mut &data[..];
        let [kind, line] = [1, 2].map(|tag| take_field(rest, tag));
        let (&[kind], &[line]) = (kind?, line?) else {
            return None;
        };
        let [ratio, speeds, torques] = [3, 4, 5].map(|tag| take_field(rest, tag));
        let &[ratio] = two_byte_numbers(ratio?).as_slice() else {
            return None;
        };
        let (sensors, row_torques) = take_measurement(rest)?;
        // Another kind's fields would have other refusals.
        let is_of_kind = sensor_count(kind.into()) == sensors.len() || kind == 0 || kind > 3;
        is_of_kind.then_some(Handed {
            letter,
            kind: kind.into(),
            line: line.into(),
            ratio,
            speeds: two_byte_numbers(speeds?),
            torques: two_byte_numbers(torques?),
            sensors,
            row_torques,
            bytes_behind: rest.len(),
            lent,
            answer,
        })
    }

    fn of_numbers(numbers: &HandedNumbers, room: usize) -> Handed {
        Handed {
            letter: 'w',
            kind: numbers.kind,
            line: numbers.line,
            ratio: numbers.ratio,
            speeds: numbers.speeds.numbers[..numbers.speeds.count].to_vec(),
            torques: numbers.torques.numbers[..numbers.torques.count].to_vec(),
            sensors: numbers.sensors[..sensor_count(numbers.kind)].to_vec(),
            row_torques: numbers.row_torques.clone(),
            bytes_behind: 0,
            lent: room,
            answer: write(numbers, &mut vec![0; room]).map(|_| ()),
        }
    }

    /// All that is wrong, the first to be told first.
    fn faults(&self) -> Vec<Fault> {
        let torques = axis_fault(&self.torques, 64, 0, 50_000);
        let torques = torques.or_else(|| first_step_fault(&self.torques));
        let before_sensors = [
            (!(1..=3).contains(&self.kind)).then_some(Fault::Kind),
            (!(1..=5).contains(&self.line)).then_some(Fault::Line),
            (!(1_000..=20_000).contains(&self.ratio)).then_some(Fault::Ratio),
            axis_fault(&self.speeds, 32, 1, 3_000).map(Fault::Speeds),
            torques.map(Fault::Torques),
        ];
        let behind_sensors = [
            self.has_other_row_count().then_some(Fault::RowCount),
            (self.bytes_behind > 0).then_some(Fault::BytesBehind),
        ];
        let mut faults: Vec<Fault> = before_sensors.into_iter().flatten().collect();
        for (sensor, numbers) in self.sensors.iter().enumerate() {
            let wrong = wrong_indices(numbers).into_iter();
            faults.extend(wrong.map(|index| sensor_fault(sensor, index)));
        }
        faults.extend(behind_sensors.into_iter().flatten());
        faults
    }

    /// Whether measured data has another count of row torques than its axes ask for.
    fn has_other_row_count(&self) -> bool {
        let due = self.sensors.len() * self.speeds.len() * self.torques.len();
        !self.sensors.is_empty() && self.row_torques.len() != due
    }

    /// Where the ratio or a number of a sensor is, in data whose axes are right.
    fn place(&self, fault: Fault) -> usize {
        let axis_numbers = self.speeds.len() + self.torques.len();
        match fault {
            _ if self.letter == 'w' => 0,
            Fault::Sensor { sensor, index } => 22 + 2 * axis_numbers + 21 * sensor + 2 * index,
            _ => 11,
        }
    }

    /// Whether the first row alone is refused so, whatever the sensors are.
    fn first_row_is_refused_with(&self, number: u8) -> bool {
        let sensors = self.sensors.len();
        if sensors == 0 || self.row_torques.len() < sensors {
            return false;
        }
        let torques: Vec<u64> = self.row_torques.iter().copied().map(u64::from).collect();
        let (input, output) = (torques[0], torques[1..sensors].iter().sum::<u64>());
        let at_wheel = input * u64::from(self.ratio);
        let faults = [
            (7, input > 5_000_000),
            (8, output.abs_diff(100 * u64::from(self.torques[0])) > 500),
            (9, at_wheel < 1_000 * output),
            (10, at_wheel > 1_000 * output + 10_000_000_000),
        ];
        let first = faults.into_iter().find(|(_, is_so)| *is_so);
        first == Some((number, true))
    }
}

/// The refusal of an axis with at most so many numbers, each between these, if it has one.
fn axis_fault(numbers: &[u16], most: usize, lowest: u16, highest: u16) -> Option<u8> {
    if !(2..=most).contains(&numbers.len()) {
        return Some(3);
    }
    let mut before = None;
    for number in numbers {
        if !(lowest..=highest).contains(number) {
            return Some(4);
        }
        if before >= Some(number) {
            return Some(5);
        }
        before = Some(number);
    }
    None
}

fn first_step_fault(torques: &[u16]) -> Option<u8> {
    (2 * u32::from(torques[0]) > u32::from(torques[1])).then_some(6)
}

/// The cases of this request, each with its faults.
static CASES: LazyLock<Vec<(Handed, Vec<Fault>)>> = LazyLock::new(|| {
    let cases = stored_cases().into_iter().skip(EARLIER_CASES);
    let handed = cases.filter_map(|case| Handed::of(&case));
    let with_faults = handed.map(|handed| {
        let faults = handed.faults();
        (handed, faults)
    });
    with_faults.collect()
});

/// A case with this letter and of this kind, with these faults and no others, for which this holds.
fn occurs(letter: char, kind: u16, due: &[Fault], what: &str, holds: impl Fn(&Handed) -> bool) {
    let found = CASES.iter().any(|(handed, faults)| {
        // A wrong kind has no number of its own here.
        let is_of_kind = handed.kind == kind || faults.first() == Some(&Fault::Kind);
        handed.letter == letter && is_of_kind && faults == due && holds(handed)
    });
    assert!(found, "letter {letter}, kind {kind}, {due:?}, {what}");
}

/// Whether a case is refused for this fault.
fn refused_for(handed: &Handed, fault: Fault) -> bool {
    let told = |refusal: Refusal| (refusal.number, refusal.index);
    handed.answer.map_err(told) == Err(fault.told())
}

/// A case with these faults that is refused for the first of them.
fn refused_for_first(letter: char, kind: u16, faults: &[Fault]) {
    let holds = |handed: &Handed| refused_for(handed, faults[0]);
    occurs(letter, kind, faults, "refused for the first", holds);
}

fn sensor_fault(sensor: usize, index: usize) -> Fault {
    Fault::Sensor { sensor, index }
}

/// A wrong ratio, and one wrong number of each sensor of a kind: what the cases with other faults have.
fn wrong_numbers(kind: u16) -> Vec<Fault> {
    let indices = [8, 4, 0].into_iter().enumerate().take(sensor_count(kind));
    let of_sensors = indices.map(|(sensor, index)| sensor_fault(sensor, index));
    [Fault::Ratio].into_iter().chain(of_sensors).collect()
}

/// Faults in the order of the tests, with that of the rows where another count of an axis makes it.
fn with_row_count(kind: u16, faults: &[Fault]) -> Vec<Fault> {
    let other_axis_count = [Fault::Speeds(3), Fault::Torques(3)];
    let comes = kind > 1 && faults.iter().any(|fault| other_axis_count.contains(fault));
    let row_count = comes.then_some(Fault::RowCount);
    faults.iter().copied().chain(row_count).collect()
}

/// Each letter with each of these kinds.
fn letters_and_kinds(kinds: &[u16]) -> Vec<(char, u16)> {
    let with_kinds = |letter| kinds.iter().map(move |kind| (letter, *kind));
    LETTERS.into_iter().flat_map(with_kinds).collect()
}

#[test]
fn each_answer_is_that_of_the_first_fault() {
    let mut counts = BTreeMap::new();
    for (handed, faults) in CASES.iter() {
        let Some(first) = faults.first() else {
            continue;
        };
        let (letter, answer) = (handed.letter, handed.answer);
        assert!(
            refused_for(handed, *first),
            "{letter} {faults:?} {answer:?}"
        );
        if matches!(first, Fault::Ratio | Fault::Sensor { .. }) {
            let place = answer.map_err(|refusal| refusal.place);
            assert_eq!(place, Err(handed.place(*first)), "{letter} {faults:?}");
        }
        let (number, _) = first.told();
        *counts.entry((letter, number)).or_insert(0) += 1;
    }
    for letter in LETTERS {
        for number in [4, 31, 32] {
            let count = counts.get(&(letter, number)).copied().unwrap_or(0);
            assert!(count >= 20, "letter {letter}, {number}: {count}");
        }
    }
}

#[test]
fn each_number_of_each_sensor_is_refused_alone() {
    for (letter, kind) in letters_and_kinds(&[2, 3]) {
        for sensor in 0..sensor_count(kind) {
            for index in 0..9 {
                expect_refused_outside(letter, kind, sensor, index);
            }
        }
    }
}

/// Just below the range where that can be, just above it, and with the highest number of two bytes; in data of two speeds and two torques.
fn expect_refused_outside(letter: char, kind: u16, sensor: usize, index: usize) {
    let place = match letter {
        'w' => 0,
        _ => 30 + 21 * sensor + 2 * index,
    };
    let refusal = Refusal {
        number: 32,
        place,
        index: Some(index),
    };
    let (lowest, highest) = SENSOR_RANGES[index];
    let below = lowest.checked_sub(1);
    for wrong in below.into_iter().chain([highest + 1, u16::MAX]) {
        let faults = [sensor_fault(sensor, index)];
        occurs(letter, kind, &faults, &wrong.to_string(), |handed| {
            handed.sensors[sensor][index] == wrong && handed.answer == Err(refusal)
        });
    }
}

/// Those by chance: the others have two speeds and two torques.
#[test]
fn numbers_are_refused_behind_longer_axes() {
    for letter in LETTERS {
        let longer = CASES.iter().filter(|(handed, _)| {
            let axis_numbers = handed.speeds.len() + handed.torques.len();
            handed.letter == letter && axis_numbers > 4
        });
        let refusals: Vec<Refusal> = longer.filter_map(|(h, _)| h.answer.err()).collect();
        for number in [31, 32] {
            let count = refusals.iter().filter(|r| r.number == number).count();
            assert!(count >= 10, "letter {letter}, {number}: {count}");
        }
    }
}

#[test]
fn ratios_at_both_ends_and_beyond() {
    for (letter, kind) in letters_and_kinds(&[1, 2, 3]) {
        let refusal = Refusal {
            number: 31,
            place: if letter == 'w' { 0 } else { 11 },
            index: Some(0),
        };
        for ratio in [999, 20_001, u16::MAX] {
            let what = ratio.to_string();
            occurs(letter, kind, &[Fault::Ratio], &what, |handed| {
                handed.ratio == ratio && handed.answer == Err(refusal)
            });
        }
        for ratio in [1_000, 20_000] {
            occurs(letter, kind, &[], &ratio.to_string(), |handed| {
                handed.ratio == ratio && handed.answer.is_ok()
            });
        }
    }
}

#[test]
fn of_two_numbers_the_first_is_told() {
    for (letter, kind) in letters_and_kinds(&[2, 3]) {
        for pair in pairs_of_numbers(sensor_count(kind)) {
            refused_for_first(letter, kind, &pair);
        }
    }
}

/// In one sensor, in two, and the ratio with one of a sensor.
fn pairs_of_numbers(sensor_count: usize) -> Vec<[Fault; 2]> {
    let mut pairs = Vec::new();
    for sensor in 0..sensor_count {
        let number = |index| sensor_fault(sensor, index);
        pairs.extend((0..8).map(|index| [number(index), number(index + 1)]));
        pairs.push([number(0), number(8)]);
        pairs.extend([0, 8].map(|index| [Fault::Ratio, number(index)]));
        for later in sensor + 1..sensor_count {
            let indices = [(0, 8), (4, 4), (8, 0)];
            let pair = |(index, of_later)| [number(index), sensor_fault(later, of_later)];
            pairs.extend(indices.map(pair));
        }
    }
    pairs
}

#[test]
fn faults_before_a_wrong_number() {
    for (letter, kind) in letters_and_kinds(&[1, 2, 3]) {
        refused_for_first(letter, kind, &[Fault::Kind, Fault::Ratio]);
        for wrong in wrong_numbers(kind) {
            refused_for_first(letter, kind, &[Fault::Line, wrong]);
        }
        for wrong in &wrong_numbers(kind)[1..] {
            for axis in AXIS_FAULTS {
                let faults = with_row_count(kind, &[axis, *wrong]);
                refused_for_first(letter, kind, &faults);
            }
        }
    }
}

#[test]
fn faults_behind_a_wrong_number() {
    for (letter, kind) in letters_and_kinds(&[1, 2, 3]) {
        for axis in AXIS_FAULTS {
            let faults = with_row_count(kind, &[Fault::Ratio, axis]);
            refused_for_first(letter, kind, &faults);
            if kind > 1 {
                let both = [Fault::Ratio, axis, sensor_fault(0, 0)];
                refused_for_first(letter, kind, &with_row_count(kind, &both));
            }
        }
        for wrong in wrong_numbers(kind) {
            if kind > 1 {
                refused_for_first(letter, kind, &[wrong, Fault::RowCount]);
            }
            if letter != 'w' {
                refused_for_first(letter, kind, &[wrong, Fault::BytesBehind]);
            }
        }
    }
}

#[test]
fn rows_behind_a_wrong_number() {
    for (letter, kind) in letters_and_kinds(&[2, 3]) {
        for wrong in wrong_numbers(kind) {
            for number in 7..=10 {
                // At a wrong ratio no loss is above the largest entry.
                if wrong == Fault::Ratio && number == 10 {
                    continue;
                }
                let what = format!("{number} of the first row");
                occurs(letter, kind, &[wrong], &what, |handed| {
                    handed.first_row_is_refused_with(number) && refused_for(handed, wrong)
                });
            }
        }
    }
}

/// Bytes of a file with two speeds and two torques, for each kind.
const FILE_LENGTHS: [(u16, usize); 3] = [(1, 27), (2, 104), (3, 141)];

#[test]
fn a_wrong_number_comes_before_what_is_lent() {
    for (kind, length) in FILE_LENGTHS {
        for (letter, lent, number) in [
            ('b', 0, 11),
            ('b', 3, 11),
            ('w', 0, 30),
            ('w', length - 1, 30),
        ] {
            let what = format!("{lent} lent");
            for wrong in wrong_numbers(kind) {
                occurs(letter, kind, &[wrong], &what, |handed| {
                    handed.lent == lent && refused_for(handed, wrong)
                });
            }
            // So without a wrong number.
            occurs(letter, kind, &[], &what, |handed| {
                let told = handed.answer.is_err_and(|refusal| refusal.number == number);
                handed.lent == lent && told
            });
        }
    }
}

/// What is left of data from the field of a sensor on, of two speeds and two torques.
fn from_sensor_on(data: &[u8], sensor: usize) -> &[u8] {
    data.get(27 + 21 * sensor..).unwrap_or(&[])
}

/// Whether the number with this index is in what is left of a sensor's field, and outside its range.
fn is_wrong_at(field: &[u8], index: usize) -> bool {
    let (lowest, highest) = SENSOR_RANGES[index];
    let numbers = two_byte_numbers(field.get(3..).unwrap_or(&[]));
    let number = numbers.get(index);
    number.is_some_and(|number| !(lowest..=highest).contains(number))
}

/// Data of a kind that is read or built, and how it is refused when it is read.
fn data_and_refusal(case: &Case, kind: u16) -> Option<(&[u8], Refusal)> {
    let (Case::Read(data) | Case::Build { data, .. }) = case else {
        return None;
    };
    let refusal = component::read(data).err()?;
    (u16::from(data[3]) == kind).then_some((data, refusal))
}

#[test]
fn the_head_and_the_extent_of_a_sensor_come_before_its_numbers() {
    let cases: Vec<Case> = stored_cases().into_iter().skip(EARLIER_CASES).collect();
    let found = |letter: char, kind: u16, sensor: usize, number: u8, index: usize| {
        let due = Refusal {
            number,
            place: 27 + 21 * sensor,
            index: None,
        };
        let of_letter = cases.iter().filter(|case| case.letter() == letter);
        of_letter
            .filter_map(|case| data_and_refusal(case, kind))
            .any(|(data, refusal)| {
                refusal == due && is_wrong_at(from_sensor_on(data, sensor), index)
            })
    };
    for (letter, kind) in [('r', 2), ('r', 3), ('b', 2), ('b', 3)] {
        for sensor in 0..sensor_count(kind) {
            // A field whose last number is there is not cut off.
            for (number, index) in [(1, 0), (2, 0), (2, 8), (3, 0), (3, 8)] {
                let what = format!("{letter}, kind {kind}, sensor {sensor}, {number}, {index}");
                assert!(found(letter, kind, sensor, number, index), "{what}");
            }
        }
    }
}

/// The indices of a sensor's numbers that are outside their ranges.
fn wrong_indices(numbers: &[u16; 9]) -> Vec<usize> {
    let ranges = SENSOR_RANGES.into_iter().zip(numbers).enumerate();
    let wrong = ranges.filter(|(_, ((lowest, highest), n))| !(lowest..=highest).contains(n));
    wrong.map(|(index, _)| index).collect()
}

#[test]
fn wrong_sensors_that_a_kind_does_not_have_are_written() {
    let mut found = BTreeSet::new();
    for case in stored_cases().iter().skip(EARLIER_CASES) {
        let Case::Write { numbers, room } = case else {
            continue;
        };
        if write(numbers, &mut vec![0; *room]).is_ok() {
            for sensor in sensor_count(numbers.kind)..3 {
                let wrong = wrong_indices(&numbers.sensors[sensor]);
                found.insert((numbers.kind, sensor, wrong));
            }
        }
    }
    for (kind, sensor) in [(1, 0), (1, 1), (1, 2), (2, 2)] {
        for index in 0..9 {
            let alone = (kind, sensor, vec![index]);
            assert!(found.contains(&alone), "{alone:?}");
        }
        let all = (kind, sensor, (0..9).collect());
        assert!(found.contains(&all), "{all:?}");
    }
}

/// The first line of an answer.
fn first_line(case: &Case) -> String {
    let answer = reply(case, &mut Seen::default());
    let text = String::from_utf8(answer).expect("an answer is ASCII");
    text.lines().next().expect("a line").to_string()
}

/// Of an answer's line that tells 31 or 32: which of them, and whether it tells the index.
fn number_and_index_told(line: &str) -> Option<(u8, bool)> {
    match line.split(' ').collect::<Vec<_>>()[..] {
        ["refused", number @ ("31" | "32"), "at", _] => Some((number.parse().unwrap(), false)),
        ["refused", number @ ("31" | "32"), "at", _, "number", _] => {
            Some((number.parse().unwrap(), true))
        }
        _ => None,
    }
}

#[test]
fn the_index_is_told_by_all_but_the_map_program() {
    let mut counts = BTreeMap::new();
    for case in &stored_cases() {
        let line = first_line(case);
        let Some((number, is_index_told)) = number_and_index_told(&line) else {
            assert!(!line.contains("number"), "{line}");
            continue;
        };
        assert_eq!(is_index_told, case.letter() != 'p', "{line}");
        *counts.entry((case.letter(), number)).or_insert(0) += 1;
    }
    // Steps have no ratio.
    let due = LETTERS.len() * [31, 32].len() + 1;
    assert_eq!(counts.len(), due, "{counts:?}");
    assert!(counts.values().all(|count| *count >= 20), "{counts:?}");
}
