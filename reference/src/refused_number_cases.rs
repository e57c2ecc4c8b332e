//! Cases of request C-14: ratios and sensor numbers outside their ranges, alone, in pairs and among other faults, each for the reader, the map program, the build and the writer.

use crate::cases::{Case, MOST_ENTRIES, MOST_TEXT};
use crate::component::measured_tags;
use crate::data::{range, Data, Field};
use crate::faults::{chance_number, with_length};
use crate::handed_numbers::{of_data, sensor_count};
use crate::random::Source;
use crate::valid;
use crate::write_cases::small_data;
use crate::writer::HandedNumbers;
use std::iter;

/// Changes the seed: the draws for these cases are none of those for others.
const SEQUENCE: u64 = 0xC2B2_AE3D_27D4_EB4F;

/// The random numbers for one case.
fn source_of(seed: u64, number: u64) -> Source {
    Source::new(seed ^ SEQUENCE, number)
}

/// The ratio or a number of a sensor: the tag of its field, and its index in the field.
#[derive(Clone, Copy)]
pub(crate) struct Place {
    pub(crate) tag: u8,
    pub(crate) index: usize,
}

const RATIO: Place = Place { tag: 3, index: 0 };

const LAST_INDEX: usize = 8;

impl Place {
    fn range(self) -> (u16, u16) {
        range(self.tag, self.index).expect("a number with a range")
    }

    /// Just below the range where that can be, just above it, above it with the last byte of its end, and the highest of two bytes.
    pub(crate) fn outside(self) -> Vec<u16> {
        let (lowest, highest) = self.range();
        let below = lowest.checked_sub(1);
        let above = [highest + 1, highest + 256, u16::MAX];
        below.into_iter().chain(above).collect()
    }

    /// Outside the range, just or anywhere.
    pub(crate) fn chance_outside(self, source: &mut Source) -> u16 {
        let (lowest, highest) = self.range();
        match source.below(3) {
            0 if lowest > 0 => source.below(lowest.into()) as u16,
            1 => source.between(u64::from(highest) + 1, u16::MAX.into()) as u16,
            _ => source.one_of(&self.outside()),
        }
    }

    /// The data with this number here.
    fn with(self, data: &Data, number: u16) -> Data {
        let mut changed = data.clone();
        changed.set_number(self.tag, self.index, number.into());
        changed
    }

    /// The data with a number here that is just outside the range.
    fn wrong(self, data: &Data) -> Data {
        self.with(data, self.outside()[0])
    }
}

/// The tags of the sensors that a kind has, the input's first.
fn sensor_tags(kind: u8) -> Vec<u8> {
    let tags = measured_tags(kind).into_iter();
    tags.flat_map(|tags| iter::once(6).chain(tags.outputs.iter().copied()))
        .collect()
}

/// All numbers of the sensors that a kind has, from left to right.
fn sensor_places(kind: u8) -> Vec<Place> {
    let places = |tag| (0..=LAST_INDEX).map(move |index| Place { tag, index });
    sensor_tags(kind).into_iter().flat_map(places).collect()
}

/// A case by chance; the number and the seed decide it.
pub fn by_chance(seed: u64, number: u64) -> Case {
    let source = &mut source_of(seed, number);
    let mut data = valid::data(source);
    for _ in 0..source.between(1, 2) {
        data = with_chance_number(source, &data);
    }
    if source.once_in(4) {
        let field = source.index(data.fields.len());
        chance_number(source, &mut data.fields[field]);
    }
    match source.below(4) {
        0 => Case::Read(data.bytes()),
        1 => Case::Program(data.bytes()),
        2 => built(&data, source.one_of(&[0, MOST_ENTRIES])),
        _ => Case::Write {
            room: source.one_of(&[0, MOST_TEXT]),
            numbers: of_data(source, &data),
        },
    }
}

/// The data with the ratio or a number of a sensor outside its range, just or anywhere.
fn with_chance_number(source: &mut Source, data: &Data) -> Data {
    let places = sensor_places(data.kind());
    let place = if places.is_empty() || source.once_in(8) {
        RATIO
    } else {
        source.one_of(&places)
    };
    let number = place.chance_outside(source);
    place.with(data, number)
}

fn built(data: &Data, entries: usize) -> Case {
    Case::Build {
        data: data.bytes(),
        entries,
        room: MOST_TEXT,
        questions: Vec::new(),
    }
}

fn written(numbers: HandedNumbers, room: usize) -> Case {
    Case::Write { numbers, room }
}

/// The cases that do not depend on chance alone, for each kind.
pub fn systematic(seed: u64) -> Vec<Case> {
    let source = &mut source_of(seed, u64::MAX);
    let mut cases = Vec::new();
    for kind in 1..=3 {
        let data = small_data(kind);
        let mut all = single_numbers(&data);
        all.extend(pairs(&data));
        all.extend(with_other_faults(&data));
        cases.extend(all.iter().flat_map(|data| in_each_way(source, data)));
        for bytes in wrong_sensor_fields(&data) {
            cases.push(Case::Read(bytes.clone()));
            cases.push(Case::of_data(bytes));
        }
        cases.extend(with_little_lent(source, &data));
        cases.extend(not_looked_at(source, kind));
    }
    cases
}

/// The data read, given to the map program and built, and its numbers written.
fn in_each_way(source: &mut Source, data: &Data) -> [Case; 4] {
    [
        Case::Read(data.bytes()),
        Case::Program(data.bytes()),
        built(data, MOST_ENTRIES),
        written(of_data(source, data), MOST_TEXT),
    ]
}

/// The ratio at both ends of its range, and each number outside its range.
fn single_numbers(data: &Data) -> Vec<Data> {
    let (lowest, highest) = RATIO.range();
    let mut all = [lowest, highest]
        .map(|ratio| RATIO.with(data, ratio))
        .to_vec();
    let places = iter::once(RATIO).chain(sensor_places(data.kind()));
    for place in places {
        let with = |number| place.with(data, number);
        all.extend(place.outside().into_iter().map(with));
    }
    all
}

/// Two wrong numbers: in one sensor, in two sensors, and the ratio with one of a sensor.
fn pairs(data: &Data) -> Vec<Data> {
    let tags = sensor_tags(data.kind());
    let mut pairs = Vec::new();
    for (number, tag) in tags.iter().enumerate() {
        let place = |index| Place { tag: *tag, index };
        pairs.extend((0..LAST_INDEX).map(|index| (place(index), place(index + 1))));
        pairs.push((place(0), place(LAST_INDEX)));
        pairs.extend([0, LAST_INDEX].map(|index| (RATIO, place(index))));
        for later_tag in &tags[number + 1..] {
            // Told by the order of the fields, whichever index is the lower one.
            for (index, later_index) in [(0, LAST_INDEX), (4, 4), (LAST_INDEX, 0)] {
                let later = Place {
                    tag: *later_tag,
                    index: later_index,
                };
                pairs.push((place(index), later));
            }
        }
    }
    let with = |(first, second): (Place, Place)| second.wrong(&first.wrong(data));
    pairs.into_iter().map(with).collect()
}

/// What else makes data wrong.
type Fault = fn(&mut Data);

/// Of the kind and of the line: 4.
const FAULTS_BEFORE_RATIO: [Fault; 6] = [
    |data| data.set_number(1, 0, 0),
    |data| data.set_number(1, 0, 4),
    |data| data.set_number(1, 0, 255),
    |data| data.set_number(2, 0, 0),
    |data| data.set_number(2, 0, 6),
    |data| data.set_number(2, 0, 255),
];

/// Of the speeds 4, 5 and 3, of the torques 4, 5, 6 and 3.
const FAULTS_BETWEEN: [Fault; 7] = [
    |data| data.set_number(4, 0, 0),
    |data| data.set_number(4, 1, data.numbers(4)[0]),
    |data| data.fields[3] = Field::of_numbers(4, &[100]),
    |data| data.set_number(5, 1, 50_001),
    |data| data.set_number(5, 1, data.numbers(5)[0]),
    |data| data.set_number(5, 0, data.numbers(5)[1] / 2 + 1),
    |data| data.fields[4] = Field::of_numbers(5, &[1]),
];

/// Of the rows: 3 for a torque too few and for none; of the first row 7, 8, 9 and 10.
const FAULTS_OF_ROWS: [Fault; 6] = [
    |data| shorten_rows(data, |length| length - 4),
    |data| shorten_rows(data, |_| 0),
    |data| rows(data).set_number(0, u32::MAX),
    |data| rows(data).set_number(1, 601),
    |data| rows(data).set_number(0, 0),
    |data| rows(data).set_number(0, 3_400_000),
];

/// Behind the rows: 12.
const FAULT_BEHIND: Fault = |data| data.rest = vec![0];

/// The last field of measured data.
fn rows(data: &mut Data) -> &mut Field {
    data.fields.last_mut().expect("a last field")
}

/// As many bytes of rows as are to be left of their length.
fn shorten_rows(data: &mut Data, left: fn(usize) -> usize) {
    let rows = rows(data);
    let length = left(rows.body.len());
    *rows = Field::new(rows.tag, rows.body[..length].to_vec());
}

/// Each other fault with a wrong ratio, with a wrong number of each sensor, and between them with both.
fn with_other_faults(data: &Data) -> Vec<Data> {
    let mut all = Vec::new();
    let wrong = with_one_wrong_number(data);
    for fault in other_faults(data.kind()) {
        all.extend(wrong.iter().map(|data| changed(data, fault)));
    }
    for tag in sensor_tags(data.kind()).into_iter().take(1) {
        let both = RATIO.wrong(&Place { tag, index: 0 }.wrong(data));
        all.extend(FAULTS_BETWEEN.map(|fault| changed(&both, fault)));
    }
    all
}

/// A wrong ratio; and a wrong number of each sensor, of the input the last, of the output the fifth, of the right sensor the first.
fn with_one_wrong_number(data: &Data) -> Vec<Data> {
    let sensors = sensor_tags(data.kind()).into_iter().zip([LAST_INDEX, 4, 0]);
    let places = sensors.map(|(tag, index)| Place { tag, index });
    let places = iter::once(RATIO).chain(places);
    places.map(|place| place.wrong(data)).collect()
}

fn other_faults(kind: u8) -> Vec<Fault> {
    let mut faults = [&FAULTS_BEFORE_RATIO[..], &FAULTS_BETWEEN].concat();
    if measured_tags(kind).is_some() {
        faults.extend(FAULTS_OF_ROWS);
    }
    faults.push(FAULT_BEHIND);
    faults
}

fn changed(data: &Data, fault: Fault) -> Data {
    let mut changed = data.clone();
    fault(&mut changed);
    changed
}

/// The field of each sensor with another length, with another tag, or cut off, and with its first or its last number wrong.
fn wrong_sensor_fields(data: &Data) -> Vec<Vec<u8>> {
    let mut all = Vec::new();
    for (number, field) in data.fields.iter().enumerate() {
        if !sensor_tags(data.kind()).contains(&field.tag) {
            continue;
        }
        for index in [0, LAST_INDEX] {
            let tag = field.tag;
            let data = Place { tag, index }.wrong(data);
            let lengths = [0, 16, 17, 19, 20, u16::MAX];
            all.extend(lengths.map(|length| with_length(&data, number, length)));
            all.extend([tag - 1, tag + 1].map(|other| with_tag(&data, number, other)));
            all.extend([2, 17].map(|kept| cut_in_body(&data, number, kept)));
        }
    }
    all
}

fn with_tag(data: &Data, field: usize, tag: u8) -> Vec<u8> {
    let mut changed = data.clone();
    changed.fields[field].tag = tag;
    changed.bytes()
}

/// The data up to so many bytes of a field's body.
fn cut_in_body(data: &Data, field: usize, kept: usize) -> Vec<u8> {
    let before = data.fields[..field]
        .iter()
        .map(|field| 3 + field.body.len());
    let body = before.sum::<usize>() + 3;
    data.bytes()[..body + kept].to_vec()
}

/// Too few entries for the map and too little room for the file, where a number is wrong and where none is.
fn with_little_lent(source: &mut Source, data: &Data) -> Vec<Case> {
    let length = data.bytes().len();
    let mut cases = Vec::new();
    for data in iter::once(data.clone()).chain(with_one_wrong_number(data)) {
        cases.extend([0, 3].map(|entries| built(&data, entries)));
        cases.extend([0, length - 1].map(|room| written(of_data(source, &data), room)));
    }
    cases
}

/// Each number wrong of the sensors that a kind does not have, and all of them.
fn not_looked_at(source: &mut Source, kind: u8) -> Vec<Case> {
    let mut right = of_data(source, &small_data(kind));
    right.sensors = of_data(source, &small_data(3)).sensors;
    let mut all = Vec::new();
    for sensor in sensor_count(right.kind)..3 {
        let numbers = right.sensors[sensor];
        let mut wrong = vec![[0; 9], [u16::MAX; 9]];
        for place in &sensor_places(3)[9 * sensor..][..9] {
            let mut numbers = numbers;
            numbers[place.index] = place.outside()[0];
            wrong.push(numbers);
        }
        all.extend(wrong.into_iter().map(|numbers| {
            let mut handed = right.clone();
            handed.sensors[sensor] = numbers;
            written(handed, MOST_TEXT)
        }));
    }
    all
}
