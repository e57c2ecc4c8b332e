//! Cases for the program `vectors`: what is lent and asked, its bytes, and the sequences of cases.

use crate::data::Data;
use crate::lent_maps::{self, BREAKS};
use crate::listing::listing;
use crate::lookup::{Axis, LentMap};
use crate::map;
use crate::questions::{questions, Question};
use crate::random::Source;
use crate::retarder::RetarderNumbers;
use crate::writer::HandedNumbers;
use crate::{faults, valid};

pub use crate::listing::MOST_ENTRIES;

pub const MOST_TEXT: usize = 65_536;

pub enum Case {
    /// Data read into numbers.
    Read(Vec<u8>),
    /// What the map program writes for data.
    Program(Vec<u8>),
    /// A map built of data in so many lent entries, listed in so many lent bytes, and asked.
    Build {
        data: Vec<u8>,
        entries: usize,
        room: usize,
        questions: Vec<Question>,
    },
    /// A lent map, listed in so many lent bytes, and asked.
    Map {
        map: LentMap,
        room: usize,
        questions: Vec<Question>,
    },
    /// Numbers written as component data into so many lent bytes.
    Write { numbers: HandedNumbers, room: usize },
    /// The steps of a sensor's uncertainty, asked for its nine numbers and its torque in hundredths of Nm.
    Steps { sensor: [u16; 9], torque: u32 },
    /// A listing loaded into so many lent entries.
    Load { text: Vec<u8>, entries: usize },
    /// The drag of a retarder, asked for its numbers.
    Drag(RetarderNumbers),
    /// A lent map asked at most 255 questions in one call, with room for so many losses, at most 256.
    Losses {
        map: LentMap,
        room: usize,
        questions: Vec<Question>,
    },
}

impl Case {
    pub fn letter(&self) -> char {
        match self {
            Case::Read(_) => 'r',
            Case::Program(_) => 'p',
            Case::Build { .. } => 'b',
            Case::Map { .. } => 'm',
            Case::Write { .. } => 'w',
            Case::Steps { .. } => 's',
            Case::Load { .. } => 'l',
            Case::Drag(_) => 'd',
            Case::Losses { .. } => 'a',
        }
    }

    /// A build of data with all that can be lent.
    pub fn of_data(data: Vec<u8>) -> Case {
        Case::Build {
            data,
            entries: MOST_ENTRIES,
            room: MOST_TEXT,
            questions: Vec::new(),
        }
    }

    /// The case's bytes as `crates/vectors/src/main.rt` describes them.
    pub fn bytes(&self) -> Vec<u8> {
        let (entries, room, body, questions): (usize, usize, Vec<u8>, &[Question]) = match self {
            Case::Read(data) | Case::Program(data) => (0, 0, data.clone(), &[]),
            Case::Build {
                data,
                entries,
                room,
                questions,
            } => (*entries, *room, data.clone(), questions),
            Case::Map {
                map,
                room,
                questions,
            }
            | Case::Losses {
                map,
                room,
                questions,
            } => (map.entries.len(), *room, map_bytes(map), questions),
            Case::Write { numbers, room } => (0, *room, handed_bytes(numbers), &[]),
            Case::Steps { sensor, torque } => (0, 0, steps_bytes(sensor, *torque), &[]),
            Case::Load { text, entries } => (*entries, 0, text.clone(), &[]),
            Case::Drag(numbers) => (0, 0, drag_bytes(numbers), &[]),
        };
        let mut bytes = vec![self.letter() as u8];
        bytes.extend((entries as u16).to_be_bytes());
        bytes.extend((room as u32).to_be_bytes());
        bytes.extend((body.len() as u32).to_be_bytes());
        bytes.push(questions.len() as u8);
        bytes.extend(body);
        for question in questions {
            bytes.extend(question.speed.to_be_bytes());
            bytes.extend(question.torque.to_be_bytes());
        }
        bytes
    }
}

fn map_bytes(map: &LentMap) -> Vec<u8> {
    let mut bytes = axes_bytes(&map.speeds, &map.torques);
    bytes.extend(map.entries.iter().flat_map(|entry| entry.to_be_bytes()));
    bytes
}

/// Both counts, then all places of both axes.
fn axes_bytes(speeds: &Axis, torques: &Axis) -> Vec<u8> {
    let counts = [speeds.count as u64, torques.count as u64];
    let mut bytes = counts.map(u64::to_be_bytes).concat();
    for number in speeds.numbers.iter().chain(&torques.numbers) {
        bytes.extend(number.to_be_bytes());
    }
    bytes
}

/// Kind, line and ratio, the axes, the sensors and the row torques.
fn handed_bytes(numbers: &HandedNumbers) -> Vec<u8> {
    let first = [numbers.kind, numbers.line, numbers.ratio];
    let mut bytes = first.map(u16::to_be_bytes).concat();
    bytes.extend(axes_bytes(&numbers.speeds, &numbers.torques));
    for number in numbers.sensors.as_flattened() {
        bytes.extend(number.to_be_bytes());
    }
    for torque in &numbers.row_torques {
        bytes.extend(torque.to_be_bytes());
    }
    bytes
}

/// The sensor's numbers, then the torque.
fn steps_bytes(sensor: &[u16; 9], torque: u32) -> Vec<u8> {
    let mut bytes = sensor.map(u16::to_be_bytes).concat();
    bytes.extend(torque.to_be_bytes());
    bytes
}

/// Ratio and speed, how many readings there are, the readings, then the bearing losses.
fn drag_bytes(numbers: &RetarderNumbers) -> Vec<u8> {
    let first = [numbers.ratio, numbers.speed, numbers.readings.len() as u32];
    let behind = numbers.readings.iter().chain(&numbers.bearing_losses);
    let all = first.iter().chain(behind);
    all.flat_map(|number| number.to_be_bytes()).collect()
}

/// Lent bytes for a listing or a file: most often enough, else just enough, just too few, or any number.
pub fn room_for(source: &mut Source, needed: usize) -> usize {
    match source.below(12) {
        0 => needed,
        1 => needed - 1,
        2 => source.index(needed),
        _ => MOST_TEXT,
    }
}

/// A build of valid data with questions to its map.
pub fn asked_build(source: &mut Source, data: &Data, question_count: usize) -> Case {
    let bytes = data.bytes();
    let Ok(map) = map::build(&bytes, MOST_ENTRIES) else {
        return Case::of_data(bytes);
    };
    let count = map.entries.len();
    let lent = LentMap::of(&map, map.entries.clone());
    let needed = listing(&lent, usize::MAX).map_or(1, |text| text.len());
    let entries = match source.below(12) {
        0 => count,
        1 => count - 1,
        2 => source.index(count),
        _ => MOST_ENTRIES,
    };
    Case::Build {
        data: bytes,
        entries,
        room: room_for(source, needed),
        questions: questions(source, &map.speeds, &map.torques, question_count),
    }
}

fn asked_map(source: &mut Source, map: LentMap) -> Case {
    let needed = listing(&map, usize::MAX).map_or(40, |text| text.len());
    let named =
        |numbers: &[u16], count: usize, places: usize| numbers[..count.clamp(2, places)].to_vec();
    let mut speeds = named(&map.speeds.numbers, map.speeds.count, 32);
    let mut torques = named(&map.torques.numbers, map.torques.count, 64);
    speeds.sort_unstable();
    torques.sort_unstable();
    speeds[0] = speeds[0].min(speeds[1].saturating_sub(1));
    let last = torques.len() - 1;
    torques[last] = torques[last].max(1);
    Case::Map {
        room: room_for(source, needed),
        questions: questions(source, &speeds, &torques, 4),
        map,
    }
}

/// Data of a measured kind of a map of any small size, and one of its rows.
fn data_and_row(source: &mut Source, kind: u8) -> (Data, usize) {
    let (speeds, torques) = (source.between(2, 6), source.between(2, 6));
    let data = valid::data_of(source, kind, speeds as usize, torques as usize);
    (data, source.index((speeds * torques) as usize))
}

/// A row at each of the rows' limits, and just beyond it.
fn row_limits(source: &mut Source, kind: u8) -> Vec<Vec<u8>> {
    let (data, row) = data_and_row(source, kind);
    faults::row_faults(&data, row)
}

/// The same with a ratio and an input sensor that can give a loss above the largest entry: 10.
fn entry_limits(source: &mut Source, kind: u8) -> Vec<Vec<u8>> {
    loop {
        let (mut data, row) = data_and_row(source, kind);
        if data.numbers(3)[0] >= 4_000 {
            faults::raise_input_limit(&mut data);
            return faults::row_faults(&data, row);
        }
    }
}

/// Every fault at every kind of place, and cuts at every length.
fn wrong_data(source: &mut Source) -> Vec<Vec<u8>> {
    let mut wrong = Vec::new();
    for (kind, speeds, torques) in [(1, 2, 3), (2, 2, 2), (3, 2, 2)] {
        let data = valid::data_of(source, kind, speeds, torques);
        wrong.extend(faults::every_cut(&data));
        wrong.extend(faults::every_fault(&data));
    }
    wrong.extend(faults::every_fault(&valid::data_of(source, 1, 9, 12)));
    for speeds in 2..=32 {
        let data = valid::data_of(source, 1, speeds, 2);
        wrong.push(faults::first_step_fault(&data));
        wrong.push(faults::with_length(&data, 4, 5));
    }
    for kind in [2, 3] {
        for _ in 0..12 {
            wrong.extend(row_limits(source, kind));
            wrong.extend(entry_limits(source, kind));
        }
    }
    wrong
}

/// The largest maps, and lent maps broken in every way.
fn maps(source: &mut Source) -> Vec<Case> {
    let mut cases = Vec::new();
    for kind in [1, 2, 3] {
        let data = valid::data_of(source, kind, 32, 64);
        cases.push(Case::Program(data.bytes()));
        let data = valid::data_of(source, kind, 32, 64);
        cases.push(asked_build(source, &data, 60));
    }
    for way in 0..BREAKS {
        for _ in 0..6 {
            let map = lent_maps::broken_map(source, way);
            cases.push(asked_map(source, map));
        }
    }
    cases
}

/// The cases that do not depend on chance alone: every kind of fault, the largest maps, broken maps.
pub fn systematic(seed: u64) -> Vec<Case> {
    let mut source = Source::new(seed, u64::MAX);
    let mut cases: Vec<Case> = wrong_data(&mut source)
        .into_iter()
        .map(Case::of_data)
        .collect();
    cases.extend(maps(&mut source));
    cases
}

/// A case by chance; the number and the seed decide it. Large maps occur only where they are wanted.
pub fn by_chance(seed: u64, number: u64, large_maps: bool) -> Case {
    let mut source = Source::new(seed, number);
    let source = &mut source;
    if large_maps && source.once_in(300) {
        let data = valid::large_data(source);
        return asked_build(source, &data, 60);
    }
    let data = valid::data(source);
    match source.below(20) {
        0..=7 => asked_build(source, &data, 6),
        8..=11 => Case::of_data(faults::chance_faults(source, &data)),
        12 => Case::of_data(faults::flipped_bit(source, &data)),
        13 => Case::of_data(faults::garbage(source, &data)),
        14 => chance_row_fault(source, &data),
        15 => Case::Program(faults::flipped_bit(source, &data)),
        16 => Case::Read(faults::chance_faults(source, &data)),
        17 => Case::Read(data.bytes()),
        18 => {
            let way = source.below(BREAKS);
            let map = lent_maps::broken_map(source, way);
            asked_map(source, map)
        }
        _ => {
            let map = lent_maps::valid_map(source);
            asked_map(source, map)
        }
    }
}

fn chance_row_fault(source: &mut Source, data: &Data) -> Case {
    let rows = data.rows().len();
    if rows == 0 {
        return Case::of_data(faults::flipped_bit(source, data));
    }
    let row = source.index(rows);
    let mut wrong = faults::row_faults(data, row);
    Case::of_data(wrong.swap_remove(source.index(wrong.len())))
}
