//! The cases that are stored for `vectors`, with their answers, the stored run of the map program, and the text of a tally.

use crate::cases::{by_chance, systematic, Case, MOST_ENTRIES, MOST_TEXT};
use crate::listing::report;
use crate::lookup::{Axis, LentMap};
use crate::questions::Question;
use crate::random::Source;
use crate::reply::{reply, Excess, Seen, Writes};
use crate::retarder::RetarderNumbers;
use crate::writer::HandedNumbers;
use crate::{
    allowance_cases, drag_cases, load_cases, losses_cases, refused_number_cases, steps_cases,
    valid, write_cases,
};
use std::fmt;

const SEED: u64 = 20_172_400;
const CASES_BY_CHANCE: u64 = 2_500;
const WRITES_BY_CHANCE: u64 = 240;
const ALLOWANCES_BY_CHANCE: u64 = 100;
const REFUSED_NUMBERS_BY_CHANCE: u64 = 240;
const STEPS_BY_CHANCE: u64 = 400;
const LOADS_BY_CHANCE: u64 = 300;
const DRAGS_BY_CHANCE: u64 = 170;
const LOSSES_BY_CHANCE: u64 = 200;

/// How many cases were written by hand before the requests C-12 to C-17, and before many questions in one call.
const WRITTEN_BY_HAND_BEFORE: [usize; 7] = [265, 315, 326, 372, 483, 719, 882];

/// Chosen among many: its data is accepted, no number of a sensor is 0, and most entries differ from each other.
const MAP_PROGRAM_CASE: u64 = 8_283;

/// Every refusal of the table.
pub const REFUSALS: [u8; 17] = [1, 2, 3, 4, 5, 6, 7, 8, 9, 10, 11, 12, 20, 21, 22, 31, 32];

/// Every refusal of a write.
pub const WRITE_REFUSALS: [u8; 11] = [3, 4, 5, 6, 7, 8, 9, 10, 30, 31, 32];

/// Every refusal of a load.
pub const LOAD_REFUSALS: [u8; 8] = [40, 41, 42, 4, 5, 6, 10, 11];

/// Every refusal of a drag.
pub const DRAG_REFUSALS: [u8; 3] = [45, 46, 47];

/// Every refusal of many questions in one call.
pub const LOSSES_REFUSALS: [u8; 4] = [22, 11, 20, 21];

const KINDS: [u8; 3] = [1, 2, 3];

/// The lines of cases/cases.txt: a letter and bytes in hexadecimal digits, or a comment.
pub fn written_by_hand() -> Vec<(char, Vec<u8>)> {
    include_str!("../cases/cases.txt")
        .lines()
        .filter(|line| !line.starts_with('#'))
        .filter_map(|line| {
            let letter = line.chars().next()?;
            Some((letter, bytes_of(&line[1..])))
        })
        .collect()
}

fn bytes_of(digits: &str) -> Vec<u8> {
    digits
        .as_bytes()
        .chunks_exact(2)
        .map(|pair| {
            let pair = std::str::from_utf8(pair).expect("digits are ASCII");
            u8::from_str_radix(pair, 16).expect("two hexadecimal digits")
        })
        .collect()
}

/// A number, its most significant byte first.
fn number_of(bytes: &[u8]) -> u64 {
    bytes.iter().fold(0, |n, byte| n << 8 | u64::from(*byte))
}

/// A question before its data: speed and torque, four bytes each.
pub fn question_of(bytes: &[u8]) -> (Question, &[u8]) {
    let question = Question {
        speed: number_of(&bytes[..4]) as u32,
        torque: number_of(&bytes[4..8]) as u32,
    };
    (question, &bytes[8..])
}

/// Both axes of a case: their counts, then all places of the speeds and of the torques.
fn axes_of(next: &mut impl FnMut(usize) -> u64) -> (Axis, Axis) {
    let counts = [(); 2].map(|()| next(8) as usize);
    let mut axis = |count: usize, places: usize| Axis {
        numbers: (0..places).map(|_| next(2) as u16).collect(),
        count,
    };
    (axis(counts[0], 32), axis(counts[1], 64))
}

/// A write: how many bytes are lent, in four bytes, then the body of its case.
pub fn write_of(bytes: &[u8]) -> (usize, HandedNumbers) {
    let mut rest = bytes;
    let mut next = |width: usize| {
        let (number, behind) = rest.split_at(width);
        rest = behind;
        number_of(number)
    };
    let room = next(4) as usize;
    let [kind, line, ratio] = [(); 3].map(|()| next(2) as u16);
    let (speeds, torques) = axes_of(&mut next);
    let sensors = [(); 3].map(|()| [(); 9].map(|()| next(2) as u16));
    let row_torques = rest.chunks_exact(4);
    let numbers = HandedNumbers {
        kind,
        line,
        ratio,
        speeds,
        torques,
        sensors,
        row_torques: row_torques.map(|bytes| number_of(bytes) as u32).collect(),
    };
    (room, numbers)
}

/// The sensor's nine numbers and the torque of a case of steps: the 22 bytes of the body of their case.
pub fn steps_of(bytes: &[u8]) -> ([u16; 9], u32) {
    assert_eq!(bytes.len(), 22, "nine numbers and a torque");
    let (numbers, torque) = bytes.split_at(18);
    let sensor = std::array::from_fn(|index| number_of(&numbers[2 * index..][..2]) as u16);
    (sensor, number_of(torque) as u32)
}

/// A load: how many entries are lent, in four bytes, then the text.
pub fn load_of(bytes: &[u8]) -> (usize, &[u8]) {
    let (entries, text) = bytes.split_at(4);
    (number_of(entries) as usize, text)
}

/// A drag: ratio, speed and the count of readings, four bytes each, then the readings, then the bearing losses to the end.
pub fn drag_of(bytes: &[u8]) -> RetarderNumbers {
    assert!(bytes.len().is_multiple_of(4), "numbers of four bytes");
    let numbers: Vec<u32> = bytes
        .chunks_exact(4)
        .map(|bytes| number_of(bytes) as u32)
        .collect();
    let (readings, bearing_losses) = numbers[3..].split_at(numbers[2] as usize);
    RetarderNumbers {
        readings: readings.to_vec(),
        bearing_losses: bearing_losses.to_vec(),
        ratio: numbers[0],
        speed: numbers[1],
    }
}

/// Many questions in one call: how many losses are lent, in four bytes, how many questions, in one byte, the questions, eight bytes each, then the map, which is the body of its case.
pub fn losses_of(bytes: &[u8]) -> (usize, Vec<Question>, LentMap) {
    let mut rest = bytes;
    let mut next = |width: usize| {
        let (number, behind) = rest.split_at(width);
        rest = behind;
        number_of(number)
    };
    let room = next(4) as usize;
    let count = next(1);
    let questions = (0..count).map(|_| Question {
        speed: next(4) as u32,
        torque: next(4) as u32,
    });
    let questions = questions.collect();
    let (speeds, torques) = axes_of(&mut next);
    let entries = rest.chunks_exact(4);
    let map = LentMap {
        speeds,
        torques,
        entries: entries.map(|bytes| number_of(bytes) as u32).collect(),
    };
    (room, questions, map)
}

fn hand_case((letter, bytes): (char, Vec<u8>)) -> Case {
    match letter {
        'r' => Case::Read(bytes),
        'm' => Case::Program(bytes),
        'w' => {
            let (room, numbers) = write_of(&bytes);
            Case::Write { numbers, room }
        }
        's' => {
            let (sensor, torque) = steps_of(&bytes);
            Case::Steps { sensor, torque }
        }
        'l' => {
            let (entries, text) = load_of(&bytes);
            Case::Load {
                text: text.to_vec(),
                entries,
            }
        }
        'd' => Case::Drag(drag_of(&bytes)),
        'a' => {
            let (room, questions, map) = losses_of(&bytes);
            Case::Losses {
                map,
                room,
                questions,
            }
        }
        _ => {
            let (question, data) = question_of(&bytes);
            Case::Build {
                data: data.to_vec(),
                entries: MOST_ENTRIES,
                room: MOST_TEXT,
                questions: vec![question],
            }
        }
    }
}

/// The cases written by hand, in the sections in which they are stored.
fn sections_by_hand() -> [Vec<Case>; 8] {
    let mut cases: Vec<Case> = written_by_hand().into_iter().map(hand_case).collect();
    let mut sections = [(); 8].map(|()| Vec::new());
    let later = sections[1..].iter_mut().zip(WRITTEN_BY_HAND_BEFORE);
    for (section, before) in later.rev() {
        *section = cases.split_off(before);
    }
    sections[0] = cases;
    sections
}

/// All stored cases, in their order. Those of a later request are behind all others, which thereby stay as they were before it: the writes of C-12, then the allowances of C-13, then the refused numbers of C-14, then the steps of C-15, then the loads of C-16, then the drags of C-17, then many questions in one call.
pub fn stored_cases() -> Vec<Case> {
    let [mut cases, writes, allowances, refused_numbers, steps, loads, drags, many_losses] =
        sections_by_hand();
    cases.extend(systematic(SEED));
    cases.extend((0..CASES_BY_CHANCE).map(|number| by_chance(SEED, number, false)));
    cases.extend(writes);
    cases.extend(write_cases::systematic(SEED));
    let write = |number| write_cases::by_chance(SEED, number, false);
    cases.extend((0..WRITES_BY_CHANCE).map(write));
    cases.extend(allowances);
    cases.extend(allowance_cases::systematic(SEED));
    let allowance = |number| allowance_cases::by_chance(SEED, number);
    cases.extend((0..ALLOWANCES_BY_CHANCE).map(allowance));
    cases.extend(refused_numbers);
    cases.extend(refused_number_cases::systematic(SEED));
    let refused_number = |number| refused_number_cases::by_chance(SEED, number);
    cases.extend((0..REFUSED_NUMBERS_BY_CHANCE).map(refused_number));
    cases.extend(steps);
    cases.extend(steps_cases::systematic(SEED));
    cases.extend((0..STEPS_BY_CHANCE).map(|number| steps_cases::by_chance(SEED, number)));
    cases.extend(loads);
    cases.extend(load_cases::systematic(SEED));
    let load = |number| load_cases::by_chance(SEED, number, false);
    cases.extend((0..LOADS_BY_CHANCE).map(load));
    cases.extend(drags);
    cases.extend(drag_cases::systematic(SEED));
    cases.extend((0..DRAGS_BY_CHANCE).map(|number| drag_cases::by_chance(SEED, number)));
    cases.extend(many_losses);
    cases.extend(losses_cases::systematic(SEED));
    let losses = |number| losses_cases::by_chance(SEED, number, false);
    cases.extend((0..LOSSES_BY_CHANCE).map(losses));
    cases
}

/// What `vectors` is given and what it must write for these cases, numbered from 0.
pub fn input_and_output(cases: &[Case], seen: &mut Seen) -> (Vec<u8>, Vec<u8>) {
    let (mut input, mut output) = (Vec::new(), Vec::new());
    for (number, case) in cases.iter().enumerate() {
        input.extend(case.bytes());
        output.extend(format!("case {number}\n").bytes());
        output.extend(reply(case, seen));
    }
    (input, output)
}

/// The stored run of the map program: the largest data of all, over the whole ranges, and what is written for it.
pub fn map_program_run() -> (Vec<u8>, Vec<u8>) {
    let mut source = Source::new(SEED, MAP_PROGRAM_CASE);
    let data = valid::data_of(&mut source, 3, 32, 64).bytes();
    let written = report(&data);
    (data, written)
}

/// What the stored cases must hold and do not.
pub fn missing(seen: &Seen) -> Vec<String> {
    let mut missing = Vec::new();
    for number in REFUSALS {
        let (count, places) = refusals_and_places(seen, number);
        // 20 to 22 have one place, 0, and 31 has one, 11.
        let has_one_place = matches!(number, 20..=22 | 31);
        let enough = if has_one_place {
            count >= 20
        } else {
            places >= 20
        };
        if !enough {
            missing.push(format!(
                "refusal {number}: {count} times at {places} places"
            ));
        }
    }
    let mut counts = vec![("negative losses".to_string(), seen.negative_losses)];
    for kind in KINDS {
        counts.push((format!("maps of kind {kind}"), seen.maps_of(kind)));
        counts.push((format!("files of kind {kind}"), seen.writes.files_of(kind)));
    }
    for number in WRITE_REFUSALS {
        let count = seen.writes.refused_with(number);
        counts.push((format!("writes refused with {number}"), count));
    }
    counts.extend(seen.allowances.counts());
    counts.extend(seen.refused_numbers.counts());
    counts.extend(seen.steps.counts());
    counts.extend(seen.loads.counts());
    counts.extend(seen.drags.counts());
    counts.extend(seen.many_losses.counts());
    let too_few = counts.iter().filter(|(_, count)| *count < 20);
    missing.extend(too_few.map(|(name, count)| format!("{name}: {count}")));
    missing
}

/// How often a number of the table occurred, and at how many places.
fn refusals_and_places(seen: &Seen, number: u8) -> (u64, usize) {
    let count = seen.refusals.get(&number).copied().unwrap_or(0);
    let places = seen.places.get(&number).map_or(0, |places| places.len());
    (count, places)
}

/// Entries and answers outside the limits of demand 3, data that has other bytes when it is
/// written again, listings that load to another map, loaded maps with another listing, and
/// drags outside their limits: what both programs could have in common.
pub fn broken(seen: &Seen) -> u64 {
    let outside = seen.entries.outside + seen.answers.outside + seen.answers_below.outside;
    let loads = &seen.loads;
    let otherwise = seen.written_otherwise + loads.loaded_otherwise + loads.listed_otherwise;
    outside + otherwise + seen.drags.outside
}

/// Millionths of a hundredth of Nm, written in hundredths.
fn hundredths(millionths: i64) -> String {
    let sign = if millionths < 0 { "-" } else { "" };
    let size = millionths.unsigned_abs();
    format!("{sign}{}.{:06}", size / 1_000_000, size % 1_000_000)
}

fn excess_line(f: &mut fmt::Formatter, name: &str, excess: &Excess) -> fmt::Result {
    writeln!(
        f,
        "{name}: {} checked, {} outside the limits of demand 3, excess over exact from {} to {} hundredths of Nm",
        excess.checked,
        excess.outside,
        hundredths(excess.smallest),
        hundredths(excess.largest)
    )
}

/// A count for each kind.
fn by_kind(count: impl Fn(u8) -> u64) -> String {
    let [standard, two_sensors, three_sensors] = KINDS.map(count);
    format!(
        "{standard} standard, {two_sensors} measured (kind 2), {three_sensors} measured (kind 3)"
    )
}

/// What the cases of each letter are.
const CASE_NAMES: [(char, &str); 9] = [
    ('r', "data read"),
    ('p', "data for the map program"),
    ('b', "data built"),
    ('m', "maps lent"),
    ('w', "numbers handed to the writer"),
    ('s', "sensors asked for their steps"),
    ('l', "texts loaded"),
    ('d', "retarders asked for their drag"),
    ('a', "maps asked many questions in one call"),
];

impl fmt::Display for Seen {
    fn fmt(&self, f: &mut fmt::Formatter) -> fmt::Result {
        for (letter, name) in CASE_NAMES {
            if let Some(count) = self.cases.get(&letter) {
                writeln!(f, "{name}: {count}")?;
            }
        }
        writeln!(f, "maps built: {}", by_kind(|kind| self.maps_of(kind)))?;
        self.allowances.fmt(f)?;
        writeln!(
            f,
            "data of these maps written again with other bytes: {}",
            self.written_otherwise
        )?;
        writeln!(
            f,
            "losses at a point: {}, of these negative: {}",
            self.losses, self.negative_losses
        )?;
        for number in REFUSALS {
            let (count, places) = refusals_and_places(self, number);
            writeln!(f, "refusal {number}: {count} at {places} places")?;
        }
        self.writes.fmt(f)?;
        self.steps.fmt(f)?;
        self.loads.fmt(f)?;
        self.drags.fmt(f)?;
        self.many_losses.fmt(f)?;
        self.refused_numbers.fmt(f)?;
        excess_line(f, "entries", &self.entries)?;
        excess_line(f, "answers from the first torque upwards", &self.answers)?;
        excess_line(f, "answers below the first torque", &self.answers_below)
    }
}

impl fmt::Display for Writes {
    fn fmt(&self, f: &mut fmt::Formatter) -> fmt::Result {
        let files = by_kind(|kind| self.files_of(kind));
        writeln!(f, "files written of different inputs: {files}")?;
        for number in WRITE_REFUSALS {
            let count = self.refused_with(number);
            writeln!(f, "refusal {number} of a write: {count} different inputs")?;
        }
        Ok(())
    }
}
