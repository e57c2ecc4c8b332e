//! What a case is answered by the rules, as the text that `vectors` writes; and a tally of what was seen.

use crate::allowances::Allowances;
use crate::cases::Case;
use crate::component::{self, Component, Kind};
use crate::drag_tally::DragTally;
use crate::exact::{ExactMap, Verdict};
use crate::listing::{listing, listing_of_data, report_of};
use crate::load_tally::LoadTally;
use crate::loader::{self, trimmed};
use crate::lookup::{self, LentMap, LossesRefusal};
use crate::loss::SensorSteps;
use crate::losses_tally::LossesTally;
use crate::map::{self, Map};
use crate::questions::Question;
use crate::refusal::Refusal;
use crate::refused_numbers::RefusedNumbers;
use crate::retarder::{self, RetarderNumbers};
use crate::steps;
use crate::steps_tally::StepsTally;
use crate::writer::{self, HandedNumbers};
use std::collections::{BTreeMap, BTreeSet};
use std::fmt::{Display, Write};
use std::hash::{BuildHasher, BuildHasherDefault, DefaultHasher};

/// The largest and the smallest excess over the exact value, in millionths of a hundredth of Nm.
#[derive(Default)]
pub struct Excess {
    pub checked: u64,
    pub outside: u64,
    pub smallest: i64,
    pub largest: i64,
}

impl Excess {
    fn add(&mut self, verdict: Verdict) {
        self.checked += 1;
        self.outside += u64::from(!verdict.holds);
        self.smallest = self.smallest.min(verdict.excess_millionths);
        self.largest = self.largest.max(verdict.excess_millionths);
    }
}

/// How many different inputs of a write ended how.
#[derive(Default)]
pub struct Writes {
    /// Hashes of the numbers and the room.
    inputs: BTreeSet<u64>,
    /// Files written, by the number of their kind.
    files: BTreeMap<u8, u64>,
    refusals: BTreeMap<u8, u64>,
}

impl Writes {
    fn add(&mut self, numbers: &HandedNumbers, room: usize, answer: &Result<usize, Refusal>) {
        let hasher = BuildHasherDefault::<DefaultHasher>::default();
        if !self.inputs.insert(hasher.hash_one((numbers, room))) {
            return;
        }
        let count = match answer {
            Ok(_) => self.files.entry(numbers.kind as u8).or_default(),
            Err(refusal) => self.refusals.entry(refusal.number).or_default(),
        };
        *count += 1;
    }

    /// How many files of a kind were written.
    pub fn files_of(&self, kind: u8) -> u64 {
        self.files.get(&kind).copied().unwrap_or(0)
    }

    /// How many writes were refused with a number.
    pub fn refused_with(&self, number: u8) -> u64 {
        self.refusals.get(&number).copied().unwrap_or(0)
    }
}

/// How often what occurred.
#[derive(Default)]
pub struct Seen {
    pub cases: BTreeMap<char, u64>,
    /// Those of writes, of steps, of loads, of drags and of many questions in one call are apart.
    pub refusals: BTreeMap<u8, u64>,
    pub places: BTreeMap<u8, BTreeSet<usize>>,
    /// Maps built, by the number of their kind.
    pub maps: BTreeMap<u8, u64>,
    pub allowances: Allowances,
    /// Maps built whose data, written again, has other bytes.
    pub written_otherwise: u64,
    /// Losses at a point that was asked alone.
    pub losses: u64,
    pub negative_losses: u64,
    pub entries: Excess,
    pub answers: Excess,
    pub answers_below: Excess,
    pub writes: Writes,
    pub refused_numbers: RefusedNumbers,
    pub steps: StepsTally,
    pub loads: LoadTally,
    pub drags: DragTally,
    pub many_losses: LossesTally,
}

impl Seen {
    /// How many maps of a kind were built.
    pub fn maps_of(&self, kind: u8) -> u64 {
        self.maps.get(&kind).copied().unwrap_or(0)
    }

    fn refused(&mut self, refusal: Refusal) -> String {
        *self.refusals.entry(refusal.number).or_default() += 1;
        let places = self.places.entry(refusal.number).or_default();
        if places.len() < 1_000 {
            places.insert(refusal.place);
        }
        refused_line(refusal)
    }
}

fn refused_line(refusal: Refusal) -> String {
    refusal.line_with_index() + "\n"
}

/// The answer to a case, without the line of its number.
pub fn reply(case: &Case, seen: &mut Seen) -> Vec<u8> {
    *seen.cases.entry(case.letter()).or_default() += 1;
    match case {
        Case::Read(data) => match component::read(data) {
            Ok(component) => component_line(&component).into_bytes(),
            Err(refusal) => {
                seen.refused_numbers.add(case.letter(), refusal);
                seen.refused(refusal).into_bytes()
            }
        },
        Case::Program(data) => {
            let listing = listing_of_data(data);
            if let Err(refusal) = listing {
                seen.refused_numbers.add(case.letter(), refusal);
            }
            report_of(listing)
        }
        Case::Build {
            data,
            entries,
            room,
            questions,
        } => build_reply(data, *entries, *room, questions, seen),
        Case::Map {
            map,
            room,
            questions,
        } => map_reply(map, *room, questions, None, seen),
        Case::Write { numbers, room } => write_reply(numbers, *room, seen).into_bytes(),
        Case::Steps { sensor, torque } => steps_reply(*sensor, *torque, seen).into_bytes(),
        Case::Load { text, entries } => load_reply(text, *entries, seen).into_bytes(),
        Case::Drag(numbers) => drag_reply(numbers, seen).into_bytes(),
        Case::Losses {
            map,
            room,
            questions,
        } => losses_reply(map, *room, questions, seen).into_bytes(),
    }
}

/// The room past the losses, or all of it where there are none, is kept as it was.
fn losses_reply(map: &LentMap, room: usize, questions: &[Question], seen: &mut Seen) -> String {
    let mut losses = vec![0; room];
    let answer = lookup::losses(map, questions, &mut losses);
    let answer = answer.map(|count| &losses[..count]);
    seen.many_losses.add(map, room, questions, answer);
    losses_lines(answer) + "losses kept\n"
}

/// How many losses were answered and each of them in hundredths of Nm, a line each; or the refusal, as one line.
pub fn losses_lines(answer: Result<&[i128], LossesRefusal>) -> String {
    let losses = match answer {
        Ok(losses) => losses,
        Err(refusal) => return format!("{refusal}\n"),
    };
    let mut lines = format!("answered {}\n", losses.len());
    for loss in losses {
        lines += &loss_line(*loss);
    }
    lines
}

fn loss_line(loss: i128) -> String {
    format!("loss {loss}\n")
}

/// Nothing is lent, so no line says that it is kept.
fn drag_reply(numbers: &RetarderNumbers, seen: &mut Seen) -> String {
    let answer = retarder::drag(numbers);
    seen.drags.add(numbers, &answer);
    answer.map_or_else(refused_line, drag_line)
}

/// A drag in hundredths of Nm, as one line.
pub fn drag_line(drag: u32) -> String {
    format!("drag {drag}\n")
}

/// The lent entries past the last, or all of them where there is none, are kept as they were.
fn load_reply(text: &[u8], entries: usize, seen: &mut Seen) -> String {
    let answer = loader::load(text, entries);
    seen.loads.add(text, entries, &answer);
    let kept = "entries kept\n";
    match answer {
        Ok(map) => {
            let again = listed_again(text, &map);
            seen.loads.listed_otherwise += u64::from(again != LISTED_AGAIN);
            loaded_line(&map) + kept + again
        }
        Err(refusal) => refused_line(refusal) + kept,
    }
}

/// The axes and the entries of a map, as one line.
pub fn loaded_line(map: &Map) -> String {
    let mut line = numbers("loaded speeds", &map.speeds);
    line += &numbers(" torques", &map.torques);
    line += &numbers(" entries", &map.entries);
    line + "\n"
}

const LISTED_AGAIN: &str = "listed again\n";

/// Whether the listing of a loaded map is its text without the blanks at the ends of each line.
fn listed_again(text: &[u8], map: &Map) -> &'static str {
    let lent = LentMap::of(map, map.entries.clone());
    if listing(&lent, usize::MAX) == Ok(unpadded(text)) {
        LISTED_AGAIN
    } else {
        "listed otherwise\n"
    }
}

/// A text whose last line ends with a line feed, without the blanks at the ends of its lines.
pub fn unpadded(text: &[u8]) -> Vec<u8> {
    let without_line_feed = text.strip_suffix(b"\n").unwrap_or(text);
    let lines = without_line_feed.split(|byte| *byte == b'\n');
    lines
        .flat_map(|line| [trimmed(line), b"\n"].concat())
        .collect()
}

const LOADS_BACK: &str = "loads back\n";

/// Whether the listing of a map, loaded into as many entries as it needs, gives its axes and its entries.
fn loaded_back(map: &LentMap, text: &[u8]) -> &'static str {
    let map = lookup::test_map(map).expect("a map that was listed");
    let listed = Map {
        speeds: map.speeds.to_vec(),
        torques: map.torques.to_vec(),
        entries: map.entries.to_vec(),
    };
    if loader::load(text, listed.entries.len()) == Ok(listed) {
        LOADS_BACK
    } else {
        "loads otherwise\n"
    }
}

/// Nothing is lent, so no line says that it is kept.
fn steps_reply(sensor: [u16; 9], torque: u32, seen: &mut Seen) -> String {
    let answer = steps::checked_steps(sensor, torque);
    seen.steps.add(sensor[0], torque, &answer);
    match answer {
        Ok(steps) => steps_line(&steps),
        Err(refusal) => {
            seen.refused_numbers.add('s', refusal);
            refused_line(refusal)
        }
    }
}

/// The steps of a sensor's uncertainty in their order, as one line.
pub fn steps_line(steps: &SensorSteps) -> String {
    let [a, b, g, h, u] = steps.in_order();
    format!("steps {a} {b} {g} {h} {u}\n")
}

/// The bytes past the file, or all of them where there is none, are kept as they were.
fn write_reply(numbers: &HandedNumbers, room: usize, seen: &mut Seen) -> String {
    let mut buffer = vec![0; room];
    let answer = writer::write(numbers, &mut buffer);
    seen.writes.add(numbers, room, &answer);
    let lines = match answer {
        Ok(length) => written_lines(&buffer[..length]),
        Err(refusal) => {
            seen.refused_numbers.add('w', refusal);
            refused_line(refusal)
        }
    };
    lines + "file kept\n"
}

/// A file that was written: its length, and its bytes as hexadecimal digits.
pub fn written_lines(file: &[u8]) -> String {
    let mut lines = format!("written {}\n", file.len());
    for byte in file {
        let _ = write!(lines, "{byte:02X}");
    }
    lines + "\n"
}

/// Whatever is lent and is no part of the answer is kept as it was.
fn build_reply(
    data: &[u8],
    entries: usize,
    room: usize,
    questions: &[Question],
    seen: &mut Seen,
) -> Vec<u8> {
    let built = match map::build(data, entries) {
        Ok(built) => built,
        Err(refusal) => {
            seen.refused_numbers.add('b', refusal);
            return (seen.refused(refusal) + "entries kept\n").into_bytes();
        }
    };
    let component = component::read(data).expect("a build accepts only what reads");
    *seen.maps.entry(component.kind.number()).or_default() += 1;
    seen.allowances.add(&component);
    let exact = ExactMap::new(&component);
    check_entries(&exact, &built, seen);
    let mut lent_entries = built.entries.clone();
    lent_entries.resize(entries, 0);
    let lent = LentMap::of(&built, lent_entries);
    let mut text = b"entries kept\n".to_vec();
    let again = written_again(data, &component, writer::write);
    seen.written_otherwise += u64::from(again != WRITTEN_AGAIN);
    text.extend(again.bytes());
    text.extend(map_reply(&lent, room, questions, Some(&exact), seen));
    text
}

const WRITTEN_AGAIN: &str = "written again\n";

/// Whether the numbers of data that was read, written again in this way, are the same bytes.
pub fn written_again<R>(
    data: &[u8],
    component: &Component,
    write: impl FnOnce(&HandedNumbers, &mut [u8]) -> Result<usize, R>,
) -> &'static str {
    // Before the write no byte of the buffer is the right one.
    let mut buffer: Vec<u8> = data.iter().map(|byte| !byte).collect();
    let answer = write(&HandedNumbers::of(component), &mut buffer);
    if answer.ok() == Some(data.len()) && buffer == data {
        WRITTEN_AGAIN
    } else {
        "written otherwise\n"
    }
}

fn map_reply(
    map: &LentMap,
    room: usize,
    questions: &[Question],
    exact: Option<&ExactMap>,
    seen: &mut Seen,
) -> Vec<u8> {
    let mut back = "";
    let mut text = match listing(map, room) {
        Ok(text) => {
            back = loaded_back(map, &text);
            seen.loads.add_back(back == LOADS_BACK);
            text
        }
        Err(refusal) => seen.refused(refusal).into_bytes(),
    };
    text.extend(b"text kept\n");
    text.extend(back.bytes());
    for question in questions {
        text.extend(question_lines(map, *question, exact, seen).bytes());
    }
    text
}

/// Demand 3 for each entry of a map.
fn check_entries(exact: &ExactMap, map: &Map, seen: &mut Seen) {
    for (index, entry) in map.entries.iter().enumerate() {
        let count = map.torques.len();
        let verdict = exact.check_entry(index / count, index % count, *entry);
        seen.entries.add(verdict);
    }
}

/// The loss and the nearest point, with demand 3 of the loss where the map was built.
fn question_lines(
    map: &LentMap,
    question: Question,
    exact: Option<&ExactMap>,
    seen: &mut Seen,
) -> String {
    let Question { speed, torque } = question;
    let mut lines = match lookup::loss(map, speed, torque) {
        Ok(loss) => {
            seen.losses += 1;
            seen.negative_losses += u64::from(loss < 0);
            if let Some(exact) = exact {
                let verdict = exact.check_answer(speed, torque, loss);
                if u64::from(torque) < 100 * u64::from(map.torques.numbers[0]) {
                    seen.answers_below.add(verdict);
                } else {
                    seen.answers.add(verdict);
                }
            }
            loss_line(loss)
        }
        Err(refusal) => seen.refused(refusal),
    };
    lines += &match lookup::nearest(map, speed, torque) {
        Ok((speed, torque)) => format!("nearest {speed} {torque}\n"),
        Err(refusal) => seen.refused(refusal),
    };
    lines
}

fn numbers(name: &str, numbers: &[impl Display]) -> String {
    let mut text = name.to_string();
    for number in numbers {
        let _ = write!(text, " {number}");
    }
    text
}

/// Component data read into numbers, as one line. The first output sensor of kind 3 is the left one.
pub fn component_line(component: &Component) -> String {
    let mut line = format!(
        "kind {} line {} ratio {}",
        component.kind.number(),
        component.line,
        component.ratio
    );
    line += &numbers(" speeds", &component.speeds);
    line += &numbers(" torques", &component.torques);
    if let Kind::Measured(measured) = &component.kind {
        line += &numbers(" input", &measured.input.numbers());
        for (name, sensor) in [" output", " right"].iter().zip(&measured.outputs) {
            line += &numbers(name, &sensor.numbers());
        }
        let (start, end) = (measured.rows_start, measured.row_place(measured.rows.len()));
        let _ = write!(line, " rows {start} to {end}");
    }
    line + "\n"
}
