//! The answers of the library `axle` to the generated cases, as the text that the second implementation writes for them.

use axle::{Grid, LossesRefusal, Numbers, Point, Refusal, Sensor};
use reference::cases::Case;
use reference::component;
use reference::lookup::{Axis, LentMap};
use reference::map::Map;
use reference::questions::Question;
use reference::reply::{drag_line, loaded_line, unpadded, written_again, written_lines};
use reference::retarder::RetarderNumbers;
use reference::writer::HandedNumbers;
use std::fmt::Write;

/// What entries, bytes and losses hold before they are lent.
const LENT_ENTRY: u32 = 0xA5A5_A5A5;
const LENT_BYTE: u8 = 0xA5;
const LENT_LOSS: i64 = 0xA5A5_A5A5;

/// Buffers that are lent again for each case.
pub struct Lent {
    entries: Vec<u32>,
    /// For a listing or a file.
    bytes: Vec<u8>,
}

impl Default for Lent {
    fn default() -> Lent {
        Lent {
            // One more than the largest map has.
            entries: vec![LENT_ENTRY; 2_049],
            bytes: vec![LENT_BYTE; 65_536],
        }
    }
}

fn kept(name: &str, kept: bool) -> String {
    format!("{name} {}\n", if kept { "kept" } else { "changed" })
}

/// Whether the bytes past an answer's length are as they were lent; after that all of them are so again.
fn kept_past(name: &str, bytes: &mut [u8], length: usize) -> String {
    let as_lent = bytes[length..].iter().all(|byte| *byte == LENT_BYTE);
    let changed = if as_lent { length } else { bytes.len() };
    bytes[..changed].fill(LENT_BYTE);
    kept(name, as_lent)
}

fn refused(refusal: Refusal) -> String {
    refusal_line(refusal) + "\n"
}

/// A refusal's line, without its line feed.
fn refusal_line(refusal: Refusal) -> String {
    let Refusal {
        number,
        place,
        index,
    } = refusal;
    match index {
        Some(index) => format!("refused {number} at {place} number {index}"),
        None => format!("refused {number} at {place}"),
    }
}

/// The point comes last, where there is one.
fn losses_refused(LossesRefusal { refusal, point }: LossesRefusal) -> String {
    let point = point.map(|point| format!(" point {point}"));
    format!("{}{}\n", refusal_line(refusal), point.unwrap_or_default())
}

/// The case's answer; data that is to be read or reported is built.
pub fn answer(case: &Case, lent: &mut Lent) -> Vec<u8> {
    match case {
        Case::Build {
            data,
            entries,
            room,
            questions,
        } => build_answer(data, *entries, *room, questions, lent),
        Case::Map {
            map,
            room,
            questions,
        } => map_answer(
            &grid_of(map),
            &map.entries,
            *room,
            questions,
            &mut lent.bytes,
        ),
        Case::Write { numbers, room } => write_answer(numbers, *room, &mut lent.bytes).into_bytes(),
        Case::Steps { sensor, torque } => steps_answer(*sensor, *torque).into_bytes(),
        Case::Load { text, entries } => load_answer(text, *entries, lent).into_bytes(),
        Case::Drag(numbers) => drag_answer(numbers).into_bytes(),
        Case::Losses {
            map,
            room,
            questions,
        } => losses_answer(map, *room, questions).into_bytes(),
        Case::Read(data) | Case::Program(data) => build_answer(data, 2_048, 65_536, &[], lent),
    }
}

fn as_lent(entries: &[u32]) -> bool {
    entries.iter().all(|entry| *entry == LENT_ENTRY)
}

fn build_answer(
    data: &[u8],
    entries: usize,
    room: usize,
    questions: &[Question],
    lent: &mut Lent,
) -> Vec<u8> {
    let answer = match axle::build(data, &mut lent.entries[..entries]) {
        Err(refusal) => (refused(refusal) + &kept("entries", as_lent(&lent.entries))).into_bytes(),
        Ok(grid) => {
            let count = grid.speed_count * grid.torque_count;
            let mut answer = kept("entries", as_lent(&lent.entries[count..])).into_bytes();
            answer.extend(data_written_again(data).bytes());
            let entries = &lent.entries[..entries];
            answer.extend(map_answer(&grid, entries, room, questions, &mut lent.bytes));
            answer
        }
    };
    lent.entries.fill(LENT_ENTRY);
    answer
}

fn map_answer(
    grid: &Grid,
    entries: &[u32],
    room: usize,
    questions: &[Question],
    bytes: &mut [u8],
) -> Vec<u8> {
    let (mut answer, length) = match axle::listing(grid, entries, &mut bytes[..room]) {
        Ok(length) => (bytes[..length].to_vec(), length),
        Err(refusal) => (refused(refusal).into_bytes(), 0),
    };
    let back = (length > 0).then(|| loaded_back(grid, entries, &bytes[..length]));
    answer.extend(kept_past("text", bytes, length).bytes());
    answer.extend(back.unwrap_or_default().bytes());
    for question in questions {
        answer.extend(question_answer(grid, entries, *question).bytes());
    }
    answer
}

/// Whether a listing that was printed loads to its own map. No listing has no bytes.
fn loaded_back(grid: &Grid, entries: &[u32], text: &[u8]) -> &'static str {
    let count = grid.speed_count * grid.torque_count;
    let mut loaded = vec![LENT_ENTRY; count];
    let back = axle::load(text, &mut loaded);
    let same = |axes: Grid| axes_of(&axes) == axes_of(grid) && loaded == entries[..count];
    if back.is_ok_and(same) {
        "loads back\n"
    } else {
        "loads otherwise\n"
    }
}

/// The numbers of both axes, as far as they are counted.
fn axes_of(grid: &Grid) -> (&[u16], &[u16]) {
    (
        &grid.speeds[..grid.speed_count],
        &grid.torques[..grid.torque_count],
    )
}

fn load_answer(text: &[u8], entries: usize, lent: &mut Lent) -> String {
    let answer = match axle::load(text, &mut lent.entries[..entries]) {
        Err(refusal) => refused(refusal) + &kept("entries", as_lent(&lent.entries)),
        Ok(grid) => {
            let (speeds, torques) = axes_of(&grid);
            let count = speeds.len() * torques.len();
            let (map_entries, rest) = lent.entries.split_at(count);
            let map = Map {
                speeds: speeds.to_vec(),
                torques: torques.to_vec(),
                entries: map_entries.to_vec(),
            };
            let length = axle::listing(&grid, map_entries, &mut lent.bytes).unwrap_or(0);
            let again = lent.bytes[..length] == unpadded(text);
            lent.bytes.fill(LENT_BYTE);
            let again = if again {
                "listed again\n"
            } else {
                "listed otherwise\n"
            };
            loaded_line(&map) + &kept("entries", as_lent(rest)) + again
        }
    };
    lent.entries.fill(LENT_ENTRY);
    answer
}

fn question_answer(grid: &Grid, entries: &[u32], question: Question) -> String {
    let mut lines = String::new();
    let _ = match axle::loss(grid, entries, question.speed, question.torque) {
        Ok(loss) => writeln!(lines, "loss {loss}"),
        Err(refusal) => lines.write_str(&refused(refusal)),
    };
    let _ = match axle::nearest(grid, question.speed, question.torque) {
        Ok((speed, torque)) => writeln!(lines, "nearest {speed} {torque}"),
        Err(refusal) => lines.write_str(&refused(refusal)),
    };
    lines
}

/// The numbers of data that the library built, read by the second implementation and written by the library.
fn data_written_again(data: &[u8]) -> &'static str {
    match component::read(data) {
        Ok(component) => written_again(data, &component, write),
        Err(_) => "not read\n",
    }
}

fn write_answer(numbers: &HandedNumbers, room: usize, bytes: &mut [u8]) -> String {
    let (lines, length) = match write(numbers, &mut bytes[..room]) {
        Ok(length) => (written_lines(&bytes[..length]), length),
        Err(refusal) => (refused(refusal), 0),
    };
    lines + &kept_past("file", bytes, length)
}

fn write(handed: &HandedNumbers, file: &mut [u8]) -> Result<usize, Refusal> {
    let (numbers, grid) = numbers_of(handed);
    numbers.write_on_grid(&grid, file)
}

fn steps_answer(sensor: [u16; 9], torque: u32) -> String {
    match Sensor::from(sensor).steps(torque) {
        Ok(steps) => {
            let [a, b, g, h, u] = steps.in_order();
            format!("steps {a} {b} {g} {h} {u}\n")
        }
        Err(refusal) => refused(refusal),
    }
}

fn drag_answer(numbers: &RetarderNumbers) -> String {
    let (readings, bearing_losses) = (&numbers.readings, &numbers.bearing_losses);
    axle::retarder_drag(readings, bearing_losses, numbers.ratio, numbers.speed)
        .map_or_else(refused, drag_line)
}

/// The losses at all points in one call, in as many places as are lent of a buffer that has one more.
fn losses_answer(map: &LentMap, room: usize, questions: &[Question]) -> String {
    let points: Vec<Point> = questions
        .iter()
        .map(|&Question { speed, torque }| Point { speed, torque })
        .collect();
    let mut losses = vec![LENT_LOSS; room + 1];
    let (mut lines, written) =
        match axle::losses(&grid_of(map), &map.entries, &points, &mut losses[..room]) {
            Ok(()) => (format!("answered {}\n", points.len()), points.len()),
            Err(refused) => (losses_refused(refused), 0),
        };
    let (answered, rest) = losses.split_at(written);
    for loss in answered {
        let _ = writeln!(lines, "loss {loss}");
    }
    lines + &kept("losses", rest.iter().all(|loss| *loss == LENT_LOSS))
}

/// The places of an axis in an array.
fn places<const N: usize>(axis: &Axis) -> [u16; N] {
    let mut places = [0; N];
    for (place, number) in places.iter_mut().zip(&axis.numbers) {
        *place = *number;
    }
    places
}

/// All places of both axes, and their counts, which may be any.
fn grid_on(speeds: &Axis, torques: &Axis) -> Grid {
    Grid {
        speeds: places(speeds),
        speed_count: speeds.count,
        torques: places(torques),
        torque_count: torques.count,
    }
}

pub fn grid_of(map: &LentMap) -> Grid {
    grid_on(&map.speeds, &map.torques)
}

/// The numbers as the library takes them; the axes are in the grid alone.
pub fn numbers_of(handed: &HandedNumbers) -> (Numbers, Grid) {
    let [input, output, right] = handed.sensors.map(Sensor::from);
    let numbers = Numbers {
        kind: handed.kind,
        line: handed.line,
        ratio: handed.ratio,
        input,
        output,
        right,
        rows: handed.row_torques.clone(),
        ..Numbers::default()
    };
    (numbers, grid_on(&handed.speeds, &handed.torques))
}

#[cfg(test)]
mod tests {
    use super::*;

    #[test]
    fn a_changed_byte_is_told_and_lent_anew() {
        let lent = [LENT_BYTE; 5];
        for (place, told) in [
            (1, "file kept\n"),
            (2, "file changed\n"),
            (4, "file changed\n"),
        ] {
            let mut bytes = lent;
            bytes[place] = 0;
            assert_eq!(kept_past("file", &mut bytes, 2), told);
            assert_eq!(bytes, lent);
        }
    }
}
