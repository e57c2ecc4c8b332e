//! What can be wrong in a text that is loaded, put into rows, lines or bytes by chance.

use crate::load_texts::{axes_and_losses, rows_of, wrong_forms, wrong_headers, Line, Row};
use crate::random::Source;

/// In hundredths of Nm.
pub(crate) const LARGEST_LOSS: u64 = 10_000_000;

/// Losses above the largest: by one, by a whole Nm; right in three or four bytes; the highest of all.
pub(crate) const LOSSES_ABOVE: [u64; 9] = [
    LARGEST_LOSS + 1,
    LARGEST_LOSS + 100,
    16_777_215,
    16_777_216,
    (1 << 32) - 1,
    1 << 32,
    (1 << 32) + 1,
    (1 << 32) + LARGEST_LOSS,
    99_999_999_999,
];

/// What is wrong in a case by chance.
#[derive(Clone, Copy, PartialEq, Eq)]
pub(crate) enum Fault {
    Header,
    Form,
    Bytes,
    Run,
    Count,
    Range,
    Order,
    FirstStep,
    Loss,
    Entries,
}

/// All of them.
pub(crate) const FAULTS: [Fault; 10] = [
    Fault::Header,
    Fault::Form,
    Fault::Bytes,
    Fault::Run,
    Fault::Count,
    Fault::Range,
    Fault::Order,
    Fault::FirstStep,
    Fault::Loss,
    Fault::Entries,
];

/// Puts a fault of numbers, counts and runs into the rows.
pub(crate) fn change_rows(source: &mut Source, fault: Fault, rows: &mut Vec<Row>) {
    if rows.is_empty() {
        return;
    }
    match fault {
        Fault::Run => break_run(source, rows),
        Fault::Count => change_count(source, rows),
        Fault::Range => leave_range(source, rows),
        Fault::Order => change_order(source, rows),
        Fault::FirstStep => {
            let [_, torques, _] = axes_and_losses(rows);
            let second = torques.get(1).copied().unwrap_or(0);
            replace(rows, 1, torques[0], second / 2 + 1);
        }
        Fault::Loss => {
            let row = source.index(rows.len());
            rows[row][2] = source.one_of(&LOSSES_ABOVE);
        }
        Fault::Header | Fault::Form | Fault::Bytes | Fault::Entries => {}
    }
}

/// Another number on an axis, speed or torque by its index in a row, wherever it stands.
pub(crate) fn replace(rows: &mut [Row], axis: usize, number: u64, other: u64) {
    for row in rows.iter_mut().filter(|row| row[axis] == number) {
        row[axis] = other;
    }
}

/// A row dropped, doubled, put in, exchanged with another one, or with another speed or torque, also one that is the same in two bytes.
fn break_run(source: &mut Source, rows: &mut Vec<Row>) {
    let (row, other) = (source.index(rows.len()), source.index(rows.len()));
    match source.below(8) {
        0 => {
            rows.remove(row);
        }
        1 => rows.insert(row, rows[row]),
        2 => rows.insert(row, rows[other]),
        3 => rows.swap(row, other),
        4 => rows[row][0] = rows[other][0],
        5 => rows[row][1] = rows[other][1],
        6 => rows[row][0] = source.one_of(&[rows[row][0] + 1, rows[row][0] + 65_536, 1]),
        _ => rows[row][1] = source.one_of(&[rows[row][1] + 1, rows[row][1] + 65_536, 0]),
    }
}

/// One torque, one speed, no row, too many torques or speeds, or a last run that is short.
fn change_count(source: &mut Source, rows: &mut Vec<Row>) {
    let [mut speeds, mut torques, losses] = axes_and_losses(rows);
    let more = |numbers: &mut Vec<u64>, count: u64| {
        let next = numbers[numbers.len() - 1] + 1;
        let missing = count.saturating_sub(numbers.len() as u64);
        numbers.extend(next..next + missing);
    };
    match source.below(8) {
        0 => torques.truncate(1),
        1 => speeds.truncate(1),
        2 => speeds.clear(),
        3 => more(&mut torques, source.between(65, 67)),
        4 => more(&mut speeds, source.between(33, 35)),
        _ => {
            let short = source.between(1, torques.len().max(2) as u64 - 1);
            rows.truncate(rows.len() - short as usize);
            return;
        }
    }
    *rows = rows_of(&speeds, &torques, &losses);
}

/// A speed or a torque outside its range, wherever it stands.
fn leave_range(source: &mut Source, rows: &mut [Row]) {
    let axis = source.index(2);
    let number = rows[source.index(rows.len())][axis];
    let wrong = [[0, 3_001, 50_000], [50_001, 50_002, 131_072]][axis];
    let other = match source.below(3) {
        0 => source.one_of(&[65_535, 65_536 + number, 999_999_999]),
        _ => source.one_of(&wrong),
    };
    replace(rows, axis, number, other);
}

/// Two numbers of an axis exchanged or made equal, wherever they stand.
fn change_order(source: &mut Source, rows: &mut [Row]) {
    let axis = source.index(2);
    let numbers = &axes_and_losses(rows)[axis];
    let first = source.index(numbers.len());
    let second = (first + 1).min(numbers.len() - 1);
    let (lower, upper) = (numbers[first], numbers[second]);
    const PLACE_HOLDER: u64 = u64::MAX;
    replace(rows, axis, lower, PLACE_HOLDER);
    if source.once_in(2) {
        replace(rows, axis, upper, lower);
    }
    replace(rows, axis, PLACE_HOLDER, upper);
}

/// Puts a fault of the header or of a row's form into the lines.
pub(crate) fn change_lines(source: &mut Source, fault: Fault, rows: &[Row], lines: &mut Vec<Line>) {
    match fault {
        Fault::Header if source.once_in(8) => {
            lines.remove(0);
        }
        Fault::Header if !lines.is_empty() => lines[0] = one_of(source, wrong_headers()),
        Fault::Form => {
            let index = source.index(rows.len().max(1));
            let row = rows.get(index).copied().unwrap_or([1, 0, 0]);
            let form = one_of(source, wrong_forms(row));
            // In the place of its row or before it.
            let place = lines.len().saturating_sub(rows.len()) + index;
            if place < lines.len() && source.below(4) > 0 {
                lines[place] = form;
            } else {
                lines.insert(place.min(lines.len()), form);
            }
        }
        _ => {}
    }
}

fn one_of(source: &mut Source, mut lines: Vec<Line>) -> Line {
    lines.swap_remove(source.index(lines.len()))
}

/// Up to three blanks before and behind lines.
pub(crate) fn put_blanks(source: &mut Source, lines: &mut [Line]) {
    for line in lines {
        *line = [blanks(source), line.clone(), blanks(source)].concat();
    }
}

fn blanks(source: &mut Source) -> Line {
    let count = source.below(8).saturating_sub(4);
    (0..count).map(|_| source.one_of(b" \t")).collect()
}

/// Bytes that stand in a listing, that are blank, or that are taken for such.
const BYTES: [u8; 17] = *b"0159,.- \t\r\n\x0B\x0C\0\x80\xFFx";

/// Puts a fault of the header's end or of bytes into the text.
pub(crate) fn change_text(source: &mut Source, fault: Fault, text: &mut Vec<u8>) {
    if text.is_empty() {
        return;
    }
    let place = source.index(text.len());
    let first_end = text.iter().position(|byte| *byte == b'\n').unwrap_or(0);
    match fault {
        Fault::Header if source.once_in(8) => text.truncate(source.index(first_end + 1)),
        Fault::Bytes => match source.below(12) {
            0 => text[place] = source.draw() as u8,
            1 => text[place] = source.one_of(&BYTES),
            2 => {
                text.remove(place);
            }
            3 => text.insert(place, source.one_of(&BYTES)),
            4 => text.truncate(place),
            5 => text.truncate(text.len() - 1),
            6 => text.push(source.one_of(&BYTES)),
            7 => text.extend(blanks(source)),
            8 => change_line_feed(source, text, b""),
            9 => change_line_feed(source, text, b"\n\n"),
            10 => change_line_feed(source, text, b"\r\n"),
            _ => {
                let lines = text.split_inclusive(|byte| *byte == b'\n');
                *text = lines.flat_map(with_return).collect();
            }
        },
        _ => {}
    }
}

fn with_return(line: &[u8]) -> Vec<u8> {
    match line.strip_suffix(b"\n") {
        Some(line) => [line, b"\r\n"].concat(),
        None => line.to_vec(),
    }
}

/// Other bytes for a line feed.
fn change_line_feed(source: &mut Source, text: &mut Vec<u8>, other: &[u8]) {
    let places: Vec<usize> = (0..text.len()).filter(|i| text[*i] == b'\n').collect();
    if !places.is_empty() {
        let place = source.one_of(&places);
        text.splice(place..=place, other.iter().copied());
    }
}
