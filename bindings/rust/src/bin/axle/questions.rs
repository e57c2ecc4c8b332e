//! The questions of `axle losses`: a line is a speed in rpm and a torque in Nm, set apart by blanks.

use crate::failure::Failure;
use crate::numbers::{SPEED, TORQUE};
use axle::{LossesRefusal, Point};
use std::ffi::OsStr;
use std::os::unix::ffi::OsStrExt;

/// The points that a text asks, in the order of its lines.
pub fn points(text: &[u8]) -> Result<Vec<Point>, Failure> {
    questions(text)
        .map(|(line, question)| point(question).map_err(|message| unreadable(line, &message)))
        .collect()
}

fn unreadable(line: usize, message: &str) -> Failure {
    Failure::Failed(format!("line {line} of standard input: {message}"))
}

/// A refusal, with the line of the point that it is of.
pub fn failure(text: &[u8], refused: &LossesRefusal) -> Failure {
    let refusal = refused.refusal;
    let question = refused.point.and_then(|point| questions(text).nth(point));
    match question {
        Some((line, _)) => Failure::QuestionRefused { refusal, line },
        None => Failure::from(refusal),
    }
}

/// The lines that ask, each with its number, counted from 1 over all lines. One of blanks alone asks
/// nothing, and the last may do without its line feed.
fn questions(text: &[u8]) -> impl Iterator<Item = (usize, &[u8])> {
    let lines = text.split(|byte| *byte == b'\n').enumerate();
    lines
        .map(|(index, line)| (index + 1, line))
        .filter(|(_, line)| !line.iter().all(is_blank))
}

fn is_blank(byte: &u8) -> bool {
    matches!(byte, b' ' | b'\t')
}

/// The point of a line. What is wrong where it has none.
fn point(line: &[u8]) -> Result<Point, String> {
    let texts = line.split(is_blank).filter(|text| !text.is_empty());
    let mut texts = texts.map(OsStr::from_bytes);
    match (texts.next(), texts.next(), texts.next()) {
        (Some(speed), Some(torque), None) => Ok(Point {
            speed: SPEED.parsed(speed)?,
            torque: TORQUE.parsed(torque)?,
        }),
        _ => Err("not two numbers, SPEED and TORQUE".to_string()),
    }
}
