//! What is wrong with a listing, and in which of its lines. The library tells the offset of the line.

use axle::Refusal;

const WRONG_LINE: u32 = 41;
const BROKEN_RUN: u32 = 42;

/// The words for a refusal of a line or of the runs. The others say all by themselves.
pub fn words(text: &[u8], refusal: &Refusal) -> Option<String> {
    let (before, rest) = (text.get(..refusal.place)?, text.get(refusal.place..)?);
    let words = match refusal.number {
        WRONG_LINE if rest.contains(&b'\n') => "line without the form of a row",
        WRONG_LINE => "line without its line feed",
        BROKEN_RUN if !rest.is_empty() => "row that breaks its run",
        BROKEN_RUN => return Some(RUNS.to_string()),
        _ => return None,
    };
    let line = 1 + before.iter().filter(|byte| **byte == b'\n').count();
    Some(format!(
        "{words} (the line's offset), line {line} of the text"
    ))
}

/// The runs as a whole.
const RUNS: &str =
    "last run too short, or not 2 to 32 speeds and 2 to 64 torques (the text's length)";
