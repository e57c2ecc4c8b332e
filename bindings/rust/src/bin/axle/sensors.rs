//! Which sensor a refused number is of. The library tells which of the nine numbers it was, and of
//! data where it stands.

use axle::{Numbers, Refusal, Sensor};

/// The refusal of a sensor's number.
const SENSOR_OUT_OF_RANGE: u32 = 32;

/// The sensor in data, by the tag of its field: it stands three bytes before the first of the
/// numbers, which have two bytes each.
pub fn in_data(data: &[u8], refusal: &Refusal) -> Option<&'static str> {
    let index = refusal
        .index
        .filter(|_| refusal.number == SENSOR_OUT_OF_RANGE)?;
    let head = refusal.place.checked_sub(3 + 2 * index)?;
    match data.get(head)? {
        6 => Some("input"),
        7 => Some(name_of_output(u16::from(*data.get(3)?))),
        9 => Some("right"),
        _ => None,
    }
}

/// The sensor among numbers. The first wrong one is refused: the refusal is the same while only
/// those after it are replaced.
pub fn in_numbers(numbers: &Numbers, refusal: &Refusal) -> Option<&'static str> {
    if refusal.number != SENSOR_OUT_OF_RANGE {
        return None;
    }
    let accepted = Sensor::from([1, 0, 0, 0, 1_000, 0, 0, 0, 10]);
    let mut changed = numbers.clone();
    changed.right = accepted;
    if changed.write() != Err(*refusal) {
        return Some("right");
    }
    changed.output = accepted;
    if changed.write() != Err(*refusal) {
        return Some(name_of_output(numbers.kind));
    }
    Some("input")
}

/// The sensor of tag 7.
fn name_of_output(kind: u16) -> &'static str {
    match kind {
        3 => "left",
        _ => "output",
    }
}
