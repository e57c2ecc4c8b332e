//! The numbers of component data as the text that `axle write` reads: docs/FORMAT.md, "How to make one".

use crate::component::measured_tags;
use crate::data::Data;
use crate::numerals::bare_decimal;
use std::iter;

/// The words that every kind has: the tag of each, and the digits of its numbers after the point.
const OF_EVERY_KIND: [(&str, u8, u32); 5] = [
    ("kind", 1, 0),
    ("line", 2, 0),
    ("ratio", 3, 3),
    ("speeds", 4, 0),
    ("torques", 5, 0),
];

/// The words of the sensors, in their order.
const SENSORS: [&str; 3] = ["input", "output", "right"];

/// The text of valid data. It begins with this remark.
pub fn text(remark: &str, data: &Data) -> String {
    let mut text = format!("# {remark}\n");
    for (word, tag, digits) in OF_EVERY_KIND {
        text += &line(word, &data.numbers(tag), digits);
    }
    text + &measurement(data)
}

/// A word and its numbers.
fn line(word: &str, numbers: &[u32], digits: u32) -> String {
    let numbers = numbers.iter().map(|number| bare_decimal(*number, digits));
    let parts: Vec<String> = iter::once(word.to_string()).chain(numbers).collect();
    parts.join(" ") + "\n"
}

/// The sensors and the rows, each with a remark; nothing in standard data.
fn measurement(data: &Data) -> String {
    let Some(tags) = measured_tags(data.kind()) else {
        return String::new();
    };
    let (sensors, torques) = match tags.outputs.len() {
        1 => ("", "Input and output torque"),
        _ => (
            " The output is the left one.",
            "Input, left and right torque",
        ),
    };
    let mut text = format!("\n# The sensors: N, w, z, c, k, s, p, d, R.{sensors}\n");
    for (word, tag) in SENSORS.iter().zip(iter::once(&6).chain(tags.outputs)) {
        text += &line(word, &data.numbers(*tag), 0);
    }
    text += &format!("\n# {torques} {}.\n", order_of_rows(&data.numbers(4)));
    for row in data.rows() {
        text += &line("row", &row, 2);
    }
    text
}

fn order_of_rows(speeds: &[u32]) -> String {
    match speeds {
        [first, second] => format!("at {first} rpm, then at {second} rpm"),
        _ => format!("at {} rpm, then at each higher speed", speeds[0]),
    }
}
