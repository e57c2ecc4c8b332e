//! The dumps of the page as text: every offset, byte and remark.

use super::*;

/// How many bytes each number of a field has.
fn width(tag: u8) -> usize {
    match tag {
        1 | 2 => 1,
        8 | 10 => 4,
        _ => 2,
    }
}

fn numbers(field: &Field) -> Vec<u32> {
    let value = |bytes: &[u8]| {
        bytes
            .iter()
            .fold(0, |sum, byte| 256 * sum + u32::from(*byte))
    };
    field.body.chunks(width(field.tag)).map(value).collect()
}

/// `10,000` for 10000.
fn with_comma(value: u32) -> String {
    match value / 1_000 {
        0 => value.to_string(),
        thousands => format!("{},{:03}", thousands, value % 1_000),
    }
}

/// `340.00 Nm` for 34000 hundredths, after the number itself.
fn hundredths(value: u32) -> String {
    format!("{}: {}.{:02} Nm", value, value / 100, value % 100)
}

/// `3.000` for 3000 thousandths, after the number itself.
fn thousandths(value: u32) -> String {
    format!("{}: {}.{:03}", value, value / 1_000, value % 1_000)
}

/// The torques of a row, as the page calls them.
fn torque_names(rows_tag: u8) -> &'static [&'static str] {
    match rows_tag {
        8 => &["input", "output"],
        _ => &["input", "left", "right"],
    }
}

fn head_remark(kind: u32, field: &Field) -> String {
    let length = field.body.len();
    let bytes = if length == 1 { "byte" } else { "bytes" };
    let count = numbers(field).len();
    let what = match field.tag {
        4 => format!(": {} speeds", count),
        5 => format!(": {} torques", count),
        6 => ": the sensor at the input".to_string(),
        7 if kind == 2 => ": the sensor at the output".to_string(),
        7 => ": the sensor at the left half-shaft".to_string(),
        8 | 10 => format!(": {} rows", count / torque_names(field.tag).len()),
        9 => ": the sensor at the right half-shaft".to_string(),
        _ => String::new(),
    };
    format!("tag {}, a body of {} {}{}", field.tag, length, bytes, what)
}

/// The letter, the meaning and the unit are those of the page's table of a sensor.
fn sensor_remark(index: usize, value: u32) -> String {
    let row = &table(&page(), "number", "letter in document 01")[index];
    let (letter, meaning, unit) = (&row[1], &row[3], row[4].as_str());
    match unit {
        _ if value == 0 => format!("{} 0", letter),
        "Nm" => format!("{} {}: {} {} Nm", letter, value, meaning, with_comma(value)),
        "thousandths" => format!("{} {}", letter, thousandths(value)),
        _ => format!("{} {} {}", letter, value, unit),
    }
}

/// A row's input torque is told with its grid point: the torques of the first speed come first.
fn row_remark(fields: &[Field], tag: u8, index: usize, value: u32) -> String {
    let names = torque_names(tag);
    let (row, place) = (index / names.len(), index % names.len());
    let remark = format!("{} torque {}", names[place], hundredths(value));
    if place > 0 {
        return remark;
    }
    let (speeds, torques) = (numbers(&fields[3]), numbers(&fields[4]));
    let (speed, torque) = (speeds[row / torques.len()], torques[row % torques.len()]);
    format!("{} rpm, {} Nm: {}", speed, torque, remark)
}

fn number_remark(fields: &[Field], tag: u8, index: usize, value: u32) -> String {
    match tag {
        1 => format!("kind {}: {}", value, kinds()[value as usize - 1].0),
        2 => format!("line {}: {}", value, line_names()[value as usize - 1]),
        3 => format!("ratio {}", thousandths(value)),
        4 => format!("{} rpm", value),
        5 => format!("{} Nm", value),
        8 | 10 => row_remark(fields, tag, index, value),
        _ => sensor_remark(index, value),
    }
}

fn line(offset: usize, bytes: &[u8], remark: &str) -> String {
    let digits: Vec<String> = bytes.iter().map(|byte| format!("{:02X}", byte)).collect();
    format!("{:>3}: {:<15}# {}", offset, digits.join(" "), remark)
}

fn dump(data: &[u8]) -> Vec<String> {
    let fields = fields(data);
    let kind = numbers(&fields[0])[0];
    let mut lines = Vec::new();
    for field in &fields {
        let body = field.head + 3;
        lines.push(line(
            field.head,
            &data[field.head..body],
            &head_remark(kind, field),
        ));
        let width = width(field.tag);
        for (index, value) in numbers(field).into_iter().enumerate() {
            let offset = body + index * width;
            let remark = number_remark(&fields, field.tag, index, value);
            lines.push(line(offset, &data[offset..][..width], &remark));
        }
    }
    lines
}

#[test]
fn the_dumps_are_the_examples() {
    for name in ["measured", "standard", "half-shafts"] {
        let told = dump(&example_named(&format!("{}.axle", name)));
        assert_eq!(block(&page(), &format!("{}.dump", name)), told);
    }
}
