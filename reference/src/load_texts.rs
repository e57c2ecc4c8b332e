//! Texts to load: listings as rows and lines that can be changed one by one, and the ways in which a header and a row are wrong.

use crate::listing::HEADER;

/// Speed in rpm, torque in Nm, loss in hundredths of Nm. They may be outside their ranges.
pub type Row = [u64; 3];

/// Without its line feed.
pub type Line = Vec<u8>;

/// The rows of a map with these axes; the losses begin anew when all have been used.
pub fn rows_of(speeds: &[u64], torques: &[u64], losses: &[u64]) -> Vec<Row> {
    let points = speeds
        .iter()
        .flat_map(|speed| torques.iter().map(move |torque| (*speed, *torque)));
    let with_losses = points.zip(losses.iter().cycle());
    with_losses
        .map(|((speed, torque), loss)| [speed, torque, *loss])
        .collect()
}

/// The axes and losses of rows: each speed of consecutive rows, and the torques at the first.
pub fn axes_and_losses(rows: &[Row]) -> [Vec<u64>; 3] {
    let mut speeds: Vec<u64> = rows.iter().map(|row| row[0]).collect();
    speeds.dedup();
    let first_run = rows.iter().take_while(|row| row[0] == rows[0][0]);
    let torques = first_run.map(|row| row[1]).collect();
    [speeds, torques, rows.iter().map(|row| row[2]).collect()]
}

fn loss_text(loss: u64) -> String {
    format!("{}.{:02}", loss / 100, loss % 100)
}

pub fn line([speed, torque, loss]: Row) -> Line {
    format!("{speed},{torque},{}", loss_text(loss)).into_bytes()
}

/// The header and the rows.
pub fn lines(rows: &[Row]) -> Vec<Line> {
    let mut lines = vec![HEADER.as_bytes().to_vec()];
    lines.extend(rows.iter().map(|row| line(*row)));
    lines
}

/// The lines with their line feeds.
pub fn text(lines: &[Line]) -> Vec<u8> {
    let with_line_feed = |line: &Line| [line, &b"\n"[..]].concat();
    lines.iter().flat_map(with_line_feed).collect()
}

/// First lines that are no header.
pub fn wrong_headers() -> Vec<Line> {
    let mut headers: Vec<Line> = [
        "",
        " ",
        "\t",
        "Speed,torque,loss",
        "SPEED,TORQUE,LOSS",
        "speed,torque",
        "speed,torque,los",
        "peed,torque,loss",
        "speed,torque,losses",
        "speed,torque,loss,",
        ",speed,torque,loss",
        "torque,speed,loss",
        "speed;torque;loss",
        "speed\ttorque\tloss",
        "speed, torque,loss",
        "speed ,torque,loss",
        "speed,torque,\tloss",
        "speed,torque,lo ss",
        "\"speed\",\"torque\",\"loss\"",
        "speed,torque,loss speed",
        "speed,torque,loss\r",
        "speed,torque,loss \r ",
        "\rspeed,torque,loss",
        "speed,torque,loss\u{b}",
        "speed,torque,loss\u{c}",
        "speed,torque,loss\0",
        "\u{a0}speed,torque,loss",
        "\u{feff}speed,torque,loss",
        "100,0,130.00",
    ]
    .map(|header| header.as_bytes().to_vec())
    .into();
    headers.push(b"speed,torque,loss\xA0".to_vec());
    headers
}

/// What is written for a row, in every wrong form.
pub fn wrong_forms([speed, torque, loss]: Row) -> Vec<Line> {
    let (s, t, l) = (speed, torque, loss_text(loss));
    let (whole, hundredths) = (loss / 100, format!("{:02}", loss % 100));
    // Right in four bytes.
    let same_in_four_bytes = |number: u64| number + (1 << 32);
    let forms = [
        // Leading zeros, and ten digits.
        format!("0{s},{t},{l}"),
        format!("{s},0{t},{l}"),
        format!("{s},{t},0{l}"),
        format!("{s},{t},00{l}"),
        format!("1000000000,{t},{l}"),
        format!("{s},1000000000,{l}"),
        format!("{s},{t},1000000000.{hundredths}"),
        format!("{},{t},{l}", same_in_four_bytes(s)),
        format!("{s},{},{l}", same_in_four_bytes(t)),
        format!("{s},{t},{}.{hundredths}", same_in_four_bytes(whole)),
        format!("{s},{t},000000000{l}"),
        // Signs and other notations.
        format!("-{s},{t},{l}"),
        format!("+{s},{t},{l}"),
        format!("{s},-{t},{l}"),
        format!("{s},+{t},{l}"),
        format!("{s},{t},-{l}"),
        format!("{s},{t},+{l}"),
        format!("0x{s},{t},{l}"),
        format!("{s}e0,{t},{l}"),
        format!("{s},{t},{l}e0"),
        format!("\"{s}\",{t},{l}"),
        format!("{s}a,{t},{l}"),
        format!("{s},{t},{whole}.a0"),
        format!("{s},{t},{whole}.0a"),
        // Parts missing, or too many.
        format!(",{t},{l}"),
        format!("{s},,{l}"),
        format!("{s},{t},"),
        format!("{s},{t}"),
        format!("{s}"),
        format!(",{s},{t},{l}"),
        format!("{s},{t},{l},"),
        format!("{s},{t},{l},{l}"),
        format!("{s},{t},{l}{s},{t},{l}"),
        ",,".to_string(),
        String::new(),
        HEADER.to_string(),
        // Other marks.
        format!("{s};{t};{l}"),
        format!("{s}\t{t}\t{l}"),
        format!("{s},{t},{whole},{hundredths}"),
        format!("{s}.0,{t},{l}"),
        format!("{s},{t}.0,{l}"),
        format!("{s},{t},{whole}"),
        format!("{s},{t},{whole}{hundredths}"),
        format!("{s},{t},{whole}."),
        format!("{s},{t},.{hundredths}"),
        format!("{s},{t},{whole}.5"),
        format!("{s},{t},{l}0"),
        format!("{s},{t},{l}."),
        format!("{s},{t},{whole}..{hundredths}"),
        format!("{s},{t},{whole}:{hundredths}"),
        // Blanks inside, and alone.
        format!("{s} ,{t},{l}"),
        format!("{s}, {t},{l}"),
        format!("{s},{t}\t,{l}"),
        format!("{s},{t},\t{l}"),
        format!("1 {s},{t},{l}"),
        format!("{s},{t},{whole} .{hundredths}"),
        format!("{s},{t},{whole}. {hundredths}"),
        format!("{s},{t},{l} 0"),
        " ".to_string(),
        "\t \t".to_string(),
        // Other bytes at the ends, where blanks may be.
        format!("{s},{t},{l}\r"),
        format!("{s},{t},{l} \r\t"),
        format!("\r{s},{t},{l}"),
        format!("{s},{t},{l}\u{b}"),
        format!("\u{c}{s},{t},{l}"),
        format!("{s},{t},{l}\0"),
        format!("\0{s},{t},{l}"),
        format!("\u{a0}{s},{t},{l}"),
        format!("{s},{t},{l}\u{3000}"),
        format!("{s},{t},{l}\u{7f}"),
        format!("\u{feff}{s},{t},{l}"),
    ];
    let mut forms: Vec<Line> = forms.map(String::into_bytes).into();
    for byte in [0x80, 0x85, 0xA0, 0xB2, 0xFF] {
        forms.push([&line([speed, torque, loss]), &[byte][..]].concat());
    }
    forms
}
