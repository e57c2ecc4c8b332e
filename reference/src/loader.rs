//! Document 02, request C-16: a listing taken in as a map, with refusals 40 to 42
//! of its text and 4, 5, 6, 10 and 11 of its numbers.

use crate::component::{first_torque_allowed, AxisRule, SPEED_RULE, TORQUE_RULE};
use crate::listing::HEADER;
use crate::map::{Map, LARGEST_ENTRY};
use crate::refusal::Refusal;

/// The map of a listing, loaded into so many lent entries.
pub fn load(text: &[u8], lent_entries: usize) -> Result<Map, Refusal> {
    let runs = read(text)?;
    let (speeds, torques) = runs.axes(text.len())?;
    let speeds = within(&speeds, &SPEED_RULE)?;
    let torques = within(&torques, &TORQUE_RULE)?;
    if !rising(&speeds) || !rising(&torques) {
        return Err(Refusal::at(5, 0));
    }
    if !first_torque_allowed(&torques) {
        return Err(Refusal::at(6, 0));
    }
    let entries = runs.entries()?;
    if lent_entries < entries.len() {
        return Err(Refusal::at(11, entries.len()));
    }
    Ok(Map {
        speeds,
        torques,
        entries,
    })
}

/// The header, then line by line: 41 before 42 in each.
fn read(text: &[u8]) -> Result<Runs, Refusal> {
    let no_header = Refusal::at(40, 0);
    let (header, mut rest) = first_line(text).ok_or(no_header)?;
    if trimmed(header) != HEADER.as_bytes() {
        return Err(no_header);
    }
    let mut runs = Runs::default();
    while !rest.is_empty() {
        let place = text.len() - rest.len();
        let wrong_form = Refusal::at(41, place);
        let (line, behind) = first_line(rest).ok_or(wrong_form)?;
        let row = Row::of(trimmed(line)).ok_or(wrong_form)?;
        if !runs.take(row) {
            return Err(Refusal::at(42, place));
        }
        rest = behind;
    }
    Ok(runs)
}

/// The first line without its line feed, and what is behind that; none without a
/// line feed.
fn first_line(text: &[u8]) -> Option<(&[u8], &[u8])> {
    let end = text.iter().position(|byte| *byte == b'\n')?;
    Some((&text[..end], &text[end + 1..]))
}

/// The part of a line that is left without the spaces and tabs at both its ends.
pub fn trimmed(line: &[u8]) -> &[u8] {
    let is_not_blank = |byte: &u8| !matches!(byte, b' ' | b'\t');
    match (
        line.iter().position(is_not_blank),
        line.iter().rposition(is_not_blank),
    ) {
        (Some(first), Some(last)) => &line[first..=last],
        _ => &[],
    }
}

/// The numbers of a line. A loss is in hundredths of Nm and can be above a u32.
#[derive(Clone, Copy, PartialEq, Eq, Debug)]
struct Row {
    speed: u32,
    torque: u32,
    loss: u64,
}

impl Row {
    /// The row of a trimmed line, if it has the form of one.
    fn of(line: &[u8]) -> Option<Row> {
        let parts: Vec<&[u8]> = line.split(|byte| *byte == b',').collect();
        let [speed, torque, loss] = parts[..] else {
            return None;
        };
        Some(Row {
            speed: whole(speed)?,
            torque: whole(torque)?,
            loss: hundredths(loss)?,
        })
    }
}

/// 1 to 9 digits, the first of them 0 only where it is the only one.
fn whole(digits: &[u8]) -> Option<u32> {
    let is_number = match digits {
        [b'0'] => true,
        [b'1'..=b'9', others @ ..] => others.len() <= 8 && others.iter().all(u8::is_ascii_digit),
        _ => false,
    };
    let value = |number, digit: &u8| 10 * number + u32::from(digit - b'0');
    is_number.then(|| digits.iter().fold(0, value))
}

/// A whole number, a point and two digits.
fn hundredths(loss: &[u8]) -> Option<u64> {
    let (before, behind) = loss.split_at(loss.len().checked_sub(3)?);
    let [b'.', tenths @ b'0'..=b'9', last @ b'0'..=b'9'] = behind else {
        return None;
    };
    let [tenths, last] = [tenths, last].map(|digit| u64::from(digit - b'0'));
    Some(100 * u64::from(whole(before)?) + 10 * tenths + last)
}

/// The rows so far.
#[derive(Default)]
struct Runs {
    rows: Vec<Row>,
    /// How many rows each run has: those of the first run, once a row of another speed
    /// has ended it.
    length: Option<usize>,
}

impl Runs {
    /// Takes the next row in and says whether it keeps its run. In the first run any
    /// torque does.
    fn take(&mut self, row: Row) -> bool {
        let count = self.rows.len();
        if count > 0 && row.speed != self.rows[0].speed {
            self.length.get_or_insert(count);
        }
        let keeps_run = self.length.is_none_or(|length| {
            let place = count % length;
            let has_speed = place == 0 || row.speed == self.rows[count - place].speed;
            has_speed && row.torque == self.rows[place].torque
        });
        self.rows.push(row);
        keeps_run
    }

    /// The speeds of all runs and the torques of the first, with refusal 42 at the
    /// end of the text.
    fn axes(&self, end: usize) -> Result<(Vec<u32>, Vec<u32>), Refusal> {
        let count = self.rows.len();
        let length = self.length.unwrap_or(count);
        let are_counts_allowed = TORQUE_RULE.count.contains(&length)
            && count.is_multiple_of(length)
            && SPEED_RULE.count.contains(&(count / length));
        if !are_counts_allowed {
            return Err(Refusal::at(42, end));
        }
        let runs = self.rows.chunks_exact(length);
        let first_run = &self.rows[..length];
        Ok((
            runs.map(|run| run[0].speed).collect(),
            first_run.iter().map(|row| row.torque).collect(),
        ))
    }

    /// The losses, with refusal 10.
    fn entries(&self) -> Result<Vec<u32>, Refusal> {
        let entry = |row: &Row| {
            let entry = u32::try_from(row.loss).ok()?;
            (entry <= LARGEST_ENTRY).then_some(entry)
        };
        let entries: Option<Vec<u32>> = self.rows.iter().map(entry).collect();
        entries.ok_or(Refusal::at(10, 0))
    }
}

/// The numbers of an axis, with refusal 4.
fn within(numbers: &[u32], rule: &AxisRule) -> Result<Vec<u16>, Refusal> {
    let number = |number: &u32| {
        let number = u16::try_from(*number).ok()?;
        rule.range.contains(&number).then_some(number)
    };
    let axis: Option<Vec<u16>> = numbers.iter().map(number).collect();
    axis.ok_or(Refusal::at(4, 0))
}

fn rising(axis: &[u16]) -> bool {
    axis.windows(2).all(|pair| pair[0] < pair[1])
}

#[cfg(test)]
mod tests {
    use super::*;

    #[test]
    fn blanks_are_spaces_and_tabs_at_both_ends() {
        for (line, left) in [
            ("", ""),
            (" ", ""),
            (" \t \t", ""),
            ("a", "a"),
            ("  a", "a"),
            ("a\t", "a"),
            ("\t a \t b \t", "a \t b"),
            ("a\r", "a\r"),
            ("a \r ", "a \r"),
            ("\u{b}a\u{c}", "\u{b}a\u{c}"),
            ("\u{a0}a\u{3000}", "\u{a0}a\u{3000}"),
            ("\0a\0", "\0a\0"),
        ] {
            assert_eq!(trimmed(line.as_bytes()), left.as_bytes(), "{line:?}");
        }
        // It is a part of the line itself.
        let line = b"\t a b ";
        assert_eq!(trimmed(line).as_ptr(), line[2..].as_ptr());
    }

    #[test]
    fn whole_numbers() {
        for (digits, number) in [
            ("0", 0),
            ("1", 1),
            ("9", 9),
            ("10", 10),
            ("65536", 65_536),
            ("999999999", 999_999_999),
        ] {
            assert_eq!(whole(digits.as_bytes()), Some(number));
        }
        for wrong in [
            "",
            "00",
            "01",
            "1000000000",
            "4294967297",
            "18446744073709551617",
            "-1",
            "+1",
            " 1",
            "1 ",
            "1a",
            "a",
            "1.0",
            "0x1",
            "/",
            ":",
            "\u{b2}",
        ] {
            assert_eq!(whole(wrong.as_bytes()), None, "{wrong:?}");
        }
    }

    #[test]
    fn losses() {
        for (loss, number) in [
            ("0.00", 0),
            ("0.01", 1),
            ("0.10", 10),
            ("12.34", 1_234),
            ("100000.01", 10_000_001),
            ("42949672.96", 1 << 32),
            ("999999999.99", 99_999_999_999),
        ] {
            assert_eq!(hundredths(loss.as_bytes()), Some(number));
        }
        for wrong in [
            "",
            "0",
            "00",
            ".00",
            "0.",
            "0.0",
            "0.000",
            "00.00",
            "01.00",
            "0,00",
            "000",
            "0.0a",
            "0.a0",
            "0.-1",
            "-0.00",
            "+0.00",
            "0..00",
            "0.0.0",
            "1000000000.00",
            "0.00 ",
            "0 .00",
            "0. 0",
            "0.0/",
            "0.:0",
        ] {
            assert_eq!(hundredths(wrong.as_bytes()), None, "{wrong:?}");
        }
    }

    #[test]
    fn rows() {
        let row = Row {
            speed: 1,
            torque: 20,
            loss: 345,
        };
        assert_eq!(Row::of(b"1,20,3.45"), Some(row));
        for wrong in [
            "",
            ",",
            ",,",
            "1,20",
            "1,20,3.45,",
            ",1,20,3.45",
            "1;20;3.45",
        ] {
            assert_eq!(Row::of(wrong.as_bytes()), None, "{wrong}");
        }
    }
}
