//! Numbers as they are typed and as they are written.

use crate::failure::Failure;
use std::ffi::OsStr;
use std::fmt::Write;
use std::os::unix::ffi::OsStrExt;

/// A number as it is typed: what it is called, what it is, and the digits after the point.
pub struct Quantity {
    pub name: &'static str,
    pub form: &'static str,
    pub digits: usize,
}

/// In tenths of rpm.
pub const SPEED: Quantity = Quantity {
    name: "SPEED",
    form: "number in rpm",
    digits: 1,
};

/// In hundredths of Nm.
pub const TORQUE: Quantity = Quantity {
    name: "TORQUE",
    form: "number in Nm",
    digits: 2,
};

/// A retarder's step-up ratio, in thousandths.
pub const RATIO: Quantity = Quantity {
    name: "RATIO",
    form: "step-up ratio",
    digits: 3,
};

/// Torques that were measured of a retarder, in hundredths of Nm.
pub const READINGS: Quantity = Quantity {
    name: "READINGS",
    ..TORQUE
};

/// The rig's part of them, in hundredths of Nm.
pub const BEARING_LOSSES: Quantity = Quantity {
    name: "BEARING_LOSSES",
    ..TORQUE
};

/// How many digits are allowed after the point, in words.
const AT_MOST: [&str; 4] = [
    "",
    ", at most one digit after the point",
    ", at most two digits after the point",
    ", at most three digits after the point",
];

/// Why a text is no number of a quantity.
enum Fault {
    Malformed,
    TooLarge,
}

impl Quantity {
    /// The number that the library takes.
    pub fn number(&self, text: &OsStr) -> Result<u32, Failure> {
        self.parsed(text).map_err(Failure::Failed)
    }

    /// The numbers of a list, joined by commas. An empty text has none.
    pub fn list(&self, text: &OsStr) -> Result<Vec<u32>, Failure> {
        if text.is_empty() {
            return Ok(Vec::new());
        }
        let parts: Vec<&[u8]> = text.as_bytes().split(|byte| *byte == b',').collect();
        let numbers = parts.iter().enumerate().map(|(index, part)| {
            let number = self.parsed(OsStr::from_bytes(part));
            number.map_err(|message| {
                let place = format!("number {} of {}", index + 1, parts.len());
                Failure::Failed(format!("{message} ({place})"))
            })
        });
        numbers.collect()
    }

    /// The number. What is wrong where the text is none, or one that is too large.
    pub fn parsed(&self, text: &OsStr) -> Result<u32, String> {
        let number = self.scaled(text);
        number.map_err(|fault| self.message(text, fault))
    }

    /// The number, or the largest there is in its place. What is wrong where the text is none.
    pub fn capped(&self, text: &OsStr) -> Result<u32, String> {
        match self.scaled(text) {
            Err(Fault::TooLarge) => Ok(u32::MAX),
            number => number.map_err(|fault| self.message(text, fault)),
        }
    }

    fn scaled(&self, text: &OsStr) -> Result<u32, Fault> {
        let number = text.to_str().ok_or(Fault::Malformed);
        number.and_then(|text| scaled(text, self.digits))
    }

    fn message(&self, text: &OsStr, fault: Fault) -> String {
        let (name, form) = (self.name, self.form);
        match fault {
            Fault::TooLarge => format!("{name} {text:?} is too large for a {form}"),
            Fault::Malformed => format!(
                "{name} {text:?} is not allowed: a {form} without a sign{}",
                AT_MOST[self.digits]
            ),
        }
    }
}

/// A decimal number with at most so many digits after the point, times ten for each of them.
fn scaled(text: &str, digits: usize) -> Result<u32, Fault> {
    let (whole, part) = match text.split_once('.') {
        None => (text, ""),
        Some((_, "")) => return Err(Fault::Malformed),
        Some(halves) => halves,
    };
    let is_number = |text: &str| text.bytes().all(|byte| byte.is_ascii_digit());
    if whole.is_empty() || part.len() > digits || !is_number(whole) || !is_number(part) {
        return Err(Fault::Malformed);
    }
    let zeros = std::iter::repeat(b'0').take(digits - part.len());
    let mut all = whole.bytes().chain(part.bytes()).chain(zeros);
    let number = all.try_fold(0u32, |number, byte| {
        let digit = u32::from(byte - b'0');
        number.checked_mul(10)?.checked_add(digit)
    });
    number.ok_or(Fault::TooLarge)
}

/// A number of 16 bits. One that is larger becomes the largest, which no range reaches either.
pub fn short(number: u32) -> u16 {
    u16::try_from(number).unwrap_or(u16::MAX)
}

/// Hundredths as numbers with two digits after the point, a line each.
pub fn lines_of_hundredths(numbers: &[i64]) -> Vec<u8> {
    let mut lines = String::new();
    for number in numbers {
        let sign = if *number < 0 { "-" } else { "" };
        let size = number.unsigned_abs();
        let written = writeln!(lines, "{sign}{}.{:02}", size / 100, size % 100);
        written.expect("a String takes every text");
    }
    lines.into_bytes()
}
