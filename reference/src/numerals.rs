//! Numbers as a text shows them, in the way of document 01: a comma between thousands, a point before decimals.

/// 1234567 as 1,234,567.
pub fn grouped(number: u128) -> String {
    let digits = number.to_string();
    let mut text = String::new();
    for (place, digit) in digits.chars().enumerate() {
        if place > 0 && (digits.len() - place).is_multiple_of(3) {
            text.push(',');
        }
        text.push(digit);
    }
    text
}

/// A number with so many of its digits after the point: 1234567 with 2 as 12,345.67.
pub fn decimal(number: u128, digits: u32) -> String {
    let one = 10_u128.pow(digits);
    let after_point = format!("{}", one + number % one);
    format!("{}.{}", grouped(number / one), &after_point[1..])
}

/// The same as programs read it, without commas, and without a point where no digit comes after it: 1234567 with 2 as 12345.67.
pub fn bare_decimal(number: u32, digits: u32) -> String {
    if digits == 0 {
        return number.to_string();
    }
    let one = 10_u32.pow(digits);
    let (whole, after_point) = (number / one, number % one);
    format!("{whole}.{after_point:0width$}", width = digits as usize)
}

/// A number that may be negative, its size written in one of these ways.
pub fn signed(number: i128, size: impl Fn(u128) -> String) -> String {
    let sign = if number < 0 { "-" } else { "" };
    sign.to_string() + &size(number.unsigned_abs())
}

/// Each byte as two hexadecimal digits, with a blank between bytes.
pub fn hexadecimal(bytes: &[u8]) -> String {
    let bytes: Vec<String> = bytes.iter().map(|byte| format!("{byte:02X}")).collect();
    bytes.join(" ")
}

/// A number with at most so many digits after the point, times ten for each of them: 1.5 with 2 is 150.
pub fn read_decimal(text: &str, digits: usize) -> Option<u32> {
    let (whole, after_point) = match text.split_once('.') {
        Some((_, "")) => return None,
        Some(parts) => parts,
        None => (text, ""),
    };
    let all_digits = |part: &str| part.bytes().all(|byte| byte.is_ascii_digit());
    let is_number = !whole.is_empty() && all_digits(whole) && all_digits(after_point);
    if !is_number || after_point.len() > digits {
        return None;
    }
    format!("{whole}{after_point:0<digits$}").parse().ok()
}

#[cfg(test)]
mod tests {
    use super::*;

    #[test]
    fn thousands_apart() {
        let texts = [0, 7, 999, 1_000, 12_345, 123_456, 1_234_567].map(grouped);
        let written = ["0", "7", "999", "1,000", "12,345", "123,456", "1,234,567"];
        assert_eq!(texts, written);
    }

    #[test]
    fn digits_after_the_point() {
        assert_eq!(decimal(0, 2), "0.00");
        assert_eq!(decimal(5, 3), "0.005");
        assert_eq!(decimal(1_234_567, 2), "12,345.67");
        assert_eq!(decimal(123_456_700, 5), "1,234.56700");
    }

    #[test]
    fn decimals_for_programs() {
        assert_eq!(bare_decimal(1_234_567, 0), "1234567");
        assert_eq!(bare_decimal(1_234_567, 2), "12345.67");
        assert_eq!(bare_decimal(3_000, 3), "3.000");
        assert_eq!(bare_decimal(5, 2), "0.05");
        assert_eq!(bare_decimal(0, 2), "0.00");
        assert_eq!(bare_decimal(u32::MAX, 2), "42949672.95");
    }

    #[test]
    fn negative_numbers() {
        assert_eq!(signed(-1_234, grouped), "-1,234");
        assert_eq!(signed(-5, |size| decimal(size, 2)), "-0.05");
        assert_eq!(signed(0, grouped), "0");
    }

    #[test]
    fn bytes() {
        assert_eq!(hexadecimal(&[]), "");
        assert_eq!(hexadecimal(&[0, 10, 255]), "00 0A FF");
    }

    #[test]
    fn decimals_are_read() {
        assert_eq!(read_decimal("150", 1), Some(1_500));
        assert_eq!(read_decimal("150.1", 1), Some(1_501));
        assert_eq!(read_decimal("0.05", 2), Some(5));
        assert_eq!(read_decimal("2.5", 2), Some(250));
        assert_eq!(read_decimal("007", 0), Some(7));
        assert_eq!(read_decimal("42949672.95", 2), Some(u32::MAX));
    }

    #[test]
    fn what_is_no_decimal() {
        let wrong = [
            "", ".", "1.", ".5", "-1", "+1", "1,000", "1e3", "0x1", " 1", "1.2.3", "1.-5",
        ];
        for text in wrong {
            assert_eq!(read_decimal(text, 2), None, "{text}");
        }
        assert_eq!(read_decimal("1.05", 1), None);
        assert_eq!(read_decimal("1.50", 1), None);
        assert_eq!(read_decimal("1.0", 0), None);
        assert_eq!(read_decimal("1.5", 0), None);
        assert_eq!(read_decimal("42949672.96", 2), None);
        assert_eq!(read_decimal("99999999999999999999", 0), None);
    }
}
