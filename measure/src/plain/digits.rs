//! Numbers as text, at most eight characters at once in one word, the first of them in its lowest byte.

/// As many characters as a listing's numbers have.
#[derive(Clone, Copy, Default)]
pub struct Word {
    characters: u64,
    length: usize,
}

/// The character 0 at each of eight places.
const ZEROS: u64 = 0x3030_3030_3030_3030;

/// The eight digits of a number below 100,000,000, as numbers: halved into four digits, then two, then one, at all places at once.
#[inline(always)]
fn eight_digits(number: u32) -> u64 {
    let fours = u64::from(number / 10_000) | (u64::from(number % 10_000) << 32);
    let hundreds = ((fours * 10_486) >> 20) & 0x0000_007F_0000_007F;
    let twos = hundreds | ((fours - 100 * hundreds) << 16);
    let tens = ((twos * 103) >> 10) & 0x000F_000F_000F_000F;
    tens | ((twos - 10 * tens) << 8)
}

/// How many of the first places are 0, of at most so many.
#[inline(always)]
fn leading_zeros(digits: u64, most: u32) -> u32 {
    (digits.trailing_zeros() / 8).min(most)
}

impl Word {
    /// A number of at most seven digits, and a comma.
    pub fn with_comma(number: u32) -> Word {
        let digits = eight_digits(number);
        let zeros = leading_zeros(digits, 7);
        let length = 8 - zeros;
        let comma = u64::from(b',') << (8 * length);
        Word {
            characters: ((digits | ZEROS) >> (8 * zeros)) | comma,
            length: length as usize + 1,
        }
    }

    /// Writes all eight characters and answers how many of them count.
    #[inline(always)]
    pub fn write(self, text: &mut [u8]) -> usize {
        text[..8].copy_from_slice(&self.characters.to_le_bytes());
        self.length
    }
}

/// Writes a loss below 1,000,000.00, in hundredths, and a line feed. It answers how many characters count, at most ten; two more may be written.
#[inline(always)]
pub fn write_loss(loss: u32, text: &mut [u8]) -> usize {
    let digits = eight_digits(loss);
    let zeros = leading_zeros(digits, 5);
    let whole = 6 - zeros as usize;
    let characters = digits | ZEROS;
    text[..8].copy_from_slice(&(characters >> (8 * zeros)).to_le_bytes());
    let behind = u32::from(b'.') | (((characters >> 48) as u32) << 8) | (u32::from(b'\n') << 24);
    text[whole..whole + 4].copy_from_slice(&behind.to_le_bytes());
    whole + 4
}
