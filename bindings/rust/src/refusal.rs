//! Refusals and their words.

use std::fmt;

/// The number of a refusal and its place: an offset into the data or the text, the count needed for
/// 11, the length needed for 30, and 0 for a refused question, for refused numbers, for 40, 4, 5, 6
/// and 10 of a listing, and for a refused drag. Where the runs of a listing make no map (42), it is
/// the text's length. It prints with its words, and with the meaning of its place.
#[derive(Clone, Copy, PartialEq, Eq, Debug)]
pub struct Refusal {
    pub number: u32,
    pub place: usize,
    /// Which number of its field it was, from 0: of the ratio (31) number 0, of a sensor (32) the
    /// number in the order of the data. None for every other refusal.
    pub index: Option<usize>,
}

/// The refusal of a sensor's number.
const SENSOR_OUT_OF_RANGE: u32 = 32;

/// The numbers of a sensor in the order of the data.
const SENSOR_NUMBERS: [&str; 9] = [
    "N, nominal torque",
    "w, influence of temperature on sensitivity",
    "z, influence of temperature on zero",
    "c, calibration",
    "k, calibration advancement",
    "s, parasitic sensitivity",
    "p, parasitic share",
    "d, temperature difference",
    "R, reference span",
];

impl fmt::Display for Refusal {
    fn fmt(&self, f: &mut fmt::Formatter) -> fmt::Result {
        write!(f, "refused {} at {}", self.number, self.place)?;
        if let Some(words) = self.words() {
            write!(f, ": {words}")?;
        }
        if let Some((index, name)) = self.sensor_number() {
            write!(f, ": number {index} from 0, {name}")?;
        }
        if let Some(meaning) = self.meaning_of_place() {
            write!(f, " ({meaning})")?;
        }
        Ok(())
    }
}

impl std::error::Error for Refusal {}

impl Refusal {
    /// What each number says. Data whose first field is missing is most often something else.
    fn words(&self) -> Option<&'static str> {
        Some(match self.number {
            1 => "the data ends within a field",
            2 if self.place == 0 => "empty, or not component data",
            2 => "missing or wrong field",
            3 if self.place == 0 => "too few or too many numbers, or a field of a wrong length",
            3 => "field of a wrong length",
            4 => "number out of range",
            5 => "axis number that does not rise",
            6 => "first torque above the step to the second",
            7 => "measured torque above the sensor's nominal torque",
            8 => "output torque more than 5.00 Nm off the axis torque",
            9 => "measured loss under zero",
            10 => "entry above 100000.00 Nm",
            11 => "too little room for the answer",
            12 => "bytes that belong to no field",
            20 => "speed outside the axis",
            21 => "torque above the axis",
            22 => "not the axes and entries of a map",
            30 => "too little room for the file",
            31 => "ratio out of range",
            SENSOR_OUT_OF_RANGE => "sensor number out of range",
            40 => "first line other than speed,torque,loss, or without its line feed",
            41 => "line without the form of a row, or without its line feed",
            42 => "row that breaks its run, or runs that make no map",
            45 => "step-up ratio out of range, or not 2 to 13 readings with as many bearing losses",
            46 => "bearing loss above its reading, or drag above 100000.00 Nm",
            47 => "retarder speed outside the points that have readings",
            _ => return None,
        })
    }

    /// Which number of a sensor it was, and what it is called.
    fn sensor_number(&self) -> Option<(usize, &'static str)> {
        let index = self.index.filter(|_| self.number == SENSOR_OUT_OF_RANGE)?;
        Some((index, SENSOR_NUMBERS.get(index)?))
    }

    /// What the place is, where it has a meaning. Numbers are refused with 3 to 10, 31 and 32 at 0,
    /// and a loaded map with 4, 5, 6 and 10; data is not, but with 3 for its first field.
    fn meaning_of_place(&self) -> Option<&'static str> {
        if self.place == 0 && matches!(self.number, 3..=10 | 31 | 32) {
            return None;
        }
        Some(match self.number {
            1..=3 => "the field's offset",
            4 | 5 | 31 | 32 => "the number's offset",
            6 => "the first torque's offset",
            7 => "the torque's offset",
            8 => "the torque's offset, for kind 3 the left torque's",
            9 | 10 => "the row's offset",
            11 => "the count needed",
            12 => "the first one's offset",
            30 => "the length needed",
            41 => "the line's offset",
            42 => "the line's offset, or the text's length",
            _ => return None,
        })
    }
}
