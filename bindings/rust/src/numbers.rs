//! The numbers of component data, and the file that is made of them.

use crate::{answered, c, index_of, Grid, Refusal, MAXIMUM_FILE_LENGTH};

/// A torque sensor, with document 01's letter of each number.
#[derive(Clone, Copy, PartialEq, Eq, Debug, Default)]
pub struct Sensor {
    /// N, nominal torque, Nm.
    pub nominal: u16,
    /// w, influence of temperature on sensitivity, ppm.
    pub sensitivity: u16,
    /// z, influence of temperature on zero, ppm.
    pub zero: u16,
    /// c, calibration, ppm.
    pub calibration: u16,
    /// k, calibration advancement, thousandths.
    pub advancement: u16,
    /// s, parasitic sensitivity, ppm.
    pub parasitic: u16,
    /// p, parasitic share, thousandths.
    pub share: u16,
    /// d, temperature difference, tenths of K.
    pub difference: u16,
    /// R, reference span, K.
    pub span: u16,
}

impl Sensor {
    /// The nine numbers in the order of the data: N, w, z, c, k, s, p, d, R.
    pub fn numbers(&self) -> [u16; 9] {
        [
            self.nominal,
            self.sensitivity,
            self.zero,
            self.calibration,
            self.advancement,
            self.parasitic,
            self.share,
            self.difference,
            self.span,
        ]
    }
}

/// From the nine numbers in the order of the data: N, w, z, c, k, s, p, d, R.
impl From<[u16; 9]> for Sensor {
    fn from(numbers: [u16; 9]) -> Sensor {
        let [nominal, sensitivity, zero, calibration, advancement, parasitic, share, difference, span] =
            numbers;
        Sensor {
            nominal,
            sensitivity,
            zero,
            calibration,
            advancement,
            parasitic,
            share,
            difference,
            span,
        }
    }
}

/// The numbers of component data, of which `write` makes the file. Any numbers may be given: those
/// that the rules do not allow are refused. Of kind 1 the sensors and the rows are not looked at,
/// of kind 2 the right sensor is not.
///
/// ```
/// let numbers = axle::Numbers {
///     kind: 1,
///     line: 1,
///     ratio: 3_000,
///     speeds: vec![100, 200],
///     torques: vec![0, 1_000],
///     ..axle::Numbers::default()
/// };
/// let map = axle::Map::build(&numbers.write()?)?;
/// assert_eq!(map.entries(), [13_000, 15_041, 13_000, 15_041]);
/// # Ok::<(), axle::Refusal>(())
/// ```
#[derive(Clone, PartialEq, Eq, Debug, Default)]
pub struct Numbers {
    /// 1 standard, 2 measured, 3 measured with an output sensor on each half-shaft.
    pub kind: u16,
    /// The axle line, 1 to 5: SR, SRT, SP, HR, HRT.
    pub line: u16,
    /// In thousandths.
    pub ratio: u16,
    /// In rpm at the wheel, 2 to 32 of them, rising.
    pub speeds: Vec<u16>,
    /// In Nm at the wheel, 2 to 64 of them, rising.
    pub torques: Vec<u16>,
    pub input: Sensor,
    /// The output sensor; of kind 3 the left one.
    pub output: Sensor,
    pub right: Sensor,
    /// Measured torques in hundredths of Nm, all points of the first speed, then those of the next:
    /// of each point the input and the output torque, of kind 3 the input, the left and the right
    /// torque.
    pub rows: Vec<u32>,
}

impl Numbers {
    /// The file that says these numbers. It builds. Refusals 3 to 10, 31 and 32, each at 0.
    pub fn write(&self) -> Result<Vec<u8>, Refusal> {
        let mut file = vec![0; MAXIMUM_FILE_LENGTH];
        let length = self.write_to(&mut file)?;
        file.truncate(length);
        Ok(file)
    }

    /// Writes the file from the start of the lent bytes, and answers its length. Nothing is written
    /// past its length, and nothing at all where it is refused. Refusals 3 to 10, 31 and 32, each at
    /// 0, then 30 with the length needed.
    pub fn write_to(&self, file: &mut [u8]) -> Result<usize, Refusal> {
        let grid = Grid {
            speeds: places(&self.speeds),
            speed_count: self.speeds.len(),
            torques: places(&self.torques),
            torque_count: self.torques.len(),
        };
        self.write_on_grid(&grid, file)
    }

    /// The same with the axes of a grid in place of `speeds` and `torques`. Any grid may be given,
    /// with counts of any size; what stands past them means nothing.
    pub fn write_on_grid(&self, grid: &Grid, file: &mut [u8]) -> Result<usize, Refusal> {
        let numbers = c::Numbers {
            kind: self.kind,
            line: self.line,
            ratio: self.ratio,
            speeds: grid.speeds,
            speed_count: grid.speed_count,
            torques: grid.torques,
            torque_count: grid.torque_count,
            input: self.input.numbers(),
            output: self.output.numbers(),
            right: self.right.numbers(),
        };
        // The pointers are those of slices, valid for their lengths and apart from each other.
        let answer = unsafe {
            c::axle_write(
                numbers,
                self.rows.as_ptr(),
                self.rows.len(),
                file.as_mut_ptr(),
                file.len(),
            )
        };
        let index = index_of(answer.has_index, answer.index);
        answered(answer.refusal, answer.place, index, answer.length)
    }
}

/// The places of an axis with its numbers from the first on. What has no place is left out: the
/// count beside them is then one that is refused.
fn places<const PLACES: usize>(numbers: &[u16]) -> [u16; PLACES] {
    let mut places = [0; PLACES];
    for (place, number) in places.iter_mut().zip(numbers) {
        *place = *number;
    }
    places
}
