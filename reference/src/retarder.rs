//! Document 02, request C-17: the drag of a retarder at a speed of its drive. The
//! points are those of source document 002, 5.1.6.2.1.

use crate::refusal::Refusal;

/// The speeds of the points in rpm. A table holds the first of them.
pub const POINTS: [u32; 13] = [
    200, 400, 600, 900, 1_200, 1_600, 2_000, 2_500, 3_000, 3_500, 4_000, 4_500, 5_000,
];

pub const LEAST_POINTS: usize = 2;

/// The step-up ratio in thousandths.
pub const LOWEST_RATIO: u32 = 100;
pub const HIGHEST_RATIO: u32 = 10_000;

/// In hundredths of Nm.
pub const LARGEST_DRAG: u32 = 10_000_000;

/// Ten-thousandths of rpm: tenths of the drive's rpm times thousandths of the ratio.
const PARTS_OF_RPM: u128 = 10_000;

/// What is handed over for a drag. Nothing of it need be right.
#[derive(Clone, PartialEq, Eq, PartialOrd, Ord, Hash, Debug)]
pub struct RetarderNumbers {
    /// In hundredths of Nm.
    pub readings: Vec<u32>,
    /// In hundredths of Nm.
    pub bearing_losses: Vec<u32>,
    /// In thousandths.
    pub ratio: u32,
    /// Of the drive, in tenths of rpm.
    pub speed: u32,
}

/// The drag in hundredths of Nm. Refused are a ratio or a count outside its limits and
/// readings and bearing losses unequal in number, with 45, then a bearing loss above its
/// reading and a drag above the largest, with 46, then a retarder speed outside the
/// table, with 47; all with place 0.
pub fn drag(numbers: &RetarderNumbers) -> Result<u32, Refusal> {
    let RetarderNumbers {
        readings,
        bearing_losses,
        ratio,
        speed,
    } = numbers;
    let ratio_is_right = (LOWEST_RATIO..=HIGHEST_RATIO).contains(ratio);
    let count_is_right = (LEAST_POINTS..=POINTS.len()).contains(&readings.len());
    if !ratio_is_right || !count_is_right || bearing_losses.len() != readings.len() {
        return Err(Refusal::at(45, 0));
    }
    let drags = drags(readings, bearing_losses)?;
    drag_at(&drags, u128::from(*speed) * u128::from(*ratio))
}

/// The drag at each point: every reading less its bearing loss.
fn drags(readings: &[u32], bearing_losses: &[u32]) -> Result<Vec<u32>, Refusal> {
    let drag = |(reading, bearing_loss): (&u32, &u32)| {
        let drag = reading.checked_sub(*bearing_loss);
        drag.filter(|drag| *drag <= LARGEST_DRAG)
            .ok_or(Refusal::at(46, 0))
    };
    readings.iter().zip(bearing_losses).map(drag).collect()
}

/// A point's speed in ten-thousandths of rpm.
fn point(index: usize) -> u128 {
    u128::from(POINTS[index]) * PARTS_OF_RPM
}

/// The drag at a retarder speed in ten-thousandths of rpm, rounded up once. Where two
/// segments have the speed, both give the same.
fn drag_at(drags: &[u32], speed: u128) -> Result<u32, Refusal> {
    let is_within = |lower: usize| (point(lower)..=point(lower + 1)).contains(&speed);
    let Some(lower) = (0..drags.len() - 1).find(|lower| is_within(*lower)) else {
        return Err(Refusal::at(47, 0));
    };
    let (before, behind) = (point(lower), point(lower + 1));
    let of_lower = u128::from(drags[lower]) * (behind - speed);
    let of_upper = u128::from(drags[lower + 1]) * (speed - before);
    // At most the larger of both drags.
    Ok((of_lower + of_upper).div_ceil(behind - before) as u32)
}
