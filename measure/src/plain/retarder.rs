//! The drag of a retarder.

/// The points that readings stand at, in rpm.
const POINTS: [u64; 13] = [
    200, 400, 600, 900, 1_200, 1_600, 2_000, 2_500, 3_000, 3_500, 4_000, 4_500, 5_000,
];

/// How many parts an rpm has: tenths of rpm times thousandths of the ratio.
const PARTS: u64 = 10_000;

const LARGEST_DRAG: u32 = 10_000_000;

/// The drag in hundredths of Nm. Readings and bearing losses are in hundredths of Nm, the ratio in thousandths and the speed of the drive in tenths of rpm.
#[inline(never)]
pub fn drag(readings: &[u32], bearing_losses: &[u32], ratio: u32, speed: u32) -> Option<u32> {
    let points = POINTS.get(..readings.len())?;
    let [first, inner @ .., last] = points else {
        return None;
    };
    if bearing_losses.len() != points.len() || !(100..=10_000).contains(&ratio) {
        return None;
    }
    let mut right = true;
    for (reading, loss) in readings.iter().zip(bearing_losses) {
        right &= (loss <= reading) & (reading.wrapping_sub(*loss) <= LARGEST_DRAG);
    }
    let speed = u64::from(ratio) * u64::from(speed);
    if !right | (speed < PARTS * first) | (PARTS * last < speed) {
        return None;
    }
    let mut lower = 0;
    for point in inner {
        lower += usize::from(PARTS * point <= speed);
    }
    let drag = |i: usize| u64::from(readings[i] - bearing_losses[i]);
    let (before, behind) = (PARTS * points[lower], PARTS * points[lower + 1]);
    let sum = drag(lower) * (behind - speed) + drag(lower + 1) * (speed - before);
    Some(sum.div_ceil(behind - before) as u32)
}
