//! The drag of a retarder.

use crate::{answered, c, Refusal};

/// The drag of a retarder in hundredths of Nm, from what was measured of it as a stand-alone unit.
///
/// The readings are the measured torques in hundredths of Nm at the first 2 to 13 of the points 200,
/// 400, 600, 900, 1200, 1600, 2000, 2500, 3000, 3500, 4000, 4500 and 5000 rpm, as many as there are,
/// and the bearing losses those of the rig at the same points. A point's drag is its reading less its
/// bearing loss. The step-up ratio is in thousandths, 100 to 10,000, and the speed of the drive in
/// tenths of rpm; their product is the speed of the retarder, which is never rounded.
///
/// Between two points the drag is linear, rounded up once: never below the exact line, less than a
/// hundredth above it, and between the drags of the two points. Refusals 45, 46 and 47, in this order
/// and all at 0; below 200 rpm it is 47.
///
/// ```
/// // 10.00 and 15.00 Nm at 200 and 400 rpm, of which the rig's bearings take 1.00 and 2.00 Nm.
/// let drag = axle::retarder_drag(&[1_000, 1_500], &[100, 200], 1_500, 2_000)?;
/// assert_eq!(drag, 1_100); // 11.00 Nm where the drive turns with 200.0 rpm and the retarder with 300
/// # Ok::<(), axle::Refusal>(())
/// ```
pub fn retarder_drag(
    readings: &[u32],
    bearing_losses: &[u32],
    ratio: u32,
    speed: u32,
) -> Result<u32, Refusal> {
    // The pointers are those of slices, valid for their lengths.
    let answer = unsafe {
        c::axle_retarder_drag(
            readings.as_ptr(),
            readings.len(),
            bearing_losses.as_ptr(),
            bearing_losses.len(),
            ratio,
            speed,
        )
    };
    answered(answer.refusal, answer.place, None, answer.drag)
}
