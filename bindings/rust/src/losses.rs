//! The losses at many points of a map, asked in one call.

use crate::{answered, c, index_of, Grid, Refusal};
use std::fmt;

/// A point of a map that is asked, both numbers at the wheel.
#[repr(C)]
#[derive(Clone, Copy, PartialEq, Eq, Debug, Default)]
pub struct Point {
    /// In tenths of rpm.
    pub speed: u32,
    /// In hundredths of Nm.
    pub torque: u32,
}

/// Why the losses at many points are refused. It prints as the refusal does, and with the point.
#[derive(Clone, Copy, PartialEq, Eq, Debug)]
pub struct LossesRefusal {
    pub refusal: Refusal,
    /// Which point it is of, from 0. None for 22 and 11, which are of no point.
    pub point: Option<usize>,
}

/// A refusal that is of no point, so that `?` serves where a map is made and then asked.
impl From<Refusal> for LossesRefusal {
    fn from(refusal: Refusal) -> LossesRefusal {
        LossesRefusal {
            refusal,
            point: None,
        }
    }
}

impl fmt::Display for LossesRefusal {
    fn fmt(&self, f: &mut fmt::Formatter) -> fmt::Result {
        write!(f, "{}", self.refusal)?;
        match self.point {
            Some(point) => write!(f, ", of point {point} from 0"),
            None => Ok(()),
        }
    }
}

impl std::error::Error for LossesRefusal {}

/// The losses in hundredths of Nm at many points of a map, which is tested once. The loss of each point
/// is exactly the one that `loss` answers for it: as near to the exact loss, and negative or not. It is
/// written to the point's place in the lent losses. Nothing is written past the last point's, and nothing
/// at all where the call is refused. Without points the call is answered, and nothing is written.
///
/// Refusals, in this order: 22; 11 where fewer losses are lent than there are points, with the count of
/// points as its place; then point by point 20 and 21, each at 0, of which the first that is met is told
/// with its point.
///
/// ```
/// let text = b"speed,torque,loss\n100,0,130.00\n100,1000,150.41\n200,0,130.00\n200,1000,150.41\n";
/// let mut entries = [0; axle::MAXIMUM_ENTRIES];
/// let grid = axle::load(text, &mut entries)?;
/// let points = [50_000, 100_000].map(|torque| axle::Point { speed: 1_000, torque });
/// let mut losses = [0; 512];
/// axle::losses(&grid, &entries, &points, &mut losses)?;
/// assert_eq!(losses[..2], [14_021, 15_041]); // 140.21 Nm at 500.00 Nm, 150.41 Nm at 1,000.00 Nm
/// # Ok::<(), axle::LossesRefusal>(())
/// ```
pub fn losses(
    grid: &Grid,
    entries: &[u32],
    points: &[Point],
    losses: &mut [i64],
) -> Result<(), LossesRefusal> {
    // The arrays have all their places, the slices their lengths, and the losses overlap nothing.
    let answer = unsafe {
        c::axle_losses(
            grid.speeds.as_ptr(),
            grid.speed_count,
            grid.torques.as_ptr(),
            grid.torque_count,
            entries.as_ptr(),
            entries.len(),
            points.as_ptr(),
            points.len(),
            losses.as_mut_ptr(),
            losses.len(),
        )
    };
    let point = index_of(answer.has_point, answer.point);
    answered(answer.refusal, answer.place, None, ())
        .map_err(|refusal| LossesRefusal { refusal, point })
}
