//! The axes of a map.

use std::fmt;

/// The axes of a map: speeds in rpm and torques in Nm, both at the wheel, of each as many numbers
/// as its count says. Equality and `Debug` leave out what stands past them.
/// Any grid may be asked: one that breaks a rule is refused with 22.
#[derive(Clone, Copy)]
pub struct Grid {
    pub speeds: [u16; 32],
    pub speed_count: usize,
    pub torques: [u16; 64],
    pub torque_count: usize,
}

/// The first `count` numbers, or all where the count is larger than there are places.
fn counted(numbers: &[u16], count: usize) -> &[u16] {
    &numbers[..count.min(numbers.len())]
}

impl PartialEq for Grid {
    fn eq(&self, other: &Grid) -> bool {
        self.speed_count == other.speed_count
            && self.torque_count == other.torque_count
            && counted(&self.speeds, self.speed_count) == counted(&other.speeds, other.speed_count)
            && counted(&self.torques, self.torque_count)
                == counted(&other.torques, other.torque_count)
    }
}

impl Eq for Grid {}

impl fmt::Debug for Grid {
    fn fmt(&self, f: &mut fmt::Formatter) -> fmt::Result {
        f.debug_struct("Grid")
            .field("speeds", &counted(&self.speeds, self.speed_count))
            .field("speed_count", &self.speed_count)
            .field("torques", &counted(&self.torques, self.torque_count))
            .field("torque_count", &self.torque_count)
            .finish()
    }
}
