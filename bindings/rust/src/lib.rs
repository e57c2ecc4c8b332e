//! A safe wrapper of libaxle.a: `include/axle.h` says what each call answers.
//! Slices and arrays carry their lengths, so nothing is left for a caller to keep.
//!
//! Units: speeds of an axis in whole rpm and torques of an axis in whole Nm, both at the wheel;
//! entries, losses and measured torques in hundredths of Nm; a question's speed in tenths of rpm
//! and its torque in hundredths of Nm.
//!
//! Component data is of kind 1 (standard), 2 (measured with one sensor at the output) or 3
//! (measured with one on each half-shaft, left and right). Every call that takes component data or
//! its map takes all three alike; `docs/FORMAT.md` has them byte by byte. `Numbers` makes such data,
//! `Map::load` takes in a listing, `Map::losses` answers many questions to one map in one call,
//! `Sensor::steps` the steps of one sensor's uncertainty, and `retarder_drag` the drag of a retarder.
//!
//! ```
//! let data = [
//!     1, 0, 1, 1, 2, 0, 1, 1, 3, 0, 2, 11, 184, 4, 0, 4, 0, 100, 0, 200, 5, 0, 4, 0, 0, 3, 232,
//! ];
//! let map = axle::Map::build(&data)?;
//! assert_eq!(map.loss(1_000, 50_000)?, 14_021); // 140.21 Nm at 100.0 rpm and 500.00 Nm
//! # Ok::<(), axle::Refusal>(())
//! ```

mod c;
mod grid;
mod losses;
mod numbers;
mod refusal;
mod retarder;
mod steps;

pub use grid::Grid;
pub use losses::{losses, LossesRefusal, Point};
pub use numbers::{Numbers, Sensor};
pub use refusal::Refusal;
pub use retarder::retarder_drag;
pub use steps::Steps;

use std::str::FromStr;

/// No map has more entries.
pub const MAXIMUM_ENTRIES: usize = 2_048;

/// No listing that is written has more bytes.
pub const MAXIMUM_LISTING_LENGTH: usize = 65_536;

/// No component data that is accepted has more bytes.
pub const MAXIMUM_FILE_LENGTH: usize = 24_853;

/// Reading may stop after so many bytes: longer data is never accepted, and what follows them
/// changes no answer.
pub const READING_LIMIT: u64 = 32_768;

fn answered<T>(refusal: u32, place: usize, index: Option<usize>, value: T) -> Result<T, Refusal> {
    match refusal {
        0 => Ok(value),
        number => Err(Refusal {
            number,
            place,
            index,
        }),
    }
}

/// An index as C tells it: whether there is one, and the index.
fn index_of(has_index: u32, index: usize) -> Option<usize> {
    match has_index {
        0 => None,
        _ => Some(index),
    }
}

/// Builds the map of component data: its axes, and its entries in hundredths of Nm in the first
/// speeds x torques of the lent entries: all torques of the first speed, then those of the next.
/// Nothing is written past those, and nothing at all where the build is refused. Refusals 1 to 12,
/// 31 and 32; for data of kind 3 the place of 8 is that of the left torque.
pub fn build(data: &[u8], entries: &mut [u32]) -> Result<Grid, Refusal> {
    // The pointers are those of slices, valid for their lengths and apart from each other.
    let built = unsafe {
        c::axle_build(
            data.as_ptr(),
            data.len(),
            entries.as_mut_ptr(),
            entries.len(),
        )
    };
    let grid = Grid {
        speeds: built.speeds,
        speed_count: built.speed_count,
        torques: built.torques,
        torque_count: built.torque_count,
    };
    let index = index_of(built.has_index, built.index);
    answered(built.refusal, built.place, index, grid)
}

/// Loads the map that a listing says: its axes, and its entries in hundredths of Nm in the first
/// speeds x torques of the lent entries, in the order of the rows. Nothing is written past those,
/// and nothing at all where the load is refused. Spaces and tabs at both ends of a line are not
/// looked at. A listing that `listing` writes loads to its own map. Refusals 40; line by line 41 and
/// 42; 42 with the text's length; then, of the whole map, 4, 5, 6 and 10, each at 0, and 11.
pub fn load(text: &[u8], entries: &mut [u32]) -> Result<Grid, Refusal> {
    // The pointers are those of slices, valid for their lengths and apart from each other.
    let loaded = unsafe {
        c::axle_load(
            text.as_ptr(),
            text.len(),
            entries.as_mut_ptr(),
            entries.len(),
        )
    };
    let grid = Grid {
        speeds: loaded.speeds,
        speed_count: loaded.speed_count,
        torques: loaded.torques,
        torque_count: loaded.torque_count,
    };
    answered(loaded.refusal, loaded.place, None, grid)
}

/// The loss in hundredths of Nm at a speed in tenths of rpm and a torque in hundredths of Nm: the
/// entries, linear in torque and in speed between them, rounded up once. It may be negative below
/// the first torque. How near it is to the exact loss `include/axle.h` says for a map that was built;
/// for one that was loaded nothing is said, since its readings are not known. Refusals 22, 20, 21.
pub fn loss(grid: &Grid, entries: &[u32], speed: u32, torque: u32) -> Result<i64, Refusal> {
    // The arrays have all their places, and the entries their length.
    let answer = unsafe {
        c::axle_loss(
            grid.speeds.as_ptr(),
            grid.speed_count,
            grid.torques.as_ptr(),
            grid.torque_count,
            entries.as_ptr(),
            entries.len(),
            speed,
            torque,
        )
    };
    answered(answer.refusal, answer.place, None, answer.loss)
}

/// The nearest grid point, a speed in rpm and a torque in Nm, to a speed in tenths of rpm and a
/// torque in hundredths of Nm; the lower number where two are as near. Refusal 22, for the axes
/// alone.
pub fn nearest(grid: &Grid, speed: u32, torque: u32) -> Result<(u16, u16), Refusal> {
    // The arrays have all their places.
    let answer = unsafe {
        c::axle_nearest(
            grid.speeds.as_ptr(),
            grid.speed_count,
            grid.torques.as_ptr(),
            grid.torque_count,
            speed,
            torque,
        )
    };
    answered(
        answer.refusal,
        answer.place,
        None,
        (answer.speed, answer.torque),
    )
}

/// Writes the listing of a map from the start of the text, and answers its length in bytes: lines
/// of a speed in rpm, a torque in Nm and a loss in Nm. Nothing is written past its length, and
/// nothing at all where it is refused. Refusals 22, 11.
pub fn listing(grid: &Grid, entries: &[u32], text: &mut [u8]) -> Result<usize, Refusal> {
    // The arrays have all their places, the slices their lengths, and the text overlaps nothing.
    let answer = unsafe {
        c::axle_listing(
            grid.speeds.as_ptr(),
            grid.speed_count,
            grid.torques.as_ptr(),
            grid.torque_count,
            entries.as_ptr(),
            entries.len(),
            text.as_mut_ptr(),
            text.len(),
        )
    };
    answered(answer.refusal, answer.place, None, answer.length)
}

/// A map with its own entries. Maps are equal where their axes and entries are.
#[derive(Clone, PartialEq, Eq, Debug)]
pub struct Map {
    grid: Grid,
    entries: Vec<u32>,
}

impl Map {
    /// The map of component data. Refusals 1 to 10, 12, 31 and 32.
    pub fn build(data: &[u8]) -> Result<Map, Refusal> {
        Map::with_entries(|entries| build(data, entries))
    }

    /// The map that a listing says, as `listing` writes it or with spaces and tabs at both ends of
    /// its lines. Refusals 40 to 42, then 4, 5, 6 and 10, each at 0. How near its losses are to exact
    /// ones is not said, since its readings are not known.
    ///
    /// ```
    /// let text = b"speed,torque,loss\n100,0,130.00\n100,1000,150.41\n200,0,130.00\n200,1000,150.41\n";
    /// let map = axle::Map::load(text)?;
    /// assert_eq!(map.loss(1_000, 50_000)?, 14_021); // 140.21 Nm at 100.0 rpm and 500.00 Nm
    /// # Ok::<(), axle::Refusal>(())
    /// ```
    pub fn load(text: &[u8]) -> Result<Map, Refusal> {
        Map::with_entries(|entries| load(text, entries))
    }

    /// The map of a call that is lent the most entries that a map has.
    fn with_entries(
        call: impl FnOnce(&mut [u32]) -> Result<Grid, Refusal>,
    ) -> Result<Map, Refusal> {
        let mut entries = vec![0; MAXIMUM_ENTRIES];
        let grid = call(&mut entries)?;
        entries.truncate(grid.speed_count * grid.torque_count);
        Ok(Map { grid, entries })
    }

    /// The speeds in rpm, two or more, rising.
    pub fn speeds(&self) -> &[u16] {
        &self.grid.speeds[..self.grid.speed_count]
    }

    /// The torques in Nm, two or more, rising.
    pub fn torques(&self) -> &[u16] {
        &self.grid.torques[..self.grid.torque_count]
    }

    /// The entries in hundredths of Nm: all torques of the first speed, then those of the next.
    pub fn entries(&self) -> &[u32] {
        &self.entries
    }

    /// The loss in hundredths of Nm at a speed in tenths of rpm and a torque in hundredths of Nm.
    /// It may be negative below the first torque. Refusals 20, 21.
    pub fn loss(&self, speed: u32, torque: u32) -> Result<i64, Refusal> {
        loss(&self.grid, &self.entries, speed, torque)
    }

    /// The losses in hundredths of Nm at many points, in their order: of each the one that `loss`
    /// answers. It may be negative below the first torque. Refused is the first point that `loss`
    /// refuses, with 20 or 21; 22 is never told, for a `Map` was tested when it was made, nor is 11.
    ///
    /// ```
    /// use axle::{LossesRefusal, Map, Point};
    ///
    /// let text = b"speed,torque,loss\n100,0,130.00\n100,1000,150.41\n200,0,130.00\n200,1000,150.41\n";
    /// let map = Map::load(text)?;
    /// let half = Point { speed: 1_000, torque: 50_000 }; // 100.0 rpm and 500.00 Nm
    /// let full = Point { speed: 1_505, torque: 100_000 };
    /// assert_eq!(map.losses(&[half, full])?, [14_021, 15_041]); // 140.21 Nm and 150.41 Nm
    ///
    /// let above = Point { speed: 1_505, torque: 100_001 };
    /// let refused = map.losses(&[half, above]).unwrap_err();
    /// assert_eq!((refused.refusal.number, refused.point), (21, Some(1)));
    /// # Ok::<(), LossesRefusal>(())
    /// ```
    pub fn losses(&self, points: &[Point]) -> Result<Vec<i64>, LossesRefusal> {
        let mut answers = vec![0; points.len()];
        losses(&self.grid, &self.entries, points, &mut answers)?;
        Ok(answers)
    }

    /// The nearest grid point, a speed in rpm and a torque in Nm, to a speed in tenths of rpm and
    /// a torque in hundredths of Nm.
    pub fn nearest(&self, speed: u32, torque: u32) -> Result<(u16, u16), Refusal> {
        nearest(&self.grid, speed, torque)
    }

    /// The listing of the map: a header, and a line for each entry that has its speed in rpm, its
    /// torque in Nm and the loss in Nm.
    pub fn listing(&self) -> Result<String, Refusal> {
        let mut text = vec![0; MAXIMUM_LISTING_LENGTH];
        let length = listing(&self.grid, &self.entries, &mut text)?;
        text.truncate(length);
        Ok(String::from_utf8(text).expect("a listing is ASCII"))
    }
}

/// The map that a listing says, as `Map::load` takes it in.
impl FromStr for Map {
    type Err = Refusal;

    fn from_str(text: &str) -> Result<Map, Refusal> {
        Map::load(text.as_bytes())
    }
}

#[cfg(test)]
mod tests {
    use super::*;

    #[test]
    fn maps_differ_by_what_counts_alone() {
        let mut grid = Grid {
            speeds: [9; 32],
            speed_count: 2,
            torques: [9; 64],
            torque_count: 1,
        };
        let map = |grid, entries: [u32; 2]| Map {
            grid,
            entries: entries.to_vec(),
        };
        let first = map(grid, [5, 6]);
        assert_ne!(first, map(grid, [5, 7]));
        grid.speeds[2] = 8;
        grid.torques[1] = 8;
        assert_eq!(first, map(grid, [5, 6]));
        assert_eq!(format!("{:?}", first), format!("{:?}", map(grid, [5, 6])));
        grid.torques[0] = 8;
        assert_ne!(first, map(grid, [5, 6]));
    }
}
