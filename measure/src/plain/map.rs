//! Whether what is lent is a map.

use axle::Grid;

/// In hundredths of Nm.
pub const LARGEST_ENTRY: u32 = 10_000_000;

/// The axes of a grid that keep the rules: as many numbers as are counted.
#[derive(Clone, Copy)]
pub struct Axes<'lent> {
    /// In rpm.
    pub speeds: &'lent [u16],
    /// In Nm.
    pub torques: &'lent [u16],
}

/// Whether each number is above the one before. No number ends the loop, so that it runs on several at once.
#[inline(always)]
fn rises(numbers: &[u16]) -> bool {
    let pairs = numbers.iter().zip(&numbers[1..]);
    pairs.fold(true, |rises, (before, number)| rises & (before < number))
}

impl Axes<'_> {
    /// The axes of a grid, none where one breaks a rule of its field.
    #[inline(always)]
    pub fn of(grid: &Grid) -> Option<Axes<'_>> {
        let speeds = grid.speeds.get(..grid.speed_count)?;
        let torques = grid.torques.get(..grid.torque_count)?;
        let ([lowest_speed, .., highest_speed], [first, second, ..]) = (speeds, torques) else {
            return None;
        };
        let in_range = (1 <= *lowest_speed)
            & (*highest_speed <= 3_000)
            & (torques[torques.len() - 1] <= 50_000)
            & (2 * u32::from(*first) <= u32::from(*second));
        (in_range & rises(speeds) & rises(torques)).then_some(Axes { speeds, torques })
    }
}

/// A map that was tested.
#[derive(Clone, Copy)]
pub struct Map<'lent> {
    pub axes: Axes<'lent>,
    /// In hundredths of Nm, one for each point.
    pub entries: &'lent [u32],
}

impl<'lent> Map<'lent> {
    /// The map that is lent, none where it is none.
    #[inline(always)]
    pub fn of(grid: &'lent Grid, entries: &'lent [u32]) -> Option<Map<'lent>> {
        let axes = Axes::of(grid)?;
        let entries = entries.get(..axes.speeds.len() * axes.torques.len())?;
        (largest(entries) <= LARGEST_ENTRY).then_some(Map { axes, entries })
    }
}

/// The largest entry, found for sixteen places at once.
#[inline(always)]
pub fn largest(entries: &[u32]) -> u32 {
    let mut largest = [0; 16];
    let runs = entries.chunks_exact(largest.len());
    let rest = runs.remainder();
    for run in runs {
        for (largest, entry) in largest.iter_mut().zip(run) {
            *largest = (*largest).max(*entry);
        }
    }
    let of_runs = largest.into_iter().fold(0, u32::max);
    rest.iter().copied().fold(of_runs, u32::max)
}
