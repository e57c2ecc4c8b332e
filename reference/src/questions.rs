//! Questions to a map: on grid lines, inside cells, at the ends, below the first torque, one unit outside, halfway between two grid points.

use crate::random::Source;

pub use crate::lookup::Question;

/// A number on or about an axis whose numbers are so many units each; often below the first where that is answered.
fn about(source: &mut Source, axis: &[u16], unit: u32, answered_below: bool) -> u32 {
    let at = |i: usize| u32::from(axis[i]) * unit;
    let last = axis.len() - 1;
    let cell = source.index(last);
    let (lower, upper) = (at(cell), at(cell + 1));
    match source.below(16) {
        0 => at(0),
        1 => at(last),
        2 => at(0).wrapping_sub(1),
        3 => at(last) + 1,
        4 => (lower + upper) / 2,
        5 => (lower + upper) / 2 + 1,
        6 => lower,
        7 => lower + 1,
        8 => upper - 1,
        9..=11 if answered_below => source.between(0, u64::from(at(0))) as u32,
        12 if source.once_in(4) => source.draw() as u32,
        _ => source.between(u64::from(lower), u64::from(upper)) as u32,
    }
}

/// So many questions to a map with these axes.
pub fn questions(
    source: &mut Source,
    speeds: &[u16],
    torques: &[u16],
    count: usize,
) -> Vec<Question> {
    (0..count)
        .map(|_| Question {
            speed: about(source, speeds, 10, false),
            torque: about(source, torques, 100, true),
        })
        .collect()
}
