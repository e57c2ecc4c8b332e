//! The cases of both comparisons at scale, `reference/compare` and `measure/compare`: the sequences of cases with writes, allowances, refused numbers, steps, loads, drags and many questions in one call among them.

use crate::cases::{self, Case};
use crate::{
    allowance_cases, drag_cases, load_cases, losses_cases, refused_number_cases, steps_cases,
    write_cases,
};

/// Of so many cases by chance one is a write, one is of the allowances, and one is of the refused numbers.
const ROUND: u64 = 8;

/// Of so many cases by chance one is of steps, one is a load, one is a drag, and one is of many questions in one call. Their numbers leave 3 or 7 in a round of the others, so that they take none of their places.
const LATER_ROUND: u64 = 20;
const STEPS_PLACE: u64 = 3;
const LOAD_PLACE: u64 = 7;
const DRAG_PLACE: u64 = 11;
const LOSSES_PLACE: u64 = 15;

/// The cases that do not depend on chance alone.
pub fn systematic(seed: u64) -> Vec<Case> {
    let mut all = cases::systematic(seed);
    all.extend(write_cases::systematic(seed));
    all.extend(allowance_cases::systematic(seed));
    all.extend(refused_number_cases::systematic(seed));
    all.extend(steps_cases::systematic(seed));
    all.extend(load_cases::systematic(seed));
    all.extend(drag_cases::systematic(seed));
    all.extend(losses_cases::systematic(seed));
    all
}

/// A case by chance, of a small map or a large one: by its number steps, a load, a drag, many questions in one call, a write, one of the allowances, one of the refused numbers, or the case that it is without them.
pub fn by_chance(seed: u64, number: u64) -> Case {
    match number % LATER_ROUND {
        STEPS_PLACE => return steps_cases::by_chance(seed, number),
        LOAD_PLACE => return load_cases::by_chance(seed, number, true),
        DRAG_PLACE => return drag_cases::by_chance(seed, number),
        LOSSES_PLACE => return losses_cases::by_chance(seed, number, true),
        _ => {}
    }
    match number % ROUND {
        0 => write_cases::by_chance(seed, number, true),
        1 => allowance_cases::by_chance(seed, number),
        2 => refused_number_cases::by_chance(seed, number),
        _ => cases::by_chance(seed, number, true),
    }
}
