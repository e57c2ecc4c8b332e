//! The cases of the comparisons at scale: one in eight by chance is a write, one is of the allowances, one is of the refused numbers; one in twenty is of steps, one is a load, one is a drag, and one is of many questions in one call; and all others are as they are without them. Each index of a refused number and each way in which steps, loads, drags and many questions end occur often enough.

use reference::at_scale::{by_chance, systematic};
use reference::cases::{self, Case};
use reference::reply::{reply, Seen};
use reference::{
    allowance_cases, drag_cases, load_cases, losses_cases, refused_number_cases, steps_cases,
    write_cases,
};

const SEED: u64 = 1;

#[test]
fn one_case_in_eight_or_in_twenty_is_of_each_later_sequence() {
    let (mut steps_count, mut load_count, mut drag_count, mut losses_count) = (0, 0, 0, 0);
    for first in (0..800).step_by(8) {
        let (mut writes, mut allowances, mut refused_numbers) = (0, 0, 0);
        for number in first..first + 8 {
            let case = by_chance(SEED, number).bytes();
            if case == write_cases::by_chance(SEED, number, true).bytes() {
                writes += 1;
            } else if case == allowance_cases::by_chance(SEED, number).bytes() {
                allowances += 1;
            } else if case == refused_number_cases::by_chance(SEED, number).bytes() {
                refused_numbers += 1;
            } else if case == steps_cases::by_chance(SEED, number).bytes() {
                steps_count += 1;
            } else if case == load_cases::by_chance(SEED, number, true).bytes() {
                load_count += 1;
            } else if case == drag_cases::by_chance(SEED, number).bytes() {
                drag_count += 1;
            } else if case == losses_cases::by_chance(SEED, number, true).bytes() {
                losses_count += 1;
            } else {
                let without_them = cases::by_chance(SEED, number, true);
                assert_eq!(case, without_them.bytes(), "{number}");
            }
        }
        let found = (writes, allowances, refused_numbers);
        assert_eq!(found, (1, 1, 1), "from {first} on");
    }
    let counts = [steps_count, load_count, drag_count, losses_count];
    assert_eq!(counts, [800 / 20; 4]);
}

/// A thousand in a million, of those by chance alone and of each letter alone.
#[test]
fn each_index_and_each_end_of_the_later_sequences_occur_once_in_a_thousand_cases() {
    const CASES: u64 = 24_000;
    let mut seen = Seen::default();
    for number in 0..CASES {
        reply(&by_chance(SEED, number), &mut seen);
    }
    let mut counts = seen.refused_numbers.counts();
    assert_eq!(counts.len(), 4 * (1 + 9) + 9);
    counts.extend(seen.steps.counts());
    counts.extend(seen.loads.counts());
    counts.extend(seen.drags.counts());
    counts.extend(seen.many_losses.counts());
    let least = CASES / 1_000;
    let too_few = counts.iter().filter(|(_, count)| *count < least);
    assert_eq!(too_few.collect::<Vec<_>>(), Vec::<&(String, u64)>::new());
}

#[test]
fn systematic_cases_are_those_of_all_sequences() {
    let mut expected = cases::systematic(SEED);
    expected.extend(write_cases::systematic(SEED));
    expected.extend(allowance_cases::systematic(SEED));
    expected.extend(refused_number_cases::systematic(SEED));
    expected.extend(steps_cases::systematic(SEED));
    expected.extend(load_cases::systematic(SEED));
    expected.extend(drag_cases::systematic(SEED));
    expected.extend(losses_cases::systematic(SEED));
    let bytes = |cases: &[Case]| -> Vec<u8> { cases.iter().flat_map(Case::bytes).collect() };
    assert_eq!(bytes(&systematic(SEED)), bytes(&expected));
}
