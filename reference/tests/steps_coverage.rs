//! The stored cases of request C-15 have what they must have: each number of a sensor at its ends and beyond them, torques about 100 × N, each step 0 and above, parts that are just whole and just not, squares that are just enough and just not.

use reference::cases::Case;
use reference::data::SENSOR_RANGES;
use reference::loss::SensorSteps;
use reference::refusal::Refusal;
use reference::reply::{reply, Seen};
use reference::steps::checked_steps;
use reference::stored::stored_cases;
use std::collections::BTreeSet;
use std::sync::LazyLock;

/// How many cases were stored before those of this request, and before the loads. They keep their numbers.
const EARLIER_CASES: usize = 8_632;
const CASES_BEFORE_LOADS: usize = 9_704;

/// A sensor's numbers and a torque.
type Input = ([u16; 9], u32);

/// The stored sensors and torques, each once, with their answers.
static ASKED: LazyLock<Vec<(Input, Result<SensorSteps, Refusal>)>> = LazyLock::new(|| {
    let inputs = stored_cases().into_iter().filter_map(|case| match case {
        Case::Steps { sensor, torque } => Some((sensor, torque)),
        _ => None,
    });
    let inputs: BTreeSet<Input> = inputs.collect();
    let answered = |input: Input| (input, checked_steps(input.0, input.1));
    inputs.into_iter().map(answered).collect()
});

fn answered() -> impl Iterator<Item = (Input, SensorSteps)> {
    let all = ASKED.iter();
    all.filter_map(|(input, answer)| Some((*input, answer.ok()?)))
}

fn refused(refusal: Refusal) -> impl Iterator<Item = Input> {
    let all = ASKED.iter();
    all.filter_map(move |(input, answer)| (*answer == Err(refusal)).then_some(*input))
}

/// Refusal 32 of the number with this index.
fn number_refused(index: usize) -> Refusal {
    Refusal {
        number: 32,
        place: 0,
        index: Some(index),
    }
}

const TORQUE_REFUSED: Refusal = Refusal {
    number: 7,
    place: 0,
    index: None,
};

fn limit(sensor: [u16; 9]) -> u32 {
    100 * u32::from(sensor[0])
}

/// The indices of a sensor's numbers that are outside their ranges.
fn wrong_indices(sensor: [u16; 9]) -> Vec<usize> {
    let ranges = SENSOR_RANGES.into_iter().zip(sensor).enumerate();
    let wrong = ranges.filter(|(_, ((lowest, highest), n))| !(lowest..=highest).contains(&n));
    wrong.map(|(index, _)| index).collect()
}

#[test]
fn steps_are_between_earlier_and_later_cases() {
    for (number, case) in stored_cases().iter().enumerate() {
        let is_due = (EARLIER_CASES..CASES_BEFORE_LOADS).contains(&number);
        assert_eq!(case.letter() == 's', is_due, "case {number}");
    }
}

#[test]
fn each_answer_is_that_of_the_first_fault() {
    for ((sensor, torque), answer) in ASKED.iter() {
        let expected = match wrong_indices(*sensor).first() {
            Some(index) => Some(number_refused(*index)),
            None => (*torque > limit(*sensor)).then_some(TORQUE_REFUSED),
        };
        assert_eq!(answer.err(), expected, "{sensor:?} {torque}");
    }
}

#[test]
fn each_number_is_answered_at_both_ends() {
    for (index, (lowest, highest)) in SENSOR_RANGES.into_iter().enumerate() {
        for end in [lowest, highest] {
            let count = answered().filter(|((sensor, _), _)| sensor[index] == end);
            let count = count.count();
            assert!(count >= 20, "number {index} at {end}: {count}");
        }
    }
}

#[test]
fn each_number_is_refused_outside_its_range() {
    for (index, (lowest, highest)) in SENSOR_RANGES.into_iter().enumerate() {
        let inputs: Vec<Input> = refused(number_refused(index)).collect();
        assert!(inputs.len() >= 20, "number {index}: {}", inputs.len());
        let mut numbers = vec![highest + 1, u16::MAX];
        numbers.extend(lowest.checked_sub(1));
        numbers.extend((lowest > 1).then_some(0));
        for number in numbers {
            let alone =
                |(sensor, _): &&Input| sensor[index] == number && wrong_indices(*sensor) == [index];
            assert!(inputs.iter().any(|i| alone(&i)), "{index}: {number}");
        }
    }
}

#[test]
fn a_wrong_number_comes_before_another_and_before_the_torque() {
    for index in 0..9 {
        let inputs: Vec<Input> = refused(number_refused(index)).collect();
        let above = inputs
            .iter()
            .filter(|(sensor, torque)| *torque > limit(*sensor));
        assert!(above.count() >= 5, "number {index} with a torque above");
        for later in index + 1..9 {
            let both = [index, later];
            let found = inputs
                .iter()
                .any(|(sensor, _)| wrong_indices(*sensor) == both);
            assert!(found, "{both:?}");
        }
    }
}

#[test]
fn torques_at_the_limit_and_above() {
    assert!(answered().count() >= 300);
    let answered_at = |torque: fn([u16; 9]) -> u32| {
        let found = answered().filter(|((sensor, at), _)| *at == torque(*sensor));
        found.count()
    };
    assert!(answered_at(|_| 0) >= 20);
    assert!(answered_at(|_| 1) >= 20);
    assert!(answered_at(|sensor| limit(sensor) - 1) >= 20);
    assert!(answered_at(limit) >= 20);
    let above = || refused(TORQUE_REFUSED);
    let just_above = above().filter(|(sensor, torque)| *torque == limit(*sensor) + 1);
    assert!(just_above.count() >= 20);
    let far_above = above().filter(|(sensor, torque)| *torque > limit(*sensor) + 65_535);
    assert!(far_above.count() >= 20);
    for nominal in [1, 50_000] {
        let at = |input: &Input| input.0[0] == nominal && input.1 == limit(input.0);
        let past = |input: &Input| input.0[0] == nominal && input.1 == limit(input.0) + 1;
        assert!(answered().any(|(input, _)| at(&input)), "N {nominal}");
        assert!(above().any(|input| past(&input)), "N {nominal}");
    }
}

#[test]
fn each_step_is_0_and_is_not() {
    for index in 0..5 {
        let zero = answered().filter(|(_, steps)| steps.in_order()[index] == 0);
        let zero = zero.count();
        let above = answered().count() - zero;
        assert!(zero >= 20 && above >= 20, "step {index}: {zero}, {above}");
    }
    // One part alone, and all but one.
    for index in 0..4 {
        let is_zero = |steps: SensorSteps| steps.parts.map(|part| part == 0);
        let mut alone = [true; 4];
        alone[index] = false;
        for pattern in [alone, alone.map(|zero| !zero)] {
            let found = answered().any(|(_, steps)| is_zero(steps) == pattern);
            assert!(found, "{pattern:?}");
        }
    }
}

#[test]
fn parts_are_just_whole_and_just_not() {
    for part in 0..4 {
        let with_remainder = |remainder: fn(u128) -> u128| {
            let found = answered().filter(|(_, steps)| {
                let fraction = steps.unrounded[part];
                let (numerator, denominator) = (fraction.numerator, fraction.denominator);
                numerator > 0 && numerator % denominator == remainder(denominator)
            });
            found.count()
        };
        assert!(with_remainder(|_| 0) >= 8, "part {part} whole");
        assert!(with_remainder(|_| 1) >= 8, "part {part} just above");
        let just_below = with_remainder(|denominator| denominator - 1);
        assert!(just_below >= 8, "part {part} just below");
    }
}

#[test]
fn squares_are_just_enough_and_just_not() {
    let more_than_calibration = |steps: &SensorSteps| {
        let [a, b, _, h] = steps.parts;
        a > 0 && b > 0 && h > 0
    };
    let count = |holds: fn(u128, u128) -> bool| {
        let all = answered().filter(|(_, steps)| more_than_calibration(steps));
        let found = all.filter(|(_, steps)| holds(steps.uncertainty, steps.sum_of_squares));
        found.count()
    };
    assert!(count(|u, needed| 3 * u * u == needed) >= 20);
    assert!(count(|u, needed| 3 * (u - 1) * (u - 1) + 1 == needed) >= 5);
}

#[test]
fn the_tally_counts_what_was_asked() {
    let mut seen = Seen::default();
    let asked = [
        ([10, 0, 0, 0, 1_000, 0, 0, 0, 10], 1_000),
        ([10, 0, 0, 1, 1_000, 0, 0, 0, 10], 999),
        ([10, 0, 0, 1, 1_000, 0, 0, 0, 10], 1_001),
        ([10, 0, 0, 1, 1_000, 0, 0, 0, 10], 1_002),
        ([10, 0, 0, 1, 1_000, 0, 0, 0, 101], 1_001),
    ];
    let lines = asked.map(|(sensor, torque)| {
        let answer = reply(&Case::Steps { sensor, torque }, &mut seen);
        String::from_utf8(answer).unwrap()
    });
    let expected = [
        "steps 0 0 0 0 0\n",
        "steps 0 0 1 0 2\n",
        "refused 7 at 0\n",
        "refused 7 at 0\n",
        "refused 32 at 0 number 8\n",
    ];
    assert_eq!(lines, expected);
    let tally = &seen.steps;
    assert_eq!((tally.answered, tally.answered_at_limit), (2, 1));
    assert_eq!((tally.above_limit, tally.just_above_limit), (2, 1));
    assert_eq!(tally.zero, [2, 2, 1, 2, 1]);
    assert_eq!(seen.refused_numbers.count('s', 32, 8), 1);
    assert_eq!(seen.cases[&'s'], 5);
    // The refusals of data and of lent maps are counted without these.
    assert!(seen.refusals.is_empty());
    let text = seen.to_string();
    for line in [
        "sensors asked for their steps: 5\n",
        "steps answered: 2, of these at 100 × N: 1\n",
        "steps answered with 0, by step: a: 2, b: 2, g: 1, h: 2, U: 1\n",
        "steps refused with 7: 2, of these a hundredth above 100 × N: 1\n",
        "refusal 32 of steps by index: 0: 0, 1: 0, 2: 0, 3: 0, 4: 0, 5: 0, 6: 0, 7: 0, 8: 1\n",
    ] {
        assert!(text.contains(line), "{line}{text}");
    }
}

#[test]
fn bytes_of_a_case() {
    let case = Case::Steps {
        sensor: [1_000, 100, 50, 200, 2_000, 30, 256, 255, 16],
        torque: 0x0102_0304,
    };
    let mut expected = b"s".to_vec();
    // No entries, no room, 22 bytes of body, no questions.
    expected.extend([0, 0, 0, 0, 0, 0, 0, 0, 0, 22, 0]);
    expected.extend([0x03, 0xE8, 0, 100, 0, 50, 0, 200, 0x07, 0xD0]);
    expected.extend([0, 30, 1, 0, 0, 255, 0, 16, 1, 2, 3, 4]);
    assert_eq!(case.bytes(), expected);
}
