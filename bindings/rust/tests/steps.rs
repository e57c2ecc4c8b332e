//! The steps of a sensor's uncertainty, reckoned by hand from document 01, and their refusals by
//! document 02, C-15.

use axle::{Refusal, Sensor};

const SMALL: [u16; 9] = [1_000, 100, 50, 200, 2_000, 30, 100, 200, 50];
const LOWEST: [u16; 9] = [1, 0, 0, 0, 1_000, 0, 0, 0, 10];
const HIGHEST: [u16; 9] = [
    50_000, 10_000, 10_000, 10_000, 10_000, 10_000, 1_000, 500, 100,
];

fn steps(numbers: [u16; 9], torque: u32) -> Result<[u64; 5], Refusal> {
    let steps = Sensor::from(numbers).steps(torque)?;
    Ok([
        steps.temperature_on_sensitivity,
        steps.temperature_on_zero,
        steps.calibration,
        steps.parasitic_loads,
        steps.uncertainty,
    ])
}

fn refused(number: u32, index: Option<usize>) -> Result<[u64; 5], Refusal> {
    Err(Refusal {
        number,
        place: 0,
        index,
    })
}

/// The numbers with one of them replaced.
fn with(mut numbers: [u16; 9], index: usize, number: u16) -> [u16; 9] {
    numbers[index] = number;
    numbers
}

#[test]
fn steps_in_the_order_of_the_annex() {
    assert_eq!(steps(SMALL, 50_000), Ok([200, 200, 1_000, 30, 2_027]));
    assert_eq!(steps(SMALL, 100_000), Ok([400, 200, 1_000, 30, 2_066]));
    let calibrated = [10_000, 0, 0, 100, 1_000, 0, 0, 0, 10];
    assert_eq!(steps(calibrated, 34_000), Ok([0, 0, 10_000, 0, 20_000]));
    assert_eq!(steps(LOWEST, 100), Ok([0; 5]));
    // The largest parts there are: the shortest span, and the least advancement.
    let largest = with(with(HIGHEST, 4, 1_000), 8, 10);
    assert_eq!(
        steps(largest, 5_000_000),
        Ok([25_000_000, 25_000_000, 5_000_000, 5_000_000, 42_426_407])
    );
}

/// Each part is a quotient that is whole at first, and a little more than that after.
#[test]
fn parts_are_rounded_up() {
    // b: 50 × 200 × 1,000 / (1,000 × 50); g: 200 × 1,000 × 10 / 2,000; h: 30 × 100 × 1,000 / 100,000
    assert_eq!(steps(SMALL, 0), Ok([0, 200, 1_000, 30, 2_014]));
    // a: 100 × 200 × 250 / (100,000 × 50)
    assert_eq!(steps(SMALL, 250).map(|all| all[0]), Ok(1));
    assert_eq!(steps(SMALL, 251).map(|all| all[0]), Ok(2));
    let larger = with(SMALL, 0, 1_001);
    assert_eq!(steps(larger, 0).map(|all| all[1]), Ok(201));
    assert_eq!(steps(larger, 0).map(|all| all[3]), Ok(31));
    let advanced = with(SMALL, 4, 1_999);
    assert_eq!(steps(advanced, 0).map(|all| all[2]), Ok(1_001));
}

#[test]
fn a_torque_up_to_the_nominal_torque() {
    for numbers in [LOWEST, SMALL, HIGHEST] {
        let limit = 100 * u32::from(numbers[0]);
        assert!(steps(numbers, 0).is_ok());
        assert!(steps(numbers, limit).is_ok());
        assert_eq!(steps(numbers, limit + 1), refused(7, None));
        assert_eq!(steps(numbers, u32::MAX), refused(7, None));
    }
}

/// Each number at both ends of its range and just outside it; 32 comes before 7.
#[test]
fn a_number_out_of_its_range() {
    for index in 0..9 {
        assert!(steps(with(SMALL, index, LOWEST[index]), 100).is_ok());
        assert!(steps(with(SMALL, index, HIGHEST[index]), 100).is_ok());
        let beyond = [HIGHEST[index] + 1, u16::MAX];
        let below = LOWEST[index].checked_sub(1);
        for number in beyond.into_iter().chain(below) {
            for torque in [0, u32::MAX] {
                let answer = steps(with(SMALL, index, number), torque);
                assert_eq!(answer, refused(32, Some(index)));
            }
        }
    }
    assert_eq!(steps([0; 9], 1), refused(32, Some(0)));
    let two_wrong = with(with(SMALL, 8, 9), 4, 999);
    assert_eq!(steps(two_wrong, 0), refused(32, Some(4)));
}
