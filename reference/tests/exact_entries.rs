//! The cases of `exact_cases` have what they were chosen for, and their bounds are those of the exact entry.
//! The rules are written here once more, in wide whole numbers and without a root: squares are compared.

use reference::component::{self, Kind, Sensor};
use reference::data::SENSOR_RANGES;
use reference::exact::Bounds;
use reference::exact_cases::{MeasuredCase, StandardCase, HALF_SHAFTS, MEASURED, STANDARD};
use reference::loss::{sensor_parts, sensor_uncertainty};
use reference::map;
use reference::wide::Wide;
use std::cmp::Ordering;

/// How many parts of a hundredth of Nm the bounds are whole in.
const BOUND_PARTS: u128 = 10_000_000;
/// A grain in these parts: it is a hundredth part of a hundredth of Nm.
const GRAIN: u128 = BOUND_PARTS / 100;
/// 1 Nm at the input in these parts.
const NEWTON_METRE: u128 = 100 * BOUND_PARTS;

/// A part in grains, as numerator and denominator.
type Part = (u128, u128);

/// a, b, g and h, unrounded.
fn unrounded_parts(numbers: &[u16; 9], torque: u32) -> [Part; 4] {
    let [nominal, sensitivity, zero, calibration, advancement, parasitic, share, difference, span] =
        numbers.map(u128::from);
    let torque = u128::from(torque);
    [
        (sensitivity * difference * torque, 100_000 * span),
        (zero * difference * nominal, 1_000 * span),
        (calibration * nominal * 10, advancement),
        (parasitic * share * nominal, 100_000),
    ]
}

/// The parts of each sensor.
fn all_parts<const SENSORS: usize>(case: &MeasuredCase<SENSORS>) -> [[Part; 4]; SENSORS] {
    std::array::from_fn(|place| unrounded_parts(&case.sensors[place], case.torques[place]))
}

fn common_denominator(parts: &[Part; 4]) -> u128 {
    let divisor = |mut x: u128, mut y: u128| {
        while y > 0 {
            (x, y) = (y, x % y);
        }
        x
    };
    parts
        .iter()
        .fold(1, |all, (_, own)| all / divisor(all, *own) * own)
}

/// aa + bb + 3gg + hh, as numerator and the root of its denominator.
fn sum_of_squares(parts: &[Part; 4]) -> (Wide, u128) {
    let denominator = common_denominator(parts);
    let square = |(numerator, own): Part| {
        let number = Wide::from(numerator) * (denominator / own);
        number * number
    };
    let [a, b, g, h] = parts.map(square);
    (a + b + g * 3 + h, denominator)
}

/// How the root, in the parts of the bounds, stands to a number of them: the squares of both, times 3 x 1,000 x 1,000 x all sensors' denominators squared.
fn compare_root(ratio: u16, parts: &[[Part; 4]], number: u128) -> Ordering {
    let square = |number: u128| Wide::from(number) * number;
    let (mut sum, mut denominator) = (Wide::ZERO, Wide::from(1));
    for (place, parts) in parts.iter().enumerate() {
        let at_wheel = if place == 0 { u128::from(ratio) } else { 1_000 };
        let (own, own_denominator) = sum_of_squares(parts);
        // The sum so far and this sensor's square come over one denominator.
        sum = sum * square(own_denominator) + own * square(at_wheel) * denominator;
        denominator = denominator * square(own_denominator);
    }
    let root_square = sum * 4 * square(GRAIN);
    root_square.cmp(&(square(number) * denominator * square(1_000) * 3))
}

/// Measured loss in the parts of the bounds.
fn loss<const SENSORS: usize>(case: &MeasuredCase<SENSORS>) -> u128 {
    let input = u128::from(case.ratio) * u128::from(case.torques[0]);
    let outputs: u128 = case.torques[1..].iter().copied().map(u128::from).sum();
    (input - 1_000 * outputs) * BOUND_PARTS / 1_000
}

fn five_percent_of_loss<const SENSORS: usize>(case: &MeasuredCase<SENSORS>) -> u128 {
    loss(case) / 20
}

/// 1 Nm times the ratio, in the parts of the bounds.
fn newton_metre_at_wheel<const SENSORS: usize>(case: &MeasuredCase<SENSORS>) -> u128 {
    u128::from(case.ratio) * NEWTON_METRE / 1_000
}

fn five_percent_is_larger<const SENSORS: usize>(case: &MeasuredCase<SENSORS>) -> bool {
    five_percent_of_loss(case) > newton_metre_at_wheel(case)
}

/// The allowance in the parts of the bounds.
fn allowance<const SENSORS: usize>(case: &MeasuredCase<SENSORS>) -> u128 {
    five_percent_of_loss(case).max(newton_metre_at_wheel(case))
}

fn root_is_above_allowance<const SENSORS: usize>(case: &MeasuredCase<SENSORS>) -> bool {
    compare_root(case.ratio, &all_parts(case), allowance(case)).is_gt()
}

/// The cases whose root is above the allowance.
fn with_root<const SENSORS: usize>(cases: &[MeasuredCase<SENSORS>]) -> Vec<MeasuredCase<SENSORS>> {
    let mut cases = cases.to_vec();
    cases.retain(root_is_above_allowance);
    cases
}

/// The root that a bound of the entry stands for: bound - loss + allowance.
fn root_of_bound<const SENSORS: usize>(case: &MeasuredCase<SENSORS>, bound: i64) -> u128 {
    u128::try_from(bound).unwrap() + allowance(case) - loss(case)
}

fn accepted(data: &[u8]) -> bool {
    map::build(data, 4).is_ok()
}

fn apart(one: &Bounds, other: &Bounds) -> bool {
    one.high < other.low || other.high < one.low
}

/// No two of the numbers are equal.
fn all_differ<T: Ord + Copy>(numbers: impl Iterator<Item = T>) -> bool {
    let mut sorted: Vec<T> = numbers.collect();
    sorted.sort_unstable();
    sorted.windows(2).all(|pair| pair[0] < pair[1])
}

/// The number less and plus one, as far as it stays within its range.
fn neighbours(number: u16, lowest: u16, highest: u16) -> Vec<u16> {
    let mut near = vec![number - 1, number + 1];
    near.retain(|number| (lowest..=highest).contains(number));
    near
}

fn expect_accepted<const SENSORS: usize>(cases: &[MeasuredCase<SENSORS>]) {
    for case in cases {
        let built = map::build(&case.data(), 4).unwrap();
        let entry = i64::from(built.entries[1]) * 10_000_000;
        let bounds = case.bounds();
        assert!(bounds.high <= entry && entry < bounds.low + 20_000_000);
        assert!(case.output().abs_diff(100 * u32::from(built.torques[1])) <= 500);
    }
}

#[test]
fn measured_cases_are_accepted() {
    expect_accepted(&MEASURED);
    expect_accepted(&HALF_SHAFTS);
}

fn expect_no_round_number<const SENSORS: usize>(cases: &[MeasuredCase<SENSORS>]) {
    let ratios: Vec<u16> = cases.iter().map(|case| case.ratio).collect();
    assert!(all_differ(ratios.iter()));
    assert!(ratios.iter().all(|ratio| !ratio.is_multiple_of(10)));
    assert!(ratios.iter().any(|ratio| (1_001..2_000).contains(ratio)));
    assert!(ratios.iter().any(|ratio| *ratio > 10_000));
    for case in cases {
        for numbers in case.sensors {
            for (number, (lowest, highest)) in numbers.into_iter().zip(SENSOR_RANGES) {
                assert!((lowest..=highest).contains(&number) && !number.is_multiple_of(10));
            }
            assert!(all_differ(numbers.into_iter()));
        }
        assert!(case.torques.iter().all(|torque| !torque.is_multiple_of(10)));
        assert!(all_differ(case.torques.into_iter()));
        assert!(
            !loss(case).is_multiple_of(BOUND_PARTS),
            "loss in whole hundredths"
        );
    }
}

#[test]
fn measured_numbers_are_not_round() {
    expect_no_round_number(&MEASURED);
    expect_no_round_number(&HALF_SHAFTS);
}

/// The sensors as the second implementation reads them.
fn sensors<const SENSORS: usize>(case: &MeasuredCase<SENSORS>) -> Vec<Sensor> {
    match component::read(&case.data()).unwrap().kind {
        Kind::Measured(measured) => [vec![measured.input], measured.outputs].concat(),
        Kind::Standard => panic!("the case is measured"),
    }
}

fn expect_parts_at_work<const SENSORS: usize>(cases: &[MeasuredCase<SENSORS>]) {
    for case in cases {
        let sensors = sensors(case);
        for (place, parts) in all_parts(case).into_iter().enumerate() {
            let rounded = parts.map(|(numerator, denominator)| numerator.div_ceil(denominator));
            assert_eq!(rounded, sensor_parts(&sensors[place], case.torques[place]));
            for (numerator, denominator) in parts {
                let tenths = 10 * (numerator % denominator);
                assert!(denominator < tenths && tenths < 9 * denominator);
                let reached = |other: &Part| other.0 * denominator <= 10 * numerator * other.1;
                assert!(parts.iter().all(reached), "less than a tenth of another");
            }
        }
    }
}

#[test]
fn parts_are_of_like_size_and_no_whole_grains() {
    expect_parts_at_work(&MEASURED);
    expect_parts_at_work(&HALF_SHAFTS);
}

fn expect_shares<const SENSORS: usize>(cases: &[MeasuredCase<SENSORS>]) {
    for case in cases {
        let sensors = sensors(case);
        let mut shares: [u128; SENSORS] = std::array::from_fn(|place| {
            sensor_uncertainty(sensor_parts(&sensors[place], case.torques[place]))
        });
        shares[0] = (shares[0] * u128::from(case.ratio)).div_ceil(1_000);
        let (least, most) = (shares.iter().min().unwrap(), shares.iter().max().unwrap());
        assert!(*most <= 5 * least);
    }
}

#[test]
fn all_sensors_have_their_share() {
    expect_shares(&MEASURED);
    expect_shares(&HALF_SHAFTS);
}

/// The allowance that the root is above is 1 Nm times the ratio in so many cases, then 5 % of the loss in two.
fn expect_both_allowances<const SENSORS: usize>(cases: &[MeasuredCase<SENSORS>], count: usize) {
    let cases = with_root(cases);
    let found: Vec<bool> = cases.iter().map(five_percent_is_larger).collect();
    let expected = [vec![false; count], vec![true; 2]].concat();
    assert_eq!(found, expected);
}

#[test]
fn both_allowances_occur() {
    expect_both_allowances(&MEASURED, 3);
    expect_both_allowances(&HALF_SHAFTS, 2);
}

fn expect_one_below_the_allowance<const SENSORS: usize>(cases: &[MeasuredCase<SENSORS>]) {
    let (case, others) = cases.split_last().unwrap();
    assert_eq!(with_root(others).len(), others.len());
    // Not below 1 Nm times the ratio: the allowance is 5 % of the loss.
    let compare = |number| compare_root(case.ratio, &all_parts(case), number);
    assert!(compare(allowance(case)).is_lt());
    assert!(compare(newton_metre_at_wheel(case)).is_gt());
    let loss = i64::try_from(loss(case)).unwrap();
    let bounds = case.bounds();
    assert_eq!([bounds.low, bounds.high], [loss; 2]);
    for other in sensor_changed(case) {
        assert_eq!(other.bounds(), bounds);
    }
}

#[test]
fn below_the_allowance_the_entry_is_the_loss() {
    expect_one_below_the_allowance(&MEASURED);
    expect_one_below_the_allowance(&HALF_SHAFTS);
}

fn expect_bounds<const SENSORS: usize>(cases: &[MeasuredCase<SENSORS>]) {
    for case in with_root(cases) {
        let bounds = case.bounds();
        assert_eq!(bounds.high - bounds.low, 1);
        let compare = |bound| {
            let root = root_of_bound(&case, bound);
            compare_root(case.ratio, &all_parts(&case), root)
        };
        assert!(compare(bounds.low).is_gt() && compare(bounds.high).is_lt());
    }
}

#[test]
fn bounds_are_around_the_exact_entry() {
    expect_bounds(&MEASURED);
    expect_bounds(&HALF_SHAFTS);
}

/// The case with one of the ratio and the torques changed by one.
fn ratio_or_torque_changed<const SENSORS: usize>(
    case: &MeasuredCase<SENSORS>,
) -> Vec<MeasuredCase<SENSORS>> {
    let mut changed = Vec::new();
    for ratio in neighbours(case.ratio, 1_000, 20_000) {
        changed.push(MeasuredCase {
            ratio,
            ..case.clone()
        });
    }
    for place in 0..SENSORS {
        for torque in [case.torques[place] - 1, case.torques[place] + 1] {
            let mut other = case.clone();
            other.torques[place] = torque;
            changed.push(other);
        }
    }
    changed
}

/// The case with one number of one sensor changed by one.
fn sensor_changed<const SENSORS: usize>(
    case: &MeasuredCase<SENSORS>,
) -> Vec<MeasuredCase<SENSORS>> {
    let mut changed = Vec::new();
    for place in 0..SENSORS {
        for (index, (lowest, highest)) in SENSOR_RANGES.into_iter().enumerate() {
            for number in neighbours(case.sensors[place][index], lowest, highest) {
                let mut other = case.clone();
                other.sensors[place][index] = number;
                changed.push(other);
            }
        }
    }
    changed
}

fn expect_every_number_to_count<const SENSORS: usize>(cases: &[MeasuredCase<SENSORS>]) {
    for case in cases {
        let mut changed = ratio_or_torque_changed(case);
        if root_is_above_allowance(case) {
            changed.extend(sensor_changed(case));
            assert_eq!(changed.len(), 2 * (1 + SENSORS + 9 * SENSORS));
        }
        for other in changed {
            assert!(accepted(&other.data()), "refused: {other:?}");
            assert!(apart(&case.bounds(), &other.bounds()), "{other:?}");
        }
    }
}

#[test]
fn every_measured_number_moves_the_bounds() {
    expect_every_number_to_count(&MEASURED);
    expect_every_number_to_count(&HALF_SHAFTS);
}

fn expect_unrounded_parts<const SENSORS: usize>(cases: &[MeasuredCase<SENSORS>]) {
    for case in with_root(cases) {
        let above = root_of_bound(&case, case.bounds().high);
        for place in 0..SENSORS {
            for index in 0..4 {
                let mut parts = all_parts(&case);
                let (numerator, denominator) = parts[place][index];
                parts[place][index] = (numerator.div_ceil(denominator), 1);
                assert!(compare_root(case.ratio, &parts, above).is_gt());
            }
        }
    }
}

#[test]
fn a_rounded_part_leaves_the_bounds() {
    expect_unrounded_parts(&MEASURED);
    expect_unrounded_parts(&HALF_SHAFTS);
}

#[test]
fn each_side_has_its_own_sensor() {
    for case in with_root(&HALF_SHAFTS) {
        let mut other = case.clone();
        other.torques.swap(1, 2);
        assert!(apart(&case.bounds(), &other.bounds()));
        other.sensors.swap(1, 2);
        assert_eq!(case.bounds(), other.bounds());
    }
}

/// Efficiency in percent and T0 in Nm of the five lines; T1 is 20 Nm for all.
const TABLE: [(i64, i64); 5] = [(98, 70), (96, 80), (96, 80), (97, 70), (95, 90)];

#[test]
fn standard_bounds_are_around_the_exact_loss() {
    for case in STANDARD {
        assert!(accepted(&case.data()));
        let (efficiency, drag) = TABLE[usize::from(case.line) - 1];
        let (ratio, torque) = (i64::from(case.ratio), i64::from(case.torque));
        // In hundredths of Nm, times the efficiency.
        let exact = (100 * drag + 2 * ratio) * efficiency + 100 * torque * (100 - efficiency);
        assert_ne!(exact % efficiency, 0, "a whole number of hundredths");
        let bounds = case.bounds();
        assert_eq!(bounds.high - bounds.low, 1);
        assert!(bounds.low * efficiency < exact * 10_000_000);
        assert!(exact * 10_000_000 < bounds.high * efficiency);
    }
}

#[test]
fn every_line_has_two_standard_cases() {
    for line in 1..=5 {
        assert_eq!(STANDARD.iter().filter(|case| case.line == line).count(), 2);
    }
    assert!(all_differ(STANDARD.iter().map(|case| case.ratio)));
    assert!(all_differ(STANDARD.iter().map(|case| case.torque)));
    assert!(STANDARD.iter().all(|case| !case.ratio.is_multiple_of(10)));
}

#[test]
fn every_standard_number_moves_the_bounds() {
    for case in STANDARD {
        for ratio in neighbours(case.ratio, 1_000, 20_000) {
            let other = StandardCase {
                ratio,
                ..case.clone()
            };
            assert!(apart(&case.bounds(), &other.bounds()), "{other:?}");
        }
        for torque in neighbours(case.torque, 0, 50_000) {
            let other = StandardCase {
                torque,
                ..case.clone()
            };
            assert!(apart(&case.bounds(), &other.bounds()), "{other:?}");
        }
        for line in 1..=5 {
            let other = StandardCase {
                line,
                ..case.clone()
            };
            // SRT and SP have the same numbers in the table.
            let numbers = |line: u8| TABLE[usize::from(line) - 1];
            let differs = numbers(line) != numbers(case.line);
            assert_eq!(apart(&case.bounds(), &other.bounds()), differs, "{other:?}");
        }
    }
}

#[test]
fn printed_form() {
    // The bounds agree with those of another program in exact fractions.
    assert_eq!(
        MEASURED[0].printed(),
        "measured 1637; 2909 603 328 2331 6236 704 596 286 84; \
         3201 512 415 1658 4441 2609 264 368 47; 174285 284363; 13626605310 13626605311"
    );
    assert_eq!(
        HALF_SHAFTS[0].printed(),
        "measured 1483; 3076 335 83 2007 5284 2417 171 404 25; \
         1808 6994 7484 2563 5072 1774 457 71 54; \
         2639 812 1628 979 1345 1353 307 364 92; \
         184198 119694 152171; 18785187972 18785187973"
    );
    assert_eq!(
        HALF_SHAFTS[2].printed(),
        "measured 3275; 3554 256 161 834 4008 119 712 441 33; \
         6806 884 918 2221 5421 411 712 107 36; \
         5855 892 471 2057 4449 1653 343 298 54; \
         244606 478624 311825; 112720686948 112720686949"
    );
    assert_eq!(
        HALF_SHAFTS[3].printed(),
        "measured 9767; 2292 687 424 1631 5223 342 513 356 75; \
         14762 345 167 3825 7996 714 423 368 28; \
         10084 435 1125 705 1998 1686 276 163 43; \
         177412 759273 949174; 256674725887 256674725888"
    );
    assert_eq!(
        STANDARD[0].printed(),
        "standard 1 2641 613; 135330204081 135330204082"
    );
}
