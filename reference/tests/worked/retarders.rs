//! Request C-17, retarder drag: cases reckoned by hand, and the rule over cases by chance, each multiplied out.

use crate::support::*;
use reference::cases::Case;
use reference::drag_cases::by_chance;
use reference::refusal::Refusal;
use reference::retarder::{self, RetarderNumbers, POINTS};

const SEED: u64 = 17;

fn drag(readings: &[u32], bearing_losses: &[u32], ratio: u32, speed: u32) -> Result<u32, Refusal> {
    retarder::drag(&RetarderNumbers {
        readings: readings.to_vec(),
        bearing_losses: bearing_losses.to_vec(),
        ratio,
        speed,
    })
}

/// Drags of 900 at 200 rpm and 1,300 at 400 rpm.
fn of_two(ratio: u32, speed: u32) -> Result<u32, Refusal> {
    drag(&[1_000, 1_500], &[100, 200], ratio, speed)
}

#[test]
fn the_speed_is_the_product_and_is_not_rounded() {
    assert_eq!(of_two(1_500, 2_000), Ok(1_100));
    // 266.6 rpm: 5,166 / 5.
    assert_eq!(of_two(1_333, 2_000), Ok(1_034));
    assert_eq!(of_two(1_000, 2_000), Ok(900));
    // 199.9998 rpm would be 200.0 in tenths, 200.0002 rpm too; and 199.9999 rpm.
    assert_eq!(of_two(999, 2_002), refused(47, 0));
    assert_eq!(of_two(101, 19_802), Ok(901));
    assert_eq!(of_two(1_207, 1_657), refused(47, 0));
    // 400.0 and 400.1 rpm; 399.9999 rpm; the largest speed.
    assert_eq!(of_two(1_000, 4_000), Ok(1_300));
    assert_eq!(of_two(1_000, 4_001), refused(47, 0));
    assert_eq!(of_two(1_999, 2_001), Ok(1_300));
    assert_eq!(of_two(10_000, u32::MAX), refused(47, 0));
}

#[test]
fn under_the_first_point_the_drag_is_not_held() {
    let level = |speed| drag(&[500, 500], &[0, 0], 1_000, speed);
    assert_eq!(level(2_000), Ok(500));
    assert_eq!(level(1_999), refused(47, 0));
    assert_eq!(level(0), refused(47, 0));
}

#[test]
fn a_falling_drag_is_rounded_up() {
    let drag = |speed| drag(&[1_500, 1_000], &[0, 0], 1_000, speed);
    assert_eq!(drag(3_001), Ok(1_250));
    assert_eq!(drag(3_000), Ok(1_250));
    assert_eq!(drag(2_999), Ok(1_251));
}

/// The points are cut to the count of readings; at one that two segments share it is the drag measured there.
#[test]
fn all_points_of_tables_of_each_count() {
    let readings: Vec<u32> = (0..13).map(|index| 7 * index * index + 3).collect();
    for count in 2..=13 {
        let bearing_losses = vec![2; count];
        let at = |speed| drag(&readings[..count], &bearing_losses, 100, 100 * speed);
        for (index, point) in POINTS.into_iter().enumerate() {
            let due = if index < count {
                Ok(readings[index] - 2)
            } else {
                refused(47, 0)
            };
            assert_eq!(at(point), due, "{count} points at {point} rpm");
        }
        assert_eq!(at(POINTS[count - 1] + 1), refused(47, 0));
    }
}

#[test]
fn the_first_refusal_is_told() {
    let with = |ratio| drag(&[10, 10], &[11, 0], ratio, 0);
    assert_eq!(with(99), refused(45, 0));
    assert_eq!(with(100), refused(46, 0));
    assert_eq!(with(10_000), refused(46, 0));
    assert_eq!(with(10_001), refused(45, 0));
    assert_eq!(drag(&[10], &[11], 1_000, 0), refused(45, 0));
    assert_eq!(drag(&[10; 14], &[11; 14], 1_000, 0), refused(45, 0));
    assert_eq!(drag(&[10; 3], &[11; 2], 1_000, 0), refused(45, 0));
    assert_eq!(drag(&[10; 2], &[11; 3], 1_000, 0), refused(45, 0));
    assert_eq!(drag(&[], &[], 1_000, 0), refused(45, 0));
}

#[test]
fn drags_at_their_limits() {
    let first = |reading, bearing_loss| drag(&[reading, 0], &[bearing_loss, 0], 1_000, 2_000);
    assert_eq!(first(10_000_001, 1), Ok(10_000_000));
    assert_eq!(first(10_000_001, 0), refused(46, 0));
    assert_eq!(first(u32::MAX, u32::MAX), Ok(0));
    // A reading that the speed does not need.
    let third = |reading| drag(&[0, 0, reading], &[0; 3], 1_000, 2_000);
    assert_eq!(third(10_000_000), Ok(0));
    assert_eq!(third(10_000_001), refused(46, 0));
}

/// The number of the refusal that is due, or else the least drag that reaches the exact one.
fn due(numbers: &RetarderNumbers) -> Result<i128, u8> {
    let counts = (numbers.readings.len(), numbers.bearing_losses.len());
    let counts_are_right = (2..=13).contains(&counts.0) && counts.0 == counts.1;
    if !(100..=10_000).contains(&numbers.ratio) || !counts_are_right {
        return Err(45);
    }
    let pairs = numbers.readings.iter().zip(&numbers.bearing_losses);
    let drags: Vec<i128> = pairs
        .map(|(reading, loss)| i128::from(*reading) - i128::from(*loss))
        .collect();
    if drags.iter().any(|drag| *drag < 0 || *drag > 10_000_000) {
        return Err(46);
    }
    let parts = i128::from(numbers.ratio) * i128::from(numbers.speed);
    let points = POINTS.map(|point| 10_000 * i128::from(point));
    let last = drags.len() - 1;
    if parts < points[0] || parts > points[last] {
        return Err(47);
    }
    // From the upper point down; the drag of the point itself at a point.
    let upper = points.iter().position(|point| *point >= parts).unwrap();
    let lower = upper.saturating_sub(1);
    let width = (points[upper] - points[lower]).max(1);
    let fall = (drags[upper] - drags[lower]) * (points[upper] - parts);
    Ok(drags[upper] - fall.div_euclid(width))
}

/// The refusal of each case in words of this file, and each answer reckoned from the upper point.
#[test]
fn each_answer_is_the_due_one() {
    let (mut answered, mut refused) = (0, 0);
    for number in 0..20_000 {
        let Case::Drag(numbers) = by_chance(SEED, number) else {
            panic!("not a drag");
        };
        let answer = retarder::drag(&numbers);
        match due(&numbers) {
            Ok(drag) => {
                assert_eq!(answer.map(i128::from), Ok(drag), "{numbers:?}");
                answered += 1;
            }
            Err(number) => {
                let told = answer.map_err(|told| (told.number, told.place, told.index));
                assert_eq!(told, Err((number, 0, None)), "{numbers:?}");
                refused += 1;
            }
        }
    }
    assert!(answered > 5_000 && refused > 5_000, "{answered} {refused}");
}
