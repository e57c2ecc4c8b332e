//! The drag of a retarder, reckoned by hand from document 02, and its refusals by C-17.

use axle::{retarder_drag, Refusal};

/// The points that a retarder is measured at, in rpm.
const POINTS: [u32; 13] = [
    200, 400, 600, 900, 1_200, 1_600, 2_000, 2_500, 3_000, 3_500, 4_000, 4_500, 5_000,
];

/// 9.00 Nm at 200 rpm and 13.00 Nm at 400 rpm.
const READINGS: [u32; 2] = [1_000, 1_500];
const BEARING_LOSSES: [u32; 2] = [100, 200];

/// The drags of a table with all points: they rise, fall and are level.
const DRAGS: [u32; 13] = [
    1_000, 1_300, 1_100, 1_400, 1_400, 900, 1_700, 1_600, 2_600, 2_599, 3_100, 0, 10,
];

/// Speeds of the retarder in tenths of rpm with the drag of that table: in each segment where the
/// line is whole, and just beside that.
const IN_SEGMENTS: [(u32, u32); 34] = [
    // 1,000 to 1,300 from 200 to 400 rpm: 3 a 2 rpm.
    (3_000, 1_150),
    (3_001, 1_151), // 1,150.15
    (2_999, 1_150), // 1,149.85
    // 1,300 to 1,100 from 400 to 600 rpm: 1 a rpm.
    (5_000, 1_200),
    (5_001, 1_200), // 1,199.9
    (4_999, 1_201), // 1,200.1
    // 1,100 to 1,400 from 600 to 900 rpm: 1 a rpm.
    (7_000, 1_200),
    (7_001, 1_201), // 1,200.1
    (8_999, 1_400), // 1,399.9
    // 1,400 from 900 to 1,200 rpm.
    (9_001, 1_400),
    (10_007, 1_400),
    // 1,400 to 900 from 1,200 to 1,600 rpm: 5 a 4 rpm.
    (14_000, 1_150),
    (14_001, 1_150), // 1,149.875
    (15_000, 1_025),
    (14_999, 1_026), // 1,025.125
    // 900 to 1,700 from 1,600 to 2,000 rpm: 2 a rpm.
    (17_000, 1_100),
    (17_001, 1_101), // 1,100.2
    (19_995, 1_699),
    // 1,700 to 1,600 from 2,000 to 2,500 rpm: 1 a 5 rpm.
    (22_500, 1_650),
    (22_549, 1_650), // 1,649.02
    (22_550, 1_649),
    // 1,600 to 2,600 from 2,500 to 3,000 rpm: 2 a rpm.
    (27_000, 2_000),
    (27_001, 2_001), // 2,000.2
    // 2,600 to 2,599 from 3,000 to 3,500 rpm.
    (30_001, 2_600), // 2,599.9998
    (34_999, 2_600), // 2,599.0002
    // 2,599 to 3,100 from 3,500 to 4,000 rpm: 501 a 500 rpm.
    (36_000, 2_700), // 2,699.2
    (37_500, 2_850), // 2,849.5
    (39_999, 3_100), // 3,099.8998
    // 3,100 to 0 from 4,000 to 4,500 rpm: 6.2 a rpm.
    (42_500, 1_550),
    (44_999, 1), // 0.62
    // 0 to 10 from 4,500 to 5,000 rpm: 1 a 50 rpm.
    (45_001, 1), // 0.002
    (45_500, 1),
    (45_501, 2),  // 1.002
    (49_999, 10), // 9.998
];

const MOST: u32 = 10_000_000;

type Answer = Result<u32, Refusal>;

fn refused(number: u32) -> Answer {
    Err(Refusal {
        number,
        place: 0,
        index: None,
    })
}

/// Asked of the two readings.
fn asked(ratio: u32, speed: u32) -> Answer {
    retarder_drag(&READINGS, &BEARING_LOSSES, ratio, speed)
}

/// At a retarder speed in tenths of rpm, with drags that are measured as they are.
fn at(drags: &[u32], speed: u32) -> Answer {
    retarder_drag(drags, &vec![0; drags.len()], 1_000, speed)
}

#[test]
fn between_two_points() {
    // At 300 rpm, half of the way; at 266.6 rpm: 900 + 400 × 66.6 / 200 = 1,033.2.
    assert_eq!(asked(1_500, 2_000), Ok(1_100));
    assert_eq!(asked(1_333, 2_000), Ok(1_034));
    // Falling: 1,500 - 500 × 100.1 / 200 = 1,249.75.
    assert_eq!(at(&[1_500, 1_000], 3_001), Ok(1_250));
    // The same retarder speed, however it comes about: 250 rpm.
    for (ratio, speed) in [
        (100, 25_000),
        (250, 10_000),
        (1_000, 2_500),
        (2_500, 1_000),
        (10_000, 250),
    ] {
        assert_eq!(asked(ratio, speed), Ok(1_000));
    }
}

/// The retarder speed has four digits after the point, and none of them is dropped.
#[test]
fn the_retarder_speed_is_not_rounded() {
    // 200.0002 rpm: 900 + 400 × 0.0002 / 200 is above 900.
    assert_eq!(asked(101, 19_802), Ok(901));
    assert_eq!(asked(100, 20_000), Ok(900));
    // 399.9999 rpm: 1 from the end of a line of 2,000,000, falling and rising.
    assert_eq!(retarder_drag(&[2_000_000, 0], &[0, 0], 667, 5_997), Ok(1));
    let rising = retarder_drag(&[0, 2_000_000], &[0, 0], 667, 5_997);
    assert_eq!(rising, Ok(1_999_999));
    // 899.9999 rpm: 1 below the end of a line of 3,000,000.
    let drags = [0, 0, 0, 3_000_000];
    let close = retarder_drag(&drags, &[0; 4], 2_999, 3_001);
    assert_eq!(close, Ok(2_999_999));
}

#[test]
fn at_a_point_its_drag() {
    for count in 2..=POINTS.len() {
        for (point, drag) in POINTS.iter().zip(DRAGS).take(count) {
            assert_eq!(
                at(&DRAGS[..count], 10 * point),
                Ok(drag),
                "{point} of {count}"
            );
        }
    }
    // Alone among drags of 0, and 0 alone among others.
    for (index, point) in POINTS.iter().enumerate() {
        let mut drags = [0; 13];
        drags[index] = 777;
        assert_eq!(at(&drags, 10 * point), Ok(777), "{point}");
        let mut drags = [777; 13];
        drags[index] = 0;
        assert_eq!(at(&drags, 10 * point), Ok(0), "{point}");
    }
}

#[test]
fn in_every_segment() {
    for (speed, drag) in IN_SEGMENTS {
        assert_eq!(at(&DRAGS, speed), Ok(drag), "{speed}");
    }
}

/// Only the differences count, and the drag is rounded once: neither the readings nor the bearing
/// losses are rounded alone.
#[test]
fn readings_less_bearing_losses() {
    let (readings, losses) = ([1_011, 1_312], [11, 12]);
    // 1,000 to 1,300: at 300.1 rpm 1,150.15; readings 1,161.6505 and losses 11.5005 apart: 1,162 less 12.
    let drag = retarder_drag(&readings, &losses, 1_000, 3_001);
    assert_eq!(drag, Ok(1_151));
    assert_eq!(retarder_drag(&[5, 7], &[5, 7], 1_000, 3_000), Ok(0));
    assert_eq!(retarder_drag(&[6, 7], &[5, 7], 1_000, 3_999), Ok(1));
}

#[test]
fn a_ratio_within_its_limits() {
    assert_eq!(asked(100, 20_000), Ok(900));
    assert_eq!(asked(100, 40_000), Ok(1_300));
    assert_eq!(asked(10_000, 200), Ok(900));
    assert_eq!(asked(10_000, 400), Ok(1_300));
    for ratio in [0, 1, 99, 10_001, 65_536 + 1_000, u32::MAX] {
        for speed in [0, 200, 3_000, 30_000, u32::MAX] {
            assert_eq!(asked(ratio, speed), refused(45), "{ratio}");
        }
    }
}

#[test]
fn a_count_within_its_limits() {
    let numbers = [100; 300];
    for count in 2..=13 {
        assert_eq!(at(&numbers[..count], 2_000), Ok(100));
    }
    for count in [0, 1, 14, 15, 256 + 2, 300] {
        assert_eq!(at(&numbers[..count], 2_000), refused(45), "{count}");
    }
    for (readings, losses) in [
        (2, 0),
        (2, 1),
        (2, 3),
        (3, 2),
        (13, 12),
        (13, 14),
        (12, 13),
        (14, 13),
        (0, 2),
        (1, 2),
        (2, 256 + 2),
    ] {
        let answer = retarder_drag(&numbers[..readings], &numbers[..losses], 1_000, 2_000);
        assert_eq!(answer, refused(45), "{readings} and {losses}");
    }
}

/// Every reading is looked at, also those that the answer does not need.
#[test]
fn a_drag_within_its_limits() {
    for count in [2, 5, 13] {
        for wrong in 0..count {
            let (mut readings, mut losses) = (vec![10; count], vec![10; count]);
            for point in POINTS.iter().take(count) {
                assert_eq!(retarder_drag(&readings, &losses, 1_000, 10 * point), Ok(0));
            }
            losses[wrong] = 11;
            for point in POINTS.iter().take(count) {
                let answer = retarder_drag(&readings, &losses, 1_000, 10 * point);
                assert_eq!(answer, refused(46));
            }
            readings[wrong] = MOST + 11;
            let answer =
                |readings: &[u32]| retarder_drag(readings, &losses, 1_000, 10 * POINTS[wrong]);
            assert_eq!(answer(&readings), Ok(MOST));
            readings[wrong] += 1;
            assert_eq!(answer(&readings), refused(46));
        }
    }
    assert_eq!(
        retarder_drag(&[MOST + 1, 0], &[1, 0], 1_000, 2_000),
        Ok(MOST)
    );
    assert_eq!(at(&[MOST, MOST], 3_333), Ok(MOST));
    assert_eq!(at(&[MOST + 1, MOST], 4_000), refused(46));
}

#[test]
fn a_retarder_speed_within_the_points() {
    for count in 2..=13 {
        let last = 10 * POINTS[count - 1];
        assert!(at(&DRAGS[..count], 2_000).is_ok());
        assert!(at(&DRAGS[..count], last).is_ok());
        for outside in [0, 1_999, last + 1, last + 1_000, u32::MAX] {
            assert_eq!(at(&DRAGS[..count], outside), refused(47), "{count}");
        }
    }
    // 199.9998 and 199.9999 rpm, below the first point.
    assert_eq!(asked(999, 2_002), refused(47));
    assert_eq!(asked(1_207, 1_657), refused(47));
    // 5,000.0001 and 5,000.0002 rpm, above the last, and 4,999.9999 rpm: 9.999998.
    let of_all = |ratio, speed| retarder_drag(&DRAGS, &[0; 13], ratio, speed);
    assert_eq!(of_all(739, 67_659), refused(47));
    assert_eq!(of_all(169, 295_858), refused(47));
    assert_eq!(of_all(161, 310_559), Ok(10));
    assert_eq!(of_all(10_000, 5_000), Ok(10));
    assert_eq!(of_all(10_000, 5_001), refused(47));
}

#[test]
fn refusals_in_their_order() {
    let (readings, losses) = ([10, 10], [11, 10]);
    let answer = |ratio, speed| retarder_drag(&readings, &losses, ratio, speed);
    assert_eq!(answer(99, 0), refused(45));
    assert_eq!(answer(100, 0), refused(46));
    assert_eq!(answer(10_000, u32::MAX), refused(46));
    assert_eq!(answer(10_001, u32::MAX), refused(45));
    // More or fewer readings, each with a bearing loss above it, at a speed outside the points.
    assert_eq!(retarder_drag(&[0], &[1], 1_000, 0), refused(45));
    assert_eq!(retarder_drag(&[0; 14], &[1; 14], 1_000, 0), refused(45));
    assert_eq!(retarder_drag(&[0; 2], &[1; 3], 1_000, 0), refused(45));
    assert_eq!(retarder_drag(&[0; 13], &[1; 13], 1_000, 0), refused(46));
    assert_eq!(retarder_drag(&[0; 13], &[0; 13], 1_000, 0), refused(47));
}

#[test]
fn the_widest_numbers() {
    let widest = [u32::MAX; 2];
    assert_eq!(retarder_drag(&widest, &widest, 1_000, 3_000), Ok(0));
    assert_eq!(retarder_drag(&widest, &[0, 0], 1_000, 3_000), refused(46));
    assert_eq!(retarder_drag(&[0, 0], &widest, 1_000, 3_000), refused(46));
    // Falling from 10,000,000 to 0: at 266.6 rpm 0.667 of it.
    let losses = [u32::MAX - MOST, u32::MAX];
    assert_eq!(retarder_drag(&widest, &losses, 1_000, 2_000), Ok(MOST));
    assert_eq!(retarder_drag(&widest, &losses, 1_333, 2_000), Ok(6_670_000));
    assert_eq!(retarder_drag(&widest, &losses, 1_000, 4_000), Ok(0));
    let losses = [u32::MAX - MOST - 1, u32::MAX];
    assert_eq!(retarder_drag(&widest, &losses, 1_000, 4_000), refused(46));
    // Over the widest segment, 4,500 to 5,000 rpm: at 4,999.9999 rpm 2 below the end.
    let mut drags = [0; 13];
    drags[12] = MOST;
    let answer = retarder_drag(&drags, &[0; 13], 161, 310_559);
    assert_eq!(answer, Ok(MOST - 2));
    assert_eq!(asked(10_000, u32::MAX), refused(47));
    // 42,969.7 rpm, which in 32 bits would be 200.2704 rpm.
    assert_eq!(asked(10_000, 429_697), refused(47));
}
