//! The losses at many points: the worked cases of document 01 and their refusals, and many points of
//! the examples, each held to the question that is asked alone.

use axle::{build, loss, losses, Grid, LossesRefusal, Map, Point, Refusal};

const STANDARD: &[u8] = include_bytes!("../../../examples/standard.axle");
const MEASURED: &[u8] = include_bytes!("../../../examples/measured.axle");
const HALF_SHAFTS: &[u8] = include_bytes!("../../../examples/half-shafts.axle");
const BENCH_RUN: &[u8] = include_bytes!("../../../examples/bench-run.axle");
const LARGEST: &[u8] = include_bytes!("../../../crates/lossmap/stdin");

/// What stands in lent losses before a call.
const UNTOUCHED: i64 = 7;

const INSIDE: Point = at(1_000, 50_000);
const BELOW: Point = at(999, 0);
const BEYOND: Point = at(2_001, 0);
const ABOVE: Point = at(2_000, 100_001);
const OUTSIDE_BOTH: Point = at(2_001, 100_001);

const fn at(speed: u32, torque: u32) -> Point {
    Point { speed, torque }
}

fn map(data: &[u8]) -> Map {
    Map::build(data).expect("accepted")
}

/// The standard example: its grid and its entries.
fn standard() -> (Grid, [u32; 4]) {
    let mut entries = [0; 4];
    let grid = build(STANDARD, &mut entries).expect("accepted");
    (grid, entries)
}

fn refusal(number: u32, place: usize, point: Option<usize>) -> LossesRefusal {
    let refusal = Refusal {
        number,
        place,
        index: None,
    };
    LossesRefusal { refusal, point }
}

/// Asks the standard example with so many losses lent. A refusal writes none of them.
fn asked(points: &[Point], loss_count: usize) -> Result<Vec<i64>, LossesRefusal> {
    let (grid, entries) = standard();
    let mut lent = vec![UNTOUCHED; loss_count];
    let answer = losses(&grid, &entries, points, &mut lent);
    if answer.is_err() {
        assert_eq!(lent, vec![UNTOUCHED; loss_count]);
    }
    answer.map(|()| lent)
}

/// The entries are 130.00 Nm at 0 Nm and 150.41 Nm at 1,000 Nm, at both speeds.
#[test]
fn in_the_order_of_the_points() {
    let points = [
        INSIDE,
        at(2_000, 100_000),
        at(1_000, 0),
        INSIDE,
        at(1_505, 0),
    ];
    let due = [14_021, 15_041, 13_000, 14_021, 13_000];
    assert_eq!(asked(&points, 5), Ok(due.to_vec()));
    assert_eq!(map(STANDARD).losses(&points), Ok(due.to_vec()));
    assert_eq!(asked(&[INSIDE], 1), Ok(vec![14_021]));
}

/// 27.00 Nm at 1,000 Nm and 300.00 Nm at 3,000 Nm: 0.1365 Nm for each Nm, also below 1,000 Nm.
#[test]
fn losses_under_zero() {
    let points = [
        at(1_500, 0),
        at(1_500, 80_120),
        at(1_500, 80_219),
        at(1_500, 100_000),
        at(1_500, 200_000),
    ];
    // The second and the third are -13.62 and -0.1065 hundredths, rounded towards plus infinity.
    let due = vec![-10_950, -13, 0, 2_700, 16_350];
    assert_eq!(map(MEASURED).losses(&points), Ok(due));
}

#[test]
fn a_map_that_was_loaded() {
    let map = Map::load(include_bytes!("../../../examples/half-shafts.csv")).expect("loaded");
    // 26.00 and 66.00 Nm at 100 rpm, 39.00 and 300.00 Nm at 200 rpm: 46.01 and 169.56525 Nm at
    // 2,000.50 Nm, of which 107.787625 Nm is the middle; and 39.00 less 499.90 × 0.1305 Nm.
    let points = [at(1_000, 300_000), at(1_500, 200_050), at(2_000, 50_010)];
    assert_eq!(map.losses(&points), Ok(vec![6_600, 10_779, -2_623]));
}

#[test]
fn what_is_past_the_points_is_left() {
    for point_count in 0..4 {
        for loss_count in point_count..6 {
            let mut due = vec![UNTOUCHED; loss_count];
            due[..point_count].fill(14_021);
            assert_eq!(asked(&[INSIDE; 4][..point_count], loss_count), Ok(due));
        }
    }
}

#[test]
fn no_points() {
    assert_eq!(asked(&[], 0), Ok(vec![]));
    assert_eq!(asked(&[], 2), Ok(vec![UNTOUCHED; 2]));
    assert_eq!(map(STANDARD).losses(&[]), Ok(vec![]));
    let (grid, entries) = standard();
    let no_map = losses(&grid, &entries[..3], &[], &mut []);
    assert_eq!(no_map, Err(refusal(22, 0, None)));
}

/// Before all else: too few losses are lent too, and every point is outside.
#[test]
fn what_is_no_map() {
    let (grid, entries) = standard();
    let hold = |grid: &Grid, entries: &[u32]| {
        for points in [&[][..], &[INSIDE], &[BELOW, ABOVE, OUTSIDE_BOTH]] {
            for loss_count in 0..4 {
                let mut lent = vec![UNTOUCHED; loss_count];
                let answer = losses(grid, entries, points, &mut lent);
                assert_eq!(answer, Err(refusal(22, 0, None)));
                assert_eq!(lent, vec![UNTOUCHED; loss_count]);
            }
        }
    };
    hold(&grid, &entries[..3]);
    hold(&grid, &[]);
    hold(&grid, &[13_000, 15_041, 13_000, 10_000_001]);
    for count in [0, 1, 33, usize::MAX] {
        let mut other = grid;
        other.speed_count = count;
        hold(&other, &entries);
    }
    let mut other = grid;
    other.torques[0] = 501;
    hold(&other, &entries);
}

/// Before any point is looked at.
#[test]
fn too_few_losses() {
    for point_count in 1..5 {
        let all_outside = [BELOW, ABOVE, OUTSIDE_BOTH, BEYOND];
        for points in [&[INSIDE; 4], &all_outside] {
            for loss_count in 0..point_count {
                let answer = asked(&points[..point_count], loss_count);
                assert_eq!(answer, Err(refusal(11, point_count, None)));
            }
        }
    }
}

#[test]
fn the_first_point_that_is_outside() {
    let outside = [
        (BELOW, 20),
        (BEYOND, 20),
        (ABOVE, 21),
        (OUTSIDE_BOTH, 20),
        (at(u32::MAX, u32::MAX), 20),
        (at(0, 0), 20),
        (at(1_000, u32::MAX), 21),
    ];
    for index in 0..5 {
        for (point, number) in outside {
            let due = Err(refusal(number, 0, Some(index)));
            let mut points = [INSIDE; 5];
            points[index] = point;
            assert_eq!(asked(&points, 5), due);
            assert_eq!(asked(&points, 8), due);
            assert_eq!(map(STANDARD).losses(&points), due);
            for later in [BELOW, ABOVE, OUTSIDE_BOTH] {
                points[index + 1..].fill(later);
                assert_eq!(asked(&points, 5), due);
            }
        }
    }
}

/// The first and the last speed of a map in tenths of rpm, and its last torque in hundredths of Nm.
fn limits(map: &Map) -> (u32, u32, u32) {
    let last = |axis: &[u16]| u32::from(axis[axis.len() - 1]);
    let first_speed = 10 * u32::from(map.speeds()[0]);
    (
        first_speed,
        10 * last(map.speeds()),
        100 * last(map.torques()),
    )
}

/// Points all over a map: each number is what is left of a multiple of a prime.
fn points_of(map: &Map, count: u32) -> Vec<Point> {
    let (first_speed, last_speed, last_torque) = limits(map);
    let points = (0..count).map(|index| {
        let speed = first_speed + index * 7_919 % (last_speed - first_speed + 1);
        at(speed, index * 104_729 % (last_torque + 1))
    });
    points.collect()
}

/// Points just outside a map, with 20, 20, 21 and 20.
fn points_outside(map: &Map) -> [Point; 4] {
    let (first_speed, last_speed, last_torque) = limits(map);
    [
        at(first_speed - 1, last_torque),
        at(last_speed + 1, 0),
        at(first_speed, last_torque + 1),
        at(last_speed + 1, last_torque + 1),
    ]
}

fn examples() -> [Map; 5] {
    [STANDARD, MEASURED, HALF_SHAFTS, BENCH_RUN, LARGEST].map(map)
}

/// Points of the grid, and some just beside them, where they are within it.
fn points_at_the_grid(map: &Map) -> Vec<Point> {
    let (speeds, torques) = (map.speeds(), map.torques());
    let points = speeds.iter().flat_map(|speed| {
        let of_speed = torques.iter();
        of_speed.flat_map(move |torque| {
            let (speed, torque) = (10 * u32::from(*speed), 100 * u32::from(*torque));
            [
                (speed, torque),
                (speed - 1, torque),
                (speed + 1, torque + 1),
            ]
        })
    });
    points
        .map(|(speed, torque)| at(speed, torque))
        .filter(|point| map.loss(point.speed, point.torque).is_ok())
        .collect()
}

#[test]
fn each_loss_is_that_of_a_single_question() {
    for map in examples() {
        for points in [points_of(&map, 4_000), points_at_the_grid(&map)] {
            let single: Result<Vec<i64>, Refusal> = points
                .iter()
                .map(|point| map.loss(point.speed, point.torque))
                .collect();
            let single = single.expect("within the map");
            assert!(single.len() >= map.entries().len());
            assert_eq!(map.losses(&points), Ok(single));
        }
    }
}

/// What refuses a single question, and which question is the first that is refused.
fn first_refused(map: &Map, points: &[Point]) -> Option<LossesRefusal> {
    let mut questions = points.iter().enumerate();
    questions.find_map(|(index, point)| {
        let refusal = map.loss(point.speed, point.torque).err()?;
        Some(LossesRefusal {
            refusal,
            point: Some(index),
        })
    })
}

/// Every 37th of 400 points is outside: number 369 is the last.
#[test]
fn each_refusal_is_that_of_a_single_question() {
    for map in examples() {
        let mut points = points_of(&map, 400);
        let outside = points_outside(&map);
        let replaced = points.iter_mut().skip(36).step_by(37);
        for (point, outside) in replaced.zip(outside.iter().cycle()) {
            *point = *outside;
        }
        let mut refused_count = 0;
        for start in 0..points.len() {
            let points = &points[start..];
            match first_refused(&map, points) {
                Some(refused) => {
                    assert_eq!(map.losses(points), Err(refused));
                    refused_count += 1;
                }
                None => assert!(map.losses(points).is_ok()),
            }
        }
        assert_eq!(refused_count, 370);
    }
}

/// The entries that are lent may be more than the map has; those count alone.
#[test]
fn entries_past_those_of_the_map() {
    let (grid, entries) = standard();
    let more = [entries.as_slice(), &[u32::MAX; 2]].concat();
    let mut lent = [UNTOUCHED; 1];
    assert_eq!(losses(&grid, &more, &[INSIDE], &mut lent), Ok(()));
    assert_eq!(lent, [14_021]);
    assert_eq!(loss(&grid, &more, 1_000, 50_000), Ok(14_021));
}

#[test]
fn refusals_print_with_their_point() {
    let text = |number, place, point| refusal(number, place, point).to_string();
    assert_eq!(
        text(20, 0, Some(0)),
        "refused 20 at 0: speed outside the axis, of point 0 from 0"
    );
    assert_eq!(
        text(21, 0, Some(511)),
        "refused 21 at 0: torque above the axis, of point 511 from 0"
    );
    assert_eq!(
        text(11, 512, None),
        "refused 11 at 512: too little room for the answer (the count needed)"
    );
    assert_eq!(
        text(22, 0, None),
        "refused 22 at 0: not the axes and entries of a map"
    );
}

/// One error serves for the data and for the questions.
#[test]
fn a_refusal_becomes_one_of_no_point() {
    fn answer(data: &[u8], point: Point) -> Result<Vec<i64>, LossesRefusal> {
        Map::build(data)?.losses(&[point])
    }
    assert_eq!(answer(STANDARD, INSIDE), Ok(vec![14_021]));
    assert_eq!(answer(STANDARD, ABOVE), Err(refusal(21, 0, Some(0))));
    assert_eq!(answer(&STANDARD[..26], INSIDE), Err(refusal(1, 20, None)));
    let error: Box<dyn std::error::Error> = Box::new(refusal(22, 0, None));
    assert!(error.to_string().starts_with("refused 22 at 0: "));
}
