//! Many questions to one map in one call: refusals 22, 11, 20 and 21 in their order, and what then stands in the room.

use crate::support::*;
use reference::lookup::{loss, losses, LentMap, LossesRefusal, Question};

/// What stands in the room before a call.
const BEFORE: i128 = i128::MAX;

fn map() -> LentMap {
    lent_of(
        &[100, 200, 400],
        &[10, 20, 40],
        &[0, 10, 20, 30, 40, 50, 60, 70, 80],
    )
}

/// Its speeds fall.
fn no_map() -> LentMap {
    let mut map = map();
    map.speeds.numbers.swap(0, 1);
    map
}

/// A speed in tenths of rpm and a torque in hundredths of Nm.
type Point = (u32, u32);

fn questions(points: &[Point]) -> Vec<Question> {
    let points = points.iter().copied();
    points
        .map(|(speed, torque)| Question { speed, torque })
        .collect()
}

/// The answer, and what then stands in a room for so many losses.
fn ask(map: &LentMap, points: &[Point], room: usize) -> (Result<usize, LossesRefusal>, Vec<i128>) {
    let mut room = vec![BEFORE; room];
    let answer = losses(map, &questions(points), &mut room);
    (answer, room)
}

/// The line of the refusal; the room is as it was.
fn refusal(map: &LentMap, points: &[Point], room: usize) -> String {
    let (answer, losses) = ask(map, points, room);
    assert!(losses.iter().all(|loss| *loss == BEFORE), "{losses:?}");
    answer.unwrap_err().to_string()
}

const WITHIN: Point = (1_500, 2_000);
const SLOW: Point = (999, 2_000);
const FAST: Point = (4_001, 2_000);
const HEAVY: Point = (1_500, 4_001);
const FAST_AND_HEAVY: Point = (4_001, 4_001);

#[test]
fn losses_stand_in_the_first_places_in_their_order() {
    let points = [(4_000, 4_000), (1_000, 0), WITHIN, (1_000, 0)];
    let due = [80, -10, 25, -10];
    for more in 0..3 {
        let (answer, room) = ask(&map(), &points, 4 + more);
        assert_eq!(answer, Ok(4));
        assert_eq!(room[..4], due);
        assert_eq!(room[4..], vec![BEFORE; more]);
    }
}

#[test]
fn no_points_are_answered_with_nothing() {
    for room in [0, 1, 3] {
        assert_eq!(ask(&map(), &[], room), (Ok(0), vec![BEFORE; room]));
        assert_eq!(refusal(&no_map(), &[], room), "refused 22 at 0");
    }
}

#[test]
fn room_for_too_few_losses() {
    for count in 1..6 {
        let points = vec![WITHIN; count];
        let due = format!("refused 11 at {count}");
        for room in 0..count {
            assert_eq!(refusal(&map(), &points, room), due);
        }
        assert_eq!(ask(&map(), &points, count), (Ok(count), vec![25; count]));
    }
}

#[test]
fn the_point_that_is_refused_is_told() {
    for count in 1..6 {
        for index in 0..count {
            for (point, number) in [(SLOW, 20), (FAST, 20), (HEAVY, 21), (FAST_AND_HEAVY, 20)] {
                let mut points = vec![WITHIN; count];
                points[index] = point;
                let due = format!("refused {number} at 0 point {index}");
                assert_eq!(refusal(&map(), &points, count), due);
            }
        }
    }
}

#[test]
fn of_two_points_outside_the_earlier_is_told() {
    let map = map();
    let two = |first: Point, second: Point| refusal(&map, &[WITHIN, first, WITHIN, second], 9);
    assert_eq!(two(HEAVY, SLOW), "refused 21 at 0 point 1");
    assert_eq!(two(HEAVY, FAST_AND_HEAVY), "refused 21 at 0 point 1");
    assert_eq!(two(HEAVY, HEAVY), "refused 21 at 0 point 1");
    assert_eq!(two(SLOW, HEAVY), "refused 20 at 0 point 1");
    assert_eq!(two(FAST, SLOW), "refused 20 at 0 point 1");
    assert_eq!(two(WITHIN, FAST), "refused 20 at 0 point 3");
}

#[test]
fn the_whole_call_is_refused_before_its_points() {
    for outside in [SLOW, FAST, HEAVY, FAST_AND_HEAVY] {
        for points in [[outside, WITHIN], [WITHIN, outside]] {
            for room in [0, 1] {
                assert_eq!(refusal(&map(), &points, room), "refused 11 at 2");
            }
            for room in [0, 1, 2, 3] {
                assert_eq!(refusal(&no_map(), &points, room), "refused 22 at 0");
            }
        }
    }
}

/// More points than a case can have.
#[test]
fn each_loss_is_that_of_a_single_question() {
    let map = map();
    let speeds = (1_000..=4_000).step_by(53);
    let points: Vec<Point> = speeds
        .flat_map(|speed| (0..=4_000).step_by(67).map(move |torque| (speed, torque)))
        .collect();
    let (answer, room) = ask(&map, &points, points.len());
    assert_eq!(answer, Ok(points.len()));
    for ((speed, torque), found) in points.into_iter().zip(room) {
        assert_eq!(loss(&map, speed, torque), Ok(found), "{speed} {torque}");
    }
}
