//! The stored cases of many questions in one call have what they must have: each refusal at its limit and one past it, faults in pairs in each order, points outside at each place, batches and rooms of each size, points everywhere in a map, negative losses. And each answer is the one that is due.

use reference::cases::Case;
use reference::lookup::{losses, Axis, LentMap, LossesRefusal, Question};
use reference::losses_cases::{self, MOST_QUESTIONS, MOST_ROOM};
use reference::refusal::Refusal;
use reference::reply::{reply, Seen};
use reference::stored::{broken, missing, stored_cases, LOSSES_REFUSALS};
use std::collections::HashSet;
use std::sync::LazyLock;

/// How many cases were stored before these. They keep their numbers.
const EARLIER_CASES: usize = 12_810;

const LARGEST_ENTRY: u32 = 10_000_000;

/// What is lent and asked in one call, and the answer.
struct Call {
    map: LentMap,
    room: usize,
    questions: Vec<Question>,
    answer: Result<Vec<i128>, LossesRefusal>,
}

/// An axis's first and last number, in so many units each.
fn ends(axis: &Axis, unit: u32) -> (u32, u32) {
    let number = |index: usize| unit * u32::from(axis.numbers[index]);
    (number(0), number(axis.count - 1))
}

/// Whether an axis has from two to this many numbers, which rise and stay between these two.
fn holds(axis: &Axis, most: usize, lowest: u16, highest: u16) -> bool {
    let count = axis.count;
    (2..=most).contains(&count)
        && axis.numbers[0] >= lowest
        && axis.numbers[count - 1] <= highest
        && (1..count).all(|index| axis.numbers[index - 1] < axis.numbers[index])
}

impl Call {
    fn of(map: LentMap, room: usize, questions: Vec<Question>) -> Call {
        let mut answered = vec![0; room];
        let answer = losses(&map, &questions, &mut answered);
        Call {
            answer: answer.map(|count| answered[..count].to_vec()),
            map,
            room,
            questions,
        }
    }

    /// Number, place and point of the refusal.
    fn refused(&self) -> Option<(u8, usize, Option<usize>)> {
        let LossesRefusal { refusal, point } = *self.answer.as_ref().err()?;
        Some((refusal.number, refusal.place, point))
    }

    fn refused_with(&self, number: u8) -> bool {
        self.refused().is_some_and(|(found, _, _)| found == number)
    }

    /// The point that the refusal is of.
    fn point(&self) -> Option<usize> {
        self.refused()?.2
    }

    /// The question that the refusal is of.
    fn told(&self) -> Option<&Question> {
        Some(&self.questions[self.point()?])
    }

    fn count(&self) -> usize {
        self.questions.len()
    }

    /// In tenths of rpm.
    fn speed_ends(&self) -> (u32, u32) {
        ends(&self.map.speeds, 10)
    }

    /// In hundredths of Nm.
    fn torque_ends(&self) -> (u32, u32) {
        ends(&self.map.torques, 100)
    }

    fn axes_hold(&self) -> bool {
        holds(&self.map.speeds, 32, 1, 3_000) && holds(&self.map.torques, 64, 0, 50_000)
    }

    fn first_torque_holds(&self) -> bool {
        let torques = &self.map.torques.numbers;
        2 * u32::from(torques[0]) <= u32::from(torques[1])
    }

    /// How many entries the axes need.
    fn needed(&self) -> usize {
        self.map.speeds.count * self.map.torques.count
    }

    /// Those of the lent entries that the axes need, or as many of them as there are.
    fn entries(&self) -> &[u32] {
        let entries = &self.map.entries;
        &entries[..self.needed().min(entries.len())]
    }

    fn is_map(&self) -> bool {
        self.axes_hold()
            && self.first_torque_holds()
            && self.map.entries.len() >= self.needed()
            && self.entries().iter().all(|entry| *entry <= LARGEST_ENTRY)
    }

    fn room_is_short(&self) -> bool {
        self.room < self.count()
    }

    fn is_outside_in_speed(&self, question: &Question) -> bool {
        let (first, last) = self.speed_ends();
        !(first..=last).contains(&question.speed)
    }

    fn is_outside_in_torque(&self, question: &Question) -> bool {
        question.torque > self.torque_ends().1
    }

    /// The places of the points outside, of a map.
    fn places_outside(&self) -> Vec<usize> {
        let is_outside = |question: &Question| {
            self.is_outside_in_speed(question) || self.is_outside_in_torque(question)
        };
        let all = self.questions.iter().enumerate();
        let outside = all.filter(|(_, question)| is_outside(question));
        outside.map(|(index, _)| index).collect()
    }

    /// The answer in words of this file.
    fn due(&self) -> Result<Vec<i128>, (u8, usize, Option<usize>)> {
        if !self.is_map() {
            return Err((22, 0, None));
        }
        if self.room_is_short() {
            return Err((11, self.count(), None));
        }
        match self.places_outside().first() {
            Some(place) if self.is_outside_in_speed(&self.questions[*place]) => {
                Err((20, 0, Some(*place)))
            }
            Some(place) => Err((21, 0, Some(*place))),
            None => {
                let all = self.questions.iter();
                Ok(all.map(|question| due_loss(&self.map, question)).collect())
            }
        }
    }
}

/// Two neighbours on an axis with a number between them, in units of the query; on a number of the axis the lower two, below the first the first two.
struct Between {
    upper_index: usize,
    from_lower: i128,
    to_upper: i128,
}

fn between(axis: &Axis, unit: u32, number: u32) -> Between {
    let at = |index: usize| i128::from(unit) * i128::from(axis.numbers[index]);
    let number = i128::from(number);
    let mut upper = 1..axis.count;
    let upper_index = upper.find(|index| number <= at(*index)).expect("no end");
    Between {
        upper_index,
        from_lower: number - at(upper_index - 1),
        to_upper: at(upper_index) - number,
    }
}

/// The loss along both speeds, then between them, as one fraction rounded up.
fn due_loss(map: &LentMap, question: &Question) -> i128 {
    let speed = between(&map.speeds, 10, question.speed);
    let torque = between(&map.torques, 100, question.torque);
    let along = |speed_index: usize| {
        let upper = speed_index * map.torques.count + torque.upper_index;
        let [lower, upper] = [upper - 1, upper].map(|index| i128::from(map.entries[index]));
        lower * torque.to_upper + upper * torque.from_lower
    };
    let numerator =
        along(speed.upper_index - 1) * speed.to_upper + along(speed.upper_index) * speed.from_lower;
    let width = |between: &Between| between.from_lower + between.to_upper;
    let denominator = width(&speed) * width(&torque);
    let whole = numerator.div_euclid(denominator);
    whole + i128::from(numerator.rem_euclid(denominator) > 0)
}

/// The calls of these cases, each once.
fn calls(cases: impl IntoIterator<Item = Case>) -> Vec<Call> {
    let inputs = cases.into_iter().filter_map(|case| match case {
        Case::Losses {
            map,
            room,
            questions,
        } => Some((map, room, questions)),
        _ => None,
    });
    let inputs: HashSet<(LentMap, usize, Vec<Question>)> = inputs.collect();
    let of = |(map, room, questions)| Call::of(map, room, questions);
    inputs.into_iter().map(of).collect()
}

static CALLS: LazyLock<Vec<Call>> = LazyLock::new(|| calls(stored_cases()));

fn answered() -> impl Iterator<Item = &'static Call> {
    CALLS.iter().filter(|call| call.answer.is_ok())
}

fn refused(number: u8) -> impl Iterator<Item = &'static Call> {
    CALLS.iter().filter(move |call| call.refused_with(number))
}

fn expect_twenty(what: &str, count: usize) {
    assert!(count >= 20, "{what}: {count}");
}

#[test]
fn calls_are_behind_all_other_cases() {
    let cases = stored_cases();
    for (number, case) in cases.iter().enumerate() {
        let is_due = number >= EARLIER_CASES;
        assert_eq!(case.letter() == 'a', is_due, "case {number}");
    }
    let count = cases.len() - EARLIER_CASES;
    assert!((500..=700).contains(&count), "{count}");
}

/// As they fit into the bytes of a case.
fn expect_in_bytes(call: &Call) {
    assert!(call.count() <= MOST_QUESTIONS && call.room <= MOST_ROOM);
    let LentMap {
        speeds, torques, ..
    } = &call.map;
    assert_eq!((speeds.numbers.len(), torques.numbers.len()), (32, 64));
    assert!(call.map.entries.len() <= 2_048);
}

fn expect_due(call: &Call) {
    let found = call.answer.clone();
    let found = found.map_err(|_| call.refused().unwrap());
    assert_eq!(found, call.due(), "{:?}", call.questions);
}

#[test]
fn each_answer_is_the_due_one() {
    CALLS.iter().for_each(expect_in_bytes);
    CALLS.iter().for_each(expect_due);
    for seed in 1..4 {
        let by_chance = (0..1_000).map(|number| losses_cases::by_chance(seed, number, true));
        let others = calls(by_chance.chain(losses_cases::systematic(seed)));
        others.iter().for_each(expect_in_bytes);
        others.iter().for_each(expect_due);
    }
}

#[test]
fn each_refusal_occurs() {
    for number in LOSSES_REFUSALS {
        let name = format!("refusal {number}");
        expect_twenty(&name, refused(number).count());
        let index = refused(number).filter(|call| {
            let refusal = call.answer.as_ref().unwrap_err().refusal;
            refusal.index.is_some()
        });
        assert_eq!(index.count(), 0);
    }
    let answered = answered().count();
    assert!(answered >= 100, "{answered}");
}

#[test]
fn batches_of_each_size_have_room_of_each_size() {
    for count in [1, 2, 3, 8, 17, 128, MOST_QUESTIONS] {
        for room in [count, MOST_ROOM] {
            let is_there = |call: &Call| call.count() == count && call.room == room;
            assert!(answered().any(is_there), "{count} in {room}");
        }
        let is_there = |call: &Call| call.count() == count && call.room == count - 1;
        assert!(refused(11).any(is_there), "{count} in one less");
    }
    for count in [1, 2, 3, 8, 17] {
        let is_there = |call: &Call| call.count() == count && call.room == count + 1;
        assert!(answered().any(is_there), "{count} in one more");
        let is_there = |call: &Call| call.count() == count && call.room == 0;
        assert!(refused(11).any(is_there), "{count} in none");
    }
    for room in [0, 1, MOST_ROOM] {
        let is_there = |call: &Call| call.count() == 0 && call.room == room;
        assert!(answered().any(is_there), "none in {room}");
    }
}

#[test]
fn rooms_are_at_their_limit_and_one_short() {
    let answered_in = |holds: fn(&&Call) -> bool| answered().filter(holds).count();
    let with_points = |holds: fn(&&Call) -> bool| refused(11).filter(holds).count();
    expect_twenty(
        "exactly enough",
        answered_in(|call| call.count() > 0 && call.room == call.count()),
    );
    expect_twenty("more", answered_in(|call| call.room > call.count()));
    expect_twenty("without points", answered_in(|call| call.count() == 0));
    expect_twenty(
        "one short",
        with_points(|call| call.room + 1 == call.count()),
    );
    expect_twenty("none", with_points(|call| call.room == 0));
    let without_others = |call: &&Call| call.places_outside().is_empty();
    expect_twenty("11 alone", refused(11).filter(without_others).count());
}

/// An end of a map's axes: whether a point is on it, and whether it is one unit past it.
struct Limit {
    name: &'static str,
    number: u8,
    is_on: fn(&Call, &Question) -> bool,
    is_past: fn(&Call, &Question) -> bool,
}

const LIMITS: [Limit; 3] = [
    Limit {
        name: "the first speed",
        number: 20,
        is_on: |call, question| question.speed == call.speed_ends().0,
        is_past: |call, question| question.speed == call.speed_ends().0 - 1,
    },
    Limit {
        name: "the last speed",
        number: 20,
        is_on: |call, question| question.speed == call.speed_ends().1,
        is_past: |call, question| question.speed == call.speed_ends().1 + 1,
    },
    Limit {
        name: "the last torque",
        number: 21,
        is_on: |call, question| question.torque == call.torque_ends().1,
        is_past: |call, question| question.torque == call.torque_ends().1 + 1,
    },
];

#[test]
fn points_are_at_their_limits_and_past_them() {
    for limit in LIMITS {
        let is_on = |call: &&Call| call.questions.iter().any(|q| (limit.is_on)(call, q));
        expect_twenty(limit.name, answered().filter(is_on).count());
        let is_past = |call: &&Call| (limit.is_past)(call, call.told().unwrap());
        let past = refused(limit.number).filter(is_past);
        expect_twenty(&format!("past {}", limit.name), past.count());
    }
    let is_told = |number: u8, holds: fn(&Question) -> bool| {
        let mut all = refused(number);
        all.any(|call| holds(call.told().unwrap()))
    };
    assert!(is_told(20, |question| question.speed == 0));
    assert!(is_told(20, |question| question.speed == u32::MAX));
    assert!(is_told(21, |question| question.torque == u32::MAX));
}

/// What holds of a call and of the place of the point that is told.
type OfPlace = fn(&Call, usize) -> bool;

const PLACES: [(&str, OfPlace); 6] = [
    ("the only point", |call, _| call.count() == 1),
    ("the first of more", |call, place| {
        place == 0 && call.count() > 1
    }),
    ("a middle one", |call, place| {
        place > 0 && place + 1 < call.count()
    }),
    ("the last of more", |call, place| {
        place > 0 && place + 1 == call.count()
    }),
    ("the only one outside", |call, _| {
        call.places_outside().len() == 1
    }),
    ("one of several outside", |call, _| {
        call.places_outside().len() > 1
    }),
];

#[test]
fn points_outside_stand_at_each_place() {
    for number in [20, 21] {
        for (name, holds) in PLACES {
            let found = refused(number).filter(|call| holds(call, call.point().unwrap()));
            let count = found.count();
            assert!(count >= 5, "{number}, {name}: {count}");
        }
        let is_furthest = |call: &Call| call.point() == Some(MOST_QUESTIONS - 1);
        assert!(refused(number).any(is_furthest), "{number}");
    }
}

/// Outside of every map: below 1 rpm, above 3,000 rpm or above 50,000 Nm.
fn is_outside_every_map(question: &Question, number: u8) -> bool {
    match number {
        20 => !(10..=30_000).contains(&question.speed),
        _ => question.torque > 5_000_000,
    }
}

#[test]
fn a_refusal_of_the_whole_call_comes_before_the_later_ones() {
    let short = refused(22).filter(|call| call.room_is_short());
    expect_twenty("22 before 11", short.count());
    for number in [20, 21] {
        let outside = refused(22).filter(|call| {
            let mut all = call.questions.iter();
            !call.room_is_short() && all.any(|q| is_outside_every_map(q, number))
        });
        expect_twenty(&format!("22 before {number}"), outside.count());
    }
    let without_points = refused(22).filter(|call| call.count() == 0);
    expect_twenty("22 without points", without_points.count());
    let in_speed = refused(11).filter(|call| {
        let mut all = call.questions.iter();
        all.any(|question| call.is_outside_in_speed(question))
    });
    expect_twenty("11 before 20", in_speed.count());
    let in_torque = refused(11).filter(|call| {
        let mut all = call.questions.iter();
        all.any(|question| call.is_outside_in_torque(question))
    });
    expect_twenty("11 before 21", in_torque.count());
    // Within the room, and behind it.
    let first_outside = |call: &Call| call.places_outside().first().copied();
    let is_in_room = |call: &&Call| first_outside(call).is_some_and(|place| place < call.room);
    expect_twenty(
        "11 before a point in the room",
        refused(11).filter(is_in_room).count(),
    );
    let is_behind = |call: &&Call| first_outside(call).is_some_and(|place| place >= call.room);
    expect_twenty(
        "11 before a point behind it",
        refused(11).filter(is_behind).count(),
    );
}

#[test]
fn of_two_points_outside_the_earlier_is_told() {
    let with_later = |number: u8, in_speed: bool| {
        let found = refused(number).filter(|call| {
            let later = &call.questions[call.point().unwrap() + 1..];
            let mut later = later.iter();
            if in_speed {
                later.any(|question| call.is_outside_in_speed(question))
            } else {
                later.any(|question| call.is_outside_in_torque(question))
            }
        });
        found.count()
    };
    expect_twenty("21 before 20", with_later(21, true));
    expect_twenty("20 before 21", with_later(20, false));
    expect_twenty("20 before 20", with_later(20, true));
    expect_twenty("21 before 21", with_later(21, false));
    let both = refused(20).filter(|call| call.is_outside_in_torque(call.told().unwrap()));
    expect_twenty("20 and 21 at one point", both.count());
}

#[test]
fn maps_are_built_and_put_together() {
    let past_count = |axis: &Axis| axis.numbers[axis.count..].to_vec();
    let is_zero = |call: &&Call| past_count(&call.map.speeds).iter().all(|n| *n == 0);
    let built = answered().filter(is_zero).count();
    expect_twenty("built", built);
    expect_twenty("put together", answered().count() - built);
    let is_largest = |call: &&Call| call.needed() == 2_048;
    assert!(answered().filter(is_largest).count() >= 2);
    let has_largest = |call: &&Call| call.entries().contains(&LARGEST_ENTRY);
    assert!(answered().filter(has_largest).count() >= 4);
    let has_more = |call: &&Call| {
        let past = &call.map.entries[call.needed()..];
        past.iter().any(|entry| *entry > LARGEST_ENTRY)
    };
    assert!(answered().filter(has_more).count() >= 8);
}

type OfCall = fn(&Call) -> bool;

/// How what is lent is no map.
const BROKEN: [(&str, OfCall); 13] = [
    ("too few speeds", |call| call.map.speeds.count < 2),
    ("too many speeds", |call| call.map.speeds.count > 32),
    ("too few torques", |call| call.map.torques.count < 2),
    ("too many torques", |call| call.map.torques.count > 64),
    ("a speed of 0", |call| {
        numbers(&call.map.speeds).contains(&0)
    }),
    ("a speed above 3,000 rpm", |call| {
        numbers(&call.map.speeds).iter().any(|speed| *speed > 3_000)
    }),
    ("a torque above 50,000 Nm", |call| {
        let mut torques = numbers(&call.map.torques).iter();
        torques.any(|torque| *torque > 50_000)
    }),
    ("two equal speeds", |call| has_equal(&call.map.speeds)),
    ("two equal torques", |call| has_equal(&call.map.torques)),
    ("a first torque above the step", |call| {
        call.axes_hold() && !call.first_torque_holds()
    }),
    ("an entry too few", |call| {
        call.axes_hold() && call.map.entries.len() + 1 == call.needed()
    }),
    ("an entry just too large", |call| {
        call.axes_hold() && call.entries().contains(&(LARGEST_ENTRY + 1))
    }),
    ("the largest entry of all", |call| {
        call.axes_hold() && call.entries().contains(&u32::MAX)
    }),
];

/// The numbers that count, of all places where the count is past them.
fn numbers(axis: &Axis) -> &[u16] {
    &axis.numbers[..axis.count.min(axis.numbers.len())]
}

fn has_equal(axis: &Axis) -> bool {
    axis.count <= axis.numbers.len() && numbers(axis).windows(2).any(|pair| pair[0] == pair[1])
}

#[test]
fn maps_are_broken_in_each_way() {
    for (name, is_broken) in BROKEN {
        let count = refused(22).filter(|call| is_broken(call)).count();
        assert!(count >= 2, "{name}: {count}");
    }
}

#[test]
fn points_are_everywhere_in_a_map() {
    let on_axis = |axis: &Axis, unit: u32, asked: u32| {
        let mut numbers = axis.numbers[..axis.count].iter();
        numbers.any(|number| unit * u32::from(*number) == asked)
    };
    let count = |holds: &dyn Fn(&Call, &Question) -> bool| {
        let found = answered().filter(|call| call.questions.iter().any(|q| holds(call, q)));
        found.count()
    };
    let on_speed = |call: &Call, q: &Question| on_axis(&call.map.speeds, 10, q.speed);
    let on_torque = |call: &Call, q: &Question| on_axis(&call.map.torques, 100, q.torque);
    let below = |call: &Call, q: &Question| q.torque < call.torque_ends().0;
    let on_grid = count(&|call, q| on_speed(call, q) && on_torque(call, q));
    expect_twenty("on a point of the grid", on_grid);
    expect_twenty(
        "on a speed",
        count(&|call, q| on_speed(call, q) && !on_torque(call, q)),
    );
    expect_twenty(
        "on a torque",
        count(&|call, q| !on_speed(call, q) && on_torque(call, q)),
    );
    let inside = count(&|call, q| !on_speed(call, q) && !on_torque(call, q) && !below(call, q));
    expect_twenty("inside a cell", inside);
    expect_twenty("below the first torque", count(&below));
    expect_twenty("no torque", count(&|_, q| q.torque == 0));
    let negative = answered().filter(|call| call.due().unwrap().iter().any(|loss| *loss < 0));
    expect_twenty("negative losses", negative.count());
}

/// All cells are asked in one call: from the first to the last, and from the last to the first.
#[test]
fn all_cells_are_asked_in_one_call_in_both_directions() {
    let cells = |call: &Call| -> Vec<(usize, usize)> {
        let cell = |q: &Question| {
            let speed = between(&call.map.speeds, 10, q.speed);
            let torque = between(&call.map.torques, 100, q.torque);
            (speed.upper_index, torque.upper_index)
        };
        call.questions.iter().map(cell).collect()
    };
    let asks_all = |call: &&Call| {
        let distinct: HashSet<(usize, usize)> = cells(call).into_iter().collect();
        distinct.len() == (call.map.speeds.count - 1) * (call.map.torques.count - 1)
    };
    let of_many = answered().filter(|call| call.map.entries.len() >= 12);
    let all: Vec<&Call> = of_many.filter(asks_all).collect();
    let speeds = |call: &Call| call.questions.iter().map(|q| q.speed).collect::<Vec<u32>>();
    let rising = |call: &&&Call| speeds(call).is_sorted();
    let falling = |call: &&&Call| speeds(call).iter().rev().is_sorted();
    let found = [
        all.iter().filter(rising).count(),
        all.iter().filter(falling).count(),
        all.iter()
            .filter(|call| !rising(call) && !falling(call))
            .count(),
    ];
    assert!(found.iter().all(|count| *count >= 2), "{found:?}");
}

/// Speeds 100 and 200 rpm, torques 10 and 20 Nm, entries 0 and 10 at both speeds.
fn small_map() -> LentMap {
    let axis = |first: u16, places: usize| {
        let mut numbers = vec![0; places];
        numbers[..2].copy_from_slice(&[first, 2 * first]);
        Axis { numbers, count: 2 }
    };
    LentMap {
        speeds: axis(100, 32),
        torques: axis(10, 64),
        entries: vec![0, 10, 0, 10],
    }
}

/// Speeds in tenths of rpm and torques in hundredths of Nm.
type Points = &'static [(u32, u32)];

fn case(points: Points, room: usize) -> Case {
    let points = points.iter().copied();
    Case::Losses {
        map: small_map(),
        room,
        questions: points
            .map(|(speed, torque)| Question { speed, torque })
            .collect(),
    }
}

/// Points, room and the lines that are due. The second is the first again.
const ASKED: [(Points, usize, &str); 11] = [
    (
        &[(1_000, 0), (1_999, 1_500), (2_000, 899)],
        3,
        "answered 3\nloss -10\nloss 5\nloss -1\n",
    ),
    (
        &[(1_000, 0), (1_999, 1_500), (2_000, 899)],
        3,
        "answered 3\nloss -10\nloss 5\nloss -1\n",
    ),
    (&[(1_000, 999)], 2, "answered 1\nloss 0\n"),
    (&[], 0, "answered 0\n"),
    (&[], 7, "answered 0\n"),
    (&[(1_000, 999), (999, 0)], 1, "refused 11 at 2\n"),
    (&[(999, 0), (2_001, 0)], 2, "refused 20 at 0 point 0\n"),
    (
        &[(1_000, 0), (2_001, 2_001)],
        2,
        "refused 20 at 0 point 1\n",
    ),
    (&[(2_000, 2_001)], 1, "refused 21 at 0 point 0\n"),
    (
        &[(2_000, 0), (2_000, 2_001), (999, 0)],
        4,
        "refused 21 at 0 point 1\n",
    ),
    (
        &[(2_000, 0), (2_000, 2_000), (2_000, 2_001)],
        4,
        "refused 21 at 0 point 2\n",
    ),
];

/// What the tally writes after these.
const TALLY_LINES: [&str; 8] = [
    "maps asked many questions in one call: 11\n",
    "different calls with many questions: 10, points in them: 17\n",
    "calls answered: 4, of these without points: 2, in exactly the room of their points: 1\n",
    "losses of these calls: 4, of these negative: 2\n",
    "refusal 22 of a call: 0 different inputs\n",
    "refusal 11 of a call: 1 different inputs\n",
    "refusal 20 of a call: 2 different inputs, of the first point: 1, of a later one: 1\n",
    "refusal 21 of a call: 3 different inputs, of the first point: 1, of a later one: 2\n",
];

#[test]
fn the_tally_counts_what_was_asked() {
    let mut seen = Seen::default();
    for (points, room, due) in ASKED {
        let lines = String::from_utf8(reply(&case(points, room), &mut seen)).unwrap();
        assert_eq!(lines, format!("{due}losses kept\n"), "{points:?}");
    }
    let tally = &seen.many_losses;
    assert_eq!(
        (tally.calls(), tally.points(), seen.cases[&'a']),
        (10, 17, 11)
    );
    let answered = (tally.answered(), tally.losses(), tally.negative_losses());
    assert_eq!(answered, (4, 4, 2));
    let refused = LOSSES_REFUSALS.map(|number| tally.refused_with(number));
    assert_eq!(refused, [0, 1, 2, 3]);
    let counts: Vec<u64> = tally.counts().into_iter().map(|(_, count)| count).collect();
    assert_eq!(counts, [4, 2, 1, 2, 0, 1, 2, 3, 1, 1, 1, 2]);
    // Single losses and the refusals of single questions are counted without these.
    assert!(seen.refusals.is_empty());
    assert_eq!(
        (seen.losses, seen.negative_losses, broken(&seen)),
        (0, 0, 0)
    );
    let text = seen.to_string();
    for line in TALLY_LINES {
        assert!(text.contains(line), "{line}{text}");
    }
    // Each of its counts is asked of the stored cases.
    let missing = missing(&seen);
    for (name, count) in tally.counts() {
        assert!(missing.contains(&format!("{name}: {count}")), "{name}");
    }
}

#[test]
fn a_broken_map_is_refused_without_a_point() {
    let mut seen = Seen::default();
    let Case::Losses { mut map, .. } = case(&[], 0) else {
        unreachable!("a case of many questions");
    };
    map.torques.numbers[0] = 11;
    let questions = vec![Question {
        speed: 0,
        torque: 0,
    }];
    let refused = Case::Losses {
        map,
        room: 0,
        questions,
    };
    let lines = reply(&refused, &mut seen);
    assert_eq!(lines, b"refused 22 at 0\nlosses kept\n");
    let tally = &seen.many_losses;
    assert_eq!(
        (tally.refused_with(22), tally.refused_at_first_point(22)),
        (1, 0)
    );
}

#[test]
fn lines_with_and_without_a_point() {
    let refusal = |number: u8, place: usize| Refusal {
        number,
        place,
        index: None,
    };
    let whole = LossesRefusal::from(refusal(11, 5));
    assert_eq!(whole.to_string(), "refused 11 at 5");
    let of_point = LossesRefusal {
        refusal: refusal(20, 0),
        point: Some(254),
    };
    assert_eq!(of_point.to_string(), "refused 20 at 0 point 254");
}

#[test]
fn bytes_of_a_case() {
    let case = case(&[(0x0102_0304, 0x0506_0708), (1, 2)], 256);
    // Four entries, room for 256 losses, 8 + 8 + 2 × 32 + 2 × 64 + 4 × 4 bytes of body, two questions.
    let mut expected = b"a".to_vec();
    expected.extend([0, 4, 0, 0, 1, 0, 0, 0, 0, 224, 2]);
    expected.extend([0, 0, 0, 0, 0, 0, 0, 2, 0, 0, 0, 0, 0, 0, 0, 2]);
    expected.extend([0, 100, 0, 200]);
    expected.extend([0; 60]);
    expected.extend([0, 10, 0, 20]);
    expected.extend([0; 124]);
    expected.extend([0, 0, 0, 0, 0, 0, 0, 10, 0, 0, 0, 0, 0, 0, 0, 10]);
    expected.extend([1, 2, 3, 4, 5, 6, 7, 8, 0, 0, 0, 1, 0, 0, 0, 2]);
    assert_eq!(case.bytes(), expected);
}
