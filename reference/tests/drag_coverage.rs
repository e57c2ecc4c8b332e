//! The stored cases of request C-17 have what they must have: each refusal in each way and at each place, every count of points, each segment with drags that fall, rise and stay, speeds on each point and next to it, drags that are just whole and just not, and the widest numbers.

use reference::cases::Case;
use reference::drag_tally::{segments, Segment, SEGMENTS};
use reference::refusal::Refusal;
use reference::reply::{reply, Seen};
use reference::retarder::{drag, RetarderNumbers, LARGEST_DRAG, POINTS};
use reference::stored::{broken, stored_cases, DRAG_REFUSALS};
use std::collections::BTreeSet;
use std::sync::LazyLock;

/// How many cases were stored before those of this request, and before many questions in one call. They keep their numbers.
const EARLIER_CASES: usize = 11_910;
const CASES_BEFORE_LOSSES: usize = 12_810;

/// What is handed over for a drag, and the answer.
struct Drag {
    numbers: RetarderNumbers,
    answer: Result<u32, Refusal>,
}

impl Drag {
    fn refused_with(&self, number: u8) -> bool {
        self.answer.is_err_and(|refusal| refusal.number == number)
    }

    fn segments(&self) -> Vec<Segment> {
        segments(&self.numbers)
    }

    /// The segment that has the speed between its points, of an answer.
    fn between(&self) -> Option<Segment> {
        self.answer.ok()?;
        let first = self.segments().into_iter().next();
        first.filter(|segment| !segment.is_at_end())
    }

    /// The retarder speed in ten-thousandths of rpm.
    fn retarder_speed(&self) -> u64 {
        u64::from(self.numbers.ratio) * u64::from(self.numbers.speed)
    }

    /// Of the readings and of the bearing losses.
    fn counts(&self) -> (usize, usize) {
        let numbers = &self.numbers;
        (numbers.readings.len(), numbers.bearing_losses.len())
    }

    fn ratio_is_right(&self) -> bool {
        (100..=10_000).contains(&self.numbers.ratio)
    }

    fn count_is_right(&self) -> bool {
        (2..=13).contains(&self.counts().0)
    }

    fn is_equal_in_number(&self) -> bool {
        let (readings, bearing_losses) = self.counts();
        readings == bearing_losses
    }

    /// Each reading with its bearing loss.
    fn pairs(&self) -> impl Iterator<Item = (u32, u32)> + '_ {
        let readings = self.numbers.readings.iter().copied();
        readings.zip(self.numbers.bearing_losses.iter().copied())
    }

    /// Each reading less its bearing loss.
    fn drags(&self) -> Vec<i64> {
        let drag = |(reading, bearing_loss)| i64::from(reading) - i64::from(bearing_loss);
        self.pairs().map(drag).collect()
    }

    fn drags_are_right(&self) -> bool {
        self.drags().iter().all(|drag| is_right(*drag))
    }

    /// Whether the speed is within a table of so many readings; of the first of them where there are too many.
    fn speed_is_right(&self) -> bool {
        let last = self.counts().0.clamp(1, POINTS.len()) - 1;
        (point(0)..=point(last)).contains(&self.retarder_speed())
    }
}

fn is_right(drag: i64) -> bool {
    (0..=i64::from(LARGEST_DRAG)).contains(&drag)
}

/// In ten-thousandths of rpm.
fn point(index: usize) -> u64 {
    10_000 * u64::from(POINTS[index])
}

/// The stored cases of this request, each once.
static DRAGS: LazyLock<Vec<Drag>> = LazyLock::new(|| {
    let inputs = stored_cases().into_iter().filter_map(|case| match case {
        Case::Drag(numbers) => Some(numbers),
        _ => None,
    });
    let inputs: BTreeSet<RetarderNumbers> = inputs.collect();
    let answered = |numbers| Drag {
        answer: drag(&numbers),
        numbers,
    };
    inputs.into_iter().map(answered).collect()
});

fn answered() -> impl Iterator<Item = &'static Drag> {
    DRAGS.iter().filter(|drag| drag.answer.is_ok())
}

fn refused(number: u8) -> impl Iterator<Item = &'static Drag> {
    DRAGS.iter().filter(move |drag| drag.refused_with(number))
}

/// Answers between two points, each with its segment.
fn between() -> impl Iterator<Item = (&'static Drag, Segment)> {
    let all = DRAGS.iter();
    all.filter_map(|drag| Some((drag, drag.between()?)))
}

#[test]
fn drags_are_between_earlier_and_later_cases() {
    for (number, case) in stored_cases().iter().enumerate() {
        let is_due = (EARLIER_CASES..CASES_BEFORE_LOSSES).contains(&number);
        assert_eq!(case.letter() == 'd', is_due, "case {number}");
    }
    for drag in DRAGS.iter() {
        let (readings, bearing_losses) = drag.counts();
        assert!(readings <= 1_000 && bearing_losses <= 1_000);
    }
}

#[test]
fn each_refusal_is_that_of_the_first_fault() {
    for drag in DRAGS.iter() {
        let is_due =
            if !drag.ratio_is_right() || !drag.count_is_right() || !drag.is_equal_in_number() {
                Some(45)
            } else if !drag.drags_are_right() {
                Some(46)
            } else {
                (!drag.speed_is_right()).then_some(47)
            };
        let found = drag.answer.err();
        assert_eq!(found.map(|refusal| refusal.number), is_due);
        assert!(found.is_none_or(|refusal| refusal.place == 0 && refusal.index.is_none()));
    }
    for number in DRAG_REFUSALS {
        let count = refused(number).count();
        assert!(count > 60, "{number}: {count}");
    }
    assert!(answered().count() > 400);
}

#[test]
fn ratios_are_at_their_limits_and_past_them() {
    for ratio in [100, 101, 9_999, 10_000] {
        let found = answered().filter(|drag| drag.numbers.ratio == ratio);
        let count = found.count();
        assert!(count >= 4, "{ratio}: {count}");
    }
    // The last two are right in their last two bytes.
    for ratio in [0, 99, 10_001, u32::MAX, 65_636, 66_536] {
        let alone = |drag: &&Drag| {
            drag.numbers.ratio == ratio
                && drag.count_is_right()
                && drag.is_equal_in_number()
                && drag.drags_are_right()
        };
        let count = refused(45).filter(alone).count();
        assert!(count >= 3, "{ratio}: {count}");
    }
    let of_ratio = refused(45).filter(|drag| !drag.ratio_is_right());
    assert!(of_ratio.count() >= 20);
}

#[test]
fn counts_are_at_their_limits_and_past_them() {
    for count in 2..=13 {
        let held = answered().filter(|drag| drag.counts().0 == count);
        let held = held.count();
        assert!(held >= 5, "{count}: {held}");
    }
    let right_but_counts = |drag: &&Drag| drag.ratio_is_right() && drag.drags_are_right();
    let with_counts = |readings: usize, bearing_losses: usize| {
        let mut found = refused(45).filter(right_but_counts);
        found.any(|drag| drag.counts() == (readings, bearing_losses))
    };
    // The last three are right in their last byte, or far too many.
    for count in [0, 1, 14, 15, 16, 258, 269, 1_000] {
        assert!(with_counts(count, count), "{count}");
    }
    for count in 2..=13 {
        assert!(with_counts(count, count - 1), "{count} and one less");
        assert!(with_counts(count, count + 1), "{count} and one more");
    }
    for (readings, bearing_losses) in [(0, 2), (2, 0), (1, 2), (14, 13), (2, 258), (258, 2)] {
        let is_there = with_counts(readings, bearing_losses);
        assert!(is_there, "{readings} and {bearing_losses}");
    }
    let of_count = refused(45).filter(right_but_counts);
    let of_count = of_count.filter(|drag| !drag.count_is_right() && drag.is_equal_in_number());
    assert!(of_count.count() >= 20);
    let unequal = refused(45).filter(right_but_counts);
    let unequal = unequal.filter(|drag| drag.count_is_right() && !drag.is_equal_in_number());
    assert!(unequal.count() >= 20);
}

#[test]
fn readings_are_refused_at_each_point() {
    let bearing_loss_above = |drag: i64| drag < 0;
    let drag_above = |drag: i64| drag > i64::from(LARGEST_DRAG);
    for is_wrong in [bearing_loss_above, drag_above] {
        let found = refused(46).filter(|drag| drag.drags().into_iter().any(is_wrong));
        assert!(found.count() >= 20);
    }
    for index in 0..POINTS.len() {
        // Just outside at this point alone, which the speed does not need but for the first two.
        for due in [-1, i64::from(LARGEST_DRAG) + 1] {
            let alone = |drag: &Drag| {
                let drags = drag.drags();
                let wrong = drags.iter().filter(|drag| !is_right(**drag)).count();
                wrong == 1 && drags.get(index) == Some(&due) && drag.retarder_speed() < point(1)
            };
            assert!(refused(46).any(alone), "{due} at point {index}");
        }
        for due in [0, i64::from(LARGEST_DRAG)] {
            let is_there = |drag: &Drag| drag.drags().get(index) == Some(&due);
            assert!(answered().any(is_there), "{due} at point {index}");
        }
    }
    for due in [(0, 1), (0, u32::MAX), (u32::MAX, 0)] {
        let is_there = |drag: &Drag| drag.pairs().any(|pair| pair == due);
        assert!(refused(46).any(is_there), "{due:?}");
    }
    let is_highest = |drag: &Drag| drag.pairs().any(|pair| pair == (u32::MAX, u32::MAX));
    assert!(answered().any(is_highest));
}

#[test]
fn speeds_are_on_the_first_and_the_last_point_and_past_them() {
    let at = |count: usize, speed: u64| {
        let all = DRAGS.iter().filter(move |drag| {
            let is_right = drag.ratio_is_right() && drag.is_equal_in_number();
            is_right && drag.drags_are_right() && drag.counts().0 == count
        });
        let mut all = all.filter(move |drag| drag.retarder_speed() == speed);
        all.next().map(|drag| drag.answer.is_ok())
    };
    for count in 2..=13 {
        assert_eq!(at(count, point(0)), Some(true), "{count} at the first");
        assert_eq!(at(count, point(count - 1)), Some(true), "{count} at last");
        if count < 13 {
            assert_eq!(at(count, point(count)), Some(false), "{count} behind");
        }
    }
    assert_eq!(at(2, point(0) - 1), Some(false));
    assert_eq!(at(13, point(0) - 1), Some(false));
    // Of the last points, these have such a product one ten-thousandth above.
    for count in [5, 6, 8, 13] {
        assert_eq!(at(count, point(count - 1) + 1), Some(false), "{count}");
    }
    assert_eq!(at(13, point(12) - 1), Some(true));
    let below = refused(47).filter(|drag| drag.retarder_speed() < point(0));
    assert!(below.count() >= 20);
    let above = refused(47).filter(|drag| drag.retarder_speed() > point(0));
    assert!(above.count() >= 20);
    // In the table if the product had four bytes.
    let cut = refused(47).filter(|drag| {
        let speed = drag.retarder_speed();
        speed >= 1 << 32 && (point(0)..point(1)).contains(&(speed % (1 << 32)))
    });
    assert!(cut.count() >= 5);
    let highest = |number| refused(number).any(|drag| drag.numbers.speed == u32::MAX);
    assert!(DRAG_REFUSALS.into_iter().all(highest));
}

#[test]
fn each_point_is_asked_and_its_neighbours() {
    for (index, rpm) in POINTS.iter().enumerate() {
        let at: Vec<&Drag> = answered()
            .filter(|drag| drag.retarder_speed() == point(index))
            .collect();
        assert!(at.len() >= 4, "{rpm} rpm: {}", at.len());
        for drag in &at {
            assert_eq!(drag.answer.map(i64::from), Ok(drag.drags()[index]));
        }
        let is_shared = 0 < index && index < 12;
        let shared = at.iter().filter(|drag| drag.segments().len() == 2).count();
        assert_eq!(shared > 0, is_shared, "{rpm} rpm");
        // No ratio divides every speed, so that a neighbour is some ten-thousandths away.
        let near = |from: u64, to: u64| {
            let speeds = from..=to;
            DRAGS
                .iter()
                .any(|drag| drag.ratio_is_right() && speeds.contains(&drag.retarder_speed()))
        };
        assert!(near(point(index) - 5, point(index) - 1), "below {rpm} rpm");
        assert!(near(point(index) + 1, point(index) + 5), "above {rpm} rpm");
    }
    let beside = |distance: u64| {
        let count = (0..POINTS.len()).filter(|index| {
            answered().any(|drag| drag.retarder_speed().abs_diff(point(*index)) == distance)
        });
        count.count()
    };
    assert!(beside(1) >= 8, "{}", beside(1));
}

#[test]
fn drags_fall_rise_and_stay_in_each_segment() {
    for index in 0..SEGMENTS {
        let of = |sign: i128| {
            let found = between().filter(|(_, s)| s.index == index && s.rise.signum() == sign);
            found.count()
        };
        let found = [-1, 1, 0].map(of);
        let [falling, rising, level] = found;
        assert!(
            falling >= 5 && rising >= 5 && level >= 3,
            "{index}: {found:?}"
        );
        // From the lowest drag to the largest, and back.
        let widest = i128::from(LARGEST_DRAG);
        for rise in [widest, -widest] {
            let is_there = |(_, s): (&Drag, Segment)| s.index == index && s.rise == rise;
            assert!(between().any(is_there), "{index}: {rise}");
        }
    }
}

#[test]
fn drags_are_just_whole_and_just_not() {
    for index in 0..SEGMENTS {
        let width = i128::from(point(index + 1) - point(index));
        for sign in [-1, 1] {
            // How far the answer is above the exact line, in parts of a hundredth.
            for excess in [0, 1, width - 1] {
                let is_there = |(drag, segment): (&Drag, Segment)| {
                    if segment.index != index || segment.rise.signum() != sign {
                        return false;
                    }
                    let lower = i128::from(drag.drags()[index] as u32);
                    let above_lower = i128::from(drag.retarder_speed() - point(index));
                    let exact = lower * width + segment.rise * above_lower;
                    let answer = i128::from(drag.answer.unwrap());
                    answer * width - exact == excess
                };
                assert!(between().any(is_there), "{index} {sign} {excess}");
            }
        }
    }
}

#[test]
fn a_refusal_comes_before_the_later_ones() {
    let count = |number: u8, holds: fn(&&Drag) -> bool| refused(number).filter(holds).count();
    let before_46 = count(45, |d| !d.drags_are_right() && d.speed_is_right());
    let before_47 = count(45, |d| d.drags_are_right() && !d.speed_is_right());
    let before_both = count(45, |d| !d.drags_are_right() && !d.speed_is_right());
    let of_46 = count(46, |d| !d.speed_is_right());
    let found = [before_46, before_47, before_both, of_46];
    assert!(found.iter().all(|count| *count >= 8), "{found:?}");
}

/// A ratio of 1, and this bearing loss at each point.
fn numbers(readings: &[u32], bearing_loss: u32, speed: u32) -> RetarderNumbers {
    RetarderNumbers {
        readings: readings.to_vec(),
        bearing_losses: vec![bearing_loss; readings.len()],
        ratio: 1_000,
        speed,
    }
}

/// Readings with bearing losses of 10, a speed, and the line that is due. The third is the second again.
const ASKED: [(&[u32], u32, &str); 10] = [
    (&[10, 11], 2_000, "drag 0\n"),
    (&[10, 11], 2_001, "drag 1\n"),
    (&[10, 11], 2_001, "drag 1\n"),
    (&[11, 10], 3_000, "drag 1\n"),
    (&[12, 10], 3_000, "drag 1\n"),
    (&[12, 10, 10], 4_500, "drag 0\n"),
    (&[12, 10, 10], 4_000, "drag 0\n"),
    (&[12, 10, 10], 6_001, "refused 47 at 0\n"),
    (&[12, 10, 9], 6_001, "refused 46 at 0\n"),
    (&[12], 6_001, "refused 45 at 0\n"),
];

/// What the tally writes after these.
const TALLY_LINES: [&str; 7] = [
    "retarders asked for their drag: 10\n",
    "different inputs with a drag: 6, exact: 4, rounded up: 2, outside its limits: 0\n",
    "drags at a point: 2, between two points where it falls: 2, rises: 1, is level: 1\n",
    "drags between two points, by the lower one in rpm: 200: 3, 400: 1, 600: 0, 900: 0, 1200: 0, 1600: 0, 2000: 0, 2500: 0, 3000: 0, 3500: 0, 4000: 0, 4500: 0\n",
    "refusal 45 of a drag: 1 different inputs\n",
    "refusal 46 of a drag: 1 different inputs\n",
    "refusal 47 of a drag: 1 different inputs\n",
];

#[test]
fn the_tally_counts_what_was_asked() {
    let mut seen = Seen::default();
    for (readings, speed, due) in ASKED {
        let case = Case::Drag(numbers(readings, 10, speed));
        let line = String::from_utf8(reply(&case, &mut seen)).unwrap();
        assert_eq!(line, due, "{readings:?} at {speed}");
    }
    // The same input is counted once.
    let tally = &seen.drags;
    assert_eq!((tally.answered(), seen.cases[&'d']), (6, 10));
    let refused = DRAG_REFUSALS.map(|number| tally.refused_with(number));
    assert_eq!(refused, [1, 1, 1]);
    // The refusals of data and of lent maps are counted without these.
    assert!(seen.refusals.is_empty());
    let counts: Vec<u64> = tally.counts().into_iter().map(|(_, count)| count).collect();
    assert_eq!(counts[..10], [6, 4, 2, 2, 2, 1, 1, 1, 1, 1]);
    assert_eq!(counts[10..], [3, 1, 0, 0, 0, 0, 0, 0, 0, 0, 0, 0]);
    let text = seen.to_string();
    for line in TALLY_LINES {
        assert!(text.contains(line), "{line}{text}");
    }
    assert_eq!(broken(&seen), 0);
}

/// Answers that no rule gives, between two points, on a point that two segments share, and outside the table.
#[test]
fn drags_outside_their_limits_are_broken() {
    let outside = |speed: u32, drag: u32| {
        let mut seen = Seen::default();
        let numbers = numbers(&[100, 201, 50], 0, speed);
        seen.drags.add(&numbers, &Ok(drag));
        assert_eq!(broken(&seen), seen.drags.outside);
        broken(&seen)
    };
    // 150.5.
    let found = [150, 151, 152].map(|drag| outside(3_000, drag));
    assert_eq!(found, [1, 0, 1]);
    let found = [200, 201, 202].map(|drag| outside(4_000, drag));
    assert_eq!(found, [1, 0, 1]);
    // 200.245 next to it.
    let found = [200, 201, 202].map(|drag| outside(4_001, drag));
    assert_eq!(found, [1, 0, 1]);
    assert_eq!((outside(1_999, 100), outside(6_001, 50)), (1, 1));
    assert_eq!((outside(2_000, 100), outside(6_000, 50)), (0, 0));
}

#[test]
fn bytes_of_a_case() {
    let case = Case::Drag(RetarderNumbers {
        readings: vec![0x0A0B_0C0D, 1],
        bearing_losses: vec![2],
        ratio: 0x0102_0304,
        speed: 0x0506_0708,
    });
    let mut expected = b"d".to_vec();
    // No entries, no room, 24 bytes of body, no questions.
    expected.extend([0, 0, 0, 0, 0, 0, 0, 0, 0, 24, 0]);
    expected.extend([1, 2, 3, 4, 5, 6, 7, 8, 0, 0, 0, 2]);
    expected.extend([0x0A, 0x0B, 0x0C, 0x0D, 0, 0, 0, 1, 0, 0, 0, 2]);
    assert_eq!(case.bytes(), expected);
}
