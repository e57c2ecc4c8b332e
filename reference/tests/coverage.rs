//! The stored cases have what they must have: the ends of every range, the largest grids, questions of every kind, and for kind 3 each refusal at every kind of place.

use reference::cases::Case;
use reference::component::{self, Component, Kind, Row, Sensor};
use reference::data::SENSOR_RANGES;
use reference::listing::MOST_ENTRIES;
use reference::loss::measured_steps;
use reference::map;
use reference::refusal::Refusal;
use reference::reply::{reply, Seen};
use reference::stored::{broken, map_program_run, missing, stored_cases};
use std::collections::BTreeSet;

/// The accepted component data among the stored cases.
fn accepted() -> Vec<Component> {
    stored_cases()
        .iter()
        .filter_map(|case| match case {
            Case::Build { data, entries, .. } => {
                map::build(data, *entries).ok()?;
                component::read(data).ok()
            }
            _ => None,
        })
        .collect()
}

fn sensors(component: &Component) -> Vec<Sensor> {
    match &component.kind {
        Kind::Standard => Vec::new(),
        Kind::Measured(measured) => [&[measured.input], &measured.outputs[..]].concat(),
    }
}

fn occurs(all: &[Component], what: &str, holds: impl Fn(&Component) -> bool) {
    assert!(all.iter().any(holds), "no accepted data with {what}");
}

#[test]
fn ends_of_the_ranges_are_accepted() {
    let all = accepted();
    let with_sensor = |what: &str, holds: fn(&Sensor) -> bool| {
        occurs(&all, what, |c| sensors(c).iter().any(holds));
    };
    occurs(&all, "ratio 1,000", |c| c.ratio == 1_000);
    occurs(&all, "ratio 20,000", |c| c.ratio == 20_000);
    with_sensor("N 50,000", |s| s.nominal == 50_000);
    with_sensor("k 1,000", |s| s.advancement == 1_000);
    with_sensor("k 10,000", |s| s.advancement == 10_000);
    with_sensor("R 10", |s| s.span == 10);
    with_sensor("R 100", |s| s.span == 100);
    with_sensor("no influence", |s| {
        s.sensitivity == 0 && s.zero == 0 && s.calibration == 0 && s.parasitic == 0
    });
    for line in 1..=5 {
        occurs(&all, "each line", |c| c.line == line);
    }
}

#[test]
fn grids_of_every_size_are_accepted() {
    let all = accepted();
    for kind in 1..=3 {
        let of_kind = |c: &Component| c.kind.number() == kind;
        let size = |c: &Component| (c.speeds.len(), c.torques.len());
        occurs(&all, "2 x 2", |c| of_kind(c) && size(c) == (2, 2));
        occurs(&all, "32 x 64", |c| of_kind(c) && size(c) == (32, 64));
        occurs(&all, "first torque 0", |c| of_kind(c) && c.torques[0] == 0);
        occurs(&all, "first torque equal to the step", |c| {
            of_kind(c) && c.torques[0] > 0 && c.torques[1] == 2 * c.torques[0]
        });
    }
    occurs(&all, "speed 3,000", |c| c.speeds.contains(&3_000));
    occurs(&all, "speed 1", |c| c.speeds.contains(&1));
    occurs(&all, "torque 50,000", |c| c.torques.contains(&50_000));
}

/// Whether a row of the data has this of its ratio, its axis torque, its input torque and its output torque.
fn has_row(component: &Component, holds: impl Fn(u64, u64, u64, u64) -> bool) -> bool {
    let Kind::Measured(measured) = &component.kind else {
        return false;
    };
    let torques = &component.torques;
    measured.rows.iter().enumerate().any(|(index, row)| {
        let torque = u64::from(torques[index % torques.len()]);
        let (input, output) = (u64::from(row.input), row.output());
        holds(u64::from(component.ratio), torque, input, output)
    })
}

#[test]
fn rows_at_their_limits_are_accepted() {
    for kind in [2, 3] {
        let mut all = accepted();
        all.retain(|c| c.kind.number() == kind);
        expect_rows_at_their_limits(&all);
    }
}

fn expect_rows_at_their_limits(all: &[Component]) {
    occurs(all, "loss zero", |c| {
        has_row(c, |ratio, _, input, output| {
            output > 0 && input * ratio == 1_000 * output
        })
    });
    occurs(all, "output 5.00 Nm above", |c| {
        has_row(c, |_, torque, _, output| output == 100 * torque + 500)
    });
    occurs(all, "output 5.00 Nm below", |c| {
        has_row(c, |_, torque, _, output| output + 500 == 100 * torque)
    });
    occurs(all, "input equal to N", |c| {
        let nominal = sensors(c).first().map_or(0, |s| u64::from(s.nominal));
        has_row(c, |_, _, input, _| input == 100 * nominal)
    });
}

/// By how many units 5 % of the loss is larger than 1 Nm times the ratio, at most two either way, in each row whose uncertainty is above both. They are reckoned in 20,000 parts of a hundredth of Nm.
fn differences(component: &Component, unit: i64) -> Vec<i64> {
    let Kind::Measured(measured) = &component.kind else {
        return Vec::new();
    };
    let ratio = i64::from(component.ratio);
    let difference = |row: &Row| {
        let output: i64 = row.outputs.iter().copied().map(i64::from).sum();
        // A thousandth of a hundredth has 20 parts, and 5 % of it one.
        let five_percent = i64::from(row.input) * ratio - 1_000 * output;
        let at_wheel = 100 * 20 * ratio;
        let steps = measured_steps(component.ratio, measured, row).unwrap();
        // A grain has 200 parts.
        let uncertainty = 200 * steps.loss_uncertainty.uncertainty as i64;
        let units = (five_percent - at_wheel) / unit;
        (uncertainty > five_percent.max(at_wheel)).then_some(units.clamp(-2, 2))
    };
    measured.rows.iter().filter_map(difference).collect()
}

type OfRatio = fn(u16) -> bool;

#[test]
fn rows_of_both_allowances_are_accepted() {
    let all = accepted();
    // A unit is the least step of the loss: a hundredth at both ends of the ratio's range, a thousandth of it where the ratio is no multiple of 2 or 5.
    let ratios: [(&str, OfRatio, i64); 3] = [
        ("1.000", |ratio| ratio == 1_000, 1_000),
        (
            "between",
            |ratio| !ratio.is_multiple_of(2) && !ratio.is_multiple_of(5),
            1,
        ),
        ("20.000", |ratio| ratio == 20_000, 1_000),
    ];
    for kind in [2, 3] {
        for (name, is_ratio, unit) in &ratios {
            let of_ratio = all.iter().filter(|c| c.kind.number() == kind);
            let of_ratio = of_ratio.filter(|c| is_ratio(c.ratio));
            let found: Vec<i64> = of_ratio.flat_map(|c| differences(c, *unit)).collect();
            for due in -2..=2 {
                let count = found.iter().filter(|units| **units == due).count();
                assert!(count >= 20, "kind {kind}, ratio {name}, {due}: {count}");
            }
        }
    }
}

/// Whether a row of accepted data of kind 3 has this of its axis torque in hundredths of Nm, and of its left and its right torque.
fn has_sides(component: &Component, holds: impl Fn(u32, u32, u32) -> bool) -> bool {
    let Kind::Measured(measured) = &component.kind else {
        return false;
    };
    let torques = &component.torques;
    measured.rows.iter().enumerate().any(|(index, row)| {
        let aim = 100 * u32::from(torques[index % torques.len()]);
        matches!(row.outputs[..], [left, right] if holds(aim, left, right))
    })
}

#[test]
fn sides_of_every_size_are_accepted() {
    let all = accepted();
    let with_sides = |what: &str, holds: fn(u32, u32, u32) -> bool| {
        occurs(&all, what, |c| has_sides(c, holds));
    };
    with_sides("all of it at the left", |aim, left, right| {
        aim > 1_000 && left > 0 && right == 0
    });
    with_sides("all of it at the right", |aim, left, right| {
        aim > 1_000 && left == 0 && right > 0
    });
    with_sides("both sides far from the axis torque", |aim, left, right| {
        aim > 100_000 && left < aim - 10_000 && right < aim - 10_000
    });
    with_sides("more than one sensor can have", |_, left, right| {
        left + right > 5_000_000
    });
    occurs(&all, "a left and a right torque equal to N", |c| {
        let nominal = |place: usize| sensors(c).get(place).map_or(0, |s| s.nominal);
        let (left_most, right_most) = (100 * u32::from(nominal(1)), 100 * u32::from(nominal(2)));
        has_sides(c, |_, left, _| left == left_most)
            && has_sides(c, |_, _, right| right == right_most)
    });
}

/// The tags of kind 3.
const TAGS: [u8; 9] = [1, 2, 3, 4, 5, 6, 7, 9, 10];

/// The number of a refusal of data of kind 3, with the field that its place is in and how far into the body, or into its row.
#[derive(Clone, Copy, PartialEq, Eq, PartialOrd, Ord, Debug)]
enum Told {
    AtHead(u8, u8),
    InBody(u8, u8, usize),
    Behind(u8),
}

fn told(data: &[u8], refusal: Refusal) -> Told {
    let Refusal { number, place, .. } = refusal;
    let mut head = 0;
    for tag in TAGS {
        if place == head {
            return Told::AtHead(number, tag);
        }
        // What comes before the place is right.
        let length = usize::from(u16::from_be_bytes([data[head + 1], data[head + 2]]));
        let start = head + 3;
        if place < start + length {
            let within = place - start;
            let within = if tag == 10 { within % 12 } else { within };
            let index = matches!(tag, 3 | 6 | 7 | 9).then_some(within / 2);
            assert_eq!(refusal.index, index, "{refusal:?} at tag {tag}");
            return Told::InBody(number, tag, within);
        }
        head = start + length;
    }
    assert_eq!(place, head);
    Told::Behind(number)
}

/// The stored data of kind 3 that is refused, and the refusal; but for 11, whose place is not in the data.
fn refused_of_kind_3() -> Vec<(Vec<u8>, Refusal)> {
    let mut refused = Vec::new();
    for case in stored_cases() {
        let (data, refusal) = match case {
            Case::Read(data) => (data.clone(), component::read(&data).err()),
            Case::Program(data) => (data.clone(), map::build(&data, MOST_ENTRIES).err()),
            Case::Build { data, entries, .. } => (data.clone(), map::build(&data, entries).err()),
            Case::Map { .. }
            | Case::Write { .. }
            | Case::Steps { .. }
            | Case::Load { .. }
            | Case::Drag(_)
            | Case::Losses { .. } => continue,
        };
        if data.starts_with(&[1, 0, 1, 3]) {
            let in_data = refusal.filter(|refusal| refusal.number != 11);
            refused.extend(in_data.map(|refusal| (data, refusal)));
        }
    }
    refused
}

#[test]
fn kind_3_is_refused_at_every_kind_of_place() {
    let refused = refused_of_kind_3();
    let found: BTreeSet<Told> = refused.iter().map(|(data, r)| told(data, *r)).collect();
    let mut due = Vec::new();
    for tag in &TAGS[1..] {
        due.extend([1, 2, 3].map(|number| Told::AtHead(number, *tag)));
    }
    due.push(Told::InBody(4, 2, 0));
    due.push(Told::InBody(31, 3, 0));
    for (number, tag, indices) in [
        (4, 4, 0..2),
        (4, 5, 0..2),
        (32, 6, 0..9),
        (32, 7, 0..9),
        (32, 9, 0..9),
    ] {
        due.extend(indices.map(|index| Told::InBody(number, tag, 2 * index)));
    }
    due.extend([4, 5].map(|tag| Told::InBody(5, tag, 2)));
    due.push(Told::InBody(6, 5, 0));
    due.extend([0, 4, 8].map(|torque| Told::InBody(7, 10, torque)));
    due.push(Told::InBody(8, 10, 4));
    due.extend([9, 10].map(|number| Told::InBody(number, 10, 0)));
    due.push(Told::Behind(12));
    let missing: Vec<&Told> = due.iter().filter(|told| !found.contains(told)).collect();
    assert_eq!(missing, Vec::<&Told>::new());
    // A ratio, a sensor and a row have no other refusals, and those of a row have no other places.
    for told in &found {
        let Told::InBody(number, tag, within) = *told else {
            continue;
        };
        let places: &[usize] = match (tag, number) {
            (3, 31) | (6 | 7 | 9, 32) => continue,
            (10, 7) => &[0, 4, 8],
            (10, 8) => &[4],
            (10, 9 | 10) => &[0],
            (3 | 6 | 7 | 9 | 10, _) => &[],
            _ => continue,
        };
        assert!(places.contains(&within), "{told:?}");
    }
}

#[test]
fn heads_of_kind_3_are_refused_in_every_way() {
    let refused = refused_of_kind_3();
    let occurs = |what: &str, tag: u8, number: u8, holds: &dyn Fn(&[u8]) -> bool| {
        let found = refused.iter().any(|(data, refusal)| {
            let at_head = told(data, *refusal) == Told::AtHead(number, tag);
            at_head && holds(&data[refusal.place..])
        });
        assert!(found, "no data of kind 3 with {what} at tag {tag}");
    };
    for tag in TAGS.into_iter().skip(1) {
        occurs("nothing left", tag, 2, &|left| left.is_empty());
        occurs("one byte left", tag, 1, &|left| left.len() == 1);
        occurs("two bytes left", tag, 1, &|left| left.len() == 2);
        occurs("no body", tag, 1, &|left| left.len() == 3);
        let body_but_one = |left: &[u8]| {
            left.len() > 3
                && left.len() + 1 == 3 + usize::from(u16::from_be_bytes([left[1], left[2]]))
        };
        // A body of one byte is cut to none.
        if tag != 2 {
            occurs("a body cut by its last byte", tag, 1, &body_but_one);
        }
        let length_is = |left: &[u8], length: u16| left[1..3] == length.to_be_bytes();
        occurs("no length", tag, 3, &|left| length_is(left, 0));
        occurs("the highest length", tag, 3, &|left| {
            length_is(left, 65_535)
        });
    }
    for (tag, other) in [(9, 8), (9, 10), (10, 8), (10, 9), (9, 0), (10, 11)] {
        occurs("another tag", tag, 2, &|left| left.first() == Some(&other));
    }
}

#[test]
fn sensor_numbers_of_kind_3_are_refused_at_both_ends() {
    let refused = refused_of_kind_3();
    for tag in [6, 7, 9] {
        for (index, (lowest, highest)) in SENSOR_RANGES.into_iter().enumerate() {
            let with = |wrong: u16| {
                refused.iter().any(|(data, refusal)| {
                    told(data, *refusal) == Told::InBody(32, tag, 2 * index)
                        && data[refusal.place..].starts_with(&wrong.to_be_bytes())
                })
            };
            assert!(with(highest + 1), "tag {tag}, number {index}, above");
            assert!(lowest == 0 || with(lowest - 1), "tag {tag}, number {index}");
        }
    }
}

/// Input, left and right torque of the row that is refused, and its axis torque in hundredths of Nm.
fn refused_row(data: &[u8], refusal: Refusal) -> ([u64; 3], u64) {
    let component = component::read(data).unwrap();
    let Kind::Measured(measured) = &component.kind else {
        panic!("data of kind 3");
    };
    let index = (refusal.place - measured.rows_start) / 12;
    let row = &measured.rows[index];
    let torques = [row.input, row.outputs[0], row.outputs[1]].map(u64::from);
    let torque = component.torques[index % component.torques.len()];
    (torques, 100 * u64::from(torque))
}

#[test]
fn rows_of_kind_3_are_refused_in_every_way() {
    const MOST: u64 = 4_294_967_295;
    let mut refused = refused_of_kind_3();
    refused.retain(|(_, refusal)| (7..=10).contains(&refusal.number));
    let rows: Vec<(u8, [u64; 3], u64)> = refused
        .iter()
        .map(|(data, refusal)| {
            let (torques, aim) = refused_row(data, *refusal);
            (refusal.number, torques, aim)
        })
        .collect();
    let occurs = |what: &str, number: u8, holds: &dyn Fn([u64; 3], u64) -> bool| {
        let found =
            |(told, torques, aim): &(u8, [u64; 3], u64)| *told == number && holds(*torques, *aim);
        assert!(
            rows.iter().any(found),
            "no row of kind 3 refused for {what}"
        );
    };
    occurs("a sum 5.01 Nm above", 8, &|[_, left, right], aim| {
        left > 0 && right > 0 && left + right == aim + 501
    });
    occurs("a sum 5.01 Nm below", 8, &|[_, left, right], aim| {
        left > 0 && right > 0 && left + right + 501 == aim
    });
    occurs("a left torque alone above", 8, &|[_, left, _], aim| {
        left > aim + 500
    });
    occurs("a right torque alone above", 8, &|[_, _, right], aim| {
        right > aim + 500
    });
    occurs("both sides highest", 7, &|[input, left, right], _| {
        input < MOST && left == MOST && right == MOST
    });
    occurs("all torques highest", 7, &|torques, _| torques == [MOST; 3]);
    occurs("a sum that comes round", 7, &|[_, left, right], aim| {
        left + right == aim + MOST + 1
    });
    occurs("a loss under zero", 9, &|[input, left, right], _| {
        input > 0 && left > 0 && right > 0
    });
    occurs(
        "an entry above the largest",
        10,
        &|[input, left, right], _| input > 0 && left > 0 && right > 0,
    );
}

#[test]
fn too_few_entries_are_lent_for_each_kind() {
    for kind in 1..=3 {
        let found = stored_cases().iter().any(|case| match case {
            Case::Build { data, entries, .. } => {
                let refusal = map::build(data, *entries);
                data.starts_with(&[1, 0, 1, kind]) && refusal.is_err_and(|r| r.number == 11)
            }
            _ => false,
        });
        assert!(found, "11 for kind {kind}");
    }
}

#[test]
fn questions_of_every_kind_are_asked() {
    let mut found = [false; 7];
    for case in stored_cases() {
        let Case::Build {
            data,
            entries,
            questions,
            ..
        } = case
        else {
            continue;
        };
        let Ok(map) = map::build(&data, entries) else {
            continue;
        };
        let last = |axis: &[u16], unit: u32| unit * u32::from(axis[axis.len() - 1]);
        let halfway = |axis: &[u16], unit: u32, number: u32| {
            axis.windows(2)
                .any(|pair| unit * (u32::from(pair[0]) + u32::from(pair[1])) == 2 * number)
        };
        for question in questions {
            let (speed, torque) = (question.speed, question.torque);
            found[0] |= map.speeds.iter().any(|x| 10 * u32::from(*x) == speed)
                && map.torques.iter().any(|y| 100 * u32::from(*y) == torque);
            found[1] |= speed == last(&map.speeds, 10) && torque == last(&map.torques, 100);
            found[2] |= torque < 100 * u32::from(map.torques[0]);
            found[3] |= speed + 1 == 10 * u32::from(map.speeds[0]);
            found[4] |= speed == last(&map.speeds, 10) + 1;
            found[5] |= torque == last(&map.torques, 100) + 1;
            found[6] |= speed < 40_000 && halfway(&map.speeds, 10, speed);
        }
    }
    assert_eq!(found, [true; 7]);
}

#[test]
fn every_refusal_occurs_and_no_answer_is_outside_the_limits() {
    let mut seen = Seen::default();
    for case in stored_cases() {
        reply(&case, &mut seen);
    }
    assert_eq!(missing(&seen), Vec::<String>::new());
    assert_eq!(broken(&seen), 0);
}

#[test]
fn the_map_program_is_given_the_largest_data() {
    let (data, written) = map_program_run();
    assert_eq!(data.len(), 24_853);
    let built = map::build(&data, 2_048).unwrap();
    let component = component::read(&data).unwrap();
    let Kind::Measured(measured) = &component.kind else {
        panic!("measured data");
    };
    assert_eq!((built.entries.len(), measured.rows.len()), (2_048, 2_048));
    assert_eq!(sensors(&component).len(), 3);
    assert!(sensors(&component)
        .iter()
        .all(|s| !s.numbers().contains(&0)));
    let above = measured
        .rows
        .iter()
        .filter_map(|row| measured_steps(component.ratio, measured, row))
        .filter(|steps| steps.above_allowance > 0)
        .count();
    let different: BTreeSet<&u32> = built.entries.iter().collect();
    assert_eq!((above, different.len()), (1_792, 1_934));
    assert!(written.starts_with(b"speed,torque,loss\n"));
    assert_eq!(written.iter().filter(|byte| **byte == b'\n').count(), 2_049);
}
