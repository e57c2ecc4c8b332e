//! What the library is measured beside answers the examples and the worked cases, so that the same work is measured; and the comparison's text is that of the second implementation.

use axle::{Grid, Point, Sensor};
use measure::answers::{answer, grid_of, Lent};
use measure::{doubles, plain, roots};
use reference::at_scale;
use reference::cases::Case;
use reference::component::{self, Kind};
use reference::data::{Data, Field};
use reference::faults::row_faults;
use reference::lookup::{self, Axis, LentMap};
use reference::map::{self, Map};
use reference::questions::{questions, Question};
use reference::random::Source;
use reference::reply::{reply, Seen};
use reference::retarder;
use reference::steps::checked_steps;
use reference::stored::WRITE_REFUSALS;
use reference::{drag_cases, lent_maps, listing, load_cases, loader, steps_cases};
use reference::{valid, write_cases};
use std::path::PathBuf;

fn example(name: &str) -> Vec<u8> {
    let path = PathBuf::from(env!("CARGO_MANIFEST_DIR"))
        .join("../examples")
        .join(name);
    std::fs::read(path).expect("the example is there")
}

/// The map that plain Rust builds into so many lent entries.
fn plain_map(data: &[u8], lent_entries: usize) -> Option<(Grid, Vec<u32>)> {
    let mut entries = vec![0; lent_entries];
    let grid = plain::build(data, &mut entries)?;
    entries.truncate(grid.speed_count * grid.torque_count);
    Some((grid, entries))
}

/// The listing that plain Rust writes into so many lent bytes.
fn plain_listing(grid: &Grid, entries: &[u32], room: usize) -> Option<Vec<u8>> {
    let mut text = vec![0; room];
    let length = plain::listing(grid, entries, &mut text)?;
    text.truncate(length);
    Some(text)
}

#[test]
fn plain_rust_and_doubles_build_and_list_the_examples() {
    for name in ["standard", "measured", "half-shafts", "bench-run"] {
        let data = example(&format!("{name}.axle"));
        let listing = example(&format!("{name}.csv"));
        let (grid, entries) = plain_map(&data, 2_048).expect("the example is accepted");
        let text = plain_listing(&grid, &entries, listing.len());
        assert_eq!(text, Some(listing), "{name}");
        let in_doubles = doubles::build(&data).expect("the example is accepted");
        let off = entries
            .iter()
            .zip(&in_doubles)
            .filter(|(entry, double)| (f64::from(**entry) / 100.0 - **double).abs() > 0.011);
        assert_eq!(off.count(), 0, "{name}");
    }
    assert_eq!(plain_map(&example("refused.axle"), 2_048), None);
    assert_eq!(plain_map(&example("cut-short.axle"), 2_048), None);
}

/// The axes and the entries that the second implementation builds, in a grid.
fn reference_map(data: &[u8], lent_entries: usize) -> Option<(Grid, Vec<u32>)> {
    let map = map::build(data, lent_entries).ok()?;
    let grid = grid_of(&LentMap::of(&map, Vec::new()));
    Some((grid, map.entries))
}

/// Whether a row is at a limit, where a rounding in doubles may refuse it: its output is 5.00 Nm from the torque of its point, or its loss is 0.
fn is_at_limit(data: &[u8]) -> bool {
    let component = component::read(data).expect("the data is accepted");
    let Kind::Measured(measured) = &component.kind else {
        return false;
    };
    let mut rows = measured.rows.iter().zip(component.torques.iter().cycle());
    rows.any(|(row, torque)| {
        let output = row.output();
        let at_wheel = u64::from(row.input) * u64::from(component.ratio);
        output.abs_diff(100 * u64::from(*torque)) == 500 || at_wheel == 1_000 * output
    })
}

/// How much data was refused, and how many maps were built with doubles and without.
#[derive(Default, Debug)]
struct Builds {
    refused: usize,
    with_doubles: usize,
    without_doubles: usize,
}

impl Builds {
    /// Plain Rust has the map of the second implementation, and none where it refuses. Doubles are at most a hundredth off and refuse the same, but that they may refuse a row at a limit.
    fn expect(&mut self, data: &[u8]) {
        let map = reference_map(data, 2_048);
        assert_eq!(plain_map(data, 2_048), map);
        let in_doubles = doubles::build(data);
        let Some((_, entries)) = &map else {
            assert_eq!(in_doubles, None);
            self.refused += 1;
            return;
        };
        let too_few = entries.len() - 1;
        assert_eq!(plain_map(data, too_few), reference_map(data, too_few));
        assert_eq!(plain_map(data, entries.len()), map);
        let Some(in_doubles) = in_doubles else {
            assert!(is_at_limit(data));
            self.without_doubles += 1;
            return;
        };
        self.with_doubles += 1;
        assert_eq!(entries.len(), in_doubles.len());
        for (entry, double) in entries.iter().zip(in_doubles) {
            assert!((f64::from(*entry) / 100.0 - double).abs() < 0.011);
        }
    }
}

#[test]
fn plain_rust_and_doubles_build_every_kind() {
    for kind in 1..=3 {
        let mut source = Source::new(12, u64::from(kind));
        let mut builds = Builds::default();
        for _ in 0..400 {
            let (speeds, torques) = valid::grid_size(&mut source);
            let data = valid::data_of(&mut source, kind, speeds, torques);
            builds.expect(&data.bytes());
        }
        assert!(
            builds.with_doubles > 300 && builds.without_doubles < 40,
            "kind {kind}: {builds:?}"
        );
    }
}

/// Each sensor with the largest uncertainty that there can be, at no torque and at its nominal torque, with the highest and the lowest ratio.
#[test]
fn plain_rust_and_doubles_build_with_the_largest_sensors() {
    let mut builds = Builds::default();
    let sensor = [
        50_000, 10_000, 10_000, 10_000, 1_000, 10_000, 1_000, 500, 10,
    ];
    for (ratio, torques, rows) in [
        (20_000, [0, 1], [[0, 0, 0], [5, 100, 0]]),
        (
            1_000,
            [25_000, 50_000],
            [[2_500_000, 2_500_000, 0], [5_000_000, 5_000_000, 0]],
        ),
    ] {
        for kind in [2, 3] {
            let count = usize::from(kind);
            let run = rows.map(|row| row[..count].to_vec());
            let mut fields = vec![
                Field::new(1, vec![kind]),
                Field::new(2, vec![1]),
                Field::of_numbers(3, &[ratio]),
                Field::of_numbers(4, &[1, 3_000]),
                Field::of_numbers(5, &torques),
            ];
            fields.extend(Field::of_measurement(
                kind,
                &[sensor; 3][..count],
                &[run.clone(), run].concat(),
            ));
            builds.expect(&Data::of(fields).bytes());
        }
    }
    assert_eq!(builds.with_doubles, 4);
}

#[test]
fn plain_rust_and_doubles_refuse_the_rows_that_are_refused() {
    for kind in [2, 3] {
        let mut source = Source::new(13, u64::from(kind));
        let mut builds = Builds::default();
        for _ in 0..50 {
            let data = valid::data_of(&mut source, kind, 2, 3);
            for faulty in row_faults(&data, source.index(6)) {
                builds.expect(&faulty);
            }
        }
        assert!(
            builds.refused > 300 && builds.with_doubles > 100 && builds.without_doubles < 10,
            "kind {kind}: {builds:?}"
        );
    }
}

#[test]
fn plain_rust_and_doubles_answer_questions() {
    let map = Map {
        speeds: vec![100, 200],
        torques: vec![0, 1_000],
        entries: vec![13_000, 15_041, 13_000, 15_041],
    };
    let grid = grid_of(&LentMap::of(&map, Vec::new()));
    let loss = |speed, torque| plain::loss(&grid, &map.entries, speed, torque);
    assert_eq!(loss(1_000, 50_000), Some(14_021));
    assert_eq!(loss(999, 0), None);
    assert_eq!(loss(1_000, 100_001), None);
    let nearest = |speed| plain::nearest(&grid, speed, 0);
    assert_eq!(nearest(1_500), Some((100, 0)));
    assert_eq!(nearest(1_501), Some((200, 0)));
    let double = doubles::nearest(&[100, 200], &[0, 1_000], 150.1, 0.0);
    assert_eq!(double, (200.0, 0.0));
}

#[test]
fn doubles_are_linear_in_torque_and_then_in_speed() {
    let (speeds, torques) = ([100.0, 200.0, 300.0], [0.0, 1_000.0]);
    let entries = [100.0, 200.0, 300.0, 800.0, 0.0, 0.0];
    let (points, losses): (Vec<(f64, f64)>, Vec<f64>) = [
        ((100.0, 0.0), 100.0),
        ((100.0, 1_000.0), 200.0),
        ((200.0, 1_000.0), 800.0),
        // Between 125 and 425, and between 150 and 550.
        ((150.0, 250.0), 275.0),
        ((125.0, 500.0), 250.0),
        // Between 425 and 0.
        ((280.0, 250.0), 85.0),
        ((300.0, 500.0), 0.0),
    ]
    .into_iter()
    .unzip();
    let mut at_once = vec![-1.0; points.len()];
    doubles::bilinear_at_all(&speeds, &torques, &entries, &points, &mut at_once);
    for ((point, loss), in_one_call) in points.iter().zip(losses).zip(at_once) {
        let alone = doubles::bilinear(&speeds, &torques, &entries, *point);
        for found in [alone, in_one_call] {
            assert!((found - loss).abs() < 1e-9, "{point:?} {found}");
        }
    }
}

/// A case's questions as points.
fn points_of(questions: &[Question]) -> Vec<Point> {
    let point = |question: &Question| Point {
        speed: question.speed,
        torque: question.torque,
    };
    questions.iter().map(point).collect()
}

/// Plain Rust lists a lent map and answers its questions as the library and the second implementation do. How many it answers with a loss.
fn expect_answers(map: &LentMap, room: usize, questions: &[Question]) -> usize {
    let (grid, entries) = (grid_of(map), &map.entries);
    let listed = listing::listing(map, room).ok();
    assert_eq!(plain_listing(&grid, entries, room), listed);
    let mut answered = Vec::new();
    for Point { speed, torque } in points_of(questions) {
        let loss = lookup::loss(map, speed, torque).ok();
        let plain_loss = plain::loss(&grid, entries, speed, torque);
        assert_eq!(plain_loss.map(i128::from), loss);
        assert_eq!(plain_loss, axle::loss(&grid, entries, speed, torque).ok());
        let nearest = plain::nearest(&grid, speed, torque);
        assert_eq!(nearest, lookup::nearest(map, speed, torque).ok());
        assert_eq!(nearest, axle::nearest(&grid, speed, torque).ok());
        answered.extend(plain_loss.map(|loss| (Point { speed, torque }, loss)));
    }
    expect_losses(map, &points_of(questions), &answered);
    answered.len()
}

/// All losses in one call where all points are answered, and none where one is not or too few places are lent.
fn expect_losses(map: &LentMap, points: &[Point], answered: &[(Point, i64)]) {
    let (grid, entries) = (grid_of(map), &map.entries);
    let is_map = lookup::test_map(map).is_ok();
    let mut losses = vec![0; points.len()];
    let answer = plain::losses(&grid, entries, points, &mut losses);
    assert_eq!(answer.is_some(), is_map && answered.len() == points.len());
    let (points, expected): (Vec<Point>, Vec<i64>) = answered.iter().copied().unzip();
    let (mut losses, mut library_losses) = (vec![0; points.len()], vec![0; points.len()]);
    let answer = plain::losses(&grid, entries, &points, &mut losses);
    let library_answer = axle::losses(&grid, entries, &points, &mut library_losses);
    assert_eq!((answer.is_some(), library_answer.is_ok()), (is_map, is_map));
    assert_eq!((&losses, &library_losses), (&expected, &expected));
    if let Some(too_few) = points.len().checked_sub(1) {
        let answer = plain::losses(&grid, entries, &points, &mut losses[..too_few]);
        assert_eq!(answer, None);
    }
}

#[test]
fn plain_rust_answers_questions_to_any_map() {
    let mut source = Source::new(14, 0);
    let (mut answered, mut maps) = (0, 0);
    for way in (0..2_400).map(|number| number % 24) {
        // Half of the ways leave the map right.
        let map = match way {
            0..12 => lent_maps::broken_map(&mut source, way),
            _ => lent_maps::valid_map(&mut source),
        };
        let is_map = lookup::test_map(&map).is_ok();
        let axis = |axis: &Axis| axis.numbers[..axis.count.clamp(2, axis.numbers.len())].to_vec();
        let (speeds, torques) = (axis(&map.speeds), axis(&map.torques));
        let rises = |axis: &[u16]| axis.windows(2).all(|pair| pair[0] < pair[1]);
        let questions = if rises(&speeds) && rises(&torques) {
            questions(&mut source, &speeds, &torques, 12)
        } else {
            Vec::new()
        };
        let length = listing::listing(&map, 65_536).map_or(100, |text| text.len());
        for room in [length, length - 1, 65_536] {
            answered += expect_answers(&map, room, &questions);
        }
        maps += usize::from(is_map);
    }
    assert!(maps >= 1_200 && answered > 20_000, "{maps} {answered}");
}

/// The largest map there can be, its entries 0 and the largest in turn.
fn largest_map() -> LentMap {
    let map = Map {
        speeds: (1..32).chain([3_000]).collect(),
        torques: (0..63).map(|i| 7 * i).chain([50_000]).collect(),
        entries: (0..2_048).map(|i| i % 2 * 10_000_000).collect(),
    };
    LentMap::of(&map, map.entries.clone())
}

/// At each grid point, beside it and within the cells.
#[test]
fn plain_rust_answers_questions_to_the_largest_map() {
    let map = largest_map();
    let speeds = map.speeds.numbers.iter().flat_map(|speed| {
        let speed = 10 * u32::from(*speed);
        [speed, speed + 1, speed - 1]
    });
    let mut points = Vec::new();
    for speed in speeds {
        for torque in &map.torques.numbers {
            let torque = 100 * u32::from(*torque);
            for torque in [torque, torque + 1, torque + 350, torque.saturating_sub(1)] {
                points.push(Question { speed, torque });
            }
        }
    }
    let chunks = points.chunks(64);
    let answered: usize = chunks
        .map(|points| expect_answers(&map, 65_536, points))
        .sum();
    // All but one speed below the first and one above the last, and two torques above the last.
    assert_eq!(answered, (3 * 32 - 2) * (4 * 64 - 2));
}

/// Below a first torque that is as large as it can be, between entries as far apart as they can be.
#[test]
fn plain_rust_continues_the_line_of_the_first_two_torques() {
    for (entries, losses) in [
        ([0, 10_000_000, 0, 10_000_000], [-10_000_000, -9_999_996]),
        ([10_000_000, 0, 10_000_000, 0], [20_000_000, 19_999_996]),
    ] {
        let map = Map {
            speeds: vec![1, 3_000],
            torques: vec![25_000, 50_000],
            entries: entries.to_vec(),
        };
        let grid = grid_of(&LentMap::of(&map, Vec::new()));
        // At 0.00 Nm the line is continued by a whole step; at 0.01 Nm it is 4 hundredths nearer.
        for (torque, loss) in [(0, losses[0]), (1, losses[1])] {
            for speed in [10, 15_000, 30_000] {
                let found = plain::loss(&grid, &map.entries, speed, torque);
                assert_eq!(found, Some(loss), "{entries:?} {speed} {torque}");
            }
        }
    }
}

#[test]
fn plain_rust_loads_what_the_library_loads() {
    let mut cases = load_cases::systematic(16);
    cases.extend((0..2_000).map(|number| load_cases::by_chance(16, number, false)));
    let (mut loaded, mut refused) = (0, 0);
    for case in cases {
        let Case::Load { text, entries } = case else {
            continue;
        };
        let map = loader::load(&text, entries).ok();
        let map = map.map(|map| (grid_of(&LentMap::of(&map, Vec::new())), map.entries));
        let mut lent = vec![0; entries];
        let grid = plain::load(&text, &mut lent);
        assert_eq!(grid, axle::load(&text, &mut vec![0; entries]).ok());
        let found = grid.map(|grid| {
            lent.truncate(grid.speed_count * grid.torque_count);
            (grid, lent)
        });
        loaded += usize::from(found.is_some());
        refused += usize::from(found.is_none());
        assert_eq!(found, map, "{}", String::from_utf8_lossy(&text));
    }
    assert!(loaded > 200 && refused > 1_000, "{loaded} {refused}");
}

#[test]
fn plain_rust_reckons_the_drags_of_the_library() {
    let mut cases = drag_cases::systematic(17);
    cases.extend((0..4_000).map(|number| drag_cases::by_chance(17, number)));
    let (mut answered, mut refused) = (0, 0);
    for case in cases {
        let Case::Drag(numbers) = case else {
            continue;
        };
        let (readings, bearing_losses) = (&numbers.readings, &numbers.bearing_losses);
        let (ratio, speed) = (numbers.ratio, numbers.speed);
        let drag = plain::drag(readings, bearing_losses, ratio, speed);
        assert_eq!(drag, retarder::drag(&numbers).ok(), "{numbers:?}");
        let library_drag = axle::retarder_drag(readings, bearing_losses, ratio, speed);
        assert_eq!(drag, library_drag.ok(), "{numbers:?}");
        answered += usize::from(drag.is_some());
        refused += usize::from(drag.is_none());
    }
    assert!(answered > 1_000 && refused > 500, "{answered} {refused}");
}

#[test]
fn plain_rust_reckons_the_steps_of_the_library() {
    let mut cases = steps_cases::systematic(15);
    cases.extend((0..4_000).map(|number| steps_cases::by_chance(15, number)));
    let (mut answered, mut refused) = (0, 0);
    for case in cases {
        let Case::Steps { sensor, torque } = case else {
            continue;
        };
        let steps = plain::steps(&sensor, torque);
        let library_steps = Sensor::from(sensor).steps(torque);
        assert_eq!(steps, library_steps.ok().map(|steps| steps.in_order()));
        let reference_steps = checked_steps(sensor, torque).ok();
        let reference_steps = reference_steps.map(|steps| steps.in_order());
        assert_eq!(steps.map(|steps| steps.map(u128::from)), reference_steps);
        answered += usize::from(steps.is_some());
        refused += usize::from(steps.is_none());
    }
    assert!(answered > 1_000 && refused > 500, "{answered} {refused}");
}

#[test]
fn roots_are_the_least_that_reach() {
    let numbers: [u64; 7] = [0, 1, 2, 4, 5, 10_000_000_000, 9_999_800_002];
    let expected = [0, 1, 2, 2, 3, 100_000, 100_000];
    let mut found = [0; 7];
    roots::proved(&numbers, &mut found);
    assert_eq!(found, expected);
    found.fill(0);
    roots::plain(&numbers, &mut found);
    assert_eq!(found, expected);
}

/// About each square: the largest that a row can have, those that doubles hold no more, and the largest of all.
#[test]
fn roots_change_at_squares() {
    let largest = [
        94_906_265,
        94_906_266,
        854_400_374,
        (1 << 31) - 1,
        (1 << 32) - 1,
    ];
    for root in (1..100_000).chain(largest) {
        let square: u64 = root * root;
        let numbers = [square - 1, square, square + 1];
        let expected = [if root == 1 { 0 } else { root }, root, root + 1];
        let mut found = [0; 3];
        roots::plain(&numbers, &mut found);
        assert_eq!(found, expected);
    }
}

#[test]
fn the_library_answers_cases_in_the_text_of_the_second_implementation() {
    let (mut seen, mut lent) = (Seen::default(), Lent::default());
    let mut cases = write_cases::systematic(11);
    cases.extend((0..500).map(|number| at_scale::by_chance(11, number)));
    for (number, case) in cases.iter().enumerate() {
        // The library does not export the reader or the program's report.
        if !matches!(case, Case::Read(_) | Case::Program(_)) {
            let ours = answer(case, &mut lent);
            assert_eq!(ours, reply(case, &mut seen), "{number}");
        }
    }
    assert!((1..=3).all(|kind| seen.maps_of(kind) > 0) && !seen.refusals.is_empty());
    assert!((1..=3).all(|kind| seen.writes.files_of(kind) > 0));
    assert!(WRITE_REFUSALS
        .iter()
        .all(|number| seen.writes.refused_with(*number) > 0));
}
