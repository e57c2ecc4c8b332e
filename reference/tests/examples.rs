//! The example files have what they were made for, and each number of the bench run's map has its trace.

use reference::component::{self, Component, Kind, Measured};
use reference::examples::files;
use reference::listing::report;
use reference::lookup::{loss, Axis, LentMap};
use reference::loss::{measured_steps, newton_metre_at_wheel, MeasuredSteps};
use reference::map::{self, Map};
use reference::numerals::read_decimal;
use reference::trace;
use reference::writer::{write, HandedNumbers};

fn file(name: &str) -> Vec<u8> {
    let found = files().into_iter().find(|file| file.name == name);
    found.expect("a file of this name").content
}

fn text(name: &str) -> String {
    String::from_utf8(file(name)).unwrap()
}

fn bench_run() -> (Component, Map) {
    let data = file("bench-run.axle");
    let built = map::build(&data, 2_048).unwrap();
    (component::read(&data).unwrap(), built)
}

fn measured(component: &Component) -> &Measured {
    match &component.kind {
        Kind::Measured(measured) => measured,
        Kind::Standard => panic!("the bench run is measured"),
    }
}

/// The steps of each entry of the bench run.
fn all_steps() -> Vec<MeasuredSteps> {
    let (component, _) = bench_run();
    let measured = measured(&component);
    let steps = |row| measured_steps(component.ratio, measured, row).unwrap();
    measured.rows.iter().map(steps).collect()
}

#[test]
fn each_data_file_has_its_answer() {
    let names: Vec<String> = files().into_iter().map(|file| file.name).collect();
    let expected = [
        "standard.axle",
        "standard.csv",
        "standard.numbers",
        "measured.axle",
        "measured.csv",
        "measured.numbers",
        "half-shafts.axle",
        "half-shafts.csv",
        "half-shafts.numbers",
        "refused.axle",
        "refused.refusal",
        "bench-run.axle",
        "bench-run.csv",
        "bench-run.numbers",
        "cut-short.axle",
        "cut-short.refusal",
    ];
    assert_eq!(names, expected);
    for pair in files().windows(2) {
        if pair[0].name.ends_with(".axle") {
            assert_eq!(report(&pair[0].content), pair[1].content);
        }
    }
}

/// The numbers after a word, in all lines that begin with it.
fn numbers_after(text: &str, word: &str, digits: usize) -> Vec<u32> {
    let of_line = |line| str::strip_prefix(line, word)?.strip_prefix(' ');
    let lines = text.lines().filter_map(of_line);
    let numbers = lines.flat_map(|numbers| numbers.split(' '));
    numbers
        .map(|number| read_decimal(number, digits).unwrap())
        .collect()
}

/// The numbers that a text says; sensors that it does not have are 0.
fn handed(text: &str) -> HandedNumbers {
    let numbers = |word: &str, digits: usize| -> Vec<u16> {
        let numbers = numbers_after(text, word, digits).into_iter();
        numbers.map(|n| u16::try_from(n).unwrap()).collect()
    };
    let axis = |word: &str, places: usize| {
        let mut numbers = numbers(word, 0);
        let count = numbers.len();
        numbers.resize(places, 0);
        Axis { numbers, count }
    };
    HandedNumbers {
        kind: numbers("kind", 0)[0],
        line: numbers("line", 0)[0],
        ratio: numbers("ratio", 3)[0],
        speeds: axis("speeds", 32),
        torques: axis("torques", 64),
        sensors: ["input", "output", "right"]
            .map(|word| numbers(word, 0).try_into().unwrap_or_default()),
        row_torques: numbers_after(text, "row", 2),
    }
}

#[test]
fn each_text_of_numbers_makes_the_file_beside_it() {
    for (name, sensor_count) in [
        ("standard", 0),
        ("measured", 2),
        ("half-shafts", 3),
        ("bench-run", 2),
    ] {
        let data = file(&format!("{name}.axle"));
        let numbers = handed(&text(&format!("{name}.numbers")));
        let mut written = vec![0; data.len()];
        assert_eq!(write(&numbers, &mut written), Ok(data.len()), "{name}");
        assert_eq!(written, data, "{name}");
        let others = &numbers.sensors[sensor_count..];
        assert!(others.iter().all(|sensor| *sensor == [0; 9]), "{name}");
    }
}

const HALF_SHAFTS_TEXT: &str = "\
# Measured data with a sensor on each half-shaft: single reduction, ratio 3.000.
kind 3
line 1
ratio 3.000
speeds 100 200
torques 1000 3000

# The sensors: N, w, z, c, k, s, p, d, R. The output is the left one.
input 10000 0 0 100 1000 0 0 0 10
output 30000 0 0 100 1000 0 0 0 10
right 15000 0 0 100 1000 0 0 0 10

# Input, left and right torque at 100 rpm, then at 200 rpm.
row 340.00 600.00 400.00
row 1020.00 2000.00 1000.00
row 345.00 350.00 652.00
row 1100.00 1200.00 1800.00
";

#[test]
fn texts_of_numbers_line_by_line() {
    assert_eq!(text("half-shafts.numbers"), HALF_SHAFTS_TEXT);
    let standard = "# Standard data: single reduction, ratio 3.000.\n\
        kind 1\nline 1\nratio 3.000\nspeeds 100 200\ntorques 0 1000\n";
    assert_eq!(text("standard.numbers"), standard);
    let bench_run = text("bench-run.numbers");
    assert!(bench_run.starts_with("# A bench run: single reduction, ratio 3.727.\nkind 2\n"));
    let rows = "\n\n# Input and output torque at 50 rpm, then at each higher speed.\nrow ";
    assert!(bench_run.contains(rows));
}

const STANDARD: &str = "01000101020001010300020BB8040004006400C8050004000003E8";

/// The measured example before its rows.
const MEASURED: &str = "01000102020001010300020BB8040004006400C805000403E80BB8\
    0600122710000000000064\
    03E8000000000000000A\
    0700129C40000000000064\
    03E8000000000000000A\
    080020";

/// The file of kind 3: a row a line.
const HALF_SHAFTS: &str = "01000103020001010300020BB8040004006400C805000403E80BB8\
    0600122710000000000064\
    03E8000000000000000A\
    0700127530000000000064\
    03E8000000000000000A\
    0900123A98000000000064\
    03E8000000000000000A\
    0A0030\
    000084D00000EA6000009C40\
    00018E7000030D40000186A0\
    000086C4000088B80000FEB0\
    0001ADB00001D4C00002BF20";

fn digits(bytes: &[u8]) -> String {
    bytes.iter().map(|byte| format!("{byte:02X}")).collect()
}

#[test]
fn the_small_files_byte_for_byte() {
    assert_eq!(digits(&file("standard.axle")), STANDARD);
    let rows = |row: &str| format!("{MEASURED}{row}{row}");
    let accepted = rows("000084D0000186A00001ADB0000493E0");
    assert_eq!(digits(&file("measured.axle")), accepted);
    let refused = rows("000084D0000186A00001869F000493E0");
    assert_eq!(digits(&file("refused.axle")), refused);
    let listing =
        "speed,torque,loss\n100,1000,27.00\n100,3000,300.00\n200,1000,27.00\n200,3000,300.00\n";
    // Losses 20.00 and 300.00 Nm, and 10.00 Nm less 3.00, 1 Nm x 3.000, and 15.00, 5 %.
    assert_eq!(text("measured.csv"), listing);
    assert_eq!(digits(&file("half-shafts.axle")), HALF_SHAFTS);
    // Losses 20.00, 60.00, 33.00 and 300.00 Nm, and 9.00 Nm less 3.00 three times, 1 Nm x 3.000, and 15.00, 5 %.
    let listing =
        "speed,torque,loss\n100,1000,26.00\n100,3000,66.00\n200,1000,39.00\n200,3000,300.00\n";
    assert_eq!(text("half-shafts.csv"), listing);
    assert_eq!(text("refused.refusal"), "refused 9 at 80\n");
}

#[test]
fn the_bench_run_has_the_prescribed_grid() {
    let (component, _) = bench_run();
    let speeds: Vec<u16> = (1..=13).map(|step| 50 * step).collect();
    assert_eq!(component.speeds, speeds);
    let prescribed = [
        250, 500, 750, 1_000, 1_500, 2_000, 3_000, 4_000, 5_000, 6_000, 7_000, 8_000, 9_000,
        10_000, 12_000, 14_000, 16_000, 18_000, 20_000,
    ];
    let torques = &component.torques;
    assert!(prescribed.iter().all(|torque| torques.contains(torque)));
    assert_eq!(torques.len(), 21);
    assert!(torques.contains(&1_250) && torques.contains(&1_750));
}

#[test]
fn every_influence_of_both_sensors_is_at_work() {
    let (component, _) = bench_run();
    let measured = measured(&component);
    for sensor in [&measured.input, &measured.outputs[0]] {
        assert!(!sensor.numbers().contains(&0));
    }
    for steps in all_steps() {
        let [output] = &steps.outputs[..] else {
            panic!("one output sensor");
        };
        for part in steps.input.unrounded.iter().chain(&output.unrounded) {
            assert!(!part.numerator.is_multiple_of(part.denominator));
        }
    }
}

#[test]
fn the_uncertainty_is_above_the_allowance_in_half_of_the_entries() {
    let steps = all_steps();
    let above = steps.iter().filter(|steps| steps.above_allowance > 0);
    assert_eq!((above.count(), steps.len()), (146, 273));
}

#[test]
fn both_allowances_occur_in_the_bench_run() {
    let (component, _) = bench_run();
    let (steps, count) = (all_steps(), component.torques.len());
    // Up to 2,000 Nm the axle may lose less than 20 Nm x 3.727, 74.54 Nm: 1 Nm x 3.727 is the allowance there, and the uncertainty is above it.
    let mut of_ratio = Vec::new();
    for (index, steps) in steps.iter().enumerate() {
        assert_eq!(
            steps.loss < 7_454_000,
            steps.allowance == newton_metre_at_wheel(3_727)
        );
        if steps.loss < 7_454_000 {
            assert!(component.torques[index % count] <= 2_000 && steps.above_allowance > 0);
            of_ratio.push(steps);
        }
    }
    assert_eq!((of_ratio.len(), steps.len()), (51, 273));
}

#[test]
fn the_output_torque_strays_as_on_a_bench() {
    let (component, _) = bench_run();
    let torques = &component.torques;
    let mut strays: Vec<i64> = measured(&component)
        .rows
        .iter()
        .enumerate()
        .map(|(index, row)| {
            let aim = 100 * i64::from(torques[index % torques.len()]);
            i64::try_from(row.output()).unwrap() - aim
        })
        .collect();
    strays.sort_unstable();
    let (lowest, highest) = (strays[0], strays[strays.len() - 1]);
    assert!((-500..-400).contains(&lowest) && (401..=500).contains(&highest));
    strays.dedup();
    assert!(strays.len() > 200, "{} different strays", strays.len());
}

#[test]
fn the_losses_are_those_of_an_axle() {
    let (component, _) = bench_run();
    let steps = all_steps();
    let count = component.torques.len();
    // Thousandths of a hundredth of Nm.
    let loss = |speed: usize, torque: usize| steps[speed * count + torque].loss;
    for speed in 0..component.speeds.len() {
        for torque in 1..count {
            assert!(loss(speed, torque) > loss(speed, torque - 1));
        }
        let share = loss(speed, count - 1) / 2_000_000;
        assert!(
            (20..30).contains(&share),
            "{share} thousandths of 20,000 Nm"
        );
    }
    for speed in 1..component.speeds.len() {
        assert!(loss(speed, 0) > loss(speed - 1, 0), "drag");
    }
}

#[test]
fn the_short_file_ends_amid_a_row() {
    let (whole, short) = (file("bench-run.axle"), file("cut-short.axle"));
    assert_eq!((whole.len(), short.len()), (2_316, 1_024));
    assert!(whole.starts_with(&short));
    let component = component::read(&whole).unwrap();
    let rows_start = measured(&component).rows_start;
    assert!(!(short.len() - rows_start).is_multiple_of(8));
    assert_eq!(text("cut-short.refusal"), "refused 1 at 129\n");
}

/// The last line of a trace, without its name.
fn last_line(trace: &str) -> &str {
    trace.lines().last().unwrap()[18..].trim()
}

#[test]
fn each_entry_of_the_measured_files_has_its_trace() {
    for name in ["bench-run", "half-shafts"] {
        expect_traces(name);
    }
}

/// The trace of each entry ends in the listing's line, and no line of it is too long.
fn expect_traces(name: &str) {
    let data = file(&format!("{name}.axle"));
    let component = component::read(&data).unwrap();
    let listing = text(&format!("{name}.csv"));
    let mut lines = listing.lines().enumerate().skip(1);
    for speed in &component.speeds {
        for torque in &component.torques {
            let text = trace::entry(&data, u32::from(*speed), u32::from(*torque)).unwrap();
            let (index, line) = lines.next().unwrap();
            assert_eq!(last_line(&text), format!("line {}: {line}", index + 1));
            let widest = text.lines().map(|line| line.chars().count()).max();
            assert!(widest.unwrap() <= 110);
        }
    }
    assert_eq!(lines.next(), None);
}

/// The number of hundredths that the last line names.
fn answer(trace: &str) -> i128 {
    let (number, _) = last_line(trace).split_once(" hundredths").unwrap();
    number.replace(',', "").parse().unwrap()
}

#[test]
fn points_of_the_bench_run() {
    let data = file("bench-run.axle");
    let (_, built) = bench_run();
    let lent = LentMap::of(&built, built.entries.clone());
    // At the ends, on grid lines, beside them, in cells, and below the first torque.
    for speed in [500, 501, 999, 1_000, 1_001, 3_333, 6_499, 6_500] {
        for torque in [
            0, 1, 12_345, 24_999, 25_000, 25_001, 177_777, 1_999_999, 2_000_000,
        ] {
            let text = trace::point(&data, speed, torque).unwrap();
            assert_eq!(Ok(answer(&text)), loss(&lent, speed, torque));
            assert_eq!(text.contains("\ncontinued "), torque < 25_000);
        }
    }
}

#[test]
fn the_half_shafts_share_the_torque_differently() {
    let data = file("half-shafts.axle");
    assert_eq!(data.len(), 141);
    let component = component::read(&data).unwrap();
    let measured = measured(&component);
    let [left, right] = &measured.outputs[..] else {
        panic!("two output sensors");
    };
    assert_ne!(left, right);
    let mut lefts_larger = 0;
    for row in &measured.rows {
        let [left, right] = row.outputs[..] else {
            panic!("two output torques");
        };
        // A sixth of their sum and more.
        assert!(6 * u64::from(left.abs_diff(right)) >= row.output());
        lefts_larger += usize::from(left > right);
        let steps = measured_steps(component.ratio, measured, row).unwrap();
        assert_eq!(steps.loss_uncertainty.uncertainty, 90_000);
    }
    assert_eq!(lefts_larger, 2);
}

#[test]
fn points_with_negative_answers() {
    let data = file("measured.axle");
    let built = map::build(&data, 4).unwrap();
    let lent = LentMap::of(&built, built.entries.clone());
    let mut negative = 0;
    for speed in [1_000, 1_234, 2_000] {
        for torque in (0..=100_000).step_by(4_999) {
            let text = trace::point(&data, speed, torque).unwrap();
            assert_eq!(Ok(answer(&text)), loss(&lent, speed, torque));
            negative += usize::from(answer(&text) < 0);
        }
    }
    // The line through 27.00 Nm at 1,000 Nm and 300.00 Nm at 3,000 Nm is at zero near 802 Nm.
    assert_eq!(negative, 3 * 17);
}
