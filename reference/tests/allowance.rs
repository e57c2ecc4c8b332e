//! Request C-13 for the keeper of certified files: against the allowance of before it, the larger of 5 % of the loss and 1 Nm, no entry rises, and refusal 10 stays where it was.

use reference::component::{Measured, Row, Sensor};
use reference::data::SENSOR_RANGES;
use reference::loss::{measured_entry, measured_steps};
use reference::random::Source;

const SEED: u64 = 13;
const ROWS: u64 = 60_000;
const LARGEST_ENTRY: u128 = 10_000_000;

/// The entry in hundredths of Nm with the allowance of before, reckoned in 20,000 parts of a hundredth.
fn entry_before(ratio: u16, measured: &Measured, row: &Row) -> u128 {
    let uncertainty = 200 * uncertainty(ratio, measured, row);
    let output: u128 = row.outputs.iter().copied().map(u128::from).sum();
    let thousandths = u128::from(ratio) * u128::from(row.input) - 1_000 * output;
    // A twentieth of 20 parts for each thousandth is one part; 1 Nm has 100 hundredths.
    let allowance = thousandths.max(100 * 20_000);
    let sum = 20 * thousandths + uncertainty.saturating_sub(allowance);
    sum.div_ceil(20_000)
}

/// The loss uncertainty in grains.
fn uncertainty(ratio: u16, measured: &Measured, row: &Row) -> u128 {
    let steps = measured_steps(ratio, measured, row).expect("no loss under zero");
    steps.loss_uncertainty.uncertainty
}

/// A sensor over the whole ranges, its influences often small or at an end.
fn sensor(source: &mut Source, largest: u32) -> Sensor {
    let small = source.once_in(2);
    let mut numbers = SENSOR_RANGES.map(|(lowest, highest)| {
        let (lowest, highest) = (u64::from(lowest), u64::from(highest));
        let highest = if small {
            lowest + (highest - lowest) / 100
        } else {
            highest
        };
        source.with_ends(lowest, highest) as u16
    });
    let least = u64::from(largest.div_ceil(100).max(1));
    numbers[0] = source.with_ends(least, 50_000) as u16;
    Sensor::of(numbers).expect("numbers within their ranges")
}

/// A ratio, a row, and sensors for it. The loss is small, about 20 Nm times the ratio, any, or about the largest entry.
fn ratio_and_row(source: &mut Source) -> (u16, Measured, Row) {
    let ratio = source.with_ends(1_000, 20_000);
    let most = 5_000_000;
    let loss = match source.below(4) {
        0 => source.between(0, 400),
        1 => source.between(1_900, 2_100) * ratio / 1_000,
        2 => source.between(0, 200_000),
        _ => source.between(9_000_000, 10_100_000),
    };
    let highest = (most * ratio / 1_000).saturating_sub(loss).min(most);
    let output = source.with_ends(0, highest);
    // At a low ratio the input sensor cannot have a large loss.
    let input = ((output + loss) * 1_000).div_ceil(ratio).min(most);
    let left = source.with_ends(0, output);
    let sides = [left, output - left].map(|torque| torque as u32);
    let outputs = if source.once_in(2) {
        sides.to_vec()
    } else {
        vec![output as u32]
    };
    let row = Row {
        input: input as u32,
        outputs,
    };
    let measured = Measured {
        input: sensor(source, row.input),
        outputs: row.outputs.iter().map(|t| sensor(source, *t)).collect(),
        rows: Vec::new(),
        rows_start: 0,
    };
    (ratio as u16, measured, row)
}

/// The row with the last input torque whose entry is not above the largest, and the row with the next one; if the sensor can have it.
fn about_the_largest_entry(ratio: u16, measured: &Measured, row: &Row) -> Vec<Row> {
    let with = |input| Row {
        input,
        ..row.clone()
    };
    let above = |input| measured_entry(ratio, measured, &with(input)) > Some(LARGEST_ENTRY);
    let (mut under, mut over) = (row.input, 100 * u32::from(measured.input.nominal));
    if above(under) || !above(over) {
        return Vec::new();
    }
    while over - under > 1 {
        let middle = under + (over - under) / 2;
        if above(middle) {
            over = middle;
        } else {
            under = middle;
        }
    }
    vec![with(under), with(over)]
}

/// How many rows were what.
#[derive(Default, Debug)]
struct Found {
    lower: u64,
    equal: u64,
    accepted: u64,
    refused: u64,
    about_the_largest: u64,
}

impl Found {
    /// What is owed of a row, and what it is.
    fn add(&mut self, ratio: u16, measured: &Measured, row: &Row) {
        for (torque, sensor) in row.outputs.iter().zip(&measured.outputs) {
            assert!(*torque <= 100 * u32::from(sensor.nominal));
        }
        assert!(row.input <= 100 * u32::from(measured.input.nominal));
        let now = measured_entry(ratio, measured, row).expect("no loss under zero");
        let before = entry_before(ratio, measured, row);
        assert!(now <= before, "{now} after {before}: {ratio} {row:?}");
        let (refused, refused_before) = (now > LARGEST_ENTRY, before > LARGEST_ENTRY);
        assert_eq!(refused, refused_before, "{ratio} {measured:?} {row:?}");
        self.lower += u64::from(now < before);
        self.equal += u64::from(now == before);
        self.refused += u64::from(refused);
        self.accepted += u64::from(!refused);
    }
}

#[test]
fn no_entry_rises_and_none_is_refused_anew() {
    let mut found = Found::default();
    for number in 0..ROWS {
        let source = &mut Source::new(SEED, number);
        let (ratio, measured, row) = ratio_and_row(source);
        found.add(ratio, &measured, &row);
        for row in about_the_largest_entry(ratio, &measured, &row) {
            found.add(ratio, &measured, &row);
            found.about_the_largest += 1;
        }
    }
    let counts = [
        found.lower,
        found.equal,
        found.accepted,
        found.refused,
        found.about_the_largest,
    ];
    assert!(counts.iter().all(|count| *count >= 1_000), "{found:?}");
}
