//! Cases of request C-13: measured data whose losses are about 20 Nm times the ratio, where 5 % of a loss and 1 Nm times the ratio are equal.

use crate::allowances::{loss_step, Standing};
use crate::cases::{asked_build, Case, MOST_ENTRIES};
use crate::component::measured_tags;
use crate::data::{Data, Field};
use crate::map;
use crate::random::Source;
use crate::valid;

/// Changes the seed: the draws for these cases are none of those for others.
const SEQUENCE: u64 = 0x8EBC_6AF0_9C88_C6E3;

/// The random numbers for one case.
fn source_of(seed: u64, number: u64) -> Source {
    Source::new(seed ^ SEQUENCE, number)
}

const KINDS: [u8; 2] = [2, 3];

/// Both ends of the ratio's range, each in turn with a ratio between: there a loss goes in steps of 1,000, 1, 1 and 4 thousandths of a hundredth of Nm.
const RATIOS: [u16; 12] = [
    1_000, 20_000, 3_000, 1_000, 20_000, 3_727, 1_000, 20_000, 1_001, 1_000, 20_000, 19_996,
];

/// How often the ratios come round.
const ROUNDS: usize = 4;

/// A case by chance; the number and the seed decide it.
pub fn by_chance(seed: u64, number: u64) -> Case {
    let source = &mut source_of(seed, number);
    let kind = source.one_of(&KINDS);
    let ratio = valid::ratio(source);
    let data = accepted_data(source, kind, ratio, valid::sensors);
    asked_build(source, &data, 4)
}

/// The cases that do not depend on chance alone, for each measured kind.
pub fn systematic(seed: u64) -> Vec<Case> {
    let source = &mut source_of(seed, u64::MAX);
    let mut cases = Vec::new();
    for kind in KINDS {
        for ratio in RATIOS.repeat(ROUNDS) {
            let data = accepted_data(source, kind, ratio, valid::sensors);
            cases.push(Case::of_data(data.bytes()));
        }
        for input in AT_ONE_NEWTON_METRE {
            for ratio in [1_000, 3_727, 20_000] {
                let sensors = |_: &mut Source, rows: &[Vec<u32>]| {
                    let outputs = vec![QUIET; rows[0].len() - 1];
                    [vec![input], outputs].concat()
                };
                let data = accepted_data(source, kind, ratio, sensors);
                cases.push(Case::of_data(data.bytes()));
            }
        }
    }
    cases
}

/// Without any influence.
const QUIET: [u16; 9] = [50_000, 0, 0, 0, 1_000, 0, 0, 0, 10];

/// Input sensors with U of 9,998, 9,999, 10,000, 10,001 and 10,002 grains: about 1 Nm. Twice g, and a grain more where h is one.
const AT_ONE_NEWTON_METRE: [[u16; 9]; 5] = [
    [4_999, 0, 0, 100, 1_000, 0, 0, 0, 10],
    [4_999, 0, 0, 100, 1_000, 1, 1, 0, 10],
    [5_000, 0, 0, 100, 1_000, 0, 0, 0, 10],
    [5_000, 0, 0, 100, 1_000, 1, 1, 0, 10],
    [5_001, 0, 0, 100, 1_000, 0, 0, 0, 10],
];

/// Data that the build accepts, with sensors for its rows.
fn accepted_data(
    source: &mut Source,
    kind: u8,
    ratio: u16,
    sensors: impl Fn(&mut Source, &[Vec<u32>]) -> Vec<[u16; 9]>,
) -> Data {
    let outputs = measured_tags(kind).map_or(0, |tags| tags.outputs.len());
    loop {
        let speed_count = source.between(2, 4) as usize;
        let (torques, rows) = rows(source, outputs as u64, ratio.into(), speed_count);
        let line = source.between(1, 5) as u8;
        let speeds = valid::speeds(source, speed_count);
        let mut fields = Field::of_every_kind(kind, line, ratio, &speeds, &torques);
        fields.extend(Field::of_measurement(kind, &sensors(source, &rows), &rows));
        let data = Data::of(fields);
        if map::build(&data.bytes(), MOST_ENTRIES).is_ok() {
            return data;
        }
    }
}

/// The torques of the axis, and a row for each at each speed. At the first speed both allowances are equal or a step apart, and the axis has the torques where that can be.
fn rows(
    source: &mut Source,
    outputs: u64,
    ratio: u64,
    speed_count: usize,
) -> (Vec<u16>, Vec<Vec<u32>>) {
    let torque_count = source.between(3, 5);
    let scale = source.one_of(&[1, 4, 16]);
    let first_standing = source.index(NEAR.len());
    let mut torques = Vec::new();
    let mut pairs = Vec::new();
    for place in 0..torque_count {
        let standing = NEAR[(first_standing + place as usize) % NEAR.len()];
        let lowest = (900_000 * place + source.between(0, 400_000)) / scale;
        let (input, output) = near_row_from(ratio, standing, lowest);
        torques.push(((output + 50) / 100) as u16);
        pairs.push((input, output));
    }
    for _ in 1..speed_count {
        for torque in &torques {
            let standing = source.one_of(&Standing::ALL);
            pairs.push(row(source, ratio, standing, u64::from(*torque)));
        }
    }
    let rows = pairs
        .into_iter()
        .map(|(input, output)| valid::row_torques(source, input, output, outputs));
    (torques, rows.collect())
}

const NEAR: [Standing; 3] = [Standing::StepBelow, Standing::Equal, Standing::StepAbove];

/// Input torque in hundredths of Nm at which the loss is 20 Nm times the ratio, where there is no output torque.
const INPUT_OF_EQUAL: u64 = 2_000;

/// The loss of a near standing in thousandths of a hundredth of Nm.
fn near_loss(ratio: u64, standing: Standing) -> Option<u64> {
    let equal = INPUT_OF_EQUAL * ratio;
    let step = u64::from(loss_step(ratio as u16));
    match standing {
        Standing::StepBelow => Some(equal - step),
        Standing::Equal => Some(equal),
        Standing::StepAbove => Some(equal + step),
        Standing::Below | Standing::Above => None,
    }
}

/// Input and output torque of a row with this loss, if there is one with this input torque.
fn row_of_loss(ratio: u64, loss: u64, input: u64) -> Option<(u64, u64)> {
    let at_wheel = (input * ratio).checked_sub(loss)?;
    let output = at_wheel.is_multiple_of(1_000).then_some(at_wheel / 1_000);
    Some((input, output?))
}

/// The row of a near standing with the least output torque from this one on.
fn near_row_from(ratio: u64, standing: Standing, lowest: u64) -> (u64, u64) {
    let loss = near_loss(ratio, standing).expect("a near standing");
    let least = (1_000 * lowest + loss).div_ceil(ratio);
    // The loss has thousandths, so that of 1,000 input torques at least one fits.
    let mut rows = (least..).filter_map(|input| row_of_loss(ratio, loss, input));
    rows.next().expect("a row")
}

/// A row at an axis torque, of this standing where the axis torque has one.
fn row(source: &mut Source, ratio: u64, standing: Standing, torque: u64) -> (u64, u64) {
    let (lowest, highest) = ((100 * torque).saturating_sub(500), 100 * torque + 500);
    if let Some(loss) = near_loss(ratio, standing) {
        let input = |output: u64| (1_000 * output + loss) / ratio;
        let near: Vec<(u64, u64)> = (input(lowest)..=input(highest))
            .filter_map(|input| row_of_loss(ratio, loss, input))
            .filter(|(_, output)| (lowest..=highest).contains(output))
            .collect();
        if !near.is_empty() {
            return source.one_of(&near);
        }
    }
    let output = source.with_ends(lowest, highest);
    let least = (1_000 * output).div_ceil(ratio);
    let equal = least + INPUT_OF_EQUAL;
    let input = if standing < Standing::Equal {
        source.with_ends(least, equal - 2)
    } else {
        source.with_ends(equal + 2, equal + 8_000)
    };
    (input, output)
}
