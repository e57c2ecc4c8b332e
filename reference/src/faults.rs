//! Wrong component data: each fault of the table at each place where it can stand, and chance damage.

use crate::component::measured_tags;
use crate::data::{Data, Field};
use crate::random::Source;

/// Data with one fault at each of its places. Rows are faulted one by one in `row_faults`.
pub fn every_fault(data: &Data) -> Vec<Vec<u8>> {
    let mut faulty = Vec::new();
    for place in 0..data.fields.len() {
        faulty.extend(field_faults(data, place));
        faulty.extend(length_faults(data, place));
        faulty.extend(number_faults(data, place));
    }
    faulty.extend(kind_faults(data));
    faulty.extend(axis_faults(data));
    faulty.extend(extra_bytes(data));
    faulty
}

/// The data cut off after each of its bytes but the last.
pub fn every_cut(data: &Data) -> Vec<Vec<u8>> {
    let bytes = data.bytes();
    (0..bytes.len()).map(|end| bytes[..end].to_vec()).collect()
}

fn changed(data: &Data, change: impl FnOnce(&mut Data)) -> Vec<u8> {
    let mut changed = data.clone();
    change(&mut changed);
    changed.bytes()
}

/// Another tag; the field missing, doubled, or swapped with the next.
fn field_faults(data: &Data, place: usize) -> Vec<Vec<u8>> {
    let mut faulty: Vec<Vec<u8>> = other_tags(data.fields[place].tag)
        .into_iter()
        .map(|wrong| changed(data, |d| d.fields[place].tag = wrong))
        .collect();
    faulty.push(changed(data, |d| drop(d.fields.remove(place))));
    faulty.push(changed(data, |d| {
        d.fields.insert(place, d.fields[place].clone())
    }));
    if place + 1 < data.fields.len() {
        faulty.push(changed(data, |d| d.fields.swap(place, place + 1)));
    }
    faulty
}

/// Tags near to this one, the ends of a byte, and where the kinds have different fields all of these.
fn other_tags(tag: u8) -> Vec<u8> {
    let mut tags = vec![0, tag - 1, tag + 1, 255];
    if tag > 6 {
        tags.extend(7..=10);
    }
    tags.sort_unstable();
    tags.dedup();
    tags.retain(|other| *other != tag);
    tags
}

/// Lengths that do not fit the body, or that no field of the tag may have.
fn length_faults(data: &Data, place: usize) -> Vec<Vec<u8>> {
    let length = data.fields[place].length;
    let mut wrong = vec![
        0,
        1,
        2,
        3,
        length - 1,
        length + 1,
        length + 2,
        66,
        130,
        65_535,
    ];
    if data.fields[place].width() == 4 {
        // A torque more or less, and rows of three torques where two are due, or of two where three are.
        wrong.extend([length - 4, length + 4, length / 2 * 3, length / 3 * 2]);
    }
    wrong
        .into_iter()
        .map(|wrong| with_length(data, place, wrong))
        .collect()
}

/// The data with another length at a field's head, its body as it was.
pub fn with_length(data: &Data, place: usize, length: u16) -> Vec<u8> {
    changed(data, |d| d.fields[place].length = length)
}

/// Each number of a field just outside its range, and far outside.
fn number_faults(data: &Data, place: usize) -> Vec<Vec<u8>> {
    let field = &data.fields[place];
    let largest = if field.width() == 1 { 255 } else { 65_535 };
    let mut faulty = Vec::new();
    for index in 0..field.number_count() {
        let Some((lowest, highest)) = field.range(index) else {
            continue;
        };
        for wrong in [lowest.wrapping_sub(1), highest + 1, largest] {
            if wrong <= largest {
                faulty.push(changed(data, |d| d.fields[place].set_number(index, wrong)));
            }
        }
    }
    faulty
}

/// The data under the number of each other kind.
fn kind_faults(data: &Data) -> Vec<Vec<u8>> {
    let mut others = vec![1, 2, 3];
    others.retain(|kind| *kind != u32::from(data.kind()));
    others
        .into_iter()
        .map(|kind| changed(data, |d| d.set_number(1, 0, kind)))
        .collect()
}

/// Each axis number equal to the one before or below it, and a first torque above the first step.
fn axis_faults(data: &Data) -> Vec<Vec<u8>> {
    let mut faulty = Vec::new();
    for tag in [4, 5] {
        let numbers = data.numbers(tag);
        for index in 1..numbers.len() {
            for wrong in [numbers[index - 1], numbers[index - 1].saturating_sub(1)] {
                faulty.push(changed(data, |d| d.set_number(tag, index, wrong)));
            }
        }
    }
    faulty.push(first_step_fault(data));
    faulty
}

/// The first torque as little above the first step as it can be.
pub fn first_step_fault(data: &Data) -> Vec<u8> {
    let second = data.numbers(5)[1];
    changed(data, |d| d.set_number(5, 0, second / 2 + 1))
}

/// Bytes after the last field: few, many, or another field.
fn extra_bytes(data: &Data) -> Vec<Vec<u8>> {
    let more = Field::of_numbers(6, &[100; 9]);
    let mut faulty: Vec<Vec<u8>> = [
        vec![0],
        vec![8, 0],
        vec![9, 0, 0],
        vec![10, 0, 0],
        vec![255; 40],
    ]
    .into_iter()
    .map(|rest| changed(data, |d| d.rest = rest))
    .collect();
    faulty.push(changed(data, |d| d.fields.push(more)));
    faulty
}

/// The highest limit for the input sensor of measured data: a loss can then be above the largest entry, 10.
pub fn raise_input_limit(data: &mut Data) {
    data.set_number(6, 0, 50_000);
}

/// Measured data with one row at each of its limits and just beyond it.
pub fn row_faults(data: &Data, row: usize) -> Vec<Vec<u8>> {
    let tags = measured_tags(data.kind()).expect("measured data");
    let in_place = |torques: &Vec<u32>| changed(data, |d| set_row(d, tags.rows, row, torques));
    rows_at_limits(data, row).iter().map(in_place).collect()
}

/// A row of measured data at each limit of the rows and just beyond it, where refusals 7 to 10 begin.
pub fn rows_at_limits(data: &Data, row: usize) -> Vec<Vec<u32>> {
    let tags = measured_tags(data.kind()).expect("measured data");
    let torques = data.numbers(5);
    let aim = 100 * torques[row % torques.len()];
    let before = data.rows().swap_remove(row);
    let with = |place: usize, torque: u32| {
        let mut torques = before.clone();
        torques[place] = torque;
        torques
    };
    let outputs = &before[1..];
    let sum: u32 = outputs.iter().sum();
    let mut rows: Vec<Vec<u32>> = input_limits(data, sum).map(|torque| with(0, torque)).into();
    for (index, (tag, output)) in tags.outputs.iter().zip(outputs).enumerate() {
        let highest = 100 * data.numbers(*tag)[0];
        let limits = output_limits(highest, aim, sum - output);
        rows.extend(limits.map(|torque| with(1 + index, torque)));
    }
    if let &[input, _, _] = before.as_slice() {
        rows.extend(side_limits(input, sum, aim));
    }
    rows
}

/// Input torques at the sensor's limit, at a loss of zero and at the largest entry, for an output torque.
fn input_limits(data: &Data, output: u32) -> [u32; 7] {
    let (ratio, output) = (u64::from(data.numbers(3)[0]), u64::from(output));
    let highest = 100 * data.numbers(6)[0];
    let least = (output * 1_000).div_ceil(ratio) as u32;
    let limit = (output + 10_000_000) * 1_000 / ratio;
    let limit = limit.min(u64::from(u32::MAX - 1)) as u32;
    [
        highest,
        highest + 1,
        u32::MAX,
        least,
        least.saturating_sub(1),
        limit,
        limit + 1,
    ]
}

/// Torques of an output sensor at its limit, and where the sum with the others is at its limits around the aim.
fn output_limits(highest: u32, aim: u32, others: u32) -> [u32; 7] {
    let for_sum = |sum: u32| sum.saturating_sub(others);
    [
        highest,
        highest + 1,
        u32::MAX,
        for_sum(aim + 500),
        for_sum(aim + 501),
        for_sum(aim.saturating_sub(500)),
        for_sum(aim.saturating_sub(501)),
    ]
}

/// Rows of kind 3 with the output torque at one side alone, and with sums that no four bytes hold: two come round to the aim.
fn side_limits(input: u32, output: u32, aim: u32) -> [Vec<u32>; 6] {
    const MOST: u32 = u32::MAX;
    [
        vec![input, output, 0],
        vec![input, 0, output],
        vec![input, MOST, MOST],
        vec![MOST, MOST, MOST],
        vec![input, MOST, aim + 1],
        vec![input, aim + 1, MOST],
    ]
}

fn set_row(data: &mut Data, tag: u8, row: usize, torques: &[u32]) {
    for (place, torque) in torques.iter().enumerate() {
        data.set_number(tag, row * torques.len() + place, *torque);
    }
}

/// Data with one to three faults or pieces of damage, so that the order of refusals counts.
pub fn chance_faults(source: &mut Source, data: &Data) -> Vec<u8> {
    let mut faulty = data.clone();
    for _ in 0..source.between(1, 3) {
        chance_fault(source, &mut faulty);
    }
    let mut bytes = faulty.bytes();
    if source.once_in(3) {
        damage(source, &mut bytes);
    }
    bytes
}

fn chance_fault(source: &mut Source, data: &mut Data) {
    if data.fields.is_empty() {
        return;
    }
    let place = source.index(data.fields.len());
    match source.below(8) {
        0 => data.fields[place].tag = source.between(0, 11) as u8,
        1 => data.fields[place].length = source.with_ends(0, 200) as u16,
        2 => drop(data.fields.remove(place)),
        3 => data.fields.insert(place, data.fields[place].clone()),
        4 => {
            let other = source.index(data.fields.len());
            data.fields.swap(place, other);
        }
        5 => {
            data.rest = (0..source.between(1, 9))
                .map(|_| source.draw() as u8)
                .collect()
        }
        _ => chance_number(source, &mut data.fields[place]),
    }
}

/// A number of a field changed, most often near to an end of its range or to itself.
pub fn chance_number(source: &mut Source, field: &mut Field) {
    if field.number_count() == 0 {
        return;
    }
    let index = source.index(field.number_count());
    let before = field.number(index);
    let (lowest, highest) = match field.tag {
        1..=5 => field.range(index).unwrap_or((0, 0)),
        _ => (before, before),
    };
    let number = match source.below(6) {
        0 => lowest.wrapping_sub(1),
        1 => highest.wrapping_add(1),
        2 => before.wrapping_add(source.between(1, 600) as u32),
        3 => before.wrapping_sub(source.between(1, 600) as u32),
        4 => lowest,
        _ => source.draw() as u32,
    };
    field.set_number(index, number);
}

/// Flipped bits, a cut, or bytes put in.
fn damage(source: &mut Source, bytes: &mut Vec<u8>) {
    if bytes.is_empty() {
        return;
    }
    let place = source.index(bytes.len());
    match source.below(4) {
        0 => bytes.truncate(place),
        1 => bytes.insert(place, source.draw() as u8),
        _ => bytes[place] ^= 1 << source.below(8),
    }
}

/// Valid data with one bit flipped.
pub fn flipped_bit(source: &mut Source, data: &Data) -> Vec<u8> {
    let mut bytes = data.bytes();
    let place = source.index(bytes.len());
    bytes[place] ^= 1 << source.below(8);
    bytes
}

/// Bytes of no meaning, some of them after a right beginning.
pub fn garbage(source: &mut Source, data: &Data) -> Vec<u8> {
    let bytes = data.bytes();
    let kept = if source.once_in(2) {
        0
    } else {
        source.index(bytes.len())
    };
    let length = source.with_ends(0, 60);
    let mut garbage = bytes[..kept].to_vec();
    garbage.extend((0..length).map(|_| source.draw() as u8));
    garbage
}
