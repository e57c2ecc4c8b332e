//! Maps as a caller may lend them: right, or with a rule broken.

use crate::lookup::{Axis, LentMap};
use crate::random::Source;
use crate::valid;

const LARGEST_ENTRY: u64 = 10_000_000;

/// So many places, the first of them these numbers, the rest by chance: they mean nothing.
pub fn axis(source: &mut Source, numbers: &[u16], places: usize) -> Axis {
    let mut all = numbers.to_vec();
    all.resize_with(places, || source.draw() as u16);
    Axis {
        numbers: all,
        count: numbers.len(),
    }
}

/// A map that keeps every rule; entries past its own may be anything.
pub fn valid_map(source: &mut Source) -> LentMap {
    let (speed_count, torque_count) = valid::grid_size(source);
    let speeds = valid::speeds(source, speed_count);
    let torques = valid::torques(source, torque_count);
    let largest = source.one_of(&[0, 1, 100, 50_000, LARGEST_ENTRY]);
    let count = speed_count * torque_count;
    let mut entries: Vec<u32> = (0..count)
        .map(|_| source.with_ends(0, largest) as u32)
        .collect();
    if source.once_in(3) {
        let more = source.between(1, 4).min(2_048 - count as u64);
        entries.extend((0..more).map(|_| source.draw() as u32));
    }
    LentMap {
        speeds: axis(source, &speeds, 32),
        torques: axis(source, &torques, 64),
        entries,
    }
}

/// A map with one rule broken.
pub fn broken_map(source: &mut Source, way: u64) -> LentMap {
    let mut map = valid_map(source);
    break_rule(source, &mut map, way);
    map
}

/// Breaks one rule of a map with 32 and 64 places that keeps them all.
pub fn break_rule(source: &mut Source, map: &mut LentMap, way: u64) {
    let (speed_count, torque_count) = (map.speeds.count, map.torques.count);
    let speed = source.index(speed_count);
    let torque = source.index(torque_count);
    let entry = source.index(speed_count * torque_count);
    let beyond = source.one_of(&[0, 1, 65, 4_294_967_298, 1 << 63, u64::MAX]) as usize;
    match way {
        0 => map.speeds.count = beyond,
        1 => map.torques.count = beyond,
        2 => map.speeds.count = 33,
        3 => map.speeds.numbers[speed] = source.one_of(&[0, 3_001, 65_535]),
        4 => map.torques.numbers[torque] = source.one_of(&[50_001, 65_535]),
        5 => map.speeds.numbers[speed.max(1)] = map.speeds.numbers[speed.max(1) - 1],
        6 => map.torques.numbers[torque.max(1)] = map.torques.numbers[torque.max(1) - 1],
        7 => map.torques.numbers[0] = map.torques.numbers[1] / 2 + 1,
        8 => map.entries.truncate(entry),
        9 => map.entries.truncate(speed_count * torque_count - 1),
        10 => map.entries[entry] = LARGEST_ENTRY as u32 + 1,
        _ => map.entries[entry] = source.one_of(&[10_000_001, 16_777_216, u32::MAX]),
    }
}

pub const BREAKS: u64 = 12;
