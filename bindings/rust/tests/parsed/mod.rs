//! The numbers that component data says, read field by field as docs/FORMAT.md lays them out.

use axle::{Numbers, Sensor};
use std::collections::BTreeMap;

/// The numbers of data that is accepted. What its kind does not have is zeros, and no rows.
pub fn numbers_of(data: &[u8]) -> Numbers {
    let bodies = bodies(data);
    let body = |tag: u8| bodies.get(&tag).copied().unwrap_or(&[]);
    Numbers {
        kind: u16::from(body(1)[0]),
        line: u16::from(body(2)[0]),
        ratio: shorts(body(3))[0],
        speeds: shorts(body(4)),
        torques: shorts(body(5)),
        input: sensor(body(6)),
        output: sensor(body(7)),
        right: sensor(body(9)),
        rows: torques([body(8), body(10)].concat()),
    }
}

/// The bodies of the fields by their tags.
fn bodies(mut data: &[u8]) -> BTreeMap<u8, &[u8]> {
    let mut bodies = BTreeMap::new();
    while let [tag, high, low, rest @ ..] = data {
        let (body, next) = rest.split_at(usize::from(u16::from_be_bytes([*high, *low])));
        bodies.insert(*tag, body);
        data = next;
    }
    bodies
}

fn shorts(body: &[u8]) -> Vec<u16> {
    let pairs = body.chunks(2);
    pairs
        .map(|pair| u16::from_be_bytes([pair[0], pair[1]]))
        .collect()
}

fn sensor(body: &[u8]) -> Sensor {
    <[u16; 9]>::try_from(shorts(body)).map_or_else(|_| Sensor::default(), Sensor::from)
}

fn torques(body: Vec<u8>) -> Vec<u32> {
    let fours = body.chunks(4);
    fours
        .map(|four| u32::from_be_bytes([four[0], four[1], four[2], four[3]]))
        .collect()
}
