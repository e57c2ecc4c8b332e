//! Component data taken apart.

use super::map::Axes;
use axle::{Grid, Sensor};

/// Of each axle line: efficiency in percent, and the drag constant in Nm.
pub const LINES: [(u64, u64); 5] = [(98, 70), (96, 80), (96, 80), (97, 70), (95, 90)];

/// The fields of valid data that the entries need. Of their numbers only those of the axes are tested.
pub struct Component<'data> {
    pub kind: u8,
    pub line: u8,
    /// In thousandths.
    pub ratio: u64,
    pub grid: Grid,
    /// The input sensor, then the output sensors: as many as the kind says, but none in standard data.
    pub sensors: [Sensor; 3],
    /// The rows one after the other, without their field's head.
    pub rows: &'data [u8],
}

fn two_bytes(bytes: &[u8]) -> u16 {
    u16::from_be_bytes([bytes[0], bytes[1]])
}

/// Fills the first places of an axis from its field's body, and answers how many there are.
fn fill_axis(places: &mut [u16], body: &[u8]) -> Option<usize> {
    let count = body.len() / 2;
    let places = places.get_mut(..count)?;
    for (place, bytes) in places.iter_mut().zip(body.chunks_exact(2)) {
        *place = two_bytes(bytes);
    }
    Some(count)
}

fn sensor(body: &[u8]) -> Option<Sensor> {
    let body: &[u8; 18] = body.try_into().ok()?;
    Some(Sensor::from(std::array::from_fn(|i| {
        two_bytes(&body[2 * i..])
    })))
}

/// The fields that are left.
struct Fields<'data> {
    rest: &'data [u8],
}

impl<'data> Fields<'data> {
    /// The body of the next field, where its tag is the one due.
    fn body(&mut self, tag: u8) -> Option<&'data [u8]> {
        let ([first, length @ ..], rest) = self.rest.split_first_chunk::<3>()?;
        if *first != tag {
            return None;
        }
        let (body, rest) = rest.split_at_checked(usize::from(u16::from_be_bytes(*length)))?;
        self.rest = rest;
        Some(body)
    }

    /// Both axes, where they keep their rules.
    fn grid(&mut self) -> Option<Grid> {
        let mut grid = Grid {
            speeds: [0; 32],
            speed_count: 0,
            torques: [0; 64],
            torque_count: 0,
        };
        grid.speed_count = fill_axis(&mut grid.speeds, self.body(4)?)?;
        grid.torque_count = fill_axis(&mut grid.torques, self.body(5)?)?;
        Axes::of(&grid).is_some().then_some(grid)
    }
}

impl Component<'_> {
    pub fn speeds(&self) -> &[u16] {
        &self.grid.speeds[..self.grid.speed_count]
    }

    pub fn torques(&self) -> &[u16] {
        &self.grid.torques[..self.grid.torque_count]
    }

    #[inline]
    pub fn read(data: &[u8]) -> Option<Component<'_>> {
        let mut fields = Fields { rest: data };
        let kind = *fields.body(1)?.first()?;
        let line = *fields.body(2)?.first()?;
        let ratio = u64::from(u16::from_be_bytes(fields.body(3)?.try_into().ok()?));
        let grid = fields.grid()?;
        let (sensor_tags, rows_tag): (&[u8], u8) = match kind {
            2 => (&[6, 7], 8),
            3 => (&[6, 7, 9], 10),
            _ => (&[], 0),
        };
        let mut sensors = [Sensor::default(); 3];
        for (place, tag) in sensors.iter_mut().zip(sensor_tags) {
            *place = sensor(fields.body(*tag)?)?;
        }
        let rows = match sensor_tags {
            [] => &[],
            _ => fields.body(rows_tag)?,
        };
        Some(Component {
            kind,
            line,
            ratio,
            grid,
            sensors,
            rows,
        })
    }
}
