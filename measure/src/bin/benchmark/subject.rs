//! Data that is measured, and its map as each contender has it.

use axle::{Grid, Numbers, Point, MAXIMUM_ENTRIES};
use measure::answers::{grid_of, numbers_of};
use measure::{doubles, plain};
use reference::component;
use reference::data::{Data, Field};
use reference::lookup::{self, LentMap};
use reference::map;
use reference::random::Source;
use reference::writer::HandedNumbers;

pub const QUESTIONS: usize = 512;

/// Data, its numbers as the two writers take them, its map, and points of it by chance.
pub struct Subject {
    pub data: Vec<u8>,
    pub handed: HandedNumbers,
    pub numbers: Numbers,
    pub lent: LentMap,
    pub grid: Grid,
    pub entries: Vec<u32>,
    pub in_doubles: MapInDoubles,
    pub points: Vec<Point>,
}

/// A map as a sheet or a simulation has it: rpm and Nm.
pub struct MapInDoubles {
    pub speeds: Vec<f64>,
    pub torques: Vec<f64>,
    pub entries: Vec<f64>,
    pub points: Vec<(f64, f64)>,
}

/// The input sensor, the output sensor or the left one, and the right one.
const SENSORS: [[u16; 9]; 3] = [
    [40_000, 120, 90, 400, 1_500, 150, 600, 85, 45],
    [30_000, 110, 100, 300, 1_200, 140, 500, 70, 40],
    [25_000, 130, 80, 350, 1_300, 160, 550, 75, 35],
];

const RATIO: u16 = 3_700;

/// A bench's readings, of each point of the grid as many as the kind says: even axes, losses of some hundredths of the torque. In kind 3 the two half-shafts share the output torque of kind 2.
fn bench_rows(kind: u8, speeds: &[u16], torques: &[u16]) -> Vec<Vec<u32>> {
    let (mut source, mut shares) = (Source::new(3, 3), Source::new(3, 4));
    let mut rows = Vec::new();
    for _ in speeds {
        for torque in torques {
            let torque = 100 * u64::from(*torque);
            let output = source.between(torque - 300, torque + 300);
            let loss = output * source.between(15, 60) / 1_000 + source.between(5_000, 20_000);
            let input = (output + loss) * 1_000 / u64::from(RATIO);
            let right = match kind {
                3 => output * shares.between(350, 650) / 1_000,
                _ => 0,
            };
            let row = [input, output - right, right].map(|torque| torque as u32);
            rows.push(row[..usize::from(kind)].to_vec());
        }
    }
    rows
}

/// Data as a bench gives it, all parts of good sensors at work.
fn bench_data(kind: u8, speed_count: u16, torque_count: u16) -> Vec<u8> {
    let speeds: Vec<u16> = (1..=speed_count).map(|i| 40 * i).collect();
    let torques: Vec<u16> = (1..=torque_count).map(|i| 400 * i).collect();
    let mut fields = vec![
        Field::new(1, vec![kind]),
        Field::new(2, vec![1]),
        Field::of_numbers(3, &[RATIO]),
        Field::of_numbers(4, &speeds),
        Field::of_numbers(5, &torques),
    ];
    if kind > 1 {
        let rows = bench_rows(kind, &speeds, &torques);
        let sensors = &SENSORS[..usize::from(kind)];
        fields.extend(Field::of_measurement(kind, sensors, &rows));
    }
    Data::of(fields).bytes()
}

impl MapInDoubles {
    fn of(map: &map::Map, data: &[u8], points: &[Point]) -> MapInDoubles {
        let numbers = |axis: &[u16]| axis.iter().map(|number| f64::from(*number)).collect();
        let point = |point: &Point| {
            (
                f64::from(point.speed) / 10.0,
                f64::from(point.torque) / 100.0,
            )
        };
        MapInDoubles {
            speeds: numbers(&map.speeds),
            torques: numbers(&map.torques),
            entries: doubles::build(data).expect("the data is accepted"),
            points: points.iter().map(point).collect(),
        }
    }
}

impl Subject {
    pub fn of_bench(kind: u8, speed_count: u16, torque_count: u16) -> Subject {
        Subject::of_data(bench_data(kind, speed_count, torque_count))
    }

    pub fn of_data(data: Vec<u8>) -> Subject {
        let map = map::build(&data, MAXIMUM_ENTRIES).expect("the data is accepted");
        let lent = LentMap::of(&map, map.entries.clone());
        let mut source = Source::new(1, 1);
        let mut within = |axis: &[u16], unit: u64| {
            let (first, last) = (u64::from(axis[0]), u64::from(axis[axis.len() - 1]));
            source.between(unit * first, unit * last) as u32
        };
        let points: Vec<Point> = (0..QUESTIONS)
            .map(|_| Point {
                speed: within(&map.speeds, 10),
                torque: within(&map.torques, 100),
            })
            .collect();
        let handed = HandedNumbers::of(&component::read(&data).expect("the data is accepted"));
        let subject = Subject {
            numbers: numbers_of(&handed).0,
            handed,
            grid: grid_of(&lent),
            in_doubles: MapInDoubles::of(&map, &data, &points),
            entries: map.entries,
            points,
            lent,
            data,
        };
        subject.check();
        subject
    }

    /// All agree on what is measured, but for doubles, which may be off; and the numbers, written, are the data.
    fn check(&self) {
        let mut built = vec![0; self.entries.len()];
        assert_eq!(plain::build(&self.data, &mut built), Some(self.grid));
        assert_eq!(built, self.entries);
        built.fill(0);
        assert_eq!(axle::build(&self.data, &mut built), Ok(self.grid));
        assert_eq!(built, self.entries);
        let mut file = vec![0; self.data.len()];
        let written = self.numbers.write_on_grid(&self.grid, &mut file);
        assert_eq!((written, &file), (Ok(file.len()), &self.data));
        self.check_points();
    }

    fn check_points(&self) {
        let mut losses = vec![0; self.points.len()];
        let answer = axle::losses(&self.grid, &self.entries, &self.points, &mut losses);
        assert_eq!(answer, Ok(()));
        let mut plain_losses = vec![0; self.points.len()];
        let answer = plain::losses(&self.grid, &self.entries, &self.points, &mut plain_losses);
        assert_eq!((answer, &plain_losses), (Some(()), &losses));
        for (point, loss) in self.points.iter().zip(losses) {
            let Point { speed, torque } = *point;
            let theirs = lookup::loss(&self.lent, speed, torque).expect("within the map");
            assert_eq!(i128::from(loss), theirs);
            let one = axle::loss(&self.grid, &self.entries, speed, torque);
            assert_eq!(one, Ok(loss));
            let plain_one = plain::loss(&self.grid, &self.entries, speed, torque);
            assert_eq!(plain_one, Some(loss));
            let nearest = axle::nearest(&self.grid, speed, torque).ok();
            assert_eq!(nearest, plain::nearest(&self.grid, speed, torque));
        }
    }

    /// How many entries doubles get wrong.
    pub fn wrong_doubles(&self) -> usize {
        let in_hundredths = |entry: &f64| (entry * 100.0).round() as u32;
        let theirs = self.in_doubles.entries.iter().map(in_hundredths);
        theirs
            .zip(&self.entries)
            .filter(|(theirs, ours)| theirs != *ours)
            .count()
    }
}
