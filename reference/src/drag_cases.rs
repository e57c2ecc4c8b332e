//! Cases of request C-17: retarders asked for their drag. Ratios, counts, readings and bearing losses at their limits and past them; speeds on each point and next to it; each segment with drags that fall, rise and stay; drags that are just whole and just not; faults in pairs; numbers that do not fit into four bytes when they are multiplied; and cases by chance.

use crate::cases::Case;
use crate::drag_tally::SEGMENTS;
use crate::random::Source;
use crate::remainders::least_factor;
use crate::retarder::{
    RetarderNumbers, HIGHEST_RATIO, LARGEST_DRAG, LEAST_POINTS, LOWEST_RATIO, POINTS,
};

/// Changes the seed: the draws for these cases are none of those for others.
const SEQUENCE: u64 = 0x5895_10F3_C7A6_E2BD;

/// The random numbers for one case.
fn source_of(seed: u64, number: u64) -> Source {
    Source::new(seed ^ SEQUENCE, number)
}

const MOST: u64 = u32::MAX as u64;

/// A ratio and a drive speed.
type Product = (u32, u32);

/// Within the first segment: 300.0 rpm.
const IN_FIRST: Product = (1_000, 3_000);

impl RetarderNumbers {
    /// A table with these drags and bearing losses.
    fn of_drags(drags: &[u32], bearing_losses: &[u32]) -> RetarderNumbers {
        let pairs = drags.iter().zip(bearing_losses);
        RetarderNumbers {
            readings: pairs.map(|(drag, loss)| drag + loss).collect(),
            bearing_losses: bearing_losses.to_vec(),
            ratio: IN_FIRST.0,
            speed: IN_FIRST.1,
        }
    }

    /// The first points of a table of a test bench.
    fn of_bench(count: usize) -> RetarderNumbers {
        RetarderNumbers::of_drags(&RISING[..count], &BEARING_LOSSES[..count])
    }

    fn at(mut self, (ratio, speed): Product) -> RetarderNumbers {
        (self.ratio, self.speed) = (ratio, speed);
        self
    }

    /// With this reading and this bearing loss at a point.
    fn with(mut self, index: usize, reading: u32, bearing_loss: u32) -> RetarderNumbers {
        (self.readings[index], self.bearing_losses[index]) = (reading, bearing_loss);
        self
    }
}

const RISING: [u32; 13] = [
    310, 421, 555, 793, 1_085, 1_540, 2_107, 2_961, 3_905, 5_023, 6_240, 7_619, 9_125,
];
const BEARING_LOSSES: [u32; 13] = [12, 13, 15, 18, 22, 27, 33, 41, 50, 60, 71, 84, 98];

/// A point's speed in ten-thousandths of rpm.
fn point(index: usize) -> u64 {
    10_000 * u64::from(POINTS[index])
}

/// All ratios and drive speeds that make this retarder speed, in ten-thousandths of rpm.
fn products(speed: u64) -> Vec<Product> {
    let ratios = u64::from(LOWEST_RATIO)..=u64::from(HIGHEST_RATIO);
    let ratios = ratios.filter(|ratio| speed.is_multiple_of(*ratio));
    ratios
        .map(|ratio| (ratio as u32, (speed / ratio) as u32))
        .collect()
}

fn exactly(source: &mut Source, speed: u64) -> Product {
    source.one_of(&products(speed))
}

/// The next retarder speed above this one that a ratio and a drive speed make: one ten-thousandth, where there is one.
fn next_above(source: &mut Source, speed: u64) -> Product {
    let next = (speed + 1..).map(products).find(|all| !all.is_empty());
    source.one_of(&next.expect("a higher speed"))
}

/// The next one below.
fn next_below(source: &mut Source, speed: u64) -> Product {
    let next = (0..speed).rev().map(products).find(|all| !all.is_empty());
    source.one_of(&next.expect("a lower speed"))
}

/// A retarder speed anywhere in a segment.
fn anywhere(source: &mut Source, segment: usize) -> Product {
    let (lower, upper) = (point(segment), point(segment + 1));
    let ratio = source.with_ends(LOWEST_RATIO.into(), HIGHEST_RATIO.into());
    // A segment is wider than the highest ratio.
    let speed = source.between(lower.div_ceil(ratio), upper / ratio);
    (ratio as u32, speed as u32)
}

/// Inside a segment: next to its lower end, anywhere, and next to its upper end.
fn inside(source: &mut Source, segment: usize) -> [Product; 3] {
    [
        next_above(source, point(segment)),
        anywhere(source, segment),
        next_below(source, point(segment + 1)),
    ]
}

/// A count of points that has this segment.
fn count_with(source: &mut Source, segment: usize) -> usize {
    source.with_ends(segment as u64 + 2, POINTS.len() as u64) as usize
}

/// A case by chance; the number and the seed decide it.
pub fn by_chance(seed: u64, number: u64) -> Case {
    let source = &mut source_of(seed, number);
    let segment = source.index(SEGMENTS);
    let count = count_with(source, segment);
    let drags = chance_drags(source, count);
    let bearing_losses = chance_bearing_losses(source, &drags);
    let product = chance_product(source, segment);
    let mut draft = RetarderNumbers::of_drags(&drags, &bearing_losses).at(product);
    let fault_count = match source.below(8) {
        0..=3 => 0,
        4..=6 => 1,
        _ => 2,
    };
    for _ in 0..fault_count {
        put_fault(source, &mut draft);
    }
    Case::Drag(draft)
}

/// Drags that rise, fall, stay, are at an end, low, or any.
fn chance_drags(source: &mut Source, count: usize) -> Vec<u32> {
    let way = source.below(8);
    let highest = u64::from(LARGEST_DRAG);
    let most = source.one_of(&[9, 20_000, highest]);
    let mut drags: Vec<u32> = (0..count)
        .map(|_| match way {
            0 => source.one_of(&[0, LARGEST_DRAG]),
            1 => source.with_ends(0, highest) as u32,
            _ => source.between(0, most) as u32,
        })
        .collect();
    match way {
        2 | 3 => drags.sort_unstable(),
        4 | 5 => drags.sort_unstable_by(|first, second| second.cmp(first)),
        6 => {
            let first = drags[0];
            drags.fill(first);
        }
        _ => {}
    }
    drags
}

/// Bearing losses that are none, low, any, or the highest that a reading allows.
fn chance_bearing_losses(source: &mut Source, drags: &[u32]) -> Vec<u32> {
    let way = source.below(5);
    let bearing_loss = |drag: &u32| {
        let most = u32::MAX - drag;
        match way {
            0 => 0,
            1 | 2 => source.between(0, 500) as u32,
            3 => source.with_ends(0, most.into()) as u32,
            _ => most,
        }
    };
    drags.iter().map(bearing_loss).collect()
}

/// On an end of a segment, next to one, or anywhere in it.
fn chance_product(source: &mut Source, segment: usize) -> Product {
    match source.below(10) {
        0 => exactly(source, point(segment)),
        1 => exactly(source, point(segment + 1)),
        2 => next_above(source, point(segment)),
        3 => next_below(source, point(segment + 1)),
        _ => anywhere(source, segment),
    }
}

/// Puts one of the faults in; a later one can undo it.
fn put_fault(source: &mut Source, draft: &mut RetarderNumbers) {
    match source.below(9) {
        0 => draft.ratio = chance_outside_ratio(source),
        1 => {
            let count = source.one_of(&[0, 1, 14, 15, 16, 26, 258, 1_000]);
            draft.readings.resize(count, 1_000);
            draft.bearing_losses.resize(count, 10);
        }
        2 => {
            let count = source.with_ends(0, 15) as usize;
            draft.bearing_losses.resize(count, 10);
        }
        3 | 4 => put_reading(source, draft, true),
        5 | 6 => put_reading(source, draft, false),
        7 => {
            let below = point(0) - 1;
            (draft.ratio, draft.speed) = match source.below(3) {
                0 => next_below(source, point(0)),
                1 => (draft.ratio, 0),
                _ => {
                    let most = below / u64::from(draft.ratio.max(1));
                    (draft.ratio, source.between(0, most.min(MOST)) as u32)
                }
            };
        }
        _ => {
            let last = draft.readings.len().clamp(1, POINTS.len()) - 1;
            (draft.ratio, draft.speed) = match source.below(4) {
                0 => next_above(source, point(last)),
                1 if last + 1 < POINTS.len() => exactly(source, point(last + 1)),
                2 => (draft.ratio, u32::MAX),
                _ => {
                    let least = point(last) / u64::from(draft.ratio.max(1)) + 1;
                    let least = least.min(MOST);
                    (draft.ratio, source.between(least, MOST) as u32)
                }
            };
        }
    }
}

fn chance_outside_ratio(source: &mut Source) -> u32 {
    let (lowest, highest) = (u64::from(LOWEST_RATIO), u64::from(HIGHEST_RATIO));
    if source.once_in(2) {
        source.with_ends(0, lowest - 1) as u32
    } else {
        source.with_ends(highest + 1, MOST) as u32
    }
}

/// A bearing loss above its reading, or a drag above the largest, at any point.
fn put_reading(source: &mut Source, draft: &mut RetarderNumbers, loss_is_above: bool) {
    let places = draft.readings.len().min(draft.bearing_losses.len());
    if places == 0 {
        return;
    }
    let index = source.index(places);
    let above = u64::from(LARGEST_DRAG) + 1;
    let (reading, bearing_loss) = if loss_is_above {
        let reading = source.with_ends(0, MOST - 1);
        (reading, source.with_ends(reading + 1, MOST))
    } else {
        let bearing_loss = source.with_ends(0, MOST - above);
        (source.with_ends(bearing_loss + above, MOST), bearing_loss)
    };
    draft.readings[index] = reading as u32;
    draft.bearing_losses[index] = bearing_loss as u32;
}

/// The cases that do not depend on chance alone.
pub fn systematic(seed: u64) -> Vec<Case> {
    let source = &mut source_of(seed, u64::MAX);
    let mut all = ratios_at_limits();
    all.extend(counts());
    all.extend(readings_at_limits());
    all.extend(on_points(source));
    all.extend(in_segments(source));
    all.extend(just_whole(source));
    all.extend(with_two_faults());
    all.extend(wide_numbers(source));
    all.into_iter().map(Case::Drag).collect()
}

/// Ratios within their limits and outside, at about 300 rpm and at none; two of them are right in their last two bytes.
fn ratios_at_limits() -> Vec<RetarderNumbers> {
    let mut all = Vec::new();
    let outside = [
        0,
        1,
        98,
        99,
        10_001,
        10_002,
        65_636,
        66_536,
        1 << 31,
        u32::MAX,
    ];
    let within = [100, 101, 9_999, 10_000];
    for ratio in outside.into_iter().chain(within) {
        for count in [2, 13] {
            let speed = 3_000_000_u32.checked_div(ratio).unwrap_or(3_000);
            all.push(RetarderNumbers::of_bench(count).at((ratio, speed)));
        }
        all.push(RetarderNumbers::of_bench(7).at((ratio, 0)));
    }
    all
}

/// A table with so many readings and so many bearing losses.
fn of_counts(readings: usize, bearing_losses: usize) -> RetarderNumbers {
    let mut draft = RetarderNumbers::of_bench(POINTS.len());
    draft.readings.resize(readings, 10_000);
    draft.bearing_losses.resize(bearing_losses, 100);
    draft
}

/// Counts within their limits and outside, two of them right in their last byte; and unequal counts.
fn counts() -> Vec<RetarderNumbers> {
    const OTHERS: [(usize, usize); 12] = [
        (0, 2),
        (2, 0),
        (1, 2),
        (2, 1),
        (13, 14),
        (14, 13),
        (0, 13),
        (13, 0),
        (2, 258),
        (258, 2),
        (13, 1_000),
        (1_000, 13),
    ];
    let equal = (0..=16).chain([26, 258, 269, 1_000]);
    let mut all: Vec<RetarderNumbers> = equal.map(|count| of_counts(count, count)).collect();
    for count in LEAST_POINTS..=POINTS.len() {
        all.push(of_counts(count, count - 1));
        all.push(of_counts(count, count + 1));
    }
    all.extend(OTHERS.map(|(readings, bearing_losses)| of_counts(readings, bearing_losses)));
    all
}

/// At each point a bearing loss equal to its reading and one above it, the largest drag and one above it; and the highest numbers. The speed stays in the first segment.
fn readings_at_limits() -> Vec<RetarderNumbers> {
    let mut all = Vec::new();
    for (index, bearing_loss) in BEARING_LOSSES.into_iter().enumerate() {
        let reading = 1_000;
        let largest = bearing_loss + LARGEST_DRAG;
        let mut pairs = vec![
            (reading, reading),
            (reading, reading + 1),
            (largest, bearing_loss),
            (largest + 1, bearing_loss),
        ];
        if index % 6 == 0 {
            pairs.extend([
                (0, 0),
                (0, 1),
                (0, u32::MAX),
                (u32::MAX, 0),
                (u32::MAX, u32::MAX),
                (u32::MAX - 1, u32::MAX),
                (u32::MAX, u32::MAX - LARGEST_DRAG),
                (u32::MAX, u32::MAX - LARGEST_DRAG - 1),
            ]);
        }
        let draft = RetarderNumbers::of_bench(POINTS.len());
        all.extend(
            pairs
                .into_iter()
                .map(|(reading, bearing_loss)| draft.clone().with(index, reading, bearing_loss)),
        );
    }
    all
}

/// Each point with two ratios, and the next speeds below and above it; and for each count the last point held, the next speed above it, and the next point, which is not held.
fn on_points(source: &mut Source) -> Vec<RetarderNumbers> {
    let mut all = Vec::new();
    for index in 0..POINTS.len() {
        let speed = point(index);
        let products = [
            exactly(source, speed),
            exactly(source, speed),
            next_below(source, speed),
            next_above(source, speed),
        ];
        let draft = RetarderNumbers::of_bench(POINTS.len());
        all.extend(products.map(|product| draft.clone().at(product)));
    }
    for count in LEAST_POINTS..POINTS.len() {
        let products = [
            exactly(source, point(0)),
            exactly(source, point(count - 1)),
            next_above(source, point(count - 1)),
            exactly(source, point(count)),
        ];
        let draft = RetarderNumbers::of_bench(count);
        all.extend(products.map(|product| draft.clone().at(product)));
    }
    all
}

/// Each segment with drags that rise, fall and stay, inside and next to both ends.
fn in_segments(source: &mut Source) -> Vec<RetarderNumbers> {
    let mut falling = RISING;
    falling.reverse();
    let mut all = Vec::new();
    for segment in 0..SEGMENTS {
        for drags in [RISING, falling, [777; 13]] {
            let count = count_with(source, segment);
            let draft = RetarderNumbers::of_drags(&drags[..count], &BEARING_LOSSES[..count]);
            all.extend(inside(source, segment).map(|product| draft.clone().at(product)));
        }
    }
    all
}

/// In each segment drags that rise and that fall, whose numerator over the width of the segment is whole, one above that, and one below.
fn just_whole(source: &mut Source) -> Vec<RetarderNumbers> {
    let mut all = Vec::new();
    for segment in 0..SEGMENTS {
        for rises in [true, false] {
            let width = point(segment + 1) - point(segment);
            for remainder in [0, 1, width - 1] {
                all.push(with_remainder(source, segment, rises, remainder));
            }
        }
    }
    all
}

/// A table and a speed inside a segment for which the division by its width leaves this.
fn with_remainder(
    source: &mut Source,
    segment: usize,
    rises: bool,
    remainder: u64,
) -> RetarderNumbers {
    const MOST_DRAWS: usize = 10_000;
    let mut found =
        (0..MOST_DRAWS).filter_map(|_| chance_remainder(source, segment, rises, remainder));
    found.next().expect("a table with this remainder")
}

/// Such a table, if there is one for a speed by chance: the difference of the drags makes it.
fn chance_remainder(
    source: &mut Source,
    segment: usize,
    rises: bool,
    remainder: u64,
) -> Option<RetarderNumbers> {
    let (ratio, speed) = anywhere(source, segment);
    let (lower, upper) = (point(segment), point(segment + 1));
    let width = upper - lower;
    let above_lower = u64::from(ratio) * u64::from(speed) - lower;
    // What falls is taken away from a whole number.
    let due = if rises { remainder } else { width - remainder } % width;
    let difference = least_factor(above_lower.into(), width.into(), due.into())? as u32;
    let is_inside = above_lower > 0 && above_lower < width;
    if !is_inside || difference > LARGEST_DRAG {
        return None;
    }
    let lowest = source.between(0, (LARGEST_DRAG - difference).into()) as u32;
    let count = count_with(source, segment);
    let mut draft = RetarderNumbers::of_bench(count);
    let mut ends = [lowest, lowest + difference];
    if !rises {
        ends.reverse();
    }
    for (index, drag) in (segment..).zip(ends) {
        let bearing_loss = BEARING_LOSSES[index];
        draft = draft.with(index, drag + bearing_loss, bearing_loss);
    }
    Some(draft.at((ratio, speed)))
}

/// Puts a fault in.
type PutIn = fn(&mut RetarderNumbers);

/// Faults in the order in which they are told, each with its refusal.
const PAIRED: [(u8, PutIn); 10] = [
    (45, |d| d.ratio = 99),
    (45, |d| d.ratio = 10_001),
    (45, |d| {
        d.readings.truncate(1);
        d.bearing_losses.truncate(1);
    }),
    (45, |d| {
        d.readings.resize(14, 1_000);
        d.bearing_losses.resize(14, 10);
    }),
    (45, |d| d.readings.push(1_000)),
    (45, |d| d.bearing_losses.extend([10, 10])),
    (46, |d| (d.readings[0], d.bearing_losses[0]) = (10, 11)),
    (46, |d| {
        (d.readings[0], d.bearing_losses[0]) = (10_000_001, 0)
    }),
    (47, |d| d.speed = 1_999),
    (47, |d| d.speed = u32::MAX),
];

/// The two faults with these indices, or one alone. The earlier one is put in last: it stays where both are in one number.
fn paired(earlier: usize, later: usize) -> RetarderNumbers {
    let mut draft = RetarderNumbers::of_bench(4);
    PAIRED[later].1(&mut draft);
    PAIRED[earlier].1(&mut draft);
    draft
}

/// Each fault with each later one, and alone; and one of each refusal together.
fn with_two_faults() -> Vec<RetarderNumbers> {
    let mut all = vec![RetarderNumbers::of_bench(4)];
    for earlier in 0..PAIRED.len() {
        all.extend((earlier..PAIRED.len()).map(|later| paired(earlier, later)));
    }
    for (_, put_in) in &PAIRED[..6] {
        for (second, third) in [(6, 8), (7, 9)] {
            let mut draft = paired(second, third);
            put_in(&mut draft);
            all.push(draft);
        }
    }
    all
}

/// The lowest and the largest drag in turn, with the highest readings; and speeds that are in the table only when their product is cut to four bytes, and the highest.
fn wide_numbers(source: &mut Source) -> Vec<RetarderNumbers> {
    let mut all = Vec::new();
    let in_turn = |first: usize| -> Vec<u32> {
        let drag = |index| LARGEST_DRAG * ((first + index) as u32 % 2);
        (0..POINTS.len()).map(drag).collect()
    };
    for segment in 0..SEGMENTS {
        for first in [0, 1] {
            let drags = in_turn(first);
            let bearing_losses: Vec<u32> = drags.iter().map(|drag| u32::MAX - drag).collect();
            let products = inside(source, segment);
            let product = source.one_of(&products);
            all.push(RetarderNumbers::of_drags(&drags, &bearing_losses).at(product));
        }
    }
    for ratio in [100, 999, 1_000, 7_001, 9_999, 10_000] {
        for rounds in [1, 2] {
            let speed = ((rounds << 32) + 3_000_000_u64).div_ceil(ratio);
            if let Ok(speed) = u32::try_from(speed) {
                all.push(RetarderNumbers::of_bench(13).at((ratio as u32, speed)));
            }
        }
        for speed in [1 << 31, u32::MAX] {
            all.push(RetarderNumbers::of_bench(13).at((ratio as u32, speed)));
        }
    }
    all
}

#[cfg(test)]
mod tests {
    use super::*;
    use crate::retarder::drag;

    fn refused(draft: &RetarderNumbers) -> Option<u8> {
        drag(draft).err().map(|refusal| refusal.number)
    }

    #[test]
    fn of_two_faults_the_earlier_one_is_told() {
        assert_eq!(refused(&RetarderNumbers::of_bench(4)), None);
        for (earlier, (due, _)) in PAIRED.iter().enumerate() {
            for later in earlier..PAIRED.len() {
                let found = refused(&paired(earlier, later));
                assert_eq!(found, Some(*due), "{earlier} and {later}");
            }
        }
    }

    #[test]
    fn the_next_speeds() {
        let source = &mut source_of(1, 1);
        let speed = |(ratio, speed): Product| u64::from(ratio) * u64::from(speed);
        assert_eq!(speed(next_below(source, 2_000_000)), 1_999_999);
        assert_eq!(speed(next_above(source, 50_000_000)), 50_000_001);
        // No ratio divides 2,000,001.
        assert_eq!(speed(next_above(source, 2_000_000)), 2_000_002);
        for segment in 0..SEGMENTS {
            for product in inside(source, segment) {
                let speed = speed(product);
                assert!((point(segment)..=point(segment + 1)).contains(&speed));
            }
        }
    }
}
