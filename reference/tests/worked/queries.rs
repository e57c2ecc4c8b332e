//! "Loss at a point and nearest point" and listings, over lent maps: refusals
//! 22, 20, 21 and 11.

use crate::support::*;
use reference::listing::listing;
use reference::lookup::{loss, nearest, LentMap};

fn map() -> LentMap {
    lent_of(
        &[100, 200, 400],
        &[10, 20, 40],
        &[0, 10, 20, 30, 40, 50, 60, 70, 80],
    )
}

#[test]
fn places_past_the_count_mean_nothing() {
    let built = example().build().unwrap();
    let padded = lent(&built);
    assert_eq!(padded.speeds.numbers.len(), 32);
    assert_eq!(padded.torques.numbers.len(), 64);
    let mut noisy = padded.clone();
    noisy.speeds.numbers[2..].fill(7);
    noisy.torques.numbers[2..].fill(60_000);
    noisy.entries.push(u32::MAX);
    assert_eq!(loss(&noisy, 1_500, 50_000), loss(&padded, 1_500, 50_000));
    assert_eq!(nearest(&noisy, 1_500, 50_000), Ok((100, 0)));
    let all = usize::MAX;
    assert_eq!(listing(&noisy, all), listing(&padded, all));
}

#[test]
fn grid_points_give_their_entries() {
    let map = map();
    for (row, speed) in [100_u32, 200, 400].into_iter().enumerate() {
        for (column, torque) in [10_u32, 20, 40].into_iter().enumerate() {
            let entry = i128::from(map.entries[3 * row + column]);
            assert_eq!(loss(&map, 10 * speed, 100 * torque), Ok(entry));
        }
    }
}

#[test]
fn limits_of_a_query() {
    let map = map();
    assert_eq!(loss(&map, 999, 0), refused(20, 0));
    assert_eq!(loss(&map, 1_000, 0), Ok(-10));
    assert_eq!(loss(&map, 4_000, 4_000), Ok(80));
    assert_eq!(loss(&map, 4_001, 4_000), refused(20, 0));
    assert_eq!(loss(&map, 4_000, 4_001), refused(21, 0));
    // 20 before 21.
    assert_eq!(loss(&map, 4_001, 4_001), refused(20, 0));
    assert_eq!(loss(&map, u32::MAX, u32::MAX), refused(20, 0));
    assert_eq!(loss(&map, 4_000, u32::MAX), refused(21, 0));
}

#[test]
fn nearest_everywhere() {
    let map = map();
    let cases = [
        ((0, 0), (100, 10)),
        ((1_500, 1_500), (100, 10)),
        ((1_501, 1_501), (200, 20)),
        ((3_000, 3_000), (200, 20)),
        ((3_001, 3_001), (400, 40)),
        ((u32::MAX, u32::MAX), (400, 40)),
    ];
    for ((speed, torque), found) in cases {
        assert_eq!(nearest(&map, speed, torque), Ok(found));
    }
}

/// Queries outside every limit, so that 22 must come before 20, 21 and 11.
fn expect_no_map(map: &LentMap, axes_hold: bool) {
    assert_eq!(loss(map, 0, u32::MAX), refused(22, 0));
    assert_eq!(listing(map, 0), refused(22, 0));
    if axes_hold {
        assert!(nearest(map, 0, u32::MAX).is_ok());
    } else {
        assert_eq!(nearest(map, 0, u32::MAX), refused(22, 0));
    }
}

#[test]
fn axes_that_break_a_rule() {
    let speeds: [&[u16]; 7] = [
        &[],
        &[100],
        &[0, 100],
        &[100, 3_001],
        &[100, 100],
        &[200, 100],
        &(1..=33).collect::<Vec<u16>>(),
    ];
    for axis in speeds {
        expect_no_map(&lent_of(axis, &[10, 20], &[0; 2_112]), false);
    }
    let torques: [&[u16]; 7] = [
        &[],
        &[0],
        &[0, 50_001],
        &[10, 10],
        &[20, 10],
        &[11, 21],
        &(0..=64).collect::<Vec<u16>>(),
    ];
    for axis in torques {
        expect_no_map(&lent_of(&[100, 200], axis, &[0; 2_112]), false);
    }
    let mut map = map();
    map.speeds.count = 4;
    expect_no_map(&map, false);
}

#[test]
fn entries_that_break_a_rule() {
    let mut map = map();
    map.entries[8] = 10_000_000;
    assert_eq!(loss(&map, 4_000, 4_000), Ok(10_000_000));
    map.entries[8] = 10_000_001;
    expect_no_map(&map, true);
    map.entries.pop();
    expect_no_map(&map, true);
}

#[test]
fn room_of_a_listing() {
    let map = lent_of(&[1, 3_000], &[0, 50_000], &[0, 1, 99, 10_000_000]);
    let text = "speed,torque,loss\n1,0,0.00\n1,50000,0.01\n3000,0,0.99\n3000,50000,100000.00\n";
    let needed = text.len();
    assert_eq!(listing(&map, needed), Ok(text.as_bytes().to_vec()));
    assert_eq!(listing(&map, needed - 1), refused(11, needed));
    assert_eq!(listing(&map, 0), refused(11, needed));
}
