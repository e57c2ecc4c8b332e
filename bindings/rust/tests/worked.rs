//! The worked cases of document 01 through the library.

use axle::{build, listing, loss, nearest, Map, Refusal};

const STANDARD: [u8; 27] = [
    1, 0, 1, 1, 2, 0, 1, 1, 3, 0, 2, 0x0B, 0xB8, 4, 0, 4, 0, 100, 0, 200, 5, 0, 4, 0, 0, 3, 0xE8,
];

const STANDARD_LISTING: &str =
    "speed,torque,loss\n100,0,130.00\n100,1000,150.41\n200,0,130.00\n200,1000,150.41\n";

const MEASURED: &[u8] = include_bytes!("../../../examples/measured.axle");

/// The input torque of the second row: at 100 rpm and 3,000 Nm.
const SECOND_ROW: usize = 80;

/// The measured example with another input torque in its second row, in hundredths of Nm.
fn measured(input: u32) -> Vec<u8> {
    let mut data = MEASURED.to_vec();
    data[SECOND_ROW..SECOND_ROW + 4].copy_from_slice(&input.to_be_bytes());
    data
}

fn refused<T>(number: u32, place: usize) -> Result<T, Refusal> {
    Err(Refusal {
        number,
        place,
        index: None,
    })
}

#[test]
fn the_example_of_the_map_program() {
    let map = Map::build(&STANDARD).expect("accepted");
    assert_eq!(map.speeds(), [100, 200]);
    assert_eq!(map.torques(), [0, 1_000]);
    assert_eq!(map.entries(), [13_000, 15_041, 13_000, 15_041]);
    assert_eq!(map.loss(1_000, 50_000), Ok(14_021));
    assert_eq!(map.listing(), Ok(STANDARD_LISTING.to_string()));
}

#[test]
fn standard_losses() {
    let mut data = STANDARD;
    // Single reduction, ratio 3.000, at 9,800 Nm.
    data[25..27].copy_from_slice(&9_800u16.to_be_bytes());
    assert_eq!(Map::build(&data).expect("accepted").entries()[1], 33_000);
    // Tandem with hub reduction, ratio 7.000, at 950 Nm.
    data[7] = 5;
    data[11..13].copy_from_slice(&7_000u16.to_be_bytes());
    data[25..27].copy_from_slice(&950u16.to_be_bytes());
    assert_eq!(Map::build(&data).expect("accepted").entries()[1], 28_000);
}

#[test]
fn below_the_first_torque() {
    let mut data = STANDARD;
    data[23..25].copy_from_slice(&1_000u16.to_be_bytes());
    data[25..27].copy_from_slice(&2_000u16.to_be_bytes());
    let map = Map::build(&data).expect("accepted");
    assert_eq!(map.entries(), [15_041, 17_082, 15_041, 17_082]);
    assert_eq!(map.loss(1_000, 0), Ok(13_000));
    assert_eq!(map.loss(1_000, 50_000), Ok(14_021));
}

#[test]
fn measured_losses() {
    let loss = |input| Map::build(&measured(input)).map(|map| map.entries()[1]);
    assert_eq!(loss(110_000), Ok(30_000));
    assert_eq!(loss(102_000), Ok(6_700));
    assert_eq!(loss(100_000), Ok(700));
    assert_eq!(loss(99_999), refused(9, SECOND_ROW));
}

/// The measured example with this ratio and no loss in any row.
fn without_loss(ratio: u16) -> Vec<u8> {
    let mut data = MEASURED.to_vec();
    data[11..13].copy_from_slice(&ratio.to_be_bytes());
    for (row, output) in [100_000, 300_000, 100_000, 300_000].into_iter().enumerate() {
        let input: u32 = 1_000 * output / u32::from(ratio);
        data[72 + 8 * row..][..4].copy_from_slice(&input.to_be_bytes());
    }
    data
}

/// 1 Nm at the input is 1.00 Nm at the wheel under a ratio of 1.000, and 20.00 Nm under 20.000. U is
/// 20,000 and 80,000 grains: the root of 20,000² + 80,000² is 82,462.1, that of 400,000² + 80,000²
/// 407,921.6. So 824.63 - 100.00 and 4,079.22 - 2,000.00 hundredths are above it.
#[test]
fn the_newton_metre_is_at_the_input() {
    let entries = |ratio| Map::build(&without_loss(ratio)).map(|map| map.entries().to_vec());
    assert_eq!(entries(1_000), Ok(vec![725; 4]));
    assert_eq!(entries(20_000), Ok(vec![2_080; 4]));
}

/// At 1,000 Nm the example has 340.00 Nm in: a loss of 20.00 Nm with 10.00 Nm of uncertainty, of
/// which 3.00 Nm are allowed. From there to 3,000 Nm it rises by 273.00 Nm, and so falls below zero
/// towards 0 Nm.
#[test]
fn the_measured_example() {
    let map = Map::build(MEASURED).expect("accepted");
    assert_eq!(map.speeds(), [100, 200]);
    assert_eq!(map.torques(), [1_000, 3_000]);
    assert_eq!(map.entries(), [2_700, 30_000, 2_700, 30_000]);
    assert_eq!(map.loss(1_500, 100_000), Ok(2_700));
    assert_eq!(map.loss(1_500, 200_000), Ok(16_350));
    assert_eq!(map.loss(1_500, 0), Ok(-10_950));
    // -13.62 and -0.1065 hundredths, rounded towards plus infinity.
    assert_eq!(map.loss(1_500, 80_120), Ok(-13));
    assert_eq!(map.loss(1_500, 80_219), Ok(0));
}

#[test]
fn nearest_points() {
    let map = Map::build(&STANDARD).expect("accepted");
    assert_eq!(map.nearest(1_500, 0), Ok((100, 0)));
    assert_eq!(map.nearest(1_501, 0), Ok((200, 0)));
    assert_eq!(map.nearest(1_000, 50_000), Ok((100, 0)));
    assert_eq!(map.nearest(1_000, 50_001), Ok((100, 1_000)));
    assert_eq!(map.nearest(0, 0), Ok((100, 0)));
    assert_eq!(map.nearest(u32::MAX, u32::MAX), Ok((200, 1_000)));
}

#[test]
fn a_refused_build_leaves_the_entries() {
    let mut entries = [7; 4];
    assert_eq!(build(&[], &mut entries), refused(2, 0));
    assert_eq!(build(&[1], &mut entries), refused(1, 0));
    assert_eq!(build(&STANDARD, &mut entries[..3]), refused(11, 4));
    assert_eq!(build(&STANDARD, &mut []), refused(11, 4));
    assert_eq!(entries, [7; 4]);
}

#[test]
fn a_build_touches_nothing_beyond_the_last_entry() {
    let mut entries = [7; 6];
    build(&STANDARD, &mut entries).expect("accepted");
    assert_eq!(entries, [13_000, 15_041, 13_000, 15_041, 7, 7]);
}

#[test]
fn a_listing_touches_nothing_beyond_its_end() {
    let mut entries = [0; 4];
    let grid = build(&STANDARD, &mut entries).expect("accepted");
    let mut text = [7; 78];
    let needed = STANDARD_LISTING.len();
    assert_eq!(needed, 76);
    let short = listing(&grid, &entries, &mut text[..needed - 1]);
    assert_eq!(short, refused(11, needed));
    assert_eq!(text, [7; 78]);
    assert_eq!(listing(&grid, &entries, &mut text[..needed]), Ok(needed));
    assert_eq!(&text[..needed], STANDARD_LISTING.as_bytes());
    assert_eq!(text[needed..], [7, 7]);
    assert_eq!(listing(&grid, &entries, &mut text), Ok(needed));
    assert_eq!(text[needed..], [7, 7]);
}

#[test]
fn questions_outside_the_map() {
    let mut entries = [0; 4];
    let grid = build(&STANDARD, &mut entries).expect("accepted");
    assert_eq!(loss(&grid, &entries, 999, 0), refused(20, 0));
    assert_eq!(loss(&grid, &entries, 1_000, 0), Ok(13_000));
    assert_eq!(loss(&grid, &entries, 2_000, 100_000), Ok(15_041));
    assert_eq!(loss(&grid, &entries, 2_001, 100_000), refused(20, 0));
    assert_eq!(loss(&grid, &entries, 2_000, 100_001), refused(21, 0));
    assert_eq!(loss(&grid, &entries, 2_001, 100_001), refused(20, 0));
}

#[test]
fn what_is_no_map() {
    let mut entries = [0; 4];
    let mut text = [7; 100];
    let grid = build(&STANDARD, &mut entries).expect("accepted");
    // The nearest point looks at the axes alone.
    assert_eq!(loss(&grid, &entries[..3], 1_000, 0), refused(22, 0));
    assert_eq!(listing(&grid, &entries[..3], &mut text), refused(22, 0));
    assert_eq!(nearest(&grid, 1_000, 0), Ok((100, 0)));
    for count in [0, 1, 33, usize::MAX] {
        let mut other = grid;
        other.speed_count = count;
        assert_eq!(loss(&other, &entries, 1_000, 0), refused(22, 0));
        assert_eq!(listing(&other, &entries, &mut text), refused(22, 0));
        assert_eq!(nearest(&other, 1_000, 0), refused(22, 0));
    }
    entries[3] = 10_000_001;
    assert_eq!(loss(&grid, &entries, 1_000, 0), refused(22, 0));
    assert_eq!(text, [7; 100]);
}
