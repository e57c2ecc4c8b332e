//! Grids are compared and shown by the numbers that count.

use axle::Grid;

fn grid(past: u16) -> Grid {
    let mut grid = Grid {
        speeds: [past; 32],
        speed_count: 2,
        torques: [past; 64],
        torque_count: 3,
    };
    grid.speeds[..2].copy_from_slice(&[100, 200]);
    grid.torques[..3].copy_from_slice(&[0, 500, 1_000]);
    grid
}

#[test]
fn numbers_past_the_count_are_left_out() {
    assert_eq!(grid(0), grid(9));
    let shown = "Grid { speeds: [100, 200], speed_count: 2, \
                 torques: [0, 500, 1000], torque_count: 3 }";
    assert_eq!(format!("{:?}", grid(9)), shown);
}

#[test]
fn numbers_and_counts_that_differ() {
    let mut other = grid(0);
    other.speeds[1] = 201;
    assert_ne!(grid(0), other);
    let mut other = grid(0);
    other.torques[2] = 1_001;
    assert_ne!(grid(0), other);
    let mut other = grid(0);
    other.speed_count = 3;
    assert_ne!(grid(0), other);
    let mut other = grid(0);
    other.torque_count = 2;
    assert_ne!(grid(0), other);
}

#[test]
fn counts_above_the_places() {
    let many = |past, count| {
        let mut many = grid(past);
        many.speed_count = count;
        many.torque_count = count;
        many
    };
    assert_eq!(many(9, usize::MAX), many(9, usize::MAX));
    assert_ne!(many(9, usize::MAX), many(8, usize::MAX));
    assert_ne!(many(9, usize::MAX), many(9, 65));
    assert!(format!("{:?}", many(9, 65)).contains("speed_count: 65"));
}

/// All places count in each of these grids, so that one count alone tells them apart.
#[test]
fn one_count_that_differs() {
    let with_counts = |speed_count, torque_count| Grid {
        speed_count,
        torque_count,
        ..grid(9)
    };
    assert_eq!(with_counts(33, 65), with_counts(33, 65));
    assert_ne!(with_counts(33, 65), with_counts(32, 65));
    assert_ne!(with_counts(33, 65), with_counts(33, 64));
}
