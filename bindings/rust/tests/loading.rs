//! Listings taken in, by document 02, C-16: what is loaded, and every refusal with its place.

use axle::{build, listing, load, loss, Map, Refusal};

const STANDARD: &[u8] = include_bytes!("../../../examples/standard.axle");
const LISTING: &str = include_str!("../../../examples/standard.csv");

/// A listing, the largest there is, and the data that it is of.
const LARGEST: &[u8] = include_bytes!("../../../crates/lossmap/stdin");
const LARGEST_LISTING: &str = include_str!("../../../crates/lossmap/stdout");

const HEADER: &str = "speed,torque,loss\n";

fn refusal(number: u32, place: usize) -> Refusal {
    Refusal {
        number,
        place,
        index: None,
    }
}

/// What refuses a text, bytes that are no UTF-8 among them.
fn refused(text: impl AsRef<[u8]>) -> (u32, usize) {
    let Refusal {
        number,
        place,
        index,
    } = Map::load(text.as_ref()).expect_err("refused");
    assert_eq!(index, None);
    (number, place)
}

/// A listing of these rows.
fn rows(rows: &[&str]) -> String {
    let lines = rows.iter().flat_map(|row| [*row, "\n"]);
    std::iter::once(HEADER).chain(lines).collect()
}

/// A listing with this loss at each point of a grid.
fn listed(speeds: &[u32], torques: &[u32], loss: &str) -> String {
    let points = speeds.iter().flat_map(|speed| {
        let of_speed = torques.iter();
        of_speed.map(move |torque| format!("{speed},{torque},{loss}\n"))
    });
    std::iter::once(HEADER.to_string()).chain(points).collect()
}

fn counted(first: u32, count: u32) -> Vec<u32> {
    (first..first + count).collect()
}

#[test]
fn a_printed_listing_loads_to_its_own_map() {
    let examples: [&[u8]; 5] = [
        STANDARD,
        include_bytes!("../../../examples/measured.axle"),
        include_bytes!("../../../examples/half-shafts.axle"),
        include_bytes!("../../../examples/bench-run.axle"),
        LARGEST,
    ];
    for data in examples {
        let map = Map::build(data).expect("accepted");
        let text = map.listing().expect("a map");
        let loaded = Map::load(text.as_bytes()).expect("its listing");
        assert_eq!(loaded, map);
        assert_eq!(loaded.listing(), Ok(text.clone()));
        assert_eq!(text.parse(), Ok(map));
    }
    assert_eq!(Map::load(LARGEST_LISTING.as_bytes()), Map::build(LARGEST));
}

#[test]
fn the_listing_of_document_01() {
    let map = Map::load(LISTING.as_bytes()).expect("loaded");
    assert_eq!(map.speeds(), [100, 200]);
    assert_eq!(map.torques(), [0, 1_000]);
    assert_eq!(map.entries(), [13_000, 15_041, 13_000, 15_041]);
    assert_eq!(map.loss(1_000, 50_000), Ok(14_021));
    assert_eq!(map.loss(999, 0), Err(refusal(20, 0)));
    assert_eq!(map.loss(1_000, 100_001), Err(refusal(21, 0)));
    assert_eq!(map.nearest(1_501, 50_001), Ok((200, 1_000)));
}

/// One fraction, rounded up once, as of a map that was built; here too under the first torque.
#[test]
fn questions_to_a_loaded_map() {
    let text = rows(&["10,4,0.01", "10,8,0.02", "20,4,0.02", "20,8,0.05"]);
    let map: Map = text.parse().expect("loaded");
    // Halfway along both axes: (1 + 2 + 2 + 5) / 4 hundredths.
    assert_eq!(map.loss(150, 600), Ok(3));
    assert_eq!(map.loss(100, 400), Ok(1));
    assert_eq!(map.loss(200, 0), Ok(-1));
    assert_eq!(map.loss(150, 0), Ok(0));
    // 2 hundredths less 3 for each 4 Nm: at 1 Nm -0.25.
    assert_eq!(map.loss(200, 100), Ok(0));
}

#[test]
fn spaces_and_tabs_at_both_ends_of_a_line() {
    let map = Map::build(STANDARD).expect("accepted");
    for (before, after) in [("", " "), ("\t", ""), ("  \t ", "\t \t"), (" ", " ")] {
        let lines = LISTING.lines();
        let text: String = lines
            .map(|line| format!("{before}{line}{after}\n"))
            .collect();
        let loaded = Map::load(text.as_bytes()).expect("loaded");
        assert_eq!(loaded, map);
        assert_eq!(loaded.listing(), Ok(LISTING.to_string()));
    }
    let blanks = " \t".repeat(100_000);
    let text = LISTING.replace('\n', &format!("{blanks}\n{blanks}"));
    assert_eq!(refused(&text), (41, text.len() - blanks.len()));
    let ended = &text[..text.len() - blanks.len()];
    assert_eq!(ended.parse(), Ok(map));
}

#[test]
fn entries_past_the_last_are_left() {
    for lent in [4, 5, 2_048] {
        let mut entries = vec![7; lent];
        let grid = load(LISTING.as_bytes(), &mut entries).expect("loaded");
        assert_eq!(entries[..4], [13_000, 15_041, 13_000, 15_041]);
        assert!(entries[4..].iter().all(|entry| *entry == 7));
        let built = build(STANDARD, &mut vec![7; lent]);
        assert_eq!(built, Ok(grid));
        assert_eq!(loss(&grid, &entries, 1_000, 50_000), Ok(14_021));
        let mut text = [0; 76];
        assert_eq!(listing(&grid, &entries, &mut text), Ok(76));
        assert_eq!(text, LISTING.as_bytes());
    }
}

#[test]
fn a_refused_load_leaves_the_entries() {
    let texts = [
        (String::new(), 4, refusal(40, 0)),
        (LISTING[..75].to_string(), 4, refusal(41, 60)),
        (LISTING.replace("200,1000", "200,1001"), 4, refusal(42, 60)),
        (LISTING[..60].to_string(), 4, refusal(42, 60)),
        (LISTING.replace("200,", "3001,"), 4, refusal(4, 0)),
        (LISTING.replace("200,", "99,"), 4, refusal(5, 0)),
        (LISTING.replace(",0,", ",501,"), 4, refusal(6, 0)),
        (LISTING.replace("150.41", "100000.01"), 4, refusal(10, 0)),
        (LISTING.to_string(), 3, refusal(11, 4)),
        (LISTING.to_string(), 0, refusal(11, 4)),
    ];
    for (text, lent, expected) in texts {
        let mut entries = vec![7; lent];
        assert_eq!(load(text.as_bytes(), &mut entries), Err(expected), "{text}");
        assert!(entries.iter().all(|entry| *entry == 7), "{text}");
    }
}

#[test]
fn headers() {
    let others = [
        "",
        "\n",
        " \t\n",
        "speed,torque,loss",
        "speed,torque,loss ",
        "speed,torque,loss\r\n",
        "Speed,torque,loss\n",
        "speed,torque\n",
        "speed, torque,loss\n",
        "speed,torque,loss,\n",
        "\u{feff}speed,torque,loss\n",
        "100,0,130.00\n",
    ];
    for other in others {
        assert_eq!(refused(other), (40, 0), "{other:?}");
        let text = LISTING.replacen(HEADER, other, 1);
        assert_eq!(refused(text), (40, 0), "{other:?}");
    }
    assert_eq!(refused(LISTING.replace('\n', "\r\n")), (40, 0));
    assert_eq!(refused(STANDARD), (40, 0));
    assert_eq!(refused(HEADER), (42, 18));
}

#[test]
fn lines_without_the_form_of_a_row() {
    let others: [&[u8]; 32] = [
        b"",
        b" \t",
        b"01,0,0.00",
        b"00,0,0.00",
        b"1,00,0.00",
        b"1,0,00.00",
        b"1000000000,0,0.00",
        b"1,1000000000,0.00",
        b"1,0,1000000000.00",
        b"1, 0,0.00",
        b"1 ,0,0.00",
        b"1,0 ,0.00",
        b"1,0,0 .00",
        b"1,0,.50",
        b"1,0,0.5",
        b"1,0,0.500",
        b"1,0,0",
        b"1,0,0,50",
        b"1,0",
        b"1",
        b"1,0,0.00,",
        b",1,0,0.00",
        b"-1,0,0.00",
        b"+1,0,0.00",
        b"1,0,-0.01",
        b"1;0;0.00",
        b"1,0,0.00\r",
        b"1,0,0.00\x0c",
        b"1,0,0.00\0",
        b"\xa01,0,0.00",
        b"1,0,1e3",
        b"1.0,0,0.00",
    ];
    let as_first_row =
        |row: &[u8], later: &str| [b"speed,torque,loss\n", row, b"\n", later.as_bytes()].concat();
    let later = &LISTING[18..];
    for other in others {
        assert_eq!(refused(as_first_row(other, "")), (41, 18), "{other:?}");
        assert_eq!(refused(as_first_row(other, later)), (41, 18), "{other:?}");
    }
    // Nine digits have the form of a row. Here they break no run.
    assert_eq!(
        refused(rows(&["999999999,999999999,999999999.99"])),
        (42, 51)
    );
}

#[test]
fn line_feeds() {
    assert_eq!(refused(&LISTING[..75]), (41, 60));
    assert_eq!(refused(format!("{LISTING}\n")), (41, 76));
    assert_eq!(refused(format!("{LISTING} ")), (41, 76));
    // The offset is that of the line's first byte, a blank or not.
    let text = LISTING.replace("\n200,1000,150.41\n", "\n \t200,1000,150.41 ");
    assert_eq!(refused(text), (41, 60));
    let text = LISTING.replace("\n200,1000,", "\n \t200,1001,");
    assert_eq!(refused(text), (42, 60));
}

#[test]
fn rows_that_break_their_run() {
    let of_points = |points: &[(u32, u32)]| {
        let points = points.iter();
        let lines: String = points
            .map(|(speed, torque)| format!("{speed},{torque},0.00\n"))
            .collect();
        refused(HEADER.to_string() + &lines)
    };
    // Another torque than the first run's, and another speed than the run's.
    assert_eq!(of_points(&[(1, 0), (1, 1), (2, 0), (3, 1)]), (42, 45));
    assert_eq!(of_points(&[(1, 0), (1, 1), (2, 1), (2, 0)]), (42, 36));
    assert_eq!(of_points(&[(1, 0), (1, 1), (2, 0), (2, 2)]), (42, 45));
    // A run that goes on past its count: its next row has to begin a run.
    assert_eq!(
        of_points(&[(1, 0), (1, 1), (2, 0), (2, 1), (2, 2)]),
        (42, 54)
    );
    // A run may have the speed of the one before; the axis does not rise then.
    assert_eq!(
        of_points(&[(1, 0), (1, 1), (2, 0), (2, 1), (2, 0), (2, 1)]),
        (5, 0)
    );
}

#[test]
fn runs_that_make_no_map() {
    let at_end = |text: String| assert_eq!(refused(&text), (42, text.len()));
    at_end(rows(&["1,0,0.00"]));
    at_end(rows(&["1,0,0.00", "1,1,0.00"]));
    at_end(rows(&["1,0,0.00", "2,0,0.00"]));
    at_end(rows(&["1,0,0.00", "1,1,0.00", "2,0,0.00"]));
    at_end(listed(&[1, 2], &counted(0, 65), "0.00"));
    at_end(listed(&counted(1, 33), &[0, 1], "0.00"));
    // As large as may be.
    let text = listed(&counted(1, 32), &counted(0, 64), "0.00");
    assert_eq!(text.parse::<Map>().expect("loaded").entries(), [0; 2_048]);
    // What is wrong with a later line is told first.
    let text = listed(&[1, 2], &counted(0, 65), "0.00");
    assert_eq!(text.len(), 1_298);
    assert_eq!(refused(format!("{text}x")), (41, 1_298));
    assert_eq!(refused(text.replace("2,64,", "2,63,")), (42, 1_288));
}

/// Each is tested over the whole map before the next.
#[test]
fn numbers_of_the_map() {
    let answer = |speeds: [u32; 2], torques: [u32; 2], loss: &str| {
        Map::load(listed(&speeds, &torques, loss).as_bytes())
            .map(|map| map.entries().to_vec())
            .map_err(|refusal| (refusal.number, refusal.place))
    };
    let wide = answer([1, 3_000], [0, 50_000], "100000.00");
    assert_eq!(wide, Ok(vec![10_000_000; 4]));
    for speeds in [[0, 3_000], [1, 3_001], [1, 65_536 + 2], [1, 999_999_999]] {
        assert_eq!(answer(speeds, [0, 50_000], "0.00"), Err((4, 0)));
    }
    for torques in [[0, 50_001], [0, 65_536 + 1], [50_001, 0]] {
        assert_eq!(answer([5, 4], torques, "100000.01"), Err((4, 0)));
    }
    for torques in [[1, 1], [2, 1]] {
        assert_eq!(answer([4, 5], torques, "100000.01"), Err((5, 0)));
    }
    assert_eq!(answer([5, 4], [11, 21], "100000.01"), Err((5, 0)));
    assert_eq!(answer([4, 5], [11, 21], "100000.01"), Err((6, 0)));
    for loss in ["100000.01", "42949672.96", "999999999.99"] {
        assert_eq!(answer([4, 5], [10, 20], loss), Err((10, 0)));
    }
}
