//! Request C-16, a listing taken in: cases reckoned by hand, texts of any length, and the listings of maps and of the examples loaded back.

use crate::support::*;
use reference::examples::files;
use reference::lent_maps::valid_map;
use reference::listing::{listing, listing_of_data};
use reference::loader::{load, trimmed};
use reference::map::{build, Map};
use reference::random::Source;
use reference::refusal::Refusal;

const SEED: u64 = 16;

const HEADER: &str = "speed,torque,loss\n";

/// The refusal's number and place, or none.
fn refusal(text: &str, entries: usize) -> Option<(u8, usize)> {
    let refusal: Refusal = load(text.as_bytes(), entries).err()?;
    Some((refusal.number, refusal.place))
}

/// Rows of the listing, each of 9 bytes, behind the header's 18.
fn rows(speeds_and_torques: &[(u8, u8)]) -> String {
    let row = |(speed, torque): &(u8, u8)| format!("{speed},{torque},0.00\n");
    HEADER.to_string() + &speeds_and_torques.iter().map(row).collect::<String>()
}

fn ended(speeds_and_torques: &[(u8, u8)]) -> Option<(u8, usize)> {
    refusal(&rows(speeds_and_torques), 2_048)
}

#[test]
fn the_example_loads_to_its_map() {
    let example = example();
    let text = listing_of_data(&example.bytes()).unwrap();
    assert_eq!(text.len(), 76);
    assert_eq!(load(&text, 4), example.build());
    assert_eq!(load(&text, 3), refused(11, 4));
    assert_eq!(load(&text[..75], 4), refused(41, 60));
    assert_eq!(load(&[&text[..], b"\n"].concat(), 4), refused(41, 76));
}

#[test]
fn runs_begin_and_end() {
    assert_eq!(ended(&[(1, 0), (1, 1), (2, 0), (2, 1)]), None);
    assert_eq!(ended(&[]), Some((42, 18)));
    assert_eq!(ended(&[(1, 0), (1, 1)]), Some((42, 36)));
    assert_eq!(ended(&[(1, 0), (1, 1), (2, 0)]), Some((42, 45)));
    assert_eq!(ended(&[(1, 0), (2, 0)]), Some((42, 36)));
    assert_eq!(ended(&[(1, 0), (1, 1), (2, 0), (3, 1)]), Some((42, 45)));
    assert_eq!(ended(&[(1, 0), (1, 1), (2, 1), (2, 0)]), Some((42, 36)));
    // The first run goes on as long as its speed is the same, a later one has its count.
    let twice = [(1, 0), (1, 1), (1, 0), (1, 1)];
    assert_eq!(ended(&twice), Some((42, 54)));
    let behind_it = [(1, 0), (1, 1), (2, 0), (2, 1), (2, 0), (2, 1)];
    assert_eq!(ended(&behind_it), Some((5, 0)));
    let more = [(1, 0), (1, 1), (2, 0), (2, 1), (2, 2)];
    assert_eq!(ended(&more), Some((42, 54)));
}

#[test]
fn blanks_count_in_places_alone() {
    let text = "\t speed,torque,loss \n 1,0,0.00\t\n  1,1,0.00\n\t2,0,0.00\n2,1,0.00  \n";
    let loaded = load(text.as_bytes(), 4).unwrap();
    assert_eq!((loaded.speeds, loaded.torques), (vec![1, 2], vec![0, 1]));
    // The header's line has 21 bytes, those behind it 11, 11 and 10.
    assert_eq!(refusal(&text.replace("2,0", "2,1"), 4), Some((42, 43)));
    assert_eq!(refusal(&text.replace("2,1", "2;1"), 4), Some((41, 53)));
    assert_eq!(refusal(&text[..53], 4), Some((42, 53)));
    for other in ["\r", "\u{b}", "\u{c}", "\0", "\u{a0}"] {
        let text = rows(&[(1, 0), (1, 1)]).replace("0.00", &format!("0.00{other}"));
        assert_eq!(refusal(&text, 4), Some((41, 18)), "{other:?}");
    }
    let line = b"\t 1,0,0.00 ";
    assert_eq!(trimmed(line), &line[2..10]);
}

#[test]
fn texts_of_any_length() {
    let mut one_run = HEADER.to_string() + &"1,0,0.00\n".repeat(200_000);
    let length = 18 + 9 * 200_000;
    assert_eq!(refusal(&one_run, 2_048), Some((42, length)));
    one_run += "2,1,0.00\n";
    assert_eq!(refusal(&one_run, 2_048), Some((42, length)));
    one_run += "x";
    assert_eq!(refusal(&one_run, 2_048), Some((42, length)));
    let many_runs = rows(&[(1, 0), (1, 1)]) + &"2,0,0.00\n2,1,0.00\n".repeat(100_000);
    assert_eq!(refusal(&many_runs, 2_048), Some((42, many_runs.len())));
    assert_eq!(
        refusal(&(many_runs.clone() + " "), 2_048),
        Some((41, many_runs.len()))
    );
    let blanks = " \t".repeat(100_000);
    let wide = rows(&[(1, 0), (1, 1), (2, 0), (2, 1)]).replace('\n', &(blanks + "\n"));
    assert_eq!(refusal(&wide, 4), None);
}

/// Each map's listing loads to the axes and the entries that count, and to nothing else.
#[test]
fn listings_of_maps_load_back() {
    for number in 0..2_000 {
        let lent = valid_map(&mut Source::new(SEED, number));
        let text = listing(&lent, usize::MAX).unwrap();
        let (speed_count, torque_count) = (lent.speeds.count, lent.torques.count);
        let needed = speed_count * torque_count;
        let expected = Map {
            speeds: lent.speeds.numbers[..speed_count].to_vec(),
            torques: lent.torques.numbers[..torque_count].to_vec(),
            entries: lent.entries[..needed].to_vec(),
        };
        assert_eq!(load(&text, needed), Ok(expected));
        assert_eq!(load(&text, needed - 1), refused(11, needed));
        assert!(load(&text[..text.len() - 1], needed).is_err());
    }
    for kind in 1..=3 {
        let data = largest(kind).bytes();
        let text = listing_of_data(&data).unwrap();
        assert_eq!(load(&text, 2_048), build(&data, 2_048));
    }
}

#[test]
fn the_listings_of_the_examples_load() {
    let files = files();
    let mut loaded = 0;
    for file in &files {
        let Some(name) = file.name.strip_suffix(".csv") else {
            continue;
        };
        let data = format!("{name}.axle");
        let data = files.iter().find(|file| file.name == data).unwrap();
        assert_eq!(
            load(&file.content, 2_048),
            build(&data.content, 2_048),
            "{name}"
        );
        loaded += 1;
    }
    assert_eq!(loaded, 4);
}
