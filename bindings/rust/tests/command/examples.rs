//! Every example of the repository: NAME.axle has its listing beside it in NAME.csv, or the line
//! of its refusal in NAME.refusal. And the largest map.

use super::*;
use axle::Map;
use std::path::Path;

/// The examples' files with this ending, each without it, in the order of their names.
pub fn names(ending: &str) -> Vec<PathBuf> {
    let entries = std::fs::read_dir(examples_folder()).expect("a folder");
    let paths = entries.map(|entry| entry.expect("an entry").path());
    let files = paths.filter(|path| path.extension() == Some(OsStr::new(ending)));
    let mut names: Vec<PathBuf> = files.map(|path| path.with_extension("")).collect();
    names.sort();
    names
}

fn accepted(name: &Path) {
    let listing = std::fs::read_to_string(name.with_extension("csv")).expect("read");
    let data = name.with_extension("axle");
    assert_answered(run([OsStr::new("list"), data.as_ref()]), &listing);
    let check = run([OsStr::new("check"), data.as_ref()]);
    let (status, answer, errors) = parts(&check);
    assert_eq!((status, errors), (Some(0), ""), "{:?}", data);
    assert!(answer.starts_with("accepted: "), "{:?}", data);
}

fn refused(name: &Path) {
    let line = std::fs::read_to_string(name.with_extension("refusal")).expect("read");
    let refusal = line.strip_suffix('\n').expect("a line");
    let data = name.with_extension("axle");
    for word in ["list", "check"] {
        let output = run([OsStr::new(word), data.as_ref()]);
        assert_failed_with(output, 1, &format!("axle: {}: ", refusal));
    }
}

#[test]
fn every_example_answers_as_the_file_beside_it_says() {
    let (mut accepted_count, mut refused_count) = (0, 0);
    for name in names("axle") {
        let is_there = |ending| name.with_extension(ending).is_file();
        match (is_there("csv"), is_there("refusal")) {
            (true, false) => {
                accepted(&name);
                accepted_count += 1;
            }
            (false, true) => {
                refused(&name);
                refused_count += 1;
            }
            _ => panic!("{:?}: either .csv or .refusal is due beside it", name),
        }
    }
    assert!(accepted_count > 0, "no accepted example");
    assert!(refused_count > 0, "no refused example");
}

/// A file of the map program's own example, which is the largest map.
fn largest(name: &str) -> PathBuf {
    let folder = PathBuf::from(env!("CARGO_MANIFEST_DIR")).join("../../crates/lossmap");
    folder.join(name)
}

#[test]
fn the_largest_map_has_room() {
    let file = largest("stdin");
    let mut data = std::fs::read(&file).expect("read");
    assert_eq!(data.len(), 24_853, "the longest data");
    let listing = std::fs::read_to_string(largest("stdout")).expect("read");
    let axes = "accepted: 32 speeds from 1 to 3000 rpm, 64 torques from 0 to 50000 Nm\n";
    for (word, answer) in [("list", listing.as_str()), ("check", axes)] {
        assert_answered(run([OsStr::new(word), file.as_ref()]), answer);
        assert_answered(run_with_input(&[word, "-"], &data), answer);
    }
    let map = Map::build(&data).expect("accepted");
    assert_eq!(map.listing(), Ok(listing));
    data.push(0);
    for word in ["list", "check"] {
        let output = run_with_input(&[word, "-"], &data);
        assert_failed_with(output, 1, "axle: refused 12 at 24853: ");
    }
}
