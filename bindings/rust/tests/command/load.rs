//! The word `load`: listings as a supplier sends them, with the lines of those that are refused.

use super::examples::names;
use super::*;
use axle::Map;

const AXES: &str = "accepted: 2 speeds from 100 to 200 rpm, 2 torques from 0 to 1000 Nm\n";

fn listing() -> String {
    std::fs::read_to_string(examples_folder().join("standard.csv")).expect("read")
}

/// The listing of document 01 with another text in the place of one of its texts.
#[track_caller]
fn with(old: &str, new: &str) -> String {
    let listing = listing();
    assert!(listing.contains(old), "{old:?}");
    listing.replace(old, new)
}

fn loaded(text: impl AsRef<[u8]>) -> Output {
    run_with_input(&["load", "-"], text.as_ref())
}

fn listed(text: impl AsRef<[u8]>) -> Output {
    run_with_input(&["load", "--list", "-"], text.as_ref())
}

/// Refused whether it is to be listed or not.
#[track_caller]
fn assert_refused(text: impl AsRef<[u8]>, message: &str) {
    let message = format!("axle: refused {message}\n");
    assert_failed(loaded(&text), 1, &message);
    assert_failed(listed(&text), 1, &message);
}

#[test]
fn every_listing_is_taken_in() {
    for name in names("csv") {
        let (file, data) = (name.with_extension("csv"), name.with_extension("axle"));
        let check = run([OsStr::new("check"), data.as_ref()]);
        assert_answered(run([OsStr::new("load"), file.as_ref()]), parts(&check).1);
        let list = run([OsStr::new("load"), "--list".as_ref(), file.as_ref()]);
        let text = std::fs::read_to_string(file).expect("read");
        assert_answered(list, &text);
    }
    assert_answered(loaded(listing()), AXES);
    assert_answered(listed(listing()), &listing());
}

#[test]
fn blanks_at_both_ends_of_lines() {
    let text = listing().replace('\n', "\t \n \t");
    let text = text
        .strip_suffix(" \t")
        .expect("blanks behind the last line");
    assert_answered(loaded(text), AXES);
    assert_answered(listed(text), &listing());
}

/// The largest map, each line with as many blanks as make ten million bytes of it.
#[test]
fn a_long_text() {
    let file = PathBuf::from(env!("CARGO_MANIFEST_DIR")).join("../../crates/lossmap/stdout");
    let listing = std::fs::read_to_string(file).expect("read");
    let blanks = " ".repeat(10_000_000 / 2_049);
    let text = listing.replace('\n', &format!("{blanks}\n"));
    assert!(text.len() > 10_000_000);
    let name = PathBuf::from(env!("CARGO_TARGET_TMPDIR")).join("long.csv");
    std::fs::write(&name, &text).expect("written");
    let axes = "accepted: 32 speeds from 1 to 3000 rpm, 64 torques from 0 to 50000 Nm\n";
    assert_answered(run([OsStr::new("load"), name.as_ref()]), axes);
    let list = run([OsStr::new("load"), "--list".as_ref(), name.as_ref()]);
    assert_answered(list, &listing);
    // A line more at its end is the one that is refused.
    std::fs::write(&name, text.clone() + "\n").expect("written");
    let message = format!(
        "axle: refused 41 at {}: line without the form of a row (the line's offset), line 2050 of the text\n",
        text.len()
    );
    assert_failed(run([OsStr::new("load"), name.as_ref()]), 1, &message);
    std::fs::remove_file(name).expect("removed");
}

#[test]
fn a_text_that_does_not_end() {
    let longer = "axle: the text is longer than 67108864 bytes\n";
    assert_failed(run(["load", "/dev/zero"]), 2, longer);
}

#[test]
fn other_headers() {
    let message = "40 at 0: first line other than speed,torque,loss, or without its line feed";
    assert_refused("", message);
    assert_refused("speed,torque,loss", message);
    assert_refused(with("loss\n", "loss\r\n"), message);
    assert_refused(with("speed", "Speed"), message);
    let data = std::fs::read(examples_folder().join(STANDARD)).expect("read");
    assert_refused(data, message);
}

#[test]
fn lines_that_are_no_rows() {
    let at = |place: usize, line: usize| {
        format!("41 at {place}: line without the form of a row (the line's offset), line {line} of the text")
    };
    assert_refused(with("100,0,", "0100,0,"), &at(18, 2));
    assert_refused(with("100,1000,", "100,,"), &at(31, 3));
    assert_refused(with("200,0,", "\t200 ,0,"), &at(47, 4));
    assert_refused(with("200,1000,", "200,1000,,"), &at(60, 5));
    assert_refused(listing() + "\n", &at(76, 6));
    assert_refused(with("150.41\n200,0", "\u{b2}50.41\n200,0"), &at(31, 3));
    let text: Vec<u8> = [listing().as_bytes(), b"\xFF\n"].concat();
    assert_refused(text, &at(76, 6));
}

#[test]
fn a_line_without_its_line_feed() {
    let at = |place: usize, line: usize| {
        format!("41 at {place}: line without its line feed (the line's offset), line {line} of the text")
    };
    for length in 61..76 {
        assert_refused(&listing()[..length], &at(60, 5));
    }
    assert_refused(listing() + " ", &at(76, 6));
    assert_refused(&listing()[..19], &at(18, 2));
}

#[test]
fn rows_that_break_their_run() {
    let at = |place: usize, line: usize| {
        format!(
            "42 at {place}: row that breaks its run (the line's offset), line {line} of the text"
        )
    };
    assert_refused(with("200,0,", " 200,1,"), &at(47, 4));
    assert_refused(with("200,1000,", "201,1000,"), &at(60, 5));
    assert_refused(listing() + "200,2000,150.41\n", &at(76, 6));
}

#[test]
fn runs_that_make_no_map() {
    let at = |place: usize| {
        format!("42 at {place}: last run too short, or not 2 to 32 speeds and 2 to 64 torques (the text's length)")
    };
    for length in [18, 31, 47, 60] {
        assert_refused(&listing()[..length], &at(length));
    }
    let text = with("200,", "100,");
    assert_refused(&text, &at(text.len()));
}

#[test]
fn numbers_of_no_map() {
    assert_refused(with("200,", "3001,"), "4 at 0: number out of range");
    assert_refused(with(",1000,", ",50001,"), "4 at 0: number out of range");
    let rising = "5 at 0: axis number that does not rise";
    assert_refused(with("200,", "99,"), rising);
    let step = "6 at 0: first torque above the step to the second";
    assert_refused(with(",0,", ",501,"), step);
    let large = "10 at 0: entry above 100000.00 Nm";
    assert_refused(with("130.00", "100000.01"), large);
    let text = with("130.00", "100000.00");
    assert_answered(listed(&text), &text);
}

/// What is printed of a loaded map is what is printed of the map itself.
#[test]
fn the_listing_is_the_maps() {
    let data = std::fs::read(examples_folder().join("bench-run.axle")).expect("read");
    let text = Map::build(&data)
        .expect("accepted")
        .listing()
        .expect("a map");
    assert_answered(listed(text.replace('\n', " \n")), &text);
}
