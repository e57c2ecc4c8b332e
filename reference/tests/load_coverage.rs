//! The stored cases of request C-16 have what they must have: each refusal, each kind of damage with the end that is due to it, counts and numbers at their limits and past them, broken and short runs, blanks, the largest texts. And each printed listing loads to its own map.

use reference::cases::Case;
use reference::load_cases;
use reference::load_texts::{axes_and_losses, wrong_forms, wrong_headers, Row};
use reference::loader::{load, trimmed};
use reference::map::Map;
use reference::refusal::Refusal;
use reference::reply::{reply, Seen};
use reference::stored::{broken, stored_cases, LOAD_REFUSALS};
use std::collections::{BTreeMap, BTreeSet};
use std::sync::LazyLock;

/// How many cases were stored before those of this request, and before the drags. They keep their numbers.
const EARLIER_CASES: usize = 9_704;
const CASES_BEFORE_DRAGS: usize = 11_910;

const LARGEST_LOSS: u64 = 10_000_000;

/// A text, how many entries were lent, and the answer.
struct Load {
    text: Vec<u8>,
    entries: usize,
    answer: Result<Map, Refusal>,
}

impl Load {
    /// The number and the place of the refusal.
    fn refused(&self) -> Option<(u8, usize)> {
        let refusal = self.answer.as_ref().err()?;
        Some((refusal.number, refusal.place))
    }

    fn refused_with(&self, number: u8) -> bool {
        self.refused().is_some_and(|(found, _)| found == number)
    }

    /// The rows, where each line has the form of one and the header is right.
    fn rows(&self) -> Option<Vec<Row>> {
        let lines = lines(&self.text);
        let rows = lines.ended.iter().skip(1).map(|(_, line)| row(line));
        let header_is_right = lines.ended.first().is_some_and(|(_, line)| *line == HEADER);
        let is_whole = header_is_right && lines.rest.is_none();
        rows.collect::<Option<Vec<Row>>>().filter(|_| is_whole)
    }
}

/// The stored texts, each once.
static LOADS: LazyLock<Vec<Load>> = LazyLock::new(|| loads(stored_cases()));

fn loads(cases: Vec<Case>) -> Vec<Load> {
    let inputs = cases.into_iter().filter_map(|case| match case {
        Case::Load { text, entries } => Some((text, entries)),
        _ => None,
    });
    let inputs: BTreeSet<(Vec<u8>, usize)> = inputs.collect();
    let answered = |(text, entries): (Vec<u8>, usize)| Load {
        answer: load(&text, entries),
        text,
        entries,
    };
    inputs.into_iter().map(answered).collect()
}

const HEADER: &[u8] = b"speed,torque,loss";

/// Each line with a line feed, trimmed, and where it begins; and where a rest without one does.
struct Lines<'text> {
    ended: Vec<(usize, &'text [u8])>,
    rest: Option<usize>,
}

fn lines(text: &[u8]) -> Lines<'_> {
    let mut ended = Vec::new();
    let mut start = 0;
    for (place, _) in text.iter().enumerate().filter(|(_, byte)| **byte == 10) {
        ended.push((start, without_blanks(&text[start..place])));
        start = place + 1;
    }
    Lines {
        ended,
        rest: (start < text.len()).then_some(start),
    }
}

fn without_blanks(mut line: &[u8]) -> &[u8] {
    while let [b' ' | 9, rest @ ..] | [rest @ .., b' ' | 9] = line {
        line = rest;
    }
    line
}

/// A line's numbers, if they are written in just this way.
fn row(line: &[u8]) -> Option<Row> {
    let line = std::str::from_utf8(line).ok()?;
    let (speed, rest) = line.split_once(',')?;
    let (torque, loss) = rest.split_once(',')?;
    let (whole, cents) = loss.split_once('.')?;
    let mut numbers = [0; 4];
    for (number, text) in numbers.iter_mut().zip([speed, torque, whole, cents]) {
        *number = text.parse().ok().filter(|n| *n < 1_000_000_000)?;
    }
    let [speed, torque, whole, cents] = numbers;
    let written = format!("{speed},{torque},{whole}.{cents:02}");
    (written == line && cents < 100).then_some([speed, torque, 100 * whole + cents])
}

/// The refusal that is due, in words of this file.
fn due(text: &[u8], entries: usize) -> Option<(u8, usize)> {
    let Lines { ended, rest } = lines(text);
    if ended.first().is_none_or(|(_, line)| *line != HEADER) {
        return Some((40, 0));
    }
    let formed: Vec<Option<Row>> = ended[1..].iter().map(|(_, line)| row(line)).collect();
    let rows: Vec<Row> = formed.iter().map_while(|row| *row).collect();
    let length = rows.iter().take_while(|r| r[0] == rows[0][0]).count();
    let breaks = |place: &usize| {
        let (row, in_run) = (rows[*place], place % length);
        row[1] != rows[in_run][1] || row[0] != rows[place - in_run][0]
    };
    if let Some(place) = (length..rows.len()).find(breaks) {
        return Some((42, ended[1 + place].0));
    }
    if rows.len() < formed.len() {
        return Some((41, ended[1 + rows.len()].0));
    }
    if let Some(start) = rest {
        return Some((41, start));
    }
    let (runs, short) = (rows.len() / length.max(1), rows.len() % length.max(1));
    if short > 0 || !(2..=64).contains(&length) || !(2..=32).contains(&runs) {
        return Some((42, text.len()));
    }
    let speeds: Vec<u64> = (0..runs).map(|run| rows[run * length][0]).collect();
    let torques: Vec<u64> = rows[..length].iter().map(|row| row[1]).collect();
    let falls = |axis: &[u64]| (1..axis.len()).any(|index| axis[index] <= axis[index - 1]);
    if speeds.iter().any(|speed| *speed < 1 || *speed > 3_000)
        || torques.iter().any(|torque| *torque > 50_000)
    {
        Some((4, 0))
    } else if falls(&speeds) || falls(&torques) {
        Some((5, 0))
    } else if 2 * torques[0] > torques[1] {
        Some((6, 0))
    } else if rows.iter().any(|row| row[2] > LARGEST_LOSS) {
        Some((10, 0))
    } else {
        (entries < rows.len()).then_some((11, rows.len()))
    }
}

/// The answer is the due one; an accepted text has just the numbers of the map.
fn expect_due(load: &Load) {
    let due = due(&load.text, load.entries);
    let text = String::from_utf8_lossy(&load.text);
    assert_eq!(load.refused(), due, "{text}");
    let Ok(map) = &load.answer else {
        return;
    };
    let (speeds, torques) = (&map.speeds, &map.torques);
    let points = speeds
        .iter()
        .flat_map(|s| torques.iter().map(move |t| (s, t)));
    let of_map = points.zip(&map.entries);
    let of_map = of_map.map(|((s, t), entry)| [(*s).into(), (*t).into(), u64::from(*entry)]);
    assert_eq!(load.rows(), Some(of_map.collect()), "{text}");
    assert_eq!(map.entries.len(), speeds.len() * torques.len());
}

#[test]
fn loads_are_between_earlier_and_later_cases() {
    for (number, case) in stored_cases().iter().enumerate() {
        let is_due = (EARLIER_CASES..CASES_BEFORE_DRAGS).contains(&number);
        assert_eq!(case.letter() == 'l', is_due, "case {number}");
    }
}

#[test]
fn each_answer_is_the_due_one() {
    LOADS.iter().for_each(expect_due);
    let by_chance = |seed| (0..4_000).map(move |number| load_cases::by_chance(seed, number, true));
    for load in loads((1..4).flat_map(by_chance).collect()) {
        expect_due(&load);
    }
}

#[test]
fn each_refusal_occurs() {
    assert!(LOADS.len() >= 600, "{}", LOADS.len());
    let accepted = LOADS.iter().filter(|load| load.answer.is_ok()).count();
    assert!(accepted >= 60, "{accepted}");
    for number in LOAD_REFUSALS {
        let refused = LOADS.iter().filter(|load| load.refused_with(number));
        let count = refused.count();
        assert!(count >= 20, "{number}: {count}");
    }
    for load in LOADS.iter() {
        if let Some((number, place)) = load.refused() {
            assert!(LOAD_REFUSALS.contains(&number));
            let has_place = matches!(number, 41 | 42 | 11);
            assert_eq!(place > 0, has_place, "{number} at {place}");
        }
    }
}

fn occurs(what: &str, holds: impl FnMut(&Load) -> bool) {
    assert!(LOADS.iter().any(holds), "no load with {what}");
}

const EXAMPLE: &[u8] =
    b"speed,torque,loss\n100,0,130.00\n100,1000,150.41\n200,0,130.00\n200,1000,150.41\n";

/// Where the lines of document 01's listing begin, and its length.
const STARTS: [usize; 6] = [0, 18, 31, 47, 60, 76];

fn expect(text: &[u8], refused: Option<(u8, usize)>) {
    let shown = String::from_utf8_lossy(text);
    occurs(&format!("{refused:?} for {shown:?}"), |load| {
        load.text == text && load.refused() == refused
    });
}

#[test]
fn the_example_is_cut_everywhere() {
    for length in 0..EXAMPLE.len() {
        let refused = match STARTS[1..].iter().rev().find(|start| **start <= length) {
            None => (40, 0),
            Some(start) if *start == length => (42, length),
            Some(start) => (41, *start),
        };
        expect(&EXAMPLE[..length], Some(refused));
    }
    expect(EXAMPLE, None);
}

#[test]
fn each_byte_of_the_example_is_dropped_and_has_others_before_it() {
    for place in 0..EXAMPLE.len() {
        let with = |other: &[u8], behind: usize| {
            let text = [&EXAMPLE[..place], other, &EXAMPLE[behind..]].concat();
            occurs(&format!("{other:?} at {place}"), |load| load.text == text);
        };
        with(b"", place + 1);
        for other in [b" ", b"\t", b"\r", b"\n", b"0"] {
            with(other, place);
        }
    }
}

#[test]
fn line_feeds_are_missing_doubled_and_not_alone() {
    for (index, end) in STARTS[1..].iter().map(|start| start - 1).enumerate() {
        let start = STARTS[index];
        let with = |mark: &[u8]| [&EXAMPLE[..end], mark, &EXAMPLE[end + 1..]].concat();
        let in_its_line = if index == 0 { (40, 0) } else { (41, start) };
        expect(&with(b""), Some(in_its_line));
        expect(&with(b"\r\n"), Some(in_its_line));
        expect(&with(b"\n\n"), Some((41, end + 1)));
        expect(&with(b"\n \n"), Some((41, end + 1)));
    }
    for rest in [&b" "[..], b"\n", b"x", b"\t \t", b" \n"] {
        expect(&[EXAMPLE, rest].concat(), Some((41, 76)));
        expect(&[&EXAMPLE[..18], rest].concat(), Some((41, 18)));
    }
}

#[test]
fn wrong_headers_and_wrong_forms_stand_in_each_place() {
    for header in wrong_headers() {
        expect(&[&header, &EXAMPLE[17..]].concat(), Some((40, 0)));
        expect(&[&header, &b"\n"[..]].concat(), Some((40, 0)));
    }
    expect(&EXAMPLE[18..], Some((40, 0)));
    let rows = [[100, 0, 13_000], [200, 0, 13_000], [200, 1_000, 15_041]];
    for (index, row) in [1, 3, 4].into_iter().zip(rows) {
        let (before, behind) = (&EXAMPLE[..STARTS[index]], &EXAMPLE[STARTS[index + 1] - 1..]);
        for form in wrong_forms(row) {
            let text = [before, &form, behind].concat();
            expect(&text, Some((41, STARTS[index])));
        }
    }
}

#[test]
fn blanks_stand_at_both_ends_of_each_line() {
    let with_blanks = |load: &&Load| load.text.iter().any(|byte| matches!(byte, b' ' | 9));
    let all: Vec<&Load> = LOADS.iter().filter(with_blanks).collect();
    let with = |number: Option<u8>| {
        let found = all
            .iter()
            .filter(|load| load.refused().map(|r| r.0) == number);
        found.count()
    };
    for number in LOAD_REFUSALS.map(Some).into_iter().chain([None]) {
        assert!(with(number) >= 5, "{number:?}: {}", with(number));
    }
    for index in 0..5 {
        for blank in [b' ', b'\t'] {
            let start = |text: &[u8]| lines_of(text)[index].first() == Some(&blank);
            let end = |text: &[u8]| lines_of(text)[index].last() == Some(&blank);
            for is_there in [&start as &dyn Fn(&[u8]) -> bool, &end] {
                occurs(&format!("{blank} at an end of line {index}"), |load| {
                    load.answer.is_ok() && lines_of(&load.text).len() == 5 && is_there(&load.text)
                });
            }
        }
    }
    occurs("a line of more than 10,000 bytes", |load| {
        load.answer.is_ok() && lines_of(&load.text).iter().any(|l| l.len() > 10_000)
    });
    // The first byte of the line is a blank.
    for number in [41, 42] {
        occurs("a refused line that begins with a blank", |load| {
            let refused = load.refused().filter(|(found, _)| *found == number);
            refused.is_some_and(|(_, place)| {
                let rest = &load.text[place..];
                !trimmed(lines_of(rest).first().unwrap_or(&&b""[..])).is_empty()
                    && matches!(rest[0], b' ' | 9)
            })
        });
    }
}

fn lines_of(text: &[u8]) -> Vec<&[u8]> {
    let text = text.strip_suffix(b"\n").unwrap_or(text);
    text.split(|byte| *byte == 10).collect()
}

/// The stored texts that are whole rows, with their axes and losses.
fn listed() -> impl Iterator<Item = (&'static Load, [Vec<u64>; 3])> {
    LOADS.iter().filter_map(|load| {
        let rows = load.rows().filter(|rows| !rows.is_empty())?;
        Some((load, axes_and_losses(&rows)))
    })
}

fn listed_so(what: &str, holds: impl Fn(&Load, &[Vec<u64>; 3]) -> bool) {
    assert!(listed().any(|(load, all)| holds(load, &all)), "{what}");
}

#[test]
fn counts_are_at_their_limits_and_past_them() {
    for (axis, right, wrong) in [
        (0, [2, 31, 32], [1, 33, 34, 258]),
        (1, [2, 63, 64], [1, 65, 66, 258]),
    ] {
        for count in right {
            listed_so(&format!("axis {axis}, {count}"), |load, all| {
                load.answer.is_ok() && all[axis].len() == count
            });
        }
        for count in wrong {
            listed_so(&format!("axis {axis}, {count}"), |load, all| {
                let at_end = load.refused() == Some((42, load.text.len()));
                at_end && all[axis].len() == count && all[1 - axis].len() == 2
            });
        }
    }
    // Too many torques, and a later line that is wrong.
    for number in [41, 42] {
        occurs("65 torques and a wrong line", |load| {
            let many = load.text.windows(4).any(|bytes| bytes == b",64,");
            many && load.refused().is_some_and(|(found, place)| {
                found == number && place > 1_000 && place < load.text.len()
            })
        });
    }
    expect(b"speed,torque,loss\n", Some((42, 18)));
}

#[test]
fn runs_are_short_and_broken() {
    let rows = |load: &Load| load.rows().map_or(0, |rows| rows.len());
    for count in 1..=9 {
        // Three torques: the last run is short, but for one run alone and for whole ones.
        occurs(&format!("{count} rows"), |load| {
            let at_end = load.refused() == Some((42, load.text.len()));
            let is_due = if matches!(count, 6 | 9) {
                load.answer.is_ok()
            } else {
                at_end
            };
            is_due && rows(load) == count && load.text.ends_with(last_row(count).as_bytes())
        });
    }
    let mut broken_at: BTreeMap<usize, [bool; 2]> = BTreeMap::new();
    for (load, _) in listed() {
        let Some((42, place)) = load.refused() else {
            continue;
        };
        let rows = load.rows().unwrap();
        let index = load.text[..place]
            .iter()
            .filter(|byte| **byte == 10)
            .count();
        if place < load.text.len() && rows[0][0] == 10 {
            let row = rows[index - 1];
            let of_torque = ![5, 10, 20].contains(&row[1]);
            let of_speed = ![10, 20, 30].contains(&row[0]);
            let found = broken_at.entry(index - 1).or_default();
            *found = [found[0] || of_torque, found[1] || of_speed];
        }
    }
    // Each row behind the first run has another torque; only those that begin no run can have another speed.
    let of_torque: Vec<usize> = places(&broken_at, 0);
    let of_speed: Vec<usize> = places(&broken_at, 1);
    assert!(
        (3..9).all(|place| of_torque.contains(&place)),
        "{of_torque:?}"
    );
    for place in [4, 5, 7, 8] {
        assert!(of_speed.contains(&place), "{of_speed:?}");
    }
}

fn places(found: &BTreeMap<usize, [bool; 2]>, kind: usize) -> Vec<usize> {
    let found = found.iter().filter(|(_, kinds)| kinds[kind]);
    found.map(|(place, _)| *place).collect()
}

/// The last of the first rows with speeds 10, 20, 30 and torques 5, 10, 20.
fn last_row(count: usize) -> String {
    let index = count - 1;
    let (speed, torque) = ([10, 20, 30][index / 3], [5, 10, 20][index % 3]);
    let loss = 111 * count;
    format!("{speed},{torque},{}.{:02}\n", loss / 100, loss % 100)
}

#[test]
fn equal_speeds_one_after_another_are_left_to_5() {
    listed_so("runs of one speed behind the first", |load, _| {
        let rows = load.rows().unwrap();
        let speeds: Vec<u64> = rows.iter().map(|row| row[0]).collect();
        load.refused_with(5)
            && matches!(speeds[..], [_, _, a, b, c, d] if a == b && c == d && a == c)
    });
    listed_so("equal runs at the beginning", |load, _| {
        let rows = load.rows().unwrap();
        let at_end = load.refused() == Some((42, load.text.len()));
        at_end && rows.len() == 9 && rows[..3] == rows[3..6] && rows[0][0] == rows[8][0]
    });
}

#[test]
fn numbers_are_at_their_limits_and_past_them() {
    let accepted = |axis: usize, number: u64| {
        listed_so(&format!("{number} on axis {axis}"), |load, all| {
            load.answer.is_ok() && all[axis].contains(&number)
        });
    };
    let refused = |axis: usize, number: u64, refusal: u8| {
        listed_so(&format!("{number} on axis {axis}"), |load, all| {
            load.refused_with(refusal) && all[axis].contains(&number)
        });
    };
    for (axis, right, wrong, refusal) in [
        (0, [1, 3_000], [0, 3_001, 65_536, 999_999_999], 4),
        (1, [0, 50_000], [50_001, 65_535, 65_536, 999_999_999], 4),
        (
            2,
            [0, LARGEST_LOSS],
            [LARGEST_LOSS + 1, 1 << 24, 1 << 32, 99_999_999_999],
            10,
        ),
    ] {
        for number in right {
            accepted(axis, number);
        }
        for number in wrong {
            refused(axis, number, refusal);
        }
    }
    let [first_step, above] = [0, 1].map(|above| {
        let found = listed().filter(|(load, [_, torques, _])| {
            let is_at = torques.len() > 1 && 2 * torques[0] == torques[1] + above;
            let is_due = match above {
                0 => load.answer.is_ok(),
                _ => load.refused_with(6),
            };
            is_at && torques[0] > 0 && is_due
        });
        found.count()
    });
    assert!(first_step >= 5 && above >= 5, "{first_step}, {above}");
    for axis in [0, 1] {
        let (mut equal, mut below) = (false, false);
        for (load, _) in listed().filter(|(load, _)| load.refused_with(5)) {
            let rows = load.rows().unwrap();
            let length = rows.iter().take_while(|row| row[0] == rows[0][0]).count();
            let step = if axis == 0 { length } else { 1 };
            let pairs = rows[..if axis == 0 { rows.len() } else { length }].windows(step + 1);
            for pair in pairs.step_by(step) {
                equal |= pair[0][axis] == pair[step][axis];
                below |= pair[0][axis] > pair[step][axis];
            }
        }
        assert!(equal && below, "axis {axis}");
    }
}

#[test]
fn entries_are_lent_about_the_count() {
    for (lent, accepted) in [(-1, false), (0, true), (1, true)] {
        let found = LOADS.iter().filter(|load| {
            let needed = match &load.answer {
                Ok(map) => map.entries.len(),
                Err(refusal) if refusal.number == 11 => refusal.place,
                Err(_) => return false,
            };
            needed.checked_add_signed(lent) == Some(load.entries) && load.answer.is_ok() == accepted
        });
        let count = found.count();
        assert!(count >= 5, "{lent}: {count}");
    }
    occurs("11 without lent entries", |load| {
        load.refused_with(11) && load.entries == 0
    });
}

#[test]
fn the_largest_texts() {
    let is_largest = |load: &Load| load.answer.as_ref().is_ok_and(|m| m.entries.len() == 2_048);
    occurs("65,536 bytes", |load| {
        is_largest(load) && load.text.len() == 65_536
    });
    occurs("just enough entries", |load| {
        is_largest(load) && load.entries == 2_048 && load.text.len() > 40_000
    });
    occurs("an entry too few", |load| {
        load.refused() == Some((11, 2_048)) && load.entries == 2_047
    });
    occurs("another torque in the last row", |load| {
        load.refused_with(42) && lines_of(&load.text).len() == 2_049
    });
    occurs("a loss above in the last row", |load| {
        load.refused_with(10) && lines_of(&load.text).len() == 2_049
    });
    assert!(LOADS.iter().all(|load| load.text.len() <= 65_536));
}

#[test]
fn every_printed_listing_loads_back_and_every_loaded_map_is_listed_again() {
    let mut seen = Seen::default();
    let (mut printed, mut accepted) = (0, 0);
    for case in stored_cases() {
        let text = String::from_utf8(reply(&case, &mut seen)).unwrap();
        let is_printed = text.contains("speed,torque,loss\n") && case.letter() != 'p';
        let back = text.contains("\ntext kept\nloads back\n");
        assert_eq!(back, is_printed, "{text}");
        printed += u64::from(is_printed);
        if case.letter() == 'l' {
            let lines: Vec<&str> = text.lines().collect();
            match lines[..] {
                [answer, "entries kept"] => assert!(answer.starts_with("refused "), "{text}"),
                [answer, "entries kept", "listed again"] => {
                    assert!(answer.starts_with("loaded speeds "), "{text}");
                    accepted += 1;
                }
                _ => panic!("{text}"),
            }
        }
    }
    assert!(printed >= 1_000 && accepted >= 60, "{printed}, {accepted}");
    let counts: BTreeMap<String, u64> = seen.loads.counts().into_iter().collect();
    assert_eq!(counts["listings loaded back"], printed);
}

#[test]
fn the_tally_counts_what_was_loaded() {
    let mut seen = Seen::default();
    let asked: [(&[u8], usize); 7] = [
        (EXAMPLE, 4),
        (EXAMPLE, 4),
        (EXAMPLE, 3),
        (&EXAMPLE[..75], 4),
        (&EXAMPLE[..60], 4),
        (b"", 4),
        (b" speed,torque,loss\n9,7,0.00\n9,8,0.00\n8,8,0.00\n", 4),
    ];
    let lines = asked.map(|(text, entries)| {
        let case = Case::Load {
            text: text.to_vec(),
            entries,
        };
        String::from_utf8(reply(&case, &mut seen)).unwrap()
    });
    let loaded = "loaded speeds 100 200 torques 0 1000 entries 13000 15041 13000 15041\n\
        entries kept\nlisted again\n";
    let refused = |refusal: &str| format!("refused {refusal}\nentries kept\n");
    let expected = [
        loaded.to_string(),
        loaded.to_string(),
        refused("11 at 4"),
        refused("41 at 60"),
        refused("42 at 60"),
        refused("40 at 0"),
        refused("42 at 37"),
    ];
    assert_eq!(lines, expected);
    // The same text and count are counted once.
    let tally = &seen.loads;
    assert_eq!((tally.accepted(), seen.cases[&'l']), (1, 7));
    let refused = LOAD_REFUSALS.map(|number| tally.refused_with(number));
    assert_eq!(refused, [1, 1, 2, 0, 0, 0, 0, 1]);
    assert_eq!((tally.refused_at_end(), tally.place_count(42)), (1, 2));
    // The refusals of data and of lent maps are counted without these.
    assert!(seen.refusals.is_empty());
    let text = seen.to_string();
    for line in [
        "texts loaded: 7\n",
        "different inputs loaded: 1, with another listing: 0\n",
        "refusal 42 of a load: 2 different inputs at 2 places\n",
        "refusal 5 of a load: 0 different inputs at 0 places\n",
        "of these 42 at the text's length: 1\n",
        "printed listings loaded: 0, of these to another map: 0\n",
    ] {
        assert!(text.contains(line), "{line}{text}");
    }
    assert_eq!(broken(&seen), 0);
    seen.loads.listed_otherwise += 1;
    seen.loads.add_back(false);
    assert_eq!(broken(&seen), 2);
}

#[test]
fn bytes_of_a_case() {
    let case = Case::Load {
        text: b"speed\n".to_vec(),
        entries: 0x0102,
    };
    // No room, 6 bytes of body, no questions.
    let mut expected = b"l\x01\x02".to_vec();
    expected.extend([0, 0, 0, 0, 0, 0, 0, 6, 0]);
    expected.extend(b"speed\n");
    assert_eq!(case.bytes(), expected);
}
