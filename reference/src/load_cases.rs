//! Cases of request C-16: texts that are loaded. A listing cut and changed at each byte; headers and rows in every wrong form; blanks; counts; broken runs; numbers at their limits and past them; entries lent; faults in pairs; the largest texts; and cases by chance.

use crate::cases::{Case, MOST_ENTRIES, MOST_TEXT};
use crate::lent_maps::valid_map;
use crate::load_faults::{
    change_lines, change_rows, change_text, put_blanks, replace, Fault, FAULTS, LARGEST_LOSS,
    LOSSES_ABOVE,
};
use crate::load_pairs::with_two_faults;
use crate::load_texts::{
    axes_and_losses, line, lines, rows_of, text, wrong_forms, wrong_headers, Line, Row,
};
use crate::random::Source;
use crate::valid;

/// Changes the seed: the draws for these cases are none of those for others.
const SEQUENCE: u64 = 0xE703_7ED1_A0B4_28DB;

/// The random numbers for one case.
fn source_of(seed: u64, number: u64) -> Source {
    Source::new(seed ^ SEQUENCE, number)
}

fn lent(text: Vec<u8>, entries: usize) -> Case {
    assert!(text.len() <= MOST_TEXT, "{} bytes", text.len());
    Case::Load { text, entries }
}

/// A text with as many entries as the largest map needs.
fn case(text: Vec<u8>) -> Case {
    lent(text, MOST_ENTRIES)
}

fn of_rows(rows: &[Row]) -> Case {
    case(text(&lines(rows)))
}

/// A case by chance; the number and the seed decide it. Large maps occur only where they are wanted.
pub fn by_chance(seed: u64, number: u64, large_maps: bool) -> Case {
    let source = &mut source_of(seed, number);
    let mut rows = if large_maps && source.once_in(60) {
        large_rows(source)
    } else {
        small_rows(source)
    };
    let fault_count = match source.below(8) {
        0 | 1 => 0,
        2..=5 => 1,
        _ => 2,
    };
    let faults: Vec<Fault> = (0..fault_count).map(|_| source.one_of(&FAULTS)).collect();
    for fault in &faults {
        change_rows(source, *fault, &mut rows);
    }
    let mut lines = lines(&rows);
    for fault in &faults {
        change_lines(source, *fault, &rows, &mut lines);
    }
    if source.once_in(3) {
        put_blanks(source, &mut lines);
    }
    let mut text = text(&lines);
    for fault in &faults {
        change_text(source, *fault, &mut text);
    }
    let entries = chance_entries(source, rows.len(), faults.contains(&Fault::Entries));
    lent(text, entries)
}

/// The rows of a map by chance, over the whole ranges.
fn small_rows(source: &mut Source) -> Vec<Row> {
    let map = valid_map(source);
    let wide = |numbers: &[u16]| -> Vec<u64> { numbers.iter().copied().map(u64::from).collect() };
    let entries: Vec<u64> = map.entries.iter().copied().map(u64::from).collect();
    rows_of(
        &wide(&map.speeds.numbers[..map.speeds.count]),
        &wide(&map.torques.numbers[..map.torques.count]),
        &entries,
    )
}

/// The same of any size up to the largest.
fn large_rows(source: &mut Source) -> Vec<Row> {
    let counts = [32, 64].map(|most| source.with_ends(2, most) as usize);
    let speeds = valid::speeds(source, counts[0]).into_iter().map(u64::from);
    let torques = valid::torques(source, counts[1]).into_iter().map(u64::from);
    let losses = (0..counts[0] * counts[1]).map(|_| source.with_ends(0, LARGEST_LOSS));
    let losses: Vec<u64> = losses.collect();
    rows_of(
        &speeds.collect::<Vec<u64>>(),
        &torques.collect::<Vec<u64>>(),
        &losses,
    )
}

/// Entries lent: too few, or just enough, some more or as many as can be. No case lends more than the largest map needs.
fn chance_entries(source: &mut Source, needed: usize, too_few: bool) -> usize {
    let entries = match source.below(3) {
        0 if too_few => needed.saturating_sub(1),
        1 if too_few => 0,
        _ if too_few => source.index(needed.max(1)),
        0 => needed,
        1 => needed + source.index(8),
        _ => MOST_ENTRIES,
    };
    entries.min(MOST_ENTRIES)
}

/// The cases that do not depend on chance alone.
pub fn systematic(seed: u64) -> Vec<Case> {
    let source = &mut source_of(seed, u64::MAX);
    let mut cases = Vec::new();
    let example = text(&lines(&example()));
    cases.extend((0..=example.len()).map(|length| case(example[..length].to_vec())));
    cases.extend(bytes_changed(&example));
    cases.extend(with_wrong_headers());
    cases.extend(with_wrong_forms());
    cases.extend(with_blanks());
    cases.extend(faults_with_blanks(source));
    cases.extend(with_line_ends());
    cases.extend(with_counts());
    cases.extend(with_short_runs());
    cases.extend(with_broken_runs());
    cases.extend(AXES.into_iter().map(with_axes));
    cases.extend(numbers_outside());
    cases.extend(losses_about_limit());
    cases.extend(entries_lent());
    cases.extend(with_two_faults());
    cases.extend(largest(source));
    cases
}

/// The listing of document 01.
fn example() -> Vec<Row> {
    rows_of(&[100, 200], &[0, 1_000], &[13_000, 15_041])
}

/// Three speeds and three torques; all losses differ.
fn three_by_three() -> Vec<Row> {
    let losses: Vec<u64> = (1..=9).map(|number| 111 * number).collect();
    rows_of(&[10, 20, 30], &[5, 10, 20], &losses)
}

/// Each byte dropped, changed, and with a blank, a tab, a return, a line feed or a zero before it.
fn bytes_changed(text: &[u8]) -> Vec<Case> {
    let mut cases = Vec::new();
    for place in 0..text.len() {
        let (before, byte, behind) = (&text[..place], text[place], &text[place + 1..]);
        for other in [&b""[..], &[byte + 1]] {
            cases.push(case([before, other, behind].concat()));
        }
        for more in [b" ", b"\t", b"\r", b"\n", b"0"] {
            cases.push(case([before, more, &text[place..]].concat()));
        }
    }
    cases
}

fn with_wrong_headers() -> Vec<Case> {
    let mut cases = Vec::new();
    for header in wrong_headers() {
        let mut all = lines(&example());
        all[0] = header.clone();
        cases.push(case(text(&all)));
        cases.push(case(text(&[header])));
    }
    let rows: Vec<Line> = example().into_iter().map(line).collect();
    cases.push(case(text(&rows)));
    let mut doubled = lines(&example());
    doubled.insert(0, doubled[0].clone());
    cases.push(case(text(&doubled)));
    cases
}

/// Each wrong form as the first row, as one inside and as the last.
fn with_wrong_forms() -> Vec<Case> {
    let rows = example();
    let mut cases = Vec::new();
    for place in [0, 2, 3] {
        for form in wrong_forms(rows[place]) {
            let mut all = lines(&rows);
            all[1 + place] = form;
            cases.push(case(text(&all)));
        }
    }
    cases
}

/// Blanks at the ends of one line and of all lines, and so many that a line has more than 10,000 bytes.
fn with_blanks() -> Vec<Case> {
    const BLANKS: [&[u8]; 6] = [b" ", b"\t", b"  ", b" \t", b"\t ", b"\t\t \t  "];
    let mut all = Vec::new();
    let bare = lines(&example());
    for blanks in BLANKS {
        let before = |line: &Line| [blanks, line].concat();
        let behind = |line: &Line| [line, blanks].concat();
        for place in 0..bare.len() {
            for changed in [before(&bare[place]), behind(&bare[place])] {
                let mut lines = bare.clone();
                lines[place] = changed;
                all.push(lines);
            }
        }
        all.push(bare.iter().map(before).collect());
        all.push(bare.iter().map(behind).collect());
        all.push(bare.iter().map(|line| behind(&before(line))).collect());
    }
    let mut wide = bare;
    wide[2] = [vec![b' '; 5_000], wide[2].clone(), vec![b'\t'; 5_003]].concat();
    all.push(wide);
    all.iter().map(|lines| case(text(lines))).collect()
}

/// Blanks about lines of which one is wrong, about a short run, about axes and losses at their limits and past them, and with few entries lent.
fn faults_with_blanks(source: &mut Source) -> Vec<Case> {
    let mut all = Vec::new();
    let bare = lines(&example());
    for place in 1..bare.len() {
        for other in [&b"\t x"[..], b"\t 300,7,0.00"] {
            let mut lines = bare.clone();
            lines[place] = other.to_vec();
            all.push(lines);
        }
    }
    all.push(bare[..bare.len() - 1].to_vec());
    all.extend(AXES.map(|(speeds, torques)| lines(&rows_of(speeds, torques, &[0]))));
    all.extend(LOSSES_ABOVE.map(|loss| lines(&rows_of(&[1, 2], &[0, 1], &[0, loss]))));
    let mut blank_text = |mut lines: Vec<Line>| {
        put_blanks(source, &mut lines);
        text(&lines)
    };
    let few_entries: Vec<Case> = (0..=4)
        .map(|entries| lent(blank_text(bare.clone()), entries))
        .collect();
    let texts = all.into_iter().map(blank_text);
    texts.map(case).chain(few_entries).collect()
}

/// Line feeds that are missing, doubled, or another mark; and rests behind the last.
fn with_line_ends() -> Vec<Case> {
    let bare = lines(&example());
    let mut texts = Vec::new();
    for mark in [
        &b""[..],
        b"\n\n",
        b"\r\n",
        b"\n\r",
        b"\r",
        b"\0",
        b"\n \n",
        b" \n\t",
    ] {
        for place in 0..bare.len() {
            let (before, behind) = (text(&bare[..place]), text(&bare[place + 1..]));
            texts.push([&before, &bare[place], mark, &behind].concat());
        }
        texts.push(bare.iter().flat_map(|line| [line, mark].concat()).collect());
    }
    let rests: [&[u8]; 8] = [
        b"\n",
        b"\n\n",
        b" ",
        b"\t \t",
        b"x",
        b"\0",
        b" \n",
        b"300,0,130.00",
    ];
    texts.extend(rests.map(|rest| [&text(&bare), rest].concat()));
    texts.extend(rests.map(|rest| [&text(&bare[..1]), rest].concat()));
    texts.into_iter().map(case).collect()
}

/// So many torques at two speeds and at one, and so many speeds with two torques and with one; some counts are right in one byte. Behind each a line that is wrong, too.
fn with_counts() -> Vec<Case> {
    let mut cases = Vec::new();
    let first = |count: u64| -> Vec<u64> { (1..=count).collect() };
    for count in [1, 2, 3, 63, 64, 65, 66, 258] {
        let torques: Vec<u64> = (0..count).collect();
        for speeds in [&[1, 2][..], &[1]] {
            cases.push(of_rows(&rows_of(speeds, &torques, &[0])));
        }
    }
    for count in [1, 2, 3, 31, 32, 33, 34, 258] {
        for torques in [&[0, 1][..], &[0]] {
            cases.push(of_rows(&rows_of(&first(count), torques, &[0])));
        }
    }
    for count in [64, 65] {
        let torques: Vec<u64> = (0..count).collect();
        let rows = rows_of(&[1, 2], &torques, &[0]);
        for more in [&b"x\n"[..], b"x", b"2,1,0.00\n"] {
            cases.push(case([&text(&lines(&rows)), more].concat()));
        }
        // The last run is short by a row, or its last torque is another one.
        cases.push(of_rows(&rows[..rows.len() - 1]));
        let mut other = rows.clone();
        other[2 * torques.len() - 1][1] = count - 2;
        cases.push(of_rows(&other));
    }
    cases
}

/// The first rows alone.
fn with_short_runs() -> Vec<Case> {
    let rows = three_by_three();
    let counts = 0..=rows.len();
    counts.map(|count| of_rows(&rows[..count])).collect()
}

/// Each row in turn with each other speed and torque that stands there, with new ones and with such that are the same in two bytes; dropped, doubled, exchanged with each other row. Runs in another order, and equal ones.
fn with_broken_runs() -> Vec<Case> {
    let rows = three_by_three();
    let mut all: Vec<Vec<Row>> = Vec::new();
    let [speeds, torques, _] = axes_and_losses(&rows);
    for place in 0..rows.len() {
        let with = |axis: usize, number: u64| {
            let mut changed = rows.clone();
            changed[place][axis] = number;
            changed
        };
        let [speed, torque, _] = rows[place];
        let other_speeds = speeds.iter().copied().chain([0, 31, 65_536 + speed]);
        let other_torques = torques.iter().copied().chain([0, 21, 65_536 + torque]);
        all.extend(other_speeds.filter(|s| *s != speed).map(|s| with(0, s)));
        all.extend(other_torques.filter(|t| *t != torque).map(|t| with(1, t)));
        let mut dropped = rows.clone();
        dropped.remove(place);
        all.push(dropped);
        let mut doubled = rows.clone();
        doubled.insert(place, rows[place]);
        all.push(doubled);
        for other in place + 1..rows.len() {
            let mut exchanged = rows.clone();
            exchanged.swap(place, other);
            all.push(exchanged);
        }
    }
    for order in [
        [0, 2, 1],
        [1, 0, 2],
        [0, 0, 1],
        [0, 1, 1],
        [0, 1, 0],
        [1, 1, 1],
    ] {
        let run = |index: usize| &rows[3 * index..3 * index + 3];
        all.push(order.map(run).concat());
    }
    all.iter().map(|rows| of_rows(rows)).collect()
}

/// Axes at the limits of their ranges and of their order, beyond them, and with two faults.
const AXES: [(&[u64], &[u64]); 42] = [
    (&[1, 3_000], &[0, 50_000]),
    (&[1, 2], &[0, 1]),
    (&[2_999, 3_000], &[0, 49_999, 50_000]),
    (&[1, 2, 3_000], &[25_000, 50_000]),
    (&[1, 2], &[1, 2]),
    (&[1, 2], &[10, 20]),
    (&[1, 2], &[10, 20, 21]),
    (&[1, 2], &[9, 20]),
    // 6
    (&[1, 2], &[11, 21]),
    (&[1, 2], &[2, 3]),
    (&[1, 2], &[3, 4]),
    (&[1, 2], &[11, 21, 50_000]),
    (&[1, 2], &[25_001, 50_000]),
    (&[1, 2], &[49_999, 50_000]),
    (&[1, 3_000], &[11, 21, 43, 99]),
    // 5
    (&[2, 1], &[0, 1]),
    (&[3_000, 1], &[0, 1]),
    (&[1, 3, 2], &[0, 1]),
    (&[1, 2, 2], &[0, 1]),
    (&[2, 3, 2], &[0, 1]),
    (&[1, 2, 1], &[0, 1]),
    (&[1, 2, 3, 3, 4], &[0, 1]),
    (&[1, 2], &[0, 0]),
    (&[1, 2], &[1, 0]),
    (&[1, 2], &[0, 2, 1]),
    (&[1, 2], &[0, 2, 2]),
    (&[1, 2], &[0, 1, 0]),
    (&[1, 2], &[50_000, 50_000]),
    (&[2, 1], &[1, 0]),
    // 5 before 6
    (&[1, 2], &[5, 5]),
    (&[1, 2], &[20, 10]),
    (&[2, 1], &[11, 21]),
    (&[1, 2, 2], &[11, 21]),
    (&[1, 2], &[11, 21, 21]),
    // 4 before 5 and 6
    (&[0, 1], &[0, 1]),
    (&[5, 4], &[0, 50_001]),
    (&[5, 0], &[0, 1]),
    (&[1, 3_001, 3_001], &[0, 1]),
    (&[1, 2], &[50_001, 50_002]),
    (&[1, 2], &[1, 0, 50_001]),
    (&[0, 1], &[11, 21]),
    (&[2, 1], &[50_001, 0]),
];

fn with_axes((speeds, torques): (&[u64], &[u64])) -> Case {
    of_rows(&rows_of(speeds, torques, &[0, 10_000]))
}

/// Each speed and each torque outside its range, wherever it stands; some are right in two or three bytes.
fn numbers_outside() -> Vec<Case> {
    let rows = three_by_three();
    let mut cases = Vec::new();
    let outside = [&[0, 3_001, 50_000][..], &[50_001, 50_010, 65_535]];
    for (axis, outside) in outside.into_iter().enumerate() {
        for number in &axes_and_losses(&rows)[axis] {
            let in_two_or_three = [65_536, (1 << 16) + number, (1 << 24) + number];
            let others = outside.iter().copied().chain(in_two_or_three);
            for other in others.chain([100_000_000, 999_999_999]) {
                let mut changed = rows.clone();
                replace(&mut changed, axis, *number, other);
                cases.push(of_rows(&changed));
            }
        }
    }
    cases
}

/// At each place of a listing losses up to the largest, and above it.
fn losses_about_limit() -> Vec<Case> {
    const LOSSES: [u64; 8] = [0, 1, 10, 99, 100, 101, LARGEST_LOSS - 1, LARGEST_LOSS];
    let mut cases = Vec::new();
    for place in 0..4 {
        for loss in LOSSES.into_iter().chain(LOSSES_ABOVE) {
            let mut rows = example();
            rows[place][2] = loss;
            cases.push(of_rows(&rows));
        }
    }
    cases.push(of_rows(&rows_of(&[1, 2], &[0, 1], &[LARGEST_LOSS])));
    cases.push(of_rows(&rows_of(&[1, 2], &[0, 1], &[LARGEST_LOSS + 1])));
    cases
}

/// Too few, just enough and more, of maps of several sizes; of others one too few and just enough.
fn entries_lent() -> Vec<Case> {
    let mut cases = Vec::new();
    let text_and_count = |speeds: u64, torques: u64| {
        let speeds: Vec<u64> = (1..=speeds).collect();
        let torques: Vec<u64> = (0..torques).collect();
        let rows = rows_of(&speeds, &torques, &[1, 22, 333]);
        (text(&lines(&rows)), rows.len())
    };
    for (speeds, torques) in [(2, 2), (3, 4), (4, 3), (32, 2), (2, 64)] {
        let (text, needed) = text_and_count(speeds, torques);
        let counts = [
            0,
            1,
            needed / 2,
            needed - 1,
            needed,
            needed + 1,
            MOST_ENTRIES,
        ];
        cases.extend(counts.map(|entries| lent(text.clone(), entries)));
    }
    for speeds in 2..=5 {
        for torques in [5, 7, 9, 11, 13] {
            let (text, needed) = text_and_count(speeds, torques);
            let counts = [needed - 1, needed];
            cases.extend(counts.map(|entries| lent(text.clone(), entries)));
        }
    }
    cases
}

/// The largest map: with long numbers, and with blanks up to the most bytes that are stored; with short ones with a fault at its end, or with an entry too few.
fn largest(source: &mut Source) -> Vec<Case> {
    let speeds: Vec<u64> = (2_969..=3_000).collect();
    let mut torques: Vec<u64> = (0..64).map(|index| 20_000 + 476 * index).collect();
    torques.insert(0, 10_000);
    torques.truncate(64);
    let long = rows_of(&speeds, &torques, &[LARGEST_LOSS, 9_876_543]);
    let mut cases = vec![lent(text(&lines(&long)), 2_048)];
    let mut blank = lines(&long);
    let free = MOST_TEXT - text(&blank).len();
    for _ in 0..free {
        let place = source.index(blank.len());
        let byte = source.one_of(b" \t");
        if source.once_in(2) {
            blank[place].push(byte);
        } else {
            blank[place].insert(0, byte);
        }
    }
    cases.push(lent(text(&blank), 2_049));
    let speeds: Vec<u64> = (1..=32).collect();
    let torques: Vec<u64> = (0..64).collect();
    let short = rows_of(&speeds, &torques, &[0, 123, 4, 56]);
    let last = short.len() - 1;
    let with = |axis: usize, number: u64| {
        let mut rows = short.clone();
        rows[last][axis] = number;
        rows
    };
    cases.push(of_rows(&with(1, 62)));
    cases.push(of_rows(&with(2, LARGEST_LOSS + 1)));
    cases.push(lent(text(&lines(&short)), 2_047));
    cases
}

#[cfg(test)]
pub(crate) mod tests {
    use super::*;
    use crate::loader::load;

    /// The number of the refusal of a text that is loaded.
    pub(crate) fn refused(case: &Case) -> Option<u8> {
        let Case::Load { text, entries } = case else {
            panic!("not a load");
        };
        load(text, *entries).err().map(|refusal| refusal.number)
    }

    #[test]
    fn wrong_headers_and_forms_are_wrong() {
        for case in with_wrong_headers().iter().rev().skip(1) {
            assert_eq!(refused(case), Some(40), "{:?}", case.bytes());
        }
        for case in with_wrong_forms() {
            assert_eq!(refused(&case), Some(41), "{:?}", case.bytes());
        }
    }
}
