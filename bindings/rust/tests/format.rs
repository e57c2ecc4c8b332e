//! docs/FORMAT.md held to the library: the dumps, the fields of each kind, each limit of its tables and of its words and one beyond it, the axle lines, the text of numbers, the form of a listing, the drag of a retarder, and each refusal as the page tries it.

#[path = "format/drags.rs"]
mod drags;
#[path = "format/dumps.rs"]
mod dumps;
#[path = "format/listings.rs"]
mod listings;
mod parsed;
#[path = "format/words.rs"]
mod words;
#[path = "format/written.rs"]
mod written;

use axle::{build, loss, Refusal};
use parsed::numbers_of;
use std::path::PathBuf;

fn at_root(name: &str) -> PathBuf {
    PathBuf::from(env!("CARGO_MANIFEST_DIR"))
        .join("../..")
        .join(name)
}

fn page() -> String {
    std::fs::read_to_string(at_root("docs/FORMAT.md")).expect("the page is there")
}

fn example_named(name: &str) -> Vec<u8> {
    std::fs::read(at_root("examples").join(name)).expect("the example is there")
}

/// Data of kind 2.
fn measured() -> Vec<u8> {
    example_named("measured.axle")
}

/// Data of kind 3.
fn half_shafts() -> Vec<u8> {
    example_named("half-shafts.axle")
}

/// The rows of the table whose first column has this head, each as its cells.
fn table(page: &str, first_column: &str, second_column: &str) -> Vec<Vec<String>> {
    let head = format!("| {first_column} | {second_column} |");
    let rows: Vec<Vec<String>> = page
        .lines()
        .skip_while(|line| !line.starts_with(&head))
        .skip(2)
        .take_while(|line| line.starts_with('|'))
        .map(|line| {
            let cells = line.trim_matches('|').split('|');
            cells.map(|cell| cell.trim().to_string()).collect()
        })
        .collect();
    assert!(!rows.is_empty(), "the page has a table `{head}`");
    rows
}

/// The lines of the page's block with this mark.
fn block<'a>(page: &'a str, mark: &str) -> Vec<&'a str> {
    let fence = format!("```{mark}");
    let lines = page.lines().skip_while(|line| *line != fence).skip(1);
    lines.take_while(|line| *line != "```").collect()
}

fn number(text: &str) -> usize {
    text.parse().unwrap_or_else(|_| panic!("a number: {text}"))
}

/// `4 to 64`, or one number for both ends.
fn ends(text: &str) -> (usize, usize) {
    let (lowest, highest) = text.split_once(" to ").unwrap_or((text, text));
    (number(lowest), number(highest))
}

fn bytes_of(digits: &str) -> Vec<u8> {
    let pairs = digits.split_whitespace();
    pairs
        .map(|pair| u8::from_str_radix(pair, 16).expect("two hexadecimal digits"))
        .collect()
}

/// An offset and the bytes from there on.
fn bytes_at(text: &str) -> (usize, Vec<u8>) {
    let (offset, digits) = text.split_once(": ").expect("an offset and bytes");
    (number(offset.trim()), bytes_of(digits))
}

fn refusal_of(data: &[u8]) -> Option<Refusal> {
    build(data, &mut [0; 2_048]).err()
}

fn refused(number: u32, place: usize) -> Option<Refusal> {
    Some(Refusal {
        number,
        place,
        index: None,
    })
}

/// `2 at 4`, or with which number of its field it was: `32 at 46, number 8`.
fn told(text: &str) -> Option<Refusal> {
    let (place, index) = match text.split_once(", number ") {
        Some((text, index)) => (text, Some(number(index))),
        None => (text, None),
    };
    let (told, place) = place.split_once(" at ").expect("a number and a place");
    Some(Refusal {
        number: number(told) as u32,
        place: number(place),
        index,
    })
}

/// A field's tag, the offset of its head, and its body.
struct Field {
    tag: u8,
    head: usize,
    body: Vec<u8>,
}

fn fields(data: &[u8]) -> Vec<Field> {
    let mut fields = Vec::new();
    let mut head = 0;
    while head < data.len() {
        let length = usize::from(data[head + 1]) * 256 + usize::from(data[head + 2]);
        let body = data[head + 3..][..length].to_vec();
        fields.push(Field {
            tag: data[head],
            head,
            body,
        });
        head += 3 + length;
    }
    fields
}

fn tags(data: &[u8]) -> Vec<u8> {
    fields(data).iter().map(|field| field.tag).collect()
}

/// The fields of an example, each with the body that it is given.
fn laid_out(example: &[u8], body_of: impl Fn(Field) -> Vec<u8>) -> Vec<u8> {
    let mut data = Vec::new();
    for field in fields(example) {
        data.push(field.tag);
        let body = body_of(field);
        data.extend((body.len() as u16).to_be_bytes());
        data.extend(body);
    }
    data
}

/// An example with another body for one field.
fn with_body(example: &[u8], tag: u8, body: &[u8]) -> Vec<u8> {
    laid_out(example, |field| {
        if field.tag == tag {
            body.to_vec()
        } else {
            field.body
        }
    })
}

/// The field of an example with this tag, where its kind has one.
fn field_of(example: &[u8], tag: u8) -> Option<Field> {
    let mut fields = fields(example).into_iter();
    fields.find(|field| field.tag == tag)
}

/// The fields with this tag, each in an example that has one: of kind 2, of kind 3, or of both.
fn in_examples(tag: u8) -> Vec<(Vec<u8>, Field)> {
    let examples = [measured(), half_shafts()].into_iter();
    let found: Vec<(Vec<u8>, Field)> = examples
        .filter_map(|example| field_of(&example, tag).map(|field| (example, field)))
        .collect();
    assert!(!found.is_empty(), "tag {tag}: no example");
    found
}

/// The refusal of the number at an index of a field: a ratio and the sensors have their own.
fn out_of_range(tag: u8, place: usize, index: usize) -> Option<Refusal> {
    let (number, index) = match tag {
        3 => (31, Some(index)),
        6 | 7 | 9 => (32, Some(index)),
        _ => (4, None),
    };
    Some(Refusal {
        number,
        place,
        index,
    })
}

/// The limits of the number at an index of a field: both are in its range, and one beyond each is not.
fn hold_range(tag: u8, index: usize, width: usize, lowest: usize, highest: usize) {
    for (example, field) in in_examples(tag) {
        let place = field.head + 3 + index * width;
        let answer = |value: usize| {
            let mut body = field.body.clone();
            body[index * width..][..width].copy_from_slice(&value.to_be_bytes()[8 - width..]);
            refusal_of(&with_body(&example, tag, &body))
        };
        let outside = out_of_range(tag, place, index);
        for inside in [lowest, highest] {
            let refused_there = answer(inside).filter(|refusal| refusal.place == place);
            assert_eq!(refused_there, None, "tag {tag}: {inside}");
        }
        assert_eq!(answer(highest + 1), outside, "tag {tag}");
        if lowest > 0 {
            assert_eq!(answer(lowest - 1), outside, "tag {tag}");
        }
    }
}

/// A body of this length is refused with 3 at the head, or is not.
fn hold_length(tag: u8, length: usize, is_refused: bool) {
    let rising = |i: usize| if i % 2 == 0 { 0 } else { (i / 2 + 1) as u8 };
    let body: Vec<u8> = (0..length).map(rising).collect();
    for (example, field) in in_examples(tag) {
        let answer = refusal_of(&with_body(&example, tag, &body));
        let refused = answer == refused(3, field.head);
        assert_eq!(refused, is_refused, "tag {tag}: {length}");
    }
}

fn rows_of_fields() -> Vec<(u8, Vec<String>)> {
    let rows = table(&page(), "tag", "field");
    rows.into_iter()
        .map(|row| (number(&row[0]) as u8, row))
        .collect()
}

/// The axle lines as the row of tag 2 lists them.
fn line_names() -> Vec<String> {
    let row = &rows_of_fields()[1].1;
    let (_, names) = row[1].split_once(": ").expect("a list of names");
    names.split(", ").map(str::to_string).collect()
}

/// The kinds of the page, from the first on: their names, and the tags of their fields.
fn kinds() -> Vec<(String, Vec<u8>)> {
    let rows = table(&page(), "kind", "name").into_iter().enumerate();
    rows.map(|(index, row)| {
        assert_eq!(number(&row[0]), index + 1);
        let runs = row[2].split(", ").map(ends);
        let tags = runs.flat_map(|(first, last)| first as u8..=last as u8);
        (row[1].clone(), tags.collect())
    })
    .collect()
}

#[test]
fn each_kind_has_the_fields_of_the_table() {
    let examples = [example_named("standard.axle"), measured(), half_shafts()];
    let kinds = kinds();
    assert_eq!(kinds.len(), examples.len());
    for (index, (example, (name, fields))) in examples.iter().zip(kinds).enumerate() {
        assert_eq!(usize::from(example[3]), index + 1, "the example's kind");
        assert_eq!(refusal_of(example), None, "{name}");
        assert_eq!(tags(example), fields, "{name}");
    }
    let no_kind = examples.len() as u8 + 1;
    assert_eq!(refusal_of(&[1, 0, 1, no_kind]), refused(4, 3));
}

#[test]
fn the_table_has_every_field_once() {
    let tags: Vec<u8> = rows_of_fields().iter().map(|(tag, _)| *tag).collect();
    let mut of_kinds: Vec<u8> = kinds().into_iter().flat_map(|(_, tags)| tags).collect();
    of_kinds.sort_unstable();
    of_kinds.dedup();
    assert_eq!(tags, of_kinds);
}

/// The rows of readings: their length is said for each point.
fn is_for_each_point(row: &[String]) -> bool {
    row[2].ends_with(" for each point")
}

#[test]
fn lengths_are_those_of_the_table() {
    let rows = rows_of_fields().into_iter();
    let mut count = 0;
    for (tag, row) in rows.filter(|(_, row)| !is_for_each_point(row)) {
        let (shortest, longest) = ends(&row[2]);
        let (counts, width) = row[3].split_once(" of ").expect("so many of a width");
        let (fewest, most) = ends(counts);
        let width = number(width.split(' ').next().expect("a width"));
        assert_eq!((shortest, longest), (fewest * width, most * width));
        for length in [shortest, longest] {
            hold_length(tag, length, false);
        }
        for length in [shortest - 1, longest + 1, longest + width, 0] {
            hold_length(tag, length, true);
        }
        if fewest < most {
            // An odd length, and one number too few.
            hold_length(tag, shortest + 1, true);
            hold_length(tag, shortest - width, true);
        }
        count += 1;
    }
    assert_eq!(count, 8);
}

#[test]
fn rows_have_their_length_for_each_point() {
    let rows = rows_of_fields().into_iter();
    let mut found = Vec::new();
    for (tag, row) in rows.filter(|(_, row)| is_for_each_point(row)) {
        let width = number(row[2].trim_end_matches(" for each point"));
        let numbers = row[3].strip_suffix(" of 4 bytes for each point");
        assert_eq!(4 * number(numbers.expect("torques of 4 bytes")), width);
        assert_eq!(row[4..], ["", ""], "the limits of a row are said in words");
        // Both examples have four points. 32 and 48 are the lengths of the two kinds.
        let all = 4 * width;
        for length in [0, all - width, all - 1, all + 1, all + width, 32, 48] {
            hold_length(tag, length, length != all);
        }
        found.push((tag, width));
    }
    assert_eq!(found, [(8, 8), (10, 12)]);
}

#[test]
fn ranges_are_those_of_the_tables() {
    for (tag, row) in &rows_of_fields()[..5] {
        let width = if *tag < 3 { 1 } else { 2 };
        hold_range(*tag, 0, width, number(&row[4]), number(&row[5]));
    }
    let numbers = table(&page(), "number", "letter in document 01");
    assert_eq!(numbers.len(), 9);
    for (index, row) in numbers.iter().enumerate() {
        assert_eq!(number(&row[0]), index);
        for tag in [6, 7, 9] {
            hold_range(tag, index, 2, number(&row[5]), number(&row[6]));
        }
    }
}

/// `22 + 2m + 2n` for so many speeds and torques.
fn offset(text: &str, speeds: usize, torques: usize) -> usize {
    let terms = text.split(" + ").map(|term| match term {
        "2m" => 2 * speeds,
        "2n" => 2 * torques,
        _ => number(term),
    });
    terms.sum()
}

#[test]
fn fields_stand_where_the_table_says() {
    let rows = table(&page(), "tag", "head");
    for (index, row) in rows.iter().enumerate() {
        assert_eq!(number(&row[0]), index + 1);
    }
    assert_eq!(rows.len(), rows_of_fields().len());
    let examples = [
        measured(),
        example_named("bench-run.axle"),
        half_shafts(),
        data_over(&half_shafts(), 5, 7),
    ];
    for example in examples {
        let fields = fields(&example);
        let (speeds, torques) = (fields[3].body.len() / 2, fields[4].body.len() / 2);
        for field in fields {
            let row = &rows[usize::from(field.tag) - 1];
            assert_eq!(offset(&row[1], speeds, torques), field.head, "{row:?}");
            assert_eq!(offset(&row[2], speeds, torques), field.head + 3, "{row:?}");
        }
    }
}

/// What the page says of a place within the rows, at each torque of each row.
#[test]
fn a_place_leads_to_its_torque() {
    let (speeds, torques) = (5, 7);
    let words = "(8 of kind 2, 12 of kind 3)";
    assert!(page().contains(words), "the page says how long a row is");
    for (example, tag, width) in [(measured(), 8, 8), (half_shafts(), 10, 12)] {
        let data = data_over(&example, speeds, torques);
        let body = field_of(&data, tag).expect("readings").head + 3;
        for place in (body..data.len()).step_by(4) {
            let mut data = data.clone();
            data[place..place + 4].copy_from_slice(&[255; 4]);
            assert_eq!(refusal_of(&data), refused(7, place));
        }
        // Torque 3 of speed 2 is 4 Nm, and its row has 4.00 Nm at the input and as much in all at the output.
        let row = body + width * (2 * usize::from(torques) + 3);
        let torque =
            |at: usize| u32::from_be_bytes([data[at], data[at + 1], data[at + 2], data[at + 3]]);
        let outputs: u32 = (row + 4..row + width).step_by(4).map(torque).sum();
        assert_eq!((torque(row), outputs), (400, 400));
    }
}

/// A speed in tenths of rpm and a torque in hundredths of Nm, from `99.9 rpm, 1000.00 Nm`.
fn point(text: &str) -> (u32, u32) {
    let (speed, torque) = text.split_once(" rpm, ").expect("a speed and a torque");
    let torque = torque.strip_suffix(" Nm").expect("a torque in Nm");
    let digits = |text: &str| number(&text.replace('.', "")) as u32;
    (digits(speed), digits(torque))
}

/// The first bytes of an example, or the example with bytes replaced or put after its end.
fn changed(example: &[u8], tried: &str) -> Vec<u8> {
    let mut data = example.to_vec();
    if let Some(count) = tried.strip_prefix("first ") {
        data.truncate(number(count.trim_end_matches(" bytes")));
        return data;
    }
    for change in tried.split(", ") {
        let (offset, bytes) = bytes_at(change);
        data.resize(data.len().max(offset + bytes.len()), 0);
        data[offset..][..bytes.len()].copy_from_slice(&bytes);
    }
    data
}

/// What the library refuses, tried as the page says.
fn tried_refusal(example: &[u8], tried: &str) -> Option<Refusal> {
    let mut entries = [0; 2_048];
    if let Some(lent) = tried.strip_suffix(" entries lent") {
        return build(example, &mut entries[..number(lent)]).err();
    }
    if let Some(lent) = tried.strip_prefix("numbers written to ") {
        let mut file = vec![0; number(lent.trim_end_matches(" bytes"))];
        return numbers_of(example).write_to(&mut file).err();
    }
    let asked = match tried.strip_prefix("asked ") {
        Some(asked) => asked,
        None => return refusal_of(&changed(example, tried)),
    };
    let grid = build(example, &mut entries).expect("the example is accepted");
    if let Some(asked) = asked.strip_prefix("at ") {
        let (speed, torque) = point(asked);
        return loss(&grid, &entries, speed, torque).err();
    }
    let lent = asked
        .trim_start_matches("with ")
        .trim_end_matches(" entries");
    loss(&grid, &entries[..number(lent)], 1_000, 100_000).err()
}

/// Tries the refusals of a table. The numbers of the table, each once.
fn hold_refusals(second_column: &str, refusal: impl Fn(&str) -> Option<Refusal>) -> Vec<usize> {
    let rows = table(&page(), "number", second_column);
    for row in &rows {
        assert!(row[4].starts_with(&format!("{} at ", row[0])));
        assert_eq!(refusal(&row[3]), told(&row[4]), "{}", row[3]);
    }
    let mut numbers: Vec<usize> = rows.iter().map(|row| number(&row[0])).collect();
    numbers.dedup();
    numbers
}

#[test]
fn refusals_are_those_of_the_table() {
    let all: Vec<usize> = (1..=12).chain(20..=22).chain(30..=32).collect();
    let numbers = hold_refusals("when", |tried| tried_refusal(&measured(), tried));
    assert_eq!(numbers, all);
}

#[test]
fn refusals_of_kind_3_are_those_of_the_table() {
    let numbers = hold_refusals("of kind 3", |tried| tried_refusal(&half_shafts(), tried));
    assert_eq!(numbers, [1, 2, 3, 4, 7, 8, 9, 10, 12, 32]);
}

/// An example over a grid of so many speeds and torques, with the same torque at the input and at the output of a row; of kind 3 a quarter of it is at the right.
fn data_over(example: &[u8], speeds: u16, torques: u16) -> Vec<u8> {
    let numbers = |count: u16| (1..=count).flat_map(u16::to_be_bytes).collect();
    let rows = |row: fn(u32) -> Vec<u32>| {
        let of_a_speed = (1..=u32::from(torques)).flat_map(row);
        let bytes: Vec<u8> = of_a_speed.flat_map(u32::to_be_bytes).collect();
        bytes.repeat(usize::from(speeds))
    };
    laid_out(example, |field| match field.tag {
        4 => numbers(speeds),
        5 => numbers(torques),
        8 => rows(|torque| vec![100 * torque; 2]),
        10 => rows(|torque| vec![100 * torque, 75 * torque, 25 * torque]),
        _ => field.body,
    })
}

#[test]
fn the_longest_file_has_the_length_that_the_page_says() {
    let page = page();
    let (_, told) = page.split_once("longer than ").expect("the page says it");
    let told = number(told.split(' ').next().expect("a number"));
    let most = |row: usize| {
        let counts = rows_of_fields()[row].1[3].clone();
        ends(counts.split(" of ").next().expect("how many numbers")).1 as u16
    };
    let lengths = [measured(), half_shafts()].map(|example| {
        let data = data_over(&example, most(3), most(4));
        assert_eq!(refusal_of(&data), None);
        data.len()
    });
    assert_eq!(lengths, [16_640, told]);
}
