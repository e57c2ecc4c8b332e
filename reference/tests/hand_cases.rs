//! cases/cases.txt against cases/answers.txt, which a third program reckoned in exact fractions, with the allowance of request C-13; those of kind 3, of the writer, of that request, of requests C-14 to C-17 and of many questions in one call, the last ones, were reckoned by hand, but for the last one of C-13.

use reference::component;
use reference::listing::report;
use reference::loader::load;
use reference::lookup::{loss, losses, nearest, LentMap};
use reference::map;
use reference::refusal::Refusal;
use reference::reply::{
    component_line, drag_line, loaded_line, losses_lines, steps_line, written_lines,
};
use reference::retarder::drag;
use reference::steps::checked_steps;
use reference::stored::{
    drag_of, load_of, losses_of, question_of, steps_of, write_of, written_by_hand,
};
use reference::writer;

fn refused(refusal: Refusal) -> String {
    refusal.line_with_index() + "\n"
}

fn question_answer(bytes: &[u8]) -> String {
    let (question, data) = question_of(bytes);
    let built = match map::build(data, 2_048) {
        Ok(built) => built,
        Err(refusal) => return refused(refusal),
    };
    let lent = LentMap::of(&built, built.entries.clone());
    let loss = match loss(&lent, question.speed, question.torque) {
        Ok(loss) => format!("loss {loss}\n"),
        Err(refusal) => refused(refusal),
    };
    let nearest = match nearest(&lent, question.speed, question.torque) {
        Ok((speed, torque)) => format!("nearest {speed} {torque}\n"),
        Err(refusal) => refused(refusal),
    };
    loss + &nearest
}

fn write_answer(bytes: &[u8]) -> String {
    let (room, numbers) = write_of(bytes);
    let mut buffer = vec![0; room];
    match writer::write(&numbers, &mut buffer) {
        Ok(length) => written_lines(&buffer[..length]),
        Err(refusal) => refused(refusal),
    }
}

fn steps_answer(bytes: &[u8]) -> String {
    let (sensor, torque) = steps_of(bytes);
    checked_steps(sensor, torque).map_or_else(refused, |steps| steps_line(&steps))
}

fn load_answer(bytes: &[u8]) -> String {
    let (entries, text) = load_of(bytes);
    load(text, entries).map_or_else(refused, |map| loaded_line(&map))
}

fn drag_answer(bytes: &[u8]) -> String {
    drag(&drag_of(bytes)).map_or_else(refused, drag_line)
}

fn losses_answer(bytes: &[u8]) -> String {
    let (room, questions, map) = losses_of(bytes);
    let mut room = vec![0; room];
    let answer = losses(&map, &questions, &mut room);
    losses_lines(answer.map(|count| &room[..count]))
}

fn answer((letter, bytes): (char, Vec<u8>)) -> String {
    match letter {
        'r' => match component::read(&bytes) {
            Ok(component) => component_line(&component),
            Err(refusal) => refused(refusal),
        },
        'm' => String::from_utf8(report(&bytes)).expect("a report is ASCII"),
        'w' => write_answer(&bytes),
        's' => steps_answer(&bytes),
        'l' => load_answer(&bytes),
        'd' => drag_answer(&bytes),
        'a' => losses_answer(&bytes),
        _ => question_answer(&bytes),
    }
}

#[test]
fn answers_are_those_of_the_third_program_and_of_the_hand() {
    let cases = written_by_hand();
    assert_eq!(cases.len(), 178 + 87 + 50 + 11 + 46 + 111 + 236 + 163 + 43);
    let answers: String = cases.into_iter().map(answer).collect();
    assert_eq!(answers, include_str!("../cases/answers.txt"));
}
