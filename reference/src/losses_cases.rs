//! Cases of many questions to one map in one call. Room that is enough, just enough and too little; points outside that are the first, a middle one, the last or several; maps broken in each way; faults in pairs; points in all cells, on grid lines and below the first torque; the largest maps; and cases by chance.

use crate::cases::{Case, MOST_ENTRIES};
use crate::lent_maps::{break_rule, valid_map, BREAKS};
use crate::lookup::{loss, test_axes, LentMap, Question};
use crate::map;
use crate::questions::questions;
use crate::random::Source;
use crate::valid;

/// The most questions of a case.
pub const MOST_QUESTIONS: usize = 255;

/// Room for the most losses of a case.
pub const MOST_ROOM: usize = 256;

/// Changes the seed: the draws for these cases are none of those for others.
const SEQUENCE: u64 = 0xC2B2_AE3D_27D4_EB4F;

/// The random numbers for one case.
fn source_of(seed: u64, number: u64) -> Source {
    Source::new(seed ^ SEQUENCE, number)
}

/// The axes of a map that keeps every rule.
fn axes(map: &LentMap) -> (&[u16], &[u16]) {
    test_axes(map).expect("a map that keeps every rule")
}

/// Numbers in units of the query.
fn in_units(numbers: &[u16], unit: u32) -> Vec<u32> {
    numbers.iter().map(|n| unit * u32::from(*n)).collect()
}

/// A map built of these data, if they are accepted.
fn built_of(data: &[u8]) -> Option<LentMap> {
    let map = map::build(data, MOST_ENTRIES).ok()?;
    let entries = map.entries.clone();
    Some(LentMap::of(&map, entries))
}

/// A map built of valid data, which may be refused with 10.
fn built_map(source: &mut Source) -> LentMap {
    loop {
        if let Some(map) = built_of(&valid::data(source).bytes()) {
            return map;
        }
    }
}

/// A map built of data of kind 3 with so many speeds and torques.
fn measured_map(source: &mut Source, speeds: usize, torques: usize) -> LentMap {
    loop {
        let data = valid::data_of(source, 3, speeds, torques);
        if let Some(map) = built_of(&data.bytes()) {
            return map;
        }
    }
}

/// A built map, or one that is put together of numbers.
fn any_map(source: &mut Source, is_built: bool) -> LentMap {
    if is_built {
        built_map(source)
    } else {
        valid_map(source)
    }
}

/// Such a map with few entries, so that many cases are small in sum.
fn small_map(source: &mut Source, is_built: bool) -> LentMap {
    const FEW_ENTRIES: usize = 12;
    loop {
        let map = any_map(source, is_built);
        if map.entries.len() <= FEW_ENTRIES {
            return map;
        }
    }
}

/// A question that the map answers.
fn answered_question(source: &mut Source, map: &LentMap) -> Question {
    let (speeds, torques) = axes(map);
    loop {
        let question = questions(source, speeds, torques, 1)[0];
        if loss(map, question.speed, question.torque).is_ok() {
            return question;
        }
    }
}

/// Speeds outside the map: the nearest two, the lowest and the highest.
fn speeds_outside(map: &LentMap) -> [u32; 4] {
    let speeds = in_units(axes(map).0, 10);
    [speeds[0] - 1, speeds[speeds.len() - 1] + 1, 0, u32::MAX]
}

/// Torques above those of the map: the nearest and the highest.
fn torques_above(map: &LentMap) -> [u32; 2] {
    let torques = in_units(axes(map).1, 100);
    [torques[torques.len() - 1] + 1, u32::MAX]
}

/// The first, a middle and the last place of so many.
fn places(count: usize) -> Vec<usize> {
    let mut places = vec![0, count / 2, count - 1];
    places.dedup();
    places
}

/// A call that is answered, until a fault is put in.
#[derive(Clone)]
struct Draft {
    map: LentMap,
    room: usize,
    questions: Vec<Question>,
}

impl Draft {
    /// So many questions that are answered, and room for just their losses.
    fn of_map(source: &mut Source, map: &LentMap, count: usize) -> Draft {
        let questions = (0..count).map(|_| answered_question(source, map));
        Draft {
            questions: questions.collect(),
            map: map.clone(),
            room: count,
        }
    }

    /// These questions, and room for just their losses.
    fn of_questions(map: &LentMap, questions: Vec<Question>) -> Draft {
        Draft {
            map: map.clone(),
            room: questions.len(),
            questions,
        }
    }

    fn with_room(&self, room: usize) -> Draft {
        Draft {
            room,
            ..self.clone()
        }
    }

    /// With another speed at a question.
    fn with_speed(&self, index: usize, speed: u32) -> Draft {
        let mut draft = self.clone();
        draft.questions[index].speed = speed;
        draft
    }

    /// With another torque at a question.
    fn with_torque(&self, index: usize, torque: u32) -> Draft {
        let mut draft = self.clone();
        draft.questions[index].torque = torque;
        draft
    }

    /// With a rule of the map broken.
    fn with_broken_rule(&self, source: &mut Source, way: u64) -> Draft {
        let mut draft = self.clone();
        break_rule(source, &mut draft.map, way);
        draft
    }

    fn case(self) -> Case {
        let Draft {
            map,
            room,
            questions,
        } = self;
        Case::Losses {
            map,
            room,
            questions,
        }
    }
}

/// A case by chance; the number and the seed decide it. Large maps and batches occur only where they are wanted.
pub fn by_chance(seed: u64, number: u64, large: bool) -> Case {
    let source = &mut source_of(seed, number);
    let map = chance_map(source, large);
    let count = chance_count(source, large);
    let draft = Draft::of_map(source, &map, count);
    let mut draft = draft.with_room(chance_room(source, count));
    for index in chance_places(source, count) {
        draft = put_outside(source, draft, index);
    }
    if source.once_in(9) {
        let way = source.below(BREAKS);
        draft = draft.with_broken_rule(source, way);
    }
    draft.case()
}

fn chance_map(source: &mut Source, large: bool) -> LentMap {
    if large && source.once_in(50) {
        let data = valid::large_data(source).bytes();
        return built_of(&data).unwrap_or_else(|| valid_map(source));
    }
    let is_built = source.once_in(2);
    any_map(source, is_built)
}

/// How many questions: mostly few.
fn chance_count(source: &mut Source, large: bool) -> usize {
    let count = match source.below(20) {
        0 | 1 => 0,
        2..=16 => source.between(1, 6),
        17 | 18 => source.between(7, 30),
        _ if large => source.with_ends(0, MOST_QUESTIONS as u64),
        _ => source.between(31, 60),
    };
    count as usize
}

/// Room that is exact, the most, any that is enough, one short, none, or any that is too little.
fn chance_room(source: &mut Source, count: usize) -> usize {
    match source.below(20) {
        0..=6 => count,
        7..=11 => MOST_ROOM,
        12..=15 => source.with_ends(count as u64, MOST_ROOM as u64) as usize,
        16 | 17 => count.saturating_sub(1),
        18 => 0,
        _ => source.index(count.max(1)),
    }
}

/// The places of the questions that are to be outside: none, the first, any, the last, or several.
fn chance_places(source: &mut Source, count: usize) -> Vec<usize> {
    if count == 0 {
        return Vec::new();
    }
    match source.below(12) {
        0..=6 => Vec::new(),
        7 => vec![0],
        8 | 9 => vec![source.index(count)],
        10 => vec![count - 1],
        _ => {
            let several = source.between(2, 5);
            (0..several).map(|_| source.index(count)).collect()
        }
    }
}

/// Puts a question outside: of the speeds, of the torques, or of both.
fn put_outside(source: &mut Source, draft: Draft, index: usize) -> Draft {
    let [below, above, ..] = speeds_outside(&draft.map);
    let speed = match source.below(4) {
        0 => below,
        1 => above,
        2 => source.between(0, below.into()) as u32,
        _ => source.with_ends(above.into(), u32::MAX.into()) as u32,
    };
    let [above, _] = torques_above(&draft.map);
    let torque = match source.below(2) {
        0 => above,
        _ => source.with_ends(above.into(), u32::MAX.into()) as u32,
    };
    match source.below(5) {
        0 | 1 => draft.with_speed(index, speed),
        2 | 3 => draft.with_torque(index, torque),
        _ => draft.with_speed(index, speed).with_torque(index, torque),
    }
}

/// The cases that do not depend on chance alone.
pub fn systematic(seed: u64) -> Vec<Case> {
    let source = &mut source_of(seed, u64::MAX);
    let mut all = rooms(source);
    all.extend(points_outside(source));
    all.extend(two_points_outside(source));
    all.extend(short_rooms_with_points_outside(source));
    all.extend(broken_maps(source));
    all.extend(wrong_counts(source));
    all.extend(everywhere(source));
    all.extend(negative_losses(source));
    all.extend(largest(source));
    all.into_iter().map(Draft::case).collect()
}

/// So many points from none to the most, with room for none of them, for all but one, for just them, for one more and for the most.
fn rooms(source: &mut Source) -> Vec<Draft> {
    let mut all = Vec::new();
    for (number, count) in [0, 0, 1, 2, 3, 8, 17].into_iter().enumerate() {
        let map = small_map(source, number % 2 == 0);
        let draft = Draft::of_map(source, &map, count);
        let mut rooms = vec![0, count.saturating_sub(1), count, count + 1, MOST_ROOM];
        rooms.dedup();
        all.extend(rooms.into_iter().map(|room| draft.with_room(room)));
    }
    for count in [128, MOST_QUESTIONS] {
        let map = small_map(source, true);
        let draft = Draft::of_map(source, &map, count);
        all.extend([count - 1, count, MOST_ROOM].map(|room| draft.with_room(room)));
    }
    all
}

/// One point outside among as many as there are, and it is the first, a middle one or the last; and the last of the most.
fn points_outside(source: &mut Source) -> Vec<Draft> {
    let mut all = Vec::new();
    for (number, count) in [1, 2, 3, 5, 9].into_iter().enumerate() {
        let map = small_map(source, number % 2 == 0);
        let draft = Draft::of_map(source, &map, count);
        for index in places(count) {
            let speeds = speeds_outside(&map);
            all.extend(speeds.map(|speed| draft.with_speed(index, speed)));
            let torques = torques_above(&map);
            all.extend(torques.map(|torque| draft.with_torque(index, torque)));
        }
    }
    let map = small_map(source, false);
    let draft = Draft::of_map(source, &map, MOST_QUESTIONS);
    let (last, room) = (MOST_QUESTIONS - 1, MOST_ROOM);
    let draft = draft.with_room(room);
    all.push(draft.with_speed(last, speeds_outside(&map)[1]));
    all.push(draft.with_torque(last, torques_above(&map)[0]));
    all
}

/// Of four points two outside, each for the speed or for the torque; and one for both.
fn two_points_outside(source: &mut Source) -> Vec<Draft> {
    let mut all = Vec::new();
    for is_built in [true, false] {
        let map = small_map(source, is_built);
        let draft = Draft::of_map(source, &map, 4);
        let [below, above, lowest, _] = speeds_outside(&map);
        let [torque, highest] = torques_above(&map);
        for (earlier, later) in [(0, 1), (0, 3), (1, 2), (1, 3), (2, 3)] {
            let speed_outside = draft.with_speed(earlier, above);
            let torque_above = draft.with_torque(earlier, torque);
            for draft in [speed_outside, torque_above] {
                all.extend([below, lowest].map(|speed| draft.with_speed(later, speed)));
                all.extend([torque, highest].map(|torque| draft.with_torque(later, torque)));
            }
        }
        for index in 0..4 {
            for speed in [below, above, lowest] {
                all.push(draft.with_torque(index, torque).with_speed(index, speed));
            }
        }
    }
    all
}

/// Too little room for points of which one is outside: the first, a middle one or the last.
fn short_rooms_with_points_outside(source: &mut Source) -> Vec<Draft> {
    let mut all = Vec::new();
    for (number, count) in [2, 3, 5].into_iter().enumerate() {
        let map = small_map(source, number % 2 == 0);
        let draft = Draft::of_map(source, &map, count);
        let [below, above, ..] = speeds_outside(&map);
        for index in places(count) {
            let speeds = [below, above].map(|speed| draft.with_speed(index, speed));
            let torques = torques_above(&map).map(|torque| draft.with_torque(index, torque));
            let outside = [speeds, torques].concat();
            all.extend(outside.iter().map(|draft| draft.with_room(count - 1)));
            all.extend(outside.iter().map(|draft| draft.with_room(0)));
        }
    }
    all
}

/// Maps broken in each way: with too little room, with a speed and with a torque outside of every map, and without points.
fn broken_maps(source: &mut Source) -> Vec<Draft> {
    let mut all = Vec::new();
    for way in 0..BREAKS {
        for is_built in [true, false] {
            let map = small_map(source, is_built);
            let draft = Draft::of_map(source, &map, 3);
            let index = source.index(3);
            let [.., lowest, highest] = speeds_outside(&map);
            let speed = if is_built { lowest } else { highest };
            let [_, torque] = torques_above(&map);
            let drafts = [
                draft.with_room(2),
                draft.with_speed(index, speed),
                draft.with_torque(index, torque),
                Draft::of_questions(&map, Vec::new()),
            ];
            all.extend(drafts.map(|draft| draft.with_broken_rule(source, way)));
        }
    }
    all
}

/// Too few and too many speeds, and too few and too many torques.
fn wrong_counts(source: &mut Source) -> Vec<Draft> {
    let map = small_map(source, true);
    let draft = Draft::of_map(source, &map, 2);
    let mut all = Vec::new();
    for count in [0, 1, 65] {
        let (mut of_speeds, mut of_torques) = (draft.clone(), draft.clone());
        of_speeds.map.speeds.count = count;
        of_torques.map.torques.count = count;
        all.extend([of_speeds, of_torques]);
    }
    all
}

/// The numbers of an axis in units of the query, and between each two of them those next to both and the middle.
fn stops(axis: &[u16], unit: u32) -> Vec<u32> {
    let numbers = in_units(axis, unit);
    let mut stops = vec![numbers[0]];
    for pair in numbers.windows(2) {
        let (lower, upper) = (pair[0], pair[1]);
        stops.extend([lower + 1, (lower + upper) / 2, upper - 1, upper]);
    }
    stops
}

/// All choices of one of these speeds and one of these torques.
fn points(speeds: &[u32], torques: &[u32]) -> Vec<Question> {
    let at = |speed: &u32| {
        let speed = *speed;
        torques.iter().map(move |torque| Question {
            speed,
            torque: *torque,
        })
    };
    speeds.iter().flat_map(at).collect()
}

/// The same from both ends in turn.
fn from_both_ends(questions: &[Question]) -> Vec<Question> {
    let pairs = questions.iter().zip(questions.iter().rev());
    let both = pairs.flat_map(|(first, last)| [*first, *last]);
    both.take(questions.len()).collect()
}

/// Points in all cells, on all grid lines and next to them: rising, falling, and from both ends in turn; points below the first torque; and one point again and again.
fn everywhere(source: &mut Source) -> Vec<Draft> {
    let mut all = Vec::new();
    for _ in 0..2 {
        let map = measured_map(source, 3, 4);
        let (speeds, torques) = axes(&map);
        let first = 100 * u32::from(torques[0]);
        let below = [0, first / 3, first / 2, first.saturating_sub(1)];
        let speed_stops = stops(speeds, 10);
        let rising = points(&speed_stops, &stops(torques, 100));
        let mut falling = rising.clone();
        falling.reverse();
        let grid = points(&in_units(speeds, 10), &in_units(torques, 100));
        let in_turn = from_both_ends(&rising);
        let below = points(&speed_stops, &below);
        let again = vec![rising[rising.len() / 2]; 9];
        for questions in [rising, falling, in_turn, grid, below, again] {
            all.push(Draft::of_questions(&map, questions).with_room(MOST_ROOM));
        }
    }
    all
}

/// Below the first torque of maps that have negative losses there: on the first two speeds and between them.
fn negative_losses(source: &mut Source) -> Vec<Draft> {
    const MAPS: usize = 20;
    let mut all = Vec::new();
    while all.len() < MAPS {
        let map = small_map(source, all.len() % 2 == 0);
        let (speeds, torques) = axes(&map);
        let (lower, upper) = (10 * u32::from(speeds[0]), 10 * u32::from(speeds[1]));
        let first = 100 * u32::from(torques[0]);
        if loss(&map, lower, 0).is_ok_and(|loss| loss < 0) {
            let speeds = [lower, (lower + upper) / 2, upper];
            let points = points(&speeds, &[0, first / 2, first]);
            all.push(Draft::of_questions(&map, points).with_room(MOST_ROOM));
        }
    }
    all
}

/// The largest maps: a measured one, and a standard one asked the most questions.
fn largest(source: &mut Source) -> Vec<Draft> {
    let measured = measured_map(source, 32, 64);
    let data = valid::data_of(source, 1, 32, 64).bytes();
    let standard = built_of(&data).expect("standard data");
    vec![
        Draft::of_map(source, &measured, 60),
        Draft::of_map(source, &standard, MOST_QUESTIONS),
    ]
}
