//! Texts that are loaded with two faults: the one that is tested first is told.

use crate::cases::Case;
use crate::load_texts::{lines, rows_of, text, Line, Row};

/// A listing with four speeds and three torques that can be wrong in every way.
struct Draft {
    header: Line,
    rows: Vec<Row>,
    /// Lines in the places of rows.
    others: Vec<(usize, &'static [u8])>,
    rest: &'static [u8],
    entries: usize,
}

impl Draft {
    fn new() -> Draft {
        Draft {
            header: b"speed,torque,loss".to_vec(),
            rows: rows_of(&[10, 20, 30, 40], &[5, 10, 20], &[100, 2_000]),
            others: Vec::new(),
            rest: b"",
            entries: 12,
        }
    }

    fn set_speed(&mut self, index: usize, speed: u64) {
        for row in self.rows.iter_mut().skip(3 * index).take(3) {
            row[0] = speed;
        }
    }

    fn set_torque(&mut self, index: usize, torque: u64) {
        for row in self.rows.iter_mut().skip(index).step_by(3) {
            row[1] = torque;
        }
    }

    fn case(self) -> Case {
        let mut all = lines(&self.rows);
        all[0] = self.header;
        for (index, other) in self.others {
            all[1 + index] = other.to_vec();
        }
        Case::Load {
            text: [&text(&all), self.rest].concat(),
            entries: self.entries,
        }
    }
}

/// Puts a fault in.
type PutIn = fn(&mut Draft);

/// Faults in the order in which they are told, each with its refusal.
const PAIRED: [(u8, PutIn); 15] = [
    (40, |d| d.header = b"speed;torque;loss".to_vec()),
    (41, |d| d.others.push((3, b"20,5"))),
    (42, |d| d.rows[4][1] = 11),
    (41, |d| d.others.push((7, b" 30,10,1.0\t"))),
    (42, |d| d.rows[8][0] = 31),
    (41, |d| d.rest = b" "),
    (42, |d| d.rows.truncate(11)),
    (4, |d| d.set_speed(3, 3_001)),
    (4, |d| d.set_torque(2, 50_001)),
    (5, |d| d.set_speed(2, 20)),
    (5, |d| d.set_torque(2, 10)),
    (6, |d| d.set_torque(0, 6)),
    (10, |d| d.rows[1][2] = 10_000_001),
    (10, |d| d.rows[10][2] = 1 << 32),
    (11, |d| d.entries = 11),
];

/// The two faults with these indices, or one alone. The earlier one is put in last: it stays where both are in one number.
fn paired(earlier: usize, later: usize) -> Case {
    let mut draft = Draft::new();
    PAIRED[later].1(&mut draft);
    PAIRED[earlier].1(&mut draft);
    draft.case()
}

/// Each fault with each later one, and alone.
pub(crate) fn with_two_faults() -> Vec<Case> {
    let mut cases = vec![Draft::new().case()];
    for earlier in 0..PAIRED.len() {
        cases.extend((earlier..PAIRED.len()).map(|later| paired(earlier, later)));
    }
    cases
}

#[cfg(test)]
mod tests {
    use super::*;
    use crate::load_cases::tests::refused;

    #[test]
    fn of_two_faults_the_earlier_one_is_told() {
        assert_eq!(refused(&Draft::new().case()), None);
        for (earlier, (due, _)) in PAIRED.iter().enumerate() {
            for later in earlier..PAIRED.len() {
                let found = refused(&paired(earlier, later));
                assert_eq!(found, Some(*due), "{earlier} and {later}");
            }
        }
    }
}
