//! A listing taken in.

use super::map::{Axes, LARGEST_ENTRY};
use axle::Grid;

/// A place in a text, which moves forward.
struct Cursor<'text> {
    text: &'text [u8],
    place: usize,
}

/// A row's numbers, the loss in hundredths.
struct Row {
    speed: u32,
    torque: u32,
    loss: u64,
}

impl Cursor<'_> {
    #[inline(always)]
    fn next(&self) -> Option<u8> {
        self.text.get(self.place).copied()
    }

    #[inline(always)]
    fn skip_blanks(&mut self) {
        while let Some(b' ' | b'\t') = self.next() {
            self.place += 1;
        }
    }

    /// Goes past a character, if it is the next.
    #[inline(always)]
    fn expect(&mut self, character: u8) -> Option<()> {
        let is_next = self.next()? == character;
        self.place += 1;
        is_next.then_some(())
    }

    #[inline(always)]
    fn digit(&self) -> Option<u32> {
        let digit = self.next()?.wrapping_sub(b'0');
        (digit <= 9).then_some(u32::from(digit))
    }

    /// A number of one to nine digits without leading zeros.
    #[inline(always)]
    fn number(&mut self) -> Option<u32> {
        let start = self.place;
        let mut number = 0u32;
        while let Some(digit) = self.digit() {
            number = number.wrapping_mul(10).wrapping_add(digit);
            self.place += 1;
        }
        let count = self.place - start;
        let has_form = (1..=9).contains(&count) && (count == 1 || self.text[start] != b'0');
        has_form.then_some(number)
    }

    /// A number, a point and two digits.
    #[inline(always)]
    fn loss(&mut self) -> Option<u64> {
        let whole = self.number()?;
        self.expect(b'.')?;
        let tenths = self.digit()?;
        self.place += 1;
        let last = self.digit()?;
        self.place += 1;
        Some(100 * u64::from(whole) + u64::from(10 * tenths + last))
    }

    #[inline(always)]
    fn row(&mut self) -> Option<Row> {
        self.skip_blanks();
        let speed = self.number()?;
        self.expect(b',')?;
        let torque = self.number()?;
        self.expect(b',')?;
        let loss = self.loss()?;
        self.end_line()?;
        Some(Row {
            speed,
            torque,
            loss,
        })
    }

    fn header(&mut self) -> Option<()> {
        self.skip_blanks();
        for character in b"speed,torque,loss" {
            self.expect(*character)?;
        }
        self.end_line()
    }

    #[inline(always)]
    fn end_line(&mut self) -> Option<()> {
        self.skip_blanks();
        self.expect(b'\n')
    }
}

/// What the rows so far have said.
struct Rows<'lent> {
    grid: Grid,
    entries: &'lent mut [u32],
    count: usize,
    /// How many of them the last run has.
    in_run: usize,
}

impl Rows<'_> {
    /// Takes the next row in, none where it breaks its run or there is no map with it.
    #[inline(always)]
    fn take(&mut self, row: Row) -> Option<()> {
        let (speed, torque) = (
            u16::try_from(row.speed).ok()?,
            u16::try_from(row.torque).ok()?,
        );
        let loss = u32::try_from(row.loss).ok()?;
        if loss > LARGEST_ENTRY {
            return None;
        }
        *self.entries.get_mut(self.count)? = loss;
        self.count += 1;
        let grid = &mut self.grid;
        if grid.speed_count == 1 && speed == grid.speeds[0] {
            *grid.torques.get_mut(grid.torque_count)? = torque;
            grid.torque_count += 1;
            self.in_run += 1;
            return Some(());
        }
        self.take_later(speed, torque)
    }

    /// The first row of all, or one behind the first run.
    #[inline(always)]
    fn take_later(&mut self, speed: u16, torque: u16) -> Option<()> {
        let grid = &mut self.grid;
        if self.in_run == grid.torque_count {
            *grid.speeds.get_mut(grid.speed_count)? = speed;
            grid.speed_count += 1;
            self.in_run = 0;
            if grid.speed_count == 1 {
                grid.torques[0] = torque;
                grid.torque_count = 1;
            }
        }
        let keeps_run = (speed == grid.speeds[grid.speed_count - 1])
            & (torque == *grid.torques.get(self.in_run)?);
        self.in_run += 1;
        keeps_run.then_some(())
    }

    /// The axes of all rows, none where the last run is short or they are no map's.
    fn axes(self) -> Option<Grid> {
        let complete = self.in_run == self.grid.torque_count;
        (complete && Axes::of(&self.grid).is_some()).then_some(self.grid)
    }
}

/// Loads the map that a listing says into the lent entries, and answers its axes.
#[inline(never)]
pub fn load(text: &[u8], entries: &mut [u32]) -> Option<Grid> {
    let mut cursor = Cursor { text, place: 0 };
    cursor.header()?;
    let mut rows = Rows {
        grid: Grid {
            speeds: [0; 32],
            speed_count: 0,
            torques: [0; 64],
            torque_count: 0,
        },
        entries,
        count: 0,
        in_run: 0,
    };
    while cursor.place < text.len() {
        rows.take(cursor.row()?)?;
    }
    rows.axes()
}
