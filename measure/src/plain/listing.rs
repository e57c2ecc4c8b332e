//! The listing of a map.

use super::digits::{write_loss, Word};
use super::map::Map;
use axle::Grid;

const HEADER: &[u8] = b"speed,torque,loss\n";

/// What a line may write: two words, and a loss.
const LINE_ROOM: usize = 24;

/// Writes a line and answers its length.
#[inline(always)]
fn write_line(speed: Word, torque: Word, loss: u32, room: &mut [u8; LINE_ROOM]) -> usize {
    let mut length = speed.write(room);
    length += torque.write(&mut room[length..]);
    length + write_loss(loss, &mut room[length..])
}

/// The same where there may be less room than that.
#[cold]
fn write_last_line(speed: Word, torque: Word, loss: u32, text: &mut [u8]) -> Option<usize> {
    let mut room = [0; LINE_ROOM];
    let length = write_line(speed, torque, loss, &mut room);
    text.get_mut(..length)?.copy_from_slice(&room[..length]);
    Some(length)
}

/// Writes the listing and answers its length, none where it has no room. Some bytes past its length may be written.
#[inline(never)]
pub fn listing(grid: &Grid, entries: &[u32], text: &mut [u8]) -> Option<usize> {
    let map = Map::of(grid, entries)?;
    let torques = map.axes.torques;
    let mut torque_words = [Word::default(); 64];
    for (word, torque) in torque_words.iter_mut().zip(torques) {
        *word = Word::with_comma(u32::from(*torque));
    }
    text.get_mut(..HEADER.len())?.copy_from_slice(HEADER);
    let mut length = HEADER.len();
    for (speed, losses) in map
        .axes
        .speeds
        .iter()
        .zip(map.entries.chunks_exact(torques.len()))
    {
        let speed = Word::with_comma(u32::from(*speed));
        for (torque, loss) in torque_words.iter().zip(losses) {
            let rest = &mut text[length..];
            length += match rest.first_chunk_mut() {
                Some(room) => write_line(speed, *torque, *loss, room),
                None => write_last_line(speed, *torque, *loss, rest)?,
            };
        }
    }
    Some(length)
}
