//! Document 01, "The map program", with refusals 22 and 11 of a listing.

use crate::lookup::{self, LentMap};
use crate::map;
use crate::refusal::Refusal;

/// The first line, without its line feed.
pub(crate) const HEADER: &str = "speed,torque,loss";

/// As much of standard input as counts.
pub const LONGEST_INPUT: usize = 32_768;

/// Entries of the largest map.
pub const MOST_ENTRIES: usize = 32 * 64;

/// The listing of a map, written into a buffer of so many bytes.
pub fn listing(map: &LentMap, room: usize) -> Result<Vec<u8>, Refusal> {
    let map = lookup::test_map(map)?;
    let mut text = format!("{HEADER}\n");
    for (index, entry) in map.entries.iter().enumerate() {
        let speed = map.speeds[index / map.torques.len()];
        let torque = map.torques[index % map.torques.len()];
        text.push_str(&line(speed, torque, *entry));
        text.push('\n');
    }
    if room < text.len() {
        return Err(Refusal::at(11, text.len()));
    }
    Ok(text.into_bytes())
}

/// An entry's line, without its line feed.
pub fn line(speed: u16, torque: u16, entry: u32) -> String {
    let (whole, hundredths) = (entry / 100, entry % 100);
    format!("{speed},{torque},{whole}.{hundredths:02}")
}

/// The number of an entry's line, counted from 1, the header's.
pub fn line_number(entry_index: usize) -> usize {
    entry_index + 2
}

/// What the map program writes for this standard input.
pub fn report(data: &[u8]) -> Vec<u8> {
    report_of(listing_of_data(data))
}

/// The listing of the map of this standard input.
pub fn listing_of_data(data: &[u8]) -> Result<Vec<u8>, Refusal> {
    let counted = &data[..data.len().min(LONGEST_INPUT)];
    // The program lends itself room enough: 11 is never among its refusals.
    let built = map::build(counted, MOST_ENTRIES)?;
    listing(&LentMap::of(&built, built.entries.clone()), usize::MAX)
}

/// The listing, or the line of a refusal.
pub fn report_of(listing: Result<Vec<u8>, Refusal>) -> Vec<u8> {
    listing.unwrap_or_else(|refusal| format!("{refusal}\n").into_bytes())
}
