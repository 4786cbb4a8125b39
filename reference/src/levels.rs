//! The levels held ready (Point 4 of the later requests): bytes at the
//! boundary, a level for each person inside.

use crate::history::History;
use crate::level::Level;
use crate::rules::current_level;
use crate::tables::{Tables, PERSONS};

pub const LEVELS_BYTES: usize = 128;

/// The level stored for each person, whatever the tables declare.
pub type Levels = [Level; PERSONS];

/// The levels that the bytes stand for: that of person s at 2 × s, the low
/// byte first.
pub fn levels_of(bytes: &[u8]) -> Levels {
    let mut levels = [Level::lowest(); PERSONS];
    for (person, level) in levels.iter_mut().enumerate() {
        let (low, high) = (bytes[2 * person], bytes[2 * person + 1]);
        *level = Level::from_number(u16::from(low) + 256 * u16::from(high));
    }
    levels
}

/// Writes levels back as bytes.
pub fn write_levels(levels: &Levels, bytes: &mut [u8]) {
    for (person, level) in levels.iter().enumerate() {
        bytes[2 * person] = (level.number() % 256) as u8;
        bytes[2 * person + 1] = (level.number() / 256) as u8;
    }
}

/// The level of each declared person as a function gives it, and zero for the
/// undeclared.
fn of_declared(tables: &Tables, level_of: impl Fn(u8) -> Level) -> Levels {
    let mut levels = [Level::lowest(); PERSONS];
    for (person, level) in levels.iter_mut().enumerate() {
        if tables.persons[person].declared {
            *level = level_of(person as u8);
        }
    }
    levels
}

/// The first levels, which blank sets.
pub fn first_levels(tables: &Tables) -> Levels {
    of_declared(tables, |person| tables.persons[usize::from(person)].level)
}

/// The levels that a history gives. After every list from blank the stored
/// ones are these; no call works them out.
pub fn levels_by_history(tables: &Tables, history: &History) -> Levels {
    of_declared(tables, |person| current_level(tables, history, person))
}

#[cfg(test)]
mod tests {
    use super::*;

    #[test]
    fn bytes_and_levels_go_back_and_forth() {
        let mut bytes = [0; LEVELS_BYTES];
        for (place, byte) in bytes.iter_mut().enumerate() {
            *byte = (place * 89 % 256) as u8;
        }
        let mut back = [255; LEVELS_BYTES];
        write_levels(&levels_of(&bytes), &mut back);
        assert_eq!(bytes, back);
    }

    #[test]
    fn the_low_byte_stands_first() {
        let mut bytes = [0; LEVELS_BYTES];
        (bytes[10], bytes[11]) = (0x03, 0x20);
        let levels = levels_of(&bytes);
        assert_eq!(levels[5].number(), 0x2003);
        assert_eq!((levels[4].number(), levels[6].number()), (0, 0));
    }
}
