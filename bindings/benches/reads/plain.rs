//! The part of the reads in plain Rust, over the same bytes: the quickest that
//! we can write for few reads, and for comparison a walk that looks at every
//! folder, which is the quicker one where every bit is set.

use crate::{Words, HISTORY_BYTES};

fn is_refused(history: &[u8], person: usize) -> bool {
    history.len() != HISTORY_BYTES || person > 63
}

/// Rank and compartments apart, so that neither waits for the other.
struct Lowered {
    rank: u64,
    compartments: u64,
}

impl Lowered {
    fn from(level: u16) -> Lowered {
        Lowered {
            rank: u64::from(level) & 0xf000,
            compartments: u64::from(level),
        }
    }

    fn by(&mut self, folder: u64) {
        if folder & 255 == 1 {
            let level = folder >> 24;
            self.rank = self.rank.min(level & 0xf000);
            self.compartments &= level;
        }
    }

    fn level(&self) -> u16 {
        (self.rank | self.compartments & 0xfff) as u16
    }
}

/// The reads as two words, of which only set bits are visited.
#[inline(never)]
pub fn by_words(tables: &Words, history: &[u8], person: usize, before: u16) -> u16 {
    if is_refused(history, person) {
        return before;
    }
    let mut lowered = Lowered::from(before);
    for half in 0..2 {
        let mut bytes = [0; 8];
        let at = 16 * person + 8 * half;
        bytes.copy_from_slice(&history[at..at + 8]);
        let mut rest = u64::from_le_bytes(bytes);
        while rest != 0 {
            lowered.by(tables[64 * half + rest.trailing_zeros() as usize]);
            rest &= rest - 1;
        }
    }
    lowered.level()
}

/// Every folder in turn, and its bit.
#[inline(never)]
pub fn by_folders(tables: &Words, history: &[u8], person: usize, before: u16) -> u16 {
    if is_refused(history, person) {
        return before;
    }
    let mut lowered = Lowered::from(before);
    for folder in 0..128 {
        if history[16 * person + folder / 8] >> (folder % 8) & 1 == 1 {
            lowered.by(tables[folder]);
        }
    }
    lowered.level()
}
