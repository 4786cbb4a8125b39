//! What the plain Rust sides have in common: levels, words of a history, the
//! lengths of records and buffers.

use crate::tables::Tables;

pub const HISTORY_BYTES: usize = 18_944;
pub const LEVELS_BYTES: usize = 128;

#[inline]
pub fn at_most(a: u16, b: u16) -> bool {
    a >> 12 <= b >> 12 && a & b & 0xfff == a & 0xfff
}

/// The number of a refusal, asked for only where a is not at most b: 15 where
/// the rank of b is too low, else a compartment is missing.
#[inline]
pub fn refusal(a: u16, b: u16) -> u8 {
    if a >> 12 > b >> 12 {
        15
    } else {
        21
    }
}

#[inline]
pub fn meet(a: u16, b: u16) -> u16 {
    (a & 0xf000).min(b & 0xf000) | a & b & 0xfff
}

/// The stored level of a person.
#[inline]
pub fn level_of(levels: &[u8], s: usize) -> u16 {
    u16::from_le_bytes([levels[2 * s], levels[2 * s + 1]])
}

/// Stores the meet with the level of the folder of a granted read or step.
#[inline]
pub fn lower(t: &Tables, levels: &mut [u8], record: &[u8]) {
    let o = match record[0] {
        16 => record[2],
        19 => record[3],
        _ => return,
    };
    let s = usize::from(record[1]);
    let level = meet(level_of(levels, s), t.folders[usize::from(o)].level);
    levels[2 * s..2 * s + 2].copy_from_slice(&level.to_le_bytes());
}

#[inline]
pub fn bit(h: &[u8], i: usize) -> bool {
    h[i / 8] >> (i % 8) & 1 == 1
}

/// The 64 bits of the eight bytes from a place on.
#[inline]
pub fn word(h: &[u8], at: usize) -> u64 {
    let mut bytes = [0; 8];
    bytes.copy_from_slice(&h[at..at + 8]);
    u64::from_le_bytes(bytes)
}

/// The steps that a person applied to a folder: bits eight bytes apart, from
/// the last step down, each turn doubling the sum.
#[inline]
pub fn steps_of(h: &[u8], s: usize, o: usize) -> u16 {
    let last = 2680 + 128 * o + s / 8;
    let one = 1 << (s % 8);
    let mut sum: u32 = 0;
    for p in 0..16 {
        sum = 2 * sum + u32::from(h[last - 8 * p] & one);
    }
    (sum >> (s % 8)) as u16
}

#[inline]
pub fn in_force(t: &Tables, rule: u8) -> bool {
    t.mask >> rule & 1 == 1
}

/// The set of the declared persons.
#[inline]
pub fn declared_persons(t: &Tables) -> u64 {
    let mut persons = 0;
    for (s, person) in t.persons.iter().enumerate() {
        if person.declared {
            persons |= 1 << s;
        }
    }
    persons
}

#[inline]
pub fn are_declared(t: &Tables, s: usize, o: usize) -> bool {
    s < 64 && t.persons[s].declared && o < 128 && t.folders[o].declared
}

/// Whether the steps done on a folder permit one more.
#[inline]
pub fn step_permitted(t: &Tables, done: u16, q: usize) -> bool {
    if q == 0 {
        return done == 0;
    }
    (0..16).any(|p| done >> p & 1 == 1 && t.steps[p] >> q & 1 == 1 && t.steps[p] & done == 0)
}

/// The steps that declared persons did on a folder.
#[inline]
pub fn steps_done(persons: u64, h: &[u8], o: usize) -> u16 {
    let mut done = 0;
    for p in 0..16 {
        if word(h, 2560 + 128 * o + 8 * p) & persons != 0 {
            done |= 1 << p;
        }
    }
    done
}

/// The length of the record at the front; 0 where it is unknown or cut.
#[inline]
pub fn record_length(bytes: &[u8]) -> usize {
    match bytes {
        [16..=18, _, _, ..] => 3,
        [19, _, _, _, ..] => 4,
        _ => 0,
    }
}

pub fn answers_due(requests: &[u8]) -> usize {
    let (mut at, mut due) = (0, 0);
    while at < requests.len() {
        at += match record_length(&requests[at..]) {
            0 => requests.len() - at,
            length => length,
        };
        due += 1;
    }
    due
}

/// The number of the lengths of history and levels: 10, 20 or 0.
pub fn check_lengths(h: &[u8], levels: &[u8]) -> u8 {
    if h.len() != HISTORY_BYTES {
        return 10;
    }
    if levels.len() != LEVELS_BYTES {
        return 20;
    }
    0
}
