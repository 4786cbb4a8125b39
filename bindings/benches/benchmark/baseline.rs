//! A plain Rust run that keeps nothing from one request to the next, as the
//! proved monitor did before it kept what it gathers: the folders on which a
//! person stepped are found first, then one pass over the folders on which the
//! person did anything; sets as masks, reads and writes by words, steps by
//! doubling, the set of the declared persons made once a run. A level is read
//! from the lent levels and stored there. Tables are lent by reference.

use crate::shared::*;
use crate::tables::{given, load, Folder, Tables};

struct Past {
    rights: u64,
    /// The firms that the wall counts: of the folders that are not public. A
    /// run asks for no other set of firms.
    firms: u64,
}

/// The folders on which a person stepped, as two words: the union of the
/// sixteen words of a folder is the set of the persons who stepped on it.
fn stepped_by(h: &[u8], s: usize) -> [u64; 2] {
    let mut stepped = [0; 2];
    for (half, set) in stepped.iter_mut().enumerate() {
        for i in 0..64 {
            let first = 2560 + 128 * (64 * half + i);
            let steppers = (0..16).fold(0, |all, p| all | word(h, first + 8 * p));
            *set |= (steppers >> s & 1) << i;
        }
    }
    stepped
}

fn has_started(t: &Tables, h: &[u8], s: usize) -> bool {
    if h[2048 + 8 * s..2056 + 8 * s].iter().all(|byte| *byte == 0) {
        return false;
    }
    (0..64).any(|u| t.persons[u].declared && bit(h, 16384 + 64 * s + u))
}

/// Adds what a person did on 64 folders, whose reads and writes are two words.
fn past_over(folders: &[Folder], h: &[u8], s: usize, first: usize, stepped: u64, past: &mut Past) {
    let read = word(h, 16 * s + first / 8);
    let wrote = word(h, 1024 + 16 * s + first / 8);
    let mut rest = read | wrote | stepped;
    while rest != 0 {
        let i = rest.trailing_zeros() as usize;
        rest &= rest - 1;
        let folder = &folders[i];
        if !folder.declared {
            continue;
        }
        if stepped >> i & 1 == 1 {
            past.rights |= u64::from(steps_of(h, s, first + i)) << 48;
        }
        past.rights |= (read >> i & 1) << folder.kind;
        past.rights |= (wrote >> i & 1) << (16 + folder.kind);
        past.firms |= u64::from(!folder.public) << folder.firm;
    }
}

fn past_of(t: &Tables, h: &[u8], s: usize, stepped: [u64; 2]) -> Past {
    let mut past = Past {
        rights: 0,
        firms: 0,
    };
    past_over(&t.folders[..64], h, s, 0, stepped[0], &mut past);
    past_over(&t.folders[64..], h, s, 64, stepped[1], &mut past);
    if has_started(t, h, s) {
        past.rights |= 1 << 32;
    }
    past
}

fn wall_permits(t: &Tables, firms: u64, o: usize) -> bool {
    let firm = usize::from(t.folders[o].firm);
    if firms >> firm & 1 == 1 {
        return true;
    }
    let class = t.firms[firm].class;
    !(0..64).any(|f| t.firms[f].class == class && firms >> f & 1 == 1)
}

fn roles_permit(t: &Tables, used: u64, right: usize) -> bool {
    let rights = used | 1 << right;
    t.roles
        .iter()
        .any(|role| role.declared && rights & role.rights == rights)
}

fn judge_access(
    t: &Tables,
    h: &[u8],
    levels: &[u8],
    (s, o): (usize, usize),
    right: usize,
    modifies: bool,
) -> u8 {
    let walled = in_force(t, 0) && !t.folders[o].public;
    let levelled = in_force(t, 1) && modifies;
    let refused = levelled && !at_most(t.folders[o].level, level_of(levels, s));
    if walled || in_force(t, 2) && !refused {
        let past = past_of(t, h, s, stepped_by(h, s));
        if walled && !wall_permits(t, past.firms, o) {
            return 14;
        }
        if refused {
            return refusal(t.folders[o].level, level_of(levels, s));
        }
        if in_force(t, 2) && !roles_permit(t, past.rights, right) {
            return 16;
        }
        return 0;
    }
    if refused {
        refusal(t.folders[o].level, level_of(levels, s))
    } else {
        0
    }
}

fn judge_step(
    t: &Tables,
    persons: u64,
    h: &[u8],
    levels: &[u8],
    (s, p, o): (usize, usize, usize),
) -> u8 {
    if p > 15 || !are_declared(t, s, o) {
        return 13;
    }
    let number = judge_access(t, h, levels, (s, o), 48 + p, true);
    if number != 0 || !in_force(t, 3) || step_permitted(t, steps_done(persons, h, o), p) {
        return number;
    }
    17
}

fn judge_start(t: &Tables, h: &[u8], levels: &[u8], s: usize, u: usize) -> u8 {
    if s > 63 || !t.persons[s].declared || u > 63 || !t.persons[u].declared {
        return 13;
    }
    if in_force(t, 1) && !at_most(level_of(levels, u), level_of(levels, s)) {
        return refusal(level_of(levels, u), level_of(levels, s));
    }
    if in_force(t, 2) && !roles_permit(t, past_of(t, h, s, stepped_by(h, s)).rights, 32) {
        return 16;
    }
    0
}

/// The number, the index of the request's bit and the length of its record.
fn judge(t: &Tables, persons: u64, h: &[u8], levels: &[u8], bytes: &[u8]) -> (u8, usize, usize) {
    let field = |place: usize| usize::from(bytes[place]);
    let length = record_length(bytes);
    if length == 0 {
        return (12, 0, bytes.len());
    }
    let s = field(1);
    let (number, index) = match bytes[0] {
        16 | 17 => {
            let (o, write) = (field(2), bytes[0] == 17);
            let number = if are_declared(t, s, o) {
                let kind = usize::from(t.folders[o].kind);
                let right = if write { 16 + kind } else { kind };
                judge_access(t, h, levels, (s, o), right, write)
            } else {
                13
            };
            (number, 8192 * usize::from(write) + 128 * s + o)
        }
        18 => (
            judge_start(t, h, levels, s, field(2)),
            16384 + 64 * s + field(2),
        ),
        _ => {
            let (p, o) = (field(2), field(3));
            (
                judge_step(t, persons, h, levels, (s, p, o)),
                20480 + 64 * (16 * o + p) + s,
            )
        }
    };
    (number, index, length)
}

/// The number of the tables and the lengths: 10, 20, 11 or 18.
fn check(t: &Tables, h: &[u8], levels: &[u8], requests: &[u8], room: usize) -> u8 {
    let number = check_lengths(h, levels);
    if number != 0 {
        return number;
    }
    if !given(t) {
        return 11;
    }
    if room < answers_due(requests) {
        return 18;
    }
    0
}

/// Loads the book and puts one request after another: the number, and the
/// granted and refused requests.
pub fn run(
    book: &[u8],
    h: &mut [u8],
    levels: &mut [u8],
    requests: &[u8],
    answers: &mut [u8],
) -> (u8, usize, usize) {
    let t = match load(book) {
        Ok(t) => t,
        Err(number) => return (number, 0, 0),
    };
    let number = check(&t, h, levels, requests, answers.len());
    if number != 0 {
        return (number, 0, 0);
    }
    let persons = declared_persons(&t);
    let (mut at, mut i, mut granted) = (0, 0, 0);
    while at < requests.len() {
        let record = &requests[at..];
        let (number, index, length) = judge(&t, persons, h, levels, record);
        if number == 0 {
            h[index / 8] |= 1 << (index % 8);
            lower(&t, levels, record);
            granted += 1;
        }
        answers[i] = number;
        i += 1;
        at += length;
    }
    (0, granted, i - granted)
}
