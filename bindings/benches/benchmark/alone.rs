//! One request judged alone, in plain Rust: of what a person did only that is
//! looked at which the rules in force ask about. The wall looks at the folders of
//! one class until one of the same firm is found, and the roles first at reads,
//! writes and starts, and at steps only if the answer is not the same with none
//! of them and with all.

use crate::shared::*;
use crate::tables::{load, Role, Tables};

/// The rights of all sixteen steps.
const ALL_STEPS: u64 = 0xffff << 48;

/// The number of a request, the index of its bit, and the length of its record.
pub struct Judged {
    pub number: u8,
    pub index: usize,
    pub length: usize,
}

/// Loads the book and judges the request at the front of the bytes.
pub fn judge_alone(book: &[u8], h: &[u8], levels: &[u8], request: &[u8]) -> u8 {
    let t = match load(book) {
        Ok(t) => t,
        Err(number) => return number,
    };
    match check_lengths(h, levels) {
        0 => judge(&t, h, levels, request).number,
        number => number,
    }
}

/// Whether a person stepped on a folder.
fn stepped(h: &[u8], s: usize, o: usize) -> bool {
    let words = &h[2560 + 128 * o..2688 + 128 * o];
    let steppers = words
        .chunks_exact(8)
        .fold(0, |all, bytes| all | word(bytes, 0));
    steppers >> s & 1 == 1
}

fn accessed(h: &[u8], s: usize, o: usize) -> bool {
    bit(h, 128 * s + o) || bit(h, 8192 + 128 * s + o) || stepped(h, s, o)
}

fn wall_permits(t: &Tables, h: &[u8], s: usize, o: usize) -> bool {
    let firm = t.folders[o].firm;
    let class = t.firms[usize::from(firm)].class;
    let mut rival = false;
    for (other, folder) in t.folders.iter().enumerate() {
        let counts = folder.declared && !folder.public;
        if !counts || t.firms[usize::from(folder.firm)].class != class {
            continue;
        }
        if folder.firm == firm {
            if accessed(h, s, other) {
                return true;
            }
        } else if !rival {
            rival = accessed(h, s, other);
        }
    }
    !rival
}

/// The rights of the reads and writes of a person.
fn rights_of_accesses(t: &Tables, h: &[u8], s: usize) -> u64 {
    let mut rights = 0;
    for half in 0..2 {
        let read = word(h, 16 * s + 8 * half);
        let wrote = word(h, 1024 + 16 * s + 8 * half);
        let mut rest = read | wrote;
        while rest != 0 {
            let i = rest.trailing_zeros() as usize;
            rest &= rest - 1;
            let folder = &t.folders[64 * half + i];
            let both = (read >> i & 1) | (wrote >> i & 1) << 16;
            rights |= if folder.declared {
                both << folder.kind
            } else {
                0
            };
        }
    }
    rights
}

/// The rights of the steps of a person, until none is left to find.
fn rights_of_steps(t: &Tables, h: &[u8], s: usize) -> u64 {
    let mut steps = 0;
    for (o, folder) in t.folders.iter().enumerate() {
        if folder.declared && stepped(h, s, o) {
            steps |= steps_of(h, s, o);
            if steps == 0xffff {
                break;
            }
        }
    }
    u64::from(steps) << 48
}

fn roles_permit(t: &Tables, h: &[u8], s: usize, right: usize) -> bool {
    let held = |rights: u64| {
        let holds = |role: &Role| role.declared && rights & !role.rights == 0;
        t.roles.iter().any(holds)
    };
    let mut rights = 1 << right | rights_of_accesses(t, h, s);
    if word(h, 2048 + 8 * s) & declared_persons(t) != 0 {
        rights |= 1 << 32;
    }
    held(rights) && (held(rights | ALL_STEPS) || held(rights | rights_of_steps(t, h, s)))
}

fn judge_access(t: &Tables, h: &[u8], levels: &[u8], (s, o): (usize, usize), right: usize) -> u8 {
    let folder = &t.folders[o];
    if in_force(t, 0) && !folder.public && !wall_permits(t, h, s, o) {
        return 14;
    }
    if in_force(t, 1) && right >= 16 && !at_most(folder.level, level_of(levels, s)) {
        return refusal(folder.level, level_of(levels, s));
    }
    if in_force(t, 2) && !roles_permit(t, h, s, right) {
        return 16;
    }
    0
}

fn judge_step(t: &Tables, h: &[u8], levels: &[u8], (s, p, o): (usize, usize, usize)) -> u8 {
    if p > 15 || !are_declared(t, s, o) {
        return 13;
    }
    let number = judge_access(t, h, levels, (s, o), 48 + p);
    if number != 0 || !in_force(t, 3) {
        return number;
    }
    match step_permitted(t, steps_done(declared_persons(t), h, o), p) {
        true => 0,
        false => 17,
    }
}

fn judge_start(t: &Tables, h: &[u8], levels: &[u8], s: usize, u: usize) -> u8 {
    if s > 63 || !t.persons[s].declared || u > 63 || !t.persons[u].declared {
        return 13;
    }
    if in_force(t, 1) && !at_most(level_of(levels, u), level_of(levels, s)) {
        return refusal(level_of(levels, u), level_of(levels, s));
    }
    if in_force(t, 2) && !roles_permit(t, h, s, 32) {
        return 16;
    }
    0
}

/// The request at the front of the bytes.
pub fn judge(t: &Tables, h: &[u8], levels: &[u8], bytes: &[u8]) -> Judged {
    let field = |place: usize| usize::from(bytes[place]);
    let length = record_length(bytes);
    if length == 0 {
        return Judged {
            number: 12,
            index: 0,
            length: bytes.len(),
        };
    }
    let (s, second) = (field(1), field(2));
    let (number, index) = match bytes[0] {
        18 => (
            judge_start(t, h, levels, s, second),
            16384 + 64 * s + second,
        ),
        19 => (
            judge_step(t, h, levels, (s, second, field(3))),
            20480 + 64 * (16 * field(3) + second) + s,
        ),
        kind => {
            let write = usize::from(kind - 16);
            let number = match are_declared(t, s, second) {
                true => {
                    let right = 16 * write + usize::from(t.folders[second].kind);
                    judge_access(t, h, levels, (s, second), right)
                }
                false => 13,
            };
            (number, 8192 * write + 128 * s + second)
        }
    };
    Judged {
        number,
        index,
        length,
    }
}
