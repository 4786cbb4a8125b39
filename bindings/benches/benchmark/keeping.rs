//! A run in plain Rust that gathers what persons did, and what was done on
//! folders, at most once, and keeps it: after each grant it brings it up to date
//! in constant time. Only what the mask asks about is gathered. A few requests
//! are judged one by one instead, which takes less than gathering.
//!
//! The loop takes every request the same way, with no jump on its kind or on its
//! answer, which a processor cannot foresee. A start has the started person as
//! its target, and the others a folder.

use crate::alone;
use crate::gathering::{firms_counted, holders_of, roles_that_hold, Past};
use crate::kinds::Request;
use crate::shared::*;
use crate::tables::{load, Tables};

/// So many requests are judged one by one: where the wall or the roles are in
/// force, and where neither is.
const FEW: usize = 8;
const FEW_WITHOUT_PAST: usize = 64;

/// What a request is for: a folder, or the person to be started.
#[derive(Clone, Copy, Default)]
struct Target {
    /// The firms of the folder's class, and its own firm; none where the wall
    /// does not ask.
    class: u64,
    firm: u64,
    /// The level as a set, see [`set_of_level`]; bit 0 tells that the target is
    /// not declared.
    level: u32,
    kind: u8,
}

/// What is kept of a person: the firms that the wall counts, and the roles that
/// hold every right used.
#[derive(Clone, Copy)]
struct Did {
    firms: u64,
    roles: u32,
}

/// A level as a set of bits: one for each rank up to its own, from bit 2 on, and
/// its compartments, from bit 17 on. Then the meet is the intersection, and "at
/// most" is inclusion; of the bits that lack, the lowest tells rank from
/// compartment.
pub fn set_of_level(level: u16) -> u32 {
    let ranks = (1 << (level >> 12)) - 1;
    (ranks | u32::from(level & 0xfff) << 15) << 2
}

fn level_of_set(set: u32) -> u16 {
    let rank = (set & 0x1_fffc).count_ones() as u16;
    rank << 12 | (set >> 17) as u16
}

/// The number of the first check that fails, by its bit: unknown parties, wall,
/// ranks, compartments, roles, pipeline, and none.
static NUMBERS: [u8; 32] = [
    13, 14, 15, 15, 15, 15, 15, 15, 15, 15, 15, 15, 15, 15, 15, 15, 15, 21, 21, 21, 21, 21, 21, 21,
    21, 21, 21, 21, 21, 16, 17, 0,
];

struct Kept {
    steps: [u16; 16],
    /// Folders, and from 128 on persons, whose levels are the stored ones.
    targets: [Target; 192],
    did: [Did; 64],
    /// For each right the roles that hold it.
    holders: [u32; 64],
    /// The steps done on each folder, and those that may be done next.
    done: [u16; 128],
    next: [u16; 128],
}

/// The steps that may be done next.
fn next_steps(steps: &[u16; 16], done: u16) -> u16 {
    if done == 0 {
        return 1;
    }
    let mut next = 0;
    for (p, after) in steps.iter().enumerate() {
        let last = (done >> p & 1 == 1) & (after & done == 0);
        next |= if last { *after } else { 0 };
    }
    next
}

fn set_targets(targets: &mut [Target; 192], t: &Tables, levels: &[u8]) {
    let mut classes = [0; 32];
    if in_force(t, 0) {
        for (f, firm) in t.firms.iter().enumerate() {
            classes[usize::from(firm.class)] |= u64::from(firm.declared) << f;
        }
    }
    for (target, folder) in targets.iter_mut().zip(&t.folders) {
        let walled = in_force(t, 0) && !folder.public;
        let class = classes[usize::from(t.firms[usize::from(folder.firm)].class)];
        *target = Target {
            class: if walled { class } else { 0 },
            firm: u64::from(walled) << folder.firm,
            level: set_of_level(folder.level) | u32::from(!folder.declared),
            kind: folder.kind,
        };
    }
    for (s, target) in targets[128..].iter_mut().enumerate() {
        let undeclared = u32::from(!t.persons[s].declared);
        target.level = set_of_level(level_of(levels, s)) | undeclared;
    }
}

impl Kept {
    /// Gathers what the mask asks about.
    #[inline(never)]
    fn of(t: &Tables, h: &[u8], levels: &[u8]) -> Kept {
        let persons = declared_persons(t);
        let mut kept = Kept {
            steps: t.steps,
            targets: [Target::default(); 192],
            did: [Did {
                firms: 0,
                roles: !0,
            }; 64],
            holders: [!0; 64],
            done: [0; 128],
            next: [!0; 128],
        };
        set_targets(&mut kept.targets, t, levels);
        let past = Past::of(t, h, persons);
        if in_force(t, 0) {
            for (did, firms) in kept.did.iter_mut().zip(firms_counted(t, &past)) {
                did.firms = firms;
            }
        }
        if in_force(t, 2) {
            kept.holders = holders_of(t);
            let roles = roles_that_hold(t, h, persons, &past);
            for (did, roles) in kept.did.iter_mut().zip(roles) {
                did.roles = roles as u32;
            }
        }
        if in_force(t, 3) {
            kept.done = past.done;
            kept.next = past.done.map(|done| next_steps(&t.steps, done));
        }
        kept
    }

    /// The checks that fail, as bits, and always the last bit.
    #[inline(always)]
    fn fails<const MASK: u8>(&self, request: &Request) -> u32 {
        let Request {
            kind, s, p, place, ..
        } = *request;
        let target = &self.targets[kind.first + place];
        let (level, own) = (target.level, self.targets[128 + s].level);
        let mut fails = (level | own | request.outside) & 1 | 1 << 31;
        if MASK & 1 != 0 {
            let firms = self.did[s].firms;
            let rival = (firms & target.class != 0) & (firms & target.firm == 0);
            fails |= u32::from(rival) << 1;
        }
        if MASK & 2 != 0 {
            fails |= level & kind.needs & !own;
        }
        if MASK & 4 != 0 {
            let holders = self.holders[request.right(target.kind)];
            fails |= u32::from(self.did[s].roles & holders == 0) << 29;
        }
        if MASK & 8 != 0 {
            fails |= (u32::from(!self.next[place % 128]) >> p & kind.steps & 1) << 30;
        }
        fails
    }

    /// Judges and records a request: its number.
    #[inline(always)]
    fn put<const MASK: u8>(&mut self, h: &mut [u8; HISTORY_BYTES], record: u32) -> u8 {
        let request = Request::of(record);
        let Request {
            kind, s, p, place, ..
        } = request;
        let fails = self.fails::<MASK>(&request);
        let granted = fails == 1 << 31;
        let all = u64::from(granted).wrapping_neg();
        let target = &self.targets[kind.first + place];
        let (level, own) = (target.level, self.targets[128 + s].level);
        if MASK & 1 != 0 {
            self.did[s].firms |= target.firm & all;
        }
        if MASK & 4 != 0 {
            self.did[s].roles &= self.holders[request.right(target.kind)] | !all as u32;
        }
        self.targets[128 + s].level = own & (level | !(kind.lowers & all as u32));
        let index = request.index();
        h[index / 8] |= u8::from(granted) << (index % 8);
        if MASK & 8 != 0 && kind.steps & all as u32 != 0 {
            self.done[place] |= 1 << p;
            self.next[place] = next_steps(&self.steps, self.done[place]);
        }
        NUMBERS[fails.trailing_zeros() as usize % 32]
    }
}

/// Puts one request after another, with what is kept: the granted and refused
/// requests.
fn run_keeping<const MASK: u8>(
    t: &Tables,
    h: &mut [u8; HISTORY_BYTES],
    levels: &mut [u8],
    requests: &[u8],
    answers: &mut [u8],
) -> (usize, usize) {
    let mut kept = Kept::of(t, h, levels);
    let (mut at, mut i, mut granted) = (0, 0, 0);
    while let Some(bytes) = requests.get(at..at + 4) {
        let record = u32::from_le_bytes(bytes.try_into().unwrap_or([0; 4]));
        if record & 0xfc != 16 {
            break;
        }
        let number = kept.put::<MASK>(h, record);
        granted += usize::from(number == 0);
        answers[i] = number;
        i += 1;
        at += 3 + usize::from(record & 3 == 3);
    }
    if at < requests.len() {
        let number = match requests[at..] {
            [kind @ 16..=18, s, second] => {
                kept.put::<MASK>(h, u32::from_le_bytes([kind, s, second, 0]))
            }
            _ => 12,
        };
        granted += usize::from(number == 0);
        answers[i] = number;
        i += 1;
    }
    for (bytes, person) in levels.chunks_exact_mut(2).zip(&kept.targets[128..]) {
        bytes.copy_from_slice(&level_of_set(person.level).to_le_bytes());
    }
    (granted, i - granted)
}

type Keeping = fn(&Tables, &mut [u8; HISTORY_BYTES], &mut [u8], &[u8], &mut [u8]) -> (usize, usize);

/// For each mask a run of its own, in which the rules not in force take no time.
static KEEPING: [Keeping; 16] = [
    run_keeping::<0>,
    run_keeping::<1>,
    run_keeping::<2>,
    run_keeping::<3>,
    run_keeping::<4>,
    run_keeping::<5>,
    run_keeping::<6>,
    run_keeping::<7>,
    run_keeping::<8>,
    run_keeping::<9>,
    run_keeping::<10>,
    run_keeping::<11>,
    run_keeping::<12>,
    run_keeping::<13>,
    run_keeping::<14>,
    run_keeping::<15>,
];

/// Puts one request after another, each judged alone.
fn run_alone(
    t: &Tables,
    h: &mut [u8; HISTORY_BYTES],
    levels: &mut [u8],
    requests: &[u8],
    answers: &mut [u8],
) -> (usize, usize) {
    let (mut at, mut i, mut granted) = (0, 0, 0);
    while at < requests.len() {
        let record = &requests[at..];
        let judged = alone::judge(t, h, levels, record);
        if judged.number == 0 {
            h[judged.index / 8] |= 1 << (judged.index % 8);
            lower(t, levels, record);
            granted += 1;
        }
        answers[i] = judged.number;
        i += 1;
        at += judged.length;
    }
    (granted, i - granted)
}

/// Loads the book and puts one request after another: the number, and the
/// granted and refused requests. The tables are those of a load, so that they
/// need no test.
pub fn run(
    book: &[u8],
    h: &mut [u8],
    levels: &mut [u8],
    requests: &[u8],
    answers: &mut [u8],
) -> (u8, usize, usize) {
    let t = match load(book) {
        Ok(t) => t,
        Err(number) => return (number, 0, 0),
    };
    let number = check_lengths(h, levels);
    if number != 0 {
        return (number, 0, 0);
    }
    let Ok(history) = h.try_into() else {
        return (10, 0, 0);
    };
    let due = answers_due(requests);
    if answers.len() < due {
        return (18, 0, 0);
    }
    let (granted, refused) = run_loaded(&t, history, levels, requests, &mut answers[..due]);
    (0, granted, refused)
}

/// The same with the tables of a load and as many answers as are due: the granted
/// and refused requests.
pub fn run_loaded(
    t: &Tables,
    history: &mut [u8; HISTORY_BYTES],
    levels: &mut [u8],
    requests: &[u8],
    answers: &mut [u8],
) -> (usize, usize) {
    let few = if t.mask & 5 != 0 {
        FEW
    } else {
        FEW_WITHOUT_PAST
    };
    match answers.len() <= few {
        true => run_alone(t, history, levels, requests, answers),
        false => KEEPING[usize::from(t.mask) % 16](t, history, levels, requests, answers),
    }
}
