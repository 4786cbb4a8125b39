//! What persons did, and what was done on folders, gathered for all at once. Sets
//! of persons are gathered for each folder and for each right, by unions of
//! words, and then turned round into a set for each person.

use crate::shared::*;
use crate::tables::Tables;

/// Turns 64 rows of 64 bits round: bit j of row i becomes bit i of row j.
fn turn(rows: &mut [u64; 64]) {
    swap::<32>(rows, 0x0000_0000_ffff_ffff);
    swap::<16>(rows, 0x0000_ffff_0000_ffff);
    swap::<8>(rows, 0x00ff_00ff_00ff_00ff);
    swap::<4>(rows, 0x0f0f_0f0f_0f0f_0f0f);
    swap::<2>(rows, 0x3333_3333_3333_3333);
    swap::<1>(rows, 0x5555_5555_5555_5555);
}

/// In every square of twice the width, swaps the two quarters off the diagonal.
fn swap<const WIDTH: usize>(rows: &mut [u64; 64], low: u64) {
    for square in rows.chunks_exact_mut(2 * WIDTH) {
        let (upper, lower) = square.split_at_mut(WIDTH);
        for (a, b) in upper.iter_mut().zip(lower) {
            let change = (*a >> WIDTH ^ *b) & low;
            *a ^= change << WIDTH;
            *b ^= change;
        }
    }
}

/// For each folder the persons who did something on it, from 1024 bytes of a
/// history that hold for each person the folders.
fn by_folder(h: &[u8], first: usize) -> [u64; 128] {
    let mut folders = [0; 128];
    for half in 0..2 {
        let mut rows = [0; 64];
        for (s, row) in rows.iter_mut().enumerate() {
            *row = word(h, first + 16 * s + 8 * half);
        }
        turn(&mut rows);
        folders[64 * half..64 * half + 64].copy_from_slice(&rows);
    }
    folders
}

/// A history by folder and by step.
pub struct Past {
    /// For each folder the persons who read it, who wrote in it, and who stepped
    /// on it.
    readers: [u64; 128],
    writers: [u64; 128],
    steppers: [u64; 128],
    /// For each step the persons who did it on a declared folder.
    users: [u64; 16],
    /// For each folder the steps that declared persons did.
    pub done: [u16; 128],
}

impl Past {
    /// Gathers what the mask asks about; the rest is left empty.
    pub fn of(t: &Tables, h: &[u8], persons: u64) -> Past {
        let mut past = Past {
            readers: [0; 128],
            writers: [0; 128],
            steppers: [0; 128],
            users: [0; 16],
            done: [0; 128],
        };
        if t.mask & 5 != 0 {
            past.readers = by_folder(h, 0);
            past.writers = by_folder(h, 1024);
        }
        if t.mask & 13 != 0 {
            past.add_steps(t, h, persons);
        }
        past
    }

    fn add_steps(&mut self, t: &Tables, h: &[u8], persons: u64) {
        for (o, bytes) in h[2560..].chunks_exact(128).enumerate() {
            let mut words = [0; 16];
            for (set, bytes) in words.iter_mut().zip(bytes.chunks_exact(8)) {
                *set = word(bytes, 0);
            }
            self.steppers[o] = words.iter().fold(0, |union, set| union | set);
            if self.steppers[o] & persons == 0 || !t.folders[o].declared {
                continue;
            }
            for (users, set) in self.users.iter_mut().zip(words) {
                *users |= set;
            }
            if in_force(t, 3) {
                self.done[o] = steps_done(persons, h, o);
            }
        }
    }
}

/// For each person the firms that the wall counts: of the folders that are not
/// public.
pub fn firms_counted(t: &Tables, past: &Past) -> [u64; 64] {
    let mut openers = [0; 64];
    for (o, folder) in t.folders.iter().enumerate() {
        if folder.declared && !folder.public {
            openers[usize::from(folder.firm)] |=
                past.readers[o] | past.writers[o] | past.steppers[o];
        }
    }
    turn(&mut openers);
    openers
}

/// For each right the declared roles that hold it.
pub fn holders_of(t: &Tables) -> [u32; 64] {
    let mut rows = [0; 64];
    for (row, role) in rows.iter_mut().zip(&t.roles) {
        *row = if role.declared { role.rights } else { 0 };
    }
    turn(&mut rows);
    rows.map(|row| row as u32)
}

/// For each right the persons who used it.
fn users_of_rights(t: &Tables, h: &[u8], persons: u64, past: &Past) -> [u64; 64] {
    let mut users = [0; 64];
    for (o, folder) in t.folders.iter().enumerate() {
        if folder.declared {
            users[usize::from(folder.kind)] |= past.readers[o];
            users[16 + usize::from(folder.kind)] |= past.writers[o];
        }
    }
    for s in 0..64 {
        users[32] |= u64::from(word(h, 2048 + 8 * s) & persons != 0) << s;
    }
    users[48..].copy_from_slice(&past.users);
    users
}

/// For each person the declared roles that hold every right used: those that do
/// not lack a right that the person used.
pub fn roles_that_hold(t: &Tables, h: &[u8], persons: u64, past: &Past) -> [u64; 64] {
    let users = users_of_rights(t, h, persons, past);
    let used = (0..64).fold(0, |used, x| used | u64::from(users[x] != 0) << x);
    let mut rows = [0; 64];
    for (row, role) in rows.iter_mut().zip(&t.roles) {
        let mut lacks = if role.declared {
            used & !role.rights
        } else {
            0
        };
        let mut beyond = if role.declared { 0 } else { !0 };
        while lacks != 0 {
            beyond |= users[lacks.trailing_zeros() as usize];
            lacks &= lacks - 1;
        }
        *row = !beyond;
    }
    turn(&mut rows);
    rows
}
