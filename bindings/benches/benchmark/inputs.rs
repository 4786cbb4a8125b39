//! The inputs of the benchmark: books, requests, histories and levels.

use crate::shared::{HISTORY_BYTES, LEVELS_BYTES};
use reference::history::set_of;
use reference::levels::write_levels;
use reference::random::Random;
use reference::State;

const DAY: usize = 2_300;
const DAYS: usize = 30;
pub const MONTH: usize = 70_000;

/// So many inputs of so many requests each. There are as many days as make a
/// month: a processor that meets the same day again and again learns it.
pub struct Workload {
    pub name: &'static str,
    pub inputs: usize,
    pub requests: usize,
    pub dense: bool,
}

const fn workload(name: &'static str, inputs: usize, requests: usize, dense: bool) -> Workload {
    Workload {
        name,
        inputs,
        requests,
        dense,
    }
}

pub const WORKLOADS: [Workload; 4] = [
    workload("day", DAYS, DAY, false),
    workload("month", 1, MONTH, false),
    workload("day, dense history", DAYS, DAY, true),
    workload("month, dense history", 1, MONTH, true),
];

pub const ONE_REQUEST: Workload = workload("one request", DAYS, 1, false);
pub const ONE_JUDGE: Workload = workload("one judge, dense history", DAYS, 1, true);

/// A book that declares every number.
pub fn full_book(random: &mut Random, mask: u8) -> Vec<u8> {
    let mut book = vec![1, mask];
    for firm in 0..64 {
        book.extend([2, firm, firm % 32]);
    }
    for person in 0..64 {
        book.extend([3, person, 255, 255]);
    }
    for folder in 0..128 {
        let kind = random.below(16) as u8;
        let level = !(1u16 << random.below(16));
        book.extend([4, folder, folder % 64, kind]);
        book.extend(level.to_le_bytes());
    }
    for role in 0..32 {
        let rights = random.number() | random.number() | random.number();
        let rights = if role == 31 { u64::MAX } else { rights };
        book.extend([5, role]);
        book.extend(rights.to_le_bytes());
    }
    for step in 0..15 {
        book.extend([6, step, step + 1]);
    }
    book.push(0);
    book
}

fn requests(random: &mut Random, count: usize) -> Vec<u8> {
    let mut requests = Vec::new();
    for _ in 0..count {
        let person = random.below(64) as u8;
        let folder = random.below(128) as u8;
        match random.below(10) {
            0..=3 => requests.extend([16, person, folder]),
            4..=6 => requests.extend([17, person, folder]),
            7 => requests.extend([18, person, random.below(64) as u8]),
            _ => requests.extend([19, person, random.below(4) as u8, folder]),
        }
    }
    requests
}

/// The history and the levels that a run is lent.
#[derive(Clone, PartialEq, Eq)]
pub struct Lent {
    pub history: Vec<u8>,
    pub levels: Vec<u8>,
}

/// Blank, or a dense history and the levels that it gives.
pub fn first_lent(random: &mut Random, book: &[u8], dense: bool) -> Lent {
    let mut history = vec![99; HISTORY_BYTES];
    let mut levels = vec![99; LEVELS_BYTES];
    assert_eq!(kweldabe::blank(book, &mut history, &mut levels), 0);
    if dense {
        history.fill_with(|| random.byte());
        let tables = reference::load(book).tables;
        let mut state = State::blank(&tables);
        for past in set_of(&history) {
            state.record(&tables, &past);
        }
        write_levels(&state.levels, &mut levels);
    }
    Lent { history, levels }
}

/// The bytes of one run: the book, the requests, and history and levels before
/// it.
pub struct Input {
    pub book: Vec<u8>,
    pub requests: Vec<u8>,
    pub first: Lent,
}

fn input(workload: &Workload, mask: u8, seed: usize) -> Input {
    let mut random = Random::new(seed as u64);
    let book = full_book(&mut random, mask);
    let requests = requests(&mut random, workload.requests);
    let first = first_lent(&mut random, &book, workload.dense);
    Input {
        book,
        requests,
        first,
    }
}

/// The inputs of a workload under a mask.
pub fn inputs(workload: &Workload, mask: u8) -> Vec<Input> {
    (0..workload.inputs)
        .map(|k| input(workload, mask, 1 + k))
        .collect()
}
