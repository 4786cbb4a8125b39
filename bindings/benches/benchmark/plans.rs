//! The lists of jobs of which the benchmark wants an order, and one plan of each
//! side. Every list has as many jobs as a list may have, on a book that declares
//! everything, with all rules in force or none, from blank or on a dense history.

use crate::inputs::{first_lent, full_book, Input, Lent, Workload};
use crate::planning::{self, MOST_JOBS};
use reference::plan::{fault, Plan};
use reference::random::Random;
use std::hint::black_box;
use std::time::Instant;

/// One measurement is so many plans of one list.
pub const PLANS: usize = 100;

/// The folders of the jobs of one person: of firms that are not rivals.
fn folder(place: u8) -> u8 {
    place % 32 + 64 * (place / 32)
}

/// A plan over bytes: book, history, levels, jobs and positions.
type Planned = fn(&[u8], &[u8], &[u8], &[u8], &mut [u8]) -> u8;

/// A list: its name, the job at a place, and the number that is due.
pub struct List {
    pub workload: Workload,
    pub mask: u8,
    job: fn(u8) -> [u8; 4],
    number: u8,
}

const fn list(name: &'static str, mask: u8, job: fn(u8) -> [u8; 4], number: u8) -> List {
    List {
        workload: Workload {
            name,
            inputs: 1,
            requests: MOST_JOBS,
            dense: false,
        },
        mask,
        job,
        number,
    }
}

/// The same on a dense history, with all rules in force.
const fn dense_list(name: &'static str, job: fn(u8) -> [u8; 4], number: u8) -> List {
    let mut list = list(name, 15, job, number);
    list.workload.dense = true;
    list
}

/// One person steps on 64 folders, from the lowest level to the highest; all 16
/// steps on each of four folders, from the last to the first; reads of one person
/// before writes; and two creates on each of 32 folders, which have no order. On
/// a dense history every level is the lowest: reads are granted, and writes above
/// it have no order.
pub static LISTS: [List; 8] = [
    list(
        "steps of one person, levels turned round",
        15,
        |k| [19, 0, folder(k), 0],
        0,
    ),
    list(
        "steps on four folders, turned round",
        15,
        |k| [19, k % 8, k / 16, 15 - k % 16],
        0,
    ),
    list(
        "reads before writes of one person",
        15,
        |k| [16 + k / 32, 0, folder(k), 0],
        0,
    ),
    list(
        "reads and writes of everybody",
        15,
        |k| [16 + k % 2, k, k, 0],
        0,
    ),
    list("two creates on each folder", 15, |k| [19, k, k % 32, 0], 23),
    list(
        "steps of one person, levels turned round",
        0,
        |k| [19, 0, folder(k), 0],
        0,
    ),
    dense_list("reads of everybody, dense history", |k| [16, k, k, 0], 0),
    dense_list(
        "reads and writes of everybody, dense history",
        |k| [16 + k % 2, k, k, 0],
        23,
    ),
];

/// The full book with levels of the folders that rise from a place to the next but
/// one: first the ranks, then the compartments.
fn rising_book(mask: u8) -> Vec<u8> {
    let mut book = full_book(&mut Random::new(1), mask);
    let first = 2 + 64 * 3 + 64 * 4;
    for place in 0..MOST_JOBS as u8 {
        let step = u16::from(place / 2).min(27);
        let level = match step {
            0..=15 => step << 12,
            _ => 0xf000 | ((1 << (step - 15)) - 1),
        };
        let record = &mut book[first + 6 * usize::from(folder(place))..][..6];
        record[4..].copy_from_slice(&level.to_le_bytes());
    }
    book
}

impl List {
    /// The input of the list; the requests are its jobs.
    pub fn inputs(&self) -> Vec<Input> {
        let book = rising_book(self.mask);
        let first = first_lent(&mut Random::new(2), &book, self.workload.dense);
        let jobs = (0..MOST_JOBS as u8).flat_map(self.job).collect();
        vec![Input {
            book,
            requests: jobs,
            first,
        }]
    }

    /// Each side's plan is right by the reference.
    pub fn expect_right(&self) {
        for input in self.inputs() {
            let Lent { history, levels } = &input.first;
            let (book, jobs) = (&input.book, &input.requests);
            let tables = reference::load(book).tables;
            for plan in [kweldabe::plan_bytes, planning::plan] {
                let mut positions = [0; MOST_JOBS];
                let number = plan(book, history, levels, jobs, &mut positions);
                assert_eq!(number, self.number, "{}", self.workload.name);
                let (left, claimed) = (!self.workload.dense, Plan { number, positions });
                let found = fault(&tables, (history, levels), jobs, left, &claimed);
                assert_eq!(found, None, "{}", self.workload.name);
            }
        }
    }

    /// Plans by each side: the jobs that have an order, and the nanoseconds.
    pub fn all_plans(&self, input: &Input) -> (usize, [f64; 2]) {
        let Lent { history, levels } = &input.first;
        let (book, jobs) = (black_box(&input.book), black_box(&input.requests));
        let timed = |plan: Planned| {
            let mut positions = [0; MOST_JOBS];
            let start = Instant::now();
            for _ in 0..PLANS {
                let positions = black_box(&mut positions);
                assert_eq!(plan(book, history, levels, jobs, positions), self.number);
            }
            start.elapsed().as_nanos() as f64
        };
        let times = [timed(kweldabe::plan_bytes), timed(planning::plan)];
        (usize::from(self.number == 0) * MOST_JOBS, times)
    }
}
