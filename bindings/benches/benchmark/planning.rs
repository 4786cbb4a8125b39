//! A planner in plain Rust. For each job it gathers, as one word, the jobs that it
//! may not come before: those whose level is not at most the level to which it
//! lowers their person, and those that enable its step on its folder. Then it takes
//! again and again the first job left whose word meets no other job left, and tries
//! the order so found on a copy, with the run that keeps. Where neither low-water nor
//! the pipeline is in force, the words are empty.

use crate::keeping::{run_loaded, set_of_level};
use crate::shared::*;
use crate::tables::{load, Tables};

/// The most jobs of a list, and the positions of a plan.
pub const MOST_JOBS: usize = 64;

/// What two jobs are compared by, for each job; zero past the list.
struct Jobs {
    count: usize,
    /// Whether low-water or the pipeline is in force.
    ordered: bool,
    persons: [u8; MOST_JOBS],
    folders: [u8; MOST_JOBS],
    /// The level that is needed, for a write or a step, and the level to which the
    /// person is lowered, by a read or a step, else the highest; both as sets, of
    /// which one lies in the other where a level is at most another.
    needs: [u32; MOST_JOBS],
    lowers: [u32; MOST_JOBS],
    /// A step as a set, and the steps that it enables; empty for other jobs.
    steps: [u16; MOST_JOBS],
    enables: [u16; MOST_JOBS],
}

impl Jobs {
    /// The jobs of a list, if none of them is refused with 22.
    fn of(t: &Tables, bytes: &[u8]) -> Option<Jobs> {
        let whole = bytes.chunks_exact(4);
        if whole.len() > MOST_JOBS || !whole.remainder().is_empty() {
            return None;
        }
        let mut jobs = Jobs {
            count: whole.len(),
            ordered: in_force(t, 1) || in_force(t, 3),
            persons: [0; MOST_JOBS],
            folders: [0; MOST_JOBS],
            needs: [0; MOST_JOBS],
            lowers: [!0; MOST_JOBS],
            steps: [0; MOST_JOBS],
            enables: [0; MOST_JOBS],
        };
        for (i, job) in whole.enumerate() {
            let (s, o, p) = (job[1], job[2], job[3]);
            let known = matches!(job[0], 16 | 17) || job[0] == 19 && p < 16;
            if !known || !are_declared(t, usize::from(s), usize::from(o)) {
                return None;
            }
            (jobs.persons[i], jobs.folders[i]) = (s, o);
            let level = set_of_level(t.folders[usize::from(o)].level);
            if in_force(t, 1) {
                jobs.needs[i] = if job[0] == 16 { 0 } else { level };
                jobs.lowers[i] = if job[0] == 17 { !0 } else { level };
            }
            if in_force(t, 3) && job[0] == 19 {
                jobs.steps[i] = 1 << p;
                jobs.enables[i] = t.steps[usize::from(p)];
            }
        }
        Some(jobs)
    }

    /// The jobs that one may not come before.
    #[inline]
    fn before(&self, i: usize) -> u64 {
        let (s, o) = (self.persons[i], self.folders[i]);
        let (level, step) = (!self.lowers[i], self.steps[i]);
        let mut flags = [0; MOST_JOBS];
        for (j, flag) in flags.iter_mut().enumerate() {
            let too_high = (self.persons[j] == s) & (self.needs[j] & level != 0);
            let enables = (self.folders[j] == o) & (self.enables[j] & step != 0);
            *flag = u8::from(too_high | enables);
        }
        packed(&flags)
    }

    /// An order in which no job comes before one that it may not come before: again
    /// and again the first job that waits for none. Each of the others waits for
    /// one job at a time, and is looked at again when that one is taken.
    fn order(&self) -> Option<[u8; MOST_JOBS]> {
        let mut order = [0; MOST_JOBS];
        let (mut before, mut waiting) = ([0; MOST_JOBS], [0; MOST_JOBS]);
        let mut left = match self.count {
            0 => 0,
            count => u64::MAX >> (MOST_JOBS - count),
        };
        let (mut again, mut free) = (left, 0u64);
        if self.ordered {
            for (i, set) in before[..self.count].iter_mut().enumerate() {
                *set = self.before(i);
            }
        }
        for position in &mut order[..self.count] {
            while again != 0 {
                let i = again.trailing_zeros() as usize;
                again &= again - 1;
                match before[i] & left {
                    0 => free |= 1 << i,
                    others => waiting[others.trailing_zeros() as usize % 64] |= 1 << i,
                }
            }
            if free == 0 {
                return None;
            }
            let next = free.trailing_zeros() as usize % 64;
            *position = next as u8;
            free &= free - 1;
            left &= !(1 << next);
            again = waiting[next];
        }
        Some(order)
    }
}

/// Flags of 0 or 1 as one word.
fn packed(flags: &[u8; MOST_JOBS]) -> u64 {
    let mut set = 0;
    for (k, bytes) in flags.chunks_exact(8).enumerate() {
        let byte = word(bytes, 0).wrapping_mul(0x0102_0408_1020_4080) >> 56;
        set |= byte << (8 * k);
    }
    set
}

/// Whether all jobs are granted in this order.
fn granted(t: &Tables, h: &[u8], levels: &[u8], jobs: &[u8], order: &[u8]) -> bool {
    let mut records = [0; 4 * MOST_JOBS];
    let mut length = 0;
    for position in order {
        let job = &jobs[4 * usize::from(*position)..][..4];
        let record = match job[0] {
            19 => [19, job[1], job[3], job[2]],
            kind => [kind, job[1], job[2], 0],
        };
        records[length..length + 4].copy_from_slice(&record);
        length += 3 + usize::from(job[0] == 19);
    }
    let (Ok(mut history), Ok(mut lowered)) = (h.try_into(), levels.try_into()) else {
        return false;
    };
    let lowered: &mut [u8; LEVELS_BYTES] = &mut lowered;
    let mut answers = [0; MOST_JOBS];
    let answers = &mut answers[..order.len()];
    run_loaded(t, &mut history, lowered, &records[..length], answers).0 == order.len()
}

/// Loads the book and plans: the number, and with 0 the first 64 positions are
/// written.
pub fn plan(book: &[u8], h: &[u8], levels: &[u8], jobs: &[u8], positions: &mut [u8]) -> u8 {
    let t = match load(book) {
        Ok(t) => t,
        Err(number) => return number,
    };
    let number = check_lengths(h, levels);
    if number != 0 {
        return number;
    }
    if positions.len() < MOST_JOBS {
        return 18;
    }
    let Some(list) = Jobs::of(&t, jobs) else {
        return 22;
    };
    match list.order() {
        Some(order) if granted(&t, h, levels, jobs, &order[..list.count]) => {
            positions[..MOST_JOBS].copy_from_slice(&order);
            0
        }
        _ => 23,
    }
}
