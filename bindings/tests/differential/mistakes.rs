//! Monitors that plan wrongly, in one place each.

use crate::monitor::Monitor;
use kweldabe::MOST_JOBS;
use reference::plan::JOB_BYTES;
use reference::planners::Planner;
use reference::Job;

#[derive(Clone, Copy, PartialEq, Eq, Debug)]
pub enum Mistake {
    /// A planner of the reference that is wrong in one place.
    By(Planner),
    TriesOnTheHistory,
    TriesOnTheLevels,
    PositionsPastTheLast,
    PositionsClearedByARefusal,
    EighteenAfterTheJobs,
    LongerListCut,
}

impl Mistake {
    pub fn all() -> Vec<Mistake> {
        let mut all = Planner::WRONG.map(Mistake::By).to_vec();
        all.extend([
            Mistake::TriesOnTheHistory,
            Mistake::TriesOnTheLevels,
            Mistake::PositionsPastTheLast,
            Mistake::PositionsClearedByARefusal,
            Mistake::EighteenAfterTheJobs,
            Mistake::LongerListCut,
        ]);
        all
    }
}

pub struct Mistaken {
    pub mistake: Mistake,
}

/// The plan of a wrong planner, over the bytes of a book.
fn plan_by(
    planner: Planner,
    book: &[u8],
    (history, levels): (&[u8], &[u8]),
    jobs: &[u8],
    positions: &mut [u8],
) -> u8 {
    let loaded = reference::load(book);
    if loaded.number != 0 {
        return loaded.number;
    }
    let found = planner.plan(&loaded.tables, history, levels, jobs);
    if ![10, 20].contains(&found.number) && positions.len() < MOST_JOBS {
        return 18;
    }
    if found.number == 0 || found.positions != [0; MOST_JOBS] {
        positions[..MOST_JOBS].copy_from_slice(&found.positions);
    }
    found.number
}

impl Monitor for Mistaken {
    fn plan(
        &self,
        book: &[u8],
        (history, levels): (&mut [u8], &mut [u8]),
        jobs: &[u8],
        positions: &mut [u8],
    ) -> u8 {
        let lent = (&history[..], &levels[..]);
        let cut = &jobs[..jobs.len().min(JOB_BYTES * MOST_JOBS)];
        let number = match self.mistake {
            Mistake::By(planner) => return plan_by(planner, book, lent, jobs, positions),
            Mistake::LongerListCut => {
                return kweldabe::plan_bytes(book, lent.0, lent.1, cut, positions)
            }
            _ => kweldabe::plan_bytes(book, lent.0, lent.1, jobs, positions),
        };
        let first = jobs.get(..JOB_BYTES).and_then(Job::of_bytes);
        match (self.mistake, number, first) {
            (Mistake::TriesOnTheHistory, 0 | 23, Some(job)) => {
                kweldabe::put(book, history, &mut levels.to_vec(), &job.record());
            }
            (Mistake::TriesOnTheLevels, 0 | 23, Some(job)) => {
                kweldabe::put(book, &mut history.to_vec(), levels, &job.record());
            }
            (Mistake::PositionsPastTheLast, 0, _) => positions[MOST_JOBS..].fill(0),
            (Mistake::PositionsClearedByARefusal, 1.., _) => positions.fill(0),
            (Mistake::EighteenAfterTheJobs, 18, _) => {
                let room = &mut [0; MOST_JOBS];
                let later = kweldabe::plan_bytes(book, history, levels, jobs, room);
                return if later == 0 { 18 } else { later };
            }
            _ => {}
        }
        number
    }
}
