//! A planner that compares jobs by pairs, and planners that read Point 6 of the
//! later requests otherwise, each in one place. They are for the tests: the right
//! one is held to the search over all orders, and each of the others must be told
//! apart.

use crate::calls::check_lent;
use crate::level::Compared;
use crate::numbers::{GRANTED, JOBS_REFUSED, NO_ORDER};
use crate::orders::granted_in_order;
use crate::plan::{Job, Plan, JOB_BYTES, MOST_JOBS};
use crate::request::{read_record, Request};
use crate::rules::judge_request;
use crate::state::State;
use crate::tables::{Tables, LOW_WATER_RULE, PIPELINE_RULE};
use std::collections::BTreeSet;

/// The right planner, and wrong ones: first those that find another order, then,
/// from `SixtyFourRefused` on, those that refuse otherwise, and then those that
/// hand back other positions.
#[derive(Clone, Copy, PartialEq, Eq, PartialOrd, Ord, Debug)]
pub enum Planner {
    Right,
    ReadsBeforeSteps,
    LevelTestLeftOut,
    LevelTestTurnedRound,
    RanksAlone,
    ReadsDoNotLower,
    StepsDoNotLower,
    EnablingTestLeftOut,
    EnablingTestTurnedRound,
    OrderNotTried,
    OwnOrderAlone,
    EachJobAlone,
    TriedFromBlank,
    SixtyFourRefused,
    EmptyHasNoOrder,
    StartsPlanned,
    UndeclaredHasNoOrder,
    StepOfAReadCounts,
    CutJobPassedOver,
    JobsBeforeLent,
    RepeatsAsOne,
    PlaceTwice,
    PlacesFromOne,
    PlacesInverted,
    FoundOrderLeft,
}

use Planner::*;

impl Planner {
    pub const WRONG: [Planner; 24] = [
        ReadsBeforeSteps,
        LevelTestLeftOut,
        LevelTestTurnedRound,
        RanksAlone,
        ReadsDoNotLower,
        StepsDoNotLower,
        EnablingTestLeftOut,
        EnablingTestTurnedRound,
        OrderNotTried,
        OwnOrderAlone,
        EachJobAlone,
        TriedFromBlank,
        SixtyFourRefused,
        EmptyHasNoOrder,
        StartsPlanned,
        UndeclaredHasNoOrder,
        StepOfAReadCounts,
        CutJobPassedOver,
        JobsBeforeLent,
        RepeatsAsOne,
        PlaceTwice,
        PlacesFromOne,
        PlacesInverted,
        FoundOrderLeft,
    ];

    /// The plan of this planner.
    pub fn plan(self, tables: &Tables, history: &[u8], levels: &[u8], jobs: &[u8]) -> Plan {
        let (state, requests) = match self.checked(tables, history, levels, jobs) {
            Ok(found) => found,
            Err(number) => return Plan::refused(number),
        };
        let order = match (self, self.order(tables, &requests)) {
            (OwnOrderAlone | EachJobAlone, _) => Some((0..requests.len()).collect()),
            (OrderNotTried, None) => Some((0..requests.len()).collect()),
            (_, order) => order,
        };
        match order {
            Some(order) if self.takes(tables, &state, &requests, &order) => {
                self.handed_back(&requests, &order)
            }
            Some(order) if self == FoundOrderLeft => Plan {
                number: NO_ORDER,
                ..Plan::of_order(&order)
            },
            _ => Plan::refused(NO_ORDER),
        }
    }

    /// The checks before an order is looked for.
    fn checked(
        self,
        tables: &Tables,
        history: &[u8],
        levels: &[u8],
        jobs: &[u8],
    ) -> Result<(State, Vec<Request>), u8> {
        let whole = jobs.len() - jobs.len() % JOB_BYTES;
        let jobs = match self {
            CutJobPassedOver => &jobs[..whole],
            _ => jobs,
        };
        let lent = check_lent(tables, history, levels);
        let number = match (self, lent, self.number_of_jobs(tables, jobs)) {
            (JobsBeforeLent, lent, GRANTED) => lent,
            (JobsBeforeLent, _, number) | (_, GRANTED, number) => number,
            (_, lent, _) => lent,
        };
        match number {
            GRANTED => Ok((State::of(history, levels), readable(jobs))),
            number => Err(number),
        }
    }

    /// The number that refuses the list itself; 0 if there is none.
    fn number_of_jobs(self, tables: &Tables, jobs: &[u8]) -> u8 {
        let most = MOST_JOBS - usize::from(self == SixtyFourRefused);
        if jobs.len() > JOB_BYTES * most {
            return JOBS_REFUSED;
        }
        if self == EmptyHasNoOrder && jobs.is_empty() {
            return NO_ORDER;
        }
        let numbers = jobs
            .chunks(JOB_BYTES)
            .map(|bytes| self.number_of_job(tables, bytes));
        numbers.max().unwrap_or(GRANTED)
    }

    fn number_of_job(self, tables: &Tables, bytes: &[u8]) -> u8 {
        let job = Job::of_bytes(bytes);
        let request = job.and_then(|job| read_record(&job.record()));
        let (job, request) = match (job, request) {
            (Some(job), Some(request)) => (job, request),
            _ => return JOBS_REFUSED,
        };
        let declared = request.parties_declared(tables) && request.step_in_range();
        let is_start = matches!(request, Request::Start { .. });
        match self {
            UndeclaredHasNoOrder if !declared && !is_start => NO_ORDER,
            StepOfAReadCounts if job.step > 15 => JOBS_REFUSED,
            StartsPlanned if declared => GRANTED,
            _ if is_start || !declared => JOBS_REFUSED,
            _ => GRANTED,
        }
    }

    /// Takes the first job that may come before all others that are left, again
    /// and again; none if there is no such job.
    fn order(self, tables: &Tables, requests: &[Request]) -> Option<Vec<usize>> {
        let mut left: BTreeSet<usize> = (0..requests.len()).collect();
        let mut order = Vec::new();
        while !left.is_empty() {
            let first = |place: &usize| {
                let mut others = left.iter().filter(|other| *other != place);
                others.all(|other| self.may_precede(tables, requests[*place], requests[*other]))
            };
            let next = left.iter().copied().find(first)?;
            left.remove(&next);
            order.push(next);
        }
        Some(order)
    }

    /// Whether one request may come before another, by the two alone: it must
    /// not lower the person below what the other needs, nor be a step that the
    /// other enables.
    fn may_precede(self, tables: &Tables, first: Request, second: Request) -> bool {
        let lowers = tables.in_force(LOW_WATER_RULE) && self.lowers_below(tables, first, second);
        let enabled = tables.in_force(PIPELINE_RULE) && self.enables(tables, second, first);
        !lowers && !enabled
    }

    fn lowers_below(self, tables: &Tables, first: Request, second: Request) -> bool {
        let is_step = |request: Request| matches!(request, Request::Step { .. });
        let is_read = |request: Request| matches!(request, Request::Read { .. });
        let lowering = match self {
            ReadsDoNotLower if is_read(first) => None,
            StepsDoNotLower if is_step(first) => None,
            _ => first.folder_that_lowers(),
        };
        if first.person() != second.person() || self == LevelTestLeftOut {
            return false;
        }
        let read_and_step = is_read(first) && is_step(second) || is_step(first) && is_read(second);
        if self == ReadsBeforeSteps && read_and_step {
            return is_step(first);
        }
        let needed = match (second, second.folder_accessed()) {
            (Request::Read { .. }, _) | (_, None) => return false,
            (_, Some(folder)) => tables.folder(folder).level,
        };
        let left = match lowering {
            Some(folder) => tables.folder(folder).level,
            None => return false,
        };
        match self {
            LevelTestTurnedRound => left.compare(&needed) != Compared::AtMost,
            RanksAlone => needed.compare(&left) == Compared::RankTooLow,
            _ => needed.compare(&left) != Compared::AtMost,
        }
    }

    /// Whether both are steps, on one folder, and one enables the other.
    fn enables(self, tables: &Tables, one: Request, other: Request) -> bool {
        let (one, other) = match self {
            EnablingTestLeftOut => return false,
            EnablingTestTurnedRound => (other, one),
            _ => (one, other),
        };
        match (one, other) {
            (
                Request::Step { step, folder, .. },
                Request::Step {
                    step: enabled,
                    folder: on,
                    ..
                },
            ) => folder == on && tables.enables[usize::from(step)][usize::from(enabled)],
            _ => false,
        }
    }

    /// Whether the order is taken: as a rule if putting it is granted throughout.
    fn takes(self, tables: &Tables, state: &State, requests: &[Request], order: &[usize]) -> bool {
        let granted = |state: &State| granted_in_order(tables, state, requests, order);
        match self {
            OrderNotTried => true,
            TriedFromBlank => granted(&State::blank(tables)) == requests.len(),
            EachJobAlone => requests
                .iter()
                .all(|request| judge_request(tables, state, request) == GRANTED),
            _ => granted(state) == requests.len(),
        }
    }

    /// The plan of an order that is taken.
    fn handed_back(self, requests: &[Request], order: &[usize]) -> Plan {
        let first_of = |place: usize| {
            let same = requests.iter().position(|it| *it == requests[place]);
            same.unwrap_or(place)
        };
        let mut order = order.to_vec();
        match self {
            RepeatsAsOne => order.iter_mut().for_each(|place| *place = first_of(*place)),
            PlaceTwice if order.len() > 1 => order[1] = order[0],
            PlacesFromOne => order.iter_mut().for_each(|place| *place += 1),
            PlacesInverted => {
                let mut inverted = vec![0; order.len()];
                for (turn, place) in order.iter().enumerate() {
                    inverted[*place] = turn;
                }
                order = inverted;
            }
            _ => {}
        }
        Plan::of_order(&order)
    }
}

/// The requests of the jobs, which all can be read.
fn readable(jobs: &[u8]) -> Vec<Request> {
    jobs.chunks(JOB_BYTES)
        .filter_map(Job::of_bytes)
        .filter_map(|job| read_record(&job.record()))
        .collect()
}
