//! Plans in a scene: a list of jobs, the plan that is handed back for it, and what
//! the reference says of that plan.

use super::{kept, same, LentBuffers, Scene};
use crate::books::{good_book, some_bit};
use crate::lent::Lent;
use crate::monitor::Monitor;
use crate::seen::Seen;
use kweldabe::MOST_JOBS;
use reference::history::index;
use reference::orders::own_order_is_granted;
use reference::plan::{checked, fault, JOB_BYTES};
use reference::random::Random;
use reference::rules::judge_request;
use reference::{Buffers, Job, Plan, Request, State};

/// The plans of a scene that has no other call.
const PLANS: usize = 40;

/// In so many of a hundred plans of such a scene the levels have another length.
const WRONG_LEVELS: usize = 2;

/// How many jobs, each as often as it comes up.
const COUNTS: &[usize] = &[0, 1, 2, 3, 3, 4, 4, 4, 5, 5, 5, 6, 6, 6, 6];

/// Lengths of the positions that are lent.
const ROOMS: &[usize] = &[
    64, 64, 64, 64, 64, 64, 64, 64, 64, 64, 64, 64, 65, 80, 63, 0,
];

/// Plays plans alone, on a good book: how many are right, or the first that is
/// not.
pub fn play_plans(monitor: &impl Monitor, seed: u64, seen: &mut Seen) -> Result<usize, String> {
    let mut random = Random::new(seed);
    let book = good_book(&mut random);
    let mut scene = Scene::new(monitor, seen, random, book);
    scene.wrong_levels = WRONG_LEVELS;
    let damaged = scene.random.chance(40);
    scene.begin(damaged);
    for _ in 0..PLANS {
        scene
            .some_plan(damaged)
            .map_err(|found| format!("seed {seed}, plan {}: {found}", scene.calls))?;
    }
    Ok(scene.calls)
}

impl<M: Monitor> Scene<'_, M> {
    /// Both buffers as a blank leaves them; and in some scenes with requests
    /// recorded that nobody granted, and with levels changed.
    fn begin(&mut self, damaged: bool) {
        let blank = Buffers::blank(&self.loaded.tables);
        (self.history, self.levels) = (blank.history, blank.levels);
        self.left_by_a_list = !damaged;
        if !damaged {
            return;
        }
        for _ in 0..self.random.below(30) {
            let request = self.parties.job(&mut self.random, None);
            if request.parties_declared(&self.loaded.tables) && request.step_in_range() {
                let place = index(&request);
                self.history[place / 8] |= 1 << (place % 8);
            }
        }
        for _ in 0..self.random.below(8) {
            self.store_a_level();
        }
    }

    /// Somebody else stores a level.
    pub(super) fn store_a_level(&mut self) {
        let at = 2 * usize::from(self.parties.person(&mut self.random) % 64);
        let bit = some_bit(&mut self.random);
        self.levels[at + bit / 8] ^= 1 << (bit % 8);
        self.left_by_a_list = false;
    }

    /// A plan, now and then from a new beginning or after requests that are granted.
    fn some_plan(&mut self, damaged: bool) -> Result<(), String> {
        match self.random.below(100) {
            0..=24 => self.begin(damaged),
            25..=44 => {
                let state = State::of(&self.history, &self.levels);
                let requests = self.granted_jobs(&state, 2);
                self.record(&requests);
            }
            45 => self.store_a_level(),
            _ => {}
        }
        self.plan()
    }

    fn record(&mut self, granted: &[Request]) {
        let mut state = State::of(&self.history, &self.levels);
        for request in granted {
            state.record(&self.loaded.tables, request);
        }
        state.write(&mut self.history, &mut self.levels);
    }

    /// One plan. Its jobs are then recorded in some cases, if they have an order.
    pub(super) fn plan(&mut self) -> Result<(), String> {
        let jobs = self.some_jobs();
        let theirs = self.some_buffers();
        let room = self.random.pick(ROOMS);
        let before: Vec<u8> = (0..room).map(|_| self.random.byte()).collect();
        let (mut ours, asked) = (LentBuffers::new(&theirs), Lent::new(&jobs));
        let mut positions = Lent::new(&before);
        let number = self.monitor.plan(
            self.book.bytes(),
            (ours.history.bytes_mut(), ours.levels.bytes_mut()),
            asked.bytes(),
            positions.bytes_mut(),
        );
        ours.kept("plan", &theirs)?;
        kept("plan", "jobs", &asked, &jobs)?;
        let mut left = before;
        let mut plan = Plan::refused(number);
        if number == 0 && room >= MOST_JOBS {
            let written = &positions.bytes()[..MOST_JOBS];
            plan.positions.copy_from_slice(written);
            left[..MOST_JOBS].copy_from_slice(written);
        }
        kept("plan", "positions", &positions, &left)?;
        self.expect_right(&theirs, &jobs, room, &plan)?;
        self.ended("plan", number)
    }

    /// The number of a refused book, 10 and 20 stand before 18, and the others
    /// after it.
    fn expect_right(
        &mut self,
        lent: &Buffers,
        jobs: &[u8],
        room: usize,
        plan: &Plan,
    ) -> Result<(), String> {
        let tables = &self.loaded.tables;
        let checks = checked(tables, &lent.history, &lent.levels, jobs);
        let early = match (self.refused_book(), &checks) {
            (Some(number), _) => Some(number),
            (None, Err(number @ (10 | 20))) => Some(*number),
            _ => (room < MOST_JOBS).then_some(18),
        };
        if let Some(number) = early {
            return same("plan", plan.number, number);
        }
        let buffers = (&lent.history[..], &lent.levels[..]);
        if let Some(found) = fault(tables, buffers, jobs, self.left_by_a_list, plan) {
            return Err(format!("plan gave {}: {found}", plan.number));
        }
        if let Ok((state, requests)) = checks {
            self.count_plan(&state, &requests, plan);
        }
        Ok(())
    }

    fn count_plan(&mut self, state: &State, requests: &[Request], plan: &Plan) {
        let (tables, seen) = (&self.loaded.tables, &mut self.seen.plans);
        let counts = match self.left_by_a_list {
            true => &mut seen.after_lists,
            false => &mut seen.elsewhere,
        };
        counts[usize::from(plan.number == 0)] += 1;
        let step = |request: &Request| matches!(request, Request::Step { .. });
        seen.with_step += usize::from(requests.iter().any(step));
        if plan.number == 0 {
            let own = own_order_is_granted(tables, state, requests);
            seen.not_their_own += usize::from(!own);
            seen.long += usize::from(requests.len() > 6);
            if self.random.chance(30) {
                self.record(requests);
            }
        }
    }

    /// Mostly jobs that are granted in some order, if possible not in their own; now
    /// and then one more, and now and then a list that is refused.
    fn some_jobs(&mut self) -> Vec<u8> {
        let state = State::of(&self.history, &self.levels);
        let long = self.random.chance(3);
        let count = match long {
            true => self.random.between(7, MOST_JOBS),
            false => self.random.pick(COUNTS),
        };
        let mut requests = self.granted_jobs(&state, count);
        if !long && count < 6 && self.random.chance(45) {
            requests.push(self.parties.job(&mut self.random, None));
        }
        if !requests.is_empty() && requests.len() < 6 && self.random.chance(6) {
            requests.push(self.random.pick(&requests));
        }
        for _ in 0..6 {
            self.random.shuffle(&mut requests);
            if !own_order_is_granted(&self.loaded.tables, &state, &requests) {
                break;
            }
        }
        let mut jobs = Vec::new();
        for request in &requests {
            let passed_over = self.random.byte();
            jobs.extend(Job::of_request(request, passed_over).as_bytes());
        }
        if !long && self.random.chance(7) {
            self.spoil(&mut jobs);
        }
        jobs
    }

    /// One field changed, a start or any job put in, bytes cut off, or the list as
    /// often as makes it longer than a list may be, or just as long.
    fn spoil(&mut self, jobs: &mut Vec<u8>) {
        let at = JOB_BYTES * self.random.below(jobs.len() / JOB_BYTES + 1);
        let person = self.parties.person(&mut self.random);
        match self.random.below(6) {
            0 if at < jobs.len() => jobs[at + self.random.below(3)] = self.random.byte(),
            1 => drop(jobs.splice(at..at, [18, person, person, 0])),
            2 => drop(jobs.splice(at..at, [0; 4].map(|_| self.random.byte()))),
            3 => jobs.truncate(jobs.len().saturating_sub(self.random.between(1, 3))),
            4 if at < jobs.len() => jobs[at + 3] = self.random.byte(),
            _ => {
                let count = self.random.pick(&[MOST_JOBS, MOST_JOBS + 1, 3 * MOST_JOBS]);
                let first = [16, person, self.random.byte(), 0];
                let job = jobs.get(..JOB_BYTES).unwrap_or(&first);
                *jobs = job.repeat(count);
            }
        }
    }

    /// Requests that are granted one after another, mostly of few folders; fewer
    /// if some tries find no other.
    fn granted_jobs(&mut self, state: &State, count: usize) -> Vec<Request> {
        let (mut state, mut requests) = (state.clone(), Vec::new());
        let busy = self.parties.busy(&mut self.random, 1 + count / 2);
        for _ in 0..8 * count {
            let tables = &self.loaded.tables;
            let on = Some((&busy, tables, &state));
            let request = self.parties.job(&mut self.random, on);
            if judge_request(tables, &state, &request) == 0 && requests.len() < count {
                state.record(tables, &request);
                requests.push(request);
            }
        }
        requests
    }
}
