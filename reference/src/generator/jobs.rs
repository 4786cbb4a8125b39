//! Scenes of jobs for which an order is wanted. No plan is asked for whose number
//! is free: buffers are those that a list from blank leaves, or the list has no
//! order or no job.

use super::plans::{Plan, LONGEST_ROW};
use super::{Generator, WHOLE};
use crate::calls::answers_due;
use crate::command::{Command, Lengths};
use crate::marked;
use crate::numbers::GRANTED;
use crate::orders::{all_orders, own_order_is_granted, some_order};
use crate::plan::{plan, Job, JOB_BYTES, MOST_JOBS};
use crate::request::Request;
use crate::rules::judge_request;

/// Kinds of jobs, each as often as it comes up.
const KINDS: &[u8] = &[16, 17, 17, 19, 19, 19, 19];

/// Masks under which the order matters: with low-water, the pipeline or both.
const ORDERED: [u8; 12] = [2, 3, 6, 7, 8, 9, 10, 11, 12, 13, 14, 15];

/// Masks of walls and roles alone, under which every order is as good.
const UNORDERED: [u8; 4] = [0, 1, 4, 5];

impl Generator {
    pub fn orders_for_jobs(&mut self) {
        self.one_order_alone();
        self.order_of_checks_of_plans();
        for mask in ORDERED.into_iter().chain(ORDERED) {
            let plan = Plan::many_levels(&mut self.random, mask);
            self.jobs_of_days(&plan, 2);
        }
        for mask in UNORDERED {
            let plan = Plan::small(&mut self.random, mask);
            self.jobs_of_days(&plan, 1);
        }
        for mask in [10, 15, 3, 8] {
            let plan = Plan::many_levels(&mut self.random, mask);
            self.refused_lists(&plan);
        }
        for mask in [15, 10, 2, 8, 11] {
            let plan = Plan::many_levels(&mut self.random, mask);
            self.jobs_after_no_list(&plan);
        }
        for mask in [15, 10, 8, 2] {
            self.longest_lists(mask);
        }
    }

    /// The worked case, in every order of its list, and under every mask; and the
    /// first jobs of it alone.
    fn one_order_alone(&mut self) {
        self.load(&marked::ORDER_BOOK);
        for order in all_orders(4) {
            self.blank();
            let jobs = order
                .iter()
                .flat_map(|place| job_at(&marked::ORDER_JOBS, *place));
            self.plan(&jobs.collect::<Vec<u8>>());
        }
        // Once more: the steps are done.
        self.plan(&marked::ORDER_JOBS);
        self.plan(&[]);
        for mask in 0..16 {
            self.field(0, 0, mask);
            self.blank();
            self.plan(&marked::ORDER_JOBS);
        }
        self.field(0, 0, 10);
        for count in 0..4 {
            self.blank();
            self.plan(&marked::ORDER_JOBS[..JOB_BYTES * count]);
            self.plan(&marked::ORDER_JOBS[JOB_BYTES * (3 - count)..JOB_BYTES * 3]);
        }
    }

    /// The causes of 10, 20, 11, 22 and 23, alone and together.
    fn order_of_checks_of_plans(&mut self) {
        self.load(&marked::ORDER_BOOK);
        self.blank();
        let lists: [&[u8]; 4] = [
            &[16, 0, 0, 99],
            &[19, 0, 1, 1],
            &[19, 0, 1, 1, 18, 0, 0, 0],
            &[19, 0, 1, 1, 16, 0, 0],
        ];
        for mask in [16, 10] {
            self.field(0, 0, mask);
            self.blank();
            for (history, levels) in [(18_944, 128), (18_945, 128), (18_944, 127), (18_943, 255)] {
                for jobs in lists {
                    self.send(Command::Plan {
                        lent: Lengths { history, levels },
                        jobs: jobs.to_vec(),
                    });
                }
            }
        }
    }

    /// From blank or after some requests: jobs that have an order, once more on
    /// what these leave, jobs that have none, and a list that is refused.
    fn jobs_of_days(&mut self, plan: &Plan, days: usize) {
        self.begin(plan);
        for day in 0..days {
            if day > 0 {
                self.blank();
            }
            if self.random.chance(60) {
                let count = self.random.between(1, 5);
                let requests = self.some_list(count).concat();
                self.run(answers_due(&requests), &requests);
            }
            for count in [6, 4, 5] {
                let count = self.random.between(count - 1, count);
                self.jobs_with_an_order(count);
                if self.random.chance(50) {
                    self.blank();
                }
            }
            self.jobs_without_an_order();
        }
        self.refused_jobs();
        if self.random.chance(40) {
            self.plan(&[]);
        }
    }

    /// Jobs that are granted one after another, in an order that is not, if some
    /// tries find one.
    fn jobs_with_an_order(&mut self, count: usize) {
        let (mut requests, state) = (Vec::new(), self.state_now());
        for _ in 0..40 {
            requests = self.granted_requests(count);
            self.random.shuffle(&mut requests);
            let own = own_order_is_granted(&self.player.tables, &state, &requests);
            if requests.len() > 2 && !own {
                break;
            }
        }
        let jobs = self.jobs_of(&requests);
        self.plan(&jobs);
    }

    /// Mostly granted jobs and one more, so that no order is left, if some tries
    /// find such a list.
    fn jobs_without_an_order(&mut self) {
        let jobs = self.some_jobs_without_an_order();
        self.plan(&jobs);
    }

    fn some_jobs_without_an_order(&mut self) -> Vec<u8> {
        let mut requests = Vec::new();
        for _ in 0..40 {
            let count = self.random.between(0, 5);
            requests = self.granted_requests(count);
            let busy = self.busy_folders();
            requests.push(self.some_job(&busy));
            self.random.shuffle(&mut requests);
            let (tables, state) = (&self.player.tables, self.state_now());
            if some_order(tables, &state, &requests).is_none() {
                break;
            }
        }
        self.jobs_of(&requests)
    }

    /// Requests that are granted in this order from the player's buffers, mostly
    /// of few folders; fewer if many tries find no other.
    fn granted_requests(&mut self, count: usize) -> Vec<Request> {
        let (mut state, busy) = (self.state_now(), self.busy_folders());
        let mut requests = Vec::new();
        for _ in 0..60 * count {
            let again = self.random.chance(2) && !requests.is_empty();
            let request = match again {
                true => self.random.pick(&requests),
                false => self.some_job(&busy),
            };
            let wanted = again || !state.history.contains(&request);
            let tables = &self.player.tables;
            let granted = wanted && judge_request(tables, &state, &request) == GRANTED;
            if requests.len() < count && granted {
                state.record(tables, &request);
                requests.push(request);
            }
        }
        requests
    }

    fn busy_folders(&mut self) -> Vec<u8> {
        let mut folders = self.declared_folders();
        self.random.shuffle(&mut folders);
        folders.truncate(3);
        folders
    }

    /// A job of declared parties, mostly on one of these folders.
    fn some_job(&mut self, busy: &[u8]) -> Request {
        let (persons, folders) = (self.declared_persons(), self.declared_folders());
        let person = self.random.pick(&persons);
        let folder = match self.random.chance(75) {
            true => self.random.pick(busy),
            false => self.random.pick(&folders),
        };
        let any_step = self.random.below(16) as u8;
        match self.random.pick(KINDS) {
            16 => Request::Read { person, folder },
            17 => Request::Write { person, folder },
            _ => Request::Step {
                person,
                step: self.random.pick(&[0, any_step, any_step]),
                folder,
            },
        }
    }

    /// The jobs as bytes; the step of a read or a write is any byte.
    fn jobs_of(&mut self, requests: &[Request]) -> Vec<u8> {
        let mut jobs = Vec::new();
        for request in requests {
            let passed_over = self.random.byte();
            jobs.extend(Job::of_request(request, passed_over).as_bytes());
        }
        jobs
    }

    /// Lists with each cause of 22, among jobs that have an order and others.
    fn refused_lists(&mut self, plan: &Plan) {
        self.begin(plan);
        for _ in 0..14 {
            self.refused_jobs();
        }
    }

    /// A list with one cause of 22: a start, an unknown action, an undeclared
    /// party, a step above 15, or a last job cut short.
    fn refused_jobs(&mut self) {
        let mut jobs = match self.random.chance(70) {
            true => {
                let requests = self.granted_requests(3);
                self.jobs_of(&requests)
            }
            false => self.some_jobs_without_an_order(),
        };
        let (persons, folders) = (self.declared_persons(), self.declared_folders());
        let (person, folder) = (self.random.pick(&persons), self.random.pick(&folders));
        let (step, other) = (self.random.below(16) as u8, self.random.pick(&persons));
        let bad = match self.random.below(7) {
            0 => [18, person, other, step],
            1 => [self.random.pick(&[0, 1, 15, 20, 255]), person, folder, step],
            2 => [19, self.random.between(64, 255) as u8, folder, step],
            3 => [
                self.random.pick(&[16, 17, 19]),
                person,
                self.undeclared_folder(),
                step,
            ],
            4 => [19, person, folder, self.random.between(16, 255) as u8],
            5 => [18, person, 255, step],
            _ => {
                let cut = self.random.between(1, 3);
                jobs.extend(&[19, person, folder][..cut]);
                return self.plan(&jobs);
            }
        };
        let at = JOB_BYTES * self.random.below(jobs.len() / JOB_BYTES + 1);
        jobs.splice(at..at, bad);
        self.plan(&jobs);
    }

    fn undeclared_folder(&mut self) -> u8 {
        let declared = self.declared_folders();
        let others: Vec<u8> = (0..=255).filter(|it| !declared.contains(it)).collect();
        self.random.pick(&others)
    }

    /// On buffers that no list leaves: lists that have no order all the same, the
    /// empty list, and refused ones.
    fn jobs_after_no_list(&mut self, plan: &Plan) {
        self.begin(plan);
        for _ in 0..6 {
            self.foreign_byte();
        }
        self.store_others_for_declared();
        for _ in 0..8 {
            let jobs = self.some_jobs_without_an_order();
            self.plan_if_not_free(&jobs);
        }
        self.plan(&[]);
        self.refused_jobs();
    }

    /// A plan on buffers that no list leaves, unless there is an order.
    fn plan_if_not_free(&mut self, jobs: &[u8]) {
        let player = &self.player;
        let (history, levels) = (usize::from(WHOLE.history), usize::from(WHOLE.levels));
        let (history, levels) = (&player.history[..history], &player.levels[..levels]);
        if plan(&player.tables, history, levels, jobs).number != 0 {
            self.plan(jobs);
        }
    }

    /// As many jobs as a list may have, in the order in which they are granted
    /// and in another, one more, and a byte more.
    fn longest_lists(&mut self, mask: u8) {
        let small = Plan::many_levels(&mut self.random, mask);
        self.begin(&Plan {
            persons: 10,
            folders: 20,
            row: &[LONGEST_ROW],
            steps: 8,
            ..small
        });
        let mut requests = self.granted_requests(MOST_JOBS);
        while requests.len() < MOST_JOBS {
            let again: Vec<Request> = requests
                .iter()
                .filter(|it| !matches!(it, Request::Step { .. }))
                .copied()
                .collect();
            let request = self.random.pick(&again);
            let place = requests.iter().position(|it| *it == request).unwrap_or(0);
            requests.insert(place, request);
        }
        self.random.shuffle(&mut requests);
        let jobs = self.jobs_of(&requests);
        for more in [&jobs[..JOB_BYTES], &[16]] {
            self.plan(&[&jobs, more].concat());
        }
        self.plan(&jobs);
    }
}

/// The bytes of one job of a list.
fn job_at(jobs: &[u8], place: usize) -> Vec<u8> {
    jobs[JOB_BYTES * place..JOB_BYTES * (place + 1)].to_vec()
}
