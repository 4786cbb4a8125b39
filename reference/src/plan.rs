//! An order for the day's jobs (Point 6 of the later requests): the list as
//! bytes, its refusals, the plan, and which plans are right.

use crate::calls::check_lent;
use crate::numbers::*;
use crate::orders::{granted_in_order, some_order};
use crate::request::{read_record, Request};
use crate::state::State;
use crate::tables::Tables;

/// The most jobs of a list.
pub const MOST_JOBS: usize = 64;

/// A job is lent as four bytes: action, person, target and step.
pub const JOB_BYTES: usize = 4;

/// One job of a list. The action is the request's kind number and the target its
/// folder, or the second person of a start; the step is passed over unless the
/// action is 19.
#[derive(Clone, Copy, PartialEq, Eq, Debug)]
pub struct Job {
    pub action: u8,
    pub person: u8,
    pub target: u8,
    pub step: u8,
}

impl Job {
    /// The job of four bytes; none of fewer.
    pub fn of_bytes(bytes: &[u8]) -> Option<Job> {
        match *bytes {
            [action, person, target, step] => Some(Job {
                action,
                person,
                target,
                step,
            }),
            _ => None,
        }
    }

    pub fn as_bytes(&self) -> [u8; JOB_BYTES] {
        [self.action, self.person, self.target, self.step]
    }

    /// The job of a request; a read or a write is given this step.
    pub fn of_request(request: &Request, passed_over: u8) -> Job {
        let (action, target, step) = match *request {
            Request::Read { folder, .. } => (16, folder, passed_over),
            Request::Write { folder, .. } => (17, folder, passed_over),
            Request::Start { other, .. } => (18, other, passed_over),
            Request::Step { step, folder, .. } => (19, folder, step),
        };
        Job {
            action,
            person: request.person(),
            target,
            step,
        }
    }

    /// The record that is put for the job.
    pub fn record(&self) -> Vec<u8> {
        match self.action {
            19 => vec![19, self.person, self.step, self.target],
            action => vec![action, self.person, self.target],
        }
    }
}

/// The positions are each place of the list once, in the order of putting, then
/// zeros; all zeros with a refusal.
#[derive(Clone, Copy, PartialEq, Eq, Debug)]
pub struct Plan {
    pub number: u8,
    pub positions: [u8; MOST_JOBS],
}

impl Plan {
    pub fn refused(number: u8) -> Plan {
        Plan {
            number,
            positions: [0; MOST_JOBS],
        }
    }

    pub fn of_order(order: &[usize]) -> Plan {
        let mut plan = Plan::refused(GRANTED);
        for (position, place) in plan.positions.iter_mut().zip(order) {
            *position = *place as u8;
        }
        plan
    }
}

/// The requests of a list; none if it is longer than 64 jobs, or has a start, or
/// a record that 12 or 13 would refuse. A last job that is cut is such a record.
pub fn requests_of(tables: &Tables, jobs: &[u8]) -> Option<Vec<Request>> {
    if jobs.len() > JOB_BYTES * MOST_JOBS {
        return None;
    }
    let mut requests = Vec::new();
    for bytes in jobs.chunks(JOB_BYTES) {
        let request = read_record(&Job::of_bytes(bytes)?.record())?;
        let is_start = matches!(request, Request::Start { .. });
        if is_start || !request.parties_declared(tables) || !request.step_in_range() {
            return None;
        }
        requests.push(request);
    }
    Some(requests)
}

/// The checks 10, 20, 11 and 22: the number that refuses, or what lies in the
/// buffers and the requests.
pub fn checked(
    tables: &Tables,
    history: &[u8],
    levels: &[u8],
    jobs: &[u8],
) -> Result<(State, Vec<Request>), u8> {
    let number = check_lent(tables, history, levels);
    if number != GRANTED {
        return Err(number);
    }
    let requests = requests_of(tables, jobs).ok_or(JOBS_REFUSED)?;
    Ok((State::of(history, levels), requests))
}

/// A plan for the jobs: the first order that the search finds. Nothing is
/// written.
pub fn plan(tables: &Tables, history: &[u8], levels: &[u8], jobs: &[u8]) -> Plan {
    match checked(tables, history, levels, jobs) {
        Err(number) => Plan::refused(number),
        Ok((state, requests)) => match some_order(tables, &state, &requests) {
            Some(order) => Plan::of_order(&order),
            None => Plan::refused(NO_ORDER),
        },
    }
}

/// What is wrong with a plan that somebody claims for the jobs; none if it is
/// right. Which order is handed back is free. Where the buffers are those that
/// some list put from blank leaves, 23 is right only if no order is granted
/// throughout; elsewhere it is free, but for the empty list.
pub fn fault(
    tables: &Tables,
    (history, levels): (&[u8], &[u8]),
    jobs: &[u8],
    left_by_a_list: bool,
    claimed: &Plan,
) -> Option<&'static str> {
    let checks = checked(tables, history, levels, jobs);
    if claimed.number != GRANTED && claimed.positions != [0; MOST_JOBS] {
        return Some("positions are left with a refusal");
    }
    match (checks, claimed.number) {
        (Err(number), _) if claimed.number != number => Some("10, 20, 11 or 22 is due"),
        (Err(_), _) => None,
        (Ok((state, requests)), GRANTED) => {
            let order = match order_of(claimed, requests.len()) {
                Ok(order) => order,
                Err(found) => return Some(found),
            };
            let granted = granted_in_order(tables, &state, &requests, &order);
            (granted < requests.len()).then_some("the order has a refusal")
        }
        (Ok((_, requests)), NO_ORDER) if requests.is_empty() => Some("the empty list has an order"),
        (Ok((state, requests)), NO_ORDER) => {
            let found = left_by_a_list && some_order(tables, &state, &requests).is_some();
            found.then_some("there is an order")
        }
        (Ok(_), _) => Some("0 or 23 is due"),
    }
}

/// The order of a plan for so many jobs: each place once, then zeros.
fn order_of(plan: &Plan, count: usize) -> Result<Vec<usize>, &'static str> {
    let (first, rest) = plan.positions.split_at(count);
    if rest.iter().any(|position| *position != 0) {
        return Err("a position past the list is not 0");
    }
    let order: Vec<usize> = first
        .iter()
        .map(|position| usize::from(*position))
        .collect();
    if !(0..count).all(|place| order.contains(&place)) {
        return Err("a place of the list is not in the order");
    }
    Ok(order)
}
