//! Orders in which requests are put (Point 6 of the later requests): how many of
//! them one order grants, and a search over all orders.

use crate::numbers::{GRANTED, PIPELINE};
use crate::request::Request;
use crate::rules::{judge_request, steps_done};
use crate::state::State;
use crate::tables::Tables;
use std::collections::BTreeSet;

/// Puts the requests in this order, each recorded if it is granted: how many are.
pub fn granted_in_order(
    tables: &Tables,
    state: &State,
    requests: &[Request],
    order: &[usize],
) -> usize {
    let mut state = state.clone();
    let mut granted = 0;
    for place in order {
        if judge_request(tables, &state, &requests[*place]) == GRANTED {
            state.record(tables, &requests[*place]);
            granted += 1;
        }
    }
    granted
}

/// Whether every one of the requests is granted as they are listed.
pub fn own_order_is_granted(tables: &Tables, state: &State, requests: &[Request]) -> bool {
    let own: Vec<usize> = (0..requests.len()).collect();
    granted_in_order(tables, state, requests, &own) == requests.len()
}

/// Every order of so many places.
pub fn all_orders(count: usize) -> Vec<Vec<usize>> {
    if count == 0 {
        return vec![Vec::new()];
    }
    let mut orders = Vec::new();
    for order in all_orders(count - 1) {
        for at in 0..count {
            let mut longer = order.clone();
            longer.insert(at, count - 1);
            orders.push(longer);
        }
    }
    orders
}

/// An order in which every one of the requests is granted from this state, if
/// there is one.
pub fn some_order(tables: &Tables, state: &State, requests: &[Request]) -> Option<Vec<usize>> {
    let mut search = Search {
        tables,
        requests,
        failed: BTreeSet::new(),
        order: Vec::new(),
    };
    let pending = (0..requests.len()).collect();
    search.extend(state, &pending).then_some(search.order)
}

struct Search<'a> {
    tables: &'a Tables,
    requests: &'a [Request],
    /// Pending places from which no order was found. What is put before them is
    /// all the others, and leaves the same state in every order.
    failed: BTreeSet<BTreeSet<usize>>,
    order: Vec<usize>,
}

impl Search<'_> {
    /// Puts each pending request that is granted next, and the others after it:
    /// whether all are granted in some order, which is then the order so far.
    fn extend(&mut self, state: &State, pending: &BTreeSet<usize>) -> bool {
        if self.failed.contains(pending) {
            return false;
        }
        let judged: Vec<(usize, u8)> = pending
            .iter()
            .map(|place| {
                let number = judge_request(self.tables, state, &self.requests[*place]);
                (*place, number)
            })
            .collect();
        let refused = |(place, number): &(usize, u8)| self.stays(state, pending, *place, *number);
        if judged.iter().any(refused) {
            return false;
        }
        for (place, _) in judged.iter().filter(|(_, number)| *number == GRANTED) {
            let (mut next, mut left) = (state.clone(), pending.clone());
            next.record(self.tables, &self.requests[*place]);
            left.remove(place);
            self.order.push(*place);
            if self.extend(&next, &left) {
                return true;
            }
            self.order.pop();
        }
        if !pending.is_empty() {
            self.failed.insert(pending.clone());
        }
        pending.is_empty()
    }

    /// Whether a number is a refusal that no other pending request ends. One by
    /// the wall, by low-water or by roles stays, since what a person opened and
    /// the rights used only grow and the stored levels only fall. One by the
    /// pipeline stays for create; another step needs one that enables it, done or
    /// pending on its folder, and that enables none of the steps done by now.
    fn stays(&self, state: &State, pending: &BTreeSet<usize>, place: usize, number: u8) -> bool {
        let (wanted, on) = match (number, self.requests[place]) {
            (GRANTED, _) => return false,
            (PIPELINE, Request::Step { step, folder, .. }) if step != 0 => (step, folder),
            _ => return true,
        };
        let done = steps_done(self.tables, &state.history, on);
        let mut before = done.clone();
        for other in pending {
            if let Request::Step { step, folder, .. } = self.requests[*other] {
                if folder == on {
                    before.insert(usize::from(step));
                }
            }
        }
        let enables = |step: usize, other: usize| self.tables.enables[step][other];
        !before.iter().any(|step| {
            let is_last = !done.iter().any(|after| enables(*step, *after));
            enables(*step, usize::from(wanted)) && is_last
        })
    }
}
