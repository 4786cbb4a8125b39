//! The calls (section "Requests and calls", and Point 4 of the later requests
//! for the levels lent beside the history): blank, judge, put, run and standing.
//! A call whose own number is not 0 changes no byte lent to it.

use crate::history::HISTORY_BYTES;
use crate::levels::LEVELS_BYTES;
use crate::numbers::*;
use crate::request::{read_record, record_length};
use crate::rules::{firms_opened, judge_request, rights_used};
use crate::state::State;
use crate::tables::{given, Tables};

/// What a run returns.
#[derive(Clone, Copy, PartialEq, Eq, Debug)]
pub struct Ran {
    pub number: u8,
    pub granted: usize,
    pub refused: usize,
}

/// What standing returns.
#[derive(Clone, Copy, PartialEq, Eq, Debug)]
pub struct Standing {
    pub number: u8,
    /// The current level, as it is stored.
    pub level: u16,
    /// How many rights the person has used.
    pub rights: usize,
    /// How many firms the person has opened.
    pub firms: usize,
}

/// The checks 10, 20 and 11, in this order, with which every call but load
/// begins.
pub fn check_lent(tables: &Tables, history: &[u8], levels: &[u8]) -> u8 {
    if history.len() != HISTORY_BYTES {
        return HISTORY_LENGTH;
    }
    if levels.len() != LEVELS_BYTES {
        return LEVELS_LENGTH;
    }
    if !given(tables) {
        return TABLES_NOT_GIVEN;
    }
    GRANTED
}

/// Makes a history all zero and sets the levels to the first ones.
pub fn blank(tables: &Tables, history: &mut [u8], levels: &mut [u8]) -> u8 {
    let number = check_lent(tables, history, levels);
    if number == GRANTED {
        State::blank(tables).write(history, levels);
    }
    number
}

/// The number of the request at the front of some bytes; nothing is recorded.
pub fn judge(tables: &Tables, history: &[u8], levels: &[u8], request: &[u8]) -> u8 {
    let number = check_lent(tables, history, levels);
    if number != GRANTED {
        return number;
    }
    match read_record(request) {
        None => REQUEST_CUT,
        Some(asked) => judge_request(tables, &State::of(history, levels), &asked),
    }
}

/// Judges, then records the request if it is granted.
pub fn put(tables: &Tables, history: &mut [u8], levels: &mut [u8], request: &[u8]) -> u8 {
    let number = judge(tables, history, levels, request);
    if number == GRANTED {
        if let Some(granted) = read_record(request) {
            let mut state = State::of(history, levels);
            state.record(tables, &granted);
            state.write(history, levels);
        }
    }
    number
}

/// How many answers a run owes, from kinds and lengths alone: one for each
/// record, and one for the unknown or incomplete record that ends it.
pub fn answers_due(requests: &[u8]) -> usize {
    let mut due = 0;
    let mut offset = 0;
    while offset < requests.len() {
        due += 1;
        match record_length(requests[offset]) {
            Some(length) => offset += length,
            None => return due,
        }
    }
    due
}

/// Puts record after record and writes one answer byte for each.
pub fn run(
    tables: &Tables,
    history: &mut [u8],
    levels: &mut [u8],
    requests: &[u8],
    answers: &mut [u8],
) -> Ran {
    let mut ran = Ran {
        number: check_lent(tables, history, levels),
        granted: 0,
        refused: 0,
    };
    if ran.number != GRANTED {
        return ran;
    }
    if answers.len() < answers_due(requests) {
        ran.number = ANSWERS_SHORT;
        return ran;
    }
    let mut state = State::of(history, levels);
    let numbers = put_all(tables, &mut state, requests);
    state.write(history, levels);
    for (place, number) in numbers.into_iter().enumerate() {
        answers[place] = number;
        if number == GRANTED {
            ran.granted += 1;
        } else {
            ran.refused += 1;
        }
    }
    ran
}

/// The answers to record after record, up to the end or to the first that is
/// unknown or incomplete. Granted ones are recorded, refused ones leave all.
fn put_all(tables: &Tables, state: &mut State, requests: &[u8]) -> Vec<u8> {
    let mut numbers = Vec::new();
    let mut left = requests;
    while !left.is_empty() {
        let asked = match read_record(left) {
            Some(asked) => asked,
            None => {
                numbers.push(REQUEST_CUT);
                break;
            }
        };
        let number = judge_request(tables, state, &asked);
        if number == GRANTED {
            state.record(tables, &asked);
        }
        numbers.push(number);
        left = &left[asked.as_record().len()..];
    }
    numbers
}

/// A person's current level, the number of rights used and of firms opened.
pub fn standing(tables: &Tables, history: &[u8], levels: &[u8], person: u8) -> Standing {
    let mut found = Standing {
        number: check_lent(tables, history, levels),
        level: 0,
        rights: 0,
        firms: 0,
    };
    if found.number != GRANTED {
        return found;
    }
    if !tables.person_declared(person) {
        found.number = UNDECLARED;
        return found;
    }
    let state = State::of(history, levels);
    found.level = state.level(person).number();
    found.firms = firms_opened(tables, &state.history, person).len();
    for used in rights_used(tables, &state.history, person) {
        if used {
            found.rights += 1;
        }
    }
    found
}
