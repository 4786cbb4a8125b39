//! Histories (section "History"): bytes at the boundary, a set of requests
//! inside.

use crate::places::{is_set, number, places};
use crate::request::Request;
use crate::tables::{Tables, FOLDERS, PERSONS, STEPS};
use std::collections::BTreeSet;
use std::sync::OnceLock;

pub const HISTORY_BYTES: usize = 18_944;

/// The requests whose bits are set, whatever the tables declare.
pub type History = BTreeSet<Request>;

/// The index of a request's bit.
pub fn index(request: &Request) -> usize {
    match *request {
        Request::Read { person, folder } => 128 * usize::from(person) + usize::from(folder),
        Request::Write { person, folder } => 8192 + 128 * usize::from(person) + usize::from(folder),
        Request::Start { person, other } => 16384 + 64 * usize::from(person) + usize::from(other),
        Request::Step {
            person,
            step,
            folder,
        } => 20480 + 64 * (16 * usize::from(folder) + usize::from(step)) + usize::from(person),
    }
}

/// Every possible request.
pub fn possible_requests() -> Vec<Request> {
    let mut requests = Vec::new();
    for person in 0..PERSONS as u8 {
        for folder in 0..FOLDERS as u8 {
            requests.push(Request::Read { person, folder });
            requests.push(Request::Write { person, folder });
            for step in 0..STEPS as u8 {
                requests.push(Request::Step {
                    person,
                    step,
                    folder,
                });
            }
        }
        for other in 0..PERSONS as u8 {
            requests.push(Request::Start { person, other });
        }
    }
    requests
}

/// Every possible request at the index of its bit.
fn requests_by_index() -> &'static Vec<Request> {
    static ORDERED: OnceLock<Vec<Request>> = OnceLock::new();
    ORDERED.get_or_init(|| {
        let mut requests = possible_requests();
        requests.sort_by_key(index);
        requests
    })
}

/// The set that history bytes stand for.
pub fn set_of(bytes: &[u8]) -> History {
    let by_index = requests_by_index();
    let mut history = History::new();
    for (place, byte) in bytes.iter().enumerate() {
        if *byte == 0 {
            continue;
        }
        for bit in 0..8 {
            if is_set(u64::from(*byte), bit) {
                history.insert(by_index[8 * place + bit]);
            }
        }
    }
    history
}

/// Writes a set back as history bytes.
pub fn write_set(history: &History, bytes: &mut [u8]) {
    bytes.fill(0);
    for request in history {
        let byte = &mut bytes[index(request) / 8];
        let mut bits = places::<8>(u64::from(*byte));
        bits[index(request) % 8] = true;
        *byte = number(&bits) as u8;
    }
}

/// The requests that rules and standing look at: a bit naming an undeclared
/// person or folder is passed over.
pub fn counted<'a>(
    tables: &'a Tables,
    history: &'a History,
) -> impl Iterator<Item = &'a Request> + 'a {
    history
        .iter()
        .filter(|request| request.parties_declared(tables))
}

#[cfg(test)]
mod tests {
    use super::*;

    #[test]
    fn each_bit_is_one_request() {
        let by_index = requests_by_index();
        assert_eq!(by_index.len(), 8 * HISTORY_BYTES);
        for (place, request) in by_index.iter().enumerate() {
            assert_eq!(index(request), place);
        }
    }

    #[test]
    fn bytes_and_sets_go_back_and_forth() {
        let mut bytes = vec![0; HISTORY_BYTES];
        for place in 0..HISTORY_BYTES {
            bytes[place] = (place * 37 % 256) as u8;
        }
        let mut back = vec![255; HISTORY_BYTES];
        write_set(&set_of(&bytes), &mut back);
        assert_eq!(bytes, back);
    }
}
