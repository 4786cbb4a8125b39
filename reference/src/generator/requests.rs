//! Requests for the files of calls: mostly of declared parties, and a good
//! part of them granted.

use super::Generator;
use crate::history::HISTORY_BYTES;
use crate::levels::LEVELS_BYTES;
use crate::numbers::GRANTED;
use crate::request::Request;
use crate::rules::judge_request;
use crate::state::State;
use crate::tables::given;

/// The kinds of requests, each as often as it comes up.
const KINDS: &[u8] = &[16, 16, 16, 17, 17, 18, 18, 19, 19, 19];

impl Generator {
    /// What lies in the player's history and levels.
    pub fn state_now(&self) -> State {
        State::of(
            &self.player.history[..HISTORY_BYTES],
            &self.player.levels[..LEVELS_BYTES],
        )
    }

    pub fn declared_persons(&self) -> Vec<u8> {
        (0..64)
            .filter(|person| self.player.tables.person_declared(*person))
            .collect()
    }

    pub fn declared_folders(&self) -> Vec<u8> {
        (0..128)
            .filter(|folder| self.player.tables.folder_declared(*folder))
            .collect()
    }

    /// Mostly one of the declared numbers, else one in range, else any byte.
    fn mostly_of(&mut self, declared: &[u8], limit: usize) -> u8 {
        let choice = self.random.below(100);
        if choice < 94 && !declared.is_empty() {
            self.random.pick(declared)
        } else if choice < 98 {
            self.random.below(limit) as u8
        } else {
            self.random.byte()
        }
    }

    pub fn some_person(&mut self) -> u8 {
        let declared = self.declared_persons();
        self.mostly_of(&declared, 64)
    }

    pub fn some_folder(&mut self) -> u8 {
        let declared = self.declared_folders();
        self.mostly_of(&declared, 128)
    }

    /// Create more often than another step, and now and then any byte.
    fn some_step(&mut self) -> u8 {
        match self.random.below(100) {
            0..=1 => self.random.byte(),
            2..=19 => 0,
            _ => self.random.below(16) as u8,
        }
    }

    pub fn some_request(&mut self) -> Request {
        let kind = self.random.pick(KINDS);
        self.request_of(kind)
    }

    fn request_of(&mut self, kind: u8) -> Request {
        let person = self.some_person();
        match kind {
            16 => Request::Read {
                person,
                folder: self.some_folder(),
            },
            17 => Request::Write {
                person,
                folder: self.some_folder(),
            },
            18 => Request::Start {
                person,
                other: self.some_person(),
            },
            _ => Request::Step {
                person,
                step: self.some_step(),
                folder: self.some_folder(),
            },
        }
    }

    /// Tables that no load gives grant nothing.
    fn would_grant(&self, state: &State, request: &Request) -> bool {
        let tables = &self.player.tables;
        given(tables) && judge_request(tables, state, request) == GRANTED
    }

    pub fn likely_granted(&mut self, state: &State) -> Request {
        let kind = self.random.pick(KINDS);
        self.likely_granted_of(kind, state)
    }

    /// A request of this kind that would be granted and is not in the history
    /// yet, if a few tries find one.
    fn likely_granted_of(&mut self, kind: u8, state: &State) -> Request {
        let mut request = self.request_of(kind);
        for _ in 0..16 {
            if self.would_grant(state, &request) && !state.history.contains(&request) {
                break;
            }
            request = self.request_of(kind);
        }
        request
    }

    pub fn some_list(&mut self, count: usize) -> Vec<Vec<u8>> {
        self.list_of(KINDS, count)
    }

    /// Records of a list of these kinds that begins at the player's buffers:
    /// new requests that are mostly granted, repeats, and requests as they
    /// come.
    pub fn list_of(&mut self, kinds: &[u8], count: usize) -> Vec<Vec<u8>> {
        let mut state = self.state_now();
        let mut earlier: Vec<Request> = state.history.iter().copied().collect();
        let mut records = Vec::new();
        for _ in 0..count {
            let kind = self.random.pick(kinds);
            let choice = self.random.below(100);
            let request = if choice < 12 && !earlier.is_empty() {
                self.random.pick(&earlier)
            } else if choice < 65 {
                self.likely_granted_of(kind, &state)
            } else {
                self.request_of(kind)
            };
            if self.would_grant(&state, &request) {
                state.record(&self.player.tables, &request);
            }
            earlier.push(request);
            records.push(request.as_record());
        }
        records
    }

    /// A record that is cut, or whose kind is unknown.
    pub fn unreadable(&mut self) -> Vec<u8> {
        if self.random.chance(50) {
            let mut record = self.some_request().as_record();
            record.truncate(self.random.below(record.len()));
            record
        } else {
            let kind = self.random.pick(&[0, 1, 6, 15, 20, 21, 48, 128, 255]);
            vec![kind, self.random.byte(), self.random.byte()]
        }
    }

    /// A record for one judge or put: now and then unreadable, or with other
    /// bytes behind it.
    pub fn with_oddities(&mut self, mut record: Vec<u8>) -> Vec<u8> {
        let choice = self.random.below(100);
        if choice < 3 {
            return self.unreadable();
        }
        if choice < 10 {
            let count = self.random.between(1, 5);
            record.extend((0..count).map(|_| self.random.byte()));
        }
        record
    }
}
