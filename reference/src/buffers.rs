//! A history and levels that are lent together.

use crate::calls::{blank, judge, put, run, standing, Ran, Standing};
use crate::history::{History, HISTORY_BYTES};
use crate::levels::{levels_by_history, LEVELS_BYTES};
use crate::state::State;
use crate::tables::Tables;

/// Both buffers, of the right lengths.
#[derive(Clone, PartialEq, Eq, Debug)]
pub struct Buffers {
    pub history: Vec<u8>,
    pub levels: Vec<u8>,
}

impl Buffers {
    /// Every byte of both has this value.
    pub fn filled(value: u8) -> Buffers {
        Buffers {
            history: vec![value; HISTORY_BYTES],
            levels: vec![value; LEVELS_BYTES],
        }
    }

    pub fn blank(tables: &Tables) -> Buffers {
        let mut buffers = Buffers::filled(0);
        blank(tables, &mut buffers.history, &mut buffers.levels);
        buffers
    }

    /// A set of requests, and the levels that it gives.
    pub fn of_set(tables: &Tables, history: History) -> Buffers {
        let levels = levels_by_history(tables, &history);
        let mut buffers = Buffers::filled(0);
        State { history, levels }.write(&mut buffers.history, &mut buffers.levels);
        buffers
    }

    pub fn state(&self) -> State {
        State::of(&self.history, &self.levels)
    }

    pub fn judge(&self, tables: &Tables, request: &[u8]) -> u8 {
        judge(tables, &self.history, &self.levels, request)
    }

    pub fn put(&mut self, tables: &Tables, request: &[u8]) -> u8 {
        put(tables, &mut self.history, &mut self.levels, request)
    }

    pub fn run(&mut self, tables: &Tables, requests: &[u8], answers: &mut [u8]) -> Ran {
        run(
            tables,
            &mut self.history,
            &mut self.levels,
            requests,
            answers,
        )
    }

    pub fn standing(&self, tables: &Tables, person: u8) -> Standing {
        standing(tables, &self.history, &self.levels, person)
    }
}
