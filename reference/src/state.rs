//! What lies in the two lent buffers of the right lengths.

use crate::history::{set_of, write_set, History};
use crate::level::Level;
use crate::levels::{first_levels, levels_of, write_levels, Levels};
use crate::request::Request;
use crate::tables::Tables;

/// The requests granted and the level stored for each person.
#[derive(Clone, PartialEq, Eq, Debug)]
pub struct State {
    pub history: History,
    pub levels: Levels,
}

impl State {
    pub fn of(history: &[u8], levels: &[u8]) -> State {
        State {
            history: set_of(history),
            levels: levels_of(levels),
        }
    }

    /// No request, and the first levels.
    pub fn blank(tables: &Tables) -> State {
        State {
            history: History::new(),
            levels: first_levels(tables),
        }
    }

    pub fn write(&self, history: &mut [u8], levels: &mut [u8]) {
        write_set(&self.history, history);
        write_levels(&self.levels, levels);
    }

    pub fn level(&self, person: u8) -> &Level {
        &self.levels[usize::from(person)]
    }

    /// Records a granted request. Under every mask a read or a step sets the
    /// person's stored level to its meet with the folder's level.
    pub fn record(&mut self, tables: &Tables, granted: &Request) {
        self.history.insert(*granted);
        if let Some(folder) = granted.folder_that_lowers() {
            let stored = &mut self.levels[usize::from(granted.person())];
            *stored = stored.meet(&tables.folder(folder).level);
        }
    }
}
