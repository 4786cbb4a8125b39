//! Requests (section "Requests and calls").

use crate::tables::Tables;

/// A request record's kind and fields. Fields may be any bytes until the
/// check for undeclared parties has passed.
#[derive(Clone, Copy, PartialEq, Eq, PartialOrd, Ord, Hash, Debug)]
pub enum Request {
    Read { person: u8, folder: u8 },
    Write { person: u8, folder: u8 },
    Start { person: u8, other: u8 },
    Step { person: u8, step: u8, folder: u8 },
}

use Request::{Read, Start, Step, Write};

/// Kind and body together.
pub fn record_length(kind: u8) -> Option<usize> {
    match kind {
        16..=18 => Some(3),
        19 => Some(4),
        _ => None,
    }
}

/// The record at the front of some bytes; what follows is passed over. None
/// if the kind is unknown or the record is cut, as with no bytes at all.
pub fn read_record(bytes: &[u8]) -> Option<Request> {
    let kind = *bytes.first()?;
    if bytes.len() < record_length(kind)? {
        return None;
    }
    let person = bytes[1];
    match kind {
        16 => Some(Read {
            person,
            folder: bytes[2],
        }),
        17 => Some(Write {
            person,
            folder: bytes[2],
        }),
        18 => Some(Start {
            person,
            other: bytes[2],
        }),
        _ => Some(Step {
            person,
            step: bytes[2],
            folder: bytes[3],
        }),
    }
}

impl Request {
    pub fn as_record(&self) -> Vec<u8> {
        match *self {
            Read { person, folder } => vec![16, person, folder],
            Write { person, folder } => vec![17, person, folder],
            Start { person, other } => vec![18, person, other],
            Step {
                person,
                step,
                folder,
            } => vec![19, person, step, folder],
        }
    }

    /// The person who asks.
    pub fn person(&self) -> u8 {
        match *self {
            Read { person, .. } | Write { person, .. } => person,
            Start { person, .. } | Step { person, .. } => person,
        }
    }

    /// The folder accessed: read, write and step are accesses, start is not.
    pub fn folder_accessed(&self) -> Option<u8> {
        match *self {
            Read { folder, .. } | Write { folder, .. } | Step { folder, .. } => Some(folder),
            Start { .. } => None,
        }
    }

    /// The folder whose level lowers the person: read and step lower, whichever
    /// the step, write and start do not.
    pub fn folder_that_lowers(&self) -> Option<u8> {
        match *self {
            Read { folder, .. } | Step { folder, .. } => Some(folder),
            Write { .. } | Start { .. } => None,
        }
    }

    /// Whether each person and folder it names is declared.
    pub fn parties_declared(&self, tables: &Tables) -> bool {
        let target_declared = match *self {
            Start { other, .. } => tables.person_declared(other),
            Read { folder, .. } | Write { folder, .. } | Step { folder, .. } => {
                tables.folder_declared(folder)
            }
        };
        tables.person_declared(self.person()) && target_declared
    }

    /// Whether the step, if there is one, is at most 15.
    pub fn step_in_range(&self) -> bool {
        match *self {
            Step { step, .. } => step <= 15,
            _ => true,
        }
    }

    /// The right of a request whose parties are declared ("Roles").
    pub fn right(&self, tables: &Tables) -> usize {
        match *self {
            Read { folder, .. } => usize::from(tables.folder(folder).kind),
            Write { folder, .. } => 16 + usize::from(tables.folder(folder).kind),
            Start { .. } => 32,
            Step { step, .. } => 48 + usize::from(step),
        }
    }
}
