//! The access monitor of document 01, with Points 1 (public folders), 2 (a
//! step alters the folder), 3 (empty stretches skipped), 4 (levels held ready),
//! 5 (rank or compartment) and 6 (an order for the day's jobs) of document 02,
//! proved in Rattle and called from Rust.
//!
//! A call that needs the tables of a rulebook takes the bytes of the book and
//! loads it. A refused book is answered with its number, 1 to 9 or 19. A call
//! whose own number is not 0 changes no byte.
//!
//! The records of a book have kinds 0 to 7, and 2 begins at kind 8. Kind 7 has
//! one byte, a folder, and marks that folder public: the wall passes requests
//! for it and does not count it among the folders already opened. A book that
//! marks a folder not declared earlier is refused with 19.
//!
//! Low-water refuses a write, a step or a start with 15 where the rank is too
//! low, also when a compartment is missing besides, and with 21 where the rank
//! suffices and a compartment is missing. Both stand in one place of the order of
//! checks, after 14 and before 16. A granted step lowers its person as a read
//! does, whatever rules are in force.
//!
//! The levels lent beside the history hold each person's current level, that of
//! person s in two bytes at 2 × s, the low byte first. Blank sets them to the
//! first levels, and to zero for the undeclared; a granted read or step stores
//! the meet of the person's stored level and the folder's level. Low-water and
//! standing take the level stored, also where the history would give another. A
//! call with levels of another length is answered 20, after 10.
//!
//! A plan is an order in which all jobs of a list are granted, from the history
//! and the levels as they are. A job is a request with its kind as the action;
//! its step is passed over unless the action is 19, and a record that is listed
//! twice is put twice. Which such order is handed back is free. A list of more
//! than 64 jobs, or with a start or a record that 12 or 13 would refuse, is
//! answered 22. One without an order is answered 23. Where the history and the
//! levels are those that some list put from blank leaves, 23 comes only if every
//! order has a refusal; elsewhere it may come though there is an order. Nothing
//! lent is written but the positions.
//!
//! The exported functions ask nothing of their arguments but what slices of
//! Rust always keep: pointers that are not null, lengths that are right, and
//! no other use of what is lent for writing.

mod raw;

/// The bytes of a history.
pub const HISTORY_BYTES: usize = 18_944;

/// The bytes of the levels.
pub const LEVELS_BYTES: usize = 128;

/// The most request bytes of one run: its counts cross the boundary in 24
/// bits each, and a run has no more answers than request bytes.
pub const MOST_REQUEST_BYTES: usize = (1 << 24) - 1;

/// The most jobs of a list, and the positions of a plan.
pub const MOST_JOBS: usize = 64;

/// What loading returns: 0 or the number of the refusal (1 to 9, or 19), and
/// the offset of the end record or of the refused one.
#[derive(Clone, Copy, PartialEq, Eq, Debug)]
pub struct Loaded {
    pub number: u8,
    pub offset: usize,
}

/// What a run returns: its own number, and how many of its answers are 0 and
/// how many are not.
#[derive(Clone, Copy, PartialEq, Eq, Debug)]
pub struct Ran {
    pub number: u8,
    pub granted: usize,
    pub refused: usize,
}

/// A person's stored level, the number of rights used and of firms opened.
#[derive(Clone, Copy, PartialEq, Eq, Debug)]
pub struct Standing {
    pub number: u8,
    pub level: u16,
    pub rights: usize,
    pub firms: usize,
}

/// One job of a list: the kind of a request, its person, its folder, and its step
/// if it is one. A start's target would be its second person, but no list with a
/// start has a plan.
#[repr(C)]
#[derive(Clone, Copy, PartialEq, Eq, Debug)]
pub struct Job {
    pub action: u8,
    pub person: u8,
    pub target: u8,
    pub step: u8,
}

/// What planning returns: the positions are each place of the list, from 0, once,
/// in the order of putting, then zeros; all zeros if the number is not 0.
#[derive(Clone, Copy, PartialEq, Eq, Debug)]
pub struct Plan {
    pub number: u8,
    pub positions: [u8; MOST_JOBS],
}

/// More than [`MOST_REQUEST_BYTES`] request bytes; nothing was done.
#[derive(Clone, Copy, PartialEq, Eq, Debug)]
pub struct TooLong;

/// So many bits of a packed number, from a place on.
fn field(packed: u64, place: u32, bits: u32) -> u64 {
    packed >> place & (u64::MAX >> (64 - bits))
}

/// Makes a history all zero and sets the levels to the first ones: 0, 10, 20, or
/// the number of a refused book.
pub fn blank(book: &[u8], history: &mut [u8], levels: &mut [u8]) -> u8 {
    raw::blank(book, history, levels)
}

/// Loads a rulebook.
pub fn load(book: &[u8]) -> Loaded {
    let packed = raw::load(book);
    Loaded {
        number: field(packed, 0, 8) as u8,
        offset: field(packed, 8, 56) as usize,
    }
}

/// The bytes after the end record; none for a refused book.
pub fn rest(book: &[u8]) -> &[u8] {
    &book[book.len() - raw::rest_length(book)..]
}

/// The number of the request at the front of the bytes; nothing is recorded.
pub fn judge(book: &[u8], history: &[u8], levels: &[u8], request: &[u8]) -> u8 {
    raw::judge(book, history, levels, request)
}

/// Judges, then records the request if it is granted: in the history, and in the
/// levels if it is a read or a step.
pub fn put(book: &[u8], history: &mut [u8], levels: &mut [u8], request: &[u8]) -> u8 {
    raw::put(book, history, levels, request)
}

/// Puts one request after another and writes one answer byte for each.
pub fn run(
    book: &[u8],
    history: &mut [u8],
    levels: &mut [u8],
    requests: &[u8],
    answers: &mut [u8],
) -> Result<Ran, TooLong> {
    if requests.len() > MOST_REQUEST_BYTES {
        return Err(TooLong);
    }
    let packed = raw::run(book, history, levels, requests, answers);
    Ok(Ran {
        number: field(packed, 0, 8) as u8,
        granted: field(packed, 8, 24) as usize,
        refused: field(packed, 32, 24) as usize,
    })
}

/// A person's standing, with the level that is stored.
pub fn standing(book: &[u8], history: &[u8], levels: &[u8], person: u8) -> Standing {
    let packed = raw::standing(book, history, levels, person);
    Standing {
        number: field(packed, 0, 8) as u8,
        level: field(packed, 8, 16) as u16,
        rights: field(packed, 24, 8) as usize,
        firms: field(packed, 32, 8) as usize,
    }
}

/// An order in which all jobs are granted: 0, 10, 20, 22, 23, or the number of a
/// refused book.
pub fn plan(book: &[u8], history: &[u8], levels: &[u8], jobs: &[Job]) -> Plan {
    let mut positions = [0; MOST_JOBS];
    let number = plan_bytes(book, history, levels, raw::bytes_of(jobs), &mut positions);
    Plan { number, positions }
}

/// The same over jobs as bytes, four a job: action, person, target and step. A
/// last job cut short is answered 22, and fewer than 64 lent positions 18, after
/// 10 and 20. With 0 the first 64 bytes of the positions are written; with another
/// number, and past these, all bytes stay.
pub fn plan_bytes(
    book: &[u8],
    history: &[u8],
    levels: &[u8],
    jobs: &[u8],
    positions: &mut [u8],
) -> u8 {
    raw::plan(book, history, levels, jobs, positions)
}
