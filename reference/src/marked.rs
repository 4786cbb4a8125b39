//! The marked book and requests of the section "The program `answers`", a book
//! with a public folder, one whose steps alter, one of rank or compartment and two
//! of jobs in an order.

use crate::{load, Buffers, Request};

pub const BOOK: [u8; 54] = [
    1, 15, // all four rules
    2, 0, 0, 2, 1, 0, 2, 2, 1, // three firms, the first two are rivals
    3, 0, 3, 32, 3, 1, 1, 16, // persons
    4, 0, 0, 0, 3, 32, 4, 1, 1, 0, 3, 32, 4, 2, 2, 1, 1, 16, // folders
    5, 0, 3, 0, 3, 0, 1, 0, 7, 0, // one role
    6, 0, 1, 6, 1, 2, // pairs
    0,
];

/// P1.
pub const REQUESTS: [u8; 34] = [
    17, 0, 0, 16, 0, 1, 16, 0, 2, 17, 0, 0, 18, 0, 1, 19, 1, 1, 2, 19, 1, 0, 2, 19, 1, 1, 2, 19, 1,
    1, 2, 16, 5, 0,
];

/// The answers of P1.
pub const ANSWERS: [u8; 10] = [0, 14, 0, 15, 0, 17, 0, 0, 17, 13];

/// The marked book with other role bytes, as in P10.
pub fn book_with_rights(rights: [u8; 8]) -> Vec<u8> {
    let mut book = BOOK.to_vec();
    book[39..47].copy_from_slice(&rights);
    book
}

/// Two rival firms, and three folders of which the last is public.
pub const PUBLIC_BOOK: [u8; 33] = [
    1, 1, // the wall
    2, 0, 0, 2, 1, 0, // two rivals
    3, 0, 0, 0, // one person
    4, 0, 0, 0, 0, 0, 4, 1, 1, 0, 0, 0, 4, 2, 1, 0, 0, 0, // folders
    7, 2, // the mark
    0,
];

/// Two lists of requests for that book, each with its answers from blank.
pub const PUBLIC_LISTS: [([u8; 12], [u8; 4]); 2] = [
    ([16, 0, 0, 16, 0, 1, 16, 0, 2, 16, 0, 1], [0, 14, 0, 14]),
    ([16, 0, 2, 16, 0, 0, 17, 0, 2, 16, 0, 1], [0, 0, 0, 14]),
];

/// One person and three folders: of the person's level, of a lower one, and of
/// the lower rank with a compartment that the person has not.
pub const STEP_BOOK: [u8; 28] = [
    1, 2, // low-water
    2, 0, 0, // one firm
    3, 0, 3, 32, // one person
    4, 0, 0, 0, 3, 32, 4, 1, 0, 0, 1, 16, 4, 2, 0, 0, 4, 16, // folders
    0,
];

/// A step that lowers, a write and a step that the lower level refuses, and a
/// step that it allows.
pub const STEP_REQUESTS: [u8; 15] = [19, 0, 5, 1, 17, 0, 0, 19, 0, 3, 2, 19, 0, 0, 1];

/// Their answers from blank: for the write the rank is too low, and for the step
/// on the last folder a compartment is missing.
pub const STEP_ANSWERS: [u8; 4] = [0, 15, 21, 0];

/// Two persons, and three folders that person 0 may not write: a compartment is
/// missing, the rank is too low and a compartment is missing besides, and the
/// rank alone is too low.
pub const CLEARANCE_BOOK: [u8; 32] = [
    1, 2, // low-water
    2, 0, 0, // one firm
    3, 0, 1, 32, 3, 1, 3, 16, // persons
    4, 0, 0, 0, 3, 16, 4, 1, 0, 0, 3, 48, 4, 2, 0, 0, 1, 48, // folders
    0,
];

/// Three writes of person 0, and each person starts the other.
pub const CLEARANCE_REQUESTS: [u8; 15] = [17, 0, 0, 17, 0, 1, 17, 0, 2, 18, 0, 1, 18, 1, 0];

/// Their answers from blank.
pub const CLEARANCE_ANSWERS: [u8; 5] = [21, 15, 15, 21, 15];

/// One person, and two folders: of the person's level and of a lower one. Step 0
/// enables 1, and 1 enables 2.
pub const ORDER_BOOK: [u8; 28] = [
    1, 10, // low-water and pipeline
    2, 0, 0, // one firm
    3, 0, 3, 32, // one person
    4, 0, 0, 0, 3, 32, 4, 1, 0, 0, 1, 16, // folders
    6, 0, 1, 6, 1, 2, // pairs
    0,
];

/// Steps 2, 1 and 0 on the lower folder, and a write in the other, whose step is
/// passed over.
pub const ORDER_JOBS: [u8; 16] = [19, 0, 1, 2, 19, 0, 1, 1, 19, 0, 1, 0, 17, 0, 0, 77];

/// The only order that is granted from blank: the first step lowers the person
/// below the write.
pub const ORDER: [u8; 4] = [3, 2, 1, 0];

/// One person and one folder, and seven pairs of the steps 0 to 5.
pub const PAIRS_BOOK: [u8; 37] = [
    1, 8, // pipeline
    2, 0, 0, // one firm
    3, 0, 0, 0, // one person
    4, 0, 0, 0, 0, 0, // one folder
    6, 0, 1, 6, 0, 2, 6, 1, 3, 6, 1, 4, 6, 2, 3, 6, 3, 4, 6, 3, 5, // pairs
    0,
];

/// The steps whose bits are set: step 5 without 3, which no list from blank
/// leaves.
pub const PAIRS_PAST: [u8; 3] = [1, 2, 5];

/// Steps 3 and 4. Of the two alone step 3 must come first, since it enables 4;
/// but then neither 1 nor 3 is a last step that enables 4.
pub const PAIRS_JOBS: [u8; 8] = [19, 0, 0, 3, 19, 0, 0, 4];

/// The only order that is granted after these steps: step 1 enables 4, and then
/// step 2 enables 3.
pub const PAIRS_ORDER: [u8; 2] = [1, 0];

/// Both buffers after these steps.
pub fn pairs_buffers() -> Buffers {
    let step = |step| Request::Step {
        person: 0,
        step,
        folder: 0,
    };
    let history = PAIRS_PAST.map(step).into_iter().collect();
    Buffers::of_set(&load(&PAIRS_BOOK).tables, history)
}
