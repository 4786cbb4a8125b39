//! What the tests of requests and of runs share.

use reference::marked::BOOK;
use reference::{load, Ran, Tables};

pub fn marked() -> Tables {
    load(&BOOK).tables
}

/// The marked book's tables with another mask.
pub fn with_mask(mask: u8) -> Tables {
    let mut tables = marked();
    tables.mask = mask;
    tables
}

pub const NO_RUN: Ran = Ran {
    number: 0,
    granted: 0,
    refused: 0,
};
