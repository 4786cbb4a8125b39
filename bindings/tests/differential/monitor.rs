//! The monitor under test. Each call that is lent levels gets them as bytes that
//! can be written: that judge and standing write none is tested, and that plan
//! writes neither history nor levels.

use kweldabe::{Loaded, Ran, Standing};

pub trait Monitor {
    fn blank(&self, book: &[u8], history: &mut [u8], levels: &mut [u8]) -> u8 {
        kweldabe::blank(book, history, levels)
    }

    fn load(&self, book: &[u8]) -> Loaded {
        kweldabe::load(book)
    }

    fn rest<'a>(&self, book: &'a [u8]) -> &'a [u8] {
        kweldabe::rest(book)
    }

    fn judge(&self, book: &[u8], history: &[u8], levels: &mut [u8], request: &[u8]) -> u8 {
        kweldabe::judge(book, history, levels, request)
    }

    fn put(&self, book: &[u8], history: &mut [u8], levels: &mut [u8], request: &[u8]) -> u8 {
        kweldabe::put(book, history, levels, request)
    }

    fn run(
        &self,
        book: &[u8],
        history: &mut [u8],
        levels: &mut [u8],
        requests: &[u8],
        answers: &mut [u8],
    ) -> Ran {
        kweldabe::run(book, history, levels, requests, answers).expect("short requests")
    }

    fn standing(&self, book: &[u8], history: &[u8], levels: &mut [u8], person: u8) -> Standing {
        kweldabe::standing(book, history, levels, person)
    }

    fn plan(
        &self,
        book: &[u8],
        (history, levels): (&mut [u8], &mut [u8]),
        jobs: &[u8],
        positions: &mut [u8],
    ) -> u8 {
        kweldabe::plan_bytes(book, history, levels, jobs, positions)
    }
}

/// The proved monitor.
pub struct Proved;

impl Monitor for Proved {}
