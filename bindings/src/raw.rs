//! The exported functions. A slice crosses as a pointer and a length.

use crate::Job;

extern "C" {
    fn kweldabe_blank(
        book: *const u8,
        book_length: usize,
        history: *mut u8,
        history_length: usize,
        levels: *mut u8,
        levels_length: usize,
    ) -> u8;
    fn kweldabe_load(book: *const u8, book_length: usize) -> u64;
    fn kweldabe_rest_length(book: *const u8, book_length: usize) -> usize;
    fn kweldabe_judge(
        book: *const u8,
        book_length: usize,
        history: *const u8,
        history_length: usize,
        levels: *const u8,
        levels_length: usize,
        request: *const u8,
        request_length: usize,
    ) -> u8;
    fn kweldabe_put(
        book: *const u8,
        book_length: usize,
        history: *mut u8,
        history_length: usize,
        levels: *mut u8,
        levels_length: usize,
        request: *const u8,
        request_length: usize,
    ) -> u8;
    fn kweldabe_run(
        book: *const u8,
        book_length: usize,
        history: *mut u8,
        history_length: usize,
        levels: *mut u8,
        levels_length: usize,
        requests: *const u8,
        requests_length: usize,
        answers: *mut u8,
        answers_length: usize,
    ) -> u64;
    fn kweldabe_standing(
        book: *const u8,
        book_length: usize,
        history: *const u8,
        history_length: usize,
        levels: *const u8,
        levels_length: usize,
        person: u8,
    ) -> u64;
    fn kweldabe_plan(
        book: *const u8,
        book_length: usize,
        history: *const u8,
        history_length: usize,
        levels: *const u8,
        levels_length: usize,
        jobs: *const u8,
        jobs_length: usize,
        positions: *mut u8,
        positions_length: usize,
    ) -> u8;
}

// SAFETY, for every call below: each pointer and length are those of a live
// slice, so the pointer is not null and the bytes are there. What is lent for
// writing is lent by `&mut`, so nothing else reaches it during the call. The
// functions keep no pointer, and they have no `requires`.

pub fn blank(book: &[u8], history: &mut [u8], levels: &mut [u8]) -> u8 {
    unsafe {
        kweldabe_blank(
            book.as_ptr(),
            book.len(),
            history.as_mut_ptr(),
            history.len(),
            levels.as_mut_ptr(),
            levels.len(),
        )
    }
}

pub fn load(book: &[u8]) -> u64 {
    unsafe { kweldabe_load(book.as_ptr(), book.len()) }
}

pub fn rest_length(book: &[u8]) -> usize {
    unsafe { kweldabe_rest_length(book.as_ptr(), book.len()) }
}

pub fn judge(book: &[u8], history: &[u8], levels: &[u8], request: &[u8]) -> u8 {
    unsafe {
        kweldabe_judge(
            book.as_ptr(),
            book.len(),
            history.as_ptr(),
            history.len(),
            levels.as_ptr(),
            levels.len(),
            request.as_ptr(),
            request.len(),
        )
    }
}

pub fn put(book: &[u8], history: &mut [u8], levels: &mut [u8], request: &[u8]) -> u8 {
    unsafe {
        kweldabe_put(
            book.as_ptr(),
            book.len(),
            history.as_mut_ptr(),
            history.len(),
            levels.as_mut_ptr(),
            levels.len(),
            request.as_ptr(),
            request.len(),
        )
    }
}

pub fn run(
    book: &[u8],
    history: &mut [u8],
    levels: &mut [u8],
    requests: &[u8],
    answers: &mut [u8],
) -> u64 {
    unsafe {
        kweldabe_run(
            book.as_ptr(),
            book.len(),
            history.as_mut_ptr(),
            history.len(),
            levels.as_mut_ptr(),
            levels.len(),
            requests.as_ptr(),
            requests.len(),
            answers.as_mut_ptr(),
            answers.len(),
        )
    }
}

pub fn standing(book: &[u8], history: &[u8], levels: &[u8], person: u8) -> u64 {
    unsafe {
        kweldabe_standing(
            book.as_ptr(),
            book.len(),
            history.as_ptr(),
            history.len(),
            levels.as_ptr(),
            levels.len(),
            person,
        )
    }
}

pub fn plan(book: &[u8], history: &[u8], levels: &[u8], jobs: &[u8], positions: &mut [u8]) -> u8 {
    unsafe {
        kweldabe_plan(
            book.as_ptr(),
            book.len(),
            history.as_ptr(),
            history.len(),
            levels.as_ptr(),
            levels.len(),
            jobs.as_ptr(),
            jobs.len(),
            positions.as_mut_ptr(),
            positions.len(),
        )
    }
}

/// The bytes of jobs, four a job in the order of the fields.
pub fn bytes_of(jobs: &[Job]) -> &[u8] {
    // SAFETY: a job is four bytes in this order, with none between them.
    unsafe { std::slice::from_raw_parts(jobs.as_ptr().cast(), std::mem::size_of_val(jobs)) }
}
