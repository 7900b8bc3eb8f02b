//! The C functions of the library under test, on slices: those of include/janus.h, which
//! are the server's; those of the archive test_callers, which are told the caller, 0 the
//! server and any other the cart (02, wish 9); and those of the archive test_short (02,
//! wish 12).

// No program calls all of them.
#![allow(dead_code)]

extern "C" {
    fn janus_run(
        sheet: *const u8,
        sheet_len: usize,
        budget: u64,
        buffer: *mut u8,
        buffer_len: usize,
    ) -> u32;
    fn janus_report(
        sheet: *const u8,
        sheet_len: usize,
        buffer: *mut u8,
        buffer_len: usize,
    ) -> usize;
    fn janus_write(
        seats: usize,
        limit: usize,
        entries: *const u8,
        entries_len: usize,
        runs: *const usize,
        run_count: usize,
        sheet: *mut u8,
        sheet_len: usize,
        size: *mut usize,
    ) -> u32;
    fn caller_open(caller: u8, n: usize, limit: usize) -> u32;
    fn caller_open_poll(caller: u8, n: usize) -> u32;
    fn caller_report(
        caller: u8,
        sheet: *const u8,
        sheet_len: usize,
        budget: usize,
        buffer: *mut u8,
        buffer_len: usize,
    ) -> usize;
    fn caller_write(
        caller: u8,
        n: usize,
        limit: usize,
        entries: *const u8,
        entries_len: usize,
        runs: *const usize,
        run_count: usize,
        sheet: *mut u8,
        sheet_len: usize,
        size: *mut usize,
    ) -> u32;
    fn short_first(n: usize, length: usize, buffer: *mut u8, buffer_len: usize) -> u32;
    fn short_next(n: usize, length: usize, buffer: *mut u8, buffer_len: usize) -> u32;
}

pub fn run(sheet: &[u8], budget: u64, buffer: &mut [u8]) -> u32 {
    let (from, to) = (sheet.as_ptr(), buffer.as_mut_ptr());
    // SAFETY: both pointers stand with their own lengths.
    unsafe { janus_run(from, sheet.len(), budget, to, buffer.len()) }
}

pub fn report(sheet: &[u8], buffer: &mut [u8]) -> usize {
    let (from, to) = (sheet.as_ptr(), buffer.as_mut_ptr());
    // SAFETY: both pointers stand with their own lengths.
    unsafe { janus_report(from, sheet.len(), to, buffer.len()) }
}

pub fn write(
    n: usize,
    limit: usize,
    entries: &[u8],
    runs: &[usize],
    sheet: &mut [u8],
    size: &mut usize,
) -> u32 {
    let (from, cuts, to) = (entries.as_ptr(), runs.as_ptr(), sheet.as_mut_ptr());
    let lengths = (entries.len(), runs.len(), sheet.len());
    // SAFETY: each pointer stands with its own length, and size is one number.
    unsafe {
        janus_write(
            n, limit, from, lengths.0, cuts, lengths.1, to, lengths.2, size,
        )
    }
}

/// The number of an opening of a session.
pub fn open_as(caller: u8, n: usize, limit: usize) -> u32 {
    // SAFETY: it takes any numbers.
    unsafe { caller_open(caller, n, limit) }
}

/// The number of an opening of a poll.
pub fn open_poll_as(caller: u8, n: usize) -> u32 {
    // SAFETY: it takes any numbers.
    unsafe { caller_open_poll(caller, n) }
}

/// The report of a run under a budget.
pub fn report_as(caller: u8, sheet: &[u8], budget: u64, buffer: &mut [u8]) -> usize {
    let (from, to) = (sheet.as_ptr(), buffer.as_mut_ptr());
    let lengths = (sheet.len(), buffer.len());
    // SAFETY: both pointers stand with their own lengths.
    unsafe { caller_report(caller, from, lengths.0, budget as usize, to, lengths.1) }
}

pub fn write_as(
    caller: u8,
    (n, limit): (usize, usize),
    entries: &[u8],
    runs: &[usize],
    sheet: &mut [u8],
    size: &mut usize,
) -> u32 {
    let (from, cuts, to) = (entries.as_ptr(), runs.as_ptr(), sheet.as_mut_ptr());
    let lengths = (entries.len(), runs.len(), sheet.len());
    // SAFETY: each pointer stands with its own length, and size is one number.
    unsafe {
        caller_write(
            caller, n, limit, from, lengths.0, cuts, lengths.1, to, lengths.2, size,
        )
    }
}

/// The first short list, to the buffer.
pub fn first_list(n: usize, length: usize, buffer: &mut [u8]) -> u32 {
    // SAFETY: the pointer stands with its own length.
    unsafe { short_first(n, length, buffer.as_mut_ptr(), buffer.len()) }
}

/// The short list after the one in the buffer.
pub fn next_list(n: usize, length: usize, buffer: &mut [u8]) -> u32 {
    // SAFETY: the pointer stands with its own length.
    unsafe { short_next(n, length, buffer.as_mut_ptr(), buffer.len()) }
}
