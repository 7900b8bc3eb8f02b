//! Compares every window of the library with the reference's. (01, "The board and the
//! seats"; 02, wishes 4 and 8.) The function by itself, `window_alone`, for n from 1 to
//! 64; and, in service, the answer to each sheet of a header alone, for every n that a
//! byte can hold and L from 0 to 300: 1, or 2 below the window, or 0.
//!
//! It ends with 1 after telling the first difference.

// It calls one of the functions there.
mod library;

use std::process::ExitCode;

use janus_reference::runner::BUFFER;
use janus_reference::{entry, window};

extern "C" {
    fn window_alone(n: u8) -> usize;
}

const HIGHEST_LIMIT: u16 = 300;

/// The first n whose window differs.
fn first_window() -> Option<String> {
    (1..=64).find_map(|n| {
        // SAFETY: it takes any byte.
        let found = unsafe { window_alone(n) };
        let wanted = window(usize::from(n)) as usize;
        (found != wanted).then(|| format!("n {n}: library {found}, reference {wanted}"))
    })
}

/// The first header whose answer differs.
fn first_header() -> Option<String> {
    let headers = (0..=u8::MAX).flat_map(|n| (0..=HIGHEST_LIMIT).map(move |limit| (n, limit)));
    headers.into_iter().find_map(|(n, limit)| {
        let [low, high] = limit.to_le_bytes();
        let sheet = [n, 0, low, high];
        let found = library::run(&sheet, 0, &mut [0; BUFFER]);
        let wanted = entry(&sheet, 0, &mut [0; BUFFER]);
        (found != wanted).then(|| format!("n {n}, L {limit}: library {found}, reference {wanted}"))
    })
}

fn main() -> ExitCode {
    if let Some(difference) = first_window().or_else(first_header) {
        println!("difference: {difference}");
        return ExitCode::FAILURE;
    }
    let headers = 256 * (usize::from(HIGHEST_LIMIT) + 1);
    println!("windows: n from 1 to 64 and {headers} headers, no difference");
    ExitCode::SUCCESS
}
