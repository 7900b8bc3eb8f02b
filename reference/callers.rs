//! Compares, for both callers of 02, wish 9, what the library answers with what the
//! reference does: openings of sessions and of polls, the report of each sheet of a header
//! alone, and the writing of each such sheet. So 1 and 2 are met at each caller's limits.
//!
//! n and L are 0 to 300, and huge ones that a byte, 16 or 32 bits would cut to smaller
//! ones; those of a header, as far as its bytes hold them.
//!
//! It ends with 1 after telling the first difference.

#[allow(unused_macros)]
mod harness;
mod library;

use std::fmt::Display;
use std::process::ExitCode;

use harness::{same_text, text_by, word, SERVER};
use janus_reference::{report_of, write, Caller, Poll, Refusal, Session};

/// Bytes that name the callers.
const CALLERS: [u8; 4] = [SERVER, 1, 2, 255];

const HIGHEST: usize = 300;
/// What the size is before a call, and after a refused one.
const UNTOLD: usize = 77;
const HUGE: [usize; 13] = [
    256 + 64,
    512 + 5,
    1024 + 16,
    65_535,
    1 << 16,
    (1 << 16) + 10,
    (1 << 16) + 64,
    1 << 32,
    (1 << 32) + 9,
    (1 << 48) + 16,
    1 << 63,
    usize::MAX - 200,
    usize::MAX,
];

fn sizes() -> impl Iterator<Item = usize> {
    (0..=HIGHEST).chain(HUGE)
}

/// Every n with every L.
fn both() -> impl Iterator<Item = (usize, usize)> {
    sizes().flat_map(|n| sizes().map(move |limit| (n, limit)))
}

fn code<T>(answer: Result<T, Refusal>) -> u32 {
    answer.map_or_else(Refusal::code, |_| 0)
}

/// The numbers of the two sides must be equal.
fn same<T: PartialEq + Display>(what: impl Display, found: T, wanted: T) -> Result<(), String> {
    if found == wanted {
        return Ok(());
    }
    Err(format!("{what}: library {found}, reference {wanted}"))
}

fn openings(byte: u8, caller: Caller) -> Result<usize, String> {
    for (n, limit) in both() {
        let found = library::open_as(byte, n, limit);
        let wanted = code(Session::open(caller, n, limit));
        same(format_args!("opening, n {n}, L {limit}"), found, wanted)?;
    }
    Ok(both().count())
}

/// "Opening, of polls too".
fn openings_of_polls(byte: u8, caller: Caller) -> Result<usize, String> {
    for n in sizes() {
        let found = library::open_poll_as(byte, n);
        same(
            format_args!("poll, n {n}"),
            found,
            code(Poll::open(caller, n)),
        )?;
    }
    Ok(sizes().count())
}

fn headers(byte: u8, caller: Caller) -> Result<usize, String> {
    let limits = || sizes().filter_map(|limit| u16::try_from(limit).ok());
    let headers = || (0..=u8::MAX).flat_map(|n| limits().map(move |limit| (n, limit)));
    for (n, limit) in headers() {
        let [low, high] = limit.to_le_bytes();
        let sheet = [n, 0, low, high];
        text_by(byte, |buffer| library::report_as(byte, &sheet, 0, buffer))
            .and_then(|text| same_text(&text, &report_of(caller, 0, &sheet)))
            .map_err(|words| format!("sheet, n {n}, L {limit}: {words}"))?;
    }
    Ok(headers().count())
}

/// The header alone is written, and its size told.
fn written(byte: u8, caller: Caller) -> Result<usize, String> {
    for (n, limit) in both() {
        let (mut theirs, mut ours, mut size) = ([byte; 4], [byte; 4], UNTOLD);
        let found = library::write_as(byte, (n, limit), &[], &[], &mut theirs, &mut size);
        let wanted = code(write(caller, n, limit, &[], &[], &mut ours));
        same(format_args!("writing, n {n}, L {limit}"), found, wanted)?;
        if theirs != ours {
            return Err(format!(
                "writing, n {n}, L {limit}: library {theirs:?}, reference {ours:?}"
            ));
        }
        let told = if wanted == 0 { ours.len() } else { UNTOLD };
        same(format_args!("size, n {n}, L {limit}"), size, told)?;
    }
    Ok(both().count())
}

/// All of it for one caller.
fn compare(byte: u8) -> Result<(), String> {
    let caller = Caller::named(byte);
    let name = word(caller);
    let told = |words: String| format!("{name}, {words}");
    let opened = openings(byte, caller).map_err(told)?;
    let polls = openings_of_polls(byte, caller).map_err(told)?;
    let headers = headers(byte, caller).map_err(told)?;
    let written = written(byte, caller).map_err(told)?;
    println!("callers: {name} ({byte}): {opened} openings, {polls} of polls, {headers} headers read and {written} written, no difference");
    Ok(())
}

fn main() -> ExitCode {
    for byte in CALLERS {
        if let Err(words) = compare(byte) {
            println!("difference: {words}");
            return ExitCode::FAILURE;
        }
    }
    ExitCode::SUCCESS
}
