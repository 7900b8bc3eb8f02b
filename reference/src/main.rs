//! The program `reference`: a sheet on standard input, its report, its trace or
//! the C entry's answer on standard output; or polls or houses, and what becomes of them.
//!
//! - `reference report` prints the board report (01, "The board report").
//! - `reference trace [WINDOW]` prints one line an entry, with that window in place
//!   of the one in service if it is told (02, wish 7); the format is described in
//!   `trace.rs`.
//! - `reference traces` prints the traces of many sheets, each behind its length
//!   in 16 bits, and a blank line after each.
//! - `reference polls` prints what becomes of many polls; the format of both is
//!   described in `polls.rs`.
//! - `reference houses` does so for many houses; both formats are in `houses.rs`.
//! - `reference entry BUDGET` prints `code CODE`, the C entry's answer, and a
//!   line `seat S decided VALUE` for each place of the buffer that is not 0
//!   (01, "Turn sheets").
//! - `reference run BUDGET PLACES [cart]` prints two lines: the C entry's number, the
//!   entries carried out, and the reads, writes and contested writes; and of the
//!   session that is left the read-out of the standing values to a buffer of so
//!   many places, 256 at most: its number, its count and the places after it,
//!   which hold 4294967295 before. With `cart` the sheet is read as the bedside cart
//!   (02, wish 9).

use std::io::{self, Read, Write};
use std::process::ExitCode;

use janus_reference::runner::BUFFER;
use janus_reference::sheet::MAX_BYTES;
use janus_reference::{
    entry, houses, polls, report, run, trace, trace_at, traces, Caller, Counts, Refusal, Session,
    Sheet,
};

const USAGE: &str =
    "usage: reference report | trace [WINDOW] | traces | polls | houses | entry BUDGET | run BUDGET PLACES [cart]   (sheet, polls or houses on standard input)";

fn main() -> ExitCode {
    let arguments: Vec<String> = std::env::args().skip(1).collect();
    let words: Vec<&str> = arguments.iter().map(String::as_str).collect();
    // Of one sheet no more is read than it takes to see that it is too long.
    let one = MAX_BYTES as u64 + 1;
    let (most, answer): (u64, fn(&[u8], &[u64]) -> String) = match words[..] {
        ["report"] => (one, |sheet, _| report(sheet)),
        ["trace"] => (one, |sheet, _| trace(sheet)),
        ["trace", _] => (one, trace_text),
        ["traces"] => (u64::MAX, |sheets, _| traces(sheets)),
        ["polls"] => (u64::MAX, |bytes, _| polls(bytes)),
        ["houses"] => (u64::MAX, |bytes, _| houses(bytes)),
        ["entry", _] => (one, entry_text),
        ["run", _, _] => (one, |sheet, told| run_text(Caller::Server, sheet, told)),
        ["run", _, _, "cart"] => (one, |sheet, told| run_text(Caller::Cart, sheet, told)),
        _ => return fail(USAGE),
    };
    // Two at most are numbers.
    let numbers = words[1..].iter().take(2).map(|word| word.parse());
    let Ok(numbers) = numbers.collect() else {
        return fail(USAGE);
    };
    match answer_input(most, answer, numbers) {
        Ok(()) => ExitCode::SUCCESS,
        Err(error) => fail(&format!("reference: {error}")),
    }
}

fn fail(message: &str) -> ExitCode {
    eprintln!("{message}");
    ExitCode::from(2)
}

/// Reads so many bytes at most and prints the answer to them.
fn answer_input(
    most: u64,
    answer: fn(&[u8], &[u64]) -> String,
    numbers: Vec<u64>,
) -> io::Result<()> {
    let mut input = Vec::new();
    io::stdin().take(most).read_to_end(&mut input)?;
    io::stdout().write_all(answer(&input, &numbers).as_bytes())
}

/// A window of more than 32 bits is above every L, like the largest one of 32.
fn trace_text(sheet: &[u8], numbers: &[u64]) -> String {
    let window = u32::try_from(numbers[0]).unwrap_or(u32::MAX);
    trace_at(window, sheet)
}

fn entry_text(sheet: &[u8], numbers: &[u64]) -> String {
    let mut buffer = [0; BUFFER];
    let mut text = format!("code {}\n", entry(sheet, numbers[0], &mut buffer));
    for (process, place) in buffer.chunks_exact(4).enumerate() {
        let value = u32::from_le_bytes([place[0], place[1], place[2], place[3]]);
        if value != 0 {
            text += &format!("seat {process} decided {value}\n");
        }
    }
    text
}

fn run_text(caller: Caller, bytes: &[u8], numbers: &[u64]) -> String {
    let mut counts = Counts::default();
    let (code, carried_out, session) = match Sheet::read(caller, bytes) {
        Ok(sheet) => {
            let mut session = sheet.open();
            let ending = run(&sheet, numbers[0], &mut session, &mut counts);
            (ending.code(), ending.carried_out(), Some(session))
        }
        Err(refusal) => (refusal.code(), 0, None),
    };
    let tally = [counts.reads, counts.writes, counts.contested].map(|count| count.to_string());
    let standing = standing_text(session.as_ref(), numbers[1]);
    format!("{code} {carried_out} {}\n{standing}\n", tally.join(" "))
}

/// Where no session was made, none is sound.
fn standing_text(session: Option<&Session>, places: u64) -> String {
    let mut buffer = vec![u32::MAX; places.min(256) as usize];
    let answer = match session {
        Some(session) => session.standing_values(&mut buffer),
        None => Err(Refusal::Unsound),
    };
    let (code, count) = match answer {
        Ok(count) => (0, count),
        Err(refusal) => (refusal.code(), 0),
    };
    let mut text = format!("{code} {count}");
    for number in buffer {
        text += &format!(" {number}");
    }
    text
}
