//! What the programs share that compare the library with the reference: random
//! words, parts of random sheets, the callers, the table of what was reached, and the
//! run of many cases by a process that is watched.

// No program uses all of it.
#![allow(dead_code)]

use std::io::{self, Read, Write};
use std::ops::RangeInclusive;
use std::process::{Command, ExitCode, Stdio};
use std::sync::mpsc::{channel, Receiver, RecvTimeoutError};
use std::time::{Duration, SystemTime, UNIX_EPOCH};

pub use janus_reference::random::Random;
use janus_reference::session::MAX_PROCESSES;
use janus_reference::{window, Caller};

// ---------------------------------------------------------------- parts of sheets

pub type Entry = [u8; 6];

pub fn raw(kind: u8, process: usize, value: u32) -> Entry {
    let [a, b, c, d] = value.to_le_bytes();
    [kind, process as u8, a, b, c, d]
}

/// The entry of a close. (02, wish 10: "kind 4, seat 0, value 0".)
pub const CLOSE: Entry = [4, 0, 0, 0, 0, 0];

/// The most entries a sheet can hold.
pub const MOST_ENTRIES: usize = 10_921;

/// Seats and round limit, most of them small.
pub fn size(random: &mut Random) -> (usize, usize) {
    let n = match random.below(10) {
        0..=4 => random.between(1, 6),
        5..=7 => random.between(5, 20),
        _ => random.between(1, 64),
    };
    let least = window(n) as usize;
    let limit = match random.below(10) {
        0..=3 => least,
        4..=6 => random.between(least, least + 8),
        7 | 8 => random.between(least, 64),
        _ => random.pick(&[255, 256, 128, 200]),
    };
    (n, limit)
}

/// Seats and round limit about the cart's most, and below.
pub fn cart_size(random: &mut Random) -> (usize, usize) {
    let (seats, rounds) = most(Caller::Cart);
    let n = match random.below(3) {
        0 => random.between(1, seats),
        _ => random.between(seats - 1, seats + 1),
    };
    let limit = match random.below(3) {
        0 => random.between(window(n) as usize, rounds),
        _ => random.between(rounds - 1, rounds + 1),
    };
    (n, limit)
}

/// The smallest number whose square is at least that.
fn root_up(square: usize) -> usize {
    let root = (1..).find(|root| root * root >= square);
    root.expect("squares grow")
}

/// The least L of n processes in the words of 02, wish 8, by which coverage is counted:
/// "the smallest whole number with W times W at least 4n".
pub fn least_limit(n: usize) -> usize {
    root_up(4 * n)
}

/// Whether L is below 01's window, "2 times (the root of n, rounded up to a whole
/// number) + 1": before 02, wish 8, it was refused with 2.
pub fn shorter(n: usize, limit: usize) -> bool {
    limit < 2 * root_up(n) + 1
}

/// n and L in the paper case of one seat. (02, wish 8.)
pub const ONE_SEAT: (usize, usize) = (1, 2);

/// Where so many runs of the entries end: anywhere but for the last one.
pub fn ends(random: &mut Random, entries: usize, runs: usize) -> Vec<usize> {
    let mut ends: Vec<usize> = (1..runs).map(|_| random.between(0, entries)).collect();
    ends.sort_unstable();
    if runs > 0 {
        ends.push(entries);
    }
    ends
}

// ---------------------------------------------------------------- the callers

/// The byte that names the server.
pub const SERVER: u8 = 0;

/// One that names the cart: any other does.
pub fn cart(random: &mut Random) -> u8 {
    random.pick(&[1, 2, 128, 255])
}

/// A caller in a word.
pub fn word(caller: Caller) -> &'static str {
    match caller {
        Caller::Server => "server",
        Caller::Cart => "cart",
    }
}

/// A caller's most seats and rounds in the words of 02, wish 9, by which coverage is
/// counted: "at most 16 seats and 64 rounds; the server stays at 64 and 256".
pub fn most(caller: Caller) -> (usize, usize) {
    match caller {
        Caller::Server => (64, 256),
        Caller::Cart => (16, 64),
    }
}

// ---------------------------------------------------------------- what is reached

/// Names each thing that the cases are expected to reach, and how often a full
/// run must reach it at least: once where nothing is said.
macro_rules! events {
    ($($event:ident: $name:literal $(at least $least:literal)?,)*) => {
        #[derive(Clone, Copy)]
        enum Event { $($event,)* }
        const EVENTS: &[(&str, u64)] = &[$(($name, [$($least,)? 1][0]),)*];
        impl From<Event> for usize {
            fn from(event: Event) -> usize {
                event as usize
            }
        }
    };
}

/// How often each event was reached.
pub struct Reached {
    events: &'static [(&'static str, u64)],
    times: Vec<u64>,
}

impl Reached {
    pub fn none_of(events: &'static [(&'static str, u64)]) -> Reached {
        let times = vec![0; events.len()];
        Reached { events, times }
    }

    pub fn note(&mut self, event: impl Into<usize>) {
        self.times[event.into()] += 1;
    }

    pub fn note_if(&mut self, happened: bool, event: impl Into<usize>) {
        self.times[event.into()] += u64::from(happened);
    }

    /// Prints the table; returns what was expected and was not reached.
    pub fn print(&self) -> Vec<String> {
        let mut missing = Vec::new();
        println!("{:46} {:>12}", "reached", "times");
        for ((name, least), &times) in self.events.iter().zip(&self.times) {
            println!("{name:46} {times:12}");
            if times < *least {
                missing.push(format!("{name} ({times} of {least} times)"));
            }
        }
        missing
    }
}

/// How often something was reached with each number of processes.
pub struct ByN {
    name: &'static str,
    expected: RangeInclusive<usize>,
    times: [u64; MAX_PROCESSES + 1],
}

impl ByN {
    /// Each n from 1 to 64 is expected.
    pub fn none_of(name: &'static str) -> ByN {
        ByN::none_for(1..=MAX_PROCESSES, name)
    }

    pub fn none_for(expected: RangeInclusive<usize>, name: &'static str) -> ByN {
        let times = [0; MAX_PROCESSES + 1];
        ByN {
            name,
            expected,
            times,
        }
    }

    pub fn note(&mut self, n: usize) {
        self.times[n] += 1;
    }

    pub fn note_if(&mut self, happened: bool, n: usize) {
        if happened {
            self.note(n);
        }
    }

    /// Prints for how many n it was reached, and how often for the n with the fewest
    /// times; each one expected that was not is missing.
    pub fn print(&self, missing: &mut Vec<String>) {
        let (name, times) = (self.name, &self.times[self.expected.clone()]);
        let (reached, all) = (
            times.iter().filter(|times| **times > 0).count(),
            times.len(),
        );
        let fewest = times.iter().min().expect("some n is expected");
        println!("n with {name}: {reached} of {all}, each {fewest} times or more");
        if reached < all {
            missing.push(format!("{name} for every n"));
        }
    }
}

// ---------------------------------------------------------------- the comparison

/// Bytes on either side of a lent buffer, which no call may touch.
pub const GUARD: usize = 64;

/// The bytes that the two sides leave must be equal; places count from the lent
/// buffer on.
pub fn same_bytes(what: &str, theirs: &[u8], ours: &[u8]) -> Result<(), String> {
    let unequal = (0..ours.len()).find(|place| ours[*place] != theirs[*place]);
    unequal.map_or(Ok(()), |place| {
        let (theirs, ours) = (theirs[place], ours[place]);
        let byte = place as i64 - GUARD as i64;
        Err(format!(
            "{what} byte {byte}: library {theirs}, reference {ours}"
        ))
    })
}

/// No report's text is longer. (include/janus.h.)
const REPORT_LENGTH: usize = 5120;

/// The text that a report of the library writes to a buffer full of one byte.
pub fn text_by(fill: u8, report: impl FnOnce(&mut [u8]) -> usize) -> Result<String, String> {
    let mut room = [fill; GUARD + REPORT_LENGTH + GUARD];
    let size = report(&mut room[GUARD..GUARD + REPORT_LENGTH]);
    let (before, rest) = room.split_at(GUARD);
    let (text, behind) = rest.split_at(size.min(REPORT_LENGTH));
    if before.iter().chain(behind).any(|byte| *byte != fill) {
        return Err("report: a byte beside the text is changed".to_string());
    }
    Ok(String::from_utf8_lossy(text).into_owned())
}

/// The text of a report must be the reference's.
pub fn same_text(text: &str, expected: &str) -> Result<(), String> {
    if text == expected {
        return Ok(());
    }
    Err(format!("report: library\n{text}reference\n{expected}"))
}

/// A program that compares the two sides on random cases.
pub trait Comparison {
    /// The program's name, and its word for the cases.
    const NAME: &'static str;
    const CASES: &'static str;
    /// What of a case is kept in a file where the sides differ.
    const KEPT: &'static str;
    /// So many cases reach all that is expected, and a run of so many must.
    const FULL: u64;
    type Case;

    fn new() -> Self;
    fn case(random: &mut Random) -> Self::Case;
    /// What differs, in words.
    fn compare(&mut self, index: u64, case: &Self::Case, random: &mut Random)
        -> Result<(), String>;
    /// Prints what so many cases reached; returns what they should have and did not.
    fn print(&self, count: u64) -> Vec<String>;
    /// What the kept bytes do not tell of a case that came to no end.
    fn words(case: &Self::Case) -> String;
    fn kept(case: &Self::Case) -> &[u8];
}

/// COUNT, 1 or more, and SEED of the command line, or none where they are not
/// such numbers.
fn arguments(full: u64) -> Option<(u64, u64)> {
    let words: Vec<String> = std::env::args().skip(1).collect();
    let count = words.first().map_or(Ok(full), |word| word.parse());
    let clock = || SystemTime::now().duration_since(UNIX_EPOCH);
    let seed = match words.get(1) {
        Some(word) => word.parse().ok(),
        None => clock().ok().map(|since| since.as_nanos() as u64),
    };
    let count = count.ok().filter(|count| *count > 0)?;
    (words.len() <= 2).then_some((count, seed?))
}

/// Keeps the bytes of a case that went wrong, with words on it.
fn keep<C: Comparison>(seed: u64, index: u64, case: &C::Case, words: &str) -> ExitCode {
    let kept = C::KEPT;
    let file = format!("difference-{seed}-{index}.{kept}");
    println!("difference: seed {seed} index {index}: {words}");
    match std::fs::write(&file, C::kept(case)) {
        Ok(()) => println!("{kept} written to {file}"),
        Err(error) => println!("{file} could not be written: {error}"),
    }
    ExitCode::FAILURE
}

/// Runs all cases, with a byte 0 on standard output before each.
fn work<C: Comparison>(count: u64, seed: u64) -> io::Result<ExitCode> {
    println!("seed {seed}");
    let mut comparison = C::new();
    for index in 0..count {
        io::stdout().write_all(&[0])?;
        io::stdout().flush()?;
        let mut random = Random::of(seed, index);
        let case = C::case(&mut random);
        if let Err(words) = comparison.compare(index, &case, &mut random) {
            return Ok(keep::<C>(seed, index, &case, &words));
        }
    }
    let missing = comparison.print(count);
    for name in &missing {
        println!("not reached: {name}");
    }
    let (cases, full, left) = (C::CASES, C::FULL, missing.len());
    if left > 0 && count >= full {
        return Ok(ExitCode::FAILURE);
    }
    if left > 0 {
        println!(
            "{count} {cases} are too few for full coverage, {left} short of it; {full} are enough"
        );
    }
    println!("{}: {count} {cases}, no difference", C::NAME);
    Ok(ExitCode::SUCCESS)
}

/// Set for the process that runs the cases.
const WORKER: &str = "COMPARISON_WORKER";
/// How long one case may take.
const PATIENCE: Duration = Duration::from_secs(60);

/// Has another process run the cases, so that a fault or an endless run of the
/// library is a difference with its case like any other.
fn supervise<C: Comparison>(count: u64, seed: u64) -> io::Result<ExitCode> {
    let mut worker = Command::new(std::env::current_exe()?)
        .args([count.to_string(), seed.to_string()])
        .env(WORKER, "")
        .stdout(Stdio::piped())
        .spawn()?;
    let chunks = chunks_of(worker.stdout.take().expect("a piped output"));
    let mut begun: u64 = 0;
    let endless = loop {
        match chunks.recv_timeout(PATIENCE) {
            Ok(mut chunk) => {
                let length = chunk.len();
                chunk.retain(|byte| *byte != 0);
                begun += (length - chunk.len()) as u64;
                io::stdout().write_all(&chunk)?;
            }
            Err(RecvTimeoutError::Disconnected) => break false,
            Err(RecvTimeoutError::Timeout) => break true,
        }
    };
    if endless {
        worker.kill()?;
    }
    let status = worker.wait()?;
    if let Some(code) = status.code() {
        return Ok(ExitCode::from(code as u8));
    }
    let index = begun.saturating_sub(1);
    let case = C::case(&mut Random::of(seed, index));
    let end = match endless {
        true => format!("no answer in {PATIENCE:?}"),
        false => format!("a fault ({status})"),
    };
    let words = format!("{end}, {}", C::words(&case));
    Ok(keep::<C>(seed, index, &case, &words))
}

/// What is read from a pipe, for as long as it is open.
fn chunks_of(mut pipe: impl Read + Send + 'static) -> Receiver<Vec<u8>> {
    let (sender, receiver) = channel();
    std::thread::spawn(move || {
        let mut chunk = [0; 4096];
        while let Ok(length @ 1..) = pipe.read(&mut chunk) {
            if sender.send(chunk[..length].to_vec()).is_err() {
                break;
            }
        }
    });
    receiver
}

/// The program: `NAME [COUNT] [SEED]`.
pub fn run<C: Comparison>() -> ExitCode {
    let Some((count, seed)) = arguments(C::FULL) else {
        eprintln!("usage: {} [COUNT] [SEED]", C::NAME);
        return ExitCode::from(2);
    };
    let part = match std::env::var_os(WORKER) {
        Some(_) => work::<C>,
        None => supervise::<C>,
    };
    part(count, seed).unwrap_or_else(|error| {
        eprintln!("{}: {error}", C::NAME);
        ExitCode::from(2)
    })
}
