//! The proved runner beside the separately written one, on the same sheets, in one run; and the proved writer beside the other.
//!
//! usage: bench                                              the tables of sheets that are run and of one that is written
//!        bench operations PROGRAM                           the table of operations; PROGRAM is the proved one (operations.rs)
//!        bench calls                                        the separate program's side of it
//!        bench count proved|separate N L ENTRIES CALLS      that many calls on that sheet, for a tool that counts instructions;
//!                                          [waiting]        or on the one that waits
//!
//! A table has nanoseconds for each of the two, and their ratio. Rounds of the two alternate, and the best of each counts, so that another
//! load on the machine weighs on both alike.

#[path = "../reference/library.rs"]
mod library;
mod operations;

use std::hint::black_box;
use std::time::Instant;

use janus_reference::{entry, window, write, Caller, Counts, Operation, Phase, Session};

const BUFFER: usize = 256;
const MOST: usize = 10_921;
const WRITTEN: usize = 10_920;
const HEADER: usize = 8;
const ENTRY: usize = 6;
const ROUNDS: usize = 150;
const ENTRIES_A_ROUND: usize = 400_000;

/// The header of a sheet of one run.
fn header(n: usize, limit: usize, entries: usize) -> Vec<u8> {
    let mut bytes = vec![n as u8, 1, limit as u8, (limit / 256) as u8, 8, 0];
    bytes.extend(((entries * 6) as u16).to_le_bytes());
    bytes
}

/// A sheet of one run: every process proposes, then all take turns, told to lead below round L - 1. There a process waits: in round L its
/// next turn would spend it, whatever the hint.
fn sheet(n: usize, limit: usize, entries: usize) -> Vec<u8> {
    let mut bytes = header(n, limit, entries);
    let mut session = Session::open(Caller::Server, n, limit).expect("the size is one that can be opened");
    let mut counts = Counts::default();
    for index in 0..entries {
        let process = index % n;
        let record = session.processes[process];
        let (kind, value) = match record.phase {
            Phase::Idle => (0, 1 + process as u32),
            Phase::Waiting => (1, u32::from((record.round as usize) + 1 < limit)),
            _ => (1, 1),
        };
        let mut added = vec![kind, process as u8];
        added.extend(value.to_le_bytes());
        let operation = Operation::decode(&added).expect("the entry is well formed");
        session.apply_trusted(operation, &mut counts, |_| {}).expect("no turn is refused");
        bytes.extend(added);
    }
    bytes
}

/// A sheet of one run: every process proposes, then all wait: work turns with hint no and looks at the blank D, by turns.
fn waiting(n: usize, limit: usize, entries: usize) -> Vec<u8> {
    let mut bytes = header(n, limit, entries);
    for index in 0..entries {
        let (kind, process, value) = if index < n { (0, index, 1) } else { (1 + index % 2, index / 2 % n, 0) };
        bytes.extend([kind as u8, process as u8, value, 0, 0, 0]);
    }
    bytes
}

/// A call that runs a sheet, of which no entry is refused.
fn running(run: fn(&[u8], u64, &mut [u8]) -> u32, sheet: &[u8]) -> impl FnMut() + '_ {
    let mut buffer = [0; BUFFER];
    move || assert_eq!(run(black_box(sheet), MOST as u64, &mut buffer), 0)
}

/// The size of the sheet of n, L, entries and run lengths that is written to an output; 0 where it is refused.
type Writer = fn(usize, usize, &[u8], &[usize], &mut [u8]) -> usize;

/// A call that writes the sheet, which has one run, once more.
fn writing(write: Writer, sheet: &[u8]) -> impl FnMut() + '_ {
    let (n, limit) = (usize::from(sheet[0]), usize::from(u16::from_le_bytes([sheet[2], sheet[3]])));
    let (entries, mut output) = (&sheet[HEADER..], sheet.to_vec());
    let run = [entries.len() / ENTRY];
    move || assert_eq!(write(n, limit, black_box(entries), &run, &mut output), sheet.len())
}

fn write_proved(n: usize, limit: usize, entries: &[u8], runs: &[usize], output: &mut [u8]) -> usize {
    let mut size = 0;
    library::write(n, limit, entries, runs, output, &mut size);
    size
}

fn write_separate(n: usize, limit: usize, entries: &[u8], runs: &[usize], output: &mut [u8]) -> usize {
    write(Caller::Server, n, limit, entries, runs, output).unwrap_or(0)
}

/// Nanoseconds of so many calls.
fn round(calls: usize, call: &mut impl FnMut()) -> f64 {
    let start = Instant::now();
    for _ in 0..calls {
        call();
    }
    start.elapsed().as_nanos() as f64
}

/// The best rounds of both, on so many entries a call: nanoseconds an entry, and their ratio.
fn compare(name: &str, entries: usize, mut ours: impl FnMut(), mut theirs: impl FnMut()) {
    let calls = ENTRIES_A_ROUND.div_ceil(entries);
    let mut best = [f64::MAX; 2];
    for _ in 0..ROUNDS {
        best[0] = best[0].min(round(calls, &mut ours));
        best[1] = best[1].min(round(calls, &mut theirs));
    }
    let [ours, theirs] = best.map(|time| time / (calls * entries) as f64);
    println!("| {name} | {ours:.2} | {theirs:.2} | {:.2} |", ours / theirs);
}

/// Both runners on a sheet.
fn compare_runs(n: usize, limit: usize, entries: &str, sheet: &[u8]) {
    let count = (sheet.len() - HEADER) / ENTRY;
    compare(&format!("{n} | {limit} | {entries}"), count, running(library::run, sheet), running(entry, sheet));
}

fn table() {
    println!("| n | L | entries | proved, ns an entry | separate, ns an entry | ratio |");
    println!("|---|---|---|---|---|---|");
    for entries in [100, MOST] {
        for n in [1, 8, 64] {
            for limit in [window(n) as usize, 256] {
                compare_runs(n, limit, &entries.to_string(), &sheet(n, limit, entries));
            }
        }
    }
    for n in [1, 8, 64] {
        compare_runs(n, 256, &format!("{MOST}, waiting"), &waiting(n, 256, MOST));
    }
    println!("\n| operation, n 8, L 256 | proved, ns an entry | separate, ns an entry | ratio |");
    println!("|---|---|---|---|");
    let sheet = sheet(8, 256, WRITTEN);
    compare("writing 10,920 entries", WRITTEN, writing(write_proved, &sheet), writing(write_separate, &sheet));
    println!();
}

fn main() {
    let words: Vec<String> = std::env::args().skip(1).collect();
    let number = |word: &str| word.parse().expect("a number is told");
    match words.iter().map(String::as_str).collect::<Vec<_>>()[..] {
        [] => table(),
        ["calls"] => operations::answer(),
        ["operations", program] => operations::table(program),
        ["count", which, n, limit, entries, calls] | ["count", which, n, limit, entries, calls, "waiting"] => {
            let run = if which == "proved" { library::run } else { entry };
            let made = if words.len() == 7 { waiting } else { sheet };
            round(number(calls), &mut running(run, &made(number(n), number(limit), number(entries))));
        }
        _ => println!("usage: bench [calls | operations PROGRAM | count proved|separate N L ENTRIES CALLS [waiting]]"),
    }
}
