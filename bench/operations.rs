//! One call of each public operation, on a session of 8 processes and 256 rounds. Each side is a process that reads which operation and how
//! often (a byte and 32 bits, low byte first) and makes that many calls: crates/test_bench, and `answer` here, in the same loop. Both test
//! the session's soundness in each call. The proved operations take and return the session by value and are lent the counts; the separate
//! ones change both in place.

use std::hint::black_box;
use std::io::{Read, Write};
use std::path::Path;
use std::process::{Command, Stdio};
use std::time::{Duration, Instant};

use janus_reference::{Caller, Counts, Poll, Session};

const CALLS: u32 = 200_000;
const ROUNDS: usize = 11;
const ACCEPTED: &str = "no call is refused";

/// The operations by number.
const OPERATIONS: [&str; 11] = [
    "open",
    "propose",
    "step, hint no",
    "step, hint yes",
    "learn",
    "crash",
    "register",
    "process_record",
    "decision",
    "standing_values",
    "turn of a poll, L 6",
];

/// A session in which all processes but the last have proposed.
fn proposed() -> Session {
    let mut session = Session::open(Caller::Server, 8, 256).expect(ACCEPTED);
    for process in 0..7 {
        session.propose(process, 1 + process as u32).expect(ACCEPTED);
    }
    session
}

/// One call, and what a read-out tells.
fn call(operation: u8, session: &mut Session, place: usize, buffer: &mut [u32]) -> u32 {
    let mut counts = Counts::default();
    match operation {
        0 => *session = Session::open(Caller::Server, 8, 256).expect(ACCEPTED),
        1 => session.propose(7, 8).expect(ACCEPTED),
        2 => session.step(0, false, &mut counts).expect(ACCEPTED),
        3 => session.step(0, true, &mut counts).expect(ACCEPTED),
        4 => session.learn(0, &mut counts).expect(ACCEPTED),
        5 => session.crash(0).expect(ACCEPTED),
        6 => return session.read_round(1 + place).expect(ACCEPTED).0,
        7 => return session.read_process(place % 8).expect(ACCEPTED).estimate,
        8 => return session.read_decision().expect(ACCEPTED),
        _ => return session.standing_values(buffer).map_or(1, |_| 0),
    }
    black_box(counts);
    0
}

/// The loop of crates/test_bench. A process that an operation changes is set back, so that each call is accepted.
fn called(operation: u8, count: u32) -> u32 {
    let mut session = proposed();
    let mut buffer = [0; 256];
    let mut sum = 0;
    let process = if operation == 1 { 7 } else { 0 };
    let record = session.processes[process];
    for i in 0..count {
        let place = (i % 256) as usize;
        session.registers.values[place] = 1 + i % 8;
        sum += call(operation, black_box(&mut session), place, &mut buffer);
        session.processes[process] = record;
    }
    if operation < 6 {
        session.registers.values[(count % 256) as usize]
    } else {
        sum + buffer[7]
    }
}

/// Operation 10, likewise: a turn of a poll in which all processes but the last have proposed.
fn turned(count: u32) -> u32 {
    let mut poll = Poll::open(Caller::Server, 8).expect(ACCEPTED);
    for process in 0..7 {
        poll.propose(process, 1 + process as u32).expect(ACCEPTED);
    }
    let record = poll.voters[0];
    for i in 0..count {
        poll.registers.values[(i % 6) as usize] = 1 + i % 8;
        let mut counts = Counts::default();
        black_box(black_box(&mut poll).step(0, &mut counts).expect(ACCEPTED));
        black_box(counts);
        poll.voters[0] = record;
    }
    poll.registers.values[(count % 6) as usize]
}

/// The separate program's side: standard input to standard output.
pub fn answer() {
    let mut asked = [0; 5];
    std::io::stdin().read_exact(&mut asked).expect("five bytes are told");
    let [operation, count @ ..] = asked;
    let count = u32::from_le_bytes(count);
    let number = if operation < 10 { called(operation, count) } else { turned(count) };
    print!("{number}");
}

/// How long a process takes for that many calls, and what it answers.
fn timed(side: (&Path, &[&str]), operation: usize, count: u32) -> (Duration, Vec<u8>) {
    let mut asked = vec![operation as u8];
    asked.extend(count.to_le_bytes());
    let start = Instant::now();
    let mut child = Command::new(side.0)
        .args(side.1)
        .stdin(Stdio::piped())
        .stdout(Stdio::piped())
        .spawn()
        .expect("the program can be run");
    child.stdin.take().expect("it is piped").write_all(&asked).expect("it reads");
    let answer = child.wait_with_output().expect("it ends").stdout;
    (start.elapsed(), answer)
}

/// Nanoseconds a call of each side: the best time of many calls, less the best of none. Both must answer the same.
fn compare(sides: [(&Path, &[&str]); 2], operation: usize) -> [f64; 2] {
    let mut best = [[Duration::MAX; 2]; 2];
    for _ in 0..ROUNDS {
        for (which, count) in [0, CALLS].into_iter().enumerate() {
            let runs = sides.map(|side| timed(side, operation, count));
            assert_eq!(runs[0].1, runs[1].1, "{} answers differ", OPERATIONS[operation]);
            for side in 0..2 {
                best[side][which] = best[side][which].min(runs[side].0);
            }
        }
    }
    best.map(|[none, many]| many.saturating_sub(none).as_nanos() as f64 / f64::from(CALLS))
}

/// The proved program beside this one.
pub fn table(program: &str) {
    let own = std::env::current_exe().expect("this program has a path");
    println!("| operation, n 8, L 256 | proved, ns a call | separate, ns a call | ratio |");
    println!("|---|---|---|---|");
    for (operation, name) in OPERATIONS.iter().enumerate() {
        let [ours, theirs] = compare([(Path::new(program), &[]), (&own, &["calls"])], operation);
        println!("| {name} | {ours:.0} | {theirs:.0} | {:.1} |", ours / theirs);
    }
}
