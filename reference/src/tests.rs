//! The paper cases of document 01, each number that it and 02 return, polls, the window
//! as a parameter, both callers, closed sessions, houses, and short lists.

mod callers;
mod closing;
mod house_soundness;
mod house_text;
mod houses;
mod operations;
mod paper;
mod polls;
mod random;
mod sheets;
mod short;
mod soundness;
mod windows;
mod writer;

use crate::{Caller, Counts, Operation, Process, Refusal, Session};

/// A session and its counts, with operations that must be accepted.
struct Case {
    session: Session,
    counts: Counts,
}

impl Case {
    fn open(n: usize, limit: usize) -> Case {
        Case {
            session: Session::open(Caller::Server, n, limit).expect("an opening within bounds"),
            counts: Counts::default(),
        }
    }

    fn propose(&mut self, process: usize, value: u32) {
        assert_eq!(self.session.propose(process, value), Ok(()));
    }

    /// Steps with hint yes, in the order listed.
    fn work(&mut self, order: &[usize]) {
        for &process in order {
            let result = self.session.step(process, true, &mut self.counts);
            assert!(result.is_ok(), "work {process}: {result:?}");
        }
    }

    fn step(&mut self, process: usize, leader: bool) -> Result<(), Refusal> {
        self.session.step(process, leader, &mut self.counts)
    }

    fn learn(&mut self, process: usize) -> Result<(), Refusal> {
        self.session.learn(process, &mut self.counts)
    }

    fn process(&self, process: usize) -> Process {
        self.session.read_process(process).expect("a seat below n")
    }

    fn tally(&self) -> (u32, u32, u32) {
        let counts = &self.counts;
        (counts.reads, counts.writes, counts.contested)
    }

    /// One seat alone at gate in round L, after its commit.
    fn at_last_gate() -> Case {
        let mut case = Case::open(1, 2);
        case.propose(0, 7);
        case.work(&[0; 12]);
        case
    }

    /// The contested case of two seats, as far as its first seven turns, at the least L.
    fn contested() -> Case {
        Case::contested_at(3)
    }

    fn contested_at(limit: usize) -> Case {
        let mut case = Case::open(2, limit);
        case.propose(0, 3);
        case.propose(1, 8);
        case.work(&[0, 1, 0, 1, 0, 0, 1]);
        case
    }
}

fn encode(operation: Operation) -> [u8; 6] {
    let (kind, process, value) = match operation {
        Operation::Propose { process, value } => (0, process, value),
        Operation::Step { process, leader } => (1, process, u32::from(leader)),
        Operation::Learn { process } => (2, process, 0),
        Operation::Crash { process } => (3, process, 0),
        Operation::Close => (4, 0, 0),
    };
    raw(kind, process as u8, value)
}

fn raw(kind: u8, process: u8, value: u32) -> [u8; 6] {
    let [a, b, c, d] = value.to_le_bytes();
    [kind, process, a, b, c, d]
}

/// A sheet of one run.
fn sheet(n: u8, limit: u16, entries: &[[u8; 6]]) -> Vec<u8> {
    let length = 6 * entries.len() as u16;
    let mut bytes = header(n, limit, &[(8, length)]);
    bytes.extend(entries.concat());
    bytes
}

/// A header with its pairs and nothing after them.
fn header(n: u8, limit: u16, pairs: &[(u16, u16)]) -> Vec<u8> {
    let mut bytes = vec![n, pairs.len() as u8];
    bytes.extend(limit.to_le_bytes());
    for (offset, length) in pairs {
        bytes.extend(offset.to_le_bytes());
        bytes.extend(length.to_le_bytes());
    }
    bytes
}

const YES: u32 = 1;

/// The bytes that name a caller in the bytes of a poll.
const SERVER: u8 = 0;
const CARTS: [u8; 4] = [1, 2, 128, 255];

/// One seat alone: its proposal, so many turns with hint yes, and a look.
fn alone_sheet(limit: u16, turns: usize) -> Vec<u8> {
    let mut entries = vec![raw(0, 0, 7)];
    entries.extend(vec![raw(1, 0, YES); turns]);
    entries.push(raw(2, 0, 0));
    sheet(1, limit, &entries)
}

/// The sheet of 92 bytes in 02, wish 8.
fn report_sheet() -> Vec<u8> {
    alone_sheet(2, 12)
}

/// The sheet of 134 bytes in 01, "The board report".
fn report_sheet_before() -> Vec<u8> {
    alone_sheet(3, 19)
}
