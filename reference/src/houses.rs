//! Many houses in bytes, and what becomes of them in words, as the program test_house
//! reads and prints them. (02, wish 11.)
//!
//! The bytes of a house, which another may follow: c; n; n bytes, the ward of each worker;
//! the number of its operations in 16 bits, low byte first; and 6 bytes for each operation:
//! kind, a, 32-bit v, low byte first. Kind 0 is a proposal of v by worker a, 1 a turn of
//! worker a, with hint yes if v is not 0, 2 its crash and 3 its house look; 2 and 3 ignore
//! v. Any other kind sets a field, which only a test may do:
//!
//! | kind | is set to v |
//! |---|---|
//! | 128, 129 | n; c |
//! | 130 | the ward of worker a % 16, to the low byte of v |
//! | 131, 132 | the outer round, the value of worker a % 16 |
//! | 133 | its stance: 0 out, 1 to 8 working at the places in their order, 9 spent, 10 crashed, else decided |
//! | 134, 135 | n, L of session a % 32 |
//! | 136 | its mark: closed if v is not 0 |
//! | 137 | its value register v >> 24, counted from 0, to v & 0xffffff |
//! | 138 | its seat (v >> 24) % 64: phase v >> 16 & 255, round v >> 8 & 255, value v & 255 |
//! | | the phases are 0 out, 1 gate, 2 spent, 3 crashed, else decided |
//! | 139 to 142 | as 134 to 137, of poll a % 8 |
//! | 143 | as 138, of poll a % 8; the phases are 0 out, 1 gate, 2 crashed, 3 committed, 4 adopted, else decided |
//! | 144 | the table's row a / 4 % 8, entry a % 4, both counted from 0 |
//! | 145 | the house register |
//! | 146, 147, 148 | the tally's reads, writes, contested |
//! | 149, 150 | D of session a % 32, of poll a % 8 |
//!
//! Session 8 * (w - 1) + o - 1 is that of ward w and outer round o, and poll o - 1 that of
//! outer round o. A kind that is not listed sets nothing. Where the bytes end early, so does
//! the house: an n that is missing is 0, the wards are those that are there, and the
//! operations that are whole are carried out.
//!
//! The lines of a house, whose tally is empty at first:
//!
//! ```text
//! house C N CODE                  the opening, N the wards that are there; refused, the
//!                                 only line of the house
//! propose P VALUE CODE            a line for each operation
//! turn P HINT CODE                HINT is 1 or 0
//! crash P CODE
//! look P CODE
//! set KIND A V                    any other kind
//! tally READS WRITES CONTESTED
//! decision VALUE                  the house register
//! row O VALUE VALUE VALUE VALUE   for each outer round
//! worker P STANCE OUTER VALUE     for each of the n workers, of 16 if n is above that
//! board I N L D open              or `closed`; sessions are 0 to 31, polls 32 to 39; only of
//!                                 a board that is closed, or where D or one of these is not
//!                                 as opened:
//! round R VALUE unmarked          or `marked`; each round of 256 that is filled or marked
//! seat S PHASE K ROUND VALUE      each seat of 64 that is not out with round 0 and value 0;
//!                                 K is the phase's number, 0 where it has none
//! ```

use std::fmt;
use std::fmt::Write;

use crate::board::{Counts, Registers};
use crate::house::{House, Place, Stance, MAX_WARDS, MAX_WORKERS, OUTER_ROUNDS, SESSIONS};
use crate::phase::{Phase, Process};
use crate::poll::{Answer, Voter};
use crate::polls::split_calls;
use crate::refusal::Refusal;
use crate::session::MAX_PROCESSES;
use crate::sheet::ENTRY;

/// The places of a worker, in their order.
pub const PLACES: [Place; 8] = [
    Place::ProposeWard,
    Place::StepWard,
    Place::LearnWard,
    Place::WriteTable,
    Place::ProposePoll,
    Place::StepPoll,
    Place::ReadTable,
    Place::WriteHouse,
];

/// One operation on a house.
#[derive(Clone, Copy, PartialEq, Eq, Debug)]
pub enum HouseCall {
    /// Kind 0, a proposal.
    Propose { worker: usize, value: u32 },
    /// Kind 1, a turn.
    Turn { worker: usize, leader: bool },
    /// Kind 2, a crash.
    Crash { worker: usize },
    /// Kind 3, a house look.
    Learn { worker: usize },
    /// Any other kind, a field that is set.
    Set { kind: u8, a: u8, v: u32 },
}

impl HouseCall {
    /// What the 6 bytes of an operation ask for.
    pub fn decode(entry: [u8; ENTRY]) -> HouseCall {
        let [kind, a, rest @ ..] = entry;
        let (worker, v) = (usize::from(a), u32::from_le_bytes(rest));
        match kind {
            0 => HouseCall::Propose { worker, value: v },
            1 => HouseCall::Turn {
                worker,
                leader: v != 0,
            },
            2 => HouseCall::Crash { worker },
            3 => HouseCall::Learn { worker },
            _ => HouseCall::Set { kind, a, v },
        }
    }

    /// Carries the operation out.
    pub fn carry_out(self, house: &mut House, counts: &mut Counts) -> Result<(), Refusal> {
        match self {
            HouseCall::Propose { worker, value } => house.propose(worker, value),
            HouseCall::Turn { worker, leader } => house.turn(worker, leader, counts),
            HouseCall::Crash { worker } => house.crash(worker),
            HouseCall::Learn { worker } => house.learn(worker, counts),
            HouseCall::Set { kind, a, v } => {
                set(house, counts, kind, usize::from(a), v);
                Ok(())
            }
        }
    }
}

/// Sets the field that a kind names.
fn set(house: &mut House, counts: &mut Counts, kind: u8, a: usize, v: u32) {
    match kind {
        128 => house.n = v as usize,
        129 => house.c = v as usize,
        130..=133 => set_worker(house, kind, a % MAX_WORKERS, v),
        134..=138 | 149 => set_session(house, kind, a % SESSIONS, v),
        139..=143 | 150 => set_poll(house, kind, a % OUTER_ROUNDS, v),
        144 => house.table[a / MAX_WARDS % OUTER_ROUNDS][a % MAX_WARDS] = v,
        145 => house.decision = v,
        146 => counts.reads = v,
        147 => counts.writes = v,
        148 => counts.contested = v,
        _ => {}
    }
}

fn set_worker(house: &mut House, kind: u8, worker: usize, v: u32) {
    match kind {
        130 => house.wards[worker] = v as u8,
        131 => house.workers[worker].outer = v as usize,
        132 => house.workers[worker].value = v,
        _ => house.workers[worker].stance = stance_of(v),
    }
}

fn stance_of(v: u32) -> Stance {
    match v {
        0 => Stance::Idle,
        1..=8 => Stance::Working(PLACES[v as usize - 1]),
        9 => Stance::Exhausted,
        10 => Stance::Crashed,
        _ => Stance::Decided,
    }
}

fn set_session(house: &mut House, kind: u8, place: usize, v: u32) {
    let session = &mut house.sessions[place];
    match kind {
        134 => session.n = v as usize,
        135 => session.limit = v,
        136 => session.closed = v != 0,
        137 => set_register(&mut session.registers, v),
        149 => session.registers.decision = v,
        _ => {
            let phases = [
                Phase::Idle,
                Phase::Waiting,
                Phase::Exhausted,
                Phase::Crashed,
            ];
            let phase = phases.get((v >> 16 & 255) as usize);
            session.processes[seat(v)] = record(*phase.unwrap_or(&Phase::Decided), v);
        }
    }
}

fn set_poll(house: &mut House, kind: u8, place: usize, v: u32) {
    let poll = &mut house.polls[place];
    match kind {
        139 => poll.n = v as usize,
        140 => poll.limit = v,
        141 => poll.closed = v != 0,
        142 => set_register(&mut poll.registers, v),
        150 => poll.registers.decision = v,
        _ => {
            let (round, value) = (v >> 8 & 255, v & 255);
            poll.voters[seat(v)] = match v >> 16 & 255 {
                0 => Voter::Walking(record(Phase::Idle, v)),
                1 => Voter::Walking(record(Phase::Waiting, v)),
                2 => Voter::Walking(record(Phase::Crashed, v)),
                3 => Voter::Answered(Answer::Committed(value), round),
                4 => Voter::Answered(Answer::Adopted(value), round),
                _ => Voter::Walking(record(Phase::Decided, v)),
            };
        }
    }
}

fn set_register(registers: &mut Registers, v: u32) {
    registers.values[(v >> 24) as usize] = v & 0xff_ffff;
}

fn seat(v: u32) -> usize {
    (v >> 24) as usize % MAX_PROCESSES
}

fn record(phase: Phase, v: u32) -> Process {
    Process {
        phase,
        round: v >> 8 & 255,
        estimate: v & 255,
    }
}

/// The lines of many houses, each ended by a line feed.
pub fn houses(bytes: &[u8]) -> String {
    let (mut text, mut rest) = (String::new(), bytes);
    while let [c, after @ ..] = rest {
        let (n, after) = after.split_first().unwrap_or((&0, &[]));
        let (wards, after) = after.split_at(usize::from(*n).min(after.len()));
        let (calls, after) = split_calls(after);
        write_house(&mut text, *c, wards, calls).expect("a string takes every line");
        rest = after;
    }
    text
}

/// The bytes of a house of these wards, 255 at most, and operations, 65,535 at most.
pub fn house_bytes(c: u8, wards: &[u8], calls: &[[u8; ENTRY]]) -> Vec<u8> {
    let [low, high] = (calls.len() as u16).to_le_bytes();
    let head = [c, wards.len() as u8];
    [&head, wards, &[low, high], calls.as_flattened()].concat()
}

fn write_house(text: &mut String, c: u8, wards: &[u8], calls: &[u8]) -> fmt::Result {
    let n = wards.len();
    let mut house = match House::open(usize::from(c), wards) {
        Ok(house) => house,
        Err(refusal) => return writeln!(text, "house {c} {n} {}", refusal.code()),
    };
    writeln!(text, "house {c} {n} 0")?;
    let mut counts = Counts::default();
    for entry in calls.chunks_exact(ENTRY) {
        let call = HouseCall::decode(entry.try_into().expect("the bytes of an operation"));
        let outcome = call.carry_out(&mut house, &mut counts);
        let code = outcome.map_or_else(Refusal::code, |()| 0);
        match call {
            HouseCall::Set { .. } => writeln!(text, "{call}")?,
            _ => writeln!(text, "{call} {code}")?,
        }
    }
    write_end(text, &house, &counts)
}

/// What a house leaves: the tally, its registers, its workers and its boards.
fn write_end(text: &mut String, house: &House, counts: &Counts) -> fmt::Result {
    writeln!(text, "tally {counts}")?;
    writeln!(text, "decision {}", house.decision)?;
    for (outer, [a, b, c, d]) in (1..).zip(house.table) {
        writeln!(text, "row {outer} {a} {b} {c} {d}")?;
    }
    for (number, worker) in house.workers.iter().take(house.n).enumerate() {
        let (stance, outer, value) = (worker.stance, worker.outer, worker.value);
        writeln!(text, "worker {number} {stance} {outer} {value}")?;
    }
    for (index, board) in boards(house).enumerate() {
        if !board.is_blank() {
            write!(text, "board {index} {board}")?;
        }
    }
    Ok(())
}

/// A session or a poll, as it is printed.
struct BoardLines<'a> {
    n: usize,
    limit: u32,
    registers: &'a Registers,
    closed: bool,
    voters: [Voter; MAX_PROCESSES],
}

fn boards(house: &House) -> impl Iterator<Item = BoardLines<'_>> {
    let sessions = house.sessions.iter().map(|session| BoardLines {
        n: session.n,
        limit: session.limit,
        registers: &session.registers,
        closed: session.closed,
        voters: session.processes.map(Voter::Walking),
    });
    let polls = house.polls.iter().map(|poll| BoardLines {
        n: poll.n,
        limit: poll.limit,
        registers: &poll.registers,
        closed: poll.closed,
        voters: poll.voters,
    });
    sessions.chain(polls)
}

impl BoardLines<'_> {
    fn is_blank(&self) -> bool {
        !self.closed
            && *self.registers == Registers::BLANK
            && self.voters.iter().all(|voter| *voter == Voter::IDLE)
    }
}

impl fmt::Display for BoardLines<'_> {
    fn fmt(&self, f: &mut fmt::Formatter) -> fmt::Result {
        let registers = self.registers;
        let mark = if self.closed { "closed" } else { "open" };
        writeln!(f, "{} {} {} {mark}", self.n, self.limit, registers.decision)?;
        let rounds = registers.values.iter().zip(&registers.marks);
        for (round, (value, marked)) in (1..).zip(rounds) {
            if *value != 0 || *marked {
                let mark = if *marked { "marked" } else { "unmarked" };
                writeln!(f, "round {round} {value} {mark}")?;
            }
        }
        for (number, voter) in self.voters.iter().enumerate() {
            if *voter != Voter::IDLE {
                write!(f, "seat {number} ")?;
                write_voter(f, voter)?;
            }
        }
        Ok(())
    }
}

/// Phase, its number, round and value.
fn write_voter(f: &mut fmt::Formatter, voter: &Voter) -> fmt::Result {
    use Phase::{Adopt, CheckMark, CheckValue, Compare, Flag, Scan};
    let value = voter.value();
    let process = match voter {
        Voter::Answered(Answer::Committed(_), round) => {
            return writeln!(f, "committed 0 {round} {value}")
        }
        Voter::Answered(Answer::Adopted(_), round) => {
            return writeln!(f, "adopted 0 {round} {value}")
        }
        Voter::Walking(process) => process,
    };
    let (phase, round) = (process.phase, process.round);
    match phase {
        Scan(_) | Adopt(_) | Compare(_) | Flag(_) | CheckMark(_) | CheckValue(_) => {
            writeln!(f, "{phase} {round} {value}")
        }
        _ => writeln!(f, "{phase} 0 {round} {value}"),
    }
}

impl fmt::Display for Stance {
    fn fmt(&self, f: &mut fmt::Formatter) -> fmt::Result {
        f.write_str(match self {
            Stance::Idle => "out",
            Stance::Working(Place::ProposeWard) => "propose-ward",
            Stance::Working(Place::StepWard) => "work",
            Stance::Working(Place::LearnWard) => "look",
            Stance::Working(Place::WriteTable) => "write-table",
            Stance::Working(Place::ProposePoll) => "propose-poll",
            Stance::Working(Place::StepPoll) => "poll",
            Stance::Working(Place::ReadTable) => "read-table",
            Stance::Working(Place::WriteHouse) => "write-house",
            Stance::Exhausted => "spent",
            Stance::Crashed => "crashed",
            Stance::Decided => "decided",
        })
    }
}

/// The words of an operation, without its number.
impl fmt::Display for HouseCall {
    fn fmt(&self, f: &mut fmt::Formatter) -> fmt::Result {
        match *self {
            HouseCall::Propose { worker, value } => write!(f, "propose {worker} {value}"),
            HouseCall::Turn { worker, leader } => write!(f, "turn {worker} {}", u8::from(leader)),
            HouseCall::Crash { worker } => write!(f, "crash {worker}"),
            HouseCall::Learn { worker } => write!(f, "look {worker}"),
            HouseCall::Set { kind, a, v } => write!(f, "set {kind} {a} {v}"),
        }
    }
}
