//! The trace of a sheet, for working a case on paper register by register.
//!
//! One line an entry, five columns set apart by ` | `:
//!
//! ```text
//! INDEX | OPERATION   | REGISTER        | RECORD                    | TALLY
//!     0 | propose 0 7 | none            | gate round 0 value 7      | 0 0 0
//!     1 | work 0 yes  | T[1] read blank | put round 1 value 7       | 1 0 0
//!     2 | work 0 yes  | T[1] written 7  | compare 0 round 1 value 7 | 1 1 0
//! ```
//!
//! - INDEX counts from 0 over all runs and is set to the right in 5 places.
//! - OPERATION is `propose SEAT VALUE`, `work SEAT yes`, `work SEAT no`,
//!   `look SEAT`, `crash SEAT`, `close`, or `entry KIND SEAT VALUE` for an entry
//!   that names none (refused with 13); set to the left in 24 places.
//! - REGISTER is the one register operation made: `none`, `T[r] read VALUE`,
//!   `T[r] written VALUE`, `C[r] read marked`, `C[r] read unmarked`,
//!   `C[r] marked`, `D read VALUE` or `D written VALUE`, `blank` standing for a
//!   VALUE of 0; set to the left in 25 places.
//! - RECORD is the seat's record after the entry: its stance with its place,
//!   then `round R value V`; of a close, which has no seat, `closed`; set to the left
//!   in 40 places.
//! - TALLY is reads, writes and contested, from the sheet's start on; contested
//!   grows where `C[r] marked` found C[r] unmarked.
//!
//! A refused entry has `refused CODE` in place of the last three columns and is
//! the last line. A refused sheet gives the one line `sheet refused CODE`.
//!
//! The window is the one in service, or one that is asked for in its place: the
//! sheet is then opened and its turns are taken at that window. (02, wish 7.)
//!
//! So `grep '| work 3 '` follows a seat's turns, `grep 'T\[4\]'` a register,
//! and `grep ' D written '` finds each commit.

use std::fmt;
use std::fmt::Write;

use crate::board::{Access, Counts};
use crate::phase::{Phase, Process};
use crate::refusal::Refusal;
use crate::session::{window, Caller, Session};
use crate::sheet::{Operation, Sheet};

/// The trace of a sheet, each line ended by a line feed.
pub fn trace(bytes: &[u8]) -> String {
    trace_by(window, bytes)
}

/// The trace of a sheet with that window in place of the one in service. (02, wish
/// 7: "the window a parameter of the machine".)
pub fn trace_at(window: u32, bytes: &[u8]) -> String {
    trace_by(|_| window, bytes)
}

/// The trace with the window that `window` gives for n.
fn trace_by(window: impl Fn(usize) -> u32, bytes: &[u8]) -> String {
    let sheet = match Sheet::read_by(Caller::Server.limits(), &window, bytes) {
        Ok(sheet) => sheet,
        Err(refusal) => return format!("sheet refused {}\n", refusal.code()),
    };
    let mut session = sheet.open();
    let mut counts = Counts::default();
    let mut text = String::new();
    for (index, entry) in sheet.entries().enumerate() {
        let (words, result) = carry_out(entry, &window, &mut session, &mut counts);
        write!(text, "{index:5} | {words:24} | ").expect("a string takes every line");
        match result {
            Ok(rest) => text += &rest,
            Err(refusal) => {
                text += &format!("refused {}\n", refusal.code());
                break;
            }
        }
    }
    text
}

/// The traces of many sheets, each ended by a blank line. A sheet stands behind
/// its length, 16 bits, low byte first.
pub fn traces(sheets: &[u8]) -> String {
    let (mut text, mut rest) = (String::new(), sheets);
    while let &[low, high, ref bytes @ ..] = rest {
        let length = usize::from(u16::from_le_bytes([low, high])).min(bytes.len());
        let (sheet, after) = bytes.split_at(length);
        text += &trace(sheet);
        text.push('\n');
        rest = after;
    }
    text
}

/// The words of an entry, and its last three columns or its refusal.
fn carry_out(
    entry: &[u8],
    window: impl Fn(usize) -> u32,
    session: &mut Session,
    counts: &mut Counts,
) -> (String, Result<String, Refusal>) {
    let operation = match Operation::decode(entry) {
        Ok(operation) => operation,
        Err(refusal) => return (unknown(entry), Err(refusal)),
    };
    let mut register = String::from("none");
    let result = session
        .apply_trusted_by(window, operation, counts, |access| {
            register = access.to_string()
        })
        .map(|()| match operation.process() {
            Some(process) => session.processes[process].to_string(),
            None => String::from("closed"),
        })
        .map(|record| format!("{register:25} | {record:40} | {counts}\n"));
    (operation.to_string(), result)
}

/// The words of an entry with an unknown kind, a wrong seat or a wrong value.
fn unknown(entry: &[u8]) -> String {
    let value = u32::from_le_bytes([entry[2], entry[3], entry[4], entry[5]]);
    format!("entry {} {} {value}", entry[0], entry[1])
}

impl fmt::Display for Operation {
    fn fmt(&self, f: &mut fmt::Formatter) -> fmt::Result {
        match *self {
            Operation::Propose { process, value } => write!(f, "propose {process} {value}"),
            Operation::Step { process, leader } => {
                write!(f, "work {process} {}", if leader { "yes" } else { "no" })
            }
            Operation::Learn { process } => write!(f, "look {process}"),
            Operation::Crash { process } => write!(f, "crash {process}"),
            Operation::Close => write!(f, "close"),
        }
    }
}

impl fmt::Display for Counts {
    fn fmt(&self, f: &mut fmt::Formatter) -> fmt::Result {
        write!(f, "{} {} {}", self.reads, self.writes, self.contested)
    }
}

/// A register's number, in words where it is blank.
struct Held(u32);

impl fmt::Display for Held {
    fn fmt(&self, f: &mut fmt::Formatter) -> fmt::Result {
        match self.0 {
            0 => write!(f, "blank"),
            value => write!(f, "{value}"),
        }
    }
}

impl fmt::Display for Access {
    fn fmt(&self, f: &mut fmt::Formatter) -> fmt::Result {
        match *self {
            Access::ValueRead(round, value) => write!(f, "T[{round}] read {}", Held(value)),
            Access::ValueWritten(round, value) => write!(f, "T[{round}] written {}", Held(value)),
            Access::MarkRead(round, true) => write!(f, "C[{round}] read marked"),
            Access::MarkRead(round, false) => write!(f, "C[{round}] read unmarked"),
            Access::Marked(round) => write!(f, "C[{round}] marked"),
            Access::DecisionRead(value) => write!(f, "D read {}", Held(value)),
            Access::DecisionWritten(value) => write!(f, "D written {}", Held(value)),
        }
    }
}

impl fmt::Display for Phase {
    fn fmt(&self, f: &mut fmt::Formatter) -> fmt::Result {
        match *self {
            Phase::Idle => write!(f, "out"),
            Phase::Waiting => write!(f, "gate"),
            Phase::Write => write!(f, "put"),
            Phase::Scan(k) => write!(f, "seek {k}"),
            Phase::Adopt(k) => write!(f, "take {k}"),
            Phase::Compare(i) => write!(f, "compare {i}"),
            Phase::Flag(i) => write!(f, "flag {i}"),
            Phase::CheckMark(i) => write!(f, "check-mark {i}"),
            Phase::CheckValue(i) => write!(f, "check-value {i}"),
            Phase::Commit => write!(f, "commit"),
            Phase::Exhausted => write!(f, "spent"),
            Phase::Crashed => write!(f, "crashed"),
            Phase::Decided => write!(f, "decided"),
        }
    }
}

impl fmt::Display for Process {
    fn fmt(&self, f: &mut fmt::Formatter) -> fmt::Result {
        let (phase, round, estimate) = (self.phase, self.round, self.estimate);
        write!(f, "{phase} round {round} value {estimate}")
    }
}
