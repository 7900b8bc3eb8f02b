//! The board report. (01, "The board report"; 02, wish 10.)

use std::fmt::Write;

use crate::board::Counts;
use crate::phase::{Phase, Process};
use crate::runner::{run, Ending};
use crate::session::{Caller, Session};
use crate::sheet::Sheet;

/// The program's budget, as many entries as a sheet can hold.
pub const BUDGET: u64 = 10_921;

/// The lines printed for a sheet, each ended by a line feed.
pub fn report(bytes: &[u8]) -> String {
    report_of(Caller::Server, BUDGET, bytes)
}

/// The same lines of a run as either caller, under a budget. (02, wish 9.)
pub fn report_of(caller: Caller, budget: u64, bytes: &[u8]) -> String {
    let sheet = match Sheet::read(caller, bytes) {
        Ok(sheet) => sheet,
        Err(refusal) => return format!("sheet refused {}\n", refusal.code()),
    };
    let mut session = sheet.open();
    let mut counts = Counts::default();
    let ending = run(&sheet, budget, &mut session, &mut counts);
    let mut text = String::new();
    write_report(&mut text, ending, &counts, &session).expect("a string takes every line");
    text
}

fn write_report(
    text: &mut String,
    ending: Ending,
    counts: &Counts,
    session: &Session,
) -> std::fmt::Result {
    match ending {
        Ending::Refused(refusal, index) => {
            writeln!(text, "outcome refused {} {index}", refusal.code())?;
        }
        Ending::Finished(done) | Ending::BudgetEnded(done) => {
            writeln!(text, "outcome finished {done}")?;
        }
    }
    writeln!(text, "tally {counts}")?;
    let (highest, decision) = (session.highest_filled(), session.registers.decision);
    let mark = if session.closed { "closed" } else { "open" };
    writeln!(text, "board {highest} {decision} {mark}")?;
    for (number, process) in session.processes[..session.n].iter().enumerate() {
        write!(text, "seat {number} ")?;
        write_seat(text, process)?;
    }
    Ok(())
}

/// The words of a seat that has not answered a poll.
pub(crate) fn write_seat(text: &mut String, process: &Process) -> std::fmt::Result {
    let (round, value) = (process.round, process.estimate);
    match process.phase {
        Phase::Idle => writeln!(text, "out"),
        Phase::Exhausted => writeln!(text, "spent {value}"),
        Phase::Crashed => writeln!(text, "crashed"),
        Phase::Decided => writeln!(text, "decided {value}"),
        _ => writeln!(text, "working {round} {value}"),
    }
}
