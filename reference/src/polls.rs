//! Many polls in bytes, and what becomes of them in words, as the program test_poll
//! reads and prints them. (02, wishes 6 and 10.)
//!
//! The bytes of a poll, which another may follow: the caller, 0 the server and any other
//! the cart (02, wish 9); n; the number of its calls in 16 bits, low byte first; and 6
//! bytes for each call: kind, seat, 32-bit value, low byte first. Kind 0 is a proposal
//! of the value; the other kinds ignore it. Kind 1 is a turn and 2 a crash. Kind 4 is the
//! session's close, which ignores the seat too: polls have none of their own, and all
//! that a poll is asked after it is refused with 3. Any other kind is the session's
//! read-out of the seat. Both show 3 where the poll is no sound session. Where the bytes
//! end early, so does the poll: an n that is missing is 0, and the calls that are whole
//! are carried out.
//!
//! The lines of a poll, whose tally is empty at first:
//!
//! ```text
//! poll N CODE                 the opening; refused, the only line of the poll
//! propose SEAT VALUE CODE     a line for each call
//! turn SEAT CODE none         or `committed VALUE` or `adopted VALUE` at the end
//! crash SEAT CODE
//! close CODE
//! session SEAT CODE
//! tally READS WRITES CONTESTED
//! round R VALUE unmarked      or `marked`, for each round from 1 to W
//! seat P out                  or `working ROUND VALUE`, `crashed`, `committed VALUE`
//!                             or `adopted VALUE`, for each seat from 0 to n - 1; or
//!                             `refused CODE`, where the poll is closed
//! ```

use std::fmt;
use std::fmt::Write;

use crate::board::Counts;
use crate::poll::{Answer, Poll, Voter};
use crate::refusal::Refusal;
use crate::report::write_seat;
use crate::session::Caller;
use crate::sheet::ENTRY;

/// One call on a poll.
#[derive(Clone, Copy, PartialEq, Eq, Debug)]
pub enum Call {
    /// Kind 0, a proposal.
    Propose { process: usize, value: u32 },
    /// Kind 1, a turn.
    Step { process: usize },
    /// Kind 2, a crash.
    Crash { process: usize },
    /// Kind 4, the session's close.
    CloseAsSession,
    /// Any other kind, the session's read-out of the seat.
    ReadAsSession { process: usize },
}

impl Call {
    /// What the 6 bytes of a call ask for.
    pub fn decode(entry: [u8; ENTRY]) -> Call {
        let [kind, process, a, b, c, d] = entry;
        let process = usize::from(process);
        let value = u32::from_le_bytes([a, b, c, d]);
        match kind {
            0 => Call::Propose { process, value },
            1 => Call::Step { process },
            2 => Call::Crash { process },
            4 => Call::CloseAsSession,
            _ => Call::ReadAsSession { process },
        }
    }

    /// The number of the process that it is for; none of a close.
    pub fn process(self) -> Option<usize> {
        match self {
            Call::Propose { process, .. }
            | Call::Step { process }
            | Call::Crash { process }
            | Call::ReadAsSession { process } => Some(process),
            Call::CloseAsSession => None,
        }
    }

    /// Carries the call out; the answer is that of a turn.
    pub fn carry_out(
        self,
        poll: &mut Poll,
        counts: &mut Counts,
    ) -> Result<Option<Answer>, Refusal> {
        match self {
            Call::Propose { process, value } => poll.propose(process, value).map(|()| None),
            Call::Step { process } => poll.step(process, counts),
            Call::Crash { process } => poll.crash(process).map(|()| None),
            Call::CloseAsSession => {
                let mut session = poll.session()?;
                session.close()?;
                poll.closed = session.closed;
                Ok(None)
            }
            Call::ReadAsSession { process } => poll
                .session()
                .and_then(|session| session.read_process(process))
                .map(|_| None),
        }
    }
}

/// The lines of many polls, each ended by a line feed.
pub fn polls(bytes: &[u8]) -> String {
    let (mut text, mut rest) = (String::new(), bytes);
    while let [caller, after @ ..] = rest {
        let (n, after) = after.split_first().unwrap_or((&0, &[]));
        let (calls, after) = split_calls(after);
        let caller = Caller::named(*caller);
        write_poll(&mut text, caller, *n, calls).expect("a string takes every line");
        rest = after;
    }
    text
}

/// The bytes of a list of calls and those after them, from the number of the calls on.
pub(crate) fn split_calls(bytes: &[u8]) -> (&[u8], &[u8]) {
    let &[low, high, ref calls @ ..] = bytes else {
        return (&[], &[]);
    };
    let length = ENTRY * usize::from(u16::from_le_bytes([low, high]));
    calls.split_at(length.min(calls.len()))
}

/// The bytes of a poll of these calls, of which there are at most 65,535. The caller is
/// one that `Caller::named` tells apart.
pub fn poll_bytes(caller: u8, n: u8, calls: &[[u8; ENTRY]]) -> Vec<u8> {
    let [low, high] = (calls.len() as u16).to_le_bytes();
    [&[caller, n, low, high], calls.as_flattened()].concat()
}

fn write_poll(text: &mut String, caller: Caller, n: u8, calls: &[u8]) -> fmt::Result {
    let mut poll = match Poll::open(caller, usize::from(n)) {
        Ok(poll) => poll,
        Err(refusal) => return writeln!(text, "poll {n} {}", refusal.code()),
    };
    writeln!(text, "poll {n} 0")?;
    let mut counts = Counts::default();
    for entry in calls.chunks_exact(ENTRY) {
        let call = Call::decode(entry.try_into().expect("the bytes of a call"));
        let outcome = call.carry_out(&mut poll, &mut counts);
        write_call(text, call, outcome)?;
    }
    write_end(text, &poll, &counts)
}

/// The line of one call.
fn write_call(
    text: &mut String,
    call: Call,
    outcome: Result<Option<Answer>, Refusal>,
) -> fmt::Result {
    let code = outcome.map_or_else(Refusal::code, |_| 0);
    match call {
        Call::Propose { process, value } => writeln!(text, "propose {process} {value} {code}"),
        Call::Step { process } => match outcome {
            Ok(Some(answer)) => writeln!(text, "turn {process} {code} {answer}"),
            _ => writeln!(text, "turn {process} {code} none"),
        },
        Call::Crash { process } => writeln!(text, "crash {process} {code}"),
        Call::CloseAsSession => writeln!(text, "close {code}"),
        Call::ReadAsSession { process } => writeln!(text, "session {process} {code}"),
    }
}

/// The tally, the board and the seats that a poll leaves.
fn write_end(text: &mut String, poll: &Poll, counts: &Counts) -> fmt::Result {
    writeln!(text, "tally {counts}")?;
    let registers = &poll.registers;
    let rounds = registers.values.iter().zip(&registers.marks);
    for (round, (value, marked)) in (1..=poll.limit).zip(rounds) {
        let mark = if *marked { "marked" } else { "unmarked" };
        writeln!(text, "round {round} {value} {mark}")?;
    }
    for number in 0..poll.n {
        write!(text, "seat {number} ")?;
        match poll.read_process(number) {
            Ok(Voter::Walking(process)) => write_seat(text, &process)?,
            Ok(Voter::Answered(answer, _)) => writeln!(text, "{answer}")?,
            Err(refusal) => writeln!(text, "refused {}", refusal.code())?,
        }
    }
    Ok(())
}

impl fmt::Display for Answer {
    fn fmt(&self, f: &mut fmt::Formatter) -> fmt::Result {
        match self {
            Answer::Committed(value) => write!(f, "committed {value}"),
            Answer::Adopted(value) => write!(f, "adopted {value}"),
        }
    }
}
