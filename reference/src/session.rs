//! The session and the operations on it.
//! (01, "The board and the seats" and "One turn at a time".)

use crate::board::{Access, Board, Counts, Registers};
use crate::phase::{Bounds, Phase, Process};
use crate::refusal::Refusal;
use crate::sheet::Operation;

/// The most processes of a session. (01: seats n, 1 to 64.)
pub const MAX_PROCESSES: usize = 64;
/// The most rounds of a session. (01: round limit L, at most 256.)
pub const MAX_ROUNDS: usize = 256;

/// The most processes and the most rounds of what a caller opens, reads or writes. (02,
/// wish 9: "the caller's limits".)
#[derive(Clone, Copy, PartialEq, Eq, Debug)]
pub struct Limits {
    /// The most seats.
    pub processes: usize,
    /// The most rounds.
    pub rounds: usize,
}

/// Who opens a session or a poll, or reads or writes a sheet. (02, wish 9: "a call names
/// only which of the two it is".)
#[derive(Clone, Copy, PartialEq, Eq, Debug)]
pub enum Caller {
    /// The clinic server: "the server stays at 64 and 256".
    Server,
    /// The bedside cart: "at most 16 seats and 64 rounds".
    Cart,
}

impl Caller {
    /// The caller that a byte names to a test's program: 0 the server, any other the
    /// cart.
    pub const fn named(byte: u8) -> Caller {
        match byte {
            0 => Caller::Server,
            _ => Caller::Cart,
        }
    }

    /// "one pair for each of the two callers".
    #[inline]
    pub const fn limits(self) -> Limits {
        match self {
            Caller::Server => Limits {
                processes: MAX_PROCESSES,
                rounds: MAX_ROUNDS,
            },
            Caller::Cart => Limits {
                processes: 16,
                rounds: 64,
            },
        }
    }
}

/// W for each n. (02, wish 8: "the smallest whole number with W times W at least 4n".
/// 01 had 2 times the root of n, rounded up, plus 1.)
const WINDOWS: [u32; MAX_PROCESSES + 1] = windows();

const fn windows() -> [u32; MAX_PROCESSES + 1] {
    let mut table = [0; MAX_PROCESSES + 1];
    let (mut n, mut smallest) = (0, 0);
    while n <= MAX_PROCESSES {
        while smallest * smallest < 4 * n {
            smallest += 1;
        }
        table[n] = smallest as u32;
        n += 1;
    }
    table
}

/// The window in service of n processes, n from 1 to 64. (01: W, by 02, wish 8.)
#[inline]
pub const fn window(n: usize) -> u32 {
    WINDOWS[n]
}

/// One agreement. (01: a session.)
#[derive(Clone, PartialEq, Eq, Debug)]
pub struct Session {
    /// The number of processes. (01: seats n.)
    pub n: usize,
    /// The round limit. (01: L.)
    pub limit: u32,
    /// The shared registers. (01: the board.)
    pub registers: Registers,
    /// The processes. (01: the row of seats.)
    pub processes: [Process; MAX_PROCESSES],
    /// Whether it takes no more proposals. (02, wish 10: "a closed mark, open at first".)
    pub closed: bool,
}

/// 01, "Numbers returned", opening: 1. (02, wish 9: "1 and 2 speak of the caller's
/// limits".)
#[inline]
pub(crate) fn check_processes(most: Limits, n: usize) -> Result<(), Refusal> {
    if n == 0 || n > most.processes {
        return Err(Refusal::BadProcessCount);
    }
    Ok(())
}

/// 01, "Numbers returned", opening: 1, then 2, with the window that `window` gives for
/// an n of 1 to 64. (02, wish 7: "the window a parameter of the machine".)
#[inline]
pub(crate) fn check_opening(
    most: Limits,
    window: impl FnOnce(usize) -> u32,
    n: usize,
    limit: usize,
) -> Result<(), Refusal> {
    check_processes(most, n)?;
    if limit < window(n) as usize || limit > most.rounds {
        return Err(Refusal::BadRoundLimit);
    }
    Ok(())
}

impl Session {
    /// Opens a session, which does not keep its caller: every other operation takes it
    /// as it is. (01, order: 1, 2; 02, wish 9.)
    #[inline]
    pub fn open(caller: Caller, n: usize, limit: usize) -> Result<Session, Refusal> {
        check_opening(caller.limits(), window, n, limit)?;
        Ok(Session::blank(n, limit as u32))
    }

    /// Opens a session at a window, which the session does not keep: each operation is
    /// told it again. (02, wish 7; order: 1, 2, with the server's limits.)
    #[inline]
    pub fn open_at(window: u32, n: usize, limit: usize) -> Result<Session, Refusal> {
        check_opening(Caller::Server.limits(), |_| window, n, limit)?;
        Ok(Session::blank(n, limit as u32))
    }

    /// An open session of a size that `check_opening` let pass.
    #[inline]
    pub(crate) fn blank(n: usize, limit: u32) -> Session {
        Session {
            n,
            limit,
            registers: Registers::BLANK,
            processes: [Process::IDLE; MAX_PROCESSES],
            closed: false,
        }
    }

    /// A process takes up a value. (01, order: 3, 4, 5, 6; 02, wish 10: then 18, "tested
    /// last, after 6".)
    pub fn propose(&mut self, process: usize, value: u32) -> Result<(), Refusal> {
        self.check_sound()?;
        self.propose_trusted(process, value)
    }

    /// One step of a process. (01: work turn; order: 3, 4, 7, 8, 9, 16.)
    pub fn step(
        &mut self,
        process: usize,
        leader: bool,
        counts: &mut Counts,
    ) -> Result<(), Refusal> {
        self.check_sound()?;
        self.step_trusted(window, process, leader, counts, |_| {})
    }

    /// One step at a window. (02, wish 7; order: 3, 4, 7, 8, 9, 16.)
    #[inline]
    pub fn step_at(
        &mut self,
        window: u32,
        process: usize,
        leader: bool,
        counts: &mut Counts,
    ) -> Result<(), Refusal> {
        self.check_sound_at(window)?;
        self.step_trusted(|_| window, process, leader, counts, |_| {})
    }

    /// One reading of the decision. (01: look; order: 3, 4, 7, 8, 16.)
    pub fn learn(&mut self, process: usize, counts: &mut Counts) -> Result<(), Refusal> {
        self.check_sound()?;
        self.learn_trusted(process, counts, |_| {})
    }

    /// A process stops for good. (01, order: 3, 4, 7, 8.)
    pub fn crash(&mut self, process: usize) -> Result<(), Refusal> {
        self.check_sound()?;
        self.crash_trusted(process)
    }

    /// No more proposals from here on. The mark alone changes, "also where it is set
    /// already", and no register is used. (02, wish 10; order: 3.)
    pub fn close(&mut self) -> Result<(), Refusal> {
        self.check_sound()?;
        self.close_trusted();
        Ok(())
    }

    /// Carries out any operation at a window. (02, wish 7; order as the operation's
    /// own.)
    pub fn apply_at(
        &mut self,
        window: u32,
        operation: Operation,
        counts: &mut Counts,
    ) -> Result<(), Refusal> {
        self.check_sound_at(window)?;
        self.apply_trusted_by(|_| window, operation, counts, |_| {})
    }

    /// Carries out one operation on a session known to be sound: one that was
    /// opened and has only been operated on since. Soundness is kept by every
    /// operation, so 3 cannot come up and is not tested once more. The register
    /// operation, if there is one, is shown to `watch`.
    #[inline]
    pub fn apply_trusted(
        &mut self,
        operation: Operation,
        counts: &mut Counts,
        watch: impl FnMut(Access),
    ) -> Result<(), Refusal> {
        self.apply_trusted_by(window, operation, counts, watch)
    }

    /// The same of a session that was opened and operated on at the window that
    /// `window` gives for n. Only a step asks for it. (02, wish 7.)
    #[inline]
    pub(crate) fn apply_trusted_by(
        &mut self,
        window: impl FnOnce(usize) -> u32,
        operation: Operation,
        counts: &mut Counts,
        watch: impl FnMut(Access),
    ) -> Result<(), Refusal> {
        match operation {
            Operation::Propose { process, value } => self.propose_trusted(process, value),
            Operation::Step { process, leader } => {
                self.step_trusted(window, process, leader, counts, watch)
            }
            Operation::Learn { process } => self.learn_trusted(process, counts, watch),
            Operation::Crash { process } => self.crash_trusted(process),
            Operation::Close => {
                self.close_trusted();
                Ok(())
            }
        }
    }

    #[inline]
    fn propose_trusted(&mut self, process: usize, value: u32) -> Result<(), Refusal> {
        let process = present(&mut self.processes[..self.n], process)?;
        if value == 0 {
            return Err(Refusal::BlankProposal);
        }
        if process.phase != Phase::Idle {
            return Err(Refusal::SecondProposal);
        }
        if self.closed {
            return Err(Refusal::ClosedToProposals);
        }
        process.phase = Phase::Waiting;
        process.estimate = value;
        Ok(())
    }

    #[inline]
    fn step_trusted(
        &mut self,
        window: impl FnOnce(usize) -> u32,
        process: usize,
        leader: bool,
        counts: &mut Counts,
        watch: impl FnMut(Access),
    ) -> Result<(), Refusal> {
        let bounds = Bounds {
            limit: self.limit,
            window: window(self.n),
        };
        let process = alive(&mut self.processes[..self.n], process)?;
        if process.phase == Phase::Exhausted {
            return Err(Refusal::ProcessSpent);
        }
        let mut board = board(&mut self.registers, counts, watch)?;
        process.step(leader, bounds, &mut board);
        Ok(())
    }

    #[inline]
    fn learn_trusted(
        &mut self,
        process: usize,
        counts: &mut Counts,
        watch: impl FnMut(Access),
    ) -> Result<(), Refusal> {
        let process = alive(&mut self.processes[..self.n], process)?;
        let mut board = board(&mut self.registers, counts, watch)?;
        process.learn(&mut board);
        Ok(())
    }

    #[inline]
    fn crash_trusted(&mut self, process: usize) -> Result<(), Refusal> {
        let process = alive(&mut self.processes[..self.n], process)?;
        process.phase = Phase::Crashed;
        Ok(())
    }

    #[inline]
    fn close_trusted(&mut self) {
        self.closed = true;
    }
}

/// The registers for one operation that counts, or 16.
#[inline]
pub(crate) fn board<'a, W: FnMut(Access)>(
    registers: &'a mut Registers,
    counts: &'a mut Counts,
    watch: W,
) -> Result<Board<'a, W>, Refusal> {
    if counts.full() {
        return Err(Refusal::CountsFull);
    }
    Ok(Board {
        registers,
        counts,
        watch,
    })
}

/// The process of that number among the n, or 4.
#[inline]
pub(crate) fn present<P>(processes: &mut [P], process: usize) -> Result<&mut P, Refusal> {
    processes.get_mut(process).ok_or(Refusal::NoSuchProcess)
}

/// The process of that number, working or spent, or 4, 7, 8 in this order.
#[inline]
fn alive(processes: &mut [Process], process: usize) -> Result<&mut Process, Refusal> {
    let process = present(processes, process)?;
    match process.phase {
        Phase::Idle => Err(Refusal::ProcessOut),
        Phase::Crashed | Phase::Decided => Err(Refusal::ProcessGone),
        _ => Ok(process),
    }
}
