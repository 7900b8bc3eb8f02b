//! Polls: "Janus stopped after W rounds, without leader hints". (02, wish 6.)

use crate::board::{Access, Board, Counts, Registers};
use crate::phase::{Bounds, Phase, Process};
use crate::refusal::Refusal;
use crate::session::{board, check_processes, present, window, Caller, Session, MAX_PROCESSES};
use crate::sound::{blank_past, record, sound, sound_size};

/// What a process gets from a poll, with its value.
#[derive(Clone, Copy, PartialEq, Eq, Debug)]
pub enum Answer {
    /// "its turn at commit answers committed with its value".
    Committed(u32),
    /// "where a check of that round fails it answers adopted with its value".
    Adopted(u32),
}

impl Answer {
    /// The value it carries.
    pub const fn value(self) -> u32 {
        match self {
            Answer::Committed(value) | Answer::Adopted(value) => value,
        }
    }
}

/// What a poll keeps of one worker. (01: a seat's record.)
#[derive(Clone, Copy, PartialEq, Eq, Debug)]
pub enum Voter {
    /// Without an answer, it has the record that a session would keep of it.
    Walking(Process),
    /// An answered seat, with the round in which it answered.
    Answered(Answer, u32),
}

impl Voter {
    /// A process that has not proposed.
    pub(crate) const IDLE: Voter = Voter::Walking(Process::IDLE);

    /// The own value.
    pub const fn value(self) -> u32 {
        match self {
            Voter::Walking(process) => process.estimate,
            Voter::Answered(answer, _) => answer.value(),
        }
    }
}

/// One pass, adopt or commit. (02, wish 6: a poll.)
#[derive(Clone, PartialEq, Eq, Debug)]
pub struct Poll {
    /// The number of processes. (01: seats n.)
    pub n: usize,
    /// The round limit. (01: L; "A poll has L = W.")
    pub limit: u32,
    /// The shared registers. (01: the board.)
    pub registers: Registers,
    /// The processes. (01: the row of seats.)
    pub voters: [Voter; MAX_PROCESSES],
    /// The mark of a session that is taken for a poll. (02, wish 10: "Polls have no close,
    /// and a sound one is open.")
    pub closed: bool,
}

impl Poll {
    /// Opens a poll. (Order: 1; 02, wish 9: "Opening, of polls too". No 2: the W of the
    /// most seats is below the most rounds of either caller.)
    pub fn open(caller: Caller, n: usize) -> Result<Poll, Refusal> {
        check_processes(caller.limits(), n)?;
        Poll::open_at(window(n), n)
    }

    /// Opens a poll at a window, which is its L. (02, wish 7: "Polls are covered too";
    /// order: 1, 2.)
    pub fn open_at(window: u32, n: usize) -> Result<Poll, Refusal> {
        let session = Session::open_at(window, n, window as usize)?;
        Ok(Poll::of(&session))
    }

    /// A session's board and seats taken for a poll's, which need not be sound.
    pub fn of(session: &Session) -> Poll {
        Poll {
            n: session.n,
            limit: session.limit,
            registers: session.registers.clone(),
            voters: session.processes.map(Voter::Walking),
            closed: session.closed,
        }
    }

    /// A poll's board and seats taken for a session's, or 3: "no sound session has
    /// an answered seat".
    pub fn session(&self) -> Result<Session, Refusal> {
        let mut processes = [Process::IDLE; MAX_PROCESSES];
        for (process, voter) in processes.iter_mut().zip(&self.voters) {
            match voter {
                Voter::Walking(record) => *process = *record,
                Voter::Answered(..) => return Err(Refusal::Unsound),
            }
        }
        Ok(Session {
            n: self.n,
            limit: self.limit,
            registers: self.registers.clone(),
            processes,
            closed: self.closed,
        })
    }

    /// A process takes up a value. (Order: 3, 4, 5, 6. No 18: where a poll is closed, 3 is
    /// told. 02, wish 10.)
    pub fn propose(&mut self, process: usize, value: u32) -> Result<(), Refusal> {
        self.check_sound()?;
        self.propose_trusted(process, value)
    }

    /// A proposal at a window. (02, wish 7; order: 3, 4, 5, 6.)
    pub fn propose_at(&mut self, window: u32, process: usize, value: u32) -> Result<(), Refusal> {
        sound(self.is_sound_at(window))?;
        self.propose_trusted(process, value)
    }

    pub(crate) fn propose_trusted(&mut self, process: usize, value: u32) -> Result<(), Refusal> {
        let voter = present(&mut self.voters[..self.n], process)?;
        if value == 0 {
            return Err(Refusal::BlankProposal);
        }
        if *voter != Voter::IDLE {
            return Err(Refusal::SecondProposal);
        }
        *voter = Voter::Walking(Process {
            phase: Phase::Waiting,
            round: 0,
            estimate: value,
        });
        Ok(())
    }

    /// One step of a process, and the answer if it gives one. (02: a turn; order: 3,
    /// 4, 7, 8, 16.)
    pub fn step(&mut self, process: usize, counts: &mut Counts) -> Result<Option<Answer>, Refusal> {
        self.check_sound()?;
        self.step_trusted(window(self.n), process, counts)
    }

    /// One step at a window. (02, wish 7; order: 3, 4, 7, 8, 16.)
    pub fn step_at(
        &mut self,
        window: u32,
        process: usize,
        counts: &mut Counts,
    ) -> Result<Option<Answer>, Refusal> {
        sound(self.is_sound_at(window))?;
        self.step_trusted(window, process, counts)
    }

    pub(crate) fn step_trusted(
        &mut self,
        window: u32,
        process: usize,
        counts: &mut Counts,
    ) -> Result<Option<Answer>, Refusal> {
        let bounds = Bounds {
            limit: self.limit,
            window,
        };
        let voter = present(&mut self.voters[..self.n], process)?;
        let process = working(voter)?;
        let mut board = board(&mut self.registers, counts, |_| {})?;
        let answer = step(process, bounds, &mut board);
        if let Some(answer) = answer {
            *voter = Voter::Answered(answer, process.round);
        }
        Ok(answer)
    }

    /// A process stops for good. (Order: 3, 4, 7, 8.)
    pub fn crash(&mut self, process: usize) -> Result<(), Refusal> {
        self.check_sound()?;
        self.crash_trusted(process)
    }

    /// A crash at a window. (02, wish 7; order: 3, 4, 7, 8.)
    pub fn crash_at(&mut self, window: u32, process: usize) -> Result<(), Refusal> {
        sound(self.is_sound_at(window))?;
        self.crash_trusted(process)
    }

    fn crash_trusted(&mut self, process: usize) -> Result<(), Refusal> {
        let voter = present(&mut self.voters[..self.n], process)?;
        working(voter)?.phase = Phase::Crashed;
        Ok(())
    }

    /// A process. ("Seats are read out as in sessions"; order: 3, 4.)
    pub fn read_process(&self, process: usize) -> Result<Voter, Refusal> {
        self.check_sound()?;
        let seated = &self.voters[..self.n];
        seated.get(process).copied().ok_or(Refusal::NoSuchProcess)
    }

    /// 01, "Numbers returned", 3.
    fn check_sound(&self) -> Result<(), Refusal> {
        sound(self.is_sound())
    }

    /// Whether the poll is sound: "A sound poll keeps a session's rules and has L =
    /// W, a blank D, no spent or decided seat, gate only below round W, and answered
    /// seats at round W"; and it is open (02, wish 10).
    pub fn is_sound(&self) -> bool {
        self.is_sound_by(window)
    }

    /// Whether the poll is sound at a window. (02, wish 7.)
    pub fn is_sound_at(&self, window: u32) -> bool {
        self.is_sound_by(|_| window)
    }

    /// With the window that `window` gives for an n of 1 to 64.
    fn is_sound_by(&self, window: impl Fn(usize) -> u32) -> bool {
        let limit = self.limit as usize;
        if !sound_size(&window, self.n, limit) || self.limit != window(self.n) {
            return false;
        }
        let (seated, rest) = self.voters.split_at(self.n);
        !self.closed
            && self.registers.decision == 0
            && blank_past(&self.registers, limit)
            && seated.iter().all(|voter| stands(voter, self.limit))
            && rest.iter().all(|voter| *voter == Voter::IDLE)
    }
}

/// "Each worker walks the same steps", with no hint to wait for, "ending with round
/// W": at commit it answers and "writes no D", and where a check fails it answers
/// instead of going back to the gate.
fn step(
    process: &mut Process,
    bounds: Bounds,
    board: &mut Board<impl FnMut(Access)>,
) -> Option<Answer> {
    if process.phase == Phase::Commit {
        return Some(Answer::Committed(process.estimate));
    }
    let checks = matches!(process.phase, Phase::CheckMark(_) | Phase::CheckValue(_));
    process.step(true, bounds, board);
    let failed = checks && process.phase == Phase::Waiting;
    failed.then_some(Answer::Adopted(process.estimate))
}

/// The record of a process that works, or 7, 8 in this order; "a turn or crash of an
/// answered seat gives 8".
fn working(voter: &mut Voter) -> Result<&mut Process, Refusal> {
    match voter {
        Voter::Answered(..) => Err(Refusal::ProcessGone),
        Voter::Walking(process) => match process.phase {
            Phase::Idle => Err(Refusal::ProcessOut),
            Phase::Crashed => Err(Refusal::ProcessGone),
            _ => Ok(process),
        },
    }
}

/// Whether a process may stand so in a poll of that window.
fn stands(voter: &Voter, window: u32) -> bool {
    match voter {
        Voter::Answered(answer, round) => answer.value() > 0 && *round == window,
        Voter::Walking(process) => {
            let walks = match process.phase {
                Phase::Exhausted | Phase::Decided => false,
                Phase::Waiting => process.round < window,
                _ => true,
            };
            walks && record(process, window, window)
        }
    }
}
