//! A process, its phase, and what one step does in each phase.
//! (01, "The board and the seats" and "One turn at a time".)

use crate::board::{Access, Board};

/// Where a process stands in its walk. (01: stance.) The number carried is
/// the k or the i of 01.
#[derive(Clone, Copy, PartialEq, Eq, Debug)]
pub enum Phase {
    /// 01: out.
    Idle,
    /// 01: gate.
    Waiting,
    /// 01: put.
    Write,
    /// 01: seek k.
    Scan(u32),
    /// 01: take k.
    Adopt(u32),
    /// 01: compare i.
    Compare(u32),
    /// 01: flag i.
    Flag(u32),
    /// 01: check-mark i.
    CheckMark(u32),
    /// 01: check-value i.
    CheckValue(u32),
    /// 01: commit.
    Commit,
    /// 01: spent.
    Exhausted,
    /// 01: crashed.
    Crashed,
    /// 01: decided.
    Decided,
}

/// What the session keeps of one worker. (01: a seat's record.)
#[derive(Clone, Copy, PartialEq, Eq, Debug)]
pub struct Process {
    /// 01: stance.
    pub phase: Phase,
    /// 01: round, 0 at first.
    pub round: u32,
    /// 01: own value.
    pub estimate: u32,
}

/// The two numbers that bound every walk. (01: L and W.)
#[derive(Clone, Copy)]
pub(crate) struct Bounds {
    pub limit: u32,
    pub window: u32,
}

impl Process {
    /// A process that has not proposed.
    pub const IDLE: Process = Process {
        phase: Phase::Idle,
        round: 0,
        estimate: 0,
    };

    /// One step. (01: a work turn.) The last arm is refused before it is reached.
    #[inline]
    pub(crate) fn step(
        &mut self,
        leader: bool,
        bounds: Bounds,
        board: &mut Board<impl FnMut(Access)>,
    ) {
        self.phase = match self.phase {
            Phase::Waiting => self.enter(leader, bounds, board),
            Phase::Write => self.write(board),
            Phase::Scan(k) => scan(k, bounds, board),
            Phase::Adopt(k) => self.adopt(k, board),
            Phase::Compare(i) => self.compare(i, bounds, board),
            Phase::Flag(i) => self.flag(i, bounds, board),
            Phase::CheckMark(i) => self.check_mark(i, board),
            Phase::CheckValue(i) => self.check_value(i, bounds, board),
            Phase::Commit => self.commit(board),
            ended @ (Phase::Idle | Phase::Exhausted | Phase::Crashed | Phase::Decided) => ended,
        }
    }

    /// 01, gate, in the order of 02, wish 5, which reads the round limit first:
    /// round L, spent; hint no, nothing; else the next round is read.
    #[inline]
    fn enter(
        &mut self,
        leader: bool,
        bounds: Bounds,
        board: &mut Board<impl FnMut(Access)>,
    ) -> Phase {
        if self.round == bounds.limit {
            return Phase::Exhausted;
        }
        if !leader {
            return Phase::Waiting;
        }
        self.round += 1;
        match board.read_value(self.round) {
            0 => Phase::Write,
            _ => after_filled(self.round, bounds),
        }
    }

    /// 01, put: the own value goes to T[r].
    #[inline]
    fn write(&self, board: &mut Board<impl FnMut(Access)>) -> Phase {
        board.write_value(self.round, self.estimate);
        Phase::Compare(0)
    }

    /// 01, take k: T[k] is read again and adopted; a blank leaves the estimate.
    #[inline]
    fn adopt(&mut self, k: u32, board: &mut Board<impl FnMut(Access)>) -> Phase {
        let seen = board.read_value(k);
        if seen != 0 {
            self.estimate = seen;
        }
        self.round = k;
        Phase::Compare(0)
    }

    /// 01, compare i: T[r - i] against the own value.
    #[inline]
    fn compare(&self, i: u32, bounds: Bounds, board: &mut Board<impl FnMut(Access)>) -> Phase {
        if board.read_value(self.round - i) == self.estimate {
            self.go_on(i, bounds)
        } else {
            Phase::Flag(i)
        }
    }

    /// 01, flag i: C[r - i] is marked, the round where the difference was read.
    #[inline]
    fn flag(&self, i: u32, bounds: Bounds, board: &mut Board<impl FnMut(Access)>) -> Phase {
        board.mark(self.round - i);
        self.go_on(i, bounds)
    }

    /// 01, "Go on": the next round back, then the checks from round W on.
    #[inline]
    fn go_on(&self, i: u32, bounds: Bounds) -> Phase {
        if i + 1 < self.round.min(bounds.window) {
            Phase::Compare(i + 1)
        } else if self.round >= bounds.window {
            Phase::CheckMark(0)
        } else {
            Phase::Waiting
        }
    }

    /// 01, check-mark i: a mark on C[r - i] ends the checks.
    #[inline]
    fn check_mark(&self, i: u32, board: &mut Board<impl FnMut(Access)>) -> Phase {
        if board.read_mark(self.round - i) {
            Phase::Waiting
        } else {
            Phase::CheckValue(i)
        }
    }

    /// 01, check-value i: another value in T[r - i] ends the checks; the W-th
    /// success leads to commit.
    #[inline]
    fn check_value(&self, i: u32, bounds: Bounds, board: &mut Board<impl FnMut(Access)>) -> Phase {
        if board.read_value(self.round - i) != self.estimate {
            Phase::Waiting
        } else if i + 1 < bounds.window {
            Phase::CheckMark(i + 1)
        } else {
            Phase::Commit
        }
    }

    /// 01, commit: the own value goes to D; deciding is left to a look.
    #[inline]
    fn commit(&self, board: &mut Board<impl FnMut(Access)>) -> Phase {
        board.write_decision(self.estimate);
        Phase::Waiting
    }

    /// One reading of the decision. (01: a look.)
    #[inline]
    pub(crate) fn learn(&mut self, board: &mut Board<impl FnMut(Access)>) {
        let decision = board.read_decision();
        if decision != 0 {
            self.phase = Phase::Decided;
            self.estimate = decision;
        }
    }
}

/// 01, seek k: on to the last filled round.
#[inline]
fn scan(k: u32, bounds: Bounds, board: &mut Board<impl FnMut(Access)>) -> Phase {
    match board.read_value(k) {
        0 => Phase::Adopt(k - 1),
        _ => after_filled(k, bounds),
    }
}

/// Where a process goes that found round k filled, at gate or in seek k.
#[inline]
fn after_filled(k: u32, bounds: Bounds) -> Phase {
    if k == bounds.limit {
        Phase::Adopt(k)
    } else {
        Phase::Scan(k + 1)
    }
}
