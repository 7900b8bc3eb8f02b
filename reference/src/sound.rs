//! The soundness of a session. (01, "A session is sound if", at the end of
//! "Numbers returned".)

use crate::board::Registers;
use crate::phase::{Phase, Process};
use crate::refusal::Refusal;
use crate::session::{check_opening, window, Caller, Session};

impl Session {
    /// 01, "Numbers returned", 3.
    pub(crate) fn check_sound(&self) -> Result<(), Refusal> {
        sound(self.is_sound())
    }

    /// The same at any window. (02, wish 7.)
    pub(crate) fn check_sound_at(&self, window: u32) -> Result<(), Refusal> {
        sound(self.is_sound_at(window))
    }

    /// Whether the session is sound. Open or closed, it may be: "Soundness allows both."
    /// (02, wish 10.)
    pub fn is_sound(&self) -> bool {
        self.is_sound_by(window)
    }

    /// Whether the session is sound at a window. (02, wish 7.)
    pub fn is_sound_at(&self, window: u32) -> bool {
        self.is_sound_by(|_| window)
    }

    /// With the window that `window` gives for an n of 1 to 64.
    #[inline]
    fn is_sound_by(&self, window: impl Fn(usize) -> u32) -> bool {
        if !sound_size(&window, self.n, self.limit as usize) {
            return false;
        }
        let (limit, window) = (self.limit, window(self.n));
        let (seated, rest) = self.processes.split_at(self.n);
        blank_past(&self.registers, limit as usize)
            && seated.iter().all(|process| record(process, limit, window))
            && rest.iter().all(|process| *process == Process::IDLE)
    }
}

/// Whether an opening of that size is accepted, whoever made it. (02, wish 9:
/// "soundness, 3, stays with the server's".)
#[inline]
pub(crate) fn sound_size(window: impl FnOnce(usize) -> u32, n: usize, limit: usize) -> bool {
    check_opening(Caller::Server.limits(), window, n, limit).is_ok()
}

/// Sound, or 3.
#[inline]
pub(crate) fn sound(is_sound: bool) -> Result<(), Refusal> {
    if is_sound {
        Ok(())
    } else {
        Err(Refusal::Unsound)
    }
}

/// Registers and marks past L are blank and unmarked.
pub(crate) fn blank_past(registers: &Registers, limit: usize) -> bool {
    registers.values[limit..].iter().all(|value| *value == 0)
        && registers.marks[limit..].iter().all(|marked| !marked)
}

/// Out has round 0 and value 0, every other stance a value above 0, a round of
/// at most L, and a place that fits.
pub(crate) fn record(process: &Process, limit: u32, window: u32) -> bool {
    if process.phase == Phase::Idle {
        return process.round == 0 && process.estimate == 0;
    }
    process.estimate > 0
        && process.round <= limit
        && place(process.phase, process.round, limit, window)
}

/// The bounds of each stance's place in the walk, in a round r of at most L.
fn place(phase: Phase, r: u32, limit: u32, window: u32) -> bool {
    match phase {
        Phase::Idle | Phase::Waiting | Phase::Crashed | Phase::Decided => true,
        Phase::Write => r >= 1,
        Phase::Scan(k) => 1 <= r && r < k && k <= limit,
        Phase::Adopt(k) => 1 <= r && r <= k && k <= limit,
        Phase::Compare(i) | Phase::Flag(i) => r >= 1 && i < r.min(window),
        Phase::CheckMark(i) | Phase::CheckValue(i) => r >= window && i < window,
        Phase::Commit => r >= window,
        Phase::Exhausted => r == limit,
    }
}
