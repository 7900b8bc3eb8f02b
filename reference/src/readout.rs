//! The read-outs. (01, "Standing values"; order in "Numbers returned": 3, then
//! 4, 14 or 15 as the read-out has a seat, a round or a buffer.)

use crate::phase::{Phase, Process};
use crate::refusal::Refusal;
use crate::session::{Session, MAX_ROUNDS};

impl Session {
    /// T[r] and C[r]. (01, order: 3, 14.)
    pub fn read_round(&self, round: usize) -> Result<(u32, bool), Refusal> {
        self.check_sound()?;
        if round < 1 || round > self.limit as usize {
            return Err(Refusal::NoSuchRound);
        }
        let place = round - 1;
        Ok((self.registers.values[place], self.registers.marks[place]))
    }

    /// A process. (01: a seat's record; order: 3, 4.)
    pub fn read_process(&self, process: usize) -> Result<Process, Refusal> {
        self.check_sound()?;
        let seated = &self.processes[..self.n];
        seated.get(process).copied().ok_or(Refusal::NoSuchProcess)
    }

    /// D. (01, order: 3.)
    pub fn read_decision(&self) -> Result<u32, Refusal> {
        self.check_sound()?;
        Ok(self.registers.decision)
    }

    /// Writes each value that a filled register holds once, by the first round
    /// in which it stands, lowest first, and returns how many. (01, "Standing
    /// values"; 02, wish 1; order of the tests: 3, 15.)
    pub fn standing_values(&self, buffer: &mut [u32]) -> Result<usize, Refusal> {
        self.check_sound()?;
        let mut found = [0; MAX_ROUNDS];
        let count = self.collect_standing(&mut found);
        let lent = buffer.get_mut(..count).ok_or(Refusal::BadBuffer)?;
        lent.copy_from_slice(&found[..count]);
        Ok(count)
    }

    fn collect_standing(&self, found: &mut [u32; MAX_ROUNDS]) -> usize {
        let mut count = 0;
        for &value in &self.registers.values[..self.limit as usize] {
            if value != 0 && !found[..count].contains(&value) {
                found[count] = value;
                count += 1;
            }
        }
        count
    }

    /// How many rounds are marked. (02, wish 2: "the marked rounds on the board",
    /// which contested equals after a run from an opening.)
    pub fn marked_rounds(&self) -> u32 {
        let marks = &self.registers.marks[..self.limit as usize];
        marks.iter().map(|mark| u32::from(*mark)).sum()
    }

    /// The highest filled round, 0 for none. (01, "The board report".)
    pub(crate) fn highest_filled(&self) -> usize {
        let filled = |value: &u32| *value != 0;
        let last = self.registers.values.iter().rposition(filled);
        last.map_or(0, |place| place + 1)
    }

    /// The value a process decided, or 0. (01, "Turn sheets": the C entry.)
    pub(crate) fn decided(&self, process: usize) -> u32 {
        let process = &self.processes[process];
        if process.phase == Phase::Decided {
            process.estimate
        } else {
            0
        }
    }
}
