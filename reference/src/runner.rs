//! The runner and the C entry. (01, "Turn sheets".)

use crate::board::Counts;
use crate::refusal::Refusal;
use crate::session::{Caller, Session, MAX_PROCESSES};
use crate::sheet::{Operation, Sheet, ENTRY};

/// The C entry's answer where the budget ended. (01, "Turn sheets".)
pub const BUDGET_ENDED: u32 = 100;
/// The length of the C entry's buffer. (01, "Turn sheets".)
pub const BUFFER: usize = 4 * MAX_PROCESSES;

/// How a run came to its end; each case has the number of entries carried out,
/// which is the index of the entry where it ended.
#[derive(Clone, Copy, PartialEq, Eq, Debug)]
pub enum Ending {
    /// No entry was left.
    Finished(u64),
    /// The entry of that index was refused.
    Refused(Refusal, u64),
    /// The budget was used up with more left.
    BudgetEnded(u64),
}

impl Ending {
    /// The C entry's answer.
    pub fn code(self) -> u32 {
        match self {
            Ending::Finished(_) => 0,
            Ending::Refused(refusal, _) => refusal.code(),
            Ending::BudgetEnded(_) => BUDGET_ENDED,
        }
    }

    /// The number of entries carried out.
    pub fn carried_out(self) -> u64 {
        match self {
            Ending::Finished(done) | Ending::Refused(_, done) | Ending::BudgetEnded(done) => done,
        }
    }
}

/// Carries out a sheet's entries on the session it opened. (01: the runner;
/// each entry 13 first, then its operation's own order. 02, wish 10: a close is an entry
/// like any other, and none is refused.)
pub fn run(sheet: &Sheet, budget: u64, session: &mut Session, counts: &mut Counts) -> Ending {
    let mut done = 0;
    for run in sheet.runs() {
        for entry in run.chunks_exact(ENTRY) {
            if done == budget {
                return Ending::BudgetEnded(done);
            }
            let tried = Operation::decode(entry)
                .and_then(|operation| session.apply_trusted(operation, counts, |_| {}));
            if let Err(refusal) = tried {
                return Ending::Refused(refusal, done);
            }
            done += 1;
        }
    }
    Ending::Finished(done)
}

/// What the clinic server gets. (01, "Turn sheets", the C entry: 15 first; the
/// buffer is written unless the answer is 15, 1, 2, 10, 11 or 12. 02, wish 9: "the C
/// entry and the report use the server's".)
pub fn entry(bytes: &[u8], budget: u64, buffer: &mut [u8]) -> u32 {
    if buffer.len() != BUFFER {
        return Refusal::BadBuffer.code();
    }
    let sheet = match Sheet::read(Caller::Server, bytes) {
        Ok(sheet) => sheet,
        Err(refusal) => return refusal.code(),
    };
    let mut session = sheet.open();
    let mut counts = Counts::default();
    let ending = run(&sheet, budget, &mut session, &mut counts);
    write_decided(&session, buffer);
    ending.code()
}

/// Bytes 4s to 4s + 3 hold seat s's decided value, little-endian, or 0.
fn write_decided(session: &Session, buffer: &mut [u8]) {
    for (process, place) in buffer.chunks_exact_mut(4).enumerate() {
        place.copy_from_slice(&session.decided(process).to_le_bytes());
    }
}
