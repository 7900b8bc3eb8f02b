//! Sheets in bytes. (01, "Turn sheets"; 02, wish 10.)

use crate::refusal::Refusal;
use crate::session::{check_opening, window, Caller, Limits, Session};

/// The most bytes of a sheet. (01, "Numbers returned", 10.)
pub const MAX_BYTES: usize = 65_535;
/// The most pairs of a sheet. (01: p, 0 to 16.)
pub(crate) const MAX_PAIRS: u8 = 16;
/// The bytes of n, p and L.
pub(crate) const HEADER: usize = 4;
/// The bytes of an offset and a length.
pub(crate) const PAIR: usize = 4;
/// The bytes of an entry. (01: kind, seat, 32-bit value.)
pub const ENTRY: usize = 6;

/// What an entry asks for. (01: propose, work, look, crash; 02, wish 10: close.)
#[derive(Clone, Copy, PartialEq, Eq, Debug)]
pub enum Operation {
    /// 01: kind 0, a proposal.
    Propose { process: usize, value: u32 },
    /// 01: kind 1, a work turn with its hint.
    Step { process: usize, leader: bool },
    /// 01: kind 2, a look.
    Learn { process: usize },
    /// 01: kind 3, a crash.
    Crash { process: usize },
    /// 02, wish 10: kind 4, a close, which is for no seat.
    Close,
}

impl Operation {
    /// Reads an entry's bytes, or 13. (02, wish 10: "kind 4 with another seat or value is
    /// 13".)
    #[inline]
    pub fn decode(entry: &[u8]) -> Result<Operation, Refusal> {
        let &[kind, seat, a, b, c, d] = entry else {
            return Err(Refusal::BadEntry);
        };
        let process = usize::from(seat);
        let value = u32::from_le_bytes([a, b, c, d]);
        match (kind, seat, value) {
            (0, _, value) => Ok(Operation::Propose { process, value }),
            (1, _, 0 | 1) => Ok(Operation::Step {
                process,
                leader: value == 1,
            }),
            (2, _, 0) => Ok(Operation::Learn { process }),
            (3, _, 0) => Ok(Operation::Crash { process }),
            (4, 0, 0) => Ok(Operation::Close),
            _ => Err(Refusal::BadEntry),
        }
    }

    /// The number of the process that it is for; none of a close.
    pub fn process(self) -> Option<usize> {
        match self {
            Operation::Propose { process, .. }
            | Operation::Step { process, .. }
            | Operation::Learn { process }
            | Operation::Crash { process } => Some(process),
            Operation::Close => None,
        }
    }
}

/// A sheet whose header, pairs and runs are in order. (01: turn sheet.)
#[derive(Clone, Copy)]
pub struct Sheet<'a> {
    bytes: &'a [u8],
    pairs: &'a [u8],
    n: usize,
    limit: usize,
}

impl<'a> Sheet<'a> {
    /// Reads a sheet's bytes. (01, order: 10, 1, 2, 11 over all pairs, 12 over all
    /// runs; 02, wish 9.)
    #[inline]
    pub fn read(caller: Caller, bytes: &'a [u8]) -> Result<Sheet<'a>, Refusal> {
        Sheet::read_by(caller.limits(), window, bytes)
    }

    /// The same, 2 being tested with the window that `window` gives for n. (02, wish
    /// 7.)
    #[inline]
    pub(crate) fn read_by(
        most: Limits,
        window: impl FnOnce(usize) -> u32,
        bytes: &'a [u8],
    ) -> Result<Sheet<'a>, Refusal> {
        let &[n, p, limit_low, limit_high, ref rest @ ..] = bytes else {
            return Err(Refusal::BadSheet);
        };
        if bytes.len() > MAX_BYTES || p > MAX_PAIRS {
            return Err(Refusal::BadSheet);
        }
        let Some(pairs) = rest.get(..PAIR * usize::from(p)) else {
            return Err(Refusal::BadSheet);
        };
        let n = usize::from(n);
        let limit = usize::from(u16::from_le_bytes([limit_low, limit_high]));
        check_opening(most, window, n, limit)?;
        let sheet = Sheet {
            bytes,
            pairs,
            n,
            limit,
        };
        sheet.check_pairs()?;
        sheet.check_lengths()?;
        Ok(sheet)
    }

    /// Offset and length of each run.
    #[inline]
    fn spans(&self) -> impl Iterator<Item = (usize, usize)> + 'a {
        self.pairs.chunks_exact(PAIR).map(|pair| {
            let offset = u16::from_le_bytes([pair[0], pair[1]]);
            let length = u16::from_le_bytes([pair[2], pair[3]]);
            (usize::from(offset), usize::from(length))
        })
    }

    /// 01, 11: each run starts at or after the end of the pairs and of the run
    /// before it, and ends within the sheet.
    fn check_pairs(&self) -> Result<(), Refusal> {
        let mut free = HEADER + self.pairs.len();
        for (offset, length) in self.spans() {
            if offset < free || offset + length > self.bytes.len() {
                return Err(Refusal::BadPairs);
            }
            free = offset + length;
        }
        Ok(())
    }

    /// 01, 12: each run holds whole entries.
    fn check_lengths(&self) -> Result<(), Refusal> {
        if self.spans().all(|(_, length)| length % ENTRY == 0) {
            Ok(())
        } else {
            Err(Refusal::BadRun)
        }
    }

    /// The session that the sheet asks for.
    #[inline]
    pub fn open(&self) -> Session {
        Session::blank(self.n, self.limit as u32)
    }

    /// The bytes of each run.
    #[inline]
    pub fn runs(&self) -> impl Iterator<Item = &'a [u8]> + 'a {
        let bytes = self.bytes;
        self.spans()
            .map(move |(offset, length)| &bytes[offset..offset + length])
    }

    /// The bytes of each entry, over all runs.
    pub fn entries(&self) -> impl Iterator<Item = &'a [u8]> + 'a {
        self.runs().flat_map(|run| run.chunks_exact(ENTRY))
    }
}
