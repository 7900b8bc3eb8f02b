//! The numbers returned. (01, "Numbers returned"; 02, wishes 3, 6, 9, 10, 11 and
//! 12.)

/// A row of the table in 01, "Numbers returned", or a number that 02 adds to it;
/// `code` gives its number.
#[derive(Clone, Copy, PartialEq, Eq, Debug)]
#[repr(u8)]
pub enum Refusal {
    /// Seats not 1 to the caller's most (02, wish 9); of short lists, a seat count other
    /// than 1 or 2 (02, wish 12).
    BadProcessCount = 1,
    /// L below W or above the caller's most rounds. (02, wish 9.)
    BadRoundLimit = 2,
    /// Session, poll or house not sound.
    Unsound = 3,
    /// Seat number n or above.
    NoSuchProcess = 4,
    /// Proposal of 0.
    BlankProposal = 5,
    /// Proposal, seat not out.
    SecondProposal = 6,
    /// Work, look or crash, seat out.
    ProcessOut = 7,
    /// Work, look or crash, seat crashed or decided, or answered in a poll. (02, wish
    /// 6.)
    ProcessGone = 8,
    /// Work, seat spent.
    ProcessSpent = 9,
    /// Sheet under 4 or over 65,535 bytes, over 16 pairs, or too short for its
    /// pairs.
    BadSheet = 10,
    /// Pairs unsorted, overlapping, before the end of the pairs, or past the
    /// sheet.
    BadPairs = 11,
    /// A run's length not a multiple of 6; of a writer's entries, their length. (02,
    /// wish 3.)
    BadRun = 12,
    /// Entry with an unknown kind or a wrong value; a close with another seat than 0.
    /// (02, wish 10.)
    BadEntry = 13,
    /// Read-out of a round not 1 to L.
    NoSuchRound = 14,
    /// Lent buffer of wrong length; of short lists, not 6 times their length. (02, wish
    /// 12.)
    BadBuffer = 15,
    /// Work or look, some tally count already 4,294,967,295.
    CountsFull = 16,
    /// Writing a sheet: more than 16 runs, over 65,535 bytes, or run lengths that
    /// do not add up to the entries (02, wish 3). Short lists of a length over 6 (02,
    /// wish 12).
    BadCuts = 17,
    /// Proposal to a closed session. (02, wish 10.)
    ClosedToProposals = 18,
    /// Opening a house: c not 1 to 4, over 16 workers, a worker's ward not 1 to c, or an
    /// empty ward. (02, wish 11.)
    BadWards = 19,
    /// The next short list: the given list is not legal. (02, wish 12.)
    IllegalList = 20,
    /// The next short list: no list follows it. (02, wish 12.)
    LastList = 21,
}

impl Refusal {
    /// The number returned.
    #[inline]
    pub const fn code(self) -> u32 {
        self as u32
    }
}
