//! The shared registers and the counts. (01, "The board and the seats"; "The
//! caller lends its tally", in "One turn at a time"; 02, wish 2.)

use crate::session::MAX_ROUNDS;

/// The shared registers. (01: the board's T, C and D.)
#[derive(Clone, PartialEq, Eq, Debug)]
pub struct Registers {
    /// 01: T[r], at place r - 1; 0 is blank.
    pub values: [u32; MAX_ROUNDS],
    /// 01: C[r], at place r - 1.
    pub marks: [bool; MAX_ROUNDS],
    /// 01: D; 0 is blank.
    pub decision: u32,
}

impl Registers {
    /// All blank and unmarked.
    pub(crate) const BLANK: Registers = Registers {
        values: [0; MAX_ROUNDS],
        marks: [false; MAX_ROUNDS],
        decision: 0,
    };
}

/// What the register operations add up to. (01: tally.)
#[derive(Clone, Copy, PartialEq, Eq, Debug, Default)]
pub struct Counts {
    /// Register reads.
    pub reads: u32,
    /// Register writes, to T, C and D.
    pub writes: u32,
    /// Flag writes that found their round unmarked. (01: contested; 02, wish 2,
    /// in place of 01's "the number of flag writes".)
    pub contested: u32,
}

impl Counts {
    /// 01, "Numbers returned", 16: some count can grow no more, be it one that
    /// the operation makes grow or not.
    #[inline]
    pub fn full(&self) -> bool {
        self.reads == u32::MAX || self.writes == u32::MAX || self.contested == u32::MAX
    }
}

/// A register operation, with its round and value.
#[derive(Clone, Copy, PartialEq, Eq, Debug)]
pub enum Access {
    /// T[r] read.
    ValueRead(u32, u32),
    /// T[r] written.
    ValueWritten(u32, u32),
    /// C[r] read.
    MarkRead(u32, bool),
    /// C[r] marked, the flag write.
    Marked(u32),
    /// D read.
    DecisionRead(u32),
    /// D written.
    DecisionWritten(u32),
}

/// Where T[r] and C[r] are kept, for a round r of 1 or more.
#[inline]
fn place(round: u32) -> usize {
    round as usize - 1
}

/// The registers as one operation uses them: each use is counted where the
/// counts stand, which are not full, and shown to `watch`.
pub(crate) struct Board<'a, W: FnMut(Access)> {
    pub registers: &'a mut Registers,
    pub counts: &'a mut Counts,
    pub watch: W,
}

impl<W: FnMut(Access)> Board<'_, W> {
    #[inline]
    pub fn read_value(&mut self, round: u32) -> u32 {
        let value = self.registers.values[place(round)];
        self.counts.reads += 1;
        (self.watch)(Access::ValueRead(round, value));
        value
    }

    #[inline]
    pub fn write_value(&mut self, round: u32, value: u32) {
        self.registers.values[place(round)] = value;
        self.counts.writes += 1;
        (self.watch)(Access::ValueWritten(round, value));
    }

    #[inline]
    pub fn read_mark(&mut self, round: u32) -> bool {
        let marked = self.registers.marks[place(round)];
        self.counts.reads += 1;
        (self.watch)(Access::MarkRead(round, marked));
        marked
    }

    /// 02, wish 2: "Contested becomes the number of flag writes that found their
    /// round unmarked"; "A second flag on a marked round is still a register
    /// write." What stood there is no register read.
    #[inline]
    pub fn mark(&mut self, round: u32) {
        let mark = &mut self.registers.marks[place(round)];
        self.counts.contested += u32::from(!*mark);
        self.counts.writes += 1;
        *mark = true;
        (self.watch)(Access::Marked(round));
    }

    #[inline]
    pub fn read_decision(&mut self) -> u32 {
        let value = self.registers.decision;
        self.counts.reads += 1;
        (self.watch)(Access::DecisionRead(value));
        value
    }

    #[inline]
    pub fn write_decision(&mut self, value: u32) {
        self.registers.decision = value;
        self.counts.writes += 1;
        (self.watch)(Access::DecisionWritten(value));
    }
}
