//! Random lists of operations: the agreement rule holds, after a close the proposals
//! no longer change, every session stays sound, contested is the number of marked
//! rounds, and a sheet gives what its entries give one after another.

use super::*;
use crate::random::Random;
use crate::{run, Ending, Phase, Sheet};

/// What the agreement rule of 01 speaks of, the round of each flag write (02, wish 2),
/// and the closes (02, wish 10), gathered along a list.
#[derive(Default)]
struct History {
    proposed: Vec<u32>,
    written: Vec<(u32, u32)>,
    committed: Vec<(u32, u32)>,
    flagged: Vec<u32>,
    /// How many numbers were proposed at each close.
    closes: Vec<usize>,
    /// Proposals refused with 18.
    late: usize,
}

impl History {
    /// An accepted operation on a session that stood so before it.
    fn note(&mut self, operation: Operation, session: &Session) {
        let Some(process) = operation.process() else {
            return self.closes.push(self.proposed.len());
        };
        let before = session.processes[process];
        let (round, value) = (before.round, before.estimate);
        match (operation, before.phase) {
            (Operation::Propose { value, .. }, _) => self.proposed.push(value),
            (Operation::Step { .. }, Phase::Write) => self.written.push((round, value)),
            (Operation::Step { .. }, Phase::Commit) => {
                assert!(self.proposed.contains(&value));
                self.committed.push((round, value));
            }
            (Operation::Step { .. }, Phase::Flag(i)) => self.flagged.push(round - i),
            _ => {}
        }
    }

    /// How many rounds were flagged, each counted once.
    fn disputed(&self) -> usize {
        let mut rounds = self.flagged.clone();
        rounds.sort_unstable();
        rounds.dedup();
        rounds.len()
    }

    fn check(&self, session: &Session, counts: &Counts) {
        let writes = self.written.len() + self.flagged.len() + self.committed.len();
        assert_eq!(counts.writes as usize, writes);
        assert_eq!(counts.contested as usize, self.disputed());
        assert_eq!(counts.contested, session.marked_rounds());
        for &(round, value) in &self.committed {
            let mut later = self.written.iter().filter(|(written, _)| *written >= round);
            assert!(later.all(|(_, written)| *written == value));
        }
        let decided = |process: &&Process| process.phase == Phase::Decided;
        for process in session.processes.iter().filter(decided) {
            assert_eq!(process.estimate, session.registers.decision);
        }
        // "after a close the set of proposals no longer changes".
        assert_eq!(session.closed, !self.closes.is_empty());
        assert!(self.closes.iter().all(|close| *close == self.proposed.len()));
    }
}

fn random_operation(random: &mut Random, n: usize) -> Operation {
    let beyond = usize::from(random.once_in(50));
    let process = random.below(n + beyond);
    match random.below(400) {
        0 => Operation::Crash { process },
        1..=3 => Operation::Learn { process },
        4..=19 => {
            let value = random.below(4) as u32;
            Operation::Propose { process, value }
        }
        20 => Operation::Close,
        kind => {
            let leader = kind > 40;
            Operation::Step { process, leader }
        }
    }
}

fn public(session: &mut Session, operation: Operation, counts: &mut Counts) -> Result<(), Refusal> {
    match operation {
        Operation::Propose { process, value } => session.propose(process, value),
        Operation::Step { process, leader } => session.step(process, leader, counts),
        Operation::Learn { process } => session.learn(process, counts),
        Operation::Crash { process } => session.crash(process),
        Operation::Close => session.close(),
    }
}

/// A list in bursts, or in single turns after a proposal by each process: where
/// it led, its accepted operations, its history.
fn random_list(seed: u64, length: usize) -> (Case, Vec<[u8; 6]>, History) {
    let mut random = Random::of(seed, 0);
    let n = random.between(1, 6);
    let limit = crate::window(n) as usize + random.below(9);
    let (mut case, mut history) = (Case::open(n, limit), History::default());
    let (mut accepted, mut operation) = (Vec::new(), random_operation(&mut random, n));
    let (proposals, burst) = if seed % 2 == 0 { (0, 3) } else { (n, 1) };
    for place in 0..length {
        if place < proposals {
            let (process, value) = (place, 1 + place as u32);
            operation = Operation::Propose { process, value };
        } else if random.once_in(burst) || !matches!(operation, Operation::Step { .. }) {
            operation = random_operation(&mut random, n);
        }
        let before = case.session.clone();
        let answer = public(&mut case.session, operation, &mut case.counts);
        assert!(case.session.is_sound());
        match answer {
            Ok(()) => {
                history.note(operation, &before);
                accepted.push(encode(operation));
            }
            Err(refusal) => {
                assert_eq!(case.session, before);
                history.late += usize::from(refusal == Refusal::ClosedToProposals);
            }
        }
        history.check(&case.session, &case.counts);
    }
    (case, accepted, history)
}

#[test]
fn agreement_soundness_and_counts_on_random_lists() {
    let (mut commits, mut first, mut second) = (0, 0, 0);
    let (mut closed, mut again, mut late) = (0, 0, 0);
    for seed in 0..400 {
        let history = random_list(seed, 600).2;
        let closes = history.closes.len();
        closed += closes.min(1);
        again += closes.saturating_sub(1);
        late += history.late;
        commits += history.committed.len();
        first += history.disputed();
        second += history.flagged.len() - history.disputed();
    }
    assert!(commits > 100, "{commits} commits");
    assert!(first > 100, "{first} flags of an unmarked round");
    assert!(second > 1000, "{second} flags of a marked round");
    assert!(closed > 100, "{closed} lists with a close");
    assert!(again > 100, "{again} closes of a closed session");
    assert!(late > 100, "{late} proposals to a closed session");
}

#[test]
fn a_sheet_gives_what_its_entries_give() {
    for seed in 1000..1100 {
        let (case, accepted, _) = random_list(seed, 500);
        let bytes = sheet(case.session.n as u8, case.session.limit as u16, &accepted);
        let sheet = Sheet::read(Caller::Server, &bytes)
            .ok()
            .expect("a sheet in order");
        let (mut session, mut counts) = (sheet.open(), Counts::default());
        let ending = run(&sheet, u64::MAX, &mut session, &mut counts);
        assert_eq!(ending, Ending::Finished(accepted.len() as u64));
        assert_eq!((session, counts), (case.session, case.counts));
    }
}
