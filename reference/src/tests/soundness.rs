//! Damaged sessions, each clause of 01, "A session is sound if".

use super::*;
use crate::{window, Phase};

/// A session of two seats, window 3, limit 10; seat 0 at gate in round 6. It is open.
fn sample() -> Session {
    let mut session = Session::open(Caller::Server, 2, 10).expect("an opening within bounds");
    session.propose(0, 7).expect("a first proposal");
    session.processes[0].round = 6;
    assert!(session.is_sound());
    session
}

/// Each public operation, a close too, and each read-out answers 3 and leaves everything
/// alone.
fn refuses_everything(mut session: Session) {
    let before = session.clone();
    let mut counts = Counts::default();
    for process in [0, 1, 64] {
        assert_eq!(session.propose(process, 0), Err(Refusal::Unsound));
        assert_eq!(
            session.step(process, true, &mut counts),
            Err(Refusal::Unsound)
        );
        assert_eq!(session.learn(process, &mut counts), Err(Refusal::Unsound));
        assert_eq!(session.crash(process), Err(Refusal::Unsound));
        assert_eq!(session.read_process(process), Err(Refusal::Unsound));
    }
    assert_eq!(session.close(), Err(Refusal::Unsound));
    assert_eq!(session.read_round(0), Err(Refusal::Unsound));
    assert_eq!(session.read_decision(), Err(Refusal::Unsound));
    assert_eq!(session.standing_values(&mut []), Err(Refusal::Unsound));
    assert_eq!((session, counts), (before, Counts::default()));
}

/// The damage makes the session unsound, open or closed.
fn damaged(damage: impl Fn(&mut Session)) {
    for closed in [false, true] {
        let mut session = sample();
        session.closed = closed;
        assert!(session.is_sound());
        damage(&mut session);
        assert!(!session.is_sound());
        refuses_everything(session);
    }
}

/// Whether seat 0 may stand so.
fn stands(phase: Phase, round: u32) -> bool {
    let mut session = sample();
    session.processes[0].phase = phase;
    session.processes[0].round = round;
    session.is_sound()
}

#[test]
fn sizes() {
    damaged(|session| session.n = 0);
    damaged(|session| session.n = 65);
    damaged(|session| session.n = usize::MAX);
    damaged(|session| session.limit = 2);
    damaged(|session| session.limit = 257);
    damaged(|session| session.limit = 0);
    damaged(|session| session.limit = u32::MAX);
}

#[test]
fn limits_at_the_window_of_every_n() {
    for n in 1..=64 {
        let mut session = Session::open(Caller::Server, n, 256).expect("an opening within bounds");
        session.limit = window(n);
        assert!(session.is_sound(), "n = {n}");
        session.limit = window(n) - 1;
        assert!(!session.is_sound(), "n = {n}");
        refuses_everything(session);
    }
}

#[test]
fn registers_past_the_limit() {
    damaged(|session| session.registers.values[10] = 1);
    damaged(|session| session.registers.values[255] = 1);
    damaged(|session| session.registers.marks[10] = true);
    damaged(|session| session.registers.marks[255] = true);
    let mut session = sample();
    session.registers.values[9] = 1;
    session.registers.marks[9] = true;
    assert!(session.is_sound());
}

#[test]
fn seats_from_n_on() {
    damaged(|session| session.processes[2] = session.processes[0]);
    damaged(|session| session.processes[63].round = 1);
    damaged(|session| session.processes[63].estimate = 1);
}

#[test]
fn rounds_and_values() {
    damaged(|session| session.processes[1].round = 1);
    damaged(|session| session.processes[1].estimate = 1);
    damaged(|session| session.processes[0].estimate = 0);
    damaged(|session| session.processes[0].round = 11);
    damaged(|session| {
        session.processes[0].phase = Phase::Crashed;
        session.processes[0].estimate = 0;
    });
    damaged(|session| {
        session.processes[0].phase = Phase::Decided;
        session.processes[0].round = 11;
    });
    damaged(|session| session.processes[0].phase = Phase::Exhausted);
    damaged(|session| session.processes[0].phase = Phase::Scan(6));
}

#[test]
fn places_in_the_walk() {
    assert!(stands(Phase::Waiting, 0) && stands(Phase::Waiting, 10));
    assert!(!stands(Phase::Write, 0) && stands(Phase::Write, 1));
    assert!(!stands(Phase::Scan(1), 0) && stands(Phase::Scan(2), 1));
    assert!(!stands(Phase::Scan(2), 2) && stands(Phase::Scan(10), 9));
    assert!(!stands(Phase::Scan(11), 9));
    assert!(!stands(Phase::Adopt(1), 0) && stands(Phase::Adopt(2), 2));
    assert!(!stands(Phase::Adopt(2), 3) && stands(Phase::Adopt(10), 1));
    assert!(!stands(Phase::Adopt(11), 10));
    for phase in [Phase::Compare, Phase::Flag] {
        assert!(!stands(phase(0), 0) && stands(phase(0), 1));
        assert!(!stands(phase(1), 1) && stands(phase(1), 2));
        assert!(!stands(phase(2), 2) && stands(phase(2), 3));
        assert!(stands(phase(2), 10) && !stands(phase(3), 10));
    }
    for phase in [Phase::CheckMark, Phase::CheckValue] {
        assert!(!stands(phase(0), 2) && stands(phase(0), 3));
        assert!(stands(phase(2), 3) && !stands(phase(3), 10));
    }
    assert!(!stands(Phase::Commit, 2) && stands(Phase::Commit, 3));
    assert!(!stands(Phase::Exhausted, 9) && stands(Phase::Exhausted, 10));
    assert!(stands(Phase::Crashed, 0) && stands(Phase::Decided, 10));
    assert!(!stands(Phase::Crashed, 11) && !stands(Phase::Decided, 11));
    assert!(!stands(Phase::Idle, 0));
}
