//! The window as a parameter of sessions, polls and traces. (02, wish 7.)

use super::*;
use crate::{trace, trace_at, window, Answer, Phase, Poll, Voter};

fn refused<T>(answer: Result<T, Refusal>) -> Option<u32> {
    answer.err().map(Refusal::code)
}

#[test]
fn openings() {
    let at = |window, n, limit| refused(Session::open_at(window, n, limit));
    assert_eq!(refused(Session::open(Caller::Server, 3, 3)), Some(2));
    assert_eq!(at(2, 3, 3), None);
    assert_eq!(at(2, 3, 2), None);
    assert_eq!(at(2, 3, 1), Some(2));
    assert_eq!(at(2, 3, 256), None);
    assert_eq!(at(2, 3, 257), Some(2));
    assert_eq!(at(256, 64, 256), None);
    assert_eq!(at(257, 64, 257), Some(2));
    assert_eq!(at(u32::MAX, 1, usize::MAX), Some(2));
    assert_eq!(at(2, 0, 1), Some(1));
    assert_eq!(at(2, 65, 1), Some(1));
    assert_eq!(at(0, 65, 257), Some(1));
}

#[test]
fn openings_in_service_are_at_its_window() {
    for n in 1..=64 {
        for limit in [0, 1, 2, 3, 4, 5, 6, 15, 16, 17, 256, 257] {
            let at = Session::open_at(window(n), n, limit);
            assert_eq!(Session::open(Caller::Server, n, limit), at);
        }
        assert_eq!(Poll::open(Caller::Server, n), Poll::open_at(window(n), n));
    }
}

/// One process of three, whose window in service is 4, with L = 3. It has proposed 7
/// and stands so.
fn standing(phase: Phase, round: u32) -> Session {
    let mut session = Session::open_at(2, 3, 3).expect("an opening within bounds");
    session.processes[0] = Process {
        phase,
        round,
        estimate: 7,
    };
    session
}

/// At which of the windows 1 to 4 a session is sound.
fn sound_at(session: &Session) -> Vec<u32> {
    (1..=4)
        .filter(|window| session.is_sound_at(*window))
        .collect()
}

#[test]
fn soundness() {
    let at = |phase, round| sound_at(&standing(phase, round));
    assert_eq!(at(Phase::Waiting, 3), [1, 2, 3]);
    assert_eq!(at(Phase::Compare(1), 3), [2, 3]);
    assert_eq!(at(Phase::Flag(2), 3), [3]);
    assert_eq!(at(Phase::CheckMark(0), 2), [1, 2]);
    assert_eq!(at(Phase::CheckValue(1), 2), [2]);
    assert_eq!(at(Phase::CheckValue(1), 3), [2, 3]);
    assert_eq!(at(Phase::Commit, 1), [1]);
    assert_eq!(at(Phase::Commit, 3), [1, 2, 3]);
    assert!(!standing(Phase::Waiting, 3).is_sound());
}

#[test]
fn calls_at_another_window_are_refused() {
    let mut session = standing(Phase::Flag(2), 3);
    let before = session.clone();
    let mut counts = Counts::default();
    let calls = [
        Operation::Propose {
            process: 1,
            value: 0,
        },
        Operation::Step {
            process: 0,
            leader: true,
        },
        Operation::Learn { process: 1 },
        Operation::Crash { process: 64 },
        Operation::Close,
    ];
    for window in [1, 2, 4] {
        for call in calls {
            let answer = session.apply_at(window, call, &mut counts);
            assert_eq!(answer, Err(Refusal::Unsound));
        }
        let answer = session.step_at(window, 0, true, &mut counts);
        assert_eq!(answer, Err(Refusal::Unsound));
    }
    assert_eq!(session.step(0, true, &mut counts), Err(Refusal::Unsound));
    assert_eq!((&session, counts), (&before, Counts::default()));
    let codes = calls.map(|call| refused(before.clone().apply_at(3, call, &mut counts)));
    assert_eq!(codes, [Some(5), None, Some(7), Some(4), None]);
}

/// One seat alone until its commit, with L = W: the turns and the tally.
fn alone_at(window: u32) -> (u32, String) {
    let opened = Session::open_at(window, 1, window as usize);
    let mut session = opened.expect("an opening within bounds");
    let mut counts = Counts::default();
    let propose = Operation::Propose {
        process: 0,
        value: 7,
    };
    assert_eq!(session.apply_at(window, propose, &mut counts), Ok(()));
    let mut turns = 0;
    while session.registers.decision == 0 {
        assert_eq!(session.step_at(window, 0, true, &mut counts), Ok(()));
        turns += 1;
    }
    let words = format!("gate round {window} value 7");
    assert_eq!(session.processes[0].to_string(), words);
    (turns, counts.to_string())
}

/// 02, wish 8: "12 work turns to the commit, 9 reads, 3 writes". 01 had the window 3 in
/// service: "after 19 D is 7, 15 reads, 4 writes".
#[test]
fn one_seat_alone_now_and_before() {
    assert_eq!(alone_at(2), (12, "9 3 0".to_string()));
    assert_eq!(alone_at(3), (19, "15 4 0".to_string()));
}

#[test]
fn a_poll_at_window_two() {
    let opened = |window, n| refused(Poll::open_at(window, n));
    assert_eq!([opened(2, 0), opened(257, 65)], [Some(1), Some(1)]);
    assert_eq!([opened(256, 64), opened(257, 64)], [None, Some(2)]);
    // Of two processes, whose window in service is 3.
    let mut poll = Poll::open_at(2, 2).expect("an opening within bounds");
    let mut counts = Counts::default();
    assert_eq!(poll.limit, 2);
    assert!(poll.is_sound_at(2) && !poll.is_sound());
    assert!(!poll.is_sound_at(1) && !poll.is_sound_at(3));
    assert_eq!(poll.propose_at(2, 0, 7), Ok(()));
    for _ in 0..11 {
        assert_eq!(poll.step_at(2, 0, &mut counts), Ok(None));
    }
    let mut crashed = poll.clone();
    let answer = poll.step_at(2, 0, &mut counts);
    assert_eq!(answer, Ok(Some(Answer::Committed(7))));
    assert_eq!(poll.voters[0], Voter::Answered(Answer::Committed(7), 2));
    assert!(poll.is_sound_at(2));
    assert_eq!(counts.to_string(), "9 2 0");
    assert_eq!(crashed.crash_at(2, 0), Ok(()));
    assert!(crashed.is_sound_at(2));
}

#[test]
fn a_poll_at_another_window_is_refused() {
    let mut poll = Poll::open_at(2, 2).expect("an opening within bounds");
    let before = poll.clone();
    let mut counts = Counts::default();
    for window in [1, 3] {
        assert_eq!(poll.propose_at(window, 0, 7), Err(Refusal::Unsound));
        let answer = poll.step_at(window, 0, &mut counts);
        assert_eq!(answer, Err(Refusal::Unsound));
        assert_eq!(poll.crash_at(window, 0), Err(Refusal::Unsound));
    }
    assert_eq!(poll.propose(0, 7), Err(Refusal::Unsound));
    assert_eq!(poll.step(0, &mut counts), Err(Refusal::Unsound));
    assert_eq!(poll.crash(0), Err(Refusal::Unsound));
    assert_eq!(poll.read_process(0), Err(Refusal::Unsound));
    assert_eq!((poll, counts), (before, Counts::default()));
}

#[test]
fn traces_at_a_window() {
    let bytes = report_sheet();
    assert_eq!(trace_at(2, &bytes), trace(&bytes));
    assert_eq!(trace_at(3, &bytes), "sheet refused 2\n");
    assert_eq!(trace_at(u32::MAX, &bytes), "sheet refused 2\n");
    assert_eq!(trace_at(2, &[]), "sheet refused 10\n");
    // The same of two seats, whose window in service is 3.
    let bytes = [&[2], &bytes[1..]].concat();
    assert_eq!(trace(&bytes), "sheet refused 2\n");
    let text = trace_at(2, &bytes);
    let line = "   12 | work 0 yes               | D written 7               | gate round 2 value 7                     | 9 3 0";
    assert_eq!(commits(&text), [line]);
    let last = text.lines().last().expect("a line for each entry");
    assert!(last.ends_with("| decided round 2 value 7                  | 10 3 0"));
}

/// The lines of a trace in which D is written.
fn commits(text: &str) -> Vec<&str> {
    let lines = text.lines();
    lines.filter(|line| line.contains("D written")).collect()
}

/// The sheet of 134 bytes in 01, at the window that it had then and at the one in
/// service.
#[test]
fn traces_of_one_sheet_at_two_windows() {
    let bytes = report_sheet_before();
    let (before, now) = (trace_at(3, &bytes), trace(&bytes));
    let line = "   19 | work 0 yes               | D written 7               | gate round 3 value 7                     | 15 4 0";
    assert_eq!(commits(&before), [line]);
    let line = "   12 | work 0 yes               | D written 7               | gate round 2 value 7                     | 9 3 0";
    assert_eq!(commits(&now), [line]);
    for text in [before, now] {
        let last = text.lines().last().expect("a line for each entry");
        assert!(last.ends_with("| decided round 3 value 7                  | 16 4 0"));
    }
}

/// What a list of two processes ends with, at a window: its refusal, and the record of
/// the process of its last steps. They propose 3 and 8; then (process, steps), told to
/// lead; then a look of the last one.
fn ended_at(window: u32, limit: usize, steps: &[(usize, usize)]) -> (Option<u32>, String) {
    let mut session = Session::open_at(window, 2, limit).expect("an opening within bounds");
    let mut counts = Counts::default();
    let propose = |(process, value)| Operation::Propose { process, value };
    let mut list = [(0, 3), (1, 8)].map(propose).to_vec();
    for &(process, times) in steps {
        let leader = true;
        list.resize(list.len() + times, Operation::Step { process, leader });
    }
    let (process, _) = *steps.last().expect("a step");
    list.push(Operation::Learn { process });
    let mut entries = list.into_iter();
    let end = entries.try_for_each(|entry| session.apply_at(window, entry, &mut counts));
    (refused(end), session.processes[process].to_string())
}

/// What include/janus.h says of sheets of before: the window of two processes was 5 and
/// is 3.
#[test]
fn sheets_of_before_may_end_otherwise() {
    let check = |limit, steps: &[_], before, now| {
        let ends = [5, window(2)].map(|window| ended_at(window, limit, steps));
        let words = |(code, record): (_, &str)| (code, record.to_string());
        assert_eq!(ends, [words(before), words(now)]);
    };
    // Decided by an earlier look.
    let now = (None, "decided round 3 value 3");
    check(10, &[(0, 19)], (None, "put round 5 value 3"), now);
    // Spent earlier.
    let now = (Some(9), "spent round 10 value 3");
    check(10, &[(0, 126)], (None, "decided round 10 value 3"), now);
    // Another number is decided.
    let first = [(0, 1), (1, 4), (0, 3), (1, 3), (0, 2)];
    let then = [(1, 2), (0, 2), (1, 3), (0, 6), (1, 58)];
    let now = (None, "decided round 8 value 8");
    let steps = [first, then].concat();
    check(8, &steps, (None, "decided round 7 value 3"), now);
}
