//! Each refusal of the operations and read-outs, their order, and the turns
//! that 01 singles out.

use super::*;
use crate::Phase;

/// Runs a refused operation and sees that session and counts stay.
fn refused(
    case: &mut Case,
    code: u32,
    operation: impl Fn(&mut Session, &mut Counts) -> Result<(), Refusal>,
) {
    let (session, counts) = (case.session.clone(), case.counts);
    let answer = operation(&mut case.session, &mut case.counts);
    assert_eq!(answer.map_err(Refusal::code), Err(code));
    assert_eq!((&case.session, case.counts), (&session, counts));
}

fn step_refused(case: &mut Case, process: usize, code: u32) {
    for leader in [false, true] {
        refused(case, code, |s, c| s.step(process, leader, c));
    }
}

fn all_refused(case: &mut Case, process: usize, code: u32) {
    step_refused(case, process, code);
    refused(case, code, |s, c| s.learn(process, c));
    refused(case, code, |s, _| s.crash(process));
}

const FULL: Counts = Counts {
    reads: u32::MAX,
    writes: 0,
    contested: 0,
};

#[test]
fn a_seat_that_is_not_there() {
    for process in [2, 63, 64, 255, usize::MAX] {
        let mut case = Case::open(2, 3);
        case.counts = FULL;
        all_refused(&mut case, process, 4);
        refused(&mut case, 4, |s, _| s.propose(process, 7));
        refused(&mut case, 4, |s, _| s.propose(process, 0));
        let answer = case.session.read_process(process);
        assert_eq!(answer, Err(Refusal::NoSuchProcess));
    }
}

#[test]
fn a_seat_that_is_out() {
    let mut case = Case::open(2, 3);
    case.counts = FULL;
    all_refused(&mut case, 1, 7);
    refused(&mut case, 5, |s, _| s.propose(1, 0));
    case.propose(1, u32::MAX);
}

#[test]
fn a_crashed_seat() {
    let mut case = Case::contested();
    case.work(&[1]);
    assert_eq!(case.session.crash(1), Ok(()));
    assert_eq!(case.process(1).to_string(), "crashed round 2 value 8");
    case.counts = FULL;
    all_refused(&mut case, 1, 8);
    refused(&mut case, 6, |s, _| s.propose(1, 7));
    refused(&mut case, 5, |s, _| s.propose(1, 0));
}

#[test]
fn a_decided_seat() {
    let mut case = Case::at_last_gate();
    assert!(case.learn(0).is_ok());
    case.counts = FULL;
    all_refused(&mut case, 0, 8);
    refused(&mut case, 6, |s, _| s.propose(0, 7));
}

#[test]
fn a_spent_seat() {
    let mut case = Case::at_last_gate();
    case.work(&[0]);
    case.counts = FULL;
    step_refused(&mut case, 0, 9);
    refused(&mut case, 16, |s, c| s.learn(0, c));
    refused(&mut case, 6, |s, _| s.propose(0, 7));
    assert_eq!(case.session.crash(0), Ok(()));
    assert_eq!(case.process(0).to_string(), "crashed round 2 value 7");
}

#[test]
fn a_full_tally() {
    for place in 0..3 {
        let mut case = Case::contested();
        let [mut reads, mut writes, mut contested] = [5, 6, 7];
        *[&mut reads, &mut writes, &mut contested][place] = u32::MAX;
        case.counts = Counts {
            reads,
            writes,
            contested,
        };
        step_refused(&mut case, 0, 16);
        refused(&mut case, 16, |s, c| s.learn(0, c));
        assert!(case.session.crash(0).is_ok());
    }
}

#[test]
fn a_full_tally_at_the_gate_in_the_last_round() {
    let mut case = Case::at_last_gate();
    case.counts = FULL;
    step_refused(&mut case, 0, 16);
    assert_eq!(case.process(0).to_string(), "gate round 2 value 7");
}

#[test]
fn a_tally_filled_by_its_last_turn() {
    let mut case = Case::open(1, 2);
    case.propose(0, 7);
    case.counts.reads = u32::MAX - 1;
    case.work(&[0]);
    assert_eq!(case.counts.reads, u32::MAX);
    step_refused(&mut case, 0, 16);
}

#[test]
fn a_round_that_is_not_there() {
    let case = Case::contested();
    for round in [0, 4, 256, 257, usize::MAX] {
        assert_eq!(case.session.read_round(round), Err(Refusal::NoSuchRound));
    }
    assert_eq!(case.session.read_round(3), Ok((0, false)));
    let widest = Case::open(64, 256);
    assert_eq!(widest.session.read_round(256), Ok((0, false)));
    assert_eq!(widest.session.read_round(257), Err(Refusal::NoSuchRound));
}

#[test]
fn standing_values_by_first_round() {
    let mut case = Case::open(2, 10);
    let written = [4, 4, 9, 4, 0, u32::MAX, 9, 1];
    case.session.registers.values[..8].copy_from_slice(&written);
    let mut buffer = [77; 6];
    assert_eq!(case.session.standing_values(&mut buffer), Ok(4));
    assert_eq!(buffer, [4, 9, u32::MAX, 1, 77, 77]);
}

#[test]
fn standing_values_in_a_short_buffer() {
    let mut case = Case::open(2, 10);
    case.session.registers.values[..3].copy_from_slice(&[4, 5, 6]);
    let mut buffer = [77; 2];
    let answer = case.session.standing_values(&mut buffer);
    assert_eq!((answer, buffer), (Err(Refusal::BadBuffer), [77, 77]));
    let mut buffer = [77; 3];
    assert_eq!(case.session.standing_values(&mut buffer), Ok(3));
    let blank = Case::open(2, 10);
    assert_eq!(blank.session.standing_values(&mut []), Ok(0));
}

#[test]
fn standing_values_of_all_rounds() {
    let mut case = Case::open(64, 256);
    for (place, value) in case.session.registers.values.iter_mut().enumerate() {
        *value = 1000 - place as u32;
    }
    let mut buffer = [0; 256];
    assert_eq!(
        case.session.standing_values(&mut buffer[..255]),
        Err(Refusal::BadBuffer)
    );
    assert_eq!(buffer, [0; 256]);
    assert_eq!(case.session.standing_values(&mut buffer), Ok(256));
    assert_eq!(buffer, case.session.registers.values);
}

#[test]
fn take_reads_again() {
    let mut late = Case::open(3, 4);
    late.propose(0, 3);
    late.propose(1, 8);
    late.propose(2, 5);
    late.work(&[1, 0, 0, 2, 2]);
    // Seat 2 has seen 3 in round 1; seat 1, at put, then writes 8 over it.
    assert_eq!(late.process(2).to_string(), "take 1 round 1 value 5");
    late.work(&[1, 2]);
    assert_eq!(late.process(2).to_string(), "compare 0 round 1 value 8");
}

#[test]
fn take_of_a_blank_keeps_the_value() {
    let mut case = Case::open(2, 3);
    case.propose(0, 3);
    case.session.processes[0].phase = Phase::Adopt(3);
    case.session.processes[0].round = 1;
    assert_eq!(case.step(0, true), Ok(()));
    assert_eq!(case.process(0).to_string(), "compare 0 round 3 value 3");
}

#[test]
fn last_round_filled_at_gate_and_in_seek() {
    let mut case = Case::at_last_gate();
    case.session.processes[0].round = 1;
    case.work(&[0]);
    assert_eq!(case.process(0).to_string(), "take 2 round 2 value 7");
    case.session.processes[0].phase = Phase::Waiting;
    case.session.processes[0].round = 0;
    case.work(&[0, 0]);
    assert_eq!(case.process(0).to_string(), "take 2 round 1 value 7");
    case.work(&[0]);
    assert_eq!(case.process(0).to_string(), "compare 0 round 2 value 7");
}

#[test]
fn flag_marks_the_round_that_differs() {
    let mut case = Case::contested();
    case.work(&[0, 0, 0, 0, 0]);
    assert_eq!(case.process(0).to_string(), "gate round 2 value 3");
    assert_eq!(case.session.read_round(1), Ok((8, true)));
    assert_eq!(case.session.read_round(2), Ok((3, false)));
    assert_eq!(case.tally(), (7, 5, 1));
}

/// Seats 0 and 1 at flag 0 in round 1, which is unmarked: seat 2 wrote last.
fn two_at_flag() -> Case {
    let mut case = Case::open(3, 4);
    case.propose(0, 3);
    case.propose(1, 8);
    case.propose(2, 5);
    case.work(&[0, 1, 2, 0, 1, 2, 0, 1]);
    assert_eq!(case.session.read_round(1), Ok((5, false)));
    assert_eq!(case.tally(), (5, 3, 0));
    case
}

#[test]
fn two_flags_of_one_round() {
    for [first, second] in [[0, 1], [1, 0]] {
        let mut case = two_at_flag();
        case.work(&[first]);
        assert_eq!(case.session.read_round(1), Ok((5, true)));
        assert_eq!(case.tally(), (5, 4, 1));
        case.work(&[second]);
        assert_eq!(case.session.read_round(1), Ok((5, true)));
        assert_eq!(case.tally(), (5, 5, 1));
        assert_eq!(case.session.marked_rounds(), 1);
        assert_eq!(case.process(0).to_string(), "gate round 1 value 3");
        assert_eq!(case.process(1).to_string(), "gate round 1 value 8");
    }
}

#[test]
fn contested_goes_by_the_mark_alone() {
    for marked in [false, true] {
        let mut case = two_at_flag();
        case.session.registers.marks[0] = marked;
        case.counts.contested = 7;
        case.work(&[0]);
        assert_eq!(case.tally(), (5, 4, if marked { 7 } else { 8 }));
    }
}

#[test]
fn a_full_contested_refuses_either_flag() {
    for marked in [false, true] {
        let mut case = two_at_flag();
        case.session.registers.marks[0] = marked;
        case.counts.contested = u32::MAX;
        step_refused(&mut case, 0, 16);
        case.counts.contested = u32::MAX - 1;
        case.work(&[0]);
        let most = if marked { u32::MAX - 1 } else { u32::MAX };
        assert_eq!(case.tally(), (5, 4, most));
    }
}

#[test]
fn first_failed_check_leads_to_gate() {
    // Seat 0 of two, alone, after its commit in round 3; the window is 3.
    for i in 0..3 {
        let mut case = Case::open(2, 3);
        case.propose(0, 7);
        case.work(&[0; 19]);
        case.session.processes[0].phase = Phase::CheckMark(i);
        case.session.registers.marks[2 - i as usize] = true;
        assert_eq!(case.step(0, true), Ok(()));
        assert_eq!(case.process(0).to_string(), "gate round 3 value 7");
        case.session.processes[0].phase = Phase::CheckValue(i);
        case.session.registers.values[2 - i as usize] = 8;
        assert_eq!(case.step(0, true), Ok(()));
        assert_eq!(case.process(0).to_string(), "gate round 3 value 7");
    }
}

#[test]
fn looks_in_each_working_stance_and_spent() {
    let working = [
        Phase::Waiting,
        Phase::Write,
        Phase::Scan(4),
        Phase::Adopt(3),
        Phase::Compare(2),
        Phase::Flag(2),
        Phase::CheckMark(2),
        Phase::CheckValue(2),
        Phase::Commit,
    ];
    for (phase, round) in working
        .map(|p| (p, 3))
        .into_iter()
        .chain([(Phase::Exhausted, 4)])
    {
        let mut case = Case::open(2, 4);
        case.propose(0, 3);
        case.session.processes[0].phase = phase;
        case.session.processes[0].round = round;
        assert_eq!(case.learn(0), Ok(()));
        assert_eq!(case.process(0).phase, phase);
        case.session.registers.decision = 8;
        assert_eq!(case.learn(0), Ok(()));
        let text = format!("decided round {round} value 8");
        assert_eq!(case.process(0).to_string(), text);
        assert_eq!(case.tally(), (2, 0, 0));
    }
}
