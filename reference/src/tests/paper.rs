//! The paper cases of 01, starred and not, worked again by the windows of 02, wish 8;
//! that at gate in round L as 02, wish 5, has it; and the one of 02, wish 2: two seats
//! mark one round. The starred cases that 01 plays at a given L are played at that L
//! and at the least L of 02, wish 8.

use super::*;
use crate::{entry, report, window, Phase};

/// The L of 01, and the least L of 02, wish 8: for one seat and for two.
const LIMITS_ALONE: [usize; 2] = [3, 2];
const LIMITS_OF_TWO: [usize; 2] = [5, 3];

#[test]
fn openings() {
    let refused = |n, limit| {
        Session::open(Caller::Server, n, limit)
            .err()
            .map(Refusal::code)
    };
    assert_eq!(refused(0, 2), Some(1));
    assert_eq!(refused(65, 256), Some(1));
    assert_eq!(refused(64, 15), Some(2));
    assert_eq!(refused(64, 16), None);
    assert_eq!(refused(64, 256), None);
    assert_eq!(refused(64, 257), Some(2));
    assert_eq!(refused(1, 256), None);
    assert_eq!(refused(1, 257), Some(2));
}

#[test]
fn opening_one_before_two() {
    let refused = |n, limit| {
        Session::open(Caller::Server, n, limit)
            .err()
            .map(Refusal::code)
    };
    assert_eq!(refused(0, 0), Some(1));
    assert_eq!(refused(65, 257), Some(1));
    assert_eq!(refused(usize::MAX, usize::MAX), Some(1));
    assert_eq!(refused(1, 1), Some(2));
    assert_eq!(refused(1, 2), None);
    assert_eq!(refused(1, 65_536 + 2), Some(2));
}

#[test]
fn the_seven_windows() {
    let listed = [1, 2, 4, 5, 9, 16, 64];
    assert_eq!(listed.map(window), [2, 3, 4, 5, 6, 8, 16]);
    // And of the other n that 01 lists.
    assert_eq!([10, 17].map(window), [7, 9]);
}

#[test]
fn every_window_is_the_smallest() {
    for n in 1..=64 {
        let w = window(n) as usize;
        assert!(w * w >= 4 * n && (w - 1) * (w - 1) < 4 * n, "n = {n}");
        assert!(Session::open(Caller::Server, n, w).is_ok());
        assert_eq!(Session::open(Caller::Server, n, w - 1), Err(Refusal::BadRoundLimit));
    }
}

#[test]
fn the_least_limit_falls_for_every_n() {
    for n in 1..=64 {
        let root = (1..).find(|root| root * root >= n).expect("squares grow");
        let before = 2 * root + 1;
        assert!((window(n) as usize) < before, "n = {n}");
        for limit in window(n) as usize..=before {
            assert!(
                Session::open(Caller::Server, n, limit).is_ok(),
                "n = {n}, L = {limit}"
            );
        }
    }
}

/// 02, wish 8: "The paper case of one seat becomes 12 work turns to the commit, 9 reads,
/// 3 writes". In 01 it was 19 turns.
#[test]
fn one_seat_alone() {
    for limit in LIMITS_ALONE {
        let mut case = Case::open(1, limit);
        case.propose(0, 7);
        case.work(&[0; 3]);
        assert_eq!(case.process(0).to_string(), "gate round 1 value 7");
        assert_eq!(case.session.read_round(1), Ok((7, false)));
        case.work(&[0; 8]);
        assert_eq!(case.process(0).phase, Phase::Commit);
        assert_eq!(case.session.read_decision(), Ok(0));
        case.work(&[0]);
        assert_eq!(case.session.read_decision(), Ok(7));
        assert_eq!(case.process(0).to_string(), "gate round 2 value 7");
        assert_eq!(case.tally(), (9, 3, 0));
    }
}

/// 01: "after 19 D is 7, 15 reads, 4 writes". That holds still, in the checks of round 3.
#[test]
fn one_seat_alone_after_19_turns() {
    let mut case = Case::open(1, 3);
    case.propose(0, 7);
    case.work(&[0; 19]);
    assert_eq!(case.session.read_decision(), Ok(7));
    assert_eq!(case.process(0).to_string(), "check-value 1 round 3 value 7");
    assert_eq!(case.tally(), (15, 4, 0));
}

#[test]
fn one_seat_alone_without_hints() {
    for limit in LIMITS_ALONE {
        let mut case = Case::open(1, limit);
        case.propose(0, 7);
        for _ in 0..19 {
            assert_eq!(case.step(0, false), Ok(()));
        }
        assert_eq!(case.process(0).to_string(), "gate round 0 value 7");
        assert_eq!(case.tally(), (0, 0, 0));
    }
}

#[test]
fn two_seats_contested() {
    for limit in LIMITS_OF_TWO {
        let case = Case::contested_at(limit);
        assert_eq!(case.session.read_round(1), Ok((8, true)));
        assert_eq!(case.tally(), (4, 3, 1));
    }
}

#[test]
fn two_seats_from_there() {
    for limit in LIMITS_OF_TWO {
        let mut case = Case::contested_at(limit);
        case.work(&[0, 0, 1, 1, 1]);
        assert_eq!(case.session.read_round(2), Ok((3, false)));
        assert_eq!(case.process(1).to_string(), "compare 0 round 2 value 3");
        assert_eq!(case.tally(), (8, 4, 1));
    }
}

#[test]
fn two_seats_mark_one_round() {
    let mut case = Case::contested();
    case.work(&[0, 0, 1, 1, 1, 1, 1]);
    assert_eq!(case.process(1).to_string(), "flag 1 round 2 value 3");
    assert_eq!(case.tally(), (10, 4, 1));
    case.work(&[1]);
    assert_eq!(case.session.read_round(1), Ok((8, true)));
    assert_eq!(case.tally(), (10, 5, 1));
    assert_eq!(case.session.marked_rounds(), 1);
}

#[test]
fn the_gate_in_the_last_round() {
    for leader in [false, true] {
        let mut case = Case::at_last_gate();
        assert_eq!(case.step(0, leader), Ok(()));
        assert_eq!(case.process(0).to_string(), "spent round 2 value 7");
        assert_eq!(case.tally(), (9, 3, 0));
        assert_eq!(case.step(0, leader), Err(Refusal::ProcessSpent));
        assert_eq!(case.step(0, !leader), Err(Refusal::ProcessSpent));
        assert_eq!(case.learn(0), Ok(()));
        assert_eq!(case.process(0).to_string(), "decided round 2 value 7");
        assert_eq!(case.tally(), (10, 3, 0));
    }
}

#[test]
fn the_gate_one_round_before_the_last() {
    let mut case = Case::open(1, 2);
    case.propose(0, 7);
    case.work(&[0; 3]);
    for _ in 0..19 {
        assert_eq!(case.step(0, false), Ok(()));
    }
    assert_eq!(case.process(0).to_string(), "gate round 1 value 7");
    assert_eq!(case.tally(), (2, 1, 0));
    assert_eq!(case.step(0, true), Ok(()));
    assert_eq!(case.process(0).to_string(), "put round 2 value 7");
}

#[test]
fn a_second_proposal() {
    let mut case = Case::open(1, 2);
    case.propose(0, 5);
    let before = case.session.clone();
    assert_eq!(case.session.propose(0, 5), Err(Refusal::SecondProposal));
    assert_eq!(case.session.propose(0, 0), Err(Refusal::BlankProposal));
    assert_eq!(case.session, before);
}

#[test]
fn small_sheets() {
    let mut buffer = [9; 256];
    assert_eq!(entry(&[], 1, &mut buffer), 10);
    assert_eq!(buffer, [9; 256]);
    assert_eq!(report(&[]), "sheet refused 10\n");
    // 01's of 4 bytes, and the one of the least L.
    for limit in [3, 2] {
        let mut buffer = [9; 256];
        assert_eq!(entry(&[1, 0, limit, 0], 0, &mut buffer), 0);
        assert_eq!(buffer, [0; 256]);
        let text = "outcome finished 0\ntally 0 0 0\nboard 0 0 open\nseat 0 out\n";
        assert_eq!(report(&[1, 0, limit, 0]), text);
    }
    let one = sheet(1, 2, &[raw(0, 0, 7)]);
    assert_eq!(entry(&one, 0, &mut buffer), 100);
    assert_eq!(entry(&one, 1, &mut buffer), 0);
}

#[test]
fn the_report_of_92_bytes() {
    let bytes = report_sheet();
    assert_eq!(bytes.len(), 92);
    let text = "outcome finished 14\ntally 10 3 0\nboard 2 7 open\nseat 0 decided 7\n";
    assert_eq!(report(&bytes), text);
}

/// The lines that 01 has for it, and the mark of 02, wish 10, though the seat commits in round 2 and is in the
/// checks of round 3 at its look.
#[test]
fn the_report_of_134_bytes() {
    let bytes = report_sheet_before();
    assert_eq!(bytes.len(), 134);
    let text = "outcome finished 21\ntally 16 4 0\nboard 3 7 open\nseat 0 decided 7\n";
    assert_eq!(report(&bytes), text);
}
