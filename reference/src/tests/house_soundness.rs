//! Damaged houses, each clause of 3 in 02, wish 11, and what it leaves free.

use super::houses::Home;
use super::*;
use crate::house::{check_wards, OUTER_ROUNDS};
use crate::houses::PLACES;
use crate::{Answer, Phase, Place, Poll, Stance, Voter, Worker};

/// Three workers in two wards, each call on which is accepted: worker 0 stands at work in
/// outer round 1, worker 1 before the poll, worker 2 is out.
fn sample() -> Home {
    let mut home = Home::open(&[1, 2, 1], &[7, 8]);
    home.turns(0, 3);
    home.to(1, Place::StepPoll);
    assert!(home.house.is_sound());
    home
}

/// Each call answers 3, and that first; house and counts stay.
fn damaged(damage: impl Fn(&mut Home)) {
    let mut home = sample();
    damage(&mut home);
    assert!(!home.house.is_sound());
    for _ in 0..2 {
        for worker in [0, 1, 2, 3, 16, usize::MAX] {
            home.all_refused(3, worker);
            home.propose_refused(3, worker, 0);
            home.propose_refused(3, worker, 9);
        }
        home.full();
    }
}

/// The house stays sound.
fn free(damage: impl Fn(&mut Home)) {
    let mut home = sample();
    damage(&mut home);
    assert!(home.house.is_sound());
    home.turn_refused(4, 3);
    home.turn(0);
}

fn process(phase: Phase, round: u32, estimate: u32) -> Process {
    Process {
        phase,
        round,
        estimate,
    }
}

#[test]
fn wards_not_as_opening_allows() {
    for n in [0, 1, 2, 4, 16, 17, 64, 65, usize::MAX] {
        damaged(|home| home.house.n = n);
    }
    for c in [0, 1, 3, 4, 5, usize::MAX] {
        damaged(|home| home.house.c = c);
    }
    for ward in [0, 3, 4, 255] {
        damaged(|home| home.house.wards[0] = ward);
    }
    damaged(|home| home.house.wards[1] = 1);
    assert_eq!(check_wards(2, &[1, 2, 2]), Ok(()));
    // Where the seats fit nevertheless.
    let mut home = Home::open(&[1, 2, 1], &[]);
    home.house.wards[2] = 2;
    assert!(home.house.is_sound());
}

#[test]
fn ward_sessions() {
    for (ward, outer) in [(1, 1), (1, 8), (2, 1), (2, 8)] {
        damaged(|home| home.session(ward, outer).closed = true);
        for n in [0, 1, 3, 64, 65] {
            damaged(|home| home.session(ward, outer).n = n);
        }
        for limit in [0, 2, 63, 65, 256, 257] {
            damaged(|home| home.session(ward, outer).limit = limit);
        }
        damaged(|home| home.session(ward, outer).registers.values[64] = 1);
        damaged(|home| home.session(ward, outer).registers.marks[255] = true);
        damaged(|home| home.session(ward, outer).processes[2].round = 1);
        damaged(|home| home.session(ward, outer).processes[1].estimate = 1);
        free(|home| home.session(ward, outer).registers.values[63] = 1);
        free(|home| home.session(ward, outer).registers.marks[63] = true);
        free(|home| home.session(ward, outer).registers.decision = 1);
    }
}

#[test]
fn polls_of_a_house() {
    for outer in [1, 4, 8] {
        damaged(|home| home.poll(outer).closed = true);
        for n in [0, 2, 4, 65] {
            damaged(|home| home.poll(outer).n = n);
        }
        for limit in [0, 3, 5, 64] {
            damaged(|home| home.poll(outer).limit = limit);
        }
        damaged(|home| home.poll(outer).registers.decision = 1);
        damaged(|home| home.poll(outer).registers.values[4] = 1);
        damaged(|home| home.poll(outer).voters[3] = Voter::Answered(Answer::Adopted(1), 4));
        free(|home| home.poll(outer).registers.marks[0] = true);
    }
    // One of a size that is sound, but not the house's.
    damaged(|home| home.house.polls[3] = Poll::open(Caller::Server, 4).expect("a poll"));
    damaged(|home| home.house.polls[3] = Poll::open(Caller::Server, 2).expect("a poll"));
}

/// Of registers and of seats, whatever the seat's stance.
#[test]
fn poll_numbers() {
    for outer in [1, 8] {
        for value in 1..=2 {
            free(|home| home.poll(outer).registers.values[3] = value);
            free(|home| home.poll(outer).voters[2] = Voter::Answered(Answer::Adopted(value), 4));
        }
        for value in [3, 4, 5, 256, u32::MAX] {
            let walking = |phase, round| Voter::Walking(process(phase, round, value));
            let answered = |answer: fn(u32) -> Answer| Voter::Answered(answer(value), 4);
            damaged(|home| home.poll(outer).registers.values[0] = value);
            damaged(|home| home.poll(outer).registers.values[3] = value);
            damaged(|home| home.poll(outer).voters[2] = answered(Answer::Adopted));
            damaged(|home| home.poll(outer).voters[0] = answered(Answer::Committed));
            damaged(|home| home.poll(outer).voters[1] = walking(Phase::Waiting, 0));
            damaged(|home| home.poll(outer).voters[2] = walking(Phase::Crashed, 3));
            damaged(|home| home.poll(outer).voters[0] = walking(Phase::Commit, 4));
        }
    }
}

#[test]
fn outer_rounds_and_values() {
    for outer in [0, 9, 10, 255, usize::MAX] {
        for worker in 0..3 {
            damaged(|home| home.house.workers[worker].outer = outer);
        }
        for stance in [Stance::Exhausted, Stance::Crashed, Stance::Decided] {
            damaged(|home| {
                home.house.workers[1] = Worker {
                    stance,
                    outer,
                    value: 1,
                }
            });
        }
    }
    for worker in 0..2 {
        damaged(|home| home.house.workers[worker].value = 0);
    }
    for stance in [Stance::Exhausted, Stance::Crashed, Stance::Decided] {
        for outer in 1..=8 {
            let worker = |value| Worker {
                stance,
                outer,
                value,
            };
            damaged(|home| home.house.workers[1] = worker(0));
            free(|home| home.house.workers[1] = worker(1));
        }
    }
}

/// A worker that is out may have any value and any outer round that there is; its proposal
/// begins with the first.
#[test]
fn a_worker_that_is_out() {
    let mut home = sample();
    home.house.workers[2] = Worker {
        stance: Stance::Idle,
        outer: 5,
        value: 4,
    };
    assert!(home.house.is_sound());
    assert_eq!(home.house.propose(2, 3), Ok(()));
    assert_eq!(home.record(2), "propose-ward 1 3");
    home.turn(2);
    assert_eq!(home.session(1, 1).processes[1].estimate, 3);
}

/// The places at which worker 0, in outer round 3, may stand with these two seats, in the
/// order of the walk.
fn places(ward: Process, poll: Voter) -> Vec<usize> {
    let stands = |place: &usize| {
        let mut home = Home::open(&[1, 2, 1], &[7]);
        home.house.workers[0].outer = 3;
        home.house.workers[0].stance = Stance::Working(PLACES[*place]);
        home.session(1, 3).processes[0] = ward;
        home.poll(3).voters[0] = poll;
        home.house.is_sound()
    };
    (0..PLACES.len()).filter(stands).collect()
}

#[test]
fn seats_as_the_next_turn_needs() {
    let out = (Process::IDLE, vec![0]);
    let decided = (process(Phase::Decided, 3, 7), vec![3]);
    let spent = (process(Phase::Exhausted, 64, 7), vec![]);
    let crashed = (process(Phase::Crashed, 3, 7), vec![]);
    let phases = [
        (Phase::Waiting, 64),
        (Phase::Write, 1),
        (Phase::Scan(4), 3),
        (Phase::Adopt(4), 3),
        (Phase::Compare(1), 4),
        (Phase::Flag(1), 4),
        (Phase::CheckMark(1), 4),
        (Phase::CheckValue(1), 4),
        (Phase::Commit, 4),
    ];
    let working = phases.map(|(phase, round)| (process(phase, round, 7), vec![1, 2]));
    let wards = [&[out, decided, spent, crashed], &working[..]].concat();
    let voters = [
        (Voter::IDLE, vec![4]),
        (Voter::Walking(process(Phase::Waiting, 3, 1)), vec![5]),
        (Voter::Walking(process(Phase::Commit, 4, 2)), vec![5]),
        (Voter::Walking(process(Phase::Crashed, 4, 2)), vec![]),
        (Voter::Answered(Answer::Adopted(1), 4), vec![6]),
        (Voter::Answered(Answer::Committed(2), 4), vec![6, 7]),
    ];
    for (ward, by_ward) in &wards {
        for (voter, by_poll) in &voters {
            let expected = [&by_ward[..], by_poll].concat();
            assert_eq!(places(*ward, *voter), expected, "{ward} {voter:?}");
        }
    }
}

/// Every working worker's seat is tested, whoever is named; that of others is not.
#[test]
fn seats_of_others() {
    damaged(|home| home.session(2, 1).closed = true);
    damaged(|home| home.poll(1).voters[1] = Voter::IDLE);
    damaged(|home| home.session(1, 1).processes[0] = Process::IDLE);
    for stance in [
        Stance::Idle,
        Stance::Exhausted,
        Stance::Crashed,
        Stance::Decided,
    ] {
        free(|home| {
            home.house.workers[1].stance = stance;
            home.poll(1).voters[1] = Voter::IDLE;
        });
    }
    // Seats that no next turn needs: of other outer rounds, of the poll of one that works
    // in its ward, of the ward of one that polls, and of a worker that is out.
    free(|home| home.session(1, 2).processes[0] = process(Phase::Crashed, 5, 9));
    free(|home| home.poll(2).voters[0] = Voter::Answered(Answer::Committed(2), 4));
    free(|home| home.poll(1).voters[0] = Voter::Answered(Answer::Committed(2), 4));
    free(|home| home.session(2, 1).processes[0] = process(Phase::Exhausted, 64, 9));
    free(|home| home.session(1, 1).processes[1] = process(Phase::Decided, 5, 9));
}

#[test]
fn what_is_free() {
    free(|home| home.house.table = [[9; 4]; 8]);
    free(|home| home.house.decision = 9);
    for outer in 1..=OUTER_ROUNDS {
        for ward in [3, 4] {
            free(|home| home.session(ward, outer).n = 0);
            free(|home| home.session(ward, outer).closed = true);
            free(|home| home.session(ward, outer).limit = 0);
        }
    }
    for worker in [3, 15] {
        free(|home| home.house.wards[worker] = 9);
        free(|home| {
            home.house.workers[worker] = Worker {
                stance: Stance::Working(Place::WriteHouse),
                outer: 0,
                value: 0,
            }
        });
    }
}

/// The list of 3 alone is not kept by every call: here are the four that an accepted call
/// can leave unsound. No list of calls from an opening comes to them.
#[test]
fn calls_that_leave_a_damaged_house_unsound() {
    let other = process(Phase::Waiting, 0, 1);
    let mut home = sample();
    home.session(1, 1).processes[1] = other;
    assert_eq!(home.house.propose(2, 5), Ok(()));
    assert!(!home.house.is_sound());
    home.propose_refused(3, 2, 5);
    let mut home = sample();
    home.to(0, Place::WriteTable);
    home.poll(1).voters[0] = Voter::Walking(other);
    home.turn(0);
    assert!(!home.house.is_sound());
    for answer in [Answer::Adopted, Answer::Committed] {
        let mut home = sample();
        home.to(0, Place::StepPoll);
        home.house.workers[0].stance = Stance::Working(Place::ReadTable);
        home.poll(1).voters[0] = Voter::Answered(answer(1), 4);
        home.session(1, 2).processes[0] = other;
        home.turn(0);
        if answer(1) == Answer::Committed(1) {
            assert!(home.house.is_sound());
            home.turn(0);
        }
        assert_eq!(home.record(0), "propose-ward 2 7");
        assert!(!home.house.is_sound());
    }
}
