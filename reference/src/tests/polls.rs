//! Polls: both answers, each number and their order, soundness clause by clause, the
//! text, and what 02, wish 6, claims of every list of calls.

use super::*;
use crate::random::Random;
use crate::{poll_bytes, polls, window, Answer, Call, Phase, Poll, Voter};

/// A poll and its counts, with calls that must be accepted.
struct Round {
    poll: Poll,
    counts: Counts,
}

impl Round {
    /// The first seats propose these values.
    fn open(n: usize, values: &[u32]) -> Round {
        let mut poll = Poll::open(Caller::Server, n).expect("an opening within bounds");
        for (process, value) in values.iter().enumerate() {
            assert_eq!(poll.propose(process, *value), Ok(()));
        }
        let counts = Counts::default();
        Round { poll, counts }
    }

    /// Turns without an answer, in the order listed.
    fn work(&mut self, order: &[usize]) {
        for &process in order {
            assert_eq!(self.poll.step(process, &mut self.counts), Ok(None));
        }
    }

    /// Turns of one seat until it answers; how many, and the answer.
    fn finish(&mut self, process: usize) -> (usize, Answer) {
        for turns in 1.. {
            let answer = self.poll.step(process, &mut self.counts);
            if let Some(answer) = answer.expect("a seat that works") {
                return (turns, answer);
            }
        }
        unreachable!()
    }

    fn voter(&self, process: usize) -> String {
        match self.poll.read_process(process).expect("a seat below n") {
            Voter::Walking(process) => process.to_string(),
            Voter::Answered(answer, round) => format!("{answer} round {round}"),
        }
    }

    /// A call is refused with that number, and poll and counts stay.
    fn refused(&mut self, code: u32, call: Call) {
        let (poll, counts) = (self.poll.clone(), self.counts);
        let outcome = call.carry_out(&mut self.poll, &mut self.counts);
        assert_eq!(outcome.map_err(Refusal::code), Err(code), "{call:?}");
        assert_eq!((&self.poll, self.counts), (&poll, counts));
    }

    /// A turn and a crash are refused with that number.
    fn ended(&mut self, code: u32, process: usize) {
        self.refused(code, Call::Step { process });
        self.refused(code, Call::Crash { process });
    }

    /// A proposal is refused with that number.
    fn not_proposed(&mut self, code: u32, process: usize, value: u32) {
        self.refused(code, Call::Propose { process, value });
    }

    fn full(&mut self) {
        self.counts.reads = u32::MAX;
    }
}

/// Seat 0 has committed 7 alone; seat 1 stands at put in round 1 with 8.
fn late_writer() -> Round {
    let mut round = Round::open(2, &[7, 8]);
    round.work(&[1]);
    // Three rounds of 2 + r turns, six checks, the commit.
    assert_eq!(round.finish(0), (19, Answer::Committed(7)));
    round
}

#[test]
fn openings() {
    for n in [0, 65, 66, 257, 65_537, usize::MAX] {
        assert_eq!(
            Poll::open(Caller::Server, n).err(),
            Some(Refusal::BadProcessCount)
        );
    }
    for n in 1..=64 {
        let poll = Poll::open(Caller::Server, n).expect("an opening within bounds");
        assert_eq!(poll.limit, window(n));
        assert!(poll.is_sound());
        let session = Session::open(Caller::Server, n, window(n) as usize);
        assert_eq!(poll.session(), session);
    }
}

#[test]
fn one_seat_alone() {
    let mut round = Round::open(1, &[7]);
    round.work(&[0; 11]);
    assert_eq!(round.voter(0), "commit round 2 value 7");
    assert_eq!(round.counts.to_string(), "9 2 0");
    let registers = round.poll.registers.clone();
    assert_eq!(round.finish(0), (1, Answer::Committed(7)));
    // No D is written, and nothing is counted.
    assert_eq!(round.voter(0), "committed 7 round 2");
    assert_eq!(round.poll.registers, registers);
    assert_eq!(round.poll.registers.decision, 0);
    assert_eq!(round.counts.to_string(), "9 2 0");
}

#[test]
fn a_seat_that_comes_later_takes_over_and_commits() {
    let mut round = Round::open(2, &[7]);
    assert_eq!(round.finish(0), (19, Answer::Committed(7)));
    assert_eq!(round.poll.propose(1, 8), Ok(()));
    // The gate, two seeks, the take, three compares, six checks, the commit.
    assert_eq!(round.finish(1), (14, Answer::Committed(7)));
}

#[test]
fn adopted_by_its_own_mark_after_a_commit() {
    let mut round = late_writer();
    round.work(&[1; 3]);
    assert_eq!(round.voter(1), "seek 3 round 2 value 8");
    round.work(&[1; 6]);
    assert_eq!(round.voter(1), "check-mark 0 round 3 value 7");
    assert_eq!(round.counts.contested, 1);
    assert!(round.poll.registers.marks[0]);
    // Two rounds are checked in two turns each, and the third is marked.
    assert_eq!(round.finish(1), (5, Answer::Adopted(7)));
    assert_eq!(round.voter(1), "adopted 7 round 3");
}

#[test]
fn adopted_by_another_value() {
    let mut round = Round::open(2, &[7, 8]);
    round.work(&[1]);
    round.work(&[0; 17]);
    assert_eq!(round.voter(0), "check-value 2 round 3 value 7");
    round.work(&[1]);
    let reads = round.counts.reads;
    assert_eq!(round.finish(0), (1, Answer::Adopted(7)));
    assert_eq!(round.counts.reads, reads + 1);
    assert_eq!(round.voter(0), "adopted 7 round 3");
}

#[test]
fn two_seats_adopt_two_values() {
    let mut round = Round::open(2, &[7, 8]);
    // Side by side to the end, seat 1 always writing last: seat 0 flags every
    // round, once more in each round.
    for rounds in 1..=3 {
        round.work(&[0, 1, 0, 1]);
        for _ in 0..rounds {
            round.work(&[0, 0, 1]);
        }
    }
    assert_eq!(round.voter(0), "check-mark 0 round 3 value 7");
    assert_eq!(round.voter(1), "check-mark 0 round 3 value 8");
    assert_eq!(round.finish(1), (1, Answer::Adopted(8)));
    assert_eq!(round.finish(0), (1, Answer::Adopted(7)));
    assert_eq!(round.counts.contested, 3);
}

#[test]
fn a_seat_that_is_not_there() {
    for process in [2, 63, 64, 255, usize::MAX] {
        let mut round = Round::open(2, &[7]);
        round.full();
        round.ended(4, process);
        round.not_proposed(4, process, 0);
        round.refused(4, Call::ReadAsSession { process });
        let answer = round.poll.read_process(process);
        assert_eq!(answer, Err(Refusal::NoSuchProcess));
    }
}

#[test]
fn a_seat_that_is_out_and_one_that_crashed() {
    let mut round = Round::open(3, &[7, 8]);
    round.work(&[1; 3]);
    assert_eq!(round.poll.crash(1), Ok(()));
    assert_eq!(round.voter(1), "crashed round 1 value 8");
    round.full();
    round.ended(7, 2);
    round.not_proposed(5, 2, 0);
    round.ended(8, 1);
    round.not_proposed(5, 1, 0);
    round.not_proposed(6, 1, 9);
    round.not_proposed(6, 0, 9);
}

#[test]
fn an_answered_seat() {
    let mut round = late_writer();
    assert_eq!(round.finish(1).1, Answer::Adopted(7));
    round.full();
    for process in [0, 1] {
        round.ended(8, process);
        round.not_proposed(5, process, 0);
        round.not_proposed(6, process, 9);
    }
}

#[test]
fn a_full_tally() {
    let phases = [
        (Phase::Waiting, 2),
        (Phase::Write, 2),
        (Phase::Scan(3), 2),
        (Phase::Adopt(3), 2),
        (Phase::Compare(1), 2),
        (Phase::Flag(1), 2),
        (Phase::CheckMark(1), 3),
        (Phase::CheckValue(1), 3),
        (Phase::Commit, 3),
    ];
    for ((phase, rounds), place) in phases.into_iter().flat_map(|p| [(p, 0), (p, 1), (p, 2)]) {
        let mut round = Round::open(2, &[7]);
        round.poll.voters[0] = walking(phase, rounds);
        let [mut reads, mut writes, mut contested] = [5, 6, 7];
        *[&mut reads, &mut writes, &mut contested][place] = u32::MAX;
        round.counts = Counts {
            reads,
            writes,
            contested,
        };
        round.refused(16, Call::Step { process: 0 });
        assert_eq!(round.poll.crash(0), Ok(()));
    }
}

#[test]
fn a_tally_one_short_of_full() {
    let mut round = Round::open(1, &[7]);
    round.counts.reads = u32::MAX - 1;
    round.work(&[0]);
    round.refused(16, Call::Step { process: 0 });
    round.poll.voters[0] = walking(Phase::Commit, 2);
    round.counts.reads = u32::MAX - 1;
    assert_eq!(round.finish(0), (1, Answer::Committed(7)));
    assert_eq!(round.counts.reads, u32::MAX - 1);
}

// ---------------------------------------------------------------- soundness

fn walking(phase: Phase, round: u32) -> Voter {
    Voter::Walking(Process {
        phase,
        round,
        estimate: 7,
    })
}

/// Each call and read-out on a poll of two seats answers 3 and leaves everything
/// alone.
fn damaged(damage: impl Fn(&mut Poll)) {
    let mut round = Round::open(2, &[7]);
    damage(&mut round.poll);
    assert!(!round.poll.is_sound());
    round.full();
    for process in [0, 1, 64] {
        round.ended(3, process);
        round.not_proposed(3, process, 0);
        let answer = round.poll.read_process(process);
        assert_eq!(answer, Err(Refusal::Unsound));
    }
}

/// Whether seat 0 of two, window 3, may stand so.
fn stands(voter: Voter) -> bool {
    let mut round = Round::open(2, &[7]);
    round.poll.voters[0] = voter;
    round.poll.is_sound()
}

#[test]
fn sizes_and_registers() {
    for n in [0, 1, 3, 5, 65, usize::MAX] {
        damaged(|poll| poll.n = n);
    }
    for limit in [0, 2, 4, 5, 256, u32::MAX] {
        damaged(|poll| poll.limit = limit);
    }
    damaged(|poll| poll.registers.decision = 7);
    damaged(|poll| poll.closed = true);
    damaged(|poll| poll.registers.values[3] = 1);
    damaged(|poll| poll.registers.marks[255] = true);
    damaged(|poll| poll.voters[2] = poll.voters[0]);
    damaged(|poll| poll.voters[63] = Voter::Answered(Answer::Adopted(7), 3));
}

#[test]
fn answered_seats_at_round_w() {
    for answer in [Answer::Committed, Answer::Adopted] {
        assert!(stands(Voter::Answered(answer(7), 3)));
        for round in [0, 2, 4, 5] {
            damaged(|poll| poll.voters[0] = Voter::Answered(answer(7), round));
        }
        damaged(|poll| poll.voters[1] = Voter::Answered(answer(0), 3));
    }
}

#[test]
fn the_other_seats() {
    for round in 0..=2 {
        assert!(stands(walking(Phase::Waiting, round)));
    }
    damaged(|poll| poll.voters[0] = walking(Phase::Waiting, 3));
    damaged(|poll| poll.voters[0] = walking(Phase::Exhausted, 3));
    damaged(|poll| poll.voters[0] = walking(Phase::Decided, 3));
    damaged(|poll| poll.voters[0] = walking(Phase::Decided, 2));
    damaged(|poll| poll.voters[0] = walking(Phase::Crashed, 4));
    damaged(|poll| poll.voters[0] = walking(Phase::Write, 0));
    damaged(|poll| poll.voters[0] = walking(Phase::Scan(4), 3));
    damaged(|poll| poll.voters[0] = walking(Phase::CheckMark(0), 2));
    damaged(|poll| poll.voters[0] = walking(Phase::Idle, 0));
    assert!(stands(walking(Phase::Crashed, 3)) && stands(walking(Phase::Commit, 3)));
    assert!(stands(walking(Phase::Adopt(3), 3)) && stands(walking(Phase::Scan(3), 2)));
}

#[test]
fn sessions_taken_for_polls() {
    let poll_of = |case: &Case| Poll::of(&case.session).is_sound();
    assert!(poll_of(&Case::contested()));
    assert!(!poll_of(&Case::open(2, 4)));
    // At the gate in round L with D filled; with D blank; decided; spent.
    let mut case = Case::at_last_gate();
    assert!(!poll_of(&case));
    case.session.registers.decision = 0;
    assert!(!poll_of(&case));
    case.work(&[0]);
    assert!(!poll_of(&case));
    case.session.processes[0].phase = Phase::Decided;
    assert!(!poll_of(&case));
    case.session.processes[0].phase = Phase::Commit;
    assert!(poll_of(&case));
}

#[test]
fn polls_taken_for_sessions() {
    let mut round = Round::open(2, &[7, 8]);
    round.work(&[1]);
    round.work(&[0; 18]);
    for process in [0, 1] {
        let session = round.poll.session().expect("no seat has answered");
        assert!(session.read_process(process).is_ok());
    }
    assert_eq!(round.finish(0), (1, Answer::Committed(7)));
    for process in [0, 1, 2] {
        round.refused(3, Call::ReadAsSession { process });
    }
}

// ---------------------------------------------------------------- bytes and text

#[test]
fn text_of_two_polls() {
    let mut calls = vec![raw(0, 0, 7), raw(0, 1, 8), raw(1, 1, 99), raw(3, 0, 0)];
    calls.extend([raw(1, 0, 0); 19]);
    calls.extend([raw(255, 1, 0), raw(2, 1, 5), raw(1, 1, 0), raw(0, 9, 1)]);
    let refused = poll_bytes(SERVER, 65, &[raw(0, 0, 7)]);
    let text = polls(&[poll_bytes(SERVER, 2, &calls), refused].concat());
    let lines: Vec<&str> = text.lines().collect();
    let first = "poll 2 0, propose 0 7 0, propose 1 8 0, turn 1 0 none, session 0 0";
    assert_eq!(lines[..5].join(", "), first);
    assert_eq!(lines[5..23], ["turn 0 0 none"; 18]);
    let last = "turn 0 0 committed 7, session 1 3, crash 1 0, turn 1 8 none, propose 9 1 4";
    assert_eq!(lines[23..28].join(", "), last);
    assert_eq!(lines[28], "tally 16 3 0");
    let rounds: Vec<String> = (1..=3).map(|r| format!("round {r} 7 unmarked")).collect();
    assert_eq!(lines[29..32], rounds);
    let end = "seat 0 committed 7, seat 1 crashed, poll 65 1";
    assert_eq!(lines[32..].join(", "), end);
}

#[test]
fn text_of_marked_rounds_and_adopted_seats() {
    let mut round = late_writer();
    let answer = round.finish(1).1;
    assert_eq!(answer.to_string(), "adopted 7");
    let mut calls = vec![raw(0, 0, 7), raw(0, 1, 8), raw(1, 1, 0)];
    calls.extend([raw(1, 0, 0); 19]);
    calls.extend([raw(1, 1, 0); 14]);
    let text = polls(&poll_bytes(SERVER, 2, &calls));
    for line in ["turn 1 0 adopted 7", "round 1 8 marked", "seat 1 adopted 7"] {
        assert!(text.contains(&format!("\n{line}\n")), "{line}\n{text}");
    }
}

/// A close is the session's, and ignores seat and value. The poll is refused with 3 from
/// then on, and still is a sound session. (02, wish 10.)
#[test]
fn text_of_a_closed_poll() {
    let calls = [
        raw(0, 0, 7),
        raw(4, 9, 9),
        raw(0, 1, 8),
        raw(1, 0, 0),
        raw(2, 0, 0),
        raw(3, 0, 0),
        raw(4, 0, 0),
    ];
    let text = polls(&poll_bytes(SERVER, 2, &calls));
    let said = "poll 2 0, propose 0 7 0, close 0, propose 1 8 3, turn 0 3 none, crash 0 3, session 0 0, close 0, tally 0 0 0";
    let rounds = "round 1 0 unmarked, round 2 0 unmarked, round 3 0 unmarked";
    let end = "seat 0 refused 3, seat 1 refused 3";
    let lines: Vec<&str> = text.lines().collect();
    assert_eq!(lines.join(", "), format!("{said}, {rounds}, {end}"));
}

/// Where a seat has answered, the poll is no sound session, and the close leaves it.
#[test]
fn an_answered_poll_is_not_closed() {
    let mut round = late_writer();
    round.refused(3, Call::CloseAsSession);
    assert!(round.poll.is_sound() && !round.poll.closed);
    let mut round = Round::open(2, &[7, 8]);
    for _ in 0..2 {
        let outcome = Call::CloseAsSession.carry_out(&mut round.poll, &mut round.counts);
        assert_eq!(outcome, Ok(None));
        assert!(round.poll.closed && !round.poll.is_sound());
    }
    round.ended(3, 0);
    round.not_proposed(3, 0, 9);
}

#[test]
fn bytes_that_end_early() {
    let bytes = poll_bytes(SERVER, 1, &[raw(0, 0, 7), raw(1, 0, 0)]);
    let end = "tally 0 0 0\nround 1 0 unmarked\nround 2 0 unmarked\n";
    for length in 10..16 {
        let text = format!("poll 1 0\npropose 0 7 0\n{end}seat 0 working 0 7\n");
        assert_eq!(polls(&bytes[..length]), text);
    }
    for length in 2..10 {
        assert_eq!(
            polls(&bytes[..length]),
            format!("poll 1 0\n{end}seat 0 out\n")
        );
    }
    assert_eq!(polls(&[SERVER]), "poll 0 1\n");
    assert_eq!(polls(&[]), "");
}

// ---------------------------------------------------------------- the claims

/// The most seats of a random list.
const MOST_SEATS: usize = 6;

/// What the claims of 02, wish 6, speak of, gathered along a list.
#[derive(Default)]
struct Claims {
    proposed: Vec<u32>,
    answers: Vec<Answer>,
    turns: [u32; MOST_SEATS],
}

impl Claims {
    /// An accepted call and its answer; "each answer was proposed".
    fn note(&mut self, call: Call, answer: Option<Answer>) {
        match call {
            Call::Propose { value, .. } => self.proposed.push(value),
            Call::Step { process } => self.turns[process] += 1,
            _ => {}
        }
        if let Some(answer) = answer {
            assert!(self.proposed.contains(&answer.value()));
            self.answers.push(answer);
        }
    }

    /// "if one answer is committed v, every answer carries v; if all proposals are v,
    /// every answer is committed v". No seat takes more turns than a walk has.
    fn check(&self, round: &Round) {
        let committed = |answer: &&Answer| matches!(answer, Answer::Committed(_));
        for value in self.answers.iter().filter(committed).map(|a| a.value()) {
            assert!(self.answers.iter().all(|answer| answer.value() == value));
        }
        if let [first, rest @ ..] = &self.proposed[..] {
            let alike = rest.iter().all(|value| value == first);
            assert!(!alike || self.answers.iter().all(|answer| committed(&answer)));
        }
        let w = window(round.poll.n);
        assert!(self.turns.iter().all(|turns| *turns <= w * w + 6 * w + 1));
        let marked = round.poll.registers.marks.iter().filter(|mark| **mark);
        assert_eq!(round.counts.contested as usize, marked.count());
    }
}

/// Most calls are turns, one by one or in bursts; some proposals are late, and some
/// calls refused.
fn random_call(random: &mut Random, n: usize, burst: usize, last: Call) -> Call {
    if matches!(last, Call::Step { .. }) && !random.once_in(burst) {
        return last;
    }
    let beyond = usize::from(random.once_in(50));
    let process = random.below(n + beyond);
    match random.below(300) {
        0 => Call::Crash { process },
        1 => Call::ReadAsSession { process },
        2..=40 => {
            let value = random.below(4) as u32;
            Call::Propose { process, value }
        }
        _ => Call::Step { process },
    }
}

/// A list of calls, carried out one by one. Half of the lists begin with a proposal by
/// each seat, all of one value in every fifth.
fn random_list(seed: u64) -> Claims {
    let random = &mut Random::of(seed, 1);
    let (n, burst) = (random.between(1, MOST_SEATS), random.pick(&[1, 1, 2, 6]));
    let (mut round, mut claims) = (Round::open(n, &[]), Claims::default());
    let mut call = Call::Crash { process: 0 };
    for process in 0..700 {
        call = if process < n && burst == 1 {
            let value = 1 + seed as u32 % 5 * process as u32;
            Call::Propose { process, value }
        } else {
            random_call(random, n, burst, call)
        };
        let before = round.poll.clone();
        match call.carry_out(&mut round.poll, &mut round.counts) {
            Ok(answer) => claims.note(call, answer),
            Err(refusal) => {
                assert_ne!(refusal, Refusal::ClosedToProposals);
                assert_eq!(round.poll, before);
            }
        }
        assert!(round.poll.is_sound());
        claims.check(&round);
    }
    claims
}

#[test]
fn the_claims_and_soundness_on_random_lists() {
    let answers: Vec<Answer> = (0..400)
        .flat_map(|seed| random_list(seed).answers)
        .collect();
    let committed = |answer: &&Answer| matches!(answer, Answer::Committed(_));
    let committed = answers.iter().filter(committed).count();
    assert!(committed > 500, "{committed} committed");
    let adopted = answers.len() - committed;
    assert!(adopted > 200, "{adopted} adopted");
}
