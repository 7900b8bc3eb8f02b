//! Closed sessions: the close, the proposals refused after it and their order, all that
//! goes on, and closes on sheets, in reports and traces, and before a poll. (02, wish 10:
//! "When the nurse signs the intake form, no more weights may join.")

use super::*;
use crate::{entry, report, report_of, run, trace, window, Call, Ending, Phase, Poll, Sheet};

fn close() -> [u8; 6] {
    raw(4, 0, 0)
}

fn refused<T>(answer: Result<T, Refusal>) -> Option<u32> {
    answer.err().map(Refusal::code)
}

/// A case at each stage: no proposal yet; one of two; both and some turns; a commit; the
/// decision; spent; crashed.
fn stages() -> Vec<Case> {
    let mut one = Case::open(2, 3);
    one.propose(1, 8);
    let (mut decided, mut spent) = (Case::at_last_gate(), Case::at_last_gate());
    assert_eq!(decided.learn(0), Ok(()));
    spent.work(&[0]);
    let mut crashed = Case::contested();
    assert_eq!(crashed.session.crash(1), Ok(()));
    let before = [Case::open(2, 3), one, Case::contested()];
    let after = [Case::at_last_gate(), decided, spent, crashed];
    before.into_iter().chain(after).collect()
}

/// The session is the one before but for the mark, which is set.
fn marked_alone(before: &Session, after: &Session) {
    let expected = Session {
        closed: true,
        ..before.clone()
    };
    assert_eq!(*after, expected);
}

// ---------------------------------------------------------------- the close

#[test]
fn a_session_is_open_at_first() {
    for caller in [Caller::Server, Caller::Cart] {
        for n in 1..=16 {
            let session = Session::open(caller, n, 64).expect("an opening within bounds");
            assert!(!session.closed);
        }
    }
    let session = Session::open_at(2, 3, 3).expect("an opening within bounds");
    assert!(!session.closed);
    let bytes = header(2, 3, &[]);
    let sheet = Sheet::read(Caller::Server, &bytes).expect("a sheet in order");
    assert!(!sheet.open().closed);
}

/// "A close sets it, also where it is set already".
#[test]
fn a_close_at_each_stage_and_a_second_one() {
    for mut case in stages() {
        let (before, counts) = (case.session.clone(), case.counts);
        assert!(!before.closed && before.is_sound());
        for _ in 0..3 {
            assert_eq!(case.session.close(), Ok(()));
            marked_alone(&before, &case.session);
            assert!(case.session.is_sound());
            assert_eq!(case.counts, counts);
        }
    }
}

/// It has no seat and is lent no tally: the one of a sheet's operations stays, full or not.
#[test]
fn a_close_is_not_counted() {
    for count in [0, 5, u32::MAX] {
        let counts = Counts {
            reads: count,
            writes: count,
            contested: count,
        };
        for mut case in stages() {
            let (before, mut tally) = (case.session.clone(), counts);
            let none = |access| panic!("{access:?}");
            let answer = case
                .session
                .apply_trusted(Operation::Close, &mut tally, none);
            assert_eq!(answer, Ok(()));
            marked_alone(&before, &case.session);
            assert_eq!(tally, counts);
        }
    }
    assert_eq!(Operation::Close.process(), None);
}

// ---------------------------------------------------------------- proposals

/// The proposal is refused with that number, and the closed session stays.
fn not_proposed(case: &mut Case, code: u32, process: usize, value: u32) {
    let before = case.session.clone();
    assert!(before.closed);
    let answer = case.session.propose(process, value);
    assert_eq!(refused(answer), Some(code), "{process} {value}");
    assert_eq!(case.session, before);
}

/// "New 18: proposal to a closed session, tested last, after 6".
#[test]
fn four_five_and_six_before_eighteen() {
    for mut case in stages() {
        assert_eq!(case.session.close(), Ok(()));
        let n = case.session.n;
        for process in [n, 63, 64, 255, usize::MAX] {
            not_proposed(&mut case, 4, process, 0);
            not_proposed(&mut case, 4, process, 7);
        }
        for process in 0..n {
            not_proposed(&mut case, 5, process, 0);
            let out = case.process(process).phase == Phase::Idle;
            for value in [1, 7, u32::MAX] {
                not_proposed(&mut case, if out { 18 } else { 6 }, process, value);
            }
        }
    }
}

#[test]
fn the_proposal_that_is_refused_is_accepted_before_the_close() {
    for mut case in stages() {
        let out = |p: &usize| case.session.processes[*p].phase == Phase::Idle;
        let Some(process) = (0..case.session.n).find(out) else {
            continue;
        };
        let before = case.session.clone();
        case.propose(process, 7);
        case.session = before;
        assert_eq!(case.session.close(), Ok(()));
        not_proposed(&mut case, 18, process, 7);
        // The second close changes nothing of that.
        assert_eq!(case.session.close(), Ok(()));
        not_proposed(&mut case, 18, process, 7);
    }
}

// ---------------------------------------------------------------- all else goes on

/// Two seats of three, up to a decision of one and a crash of the other; some entries are
/// refused.
fn list() -> Vec<Operation> {
    let leader = true;
    let step = |process| Operation::Step { process, leader };
    let mut list = vec![
        Operation::Propose {
            process: 0,
            value: 3,
        },
        Operation::Propose {
            process: 1,
            value: 8,
        },
    ];
    list.extend([0, 1, 0, 1, 0, 0, 1, 0, 0, 1, 1, 1, 2, 9].map(step));
    list.extend([
        Operation::Learn { process: 1 },
        Operation::Learn { process: 2 },
    ]);
    list.extend([step(0); 80]);
    list.push(Operation::Crash { process: 1 });
    list.extend([step(1), step(0), Operation::Learn { process: 0 }, step(0)]);
    list.push(Operation::Crash { process: 2 });
    list
}

/// Work turns, looks and crashes, accepted or refused, as without the close: "proposals
/// are then refused and all else goes on".
#[test]
fn work_looks_and_crashes_after_a_close() {
    let list = list();
    for place in 2..=list.len() {
        let (mut open, mut closed) = (Case::open(3, 6), Case::open(3, 6));
        let mut codes = Vec::new();
        for (index, operation) in list.iter().enumerate() {
            if index == place {
                assert_eq!(closed.session.close(), Ok(()));
            }
            let [one, other] = [&mut open, &mut closed].map(|case| {
                let Case { session, counts } = case;
                refused(session.apply_at(window(3), *operation, counts))
            });
            assert_eq!(one, other, "{operation}");
            assert_eq!(closed.session.closed, index >= place);
            open.session.closed = closed.session.closed;
            assert_eq!(open.session, closed.session);
            open.session.closed = false;
            assert_eq!(open.counts, closed.counts);
            codes.extend(one);
        }
        assert_eq!(closed.process(0).to_string(), "decided round 6 value 3");
        let last = codes.split_off(codes.len() - 4);
        assert_eq!((&codes[..4], last), (&[7, 4, 7, 9][..], vec![8, 9, 8, 7]));
    }
}

/// The public operations themselves, on one seat alone from its close on.
#[test]
fn one_seat_alone_after_a_close() {
    let mut case = Case::open(1, 2);
    case.propose(0, 7);
    assert_eq!(case.session.close(), Ok(()));
    assert_eq!(case.step(0, false), Ok(()));
    case.work(&[0; 12]);
    assert_eq!(case.session.read_decision(), Ok(7));
    assert_eq!(case.tally(), (9, 3, 0));
    assert_eq!(case.session.close(), Ok(()));
    assert_eq!(case.learn(0), Ok(()));
    assert_eq!(case.process(0).to_string(), "decided round 2 value 7");
    assert_eq!(case.tally(), (10, 3, 0));
    assert_eq!(case.session.crash(0), Err(Refusal::ProcessGone));
    assert!(case.session.closed && case.session.is_sound());
}

#[test]
fn read_outs_of_a_closed_session() {
    for mut case in stages() {
        let open = case.session.clone();
        assert_eq!(case.session.close(), Ok(()));
        let closed = &case.session;
        for round in 0..=4 {
            assert_eq!(closed.read_round(round), open.read_round(round));
        }
        for process in 0..=2 {
            assert_eq!(closed.read_process(process), open.read_process(process));
        }
        assert_eq!(closed.read_decision(), open.read_decision());
        let (mut ours, mut theirs) = ([77; 4], [77; 4]);
        let found = closed.standing_values(&mut ours);
        assert_eq!(found, open.standing_values(&mut theirs));
        assert_eq!(ours, theirs);
        let short = closed.standing_values(&mut []);
        assert_eq!(short, open.standing_values(&mut []));
    }
}

// ---------------------------------------------------------------- sheets

/// The C entry's number for two seats with L = 3.
fn of_entries(entries: &[[u8; 6]]) -> u32 {
    entry(&sheet(2, 3, entries), u64::MAX, &mut [0; 256])
}

/// "Sheets get kind 4, seat 0, value 0"; "kind 4 with another seat or value is 13", also
/// where the seat is none of the two and 4 would follow.
#[test]
fn kind_four() {
    assert_eq!(of_entries(&[close()]), 0);
    for seat in [1, 2, 63, 64, 128, 255] {
        assert_eq!(of_entries(&[raw(4, seat, 0)]), 13, "seat {seat}");
        assert_eq!(of_entries(&[raw(4, seat, 1)]), 13, "seat {seat}");
        assert_eq!(of_entries(&[close(), raw(4, seat, 0)]), 13);
    }
    for value in [1, 2, 256, 1 << 16, 1 << 24, 1 << 31, u32::MAX] {
        assert_eq!(of_entries(&[raw(4, 0, value)]), 13, "value {value}");
    }
    for kind in 5..=255 {
        assert_eq!(of_entries(&[raw(kind, 0, 0)]), 13, "kind {kind}");
    }
}

#[test]
fn proposals_on_sheets_after_a_close() {
    let (propose, other) = (raw(0, 1, 7), raw(0, 0, 7));
    assert_eq!(of_entries(&[close(), propose]), 18);
    assert_eq!(of_entries(&[propose, close(), other]), 18);
    assert_eq!(of_entries(&[propose, close(), close(), other]), 18);
    assert_eq!(of_entries(&[propose, close(), propose]), 6);
    assert_eq!(of_entries(&[propose, close(), raw(0, 0, 0)]), 5);
    assert_eq!(of_entries(&[propose, close(), raw(0, 1, 0)]), 5);
    assert_eq!(of_entries(&[propose, close(), raw(0, 2, 7)]), 4);
    assert_eq!(of_entries(&[propose, other, close()]), 0);
    for rest in [raw(1, 1, 0), raw(1, 1, YES), raw(2, 1, 0), raw(3, 1, 0)] {
        assert_eq!(of_entries(&[propose, close(), rest]), 0);
        assert_eq!(of_entries(&[propose, close(), rest, other]), 18);
    }
}

/// How a sheet ends under a budget, and whether it leaves its session closed.
fn ends(bytes: &[u8], budget: u64) -> (Ending, bool) {
    let sheet = Sheet::read(Caller::Server, bytes).expect("a sheet in order");
    let (mut session, mut counts) = (sheet.open(), Counts::default());
    let ending = run(&sheet, budget, &mut session, &mut counts);
    (ending, session.closed)
}

/// A close is an entry: it is counted among those carried out, and in the budget.
#[test]
fn budgets_with_closes() {
    let entries = [raw(0, 0, 7), close(), raw(1, 0, YES), close(), raw(0, 1, 8)];
    let bytes = sheet(2, 3, &entries);
    for budget in 0..=4 {
        let closed = budget > 1;
        assert_eq!(ends(&bytes, budget), (Ending::BudgetEnded(budget), closed));
        let mut buffer = [9; 256];
        assert_eq!(entry(&bytes, budget, &mut buffer), 100);
    }
    let refused = Ending::Refused(Refusal::ClosedToProposals, 4);
    for budget in [5, 6, u64::MAX] {
        assert_eq!(ends(&bytes, budget), (refused, true));
    }
    let bytes = sheet(2, 3, &entries[..4]);
    assert_eq!(ends(&bytes, 3), (Ending::BudgetEnded(3), true));
    assert_eq!(ends(&bytes, 4), (Ending::Finished(4), true));
    // Of closes alone.
    let bytes = sheet(1, 2, &[close(); 3]);
    assert_eq!(ends(&bytes, 0), (Ending::BudgetEnded(0), false));
    assert_eq!(ends(&bytes, 2), (Ending::BudgetEnded(2), true));
    assert_eq!(ends(&bytes, 3), (Ending::Finished(3), true));
}

/// The longest sheet, of closes alone.
#[test]
fn the_longest_sheet_of_closes() {
    let bytes = sheet(1, 2, &[close(); 10_921]);
    let text = "outcome finished 10921\ntally 0 0 0\nboard 0 0 closed\nseat 0 out\n";
    assert_eq!(report(&bytes), text);
    assert_eq!(ends(&bytes, 10_920), (Ending::BudgetEnded(10_920), true));
}

/// The sheet of 92 bytes in 02, wish 8, with a close before each of its entries but the
/// first, or behind all.
#[test]
fn the_decided_bytes_do_not_show_the_mark() {
    let bytes = report_sheet();
    let mut expected = [9; 256];
    assert_eq!(entry(&bytes, 99, &mut expected), 0);
    for place in 1..=14 {
        let mut entries: Vec<[u8; 6]> = bytes[8..]
            .chunks_exact(6)
            .map(|entry| entry.try_into().expect("the bytes of an entry"))
            .collect();
        entries.insert(place, close());
        let closed = sheet(1, 2, &entries);
        let mut buffer = [9; 256];
        assert_eq!(entry(&closed, 99, &mut buffer), 0);
        assert_eq!(buffer, expected);
        let text = "outcome finished 15\ntally 10 3 0\nboard 2 7 closed\nseat 0 decided 7\n";
        assert_eq!(report(&closed), text);
    }
}

// ---------------------------------------------------------------- the report and the trace

/// The board line of a report.
fn board(text: &str) -> &str {
    text.lines().nth(2).expect("a board line")
}

/// "The board line gains a third field, "open" or "closed"."
#[test]
fn the_third_field_of_the_board_line() {
    let of = |entries: &[[u8; 6]]| report(&sheet(2, 3, entries));
    assert_eq!(board(&of(&[])), "board 0 0 open");
    assert_eq!(board(&of(&[close()])), "board 0 0 closed");
    assert_eq!(board(&of(&[close(), close()])), "board 0 0 closed");
    let open = of(&[raw(0, 0, 7), raw(4, 1, 0), close()]);
    assert_eq!(open.lines().next(), Some("outcome refused 13 1"));
    assert_eq!(board(&open), "board 0 0 open");
    let closed = of(&[raw(0, 0, 7), close(), raw(0, 1, 7)]);
    let text =
        "outcome refused 18 2\ntally 0 0 0\nboard 0 0 closed\nseat 0 working 0 7\nseat 1 out\n";
    assert_eq!(closed, text);
    assert_eq!(report(&[0, 0, 0, 0]), "sheet refused 1\n");
}

#[test]
fn the_third_field_under_budgets() {
    let bytes = sheet(2, 3, &[raw(0, 0, 7), close(), raw(1, 0, YES)]);
    for caller in [Caller::Server, Caller::Cart] {
        for (budget, mark) in [(0, "open"), (1, "open"), (2, "closed"), (3, "closed")] {
            let text = report_of(caller, budget, &bytes);
            assert_eq!(board(&text), format!("board 0 0 {mark}"));
            assert!(text.starts_with(&format!("outcome finished {budget}\n")));
        }
    }
}

#[test]
fn traces_of_closes() {
    let text = trace(&sheet(
        2,
        3,
        &[raw(0, 0, 7), close(), close(), raw(0, 1, 7)],
    ));
    let lines: Vec<&str> = text.lines().collect();
    let line = "    1 | close                    | none                      | closed                                   | 0 0 0";
    assert_eq!(lines[1], line);
    assert_eq!(lines[2][5..], line[5..]);
    assert_eq!(lines[3], "    3 | propose 1 7              | refused 18");
    let text = trace(&sheet(2, 3, &[raw(4, 64, 0)]));
    assert_eq!(text, "    0 | entry 4 64 0             | refused 13\n");
}

// ---------------------------------------------------------------- polls

/// "Polls have no close, and a sound one is open": a closed session that is taken for a
/// poll is refused with 3 in every call, and never with 18.
#[test]
fn a_closed_session_is_no_sound_poll() {
    let mut case = Case::contested();
    let open = Poll::of(&case.session);
    assert!(open.is_sound() && open.is_sound_at(3));
    assert_eq!(open.clone().propose(0, 7), Err(Refusal::SecondProposal));
    assert_eq!(case.session.close(), Ok(()));
    let mut poll = Poll::of(&case.session);
    let before = poll.clone();
    assert!(poll.closed && !poll.is_sound() && !poll.is_sound_at(3));
    let mut counts = Counts::default();
    for process in [0, 1, 2, 64] {
        for value in [0, 7] {
            let calls = [
                Call::Propose { process, value },
                Call::Step { process },
                Call::Crash { process },
            ];
            for call in calls {
                let answer = call.carry_out(&mut poll, &mut counts);
                assert_eq!(refused(answer), Some(3), "{call:?}");
            }
            let answers = [
                poll.propose_at(3, process, value),
                poll.step_at(3, process, &mut counts).map(|_| ()),
                poll.crash_at(3, process),
                poll.read_process(process).map(|_| ()),
            ];
            assert_eq!(answers.map(refused), [Some(3); 4]);
        }
    }
    assert_eq!((&poll, counts), (&before, Counts::default()));
    // Taken for a session again it is sound, and closed.
    assert_eq!(poll.session(), Ok(case.session));
}

/// A closed session with L = W and a blank D, every seat of it out: 3, and not 18.
#[test]
fn a_closed_opening_is_no_sound_poll() {
    for n in 1..=64 {
        let mut session =
            Session::open(Caller::Server, n, window(n) as usize).expect("an opening within bounds");
        let mut poll = Poll::of(&session);
        assert_eq!(poll.propose(0, 7), Ok(()));
        assert_eq!(session.close(), Ok(()));
        let mut poll = Poll::of(&session);
        assert_eq!(poll.propose(0, 7), Err(Refusal::Unsound));
        assert_eq!(poll, Poll::of(&session));
    }
}
