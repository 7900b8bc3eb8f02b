//! The server and the cart. (02, wish 9: "A cart runs the same library with at most 16
//! seats and 64 rounds; the server stays at 64 and 256.")

use super::*;
use crate::{entry, poll_bytes, polls, report, report_of, window, write, Phase, Poll, Sheet};

/// Each caller with its most seats and its most rounds.
const CALLERS: [(Caller, usize, usize); 2] = [(Caller::Server, 64, 256), (Caller::Cart, 16, 64)];

/// Sizes that a byte, 16 or 32 bits would cut to smaller ones.
const HUGE: [usize; 6] = [
    256 + 5,
    (1 << 16) + 10,
    1 << 16,
    1 << 32,
    (1 << 32) + 16,
    usize::MAX,
];

fn refused<T>(answer: Result<T, Refusal>) -> Option<u32> {
    answer.err().map(Refusal::code)
}

/// "1 and 2 speak of the caller's limits": 1 first, and 2 below W too.
fn of_size((most_seats, most_rounds): (usize, usize), n: usize, limit: usize) -> Option<u32> {
    if !(1..=most_seats).contains(&n) {
        Some(1)
    } else if limit < window(n) as usize || limit > most_rounds {
        Some(2)
    } else {
        None
    }
}

#[test]
fn named_by_a_byte() {
    assert_eq!(Caller::named(SERVER), Caller::Server);
    assert_eq!(CARTS.map(Caller::named), [Caller::Cart; 4]);
}

#[test]
fn openings_of_either_caller() {
    let sizes = || (0..=300).chain(HUGE);
    for (caller, seats, rounds) in CALLERS {
        for (n, limit) in sizes().flat_map(|n| sizes().map(move |limit| (n, limit))) {
            let code = of_size((seats, rounds), n, limit);
            let opened = Session::open(caller, n, limit);
            assert_eq!(refused(opened), code, "{caller:?}, n {n}, L {limit}");
        }
    }
}

#[test]
fn the_bounds_of_the_cart() {
    let at = |n, limit| refused(Session::open(Caller::Cart, n, limit));
    assert_eq!([at(0, 8), at(1, 2), at(16, 8)], [Some(1), None, None]);
    assert_eq!(
        [at(16, 7), at(16, 64), at(16, 65)],
        [Some(2), None, Some(2)]
    );
    assert_eq!([at(1, 64), at(1, 65), at(1, 256)], [None, Some(2), Some(2)]);
    assert_eq!([at(17, 9), at(64, 16)], [Some(1), Some(1)]);
    // Where 2 would follow.
    assert_eq!(
        [at(17, 65), at(17, 8), at(0, 0)],
        [Some(1), Some(1), Some(1)]
    );
}

#[test]
fn polls_of_either_caller() {
    for (caller, seats, _) in CALLERS {
        for n in (0..=300).chain(HUGE) {
            let accepted = (1..=seats).contains(&n);
            let code = if accepted { None } else { Some(1) };
            assert_eq!(refused(Poll::open(caller, n)), code, "{caller:?}, n {n}");
        }
    }
    for n in 1..=16 {
        assert_eq!(Poll::open(Caller::Cart, n), Poll::open(Caller::Server, n));
    }
}

/// The session of a caller, which must open it.
fn opened(caller: Caller, n: usize, limit: usize) -> Case {
    Case {
        session: Session::open(caller, n, limit).expect("an opening within bounds"),
        counts: Counts::default(),
    }
}

/// Each operation and each read-out takes the session as it is: none finds it unsound.
fn takes_everything(mut case: Case) {
    let (last, rounds) = (case.session.n - 1, case.session.limit as usize);
    assert!(case.session.is_sound());
    case.propose(last, 7);
    assert_eq!(case.step(last, true), Ok(()));
    assert_eq!(case.learn(last), Ok(()));
    assert_eq!(case.session.read_round(rounds), Ok((0, false)));
    assert_eq!(case.session.read_round(rounds + 1), Err(Refusal::NoSuchRound));
    assert_eq!(case.process(last).to_string(), "put round 1 value 7");
    assert_eq!(case.session.read_decision(), Ok(0));
    assert_eq!(case.session.standing_values(&mut []), Ok(0));
    assert_eq!(case.session.close(), Ok(()));
    assert_eq!(case.session.crash(last), Ok(()));
    assert!(case.session.is_sound());
}

#[test]
fn every_operation_takes_a_session_of_the_cart() {
    for n in 1..=16 {
        for limit in [window(n) as usize, 63, 64] {
            let [cart, server] = [Caller::Cart, Caller::Server].map(|c| opened(c, n, limit));
            assert_eq!(cart.session, server.session);
            takes_everything(cart);
        }
    }
}

/// "soundness, 3, stays with the server's".
#[test]
fn sessions_past_the_limits_of_the_cart_are_sound() {
    for (n, limit) in [
        (17, 9),
        (17, 64),
        (1, 65),
        (16, 65),
        (64, 16),
        (1, 256),
        (64, 256),
    ] {
        assert!(Session::open(Caller::Cart, n, limit).is_err());
        takes_everything(opened(Caller::Server, n, limit));
    }
    for n in 17..=64 {
        let mut poll = Poll::open(Caller::Server, n).expect("an opening within bounds");
        assert!(poll.is_sound());
        assert_eq!(poll.propose(n - 1, 7), Ok(()));
        assert_eq!(poll.step(n - 1, &mut Counts::default()), Ok(None));
        assert_eq!(poll.crash(n - 1), Ok(()));
    }
}

/// A session of the cart that is damaged to a size which only the server opens stays
/// sound, and one past the server's does not.
#[test]
fn a_session_does_not_keep_its_caller() {
    for (limit, sound) in [
        (63, true),
        (65, true),
        (256, true),
        (257, false),
        (7, false),
    ] {
        let mut case = opened(Caller::Cart, 16, 64);
        case.session.limit = limit;
        assert_eq!(case.session.is_sound(), sound, "L {limit}");
    }
    for (n, sound) in [(15, true), (17, true), (64, true), (65, false), (0, false)] {
        let mut case = opened(Caller::Cart, 16, 64);
        case.session.n = n;
        assert_eq!(case.session.is_sound(), sound, "n {n}");
    }
}

#[test]
fn a_seat_of_the_cart_is_spent_in_round_64() {
    let mut case = opened(Caller::Cart, 16, 64);
    case.propose(15, 7);
    while case.process(15).phase != Phase::Exhausted {
        case.work(&[15]);
    }
    assert_eq!(case.process(15).to_string(), "spent round 64 value 7");
    assert_eq!(case.session.read_decision(), Ok(7));
    assert_eq!(case.step(15, true), Err(Refusal::ProcessSpent));
}

// ---------------------------------------------------------------- sheets

/// The refusal of a sheet by the server and by the cart.
fn both(bytes: &[u8]) -> [Option<u32>; 2] {
    [Caller::Server, Caller::Cart].map(|caller| refused(Sheet::read(caller, bytes)))
}

#[test]
fn headers() {
    for (caller, seats, rounds) in CALLERS {
        for (n, limit) in (0..=255).flat_map(|n| (0..=400).map(move |limit| (n, limit))) {
            let bytes = header(n, limit, &[]);
            let code = of_size((seats, rounds), usize::from(n), usize::from(limit));
            assert_eq!(refused(Sheet::read(caller, &bytes)), code);
        }
    }
}

/// Each number of a sheet in front of each later one, where the cart has 1 or 2 for what
/// the server opens.
#[test]
fn the_order_of_a_sheet() {
    let (early, ragged) = (&[(7, 1)], &[(8, 1)]);
    let sheet = |n, limit, pairs: &[_]| [header(n, limit, pairs), vec![9]].concat();
    // 10 first: a pair is missing.
    assert_eq!(both(&header(17, 65, early)[..7]), [Some(10), Some(10)]);
    assert_eq!(both(&header(16, 65, early)[..7]), [Some(10), Some(10)]);
    assert_eq!(both(&header(16, 64, early)[..7]), [Some(10), Some(10)]);
    // 1, then 2, then 11, then 12.
    assert_eq!(both(&sheet(17, 65, early)), [Some(11), Some(1)]);
    assert_eq!(both(&sheet(17, 64, early)), [Some(11), Some(1)]);
    assert_eq!(both(&sheet(17, 64, ragged)), [Some(12), Some(1)]);
    assert_eq!(both(&sheet(16, 65, early)), [Some(11), Some(2)]);
    assert_eq!(both(&sheet(16, 65, ragged)), [Some(12), Some(2)]);
    assert_eq!(both(&sheet(16, 64, early)), [Some(11), Some(11)]);
    assert_eq!(both(&sheet(16, 64, ragged)), [Some(12), Some(12)]);
    assert_eq!(both(&sheet(16, 64, &[(8, 0)])), [None, None]);
}

/// "the C entry and the report use the server's".
#[test]
fn the_entry_and_the_report_are_the_server_s() {
    for (n, limit, code) in [(17, 9, 1), (16, 65, 2), (64, 256, 1)] {
        let bytes = header(n, limit, &[]);
        assert_eq!(entry(&bytes, 0, &mut [0; 256]), 0);
        assert!(report(&bytes).starts_with("outcome finished 0\n"));
        let text = format!("sheet refused {code}\n");
        assert_eq!(report_of(Caller::Cart, 9, &bytes), text);
    }
}

#[test]
fn reports_of_the_cart_under_budgets() {
    let bytes = report_sheet();
    for budget in 0..=15 {
        let text = report_of(Caller::Cart, budget, &bytes);
        assert_eq!(text, report_of(Caller::Server, budget, &bytes));
        assert!(text.starts_with(&format!("outcome finished {}\n", budget.min(14))));
        assert_eq!(text.ends_with("seat 0 decided 7\n"), budget >= 14);
    }
    assert_eq!(report_of(Caller::Cart, 10_921, &bytes), report(&bytes));
}

// ---------------------------------------------------------------- the writer

/// What either caller gets for entries in runs, with so much room.
fn written(
    (n, limit): (usize, usize),
    entries: &[u8],
    runs: &[usize],
    room: usize,
) -> [Result<usize, u32>; 2] {
    [Caller::Server, Caller::Cart].map(|caller| {
        let mut output = vec![0xAA; room];
        let answer = write(caller, n, limit, entries, runs, &mut output);
        let kept = output == vec![0xAA; room];
        assert_eq!(answer.is_err(), kept);
        answer.map_err(Refusal::code)
    })
}

#[test]
fn sizes_that_are_written() {
    let sizes = || (0..=300).chain(HUGE);
    for (n, limit) in sizes().flat_map(|n| sizes().map(move |limit| (n, limit))) {
        let codes = CALLERS.map(|(_, seats, rounds)| of_size((seats, rounds), n, limit));
        let expected = codes.map(|code| code.map_or(Ok(4), Err));
        assert_eq!(written((n, limit), &[], &[], 4), expected);
    }
}

/// Each number of the writer in front of each later one, where the cart has 1 or 2 for
/// what the server writes.
#[test]
fn the_order_of_the_writer() {
    let (look, wrong) = (raw(2, 0, 0), raw(9, 0, 0));
    let cases: [(&[u8], &[usize], usize, u32); 4] = [
        (&look[..5], &[2], 0, 12),
        (&wrong, &[2], 0, 17),
        (&wrong, &[1], 0, 13),
        (&look, &[1], 13, 15),
    ];
    for (entries, runs, room, code) in cases {
        assert_eq!(written((17, 65), entries, runs, room), [Err(code), Err(1)]);
        assert_eq!(written((16, 65), entries, runs, room), [Err(code), Err(2)]);
        assert_eq!(written((16, 64), entries, runs, room), [Err(code); 2]);
    }
    assert_eq!(written((17, 65), &look, &[1], 14), [Ok(14), Err(1)]);
    assert_eq!(written((16, 65), &look, &[1], 14), [Ok(14), Err(2)]);
    assert_eq!(written((16, 64), &look, &[1], 14), [Ok(14); 2]);
}

// ---------------------------------------------------------------- the bytes of polls

#[test]
fn texts_of_polls() {
    let text = |caller, n| polls(&poll_bytes(caller, n, &[raw(0, 0, 7)]));
    for caller in CARTS {
        for n in 1..=16 {
            assert_eq!(text(caller, n), text(SERVER, n));
        }
        for n in 17..=64 {
            assert_eq!(text(caller, n), format!("poll {n} 1\n"));
            assert!(text(SERVER, n).starts_with(&format!("poll {n} 0\npropose 0 7 0\n")));
        }
        for n in [0, 65, 255] {
            assert_eq!(text(caller, n), format!("poll {n} 1\n"));
        }
    }
    // One of each, in one input.
    let bytes = [1, 0].map(|caller| poll_bytes(caller, 17, &[])).concat();
    assert!(polls(&bytes).starts_with("poll 17 1\npoll 17 0\ntally 0 0 0\n"));
}
