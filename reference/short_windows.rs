//! Lists of calls in which two steps commit different values, at windows below the
//! bound of 02, wish 7, "W times W at least 4n": the other side of the agreement rule.
//!
//! - `short_windows` runs the lists and their controls on the reference, at windows
//!   that it names, and prints what comes of them. It ends with 1 after telling the
//!   first thing that is not as said here.
//! - `short_windows list W` prints the list of the construction for window W, and
//!   `short_windows short W` a shorter one that was found by search, for W = 2, 3 or 4,
//!   in the lines that `examples/sheet.py` makes a sheet of. `reference trace W` then
//!   shows it entry by entry.
//!
//! The construction is for a session of L = 2W - 1 or more, two values u and v, and
//! hints yes.
//! Epoch i is the time in which round i is the highest one written. In each epoch i
//! from 1 to W - 1 processes pass round i with one value, a(i), and then, when registers
//! 1 to i have been written over, with the other one, b(i); a(i + 1) is b(i), and
//! b(W - 1) is v. For that processes wait at put in register j: one that writes it
//! first, with a(j), and one for each epoch e from j to W - 1 that writes over it in
//! that epoch, with b(e). They get there in epoch j - 1, when register j is blank, in
//! the pass of their value. No process meets another value than its own, so nothing is
//! flagged.
//!
//! In the end two processes stand at put in register W, one with v and one with u, and
//! registers 1 to W - 1 hold v. The one with v writes, and commits in round W. The other
//! one writes over it and goes on alone; it marks rounds below W, and commits u in round
//! 2W - 1, whose window is all u. A process that wrote is free again and can wait
//! further up, so a few more than W * W / 4 of them are enough.
//!
//! Up to the write of u in round W no more than W rounds are used. So at every L from W
//! on the list breaks the rule: v is committed in round W, and u is written there.

use std::fmt::Debug;
use std::io::{self, Write};
use std::iter::repeat_n;
use std::process::ExitCode;

use janus_reference::random::Random;
use janus_reference::session::{MAX_PROCESSES, MAX_ROUNDS};
use janus_reference::{window, Answer, Counts, Operation, Phase, Poll, Refusal, Session};

/// What is found, or what is not as said.
type Found<T> = Result<T, String>;

// ---------------------------------------------------------------- lists

/// A list of calls for a session or poll of n processes, and the window it is for.
struct List {
    window: usize,
    limit: usize,
    n: usize,
    calls: Vec<Operation>,
}

impl List {
    fn new(window: usize, limit: usize) -> List {
        List {
            window,
            limit,
            n: 0,
            calls: Vec::new(),
        }
    }

    /// A proposal by one more process.
    fn propose(&mut self, value: u32) -> usize {
        let process = self.n;
        self.n += 1;
        self.calls.push(Operation::Propose { process, value });
        process
    }

    /// So many steps of a process, told to lead. (01: work turns with hint yes.)
    fn step(&mut self, process: usize, times: usize) {
        let step = Operation::Step {
            process,
            leader: true,
        };
        self.calls.extend(repeat_n(step, times));
    }

    /// 01: a look.
    fn learn(&mut self, process: usize) {
        self.calls.push(Operation::Learn { process });
    }

    /// How many of the calls are steps.
    fn steps(&self) -> usize {
        let step = |call: &&Operation| matches!(call, Operation::Step { .. });
        self.calls.iter().filter(step).count()
    }
}

// ---------------------------------------------------------------- the construction

/// u and v.
const U: u32 = 1;
const V: u32 = 2;

/// The construction's list as it grows. How many steps a walk has comes from 01, "One
/// turn at a time"; no session is asked.
struct Construction {
    list: List,
    /// Processes at the gate, each with its round; the one that came last goes first.
    free: Vec<(usize, usize)>,
    /// For each epoch the processes at put in registers 1, 2, .. that write in it.
    waiting: Vec<Vec<usize>>,
}

impl Construction {
    /// All epochs; then the two processes at put in register W, that with v and that
    /// with u.
    fn epochs(window: usize, limit: usize) -> (List, usize, usize) {
        let mut construction = Construction {
            list: List::new(window, limit),
            free: Vec::new(),
            waiting: vec![Vec::new(); window + 1],
        };
        let mut first = construction.go_on(0, construction.first_value(1));
        construction.wait_above(0, U);
        construction.wait_above(0, V);
        for epoch in 1..window {
            first = construction.epoch(epoch, first);
        }
        (construction.list, first, construction.waiting[window][0])
    }

    /// a(i).
    fn first_value(&self, epoch: usize) -> u32 {
        if (self.list.window + epoch) % 2 == 0 {
            V
        } else {
            U
        }
    }

    /// b(i).
    fn second_value(&self, epoch: usize) -> u32 {
        self.first_value(epoch + 1)
    }

    /// Both passes of an epoch, begun by the process that writes its register first;
    /// returned is the one that does so in the next.
    fn epoch(&mut self, epoch: usize, first: usize) -> usize {
        // The put, and a compare for each round.
        self.list.step(first, 1 + epoch);
        self.free.push((first, epoch));
        self.wait_above(epoch, self.first_value(epoch));
        let writers = std::mem::take(&mut self.waiting[epoch]);
        for process in &writers {
            self.list.step(*process, 1);
        }
        for (process, round) in writers.into_iter().zip(1..) {
            self.list.step(process, round);
            self.free.push((process, round));
        }
        let value = self.second_value(epoch);
        let next = self.go_on(epoch, value);
        self.wait_above(epoch, value);
        next
    }

    /// While registers 1 to i hold that value, those go on to put in register i + 1 that
    /// write it there in a later epoch below W or, in register W, at the end.
    fn wait_above(&mut self, epoch: usize, value: u32) {
        for later in epoch + 1..self.list.window.max(epoch + 2) {
            if self.second_value(later) == value {
                let process = self.go_on(epoch, value);
                self.waiting[later].push(process);
            }
        }
    }

    /// A free process, or a new one, goes on to put in register i + 1 with the value
    /// that registers 1 to i hold.
    fn go_on(&mut self, epoch: usize, value: u32) -> usize {
        let free = self.free.pop();
        let (process, round) = free.unwrap_or_else(|| (self.list.propose(value), 0));
        if round < epoch {
            // The gate, the seeks to the blank register, the take, the compares.
            self.list.step(process, 1 + (epoch - round) + 1 + epoch);
        }
        self.list.step(process, 1);
        process
    }
}

/// The process with v: the put in register W, the compares, the checks, the commit.
fn commit(list: &mut List, process: usize) {
    list.step(process, 1 + list.window + 2 * list.window + 1);
}

/// The process with u, alone in round W or above: it flags the rounds of the window
/// that hold v and checks its own until a mark ends that. In round 2W - 1 all are its
/// own, and the last step is the commit.
fn overtake(list: &mut List, process: usize, round: usize) {
    let own = round + 1 - list.window;
    let gate = usize::from(own > 1);
    let flags = list.window - own;
    list.step(process, gate + 1 + list.window + flags + 2 * own + 1);
}

/// The construction's list for a session of the fewest rounds.
fn session_list(window: usize) -> List {
    decided_list(window, 2 * window - 1)
}

/// Of at least as many rounds. Each process learns right after its commit.
fn decided_list(window: usize, limit: usize) -> List {
    let (mut list, first, last) = Construction::epochs(window, limit);
    commit(&mut list, first);
    list.learn(first);
    for round in window..2 * window {
        overtake(&mut list, last, round);
    }
    list.learn(last);
    list
}

/// The list up to the write of u in round W, for a session of any L from W on.
fn written_list(window: usize, limit: usize) -> List {
    let (mut list, first, last) = Construction::epochs(window, limit);
    commit(&mut list, first);
    list.step(last, 1);
    list
}

/// And for a poll, which has L = W: there the process with u answers in round W.
fn poll_list(window: usize) -> List {
    let (mut list, first, last) = Construction::epochs(window, window);
    commit(&mut list, first);
    overtake(&mut list, last, window);
    list
}

// ---------------------------------------------------------------- found by search

/// A list for a session of L = 2W - 1.
struct Searched {
    window: usize,
    /// Of processes 0, 1, ..
    proposals: &'static [u32],
    /// The processes of the steps, `*` before how many in a row.
    steps: &'static str,
    /// What is committed in rounds W and 2W - 1.
    values: [u32; 2],
}

const SEARCHED: [Searched; 3] = [
    Searched {
        window: 2,
        proposals: &[U, V],
        steps: "0 1 0*3 1*8 0*3 1 0*11 1 0 1 0",
        values: [V, U],
    },
    Searched {
        window: 3,
        proposals: &[U, V, U],
        steps: "0 2 1 0*3 1*5 0*2 1*2 2 0*8 1*3 0 1*2 0*2 1*25 0 1 0 1",
        values: [U, V],
    },
    Searched {
        window: 4,
        proposals: &[U, V, U, V, U],
        steps: "0 2 4 1 3 0 1*3 2 0*2 2*2 0*2 1*2 0*2 3 1*4 0*2 1 2 0 1*2 4 0*16 1*53",
        values: [U, V],
    },
];

impl Searched {
    /// Processes 0 and 1 commit in their last steps, and then learn.
    fn list(&self) -> List {
        let mut list = List::new(self.window, 2 * self.window - 1);
        for value in self.proposals {
            list.propose(*value);
        }
        let words: Vec<&str> = self.steps.split(' ').collect();
        let rows: Vec<(usize, usize)> = words.into_iter().map(in_row).collect();
        for (place, &(process, times)) in rows.iter().enumerate() {
            list.step(process, times);
            let last = rows[place + 1..].iter().all(|row| row.0 != process);
            if last && process < 2 {
                list.learn(process);
            }
        }
        list
    }
}

/// The process of a word, and how many steps it takes in a row.
fn in_row(word: &str) -> (usize, usize) {
    let number = |word: &str| word.parse().expect("a number");
    let (process, times) = word.split_once('*').unwrap_or((word, "1"));
    (number(process), number(times))
}

// ---------------------------------------------------------------- sessions

/// What the steps of a list wrote and committed, each with its round. (01, "The
/// agreement rule".)
#[derive(Default)]
struct Past {
    written: Vec<(u32, u32)>,
    committed: Vec<(u32, u32)>,
}

impl Past {
    /// Whether two steps commit different values.
    fn differs(&self) -> bool {
        let first = self.committed.first().map(|commit| commit.1);
        self.committed.iter().any(|commit| Some(commit.1) != first)
    }

    /// If a step commits v in round R, every value that is written to the register of
    /// round R or a later one is v; so, then, is every value that is committed.
    fn agrees(&self) -> Found<()> {
        for (round, value) in &self.committed {
            let mut above = self.written.iter().filter(|write| write.0 >= *round);
            if let Some((later, other)) = above.find(|write| write.1 != *value) {
                return Err(format!(
                    "{value} committed in round {round}, {other} written in round {later}"
                ));
            }
        }
        Ok(())
    }
}

/// A session at a window, along a list.
struct Play {
    window: u32,
    session: Session,
    counts: Counts,
    past: Past,
}

impl Play {
    fn open(window: usize, n: usize, limit: usize) -> Found<Play> {
        let window = window as u32;
        let session = Session::open_at(window, n, limit).map_err(refused)?;
        Ok(Play {
            window,
            session,
            counts: Counts::default(),
            past: Past::default(),
        })
    }

    /// One call. It tests the soundness of what the call before left. The lists here have
    /// no closes.
    fn call(&mut self, call: Operation) -> Result<(), Refusal> {
        let process = call.process().expect("a call of a process");
        let before = self.session.processes[process];
        self.session.apply_at(self.window, call, &mut self.counts)?;
        let done = (before.round, before.estimate);
        match (call, before.phase) {
            (Operation::Step { .. }, Phase::Write) => self.past.written.push(done),
            (Operation::Step { .. }, Phase::Commit) => self.past.committed.push(done),
            _ => {}
        }
        Ok(())
    }

    /// The values of the decided processes, in order.
    fn decided(&self) -> Vec<u32> {
        let processes = self.session.processes.iter();
        let decided = processes.filter(|process| process.phase == Phase::Decided);
        let mut values: Vec<u32> = decided.map(|process| process.estimate).collect();
        values.sort_unstable();
        values
    }

    fn check_sound(&self) -> Found<()> {
        sound(self.session.is_sound_at(self.window))
    }
}

fn refused(refusal: Refusal) -> String {
    format!("refused {}", refusal.code())
}

fn sound(is_sound: bool) -> Found<()> {
    if is_sound {
        Ok(())
    } else {
        Err("left unsound".to_string())
    }
}

/// What is found must be what is said.
fn same<T: PartialEq + Debug>(what: &str, found: T, said: T) -> Found<()> {
    if found == said {
        Ok(())
    } else {
        Err(format!("{what} {found:?}, not {said:?}"))
    }
}

/// Carries out the calls of a list, one after another.
fn carry_out(list: &List, mut call: impl FnMut(Operation) -> Found<()>) -> Found<()> {
    for (index, operation) in list.calls.iter().enumerate() {
        call(*operation).map_err(|wrong| format!("call {index}, {operation}: {wrong}"))?;
    }
    Ok(())
}

/// In a session of n processes every call is accepted and leaves it sound; two steps
/// commit, these values in rounds W and 2W - 1; and two processes are decided, with one
/// of them each.
fn two_commits(list: &List, n: usize, [first, second]: [u32; 2]) -> Found<()> {
    let check = || {
        let mut play = Play::open(list.window, n, list.limit)?;
        carry_out(list, |call| {
            play.call(call).map_err(refused)?;
            play.check_sound()
        })?;
        let commits = vec![(play.window, first), (2 * play.window - 1, second)];
        same("commits by round", &play.past.committed, &commits)?;
        same("decided", play.decided(), vec![U, V])
    };
    check().map_err(|wrong| format!("W {}, {n} seats: {wrong}", list.window))
}

/// In a session every call is accepted and leaves it sound; one step commits, v in round
/// W, and the last one writes u there.
fn written_over(list: &List) -> Found<()> {
    let check = || {
        let mut play = Play::open(list.window, list.n, list.limit)?;
        carry_out(list, |call| play.call(call).map_err(refused))?;
        play.check_sound()?;
        let round = play.window;
        same("commits by round", &play.past.committed, &vec![(round, V)])?;
        same(
            "the last write",
            play.past.written.last(),
            Some(&(round, U)),
        )
    };
    check().map_err(|wrong| format!("W {}, L {}: {wrong}", list.window, list.limit))
}

// ---------------------------------------------------------------- polls

/// In a poll every call is accepted and leaves it sound; one answer is committed v, and
/// one adopted u.
fn two_answers(list: &List) -> Found<()> {
    let window = list.window as u32;
    let check = || {
        let mut poll = Poll::open_at(window, list.n).map_err(refused)?;
        let (mut counts, mut answers) = (Counts::default(), Vec::new());
        carry_out(list, |call| {
            let answer = match call {
                Operation::Propose { process, value } => {
                    poll.propose_at(window, process, value).map(|()| None)
                }
                Operation::Step { process, .. } => poll.step_at(window, process, &mut counts),
                _ => return Err("no call on a poll".to_string()),
            };
            answers.extend(answer.map_err(refused)?);
            sound(poll.is_sound_at(window))
        })?;
        let said = vec![Answer::Committed(V), Answer::Adopted(U)];
        same("answers", answers, said)
    };
    check().map_err(|wrong| format!("W {window}, poll of {} seats: {wrong}", list.n))
}

// ---------------------------------------------------------------- what is said

/// For W = 2, 3, ..: how many processes the construction's list needs, and its steps.
const SAID: [(usize, usize); 15] = [
    (2, 32),
    (3, 62),
    (5, 107),
    (7, 169),
    (10, 251),
    (14, 356),
    (18, 486),
    (22, 643),
    (27, 830),
    (33, 1050),
    (39, 1305),
    (45, 1597),
    (52, 1929),
    (60, 2304),
    (68, 2724),
];

/// The largest window whose list a session has the processes for.
const LARGEST: usize = 15;

/// The n from 2 to 64 that are too few for the list of the window one less than the
/// least within the bound: that one is safe too.
const SAFE: [usize; 15] = [13, 17, 21, 26, 31, 32, 37, 38, 43, 44, 50, 51, 57, 58, 59];

/// The threshold of a window: it is safe for fewer processes alone.
fn threshold(window: usize) -> usize {
    let half = window / 2;
    let rest = window - half;
    rest * half + (rest / 2).max(1)
}

/// The bound of 02, wish 7.
fn within_bound(window: usize, n: usize) -> bool {
    window * window >= 4 * n
}

/// The least window within the bound.
fn least_window(n: usize) -> usize {
    let least = (2..).find(|window| within_bound(*window, n));
    least.expect("squares grow")
}

/// Two commits in a session of no more processes than the list needs, in words.
fn commits(list: &List, values: [u32; 2]) -> Found<String> {
    two_commits(list, list.n, values)?;
    let ([first, second], window, last) = (values, list.window, list.limit);
    Ok(format!(
        "{first} committed in round {window}, {second} in round {last}"
    ))
}

/// The construction in sessions, at every window. One more is within the bound.
fn check_construction() -> Found<()> {
    for (window, said) in (2..).zip(SAID) {
        let list = session_list(window);
        let (seats, turns) = (list.n, list.steps());
        let end = if window <= LARGEST {
            commits(&list, [V, U])?
        } else {
            "more seats than a session has".to_string()
        };
        let bounds = [window, window + 1].map(|window| within_bound(window, seats));
        same("seats and work turns", (seats, turns), said)
            .and_then(|()| same("seats", seats, threshold(window)))
            .and_then(|()| same("within the bound, and one more", bounds, [false, true]))
            .map_err(|wrong| format!("W {window}: {wrong}"))?;
        let most = window * window / 4;
        println!("W {window}: {seats} seats, {most} within the bound, {turns} work turns: {end}");
    }
    Ok(())
}

/// The lists that were found by search.
fn check_searched() -> Found<()> {
    for found in &SEARCHED {
        let list = found.list();
        let end = commits(&list, found.values)?;
        let (window, seats, turns) = (list.window, list.n, list.steps());
        println!("found by search, W {window}: {seats} seats, {turns} work turns: {end}");
    }
    Ok(())
}

/// The construction in polls, at every window.
fn check_polls() -> Found<()> {
    for window in 2..=LARGEST {
        two_answers(&poll_list(window))?;
    }
    println!("polls, W from 2 to {LARGEST}: one answer committed {V}, another adopted {U}");
    Ok(())
}

/// The least window within the bound is the one in service. (02, wish 8.)
fn check_service() -> Found<()> {
    for n in 1..=MAX_PROCESSES {
        same("in service", window(n) as usize, least_window(n))
            .map_err(|wrong| format!("n {n}: {wrong}"))?;
    }
    println!("in service, n from 1 to {MAX_PROCESSES}: the least W within the bound");
    Ok(())
}

/// Whether the least window within the bound can be one less: not where the list for
/// that one finds the processes it needs, the others staying out.
fn check_least() -> Found<()> {
    let (mut sharp, mut safe) = (0, Vec::new());
    for n in 2..=MAX_PROCESSES {
        let list = session_list(least_window(n) - 1);
        if list.n <= n {
            two_commits(&list, n, [V, U])?;
            sharp += 1;
        } else {
            safe.push(n);
        }
    }
    same("too few", &safe[..], &SAFE)?;
    println!("one less than the least W within the bound, n from 2 to {MAX_PROCESSES}: two commits for {sharp}, too few seats for {safe:?}");
    Ok(())
}

/// The construction in sessions, at every window and every L that is accepted there.
fn check_limits() -> Found<()> {
    for window in 2..=LARGEST {
        for limit in window..=MAX_ROUNDS {
            written_over(&written_list(window, limit))?;
        }
        for limit in 2 * window - 1..=MAX_ROUNDS {
            let list = decided_list(window, limit);
            two_commits(&list, list.n, [V, U]).map_err(|wrong| format!("L {limit}, {wrong}"))?;
        }
    }
    println!("W from 2 to {LARGEST}, L from W to {MAX_ROUNDS}: {V} committed and {U} written in round W; L from 2W - 1: {U} committed too");
    Ok(())
}

// ---------------------------------------------------------------- controls

/// A phase in which a process's steps in a row end; they end, too, where it is spent.
type Stop = fn(Phase) -> bool;

const ONE_STEP: Stop = |_| true;
const PUT: Stop = |phase| phase == Phase::Write;
const PUT_OR_GATE: Stop = |phase| matches!(phase, Phase::Write | Phase::Waiting);
const SPENT: Stop = |_| false;

impl Play {
    /// Steps of one process in a row.
    fn run(&mut self, process: usize, stop: Stop) {
        let leader = true;
        while self.call(Operation::Step { process, leader }).is_ok() {
            if stop(self.session.processes[process].phase) {
                break;
            }
        }
    }

    /// Steps in close contention: most processes stop right before they write, and do
    /// so late. In the end a few go on alone.
    fn contend(&mut self, random: &mut Random) {
        let n = self.session.n;
        let stops: &[Stop] = random.pick(&[
            &[PUT],
            &[PUT, PUT_OR_GATE],
            &[PUT, PUT, PUT, PUT_OR_GATE],
            &[PUT, PUT, PUT_OR_GATE, ONE_STEP],
        ]);
        for _ in 0..random.between(4 * n, 12 * n) {
            self.run(random.below(n), random.pick(stops));
        }
        for _ in 0..4 {
            self.run(random.below(n), SPENT);
        }
    }

    fn end(self) -> Found<Past> {
        self.check_sound()?;
        Ok(self.past)
    }
}

/// A random list from an opening, in which every process proposes u or v.
fn random_list(window: usize, n: usize, index: u64) -> Found<Past> {
    let random = &mut Random::of(1, index);
    let limit = random.between(window, 3 * window);
    let mut play = Play::open(window, n, limit)?;
    for process in 0..n {
        let value = random.pick(&[U, V]);
        let call = Operation::Propose { process, value };
        play.call(call).map_err(refused)?;
    }
    play.contend(random);
    play.end()
}

/// The epochs of the construction, at some window, and a random list from there.
fn random_end(window: usize, epochs: &List, index: u64) -> Found<Past> {
    let mut play = Play::open(window, epochs.n, 3 * window)?;
    carry_out(epochs, |call| play.call(call).map_err(refused))?;
    play.contend(&mut Random::of(2, index));
    play.end()
}

/// A list at the next larger window and that L, refused calls being left out. Then
/// each process goes on alone.
fn next_window(list: &List, limit: usize) -> Found<Past> {
    let mut play = Play::open(list.window + 1, list.n, limit)?;
    for call in &list.calls {
        let _ = play.call(*call);
    }
    for process in 0..list.n {
        play.run(process, SPENT);
    }
    play.end()
}

/// Lists that must all keep the rule, or of which some must commit two values.
fn tried(what: &str, kept: bool, lists: impl Iterator<Item = Found<Past>>) -> Found<()> {
    let (mut all, mut commit, mut differ) = (0, 0, 0);
    for past in lists {
        let told = |wrong| format!("{what}, list {all}: {wrong}");
        let past = past.map_err(told)?;
        if kept {
            past.agrees().map_err(told)?;
        }
        all += 1;
        commit += usize::from(!past.committed.is_empty());
        differ += usize::from(past.differs());
    }
    println!("{what}: {all} lists, {commit} commit, {differ} two values");
    let what = format!("{what}: some commit, some two values:");
    same(&what, (commit > 0, differ > 0), (true, !kept))
}

/// Lists at windows within the bound; and such as are made in the same way, at shorter
/// windows, where some commit two values.
fn check_controls() -> Found<()> {
    let windows = 2..=LARGEST;
    let lists: Vec<List> = windows.clone().map(session_list).collect();
    let limited = |list: &List| [list.limit, 3 * list.window];
    let next = lists
        .iter()
        .flat_map(|list| limited(list).map(|limit| next_window(list, limit)));
    tried("the construction at W + 1", true, next)?;

    let cases = (2..=16).flat_map(|n| (0..200).map(move |index| (n, index)));
    let random = cases.map(|(n, index)| random_list(least_window(n), n, index));
    tried(
        "random, n from 2 to 16, least W within the bound",
        true,
        random,
    )?;
    let random = (0..1000).map(|index| random_list(2, 2, index));
    tried("random, n 2, W 2", false, random)?;

    let epochs: Vec<List> = windows.map(|w| Construction::epochs(w, w).0).collect();
    let cases = || (0..10).flat_map(|index| epochs.iter().map(move |list| (list, index)));
    let ends = cases().map(|(list, index)| random_end(list.window + 1, list, index));
    tried("the construction with random ends, at W + 1", true, ends)?;
    let ends = cases().map(|(list, index)| random_end(list.window, list, index));
    tried("the construction with random ends, at W", false, ends)
}

// ---------------------------------------------------------------- the program

const USAGE: &str =
    "usage: short_windows [list W | short W]   (list: W from 2 to 15; short: W from 2 to 4)";

fn check() -> Found<()> {
    check_construction()?;
    check_searched()?;
    check_polls()?;
    check_service()?;
    check_least()?;
    check_limits()?;
    check_controls()
}

/// The list that the words ask for.
fn asked(words: &[&str]) -> Option<List> {
    let [kind, window] = words else {
        return None;
    };
    let window = window.parse().ok()?;
    match *kind {
        "list" if (2..=LARGEST).contains(&window) => Some(session_list(window)),
        "short" => {
            let found = SEARCHED.iter().find(|found| found.window == window);
            found.map(Searched::list)
        }
        _ => None,
    }
}

/// The lines that `examples/sheet.py` reads.
fn list_text(list: &List) -> String {
    let sizes = format!("# window {}\nn {}\nL {}\n", list.window, list.n, list.limit);
    let calls = list.calls.iter().map(|call| format!("{call}\n"));
    sizes + &calls.collect::<String>()
}

fn fail(message: &str) -> ExitCode {
    eprintln!("{message}");
    ExitCode::from(2)
}

fn main() -> ExitCode {
    let arguments: Vec<String> = std::env::args().skip(1).collect();
    let words: Vec<&str> = arguments.iter().map(String::as_str).collect();
    if words.is_empty() {
        return match check() {
            Ok(()) => ExitCode::SUCCESS,
            Err(wrong) => {
                println!("wrong: {wrong}");
                ExitCode::FAILURE
            }
        };
    }
    let Some(list) = asked(&words) else {
        return fail(USAGE);
    };
    match io::stdout().write_all(list_text(&list).as_bytes()) {
        Ok(()) => ExitCode::SUCCESS,
        Err(error) => fail(&format!("short_windows: {error}")),
    }
}
