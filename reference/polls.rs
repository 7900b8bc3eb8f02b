//! Runs random polls in close contention through test_poll, a program of the proved
//! crates, and through the reference, and compares what they print, byte for byte.
//! (02, wish 6.) The format is described in `src/polls.rs`. Polls are those of the server
//! or of the bedside cart. (02, wish 9.) Some are closed as sessions are, after which every
//! call is refused with 3. (02, wish 10.)
//!
//! Of every poll it checks, beside that, what the wish claims: each answer's value
//! was proposed before; if one answer is committed v, all answers carry v; if all
//! accepted proposals are v, all answers are committed v. No process may take more
//! than W * W + 6 * W + 1 turns, D must stay blank, contested must be the number of
//! marked rounds, and no call may give 18.
//!
//! `polls TEST_POLL COUNT SEED`: so many polls from that seed through the program of
//! that path. Poll I of a seed is the same whatever the COUNT. It prints the seed, a table
//! of what the polls reached, and the most turns that a process took before its answer. It
//! ends with 1 at the first difference (`beside.rs` says how). From 4,000 polls on it ends
//! with 1, too, if anything was not reached as often as the table expects; fewer may
//! be too few for that, and it says so.

#[macro_use]
mod harness;
mod beside;

use std::process::ExitCode;

use beside::MOST_BYTES;
use harness::{cart, raw, shorter, word, ByN, Entry, Random, Reached, CLOSE, ONE_SEAT, SERVER};
use janus_reference::{
    poll_bytes, polls, window, Answer, Call, Caller, Counts, Phase, Poll, Process, Refusal, Voter,
};

// ---------------------------------------------------------------- polls

/// The most calls of a poll.
const MOST_CALLS: usize = (MOST_BYTES - 4) / 6;

/// One poll in bytes. So many of them are cut off at the end, which ends the input.
#[derive(Clone)]
struct Case {
    caller: u8,
    n: u8,
    calls: Vec<Entry>,
    cut: usize,
}

impl beside::Case for Case {
    const ONE: &'static str = "poll";
    const MANY: &'static str = "polls";
    const FULL: u64 = 4_000;
    type Coverage = Coverage;

    fn of(random: &mut Random) -> Case {
        let (n, calls) = match random.below(44) {
            0 | 1 => refused_opening(random),
            2 | 3 => (random.between(1, 64) as u8, noise(random)),
            4..=8 => (random.between(17, 64) as u8, noise(random)),
            _ => composed(random),
        };
        let length = 6 * calls.len();
        let cut = match random.below(100) {
            0 => length + random.below(4),
            1 | 2 => random.between(0, length.min(120)),
            _ => 0,
        };
        Case {
            caller: some_caller(random, n, calls.len()),
            n,
            calls,
            cut,
        }
    }

    fn bytes(&self) -> Vec<u8> {
        let mut bytes = poll_bytes(self.caller, self.n, &self.calls);
        bytes.truncate(bytes.len() - self.cut);
        bytes
    }

    fn text(bytes: &[u8]) -> String {
        polls(bytes)
    }

    fn is_cut(&self) -> bool {
        self.cut > 0
    }

    fn calls(&self) -> &[Entry] {
        &self.calls
    }

    fn with(&self, calls: Vec<Entry>) -> Case {
        let cut = self.cut.min(6 * calls.len() + 3);
        Case {
            calls,
            cut,
            ..*self
        }
    }

    fn words(&self, calls: &str) -> String {
        let caller = word(Caller::named(self.caller));
        format!("{caller}, n {}: {calls}", self.n)
    }

    fn call_words(call: Entry) -> String {
        match Call::decode(call) {
            Call::Propose { process, value } => format!("propose {process} {value}"),
            Call::Step { process } => format!("turn {process}"),
            Call::Crash { process } => format!("crash {process}"),
            Call::CloseAsSession => "close".to_string(),
            Call::ReadAsSession { process } => format!("session {process}"),
        }
    }
}

impl Case {
    /// The number of seats that the bytes tell: none where they end before it.
    fn seats(&self) -> usize {
        match self.cut > 6 * self.calls.len() + 2 {
            true => 0,
            false => usize::from(self.n),
        }
    }

    /// The calls that are whole.
    fn whole(&self) -> impl Iterator<Item = Call> + '_ {
        let whole = self.calls.len().saturating_sub(self.cut.div_ceil(6));
        self.calls[..whole].iter().map(|entry| Call::decode(*entry))
    }
}

/// Either caller. Where the cart alone is refused, it is the cart if there are few calls,
/// and mostly the server if there are many.
fn some_caller(random: &mut Random, n: u8, calls: usize) -> u8 {
    let as_cart = match n {
        17..=64 if calls < 12 => !random.once_in(5),
        17..=64 => random.once_in(20),
        _ => random.once_in(2),
    };
    match as_cart {
        true => cart(random),
        false => SERVER,
    }
}

/// A number of seats that either caller is refused, and calls that are then skipped.
fn refused_opening(random: &mut Random) -> (u8, Vec<Entry>) {
    let n = random.pick(&[0, 0, 65, 66, 128, 255]);
    (n, noise(random))
}

/// A few calls of any kind, most of them refused.
fn noise(random: &mut Random) -> Vec<Entry> {
    let call = |random: &mut Random| {
        let kind = random.pick(&[0, 0, 1, 1, 2, 3, 4, 255]);
        let process = random.pick(&[0, 0, 1, 2, 63, 64, 255]);
        let value = random.pick(&[0, 1, 256, 1 << 31]);
        raw(kind, process, value)
    };
    let length = random.below(12);
    (0..length).map(|_| call(random)).collect()
}

/// Which of the processes that work has the next turn.
#[derive(Clone, Copy)]
enum Style {
    /// Any, so many turns at a time.
    Bursts(usize),
    /// Any that is awake; processes fall asleep for long, at whatever stance.
    Sleepers,
    /// The one that is least far, so that all come to put together, round after
    /// round; any at all once in so many times.
    Abreast(usize),
    /// All abreast; in that round one at put runs alone. The others, where they would
    /// write another value, wait until it checks the round that they write to: then
    /// they do so once in so many times, or never before it has answered.
    Ambush(u32, usize),
}

/// Builds a list of calls along with the poll that they lead to.
struct Composer<'r> {
    random: &'r mut Random,
    poll: Poll,
    counts: Counts,
    calls: Vec<Entry>,
    /// The values that are proposed, one to three.
    values: Vec<u32>,
    style: Style,
    current: usize,
    asleep: u64,
    runner: Option<usize>,
    /// Processes that take part and are still to propose.
    late: Vec<usize>,
    /// Odds of a crash, of a call that is no part of the walk, and of a close, at each turn.
    crash: usize,
    stray: usize,
    close: usize,
}

/// A poll in close contention.
fn composed(random: &mut Random) -> (u8, Vec<Entry>) {
    let n = seats(random);
    let mut composer = Composer::new(random, n);
    composer.proposals();
    let target = composer.target();
    composer.contend(target);
    if composer.random.once_in(20) {
        composer.call(CLOSE);
    }
    for _ in 0..composer.random.below(12) {
        composer.stray();
    }
    (n as u8, composer.calls)
}

/// Most polls are small.
fn seats(random: &mut Random) -> usize {
    match random.below(64) {
        0..=3 => 1,
        4..=36 => random.between(2, 4),
        37..=47 => random.between(5, 8),
        48..=50 => random.between(9, 16),
        51..=62 => random.between(9, 63),
        _ => 64,
    }
}

impl<'r> Composer<'r> {
    fn new(random: &'r mut Random, n: usize) -> Composer<'r> {
        let last = window(n);
        let any = random.between(1, last as usize) as u32;
        let ambush = Style::Ambush(random.pick(&[any, last]), random.pick(&[2, 5, 0]));
        let early = Style::Ambush(1, random.pick(&[2, 5, 0, 0]));
        let styles = [
            Style::Bursts(1),
            Style::Bursts(random.between(2, 9)),
            Style::Bursts(40),
            Style::Sleepers,
            Style::Abreast(0),
            Style::Abreast(25),
            ambush,
            ambush,
            early,
            early,
        ];
        Composer {
            poll: Poll::open(Caller::Server, n).expect("a size within bounds"),
            counts: Counts::default(),
            calls: Vec::new(),
            values: values(random),
            style: random.pick(&styles),
            current: 0,
            asleep: 0,
            runner: None,
            late: Vec::new(),
            crash: random.pick(&[0, 0, 800, 150, 40]),
            stray: random.pick(&[0, 60, 20, 8]),
            close: random.pick(&[0, 0, 0, 0, 0, 0, 0, 200]),
            random,
        }
    }

    /// Carries out and adds a call, refused or not, while there is room.
    fn call(&mut self, entry: Entry) {
        if self.calls.len() < MOST_CALLS {
            // The answer shows in the poll.
            let _ = Call::decode(entry).carry_out(&mut self.poll, &mut self.counts);
            self.calls.push(entry);
        }
    }

    fn propose(&mut self, process: usize) {
        let value = self.random.pick(&self.values);
        self.call(raw(0, process, value));
    }

    /// Some processes take part, and most of them propose at once.
    fn proposals(&mut self) {
        let (n, random) = (self.poll.n, &mut *self.random);
        let most = match random.once_in(40) {
            true => n,
            false => n.min(random.between(3, 8)),
        };
        let skipped = random.pick(&[0, 0, 4]);
        let late = random.pick(&[0, 2, 5]);
        let first = random.below(n);
        for place in 0..most {
            let process = (first + place) % n;
            if self.random.once_in(late) {
                self.late.push(process);
            } else if !self.random.once_in(skipped) {
                self.propose(process);
            }
        }
    }

    /// So many calls are enough; mostly all that it takes till none works.
    fn target(&mut self) -> usize {
        match self.random.below(10) {
            0 => self.random.below(60),
            1 => self.random.below(600),
            _ => MOST_CALLS,
        }
    }

    /// Turns in the poll's style until there are so many calls, none works, or the poll is
    /// closed.
    fn contend(&mut self, target: usize) {
        while self.calls.len() < target && !self.poll.closed {
            let working: Vec<usize> = (0..self.poll.n).filter(|p| self.works(*p)).collect();
            if working.is_empty() || self.random.once_in(40) {
                match self.late.pop() {
                    Some(process) => self.propose(process),
                    None if working.is_empty() => break,
                    None => {}
                }
            } else if self.random.once_in(self.stray) {
                self.stray();
            } else if self.random.once_in(self.close) {
                self.call(CLOSE);
            } else {
                let process = self.next_process(&working);
                let kind = 1 + u8::from(self.random.once_in(self.crash));
                self.call(raw(kind, process, 0));
            }
        }
    }

    /// The record of a process that works.
    fn record(&self, process: usize) -> Option<&Process> {
        match self.poll.voters.get(process) {
            Some(Voter::Walking(record)) if working(record.phase) => Some(record),
            _ => None,
        }
    }

    fn works(&self, process: usize) -> bool {
        self.record(process).is_some()
    }

    fn next_process(&mut self, working: &[usize]) -> usize {
        match self.style {
            Style::Bursts(length) => {
                if self.random.once_in(length) || !self.works(self.current) {
                    self.current = self.random.pick(working);
                }
                self.current
            }
            Style::Sleepers => self.wakeful(working),
            Style::Abreast(any) if self.random.once_in(any) => self.random.pick(working),
            Style::Abreast(_) => self.least_far(working),
            Style::Ambush(round, odds) => self.ambush(round, odds, working),
        }
    }

    /// One of those awake; one wakes up or falls asleep now and then.
    fn wakeful(&mut self, working: &[usize]) -> usize {
        if self.random.once_in(12) {
            self.asleep ^= 1 << self.random.pick(working);
        }
        let tries = [0; 4].map(|_| self.random.pick(working));
        let awake = tries.iter().find(|p| self.asleep >> **p & 1 == 0);
        *awake.unwrap_or(&tries[0])
    }

    /// The one that is least far; by a random place where there are more.
    fn least_far(&mut self, working: &[usize]) -> usize {
        let first = self.random.below(working.len());
        let (before, from) = working.split_at(first);
        let least = from
            .iter()
            .chain(before)
            .min_by_key(|p| self.record(**p).map(far));
        *least.expect("one that works")
    }

    /// The one that is least far, until one at put becomes the runner; then that one,
    /// or one that writes behind it.
    fn ambush(&mut self, round: u32, odds: usize, working: &[usize]) -> usize {
        self.runner = self.runner.filter(|p| self.works(*p));
        if let Some(runner) = self.runner {
            return match self.waiting_for(runner, working) {
                Some(writer) if self.random.once_in(odds) => writer,
                _ => runner,
            };
        }
        let next = self.least_far(working);
        let there = |p: &Process| p.phase == Phase::Write && p.round == round;
        let runs = self.record(next).is_some_and(there) && self.random.once_in(2);
        self.runner = runs.then_some(next);
        next
    }

    /// A process at put with another value, in the round that the runner checks.
    fn waiting_for(&self, runner: usize, working: &[usize]) -> Option<usize> {
        let runner = self.record(runner)?;
        let (Phase::CheckMark(i) | Phase::CheckValue(i)) = runner.phase else {
            return None;
        };
        let writes = |process: &Process| {
            process.phase == Phase::Write
                && process.round == runner.round - i
                && process.estimate != runner.estimate
        };
        let mut numbers = working.iter().copied();
        numbers.find(|p| self.record(*p).is_some_and(writes))
    }

    /// A call on any process, there or not, that hardly disturbs the poll: a process
    /// that works does not crash by it. One that is closed may be closed again.
    fn stray(&mut self) {
        let n = self.poll.n;
        let process = match self.random.below(8) {
            0 => self.random.pick(&[n, 63, 64, 255]),
            _ => self.random.below(n),
        };
        let ignored = self.random.pick(&[0, 1, 1 << 31]);
        let entry = match self.random.below(8) {
            0 if self.poll.closed => raw(4, process, ignored),
            0 | 1 => raw(1, process, ignored),
            2 | 3 if !self.works(process) || self.poll.closed => raw(2, process, ignored),
            4 => raw(0, process, 0),
            5 => raw(0, process, self.random.pick(&self.values)),
            _ => raw(self.random.pick(&[3, 5, 128, 255]), process, ignored),
        };
        self.call(entry);
    }
}

/// One to three values, small ones and such as differ in a single byte.
fn values(random: &mut Random) -> Vec<u32> {
    let from: &[u32] = match random.below(3) {
        0 => &[1, 2, 3],
        1 => &[3, 8, 7, 4_000_000_000, u32::MAX],
        _ => &[1, 257, 65_537, 16_777_217, 0x8000_0001],
    };
    let count = random.pick(&[1, 2, 2, 2, 3, 3, 3]);
    let first = random.below(from.len());
    let places = (first..first + count).map(|place| place % from.len());
    places.map(|place| from[place]).collect()
}

/// Gate to commit.
fn working(phase: Phase) -> bool {
    !matches!(phase, Phase::Idle | Phase::Crashed)
}

/// How far a process that works is: the rounds it has done, then gate, put, the rest.
fn far(process: &Process) -> (u32, u8) {
    match process.phase {
        Phase::Waiting => (process.round, 0),
        Phase::Write => (process.round - 1, 1),
        _ => (process.round - 1, 2),
    }
}

// ---------------------------------------------------------------- coverage

events! {
    NoSeats: "1: no seats" at least 5,
    ManySeats: "1: over 64 seats" at least 20,
    Seats1: "opened, n = 1" at least 50,
    Seats2To8: "opened, n = 2 to 8" at least 1_000,
    Seats9To63: "opened, n = 9 to 63" at least 100,
    Seats64: "opened, n = 64" at least 20,
    CartNoSeats: "cart: 1, no seats" at least 5,
    CartNextSeats: "cart: 1, n = 17" at least 1,
    CartOther: "cart: 1, n = 18 to 64" at least 100,
    CartManySeats: "cart: 1, over 64 seats" at least 5,
    CartSeats: "cart: opened, n below 16" at least 1_000,
    CartMostSeats: "cart: opened, n = 16" at least 5,
    CartCommitted: "cart: committed" at least 1_000,
    CartAdopted: "cart: adopted" at least 500,
    CutShort: "poll that the input's end cuts short" at least 20,
    Proposed: "proposal" at least 5_000,
    ProposedLate: "proposal after another seat's turn" at least 1_000,
    ProposedLast: "proposal after another seat's answer" at least 500,
    GatePut: "gate, blank: put" at least 10_000,
    GateSeek: "gate, filled: seek r + 1" at least 5_000,
    GateTake: "gate, round W filled: take W" at least 200,
    PutBlank: "put into a blank register" at least 5_000,
    PutSame: "put over the same value" at least 2_000,
    PutOther: "put over another value" at least 2_000,
    SeekTake: "seek k, blank: take k - 1" at least 2_000,
    SeekOn: "seek k, filled: seek k + 1" at least 10_000,
    SeekLast: "seek W, filled: take W" at least 1_000,
    TakeSame: "take, own value as before" at least 2_000,
    TakeOther: "take, another value" at least 1_000,
    TakeChanged: "take, register changed since seen" at least 50,
    CompareOn: "compare i, equal" at least 50_000,
    CompareFlag: "compare i, different: flag i" at least 10_000,
    FlagFirst: "flag of an unmarked round" at least 1_000,
    FlagAgain: "flag of a marked round" at least 10_000,
    Unmarked: "check-mark i, unmarked: check-value i" at least 20_000,
    MarkedNow: "check-mark 0, marked: adopted" at least 200,
    MarkedBack: "check-mark i, marked: adopted, i above 0" at least 1_000,
    Equal: "check-value i, equal: check-mark i + 1" at least 20_000,
    EqualLast: "check-value W - 1, equal: commit" at least 2_000,
    OtherNow: "check-value 0, different: adopted" at least 10,
    OtherBack: "check-value i, different: adopted, i above 0" at least 20,
    Committed: "commit: committed" at least 2_000,
    CommittedOwn: "committed, the own proposal" at least 1_000,
    CommittedOther: "committed, another seat's proposal" at least 500,
    AdoptedOwn: "adopted, the own proposal" at least 1_000,
    AdoptedOther: "adopted, another seat's proposal" at least 500,
    CommittedShorter: "committed in a round below 01's window" at least 2_000,
    AdoptedShorter: "adopted in a round below 01's window" at least 1_000,
    CommittedOneSeat: "committed, n = 1, in round 2" at least 50,
    CrashGate: "crash at gate" at least 100,
    CrashPut: "crash at put" at least 50,
    CrashSeek: "crash at seek" at least 50,
    CrashTake: "crash at take" at least 20,
    CrashCompare: "crash at compare" at least 200,
    CrashFlag: "crash at flag" at least 20,
    CrashCheckMark: "crash at check-mark" at least 50,
    CrashCheckValue: "crash at check-value" at least 50,
    CrashCommit: "crash at commit" at least 5,
    NoSeatPropose: "4: proposal" at least 500,
    NoSeatTurn: "4: turn" at least 500,
    NoSeatCrash: "4: crash" at least 500,
    BlankOut: "5: seat out" at least 500,
    BlankOther: "5 where 6 would follow" at least 1_000,
    TwiceWorking: "6: seat works" at least 500,
    TwiceCrashed: "6: seat crashed" at least 100,
    TwiceCommitted: "6: seat committed" at least 200,
    TwiceAdopted: "6: seat adopted" at least 200,
    OutTurn: "7: turn" at least 1_000,
    OutCrash: "7: crash" at least 1_000,
    CrashedTurn: "8: turn, seat crashed" at least 200,
    CrashedCrash: "8: crash, seat crashed" at least 200,
    CommittedTurn: "8: turn, seat committed" at least 500,
    CommittedCrash: "8: crash, seat committed" at least 500,
    AdoptedTurn: "8: turn, seat adopted" at least 200,
    AdoptedCrash: "8: crash, seat adopted" at least 200,
    SessionRead: "session's read-out: 0" at least 2_000,
    SessionNoSeat: "session's read-out: 4" at least 200,
    SessionCommitted: "session's read-out: 3, a seat committed" at least 2_000,
    SessionAdopted: "session's read-out: 3, adopted seats only" at least 500,
    SessionFirst: "session's read-out: 3 where 4 would follow" at least 200,
    SessionClosed: "session's read-out: 0, closed" at least 50,
    Closed: "session's close: 0" at least 100,
    ClosedFirst: "session's close: 0, no seat has proposed" at least 20,
    ClosedAgain: "session's close: 0, closed already" at least 30,
    NotClosed: "session's close: 3, a seat answered" at least 50,
    ClosedPropose: "3: proposal, closed" at least 50,
    ClosedTurn: "3: turn, closed" at least 50,
    ClosedCrash: "3: crash, closed" at least 50,
    ClosedElse: "3, closed, where 0 would follow" at least 50,
    ClosedFour: "3, closed, where 4 would follow" at least 30,
    ClosedFive: "3, closed, where 5 would follow" at least 30,
    ClosedSix: "3, closed, where 6 would follow" at least 10,
    ClosedSeven: "3, closed, where 7 would follow" at least 50,
    ClosedEight: "3, closed, where 8 would follow" at least 2,
    LeftClosed: "poll left closed" at least 50,
    AllAnswered: "poll with every seat answered" at least 500,
    OneValue: "poll of one value, two or more committed" at least 200,
    Both: "poll with committed and adopted" at least 50,
    BothOther: "and another value adopted than proposed" at least 50,
    TwoAdopted: "poll with two adopted, none committed" at least 200,
    TwoValues: "poll with adopted of two values" at least 100,
}

/// The most turns of a process before its answer.
struct Longest {
    turns: u32,
    bound: u32,
    n: usize,
}

impl Longest {
    fn ratio(&self) -> f64 {
        f64::from(self.turns) / f64::from(self.bound)
    }
}

struct Coverage {
    reached: Reached,
    /// Answers in polls of either caller, and openings that the cart alone is refused.
    answers: ByN,
    cart_answers: ByN,
    cart_refused: ByN,
    longest: Longest,
    calls: u64,
}

impl beside::Coverage<Case> for Coverage {
    fn new() -> Coverage {
        Coverage {
            reached: Reached::none_of(EVENTS),
            answers: ByN::none_of("an answer as the server"),
            cart_answers: ByN::none_for(1..=16, "an answer as the cart"),
            cart_refused: ByN::none_for(17..=64, "1 as the cart, the server opens"),
            longest: Longest {
                turns: 0,
                bound: 1,
                n: 0,
            },
            calls: 0,
        }
    }

    fn case(&mut self, case: &Case) -> Result<(), String> {
        self.note_if(case.cut > 0, Event::CutShort);
        let (caller, n) = (Caller::named(case.caller), case.seats());
        let Ok(poll) = Poll::open(caller, n) else {
            self.refused(caller, n);
            return Ok(());
        };
        self.opened(caller, n);
        let mut observer = Observer::of(caller, poll);
        for call in case.whole() {
            observer.call(call, self)?;
            self.calls += 1;
        }
        observer.left(self)
    }

    fn calls(&self) -> u64 {
        self.calls
    }

    fn print(&self) -> Vec<String> {
        let mut missing = self.reached.print();
        for by_n in [&self.answers, &self.cart_answers, &self.cart_refused] {
            by_n.print(&mut missing);
        }
        let Longest { turns, bound, n } = self.longest;
        let ratio = self.longest.ratio();
        println!("most turns before an answer: {turns} of {bound} (n {n}), ratio {ratio:.3}");
        missing
    }
}

impl Coverage {
    fn note(&mut self, event: Event) {
        self.reached.note(event);
    }

    fn note_if(&mut self, happened: bool, event: Event) {
        self.reached.note_if(happened, event);
    }

    /// Notes a refused opening.
    fn refused(&mut self, caller: Caller, n: usize) {
        self.note(match (caller, n) {
            (Caller::Server, 0) => Event::NoSeats,
            (Caller::Server, _) => Event::ManySeats,
            (Caller::Cart, 0) => Event::CartNoSeats,
            (Caller::Cart, 17) => Event::CartNextSeats,
            (Caller::Cart, 18..=64) => Event::CartOther,
            (Caller::Cart, _) => Event::CartManySeats,
        });
        let server_opens = Poll::open(Caller::Server, n).is_ok();
        self.cart_refused.note_if(server_opens, n);
    }

    /// Notes an opening.
    fn opened(&mut self, caller: Caller, n: usize) {
        self.note(match n {
            1 => Event::Seats1,
            2..=8 => Event::Seats2To8,
            9..=63 => Event::Seats9To63,
            _ => Event::Seats64,
        });
        if caller == Caller::Cart {
            self.note(match n {
                16 => Event::CartMostSeats,
                _ => Event::CartSeats,
            });
        }
    }
}

/// A poll whose calls are noted.
struct Observer {
    caller: Caller,
    poll: Poll,
    counts: Counts,
    /// Of each process: its turns, its proposal, and what it last saw in a filled
    /// register at gate or in seek.
    turns: [u32; 64],
    own: [u32; 64],
    seen: [u32; 64],
    /// The accepted proposals and the answers, in order; the latter by process.
    proposed: Vec<u32>,
    answers: Vec<(usize, Answer)>,
}

impl Observer {
    fn of(caller: Caller, poll: Poll) -> Observer {
        Observer {
            caller,
            poll,
            counts: Counts::default(),
            turns: [0; 64],
            own: [0; 64],
            seen: [0; 64],
            proposed: Vec::new(),
            answers: Vec::new(),
        }
    }

    /// Carries out and notes one call.
    fn call(&mut self, call: Call, coverage: &mut Coverage) -> Result<(), String> {
        let Some(number) = call.process() else {
            return self.close(coverage);
        };
        let before = self.poll.voters.get(number).copied();
        let register = self.register(before);
        let answer = match call.carry_out(&mut self.poll, &mut self.counts) {
            Ok(answer) => answer,
            Err(Refusal::ClosedToProposals) => return Err(format!("{call:?} refused with 18")),
            Err(Refusal::Unsound) if self.poll.closed => {
                self.refused_closed(call, coverage);
                return Ok(());
            }
            Err(refusal) => {
                self.refused(call, before, refusal, coverage);
                return Ok(());
            }
        };
        let (Some(Voter::Walking(before)), after) = (before, self.poll.voters[number]) else {
            return Err(format!("{call:?} accepted of an answered seat"));
        };
        match call {
            Call::Propose { value, .. } => self.accepted(number, value, coverage),
            Call::Crash { .. } => coverage.note(crash(before.phase)),
            Call::CloseAsSession => unreachable!("a close is for no process"),
            Call::ReadAsSession { .. } => {
                coverage.note(Event::SessionRead);
                coverage.note_if(self.poll.closed, Event::SessionClosed);
            }
            Call::Step { .. } => {
                self.turns[number] += 1;
                coverage.note(match after {
                    Voter::Walking(after) => self.step(number, &before, &after, register),
                    Voter::Answered(..) => ended(&before),
                });
                self.more(number, &before, register);
            }
        }
        answer.map_or(Ok(()), |answer| self.answered(number, answer, coverage))
    }

    /// Carries out and notes a session's close, refused only where a seat has answered.
    fn close(&mut self, coverage: &mut Coverage) -> Result<(), String> {
        let (closed, call) = (self.poll.closed, Call::CloseAsSession);
        match call.carry_out(&mut self.poll, &mut self.counts) {
            Ok(_) => {
                coverage.note(Event::Closed);
                coverage.note_if(self.proposed.is_empty(), Event::ClosedFirst);
                coverage.note_if(closed, Event::ClosedAgain);
            }
            Err(_) if self.answers.is_empty() => return Err("a close refused".to_string()),
            Err(_) => coverage.note(Event::NotClosed),
        }
        Ok(())
    }

    /// Notes a refusal of a closed poll, and what an open one would have been told.
    fn refused_closed(&mut self, call: Call, coverage: &mut Coverage) {
        use Event::*;
        coverage.note(match call {
            Call::Propose { .. } => ClosedPropose,
            Call::Step { .. } => ClosedTurn,
            _ => ClosedCrash,
        });
        let (mut open, mut counts) = (self.poll.clone(), self.counts);
        open.closed = false;
        let next = call.carry_out(&mut open, &mut counts);
        coverage.note(match next.map_err(Refusal::code) {
            Ok(_) => ClosedElse,
            Err(4) => ClosedFour,
            Err(5) => ClosedFive,
            Err(6) => ClosedSix,
            Err(7) => ClosedSeven,
            Err(_) => ClosedEight,
        });
    }

    fn accepted(&mut self, number: usize, value: u32, coverage: &mut Coverage) {
        coverage.note(Event::Proposed);
        coverage.note_if(self.turns != [0; 64], Event::ProposedLate);
        coverage.note_if(!self.answers.is_empty(), Event::ProposedLast);
        self.own[number] = value;
        self.proposed.push(value);
    }

    /// Notes an answer, whose value must have been proposed.
    fn answered(
        &mut self,
        number: usize,
        answer: Answer,
        coverage: &mut Coverage,
    ) -> Result<(), String> {
        let own = answer.value() == self.own[number];
        coverage.note(match (answer, own) {
            (Answer::Committed(_), true) => Event::CommittedOwn,
            (Answer::Committed(_), false) => Event::CommittedOther,
            (Answer::Adopted(_), true) => Event::AdoptedOwn,
            (Answer::Adopted(_), false) => Event::AdoptedOther,
        });
        self.answers.push((number, answer));
        self.answer_round(number, coverage);
        let longest = Longest {
            turns: self.turns[number],
            bound: bound(self.poll.n),
            n: self.poll.n,
        };
        if longest.ratio() > coverage.longest.ratio() {
            coverage.longest = longest;
        }
        if self.proposed.contains(&answer.value()) {
            Ok(())
        } else {
            Err(format!("seat {number} {answer}, which none proposed"))
        }
    }

    /// Notes the round of an answer: by 02, wish 8, it is below 01's window.
    fn answer_round(&self, number: usize, coverage: &mut Coverage) {
        let Voter::Answered(answer, round) = self.poll.voters[number] else {
            return;
        };
        let (n, round) = (self.poll.n, round as usize);
        let (shorter, committed) = (shorter(n, round), matches!(answer, Answer::Committed(_)));
        match (self.caller, committed) {
            (Caller::Server, _) => coverage.answers.note(n),
            (Caller::Cart, true) => coverage.note(Event::CartCommitted),
            (Caller::Cart, false) => coverage.note(Event::CartAdopted),
        }
        coverage
            .cart_answers
            .note_if(self.caller == Caller::Cart, n);
        coverage.note_if(shorter && committed, Event::CommittedShorter);
        coverage.note_if(shorter && !committed, Event::AdoptedShorter);
        let one_seat = (n, round) == ONE_SEAT;
        coverage.note_if(one_seat && committed, Event::CommittedOneSeat);
    }

    /// What the register holds that a process is about to use: T[r], T[k], T[r - i] or
    /// C[r - i].
    fn register(&self, voter: Option<Voter>) -> u32 {
        let Some(Voter::Walking(process)) = voter else {
            return 0;
        };
        let (registers, r) = (&self.poll.registers, process.round);
        let value = |round: u32| registers.values[round as usize - 1];
        let mark = |round: u32| u32::from(registers.marks[round as usize - 1]);
        match process.phase {
            Phase::Waiting => value(r + 1),
            Phase::Write => value(r),
            Phase::Scan(k) | Phase::Adopt(k) => value(k),
            Phase::Compare(i) | Phase::CheckValue(i) => value(r - i),
            Phase::Flag(i) | Phase::CheckMark(i) => mark(r - i),
            _ => 0,
        }
    }

    /// The event of a turn without an answer, by the stances on either side and by
    /// what the register held before.
    fn step(&self, number: usize, before: &Process, after: &Process, register: u32) -> Event {
        use Event::*;
        match (before.phase, after.phase) {
            (Phase::Waiting, Phase::Write) => GatePut,
            (Phase::Waiting, Phase::Scan(_)) => GateSeek,
            (Phase::Waiting, _) => GateTake,
            (Phase::Write, _) if register == 0 => PutBlank,
            (Phase::Write, _) if register == before.estimate => PutSame,
            (Phase::Write, _) => PutOther,
            (Phase::Scan(_), Phase::Scan(_)) => SeekOn,
            (Phase::Scan(k), Phase::Adopt(to)) if k == to => SeekLast,
            (Phase::Scan(_), _) => SeekTake,
            (Phase::Adopt(_), _) if register != self.seen[number] => TakeChanged,
            (Phase::Adopt(_), _) if before.estimate == after.estimate => TakeSame,
            (Phase::Adopt(_), _) => TakeOther,
            (Phase::Compare(_), Phase::Flag(_)) => CompareFlag,
            (Phase::Compare(_), _) => CompareOn,
            (Phase::Flag(_), _) => [FlagFirst, FlagAgain][register as usize],
            (Phase::CheckMark(_), _) => Unmarked,
            (_, Phase::Commit) => EqualLast,
            _ => Equal,
        }
    }

    /// Keeps what a process saw in a filled register.
    fn more(&mut self, number: usize, before: &Process, register: u32) {
        if matches!(before.phase, Phase::Waiting | Phase::Scan(_)) && register != 0 {
            self.seen[number] = register;
        }
    }

    fn refused(
        &mut self,
        call: Call,
        voter: Option<Voter>,
        refusal: Refusal,
        coverage: &mut Coverage,
    ) {
        use Event::*;
        let kind = match call {
            Call::ReadAsSession { process } => return self.no_session(process, refusal, coverage),
            Call::Propose { .. } => 0,
            Call::Step { .. } => 1,
            Call::Crash { .. } | Call::CloseAsSession => 2,
        };
        let events = match (refusal, voter) {
            (Refusal::NoSuchProcess, _) => [NoSeatPropose, NoSeatTurn, NoSeatCrash],
            (Refusal::BlankProposal, Some(Voter::Walking(p))) if p.phase == Phase::Idle => {
                [BlankOut; 3]
            }
            (Refusal::BlankProposal, _) => [BlankOther; 3],
            (Refusal::ProcessOut, _) => [OutTurn, OutTurn, OutCrash],
            (_, Some(Voter::Answered(Answer::Committed(_), _))) => {
                [TwiceCommitted, CommittedTurn, CommittedCrash]
            }
            (_, Some(Voter::Answered(..))) => [TwiceAdopted, AdoptedTurn, AdoptedCrash],
            (_, Some(Voter::Walking(p))) if p.phase == Phase::Crashed => {
                [TwiceCrashed, CrashedTurn, CrashedCrash]
            }
            _ => [TwiceWorking; 3],
        };
        coverage.note(events[kind]);
    }

    /// Notes a refusal of the session's read-out.
    fn no_session(&self, process: usize, refusal: Refusal, coverage: &mut Coverage) {
        if refusal == Refusal::NoSuchProcess {
            return coverage.note(Event::SessionNoSeat);
        }
        coverage.note_if(process >= self.poll.n, Event::SessionFirst);
        coverage.note(match self.committed() {
            Some(_) => Event::SessionCommitted,
            None => Event::SessionAdopted,
        });
    }

    /// The value of the first committed answer.
    fn committed(&self) -> Option<u32> {
        self.answers.iter().find_map(|(_, answer)| match answer {
            Answer::Committed(value) => Some(*value),
            Answer::Adopted(_) => None,
        })
    }

    /// The process and the value of each adopted answer.
    fn adopted(&self) -> Vec<(usize, u32)> {
        let adopted = |(number, answer): &(usize, Answer)| match answer {
            Answer::Committed(_) => None,
            Answer::Adopted(value) => Some((*number, *value)),
        };
        self.answers.iter().filter_map(adopted).collect()
    }

    /// Whether no two proposals differ.
    fn one_value(&self) -> bool {
        self.proposed.windows(2).all(|pair| pair[0] == pair[1])
    }

    /// Notes how a poll was left, of which the claims must hold.
    fn left(self, coverage: &mut Coverage) -> Result<(), String> {
        let (answers, adopted) = (self.answers.len(), self.adopted());
        coverage.note_if(self.poll.closed, Event::LeftClosed);
        coverage.note_if(answers == self.poll.n, Event::AllAnswered);
        coverage.note_if(answers > 1 && self.one_value(), Event::OneValue);
        if self.committed().is_some() {
            let other = adopted.iter().any(|(p, value)| *value != self.own[*p]);
            coverage.note_if(!adopted.is_empty(), Event::Both);
            coverage.note_if(other, Event::BothOther);
        } else {
            let differ = adopted.windows(2).any(|pair| pair[0].1 != pair[1].1);
            coverage.note_if(adopted.len() > 1, Event::TwoAdopted);
            coverage.note_if(differ, Event::TwoValues);
        }
        self.claims()
    }

    /// What the wish claims of the answers, beside that they were proposed; and the
    /// turns, D and contested.
    fn claims(&self) -> Result<(), String> {
        if let Some(value) = self.committed() {
            let other = self.answers.iter().find(|(_, a)| a.value() != value);
            if let Some((number, answer)) = other {
                return Err(format!("a seat committed {value}, seat {number} {answer}"));
            }
        }
        if let (true, [(number, value), ..]) = (self.one_value(), &self.adopted()[..]) {
            return Err(format!("one value proposed, seat {number} adopted {value}"));
        }
        let (turns, bound) = (self.turns.iter().max(), bound(self.poll.n));
        if turns > Some(&bound) {
            return Err(format!("{turns:?} turns of a seat, {bound} are the most"));
        }
        let registers = &self.poll.registers;
        let marked = registers.marks.iter().filter(|mark| **mark).count();
        if registers.decision != 0 || self.counts.contested as usize != marked {
            let (decision, counts) = (registers.decision, self.counts);
            return Err(format!("D {decision}, tally {counts}, {marked} marked"));
        }
        Ok(())
    }
}

/// No process takes more turns than this in a poll. In each round r from 1 to W it has
/// at most a gate, a put or a take, r compares and r flags; beside these there are at
/// most W - 1 seeks, 2 * W checks and the commit.
fn bound(n: usize) -> u32 {
    let w = window(n);
    w * w + 6 * w + 1
}

fn crash(phase: Phase) -> Event {
    match phase {
        Phase::Waiting => Event::CrashGate,
        Phase::Write => Event::CrashPut,
        Phase::Scan(_) => Event::CrashSeek,
        Phase::Adopt(_) => Event::CrashTake,
        Phase::Compare(_) => Event::CrashCompare,
        Phase::Flag(_) => Event::CrashFlag,
        Phase::CheckMark(_) => Event::CrashCheckMark,
        Phase::CheckValue(_) => Event::CrashCheckValue,
        _ => Event::CrashCommit,
    }
}

/// The event of a turn with an answer.
fn ended(before: &Process) -> Event {
    match before.phase {
        Phase::CheckMark(0) => Event::MarkedNow,
        Phase::CheckMark(_) => Event::MarkedBack,
        Phase::CheckValue(0) => Event::OtherNow,
        Phase::CheckValue(_) => Event::OtherBack,
        _ => Event::Committed,
    }
}

fn main() -> ExitCode {
    beside::run::<Case>()
}
