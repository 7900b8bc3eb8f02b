//! Runs random sheets through the library under test and through the reference
//! and compares what the C entry answers and leaves in its buffer, and the board
//! report's text, which has the counts. Contested must be the number of marked
//! rounds of the session that a sheet leaves, and the mark closed where a close is among
//! the entries carried out. (02, wish 10.) The report is compared once more of each
//! sheet that is run as the bedside cart. (02, wish 9.)
//!
//! `differential [COUNT] [SEED]`: so many sheets (100,000 where left out) from
//! that seed (the clock where left out). Sheet I of a seed is the same whatever
//! the COUNT. It prints the seed, a table of what the sheets reached, and the
//! time either side took. It ends with 1 at the first difference, after writing
//! the sheet to `difference-SEED-INDEX.sheet`; a fault or an endless run of the
//! library counts as one. From 100,000 sheets on it ends with 1, too, if anything
//! was not reached as often as the table expects; fewer sheets may be too few for
//! that, and it says so.
//!
//! The library is linked in statically (`library.rs`). Where the environment
//! variable BOARD_REPORT names the report's program, that is run on every 50th of
//! the first 100,000 sheets, and its text is compared too.

#[macro_use]
mod harness;
mod library;

use std::ffi::OsStr;
use std::io::{self, Write};
use std::process::{Command, ExitCode, Stdio};
use std::time::{Duration, Instant};

use harness::{
    cart, cart_size, ends, least_limit, most, raw, same_bytes, same_text, shorter, size, text_by,
    ByN, Comparison, Entry, Random, Reached, CLOSE, GUARD, MOST_ENTRIES, ONE_SEAT,
};
use janus_reference::runner::BUFFER;
use janus_reference::sheet::MAX_BYTES;
use janus_reference::{
    entry, report, report_of, run, window, Access, Caller, Counts, Operation, Phase, Process,
    Refusal, Session, Sheet,
};

// ---------------------------------------------------------------- sheets

fn encode(operation: Operation) -> Entry {
    match operation {
        Operation::Propose { process, value } => raw(0, process, value),
        Operation::Step { process, leader } => raw(1, process, u32::from(leader)),
        Operation::Learn { process } => raw(2, process, 0),
        Operation::Crash { process } => raw(3, process, 0),
        Operation::Close => CLOSE,
    }
}

/// Which process has the next turn.
#[derive(Clone, Copy)]
enum Style {
    /// Each in its order, so many turns at a time.
    RoundRobin(usize),
    /// Any at any time.
    Scattered,
    /// Nearly always the same, which changes now and then.
    Solo,
    /// Any that is awake; processes fall asleep for long, at whatever stance.
    Sleepers,
    /// All come to put together, round after round; then one runs alone, while
    /// the others wait until it is about to check the round they would write to.
    Ambush,
}

/// Builds a list of entries along with the session they lead to, so that the
/// list is not refused before it is meant to be.
struct Composer<'r> {
    random: &'r mut Random,
    session: Session,
    counts: Counts,
    entries: Vec<Entry>,
    style: Style,
    current: usize,
    asleep: u64,
    runner: Option<usize>,
    /// Odds of a look, a crash, a hint of no and a close at each turn.
    look: usize,
    crash: usize,
    hint_no: usize,
    close: usize,
}

impl<'r> Composer<'r> {
    fn new(random: &'r mut Random, n: usize, limit: usize) -> Composer<'r> {
        let styles = [
            Style::RoundRobin(random.between(1, 9)),
            Style::RoundRobin(1),
            Style::Scattered,
            Style::Solo,
            Style::Sleepers,
            Style::Sleepers,
            Style::Ambush,
        ];
        Composer {
            style: random.pick(&styles),
            look: random.pick(&[0, 0, 500, 100, 25, 6]),
            crash: random.pick(&[0, 0, 800, 150, 30]),
            hint_no: random.pick(&[0, 0, 40, 8, 2]),
            close: random.pick(&[0, 0, 0, 0, 0, 600, 100, 20]),
            current: random.below(n),
            asleep: random.word(),
            runner: None,
            session: Session::open(Caller::Server, n, limit).expect("a size within bounds"),
            counts: Counts::default(),
            entries: Vec::new(),
            random,
        }
    }

    fn n(&self) -> usize {
        self.session.n
    }

    /// Adds the operation if it is accepted.
    fn offer(&mut self, operation: Operation) -> bool {
        if self.entries.len() == MOST_ENTRIES {
            return false;
        }
        let answer = self
            .session
            .apply_trusted(operation, &mut self.counts, |_| {});
        if answer.is_ok() {
            self.entries.push(encode(operation));
        }
        answer.is_ok()
    }

    fn value(&mut self) -> u32 {
        match self.random.below(8) {
            0 => self.random.word() as u32 | 1,
            1 => u32::MAX,
            2 => self.random.pick(&[1, 257, 65_537, 1 << 24, 1 << 31]),
            _ => self.random.between(1, 4) as u32,
        }
    }

    /// Most processes propose, all the same value now and then; before some of them, or
    /// before all, the session may be closed.
    fn proposals(&mut self) {
        let alike = self.random.once_in(8).then(|| self.value());
        let skipped = self.random.pick(&[0, 0, 2, 5]);
        let close = self.random.once_in(15).then(|| self.random.below(self.n()));
        for process in 0..self.n() {
            if close == Some(process) {
                self.offer(Operation::Close);
            }
            if !self.random.once_in(skipped) {
                let value = alike.unwrap_or_else(|| self.value());
                self.offer(Operation::Propose { process, value });
            }
        }
    }

    fn next_process(&mut self) -> usize {
        let (n, random) = (self.session.n, &mut *self.random);
        match self.style {
            Style::RoundRobin(burst) if random.once_in(burst) => {
                self.current = (self.current + 1) % n;
            }
            Style::RoundRobin(_) => {}
            Style::Scattered => self.current = random.below(n),
            Style::Solo if random.once_in(60) => self.current = random.below(n),
            Style::Solo if random.once_in(10) => return random.below(n),
            Style::Solo => {}
            Style::Sleepers => return self.wakeful(),
            Style::Ambush => return self.ambush(),
        }
        self.current
    }

    /// The next process awake; one wakes up or falls asleep now and then.
    fn wakeful(&mut self) -> usize {
        if self.random.once_in(12) {
            self.asleep ^= 1 << self.random.below(64);
            self.asleep ^= 1 << self.random.below(self.n());
        }
        for _ in 0..4 {
            self.current = self.random.below(self.n());
            if self.asleep >> self.current & 1 == 0 {
                break;
            }
        }
        self.current
    }

    /// The one that is least far, so that all come to put together; then a
    /// runner alone, or one that writes behind it.
    fn ambush(&mut self) -> usize {
        let processes = &self.session.processes;
        let far = |number: usize| Some((number, far(&processes[number])?));
        if let Some((runner, _)) = self.runner.and_then(far) {
            self.runner = self.runner.filter(|_| !self.random.once_in(200));
            return match self.waiting_for(runner) {
                Some(writer) if self.random.once_in(2) => writer,
                _ => runner,
            };
        }
        let (n, first) = (self.session.n, self.random.below(self.session.n));
        let order = (0..n).map(|place| (first + place) % n);
        let least = order.filter_map(far).min_by_key(|(_, far)| *far);
        let next = least.map_or(first, |(number, _)| number);
        let writes = processes[next].phase == Phase::Write;
        self.runner = (writes && self.random.once_in(4 * n + 2)).then_some(next);
        next
    }

    /// A process at put with another value, in the round that the runner checks.
    fn waiting_for(&self, runner: usize) -> Option<usize> {
        let runner = &self.session.processes[runner];
        let (Phase::CheckMark(i) | Phase::CheckValue(i)) = runner.phase else {
            return None;
        };
        let writes = |process: &Process| {
            process.phase == Phase::Write
                && process.round == runner.round - i
                && process.estimate != runner.estimate
        };
        self.session.processes.iter().position(writes)
    }

    fn next_operation(&mut self) -> Operation {
        if self.random.once_in(self.close) {
            return Operation::Close;
        }
        let process = self.next_process();
        if self.session.processes[process].phase == Phase::Idle {
            let value = self.value();
            return Operation::Propose { process, value };
        }
        if self.random.once_in(self.look) {
            Operation::Learn { process }
        } else if self.random.once_in(self.crash) {
            Operation::Crash { process }
        } else {
            let leader = !self.random.once_in(self.hint_no);
            Operation::Step { process, leader }
        }
    }

    /// Turns in the sheet's style until there are so many entries.
    fn contend(&mut self, target: usize) {
        let mut tries = 4 * target + 50;
        while self.entries.len() < target && tries > 0 {
            tries -= 1;
            let operation = self.next_operation();
            self.offer(operation);
        }
    }

    /// One process alone to the end of round L, then spent by a turn of either
    /// hint.
    fn spend(&mut self, process: usize) {
        let limit = self.session.limit;
        self.alone(process, |p| p.phase == Phase::Waiting && p.round == limit);
        let leader = self.random.once_in(2);
        self.offer(Operation::Step { process, leader });
    }

    /// One process takes turns alone until it stands as asked, or is stuck.
    fn alone(&mut self, process: usize, until: impl Fn(&Process) -> bool) {
        let leader = true;
        while !until(&self.session.processes[process])
            && self.offer(Operation::Step { process, leader })
        {}
    }

    /// Looks by every process, most of the time, from a random one on.
    fn looks(&mut self) {
        let first = self.random.below(self.n());
        for place in 0..self.n() {
            if !self.random.once_in(9) {
                let process = (first + place) % self.n();
                self.offer(Operation::Learn { process });
            }
        }
    }

    /// An end at which a state that differs shows in the code or the buffer.
    fn tail(&mut self) {
        let process = self.random.below(self.n());
        match self.random.below(8) {
            0 => {}
            1 | 2 => self.looks(),
            3 | 4 => {
                self.alone(process, |p| p.phase == Phase::Commit);
                let leader = true;
                self.offer(Operation::Step { process, leader });
                self.looks();
            }
            5 => {
                self.alone(process, |p| p.phase == Phase::Commit);
                self.looks();
            }
            6 => {
                self.spend(process);
                let entry = raw(1, process, self.random.below(2) as u32);
                self.entries.push(entry);
            }
            _ => {
                self.spend(process);
                self.looks();
            }
        }
        match self.random.below(9) {
            0..=2 => self.refused(),
            3 | 4 => self.late(),
            _ => {}
        }
    }

    /// Any process, there or not.
    fn any_process(&mut self) -> usize {
        match self.random.below(6) {
            0 => self.random.pick(&[self.n(), 63, 64, 255]),
            _ => self.random.below(self.n()),
        }
    }

    /// An entry that may well be refused, and some after it.
    fn refused(&mut self) {
        let process = self.any_process();
        let kind = self.random.pick(&[0, 0, 1, 1, 2, 2, 3, 3, 4, 4, 4, 5, 255]);
        let value = self.random.pick(&[0, 0, 0, 1, 1, 2, 256, 1 << 31]);
        self.entries.push(raw(kind, process, value));
        for _ in 0..self.random.below(4) {
            let process = self.random.below(self.n());
            let kind = self.random.pick(&[0, 1, 2, 2, 3, 4]);
            let value = u32::from(kind < 2);
            self.entries.push(raw(kind, process, value));
        }
    }

    /// A close, mostly, or two; now and then an entry of any kind; and a proposal: by a
    /// process that is out, if there is one, or by any.
    fn late(&mut self) {
        let closes = self.random.pick(&[0, 1, 1, 1, 2]);
        self.entries.extend([CLOSE].repeat(closes));
        if self.random.once_in(3) {
            let kind = self.random.pick(&[1, 1, 1, 2, 3, 4, 4]);
            let process = self.any_process();
            self.entries.push(raw(kind, process, u32::from(kind == 1)));
        }
        let (n, first) = (self.n(), self.random.below(self.n()));
        let out = |p: &usize| self.session.processes[*p].phase == Phase::Idle;
        let out = (0..n).map(|place| (first + place) % n).find(out);
        let process = match out {
            Some(process) if !self.random.once_in(3) => process,
            _ => self.any_process(),
        };
        let value = self.random.pick(&[0, 0, 1, 1, 7, u32::MAX]);
        self.entries.push(raw(0, process, value));
    }

    /// The sheet of the list, in some way of cutting it into runs.
    fn sheet(mut self) -> Vec<u8> {
        self.entries.truncate(MOST_ENTRIES);
        let (n, limit) = (self.session.n, self.session.limit as u16);
        assemble(self.random, n as u8, limit, &self.entries)
    }
}

/// How far a process is: the rounds it has done, then gate, put, the rest. None
/// if it is out or has no more turns.
fn far(process: &Process) -> Option<(u32, u8)> {
    match process.phase {
        Phase::Idle | Phase::Exhausted | Phase::Crashed | Phase::Decided => None,
        Phase::Waiting => Some((process.round, 0)),
        Phase::Write => Some((process.round - 1, 1)),
        _ => Some((process.round - 1, 2)),
    }
}

/// Puts entries into one to sixteen runs, with ignored bytes between them.
fn assemble(random: &mut Random, n: u8, limit: u16, entries: &[Entry]) -> Vec<u8> {
    let roomy = entries.len() + 40 < MOST_ENTRIES;
    let pairs = match random.below(3) {
        0 if roomy => random.between(2, 16),
        _ if entries.is_empty() => random.below(2),
        _ => 1,
    };
    let cuts = ends(random, entries.len(), pairs);
    let gaps = if roomy { random.pick(&[0, 0, 1, 9]) } else { 0 };
    let (mut header, mut body, mut from) = (vec![n, pairs as u8], Vec::new(), 0);
    header.extend(limit.to_le_bytes());
    for cut in cuts {
        body.extend((0..random.between(0, gaps)).map(|_| random.byte()));
        let offset = 4 + 4 * pairs + body.len();
        let run = entries[from..cut].concat();
        header.extend((offset as u16).to_le_bytes());
        header.extend((run.len() as u16).to_le_bytes());
        body.extend(run);
        from = cut;
    }
    body.extend((0..random.between(0, gaps)).map(|_| random.byte()));
    [header, body].concat()
}

/// A sheet of so many entries or somewhat more, in order but for its end.
fn composed(random: &mut Random, most: usize) -> Vec<u8> {
    let size = size(random);
    composed_of(random, size, most)
}

fn composed_of(random: &mut Random, (n, limit): (usize, usize), most: usize) -> Vec<u8> {
    let mut composer = Composer::new(random, n, limit);
    composer.proposals();
    let target = composer.random.between(0, most);
    composer.contend(target);
    composer.tail();
    composer.sheet()
}

/// A sheet of few entries, many of them refused.
fn short(random: &mut Random) -> Vec<u8> {
    let n = random.between(1, 3);
    let limit = window(n) as usize + random.below(3);
    let mut composer = Composer::new(random, n, limit);
    if !composer.random.once_in(3) {
        composer.proposals();
    }
    let target = composer.random.below(20);
    composer.contend(target);
    match composer.random.below(6) {
        0..=2 => composer.refused(),
        3 | 4 => composer.late(),
        _ => {}
    }
    composer.sheet()
}

/// A sheet filled to the last entry.
fn longest(random: &mut Random) -> Vec<u8> {
    let n = random.between(8, 64);
    let mut composer = Composer::new(random, n, 256);
    composer.proposals();
    composer.contend(MOST_ENTRIES - n);
    composer.looks();
    let mut sheet = composer.sheet();
    if random.once_in(2) {
        sheet.resize(MAX_BYTES, 0);
    }
    sheet
}

/// A sheet over the most bytes, in order otherwise or not.
fn too_long(random: &mut Random) -> Vec<u8> {
    let mut sheet = composed(random, 20);
    if random.once_in(2) {
        damage(random, &mut sheet);
    }
    let length = MAX_BYTES + random.pick(&[1, 1, 2, 5000, 65_536]);
    sheet.resize(length, 0);
    sheet
}

/// Every n and an L at one of its borders.
fn border(random: &mut Random) -> Vec<u8> {
    let n = random.between(1, 64);
    let least = window(n) as u16;
    let limit = random.pick(&[least - 1, least - 1, least, 256, 257, least + 256]);
    let seats = random.pick(&[n, n, n, n, n, 0, 65, n + 64]) as u8;
    let entries = [raw(0, n - 1, 7), raw(1, n - 1, 1)];
    assemble(random, seats, limit, &entries)
}

/// Bytes of no meaning, though the first ones may have one.
fn noise(random: &mut Random) -> Vec<u8> {
    let length = random.pick(&[0, 1, 2, 3, 4, 5, 8, 12, 30, 90]);
    let mut sheet: Vec<u8> = (0..length).map(|_| random.byte()).collect();
    let likely = [
        random.between(1, 4) as u8,
        random.below(18) as u8,
        random.between(2, 12) as u8,
        0,
    ];
    for (byte, likely) in sheet.iter_mut().zip(likely) {
        if !random.once_in(8) {
            *byte = likely;
        }
    }
    sheet
}

/// One change for the worse, in a sheet of four bytes or more.
fn damage(random: &mut Random, sheet: &mut Vec<u8>) {
    match random.below(9) {
        0 => sheet[0] = random.pick(&[0, 65, 66, 128, 255]),
        1 => sheet[1] = random.pick(&[0, 1, 15, 16, 17, 18, 255]),
        2 => damage_limit(random, sheet),
        3..=5 => damage_pair(random, sheet),
        6 => {
            let length = random.between(0, sheet.len());
            sheet.truncate(length.max(4));
        }
        7 => {
            let place = sheet.len() - 1 - random.below(sheet.len().min(40));
            sheet[place] = random.byte();
        }
        _ => {
            let place = random.below(sheet.len());
            sheet[place] ^= 1 << random.below(8);
        }
    }
}

fn damage_limit(random: &mut Random, sheet: &mut [u8]) {
    let seats = usize::from(sheet[0]).clamp(1, 64);
    let least = window(seats) as u16;
    let limit: u16 = random.pick(&[0, 1, least - 1, 256, 257, 300, 65_535, least + 256]);
    sheet[2..4].copy_from_slice(&limit.to_le_bytes());
}

/// Changes an offset or a length a little or wholly, swaps two pairs, moves the
/// first run or empties the last.
fn damage_pair(random: &mut Random, sheet: &mut [u8]) {
    let pairs = usize::from(sheet[1]).min((sheet.len() - 4) / 4);
    if pairs == 0 {
        return;
    }
    if random.once_in(5) {
        let (one, other) = (random.below(pairs), random.below(pairs));
        for place in 4..8 {
            sheet.swap(4 * one + place, 4 * other + place);
        }
        return;
    }
    if random.once_in(5) {
        // The first run starts within the pairs.
        let offset = (4 + 4 * pairs - random.between(1, 4)) as u16;
        return sheet[4..6].copy_from_slice(&offset.to_le_bytes());
    }
    if random.once_in(5) {
        // The last run becomes empty, near the end of the sheet.
        let offset = (sheet.len() + random.below(3) - 1) as u16;
        sheet[4 * pairs..4 * pairs + 2].copy_from_slice(&offset.to_le_bytes());
        return sheet[4 * pairs + 2..4 * pairs + 4].fill(0);
    }
    let place = 4 + 2 * random.below(2 * pairs);
    let old = u16::from_le_bytes([sheet[place], sheet[place + 1]]);
    let change = random.pick(&[1, 2, 5, 6, 12, 65_535, 65_534, 65_530, 65_524]);
    let new = match random.below(6) {
        0 => random.word() as u16,
        _ => old.wrapping_add(change),
    };
    sheet[place..place + 2].copy_from_slice(&new.to_le_bytes());
}

fn damaged(random: &mut Random) -> Vec<u8> {
    let mut sheet = composed(random, 60);
    for _ in 0..random.pick(&[1, 1, 1, 2, 3]) {
        damage(random, &mut sheet);
    }
    sheet
}

/// A sheet about the cart's most seats and rounds.
fn of_cart(random: &mut Random, most: usize) -> Vec<u8> {
    let size = cart_size(random);
    composed_of(random, size, most)
}

/// One with some of the faults that a reader looks for one after another, those that it
/// finds last being made first.
fn of_cart_with_faults(random: &mut Random) -> Vec<u8> {
    let mut sheet = of_cart(random, 20);
    for fault in [cut_run, misplace_run, wrong_limit, wrong_seats, spoil] {
        if random.once_in(3) {
            fault(random, &mut sheet);
        }
    }
    sheet
}

/// 12: some run that has entries ends within its last one.
fn cut_run(random: &mut Random, sheet: &mut Vec<u8>) {
    let pairs = usize::from(sheet[1]);
    let start = random.below(pairs.max(1));
    let mut runs = (start..pairs).chain(0..start);
    let length = |run: &usize| u16::from_le_bytes([sheet[4 * run + 6], sheet[4 * run + 7]]);
    if let Some(run) = runs.find(|run| length(run) > 0) {
        let cut = length(&run) - random.between(1, 5) as u16;
        sheet[4 * run + 6..4 * run + 8].copy_from_slice(&cut.to_le_bytes());
    }
}

/// 11: the first run starts within the pairs, or past the sheet.
fn misplace_run(random: &mut Random, sheet: &mut Vec<u8>) {
    if sheet[1] > 0 {
        let offset = random.pick(&[0, 7, sheet.len() + 1]) as u16;
        sheet[4..6].copy_from_slice(&offset.to_le_bytes());
    }
}

/// 2, for one of the callers or for both.
fn wrong_limit(random: &mut Random, sheet: &mut Vec<u8>) {
    let limit: u16 = random.pick(&[0, 1, 65, 65, 66, 256, 257]);
    sheet[2..4].copy_from_slice(&limit.to_le_bytes());
}

/// 1, for one of the callers or for both.
fn wrong_seats(random: &mut Random, sheet: &mut Vec<u8>) {
    sheet[0] = random.pick(&[0, 17, 17, 18, 64, 65]);
}

/// 10: over the most bytes, over 16 pairs, or too short for its pairs.
fn spoil(random: &mut Random, sheet: &mut Vec<u8>) {
    match random.below(6) {
        0 => sheet[1] = random.pick(&[17, 255]),
        1 => sheet.truncate(3 + 4 * usize::from(sheet[1])),
        _ => sheet.resize(MAX_BYTES + 1, 0),
    }
}

/// One sheet with the budgets and the buffer length to try it with.
struct Case {
    sheet: Vec<u8>,
    budgets: Vec<u64>,
    buffer: usize,
}

fn entries_of(bytes: &[u8]) -> u64 {
    let sheet = Sheet::read(Caller::Server, bytes);
    sheet.map_or(0, |sheet| sheet.entries().count() as u64)
}

impl Case {
    fn of(random: &mut Random) -> Case {
        let kind = random.below(1000);
        let sheet = match kind {
            0..=99 => short(random),
            100..=539 => composed(random, 600),
            540..=569 => of_cart(random, 600),
            570..=599 => of_cart_with_faults(random),
            600..=829 => damaged(random),
            830..=909 => border(random),
            910..=959 => noise(random),
            960..=976 => composed(random, 30),
            977..=993 => damaged(random),
            994..=996 => longest(random),
            _ => too_long(random),
        };
        let budgets = match kind {
            0..=99 => (0..=entries_of(&sheet) + 2).collect(),
            _ => vec![budget(random, entries_of(&sheet))],
        };
        let buffer = match kind {
            960..=993 => random.pick(&[0, 255, 257]),
            _ => BUFFER,
        };
        Case {
            sheet,
            budgets,
            buffer,
        }
    }
}

/// Mostly more than enough, else near the end or anywhere before it.
fn budget(random: &mut Random, entries: u64) -> u64 {
    match random.below(12) {
        0 => random.below(entries as usize + 1) as u64,
        1 => entries.saturating_sub(random.below(3) as u64),
        2 => entries + random.below(3) as u64,
        3 => 1 << 32,
        4 => (1 << 32) + random.below(10) as u64,
        5 => 1 << 63,
        _ => u64::MAX,
    }
}

// ---------------------------------------------------------------- coverage

events! {
    Proposed: "proposal",
    GateNo: "gate below round L, hint no",
    GateNoSpent: "gate in round L, hint no: spent" at least 1_000,
    GateYesSpent: "gate in round L, hint yes: spent" at least 1_000,
    GatePut: "gate, blank: put",
    GateSeek: "gate, filled: seek r + 1",
    GateTake: "gate, round L filled: take L",
    PutBlank: "put into a blank register",
    PutSame: "put over the same value",
    PutOther: "put over another value",
    SeekTake: "seek k, blank: take k - 1",
    SeekOn: "seek k, filled: seek k + 1",
    SeekLast: "seek L, filled: take L",
    TakeSame: "take, own value as before",
    TakeOther: "take, another value adopted",
    TakeChanged: "take, register changed since seen",
    TakeAhead: "take k, k above r",
    CompareOn: "compare i, equal: compare i + 1",
    CompareChecks: "compare i, equal: check-mark 0",
    CompareGate: "compare i, equal: gate",
    CompareFlag: "compare 0, different: flag 0",
    CompareFlagBack: "compare i, different: flag i, i above 0",
    FlagOn: "flag i, unmarked: compare i + 1" at least 10_000,
    FlagChecks: "flag i, unmarked: check-mark 0" at least 100,
    FlagGate: "flag i, unmarked: gate" at least 10_000,
    FlagAgainOn: "flag i, marked: compare i + 1" at least 100_000,
    FlagAgainChecks: "flag i, marked: check-mark 0" at least 10_000,
    FlagAgainGate: "flag i, marked: gate" at least 100_000,
    MarkedNow: "check-mark 0, marked: gate",
    MarkedBack: "check-mark i, marked: gate, i above 0",
    Unmarked: "check-mark i, unmarked: check-value i",
    ValueOtherNow: "check-value 0, different: gate",
    ValueOtherBack: "check-value i, different: gate, i above 0",
    ValueOn: "check-value i, equal: check-mark i + 1",
    ValueCommit: "check-value W - 1, equal: commit",
    CommitFirst: "commit into blank D",
    CommitAgain: "commit into filled D",
    LookBlank: "look, D blank",
    LookSame: "look, D has the own value",
    LookOther: "look, D has another value",
    CloseFirst: "close, no seat has proposed" at least 5_000,
    CloseBetween: "close, some seats have proposed" at least 20_000,
    CloseAll: "close, every seat has proposed" at least 50_000,
    CloseCommit: "close, D filled, no seat decided" at least 10_000,
    CloseDecided: "close, a seat decided" at least 10_000,
    CloseAgain: "close, closed already" at least 50_000,
    WorkClosed: "work, closed" at least 1_000_000,
    CommitClosed: "commit, closed" at least 10_000,
    LookBlankClosed: "look, D blank, closed" at least 10_000,
    LookClosed: "look, D filled, closed" at least 10_000,
    CrashClosed: "crash, closed" at least 5_000,
    Shorter: "opened, L below 01's window" at least 10_000,
    ShorterCommit: "commit, L below 01's window" at least 5_000,
    ShorterLook: "look, D filled, L below 01's window" at least 5_000,
    OneSeat: "opened, n = 1, L = 2" at least 1_000,
    OneSeatCommit: "commit, n = 1, L = 2" at least 100,
    OneSeatLook: "look, D filled, n = 1, L = 2" at least 100,
    NoSeats: "1: no seats",
    ManySeats: "1: over 64 seats",
    OneFirst: "1 where 2 would follow",
    LimitLow: "2: L below W",
    LimitHigh: "2: L above 256",
    TwoFirst: "2 where 11 would follow",
    NoSeatPropose: "4: proposal",
    NoSeatWork: "4: work",
    NoSeatLook: "4: look",
    NoSeatCrash: "4: crash",
    BlankOut: "5: seat out",
    BlankOther: "5 where 6 would follow",
    Twice: "6: seat not out",
    OutWork: "7: work",
    OutLook: "7: look",
    OutCrash: "7: crash",
    CrashedWork: "8: work, crashed",
    CrashedLook: "8: look, crashed",
    CrashedCrash: "8: crash, crashed",
    DecidedWork: "8: work, decided",
    DecidedLook: "8: look, decided",
    DecidedCrash: "8: crash, decided",
    SpentYes: "9: hint yes",
    SpentNo: "9: hint no",
    SpentYesLater: "9: hint yes, spent by hint no" at least 100,
    SpentNoLater: "9: hint no, spent by hint no" at least 100,
    SpentLook: "look, spent by hint no" at least 100,
    LateFirst: "18: no seat has proposed" at least 100,
    Late: "18: some seats have proposed" at least 500,
    LateCommit: "18: D filled" at least 50,
    LateAgain: "18: closed twice or more" at least 200,
    NoSeatClosed: "4: proposal, closed" at least 500,
    BlankClosed: "5 where 18 would follow" at least 200,
    BlankTwiceClosed: "5 where 6 would follow, closed" at least 1_000,
    TwiceClosed: "6 where 18 would follow" at least 1_000,
    TooShort: "10: under 4 bytes",
    TooLong: "10: over 65,535 bytes",
    ManyPairs: "10: over 16 pairs",
    NoRoom: "10: too short for its pairs",
    TenFirst: "10 where 1 would follow",
    PairEarly: "11: before the end of the pairs",
    PairUnsorted: "11: before the run before it",
    PairOverlaps: "11: within the run before it",
    PairPast: "11: past the sheet",
    ElevenFirst: "11 in a pair after a run of wrong length",
    RunLength: "12",
    WrongKind: "13: kind",
    WrongWork: "13: value of work",
    WrongLook: "13: value of look",
    WrongCrash: "13: value of crash",
    WrongCloseSeat: "13: seat of close" at least 500,
    WrongCloseValue: "13: value of close" at least 500,
    WrongClose: "13: seat and value of close" at least 500,
    ThirteenFirst: "13 where 4 would follow",
    CloseThirteenFirst: "13: seat of close, n or above" at least 300,
    CloseSeat64: "13: seat of close, 64 or above" at least 200,
    Buffer0: "15: 0 bytes",
    Buffer255: "15: 255 bytes",
    Buffer257: "15: 257 bytes",
    FifteenFirst: "15 where a refusal of the sheet would follow",
    Finished: "0",
    FinishedExactly: "0, budget just enough",
    FinishedEmpty: "0, no entries",
    BudgetEnded: "100",
    BudgetZero: "100, budget 0",
    BudgetLast: "100, one entry short",
    FinishedClosed: "0, closed" at least 2_000,
    ExactlyClosed: "0, budget just enough, a close carried out" at least 200,
    BudgetClose: "100, the next entry a close" at least 1_000,
    BudgetCloseFirst: "100, the next entry the first close" at least 1_000,
    BudgetClosed: "100, a close carried out" at least 3_000,
    ReportOpen: "report: open" at least 10_000,
    ReportClosed: "report: closed" at least 10_000,
    ReportLate: "report: 18, closed" at least 300,
    Marked: "session with marked rounds" at least 10_000,
    MarkedAgain: "session with a round marked again" at least 10_000,
    MarkedByTwo: "session with a round marked by two seats" at least 10_000,
    CartOpened: "cart: opened" at least 10_000,
    CartMostSeats: "cart: opened, n = 16" at least 1_000,
    CartMostRounds: "cart: opened, L = 64" at least 500,
    CartMost: "cart: opened, n = 16, L = 64" at least 100,
    CartCommit: "cart: D filled" at least 10_000,
    CartDecided: "cart: a seat decided" at least 10_000,
    CartRefused: "cart: entry refused" at least 1_000,
    CartBudget: "cart: 100" at least 1_000,
    CartReportOpen: "cart: report: open" at least 10_000,
    CartReportClosed: "cart: report: closed" at least 10_000,
    CartLate: "cart: report: 18, closed" at least 300,
    CartBudgetClosed: "cart: 100, closed" at least 3_000,
    CartNoSeats: "cart: 1, no seats" at least 100,
    CartSeventeen: "cart: 1, n = 17, the server opens" at least 500,
    CartManySeats: "cart: 1, n = 18 to 64, the server opens" at least 1_000,
    CartLimitLow: "cart: 2, L below W" at least 500,
    CartSixtyFive: "cart: 2, L = 65, the server opens" at least 500,
    CartManyRounds: "cart: 2, L = 66 to 256, the server opens" at least 1_000,
    CartTenOne: "cart: 10 where 1 would follow" at least 20,
    CartTenTwo: "cart: 10 where 2 would follow" at least 20,
    CartTenEleven: "cart: 10 where 11 would follow" at least 20,
    CartTenTwelve: "cart: 10 where 12 would follow" at least 20,
    CartOneTwo: "cart: 1 where 2 would follow" at least 20,
    CartOneEleven: "cart: 1 where 11 would follow" at least 20,
    CartOneTwelve: "cart: 1 where 12 would follow" at least 20,
    CartTwoEleven: "cart: 2 where 11 would follow" at least 20,
    CartTwoTwelve: "cart: 2 where 12 would follow" at least 20,
    CartElevenTwelve: "cart: 11 where 12 would follow" at least 20,
}

/// The order of a sheet's refusals as the cart: which is told where the other would
/// follow.
const CART_ORDER: [(u32, u32, Event); 10] = [
    (10, 1, Event::CartTenOne),
    (10, 2, Event::CartTenTwo),
    (10, 11, Event::CartTenEleven),
    (10, 12, Event::CartTenTwelve),
    (1, 2, Event::CartOneTwo),
    (1, 11, Event::CartOneEleven),
    (1, 12, Event::CartOneTwelve),
    (2, 11, Event::CartTwoEleven),
    (2, 12, Event::CartTwoTwelve),
    (11, 12, Event::CartElevenTwelve),
];

const STANCES: [&str; 13] = [
    "out",
    "gate",
    "put",
    "seek",
    "take",
    "compare",
    "flag",
    "check-mark",
    "check-value",
    "commit",
    "spent",
    "crashed",
    "decided",
];

fn stance(phase: Phase) -> usize {
    match phase {
        Phase::Idle => 0,
        Phase::Waiting => 1,
        Phase::Write => 2,
        Phase::Scan(_) => 3,
        Phase::Adopt(_) => 4,
        Phase::Compare(_) => 5,
        Phase::Flag(_) => 6,
        Phase::CheckMark(_) => 7,
        Phase::CheckValue(_) => 8,
        Phase::Commit => 9,
        Phase::Exhausted => 10,
        Phase::Crashed => 11,
        Phase::Decided => 12,
    }
}

/// What happened at a stance: turns, looks at blank and filled D, crashes.
#[derive(Clone, Copy, Default)]
struct AtStance {
    works: u64,
    blank: u64,
    filled: u64,
    crashes: u64,
    stood: u64,
}

struct Coverage {
    reached: Reached,
    stances: [AtStance; STANCES.len()],
    commits: ByN,
    least: ByN,
    below: ByN,
    shorter: Shorter,
    cart: Cart,
    entries: u64,
}

/// Sheets run as the cart, to a commit and to a decision. (02, wish 9.)
struct Cart {
    commits: ByN,
    decisions: ByN,
}

/// Sheets with an L from W up to below 01's window, refused with 2 before 02, wish 8:
/// opened, run on to a commit, and to a look that decides.
struct Shorter {
    opened: ByN,
    commits: ByN,
    looks: ByN,
}

impl Coverage {
    fn new() -> Coverage {
        Coverage {
            reached: Reached::none_of(EVENTS),
            stances: [AtStance::default(); STANCES.len()],
            commits: ByN::none_of("a commit"),
            least: ByN::none_of("L = W opened"),
            below: ByN::none_of("L = W - 1 refused"),
            shorter: Shorter {
                opened: ByN::none_of("L below 01's window opened"),
                commits: ByN::none_of("L below 01's window and a commit"),
                looks: ByN::none_of("L below 01's window and a decision"),
            },
            cart: Cart {
                commits: ByN::none_for(1..=16, "a commit as the cart"),
                decisions: ByN::none_for(1..=16, "a decision as the cart"),
            },
            entries: 0,
        }
    }

    fn note(&mut self, event: Event) {
        self.reached.note(event);
    }

    fn note_if(&mut self, happened: bool, event: Event) {
        self.reached.note_if(happened, event);
    }

    /// Runs the sheet once more, entry by entry, noting what it reaches. Tells
    /// what is wrong with the session that it leaves.
    fn observe(&mut self, bytes: &[u8], budget: u64) -> Result<(), String> {
        let sheet = match Sheet::read(Caller::Server, bytes) {
            Ok(sheet) => sheet,
            Err(refusal) => {
                self.sheet_refused(bytes, refusal);
                return Ok(());
            }
        };
        let mut observer = Observer {
            session: sheet.open(),
            counts: Counts::default(),
            flags: Vec::new(),
            seen: [0; 64],
            spent_by_no: [false; 64],
            closes: 0,
        };
        self.opened(&observer.session);
        let (mut done, total) = (0, sheet.entries().count() as u64);
        for entry in sheet.entries() {
            if done == budget {
                self.note(Event::BudgetEnded);
                self.note_if(budget == 0, Event::BudgetZero);
                self.note_if(budget + 1 == total, Event::BudgetLast);
                let (next, closed) = (entry == CLOSE, observer.closes > 0);
                self.note_if(next, Event::BudgetClose);
                self.note_if(next && !closed, Event::BudgetCloseFirst);
                self.note_if(closed, Event::BudgetClosed);
                break;
            }
            if !observer.entry(entry, self) {
                break;
            }
            done += 1;
        }
        self.entries += done;
        if done == total {
            self.note(Event::Finished);
            self.note_if(done == budget, Event::FinishedExactly);
            self.note_if(done == 0, Event::FinishedEmpty);
            let closed = observer.closes > 0;
            self.note_if(closed, Event::FinishedClosed);
            self.note_if(closed && done == budget, Event::ExactlyClosed);
        }
        self.left(observer)
    }

    /// Notes the size of a session that a sheet opened.
    fn opened(&mut self, session: &Session) {
        let (n, limit) = (session.n, session.limit as usize);
        self.least.note_if(limit == least_limit(n), n);
        self.sized(session, |s| &mut s.opened, [Event::Shorter, Event::OneSeat]);
    }

    /// Notes a commit.
    fn committed(&mut self, session: &Session) {
        self.commits.note(session.n);
        let events = [Event::ShorterCommit, Event::OneSeatCommit];
        self.sized(session, |s| &mut s.commits, events);
    }

    /// Notes a look that decides.
    fn decided(&mut self, session: &Session) {
        let events = [Event::ShorterLook, Event::OneSeatLook];
        self.sized(session, |s| &mut s.looks, events);
    }

    /// Notes what was reached with an L below 01's window, and with one seat and L = 2.
    fn sized(
        &mut self,
        session: &Session,
        by_n: fn(&mut Shorter) -> &mut ByN,
        [below, one]: [Event; 2],
    ) {
        let (n, limit) = (session.n, session.limit as usize);
        let shorter = shorter(n, limit);
        by_n(&mut self.shorter).note_if(shorter, n);
        self.note_if(shorter, below);
        self.note_if((n, limit) == ONE_SEAT, one);
    }

    /// Notes how a run left its session. Contested must be the number of marked
    /// rounds. (02, wish 2.)
    fn left(&mut self, observer: Observer) -> Result<(), String> {
        let (session, mut flags) = (observer.session, observer.flags);
        for process in &session.processes[..session.n] {
            self.stances[stance(process.phase)].stood += 1;
        }
        let (contested, marked) = (observer.counts.contested, session.marked_rounds());
        self.note_if(marked > 0, Event::Marked);
        self.note_if(flags.len() > marked as usize, Event::MarkedAgain);
        flags.sort_unstable();
        flags.dedup();
        self.note_if(flags.len() > marked as usize, Event::MarkedByTwo);
        if contested != marked {
            return Err(format!(
                "reference: contested {contested}, marked rounds {marked}"
            ));
        }
        Ok(())
    }

    /// Notes why a sheet was refused, by the bytes alone.
    fn sheet_refused(&mut self, sheet: &[u8], refusal: Refusal) {
        match refusal {
            Refusal::BadSheet => self.ten(sheet),
            Refusal::BadProcessCount => {
                self.note(match sheet[0] {
                    0 => Event::NoSeats,
                    _ => Event::ManySeats,
                });
                // Below the least L of any n, or too high.
                let limit = usize::from(u16::from_le_bytes([sheet[2], sheet[3]]));
                self.note_if(limit < least_limit(1) || limit > 256, Event::OneFirst);
            }
            Refusal::BadRoundLimit => self.two(sheet),
            Refusal::BadPairs => self.eleven(sheet),
            _ => self.note(Event::RunLength),
        }
    }

    fn ten(&mut self, sheet: &[u8]) {
        if sheet.len() < 4 {
            return self.note(Event::TooShort);
        }
        self.note(if sheet.len() > MAX_BYTES {
            Event::TooLong
        } else if sheet[1] > 16 {
            Event::ManyPairs
        } else {
            Event::NoRoom
        });
        self.note_if(sheet[0] == 0 || sheet[0] > 64, Event::TenFirst);
    }

    fn two(&mut self, sheet: &[u8]) {
        let n = usize::from(sheet[0]);
        let limit = usize::from(u16::from_le_bytes([sheet[2], sheet[3]]));
        self.note(if limit < least_limit(n) {
            Event::LimitLow
        } else {
            Event::LimitHigh
        });
        self.below.note_if(limit + 1 == least_limit(n), n);
        let mut opened = sheet.to_vec();
        opened[2..4].copy_from_slice(&256u16.to_le_bytes());
        let next = Sheet::read(Caller::Server, &opened).err();
        self.note_if(next == Some(Refusal::BadPairs), Event::TwoFirst);
    }

    fn eleven(&mut self, sheet: &[u8]) {
        let start = 4 + 4 * usize::from(sheet[1]);
        let (mut last, mut free, mut uneven) = (0, start, false);
        for pair in sheet[4..start].chunks_exact(4) {
            let offset = usize::from(u16::from_le_bytes([pair[0], pair[1]]));
            let length = usize::from(u16::from_le_bytes([pair[2], pair[3]]));
            let event = if offset < start {
                Event::PairEarly
            } else if offset < last {
                Event::PairUnsorted
            } else if offset < free {
                Event::PairOverlaps
            } else if offset + length > sheet.len() {
                Event::PairPast
            } else {
                (last, free) = (offset, offset + length);
                uneven |= length % 6 != 0;
                continue;
            };
            self.note(event);
            return self.note_if(uneven, Event::ElevenFirst);
        }
    }

    /// Notes why an entry was refused, and that of a closed session.
    fn entry_refused(&mut self, entry: &[u8], session: &Session, refusal: Refusal) {
        let (kind, number) = (usize::from(entry[0]), usize::from(entry[1]));
        let phase = session.processes[number.min(63)].phase;
        let crashed = phase == Phase::Crashed;
        use Event::*;
        self.note(match refusal {
            Refusal::NoSuchProcess => [NoSeatPropose, NoSeatWork, NoSeatLook, NoSeatCrash][kind],
            Refusal::BlankProposal if phase == Phase::Idle => BlankOut,
            Refusal::BlankProposal => BlankOther,
            Refusal::SecondProposal => Twice,
            Refusal::ProcessOut => [OutWork, OutLook, OutCrash][kind - 1],
            Refusal::ProcessGone if crashed => [CrashedWork, CrashedLook, CrashedCrash][kind - 1],
            Refusal::ProcessGone => [DecidedWork, DecidedLook, DecidedCrash][kind - 1],
            Refusal::ProcessSpent if entry[2] == 1 => SpentYes,
            Refusal::ProcessSpent => SpentNo,
            Refusal::ClosedToProposals if proposed(session) == 0 => LateFirst,
            Refusal::ClosedToProposals => Late,
            _ if kind > 4 => WrongKind,
            _ if kind == 4 => wrong_close(entry),
            _ => [WrongKind, WrongWork, WrongLook, WrongCrash][kind],
        });
        let (malformed, beyond) = (refusal == Refusal::BadEntry, number >= session.n);
        self.note_if(malformed && beyond, ThirteenFirst);
        let close = malformed && kind == 4;
        self.note_if(close && beyond, CloseThirteenFirst);
        self.note_if(close && number >= 64, CloseSeat64);
        if kind == 0 && session.closed {
            self.late(session, phase, refusal);
        }
    }

    /// Notes why a proposal to a closed session was refused, by a process of that phase.
    fn late(&mut self, session: &Session, phase: Phase, refusal: Refusal) {
        use Event::*;
        let filled = session.registers.decision != 0;
        match refusal {
            Refusal::NoSuchProcess => self.note(NoSeatClosed),
            Refusal::BlankProposal if phase == Phase::Idle => self.note(BlankClosed),
            Refusal::BlankProposal => self.note(BlankTwiceClosed),
            Refusal::SecondProposal => self.note(TwiceClosed),
            _ => self.note_if(filled, LateCommit),
        }
    }

    /// Notes what a case reaches under one of its budgets.
    fn case(&mut self, case: &Case, budget: u64) -> Result<(), String> {
        if case.buffer == BUFFER {
            return self.observe(&case.sheet, budget);
        }
        self.wrong_buffer(case);
        Ok(())
    }

    /// Notes the mark of a report.
    fn reported(&mut self, text: &str) {
        let Some([_, _, mark]) = board(text) else {
            return;
        };
        let closed = mark == CLOSED;
        self.note_if(!closed, Event::ReportOpen);
        self.note_if(closed, Event::ReportClosed);
        self.note_if(closed && text.starts_with(LATE), Event::ReportLate);
    }

    fn wrong_buffer(&mut self, case: &Case) {
        self.note(match case.buffer {
            0 => Event::Buffer0,
            255 => Event::Buffer255,
            _ => Event::Buffer257,
        });
        let refused = Sheet::read(Caller::Server, &case.sheet).is_err();
        self.note_if(refused, Event::FifteenFirst);
    }
}

/// How many processes of a session have proposed.
fn proposed(session: &Session) -> usize {
    let seated = session.processes[..session.n].iter();
    seated
        .filter(|process| process.phase != Phase::Idle)
        .count()
}

/// What is wrong with an entry of kind 4.
fn wrong_close(entry: &[u8]) -> Event {
    match (entry[1], &entry[2..]) {
        (0, _) => Event::WrongCloseValue,
        (_, [0, 0, 0, 0]) => Event::WrongCloseSeat,
        _ => Event::WrongClose,
    }
}

// ---------------------------------------------------------------- as the cart

impl Coverage {
    /// Notes what a sheet reaches as the cart under a budget, its report being this text.
    fn as_cart(&mut self, bytes: &[u8], budget: u64, text: &str) {
        match Sheet::read(Caller::Cart, bytes) {
            Ok(sheet) => self.run_by_cart(&sheet, budget, text),
            Err(refusal) => self.refused_by_cart(bytes, refusal),
        }
    }

    fn run_by_cart(&mut self, sheet: &Sheet, budget: u64, text: &str) {
        let Session { n, limit, .. } = sheet.open();
        let (seats, rounds) = most(Caller::Cart);
        let (most_seats, most_rounds) = (n == seats, limit as usize == rounds);
        self.note(Event::CartOpened);
        self.note_if(most_seats, Event::CartMostSeats);
        self.note_if(most_rounds, Event::CartMostRounds);
        self.note_if(most_seats && most_rounds, Event::CartMost);
        let refused = text.starts_with("outcome refused ");
        let ended = !refused && budget < sheet.entries().count() as u64;
        self.note_if(refused, Event::CartRefused);
        self.note_if(ended, Event::CartBudget);
        let [_, decided, mark] = board(text).expect("a board line");
        let (commit, decision) = (decided != "0", text.contains(" decided "));
        let closed = mark == CLOSED;
        self.note_if(!closed, Event::CartReportOpen);
        self.note_if(closed, Event::CartReportClosed);
        self.note_if(closed && text.starts_with(LATE), Event::CartLate);
        self.note_if(closed && ended, Event::CartBudgetClosed);
        self.note_if(commit, Event::CartCommit);
        self.note_if(decision, Event::CartDecided);
        self.cart.commits.note_if(commit, n);
        self.cart.decisions.note_if(decision, n);
    }

    /// Notes why the cart refused a sheet, and what it would have been told next.
    fn refused_by_cart(&mut self, sheet: &[u8], refusal: Refusal) {
        let opened = Sheet::read(Caller::Server, sheet).is_ok();
        let (seats, rounds) = most(Caller::Cart);
        match refusal {
            Refusal::BadProcessCount => {
                let n = usize::from(sheet[0]);
                self.note_if(n == 0, Event::CartNoSeats);
                self.note_if(opened && n == seats + 1, Event::CartSeventeen);
                self.note_if(opened && n > seats + 1, Event::CartManySeats);
            }
            Refusal::BadRoundLimit => {
                let limit = usize::from(u16::from_le_bytes([sheet[2], sheet[3]]));
                self.note_if(limit <= rounds, Event::CartLimitLow);
                self.note_if(opened && limit == rounds + 1, Event::CartSixtyFive);
                self.note_if(opened && limit > rounds + 1, Event::CartManyRounds);
            }
            _ => {}
        }
        let next = mended(sheet, refusal).and_then(|sheet| Sheet::read(Caller::Cart, &sheet).err());
        let follows = |row: &&(u32, u32, Event)| {
            row.0 == refusal.code() && next.is_some_and(|next| next.code() == row.1)
        };
        if let Some((_, _, event)) = CART_ORDER.iter().find(follows) {
            self.note(*event);
        }
    }
}

/// The sheet without the fault that a refusal as the cart names, but for 12, the last.
fn mended(sheet: &[u8], refusal: Refusal) -> Option<Vec<u8>> {
    let mut sheet = sheet.to_vec();
    match refusal {
        Refusal::BadSheet if sheet.len() < 4 => return None,
        Refusal::BadSheet if sheet.len() > MAX_BYTES => sheet.truncate(MAX_BYTES),
        Refusal::BadSheet => sheet[1] = 0,
        Refusal::BadProcessCount => sheet[0] = 1,
        Refusal::BadRoundLimit => sheet[2..4].copy_from_slice(&64u16.to_le_bytes()),
        Refusal::BadPairs => lay_anew(&mut sheet),
        _ => return None,
    }
    Some(sheet)
}

/// Puts runs of the same lengths behind the pairs, one after another.
fn lay_anew(sheet: &mut Vec<u8>) {
    let mut free = 4 + 4 * usize::from(sheet[1]);
    for pair in sheet[4..free].chunks_exact_mut(4) {
        pair[..2].copy_from_slice(&(free as u16).to_le_bytes());
        free += usize::from(u16::from_le_bytes([pair[2], pair[3]]));
    }
    sheet.resize(sheet.len().max(free), 0);
}

/// A session whose turns are noted.
struct Observer {
    session: Session,
    counts: Counts,
    /// The round and the process of each flag write.
    flags: Vec<(u32, usize)>,
    /// What each process last saw in a filled register at gate or in seek.
    seen: [u32; 64],
    /// Whether each process was spent by a turn with hint no.
    spent_by_no: [bool; 64],
    /// The closes carried out.
    closes: usize,
}

impl Observer {
    /// Carries out and notes one entry; false where it is refused.
    fn entry(&mut self, entry: &[u8], coverage: &mut Coverage) -> bool {
        let operation = match Operation::decode(entry) {
            Ok(operation) => operation,
            Err(refusal) => {
                coverage.entry_refused(entry, &self.session, refusal);
                return false;
            }
        };
        let Some(number) = operation.process() else {
            self.close(coverage);
            return true;
        };
        let before = self.session.processes[number.min(63)];
        let overwritten = self.overwritten(&before);
        let mut access = None;
        let answer = self
            .session
            .apply_trusted(operation, &mut self.counts, |made| access = Some(made));
        if let Err(refusal) = answer {
            coverage.entry_refused(entry, &self.session, refusal);
            self.later(operation, refusal, coverage);
            return false;
        }
        let (after, closed) = (self.session.processes[number], self.session.closed);
        let at = &mut coverage.stances[stance(before.phase)];
        match operation {
            Operation::Close => unreachable!("a close is for no process"),
            Operation::Propose { .. } => coverage.note(Event::Proposed),
            Operation::Crash { .. } => {
                at.crashes += 1;
                coverage.note_if(closed, Event::CrashClosed);
            }
            Operation::Learn { .. } => self.look(number, before, after, coverage),
            Operation::Step { leader, .. } => {
                at.works += 1;
                coverage.note_if(closed, Event::WorkClosed);
                let event = match self.step(number, before, after, access, overwritten) {
                    Event::GateYesSpent if !leader => Event::GateNoSpent,
                    event => event,
                };
                self.spent_by_no[number] |= matches!(event, Event::GateNoSpent);
                coverage.note(event);
                self.more(number, before, after, access, coverage);
            }
        }
        true
    }

    /// Carries out and notes a close.
    fn close(&mut self, coverage: &mut Coverage) {
        let (proposed, n) = (proposed(&self.session), self.session.n);
        coverage.note(match proposed {
            0 => Event::CloseFirst,
            _ if proposed < n => Event::CloseBetween,
            _ => Event::CloseAll,
        });
        let filled = self.session.registers.decision != 0;
        let decided = |process: &Process| process.phase == Phase::Decided;
        let decided = self.session.processes.iter().any(decided);
        coverage.note_if(filled && !decided, Event::CloseCommit);
        coverage.note_if(decided, Event::CloseDecided);
        coverage.note_if(self.closes > 0, Event::CloseAgain);
        let close = Operation::Close;
        let answer = self.session.apply_trusted(close, &mut self.counts, |_| {});
        answer.expect("a close is not refused");
        self.closes += 1;
    }

    /// Notes a look.
    fn look(&self, number: usize, before: Process, after: Process, coverage: &mut Coverage) {
        let spent = before.phase == Phase::Exhausted;
        coverage.note_if(spent && self.spent_by_no[number], Event::SpentLook);
        let closed = self.session.closed;
        let at = &mut coverage.stances[stance(before.phase)];
        if after.phase != Phase::Decided {
            at.blank += 1;
            coverage.note_if(closed, Event::LookBlankClosed);
            return coverage.note(Event::LookBlank);
        }
        at.filled += 1;
        coverage.note_if(closed, Event::LookClosed);
        coverage.note(if before.estimate == after.estimate {
            Event::LookSame
        } else {
            Event::LookOther
        });
        coverage.decided(&self.session);
    }

    /// Notes a 9 after the process was spent by a turn with hint no, and an 18 after two
    /// closes.
    fn later(&self, operation: Operation, refusal: Refusal, coverage: &mut Coverage) {
        if let (Operation::Step { process, leader }, Refusal::ProcessSpent) = (operation, refusal) {
            let event = [Event::SpentNoLater, Event::SpentYesLater][usize::from(leader)];
            coverage.note_if(self.spent_by_no[process], event);
        }
        let late = refusal == Refusal::ClosedToProposals;
        coverage.note_if(late && self.closes > 1, Event::LateAgain);
    }

    /// What a write of this process would go over: T[r], C[r - i] or D.
    fn overwritten(&self, process: &Process) -> u32 {
        let (registers, round) = (&self.session.registers, process.round as usize);
        match process.phase {
            Phase::Write => registers.values[round - 1],
            Phase::Flag(i) => u32::from(registers.marks[round - 1 - i as usize]),
            Phase::Commit => registers.decision,
            _ => 0,
        }
    }

    /// The event of an accepted work turn, by the stances on either side.
    fn step(
        &self,
        number: usize,
        before: Process,
        after: Process,
        access: Option<Access>,
        overwritten: u32,
    ) -> Event {
        use Event::*;
        match (before.phase, after.phase) {
            (Phase::Waiting, Phase::Waiting) => GateNo,
            (Phase::Waiting, Phase::Exhausted) => GateYesSpent,
            (Phase::Waiting, Phase::Write) => GatePut,
            (Phase::Waiting, Phase::Scan(_)) => GateSeek,
            (Phase::Waiting, _) => GateTake,
            (Phase::Write, _) if overwritten == 0 => PutBlank,
            (Phase::Write, _) if overwritten == before.estimate => PutSame,
            (Phase::Write, _) => PutOther,
            (Phase::Scan(_), Phase::Scan(_)) => SeekOn,
            (Phase::Scan(k), Phase::Adopt(to)) if k == to => SeekLast,
            (Phase::Scan(_), _) => SeekTake,
            (Phase::Adopt(k), _) if access != Some(Access::ValueRead(k, self.seen[number])) => {
                TakeChanged
            }
            (Phase::Adopt(_), _) if before.estimate == after.estimate => TakeSame,
            (Phase::Adopt(_), _) => TakeOther,
            _ => later_step(before, after, overwritten),
        }
    }

    /// What a turn may be beside its own event.
    fn more(
        &mut self,
        number: usize,
        before: Process,
        after: Process,
        access: Option<Access>,
        coverage: &mut Coverage,
    ) {
        match (before.phase, access) {
            (Phase::Waiting | Phase::Scan(_), Some(Access::ValueRead(_, value))) if value != 0 => {
                self.seen[number] = value;
            }
            (_, Some(Access::Marked(round))) => self.flags.push((round, number)),
            (Phase::Adopt(_), _) => coverage.note_if(after.round > before.round, Event::TakeAhead),
            (Phase::Commit, _) => {
                coverage.committed(&self.session);
                coverage.note_if(self.session.closed, Event::CommitClosed);
            }
            _ => {}
        }
    }
}

/// The event of a turn from compare to commit.
fn later_step(before: Process, after: Process, overwritten: u32) -> Event {
    use Event::*;
    match (before.phase, after.phase) {
        (Phase::Compare(0), Phase::Flag(_)) => CompareFlag,
        (Phase::Compare(_), Phase::Flag(_)) => CompareFlagBack,
        (Phase::Compare(_), Phase::Compare(_)) => CompareOn,
        (Phase::Compare(_), Phase::CheckMark(_)) => CompareChecks,
        (Phase::Compare(_), _) => CompareGate,
        (Phase::Flag(_), Phase::Compare(_)) => [FlagOn, FlagAgainOn][overwritten as usize],
        (Phase::Flag(_), Phase::CheckMark(_)) => {
            [FlagChecks, FlagAgainChecks][overwritten as usize]
        }
        (Phase::Flag(_), _) => [FlagGate, FlagAgainGate][overwritten as usize],
        (Phase::CheckMark(0), Phase::Waiting) => MarkedNow,
        (Phase::CheckMark(_), Phase::Waiting) => MarkedBack,
        (Phase::CheckMark(_), _) => Unmarked,
        (Phase::CheckValue(0), Phase::Waiting) => ValueOtherNow,
        (Phase::CheckValue(_), Phase::Waiting) => ValueOtherBack,
        (Phase::CheckValue(_), Phase::CheckMark(_)) => ValueOn,
        (Phase::CheckValue(_), _) => ValueCommit,
        _ if overwritten == 0 => CommitFirst,
        _ => CommitAgain,
    }
}

// ---------------------------------------------------------------- the table

impl Coverage {
    /// Prints all that was reached; returns what was expected and was not.
    fn print(&self) -> Vec<String> {
        let mut missing = self.reached.print();
        self.print_stances(&mut missing);
        let Shorter {
            opened,
            commits,
            looks,
        } = &self.shorter;
        for by_n in [
            &self.commits,
            &self.least,
            &self.below,
            opened,
            commits,
            looks,
            &self.cart.commits,
            &self.cart.decisions,
        ] {
            by_n.print(&mut missing);
        }
        missing
    }

    fn print_stances(&self, missing: &mut Vec<String>) {
        println!(
            "{:11} {:>12} {:>10} {:>10} {:>10} {:>12}",
            "stance", "work", "look blank", "look D", "crash", "at the end"
        );
        for (place, (name, at)) in STANCES.iter().zip(&self.stances).enumerate() {
            let times = [at.works, at.blank, at.filled, at.crashes, at.stood];
            let [works, blank, filled, crashes, stood] = times;
            println!("{name:11} {works:12} {blank:10} {filled:10} {crashes:10} {stood:12}");
            // Gate to commit take all four, spent all but work, the rest none.
            let expected = match place {
                1..=9 => 0..5,
                10 => 1..5,
                _ => 4..5,
            };
            if times[expected].contains(&0) {
                missing.push(format!("something at {name}"));
            }
        }
    }
}

// ---------------------------------------------------------------- the comparison

/// The third field of the board line. (02, wish 10.)
const OPEN: &str = "open";
const CLOSED: &str = "closed";
/// How a report begins where a proposal was refused with 18.
const LATE: &str = "outcome refused 18 ";

/// The time spent in the calls of either side. No benchmark: each sheet is run
/// once, and the reference, which goes first, meets it cold.
#[derive(Default)]
struct Clock {
    library: Duration,
    reference: Duration,
    calls: u64,
    /// The time spent in the library's report, and how often its program was run.
    report: Duration,
    programs: u64,
    /// The same of the report as the cart.
    cart: Duration,
    carts: u64,
}

/// Calls both sides with equal buffers; what differs, in words.
fn compare(case: &Case, budget: u64, fill: u8, clock: &mut Clock) -> Result<(), String> {
    let mut ours = [fill; GUARD + BUFFER + 1 + GUARD];
    let mut theirs = ours;
    let lent = GUARD..GUARD + case.buffer;
    let start = Instant::now();
    let expected = entry(&case.sheet, budget, &mut ours[lent.clone()]);
    let between = Instant::now();
    let answer = library::run(&case.sheet, budget, &mut theirs[lent]);
    clock.library += between.elapsed();
    clock.reference += between - start;
    clock.calls += 1;
    if answer != expected {
        return Err(format!("code: library {answer}, reference {expected}"));
    }
    same_bytes(&format!("code {answer}, buffer"), &theirs, &ours)
}

/// Compares the report's text, its contested with the marked rounds of the session that
/// the sheet leaves, and its mark with the entries carried out.
fn compare_report(case: &Case, fill: u8, clock: &mut Clock) -> Result<String, String> {
    let text = text_by(fill, |buffer| {
        let start = Instant::now();
        let size = library::report(&case.sheet, buffer);
        clock.report += start.elapsed();
        size
    })?;
    same_text(&text, &report(&case.sheet))?;
    let (contested, marked) = (contested(&text), marked_rounds(&case.sheet));
    if contested != marked {
        return Err(format!(
            "report: contested {contested:?}, marked rounds {marked:?}"
        ));
    }
    check_mark(Caller::Server, &case.sheet, &text)?;
    Ok(text)
}

/// Compares the text of the sheet's report as the cart under a budget.
fn compare_cart(
    case: &Case,
    caller: u8,
    budget: u64,
    fill: u8,
    clock: &mut Clock,
) -> Result<String, String> {
    let text = text_by(fill, |buffer| {
        let start = Instant::now();
        let size = library::report_as(caller, &case.sheet, budget, buffer);
        clock.cart += start.elapsed();
        size
    })?;
    clock.carts += 1;
    same_text(&text, &report_of(Caller::Cart, budget, &case.sheet))?;
    check_mark(Caller::Cart, &case.sheet, &text)?;
    Ok(text)
}

/// The words of a report's board line: the highest filled round, D and the mark; none
/// where the sheet is refused.
fn board(text: &str) -> Option<[&str; 3]> {
    let line = text.lines().find_map(|line| line.strip_prefix("board "))?;
    let words: Vec<&str> = line.split(' ').collect();
    words.try_into().ok()
}

/// The number of entries that a report tells as carried out; none where the sheet is
/// refused.
fn carried_out(text: &str) -> Option<usize> {
    let outcome = text.lines().next()?.strip_prefix("outcome ")?;
    outcome.rsplit(' ').next()?.parse().ok()
}

/// A report has "closed" where a close is among the entries carried out, and "open" where
/// none is; no mark where the sheet is refused. (02, wish 10.)
fn check_mark(caller: Caller, bytes: &[u8], text: &str) -> Result<(), String> {
    let closed = |sheet: Sheet| {
        let mut entries = sheet.entries().take(carried_out(text).unwrap_or(0));
        entries.any(|entry| entry == CLOSE)
    };
    let closed = Sheet::read(caller, bytes).ok().map(closed);
    let expected = closed.map(|closed| if closed { CLOSED } else { OPEN });
    let mark = board(text).map(|[_, _, mark]| mark);
    if mark != expected {
        return Err(format!("report: {mark:?}, by its entries {expected:?}"));
    }
    Ok(())
}

/// The third number of a report's tally line; none where the sheet is refused.
fn contested(text: &str) -> Option<u32> {
    let tally = text.lines().find_map(|line| line.strip_prefix("tally "))?;
    tally.split(' ').nth(2)?.parse().ok()
}

/// The marked rounds of the session that a sheet leaves; none where it is refused.
fn marked_rounds(bytes: &[u8]) -> Option<u32> {
    let sheet = Sheet::read(Caller::Server, bytes).ok()?;
    let (mut session, mut counts) = (sheet.open(), Counts::default());
    run(&sheet, u64::MAX, &mut session, &mut counts);
    Some(session.marked_rounds())
}

/// Set to the path of the report's program, if its text is to be compared.
const REPORT: &str = "BOARD_REPORT";

/// What the report's program writes for a sheet. Its input is written beside it,
/// since it may write before it has read all.
fn reported(program: &OsStr, sheet: &[u8]) -> io::Result<Vec<u8>> {
    let pipes = (Stdio::piped(), Stdio::piped());
    let mut child = Command::new(program)
        .stdin(pipes.0)
        .stdout(pipes.1)
        .spawn()?;
    let mut input = child.stdin.take().expect("the input is a pipe");
    let sheet = sheet.to_vec();
    let writer = std::thread::spawn(move || input.write_all(&sheet));
    let output = child.wait_with_output()?;
    // A sheet that is too long may be left unread.
    let _ = writer.join();
    Ok(output.stdout)
}

/// Compares what the report's program writes for a sheet, where it is one of those
/// to be compared.
fn compare_program(index: u64, case: &Case, clock: &mut Clock) -> Result<(), String> {
    let Some(program) = std::env::var_os(REPORT) else {
        return Ok(());
    };
    if index % 50 != 0 || index >= 100_000 {
        return Ok(());
    }
    let text = reported(&program, &case.sheet).map_err(|error| error.to_string())?;
    clock.programs += 1;
    same_text(&String::from_utf8_lossy(&text), &report(&case.sheet))
}

fn print_clock(count: u64, coverage: &Coverage, clock: &Clock) {
    let (calls, entries) = (clock.calls, coverage.entries);
    println!("{count} sheets, {calls} calls, {entries} entries carried out");
    let (seconds, programs) = (clock.report.as_secs_f64(), clock.programs);
    println!("{count} reports in {seconds:.3} s, {programs} by the program");
    let (seconds, carts) = (clock.cart.as_secs_f64(), clock.carts);
    println!("{carts} reports as the cart in {seconds:.3} s");
    for (name, time) in [("library", clock.library), ("reference", clock.reference)] {
        let seconds = time.as_secs_f64();
        let (sheets, rate) = (calls as f64 / seconds, entries as f64 / seconds);
        println!("{name:9} {seconds:8.3} s {sheets:12.0} calls/s {rate:12.0} entries/s");
    }
}

/// Random sheets by the C entry and by their reports.
struct Sheets {
    coverage: Coverage,
    clock: Clock,
}

impl Comparison for Sheets {
    const NAME: &'static str = "differential";
    const CASES: &'static str = "sheets";
    const KEPT: &'static str = "sheet";
    const FULL: u64 = 100_000;
    type Case = Case;

    fn new() -> Sheets {
        Sheets {
            coverage: Coverage::new(),
            clock: Clock::default(),
        }
    }

    fn case(random: &mut Random) -> Case {
        Case::of(random)
    }

    /// Each of the case's budgets, then its report, and each budget as the cart.
    fn compare(&mut self, index: u64, case: &Case, random: &mut Random) -> Result<(), String> {
        let (clock, fill) = (&mut self.clock, random.byte());
        for &budget in &case.budgets {
            compare(case, budget, fill, clock)
                .and_then(|()| self.coverage.case(case, budget))
                .map_err(|words| format!("budget {budget}, buffer {}: {words}", case.buffer))?;
        }
        let text = compare_report(case, fill, clock)?;
        self.coverage.reported(&text);
        let caller = cart(random);
        for &budget in &case.budgets {
            let text = compare_cart(case, caller, budget, fill, clock)
                .map_err(|words| format!("caller {caller}, budget {budget}: {words}"))?;
            self.coverage.as_cart(&case.sheet, budget, &text);
        }
        compare_program(index, case, clock)
    }

    fn print(&self, count: u64) -> Vec<String> {
        let missing = self.coverage.print();
        print_clock(count, &self.coverage, &self.clock);
        missing
    }

    fn words(case: &Case) -> String {
        format!("one of the budgets {:?}", case.budgets)
    }

    fn kept(case: &Case) -> &[u8] {
        &case.sheet
    }
}

fn main() -> ExitCode {
    harness::run::<Sheets>()
}
