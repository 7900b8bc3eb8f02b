//! Calls the writer of the library under test and that of the reference with the
//! same random arguments, sound and damaged, and compares the number returned, the
//! size, which a refusal must leave alone, and every byte of the output and beside
//! it. (02, wish 3.) In each sheet that is written the reference's reader must find
//! the n, the L, the entries and the run lengths that were given; both sides must
//! run it alike; and the library must write the same bytes again from what was read.
//! Each call is made as the server and as the bedside cart (02, wish 9), whose sheets
//! must be the server's too.
//!
//! `writes [COUNT] [SEED]`: so many calls (200,000 where left out) from that seed
//! (the clock where left out). Call I of a seed is the same whatever the COUNT. It
//! prints the seed and a table of what the calls reached as either caller. It ends with
//! 1 at the first difference, after telling the arguments and writing the entries to
//! `difference-SEED-INDEX.entries`; a fault or an endless run of the library counts
//! as one. From 200,000 calls on it ends with 1, too, if anything was not reached as
//! often as the table expects.

#[macro_use]
mod harness;
mod library;

use std::process::ExitCode;

use harness::{
    cart, cart_size, ends, least_limit, most, raw, same_bytes, same_text, shorter, size, text_by,
    word, ByN, Comparison, Entry, Random, Reached, CLOSE, GUARD, MOST_ENTRIES, ONE_SEAT, SERVER,
};
use janus_reference::runner::BUFFER;
use janus_reference::sheet::{ENTRY, MAX_BYTES};
use janus_reference::{
    entry, report_of, run, window, write, Caller, Counts, Operation, Refusal, Sheet,
};

// ---------------------------------------------------------------- calls

/// The arguments of one call, the output by its length and the caller by its byte.
#[derive(Clone)]
struct Call {
    caller: u8,
    n: usize,
    limit: usize,
    entries: Vec<u8>,
    runs: Vec<usize>,
    room: usize,
}

const MOST_RUNS: usize = 16;

/// The size of a sheet. (01, "Turn sheets".)
fn size_of_sheet(runs: usize, entry_bytes: usize) -> usize {
    4 + 4 * runs + entry_bytes
}

/// Run lengths: mostly few entries, now and then as many as fit in a sheet of so
/// many runs, or one more.
fn some_runs(random: &mut Random) -> Vec<usize> {
    let count = match random.below(8) {
        0 => random.pick(&[0, MOST_RUNS]),
        1..=4 => random.between(1, MOST_RUNS),
        _ => random.between(1, 3),
    };
    let most = (MAX_BYTES - size_of_sheet(count, 0)) / ENTRY;
    let entries = match random.below(200) {
        _ if count == 0 => 0,
        0 | 1 => most,
        2 => most + 1,
        3 => random.between(most / 2, most),
        4..=40 => random.between(30, 400),
        _ => random.below(30),
    };
    let mut start = 0;
    let lengths = ends(random, entries, count).into_iter().map(|end| {
        let length = end - start;
        start = end;
        length
    });
    lengths.collect()
}

/// A well-formed entry: most of them turns of that process.
fn some_entry(random: &mut Random, process: usize) -> Entry {
    match random.below(60) {
        0 => raw(3, process, 0),
        1..=5 => raw(2, process, 0),
        6 => raw(0, process, random.pick(&[0, 1, 256, 1 << 31, u32::MAX])),
        7 => {
            let kind = random.below(4) as u8;
            let value = [random.word() as u32, random.below(2) as u32, 0, 0];
            raw(kind, random.below(256), value[usize::from(kind)])
        }
        8 => CLOSE,
        turn => raw(1, process, u32::from(turn > 12)),
    }
}

/// One process alone, so many entries: it proposes, then works and looks by turns, and so
/// is decided right after its commit. Now and then there is a close in between.
fn alone(random: &mut Random, count: usize) -> Vec<u8> {
    let close = random.once_in(3).then(|| random.between(1, 20));
    let entry = |place| match place {
        0 => raw(0, 0, 7),
        _ if close == Some(place) => CLOSE,
        _ if place % 2 == 1 => raw(1, 0, 1),
        _ => raw(2, 0, 0),
    };
    (0..count).flat_map(entry).collect()
}

/// So many well-formed entries. Mostly all propose first, so that many sheets are
/// not refused at once when they are run; a close may come before some of them. Now and
/// then one works alone, or there are closes alone.
fn some_entries(random: &mut Random, n: usize, count: usize) -> Vec<u8> {
    if random.once_in(10) {
        return alone(random, count);
    }
    if random.once_in(100) {
        return CLOSE.repeat(count);
    }
    let proposals = if random.once_in(5) { 0 } else { n };
    let close = random.once_in(30).then(|| random.below(n));
    let turns = if random.once_in(3) { 1 } else { n };
    let entry = |place| {
        if close == Some(place) {
            return CLOSE;
        }
        if place < proposals {
            return raw(0, place, random.between(1, 3) as u32);
        }
        let process = random.below(turns);
        some_entry(random, process)
    };
    (0..count).flat_map(entry).collect()
}

/// An entry with an unknown kind or a wrong value, or a close with a wrong seat.
fn malformed(random: &mut Random) -> Entry {
    let process = random.below(256);
    let upper = random.pick(&[2, 255, 256, 1 << 16, 1 << 24, 1 << 31, u32::MAX]);
    match random.below(8) {
        0 => raw(random.pick(&[5, 6, 128, 255]), process, 0),
        1 => raw(1, process, upper),
        2 => raw(2, process, random.pick(&[1, upper])),
        3 => raw(3, process, random.pick(&[1, upper])),
        4 => raw(4, random.pick(&[1, 2, 63, 64, 128, 255]), 0),
        5 => raw(4, 0, random.pick(&[1, upper])),
        6 => raw(4, random.between(1, 255), random.pick(&[1, upper])),
        _ => raw(random.between(5, 255) as u8, process, random.word() as u32),
    }
}

/// Any n, with the least L or one less.
fn border(random: &mut Random) -> (usize, usize) {
    let n = random.between(1, 64);
    let least = window(n) as usize;
    (n, random.pick(&[least - 1, least]))
}

/// One of the wrong numbers, or one that is right but for an upper bit.
fn wrong_number(random: &mut Random, right: usize, bits: &[u32], wrong: &[usize]) -> usize {
    match random.below(3) {
        0 => right.wrapping_add(1 << random.pick(bits)),
        _ => random.pick(wrong),
    }
}

impl Call {
    fn of(random: &mut Random) -> Call {
        let (n, limit) = match random.below(20) {
            0 => border(random),
            1 => cart_size(random),
            _ => size(random),
        };
        let runs = some_runs(random);
        let entries = some_entries(random, n, runs.iter().sum());
        let room = 0;
        let mut call = Call {
            caller: SERVER,
            n,
            limit,
            entries,
            runs,
            room,
        };
        for _ in 0..random.pick(&[0, 0, 0, 0, 0, 0, 1, 1, 1, 2, 3, 4]) {
            call.damage(random);
        }
        call.room = call.some_room(random);
        call
    }

    fn size(&self) -> usize {
        size_of_sheet(self.runs.len(), self.entries.len())
    }

    fn caller(&self) -> Caller {
        Caller::named(self.caller)
    }

    /// Which of the entries are closes.
    fn closes(&self) -> impl Iterator<Item = bool> + '_ {
        let entries = self.entries.chunks_exact(ENTRY);
        entries.map(|entry| entry == CLOSE)
    }

    /// The caller's most seats and rounds.
    fn most(&self) -> (usize, usize) {
        most(self.caller())
    }

    /// The length of the output: often just enough or one byte less.
    fn some_room(&self, random: &mut Random) -> usize {
        let size = self.size();
        match random.below(12) {
            0..=4 => size,
            5 | 6 => size - 1,
            7 => 0,
            8 => random.below(size),
            9 => size + MAX_BYTES,
            _ => size + random.between(1, 50),
        }
    }

    /// One change for the worse. Some come to nothing.
    fn damage(&mut self, random: &mut Random) {
        match random.below(8) {
            0 => {
                let wrong = [0, 0, 65, 66, 128, 255, usize::MAX];
                self.n = wrong_number(random, self.n, &[6, 8, 16, 32], &wrong);
            }
            1 => {
                let least = window(self.n.clamp(1, 64)) as usize;
                let wrong = [0, 1, least - 1, least - 1, 257, 300, 65_535, usize::MAX];
                self.limit = wrong_number(random, self.limit, &[8, 16, 32], &wrong);
            }
            2 => {
                let more = random.between(1, 5);
                self.entries.resize(self.entries.len() + more, 0);
            }
            3 => {
                let less = random.between(1, 5);
                self.entries
                    .truncate(self.entries.len().saturating_sub(less));
            }
            4 | 5 => self.damage_runs(random),
            _ => self.damage_entry(random),
        }
    }

    /// More than 16 runs, or run lengths that do not add up.
    fn damage_runs(&mut self, random: &mut Random) {
        let kind = random.below(7);
        if kind == 0 {
            let count = random.between(MOST_RUNS + 1, MOST_RUNS + 4);
            return self.runs.resize(count, 0);
        }
        if kind == 1 {
            self.runs.pop();
            return;
        }
        while self.runs.len() < 2 {
            self.runs.push(0);
        }
        let (one, other) = (random.below(self.runs.len() - 1), self.runs.len() - 1);
        let anywhere = random.word() as usize;
        let far = random.pick(&[1 << 63, 1 << 62, usize::MAX, anywhere]);
        let change = match kind {
            2 => 1,
            3 => usize::MAX,
            // Right in fewer bits, or in the run's bytes of 16 or 64 bits.
            4 => random.pick(&[1 << 15, 1 << 16, 1 << 32, 1 << 63]),
            _ => {
                // The sum is right but for its bit 64.
                self.runs[other] = self.runs[other].wrapping_sub(far);
                far
            }
        };
        self.runs[one] = self.runs[one].wrapping_add(change);
    }

    /// A malformed entry in the first, the last or any place.
    fn damage_entry(&mut self, random: &mut Random) {
        let count = self.entries.len() / ENTRY;
        if count > 0 {
            let anywhere = random.below(count);
            let place = ENTRY * random.pick(&[0, count - 1, anywhere]);
            self.entries[place..place + ENTRY].copy_from_slice(&malformed(random));
        }
    }

    /// The call without the fault that a refusal names, which is not 15.
    fn mended(&self, refusal: Refusal) -> Call {
        let mut call = self.clone();
        match refusal {
            Refusal::BadProcessCount => call.n = 1,
            Refusal::BadRoundLimit => call.limit = self.most().1,
            Refusal::BadRun => call.entries.truncate(self.entries.len() / ENTRY * ENTRY),
            Refusal::BadCuts => {
                call.entries.truncate(ENTRY * MOST_ENTRIES);
                call.runs = vec![call.entries.len() / ENTRY];
            }
            _ => call.entries.fill(0),
        }
        call
    }

    /// The reference's answer, with an output of the call's length.
    fn write(&self, output: &mut [u8]) -> Result<usize, Refusal> {
        let (n, limit) = (self.n, self.limit);
        write(self.caller(), n, limit, &self.entries, &self.runs, output)
    }

    /// The library's number, its size being told where it is not refused.
    fn library(&self, output: &mut [u8], size: &mut usize) -> u32 {
        let (n, limit, entries, runs) = (self.n, self.limit, &self.entries, &self.runs);
        match self.caller {
            SERVER => library::write(n, limit, entries, runs, output, size),
            cart => library::write_as(cart, (n, limit), entries, runs, output, size),
        }
    }
}

// ---------------------------------------------------------------- coverage

events! {
    NoSeats: "1: no seats" at least 100,
    ManySeats: "1: over the most seats" at least 100,
    NextSeats: "1: one over the most seats" at least 100,
    SeatsCut: "1: over 255 seats, 1 to the most in a byte" at least 100,
    LimitLow: "2: L below W" at least 100,
    LimitLast: "2: L = W - 1" at least 100,
    LimitHigh: "2: L above the most" at least 100,
    LimitNext: "2: L one above the most" at least 100,
    LimitCut: "2: L over 65,535, 1 to the most in two bytes" at least 100,
    Ragged1: "12: one byte too many" at least 100,
    Ragged: "12: two to four bytes too many" at least 100,
    Ragged5: "12: one byte too few" at least 100,
    ManyRuns: "17: over 16 runs" at least 100,
    SeventeenRuns: "17: 17 runs that add up" at least 100,
    TooLarge: "17: over 65,535 bytes" at least 100,
    OneTooLarge: "17: 65,536 bytes" at least 10,
    NoRuns: "17: no runs, but entries" at least 10,
    NoEntries: "17: no entries, but run lengths" at least 100,
    OneShort: "17: sum one short" at least 100,
    OneOver: "17: sum one over" at least 100,
    OtherSum: "17: another sum" at least 100,
    SumCut: "17: sum right in 32 bits, or in bytes of 16" at least 100,
    SumPast: "17: sum past 2^64" at least 100,
    SumWrapped: "17: sum past 2^64, right without that" at least 100,
    WrongKind: "13: kind" at least 100,
    WrongWork: "13: value of work" at least 100,
    WrongLook: "13: value of look" at least 100,
    WrongCrash: "13: value of crash" at least 100,
    WrongCloseSeat: "13: seat of close" at least 100,
    WrongCloseSeat64: "13: seat of close, 64 or above" at least 100,
    WrongCloseValue: "13: value of close" at least 100,
    WrongClose: "13: seat and value of close" at least 100,
    WrongFirst: "13: the first entry" at least 100,
    WrongBetween: "13: an entry in between" at least 100,
    WrongLast: "13: the last entry alone" at least 100,
    ByteShort: "15: one byte short" at least 1_000,
    NoRoom: "15: no bytes" at least 1_000,
    Short: "15: other lengths" at least 1_000,
    OneTwo: "1 where 2 would follow" at least 10,
    OneTwelve: "1 where 12 would follow" at least 10,
    OneSeventeen: "1 where 17 would follow" at least 10,
    OneThirteen: "1 where 13 would follow" at least 10,
    OneFifteen: "1 where 15 would follow" at least 10,
    TwoTwelve: "2 where 12 would follow" at least 10,
    TwoSeventeen: "2 where 17 would follow" at least 10,
    TwoThirteen: "2 where 13 would follow" at least 10,
    TwoFifteen: "2 where 15 would follow" at least 10,
    TwelveSeventeen: "12 where 17 would follow" at least 10,
    TwelveThirteen: "12 where 13 would follow" at least 10,
    TwelveFifteen: "12 where 15 would follow" at least 10,
    SeventeenThirteen: "17 where 13 would follow" at least 10,
    SeventeenFifteen: "17 where 15 would follow" at least 10,
    ThirteenFifteen: "13 where 15 would follow" at least 10,
    Written: "written" at least 10_000,
    ExactFit: "written to an exact fit" at least 1_000,
    Longer: "written to a longer output" at least 1_000,
    Empty: "written: 4 bytes, no runs" at least 100,
    OnlyEmptyRuns: "written: runs, but no entries" at least 100,
    FirstEmpty: "written: first run of length 0" at least 100,
    BetweenEmpty: "written: run of length 0 in between" at least 100,
    LastEmpty: "written: last run of length 0" at least 100,
    OneRun: "written: 1 run" at least 100,
    SixteenRuns: "written: 16 runs" at least 100,
    Largest: "written: 65,534 bytes, the most there are" at least 10,
    LargestOneRun: "written: 10,921 entries" at least 10,
    Closes: "written: with a close" at least 1_000,
    OnlyCloses: "written: closes alone" at least 100,
    LeastLimit: "written: L = W" at least 100,
    Shorter: "written: L below 01's window" at least 10_000,
    OneSeat: "written: n = 1, L = 2" at least 1_000,
    MostLimit: "written: the most L" at least 100,
    MostSeats: "written: the most seats" at least 10,
    RunFinished: "run to its end" at least 1_000,
    RunRefused: "run to a refused entry" at least 1_000,
    RunLate: "run to a proposal refused with 18" at least 100,
    RunDecided: "run to a decision" at least 100,
    RunClosed: "run to a decision, closed" at least 50,
    RunShorter: "run to a decision, L below 01's window" at least 200,
    RunOneSeat: "run to a decision, n = 1, L = 2" at least 50,
}

/// The order of the refusals: which is told where the other would follow.
const ORDER: [(u32, u32, Event); 15] = [
    (1, 2, Event::OneTwo),
    (1, 12, Event::OneTwelve),
    (1, 17, Event::OneSeventeen),
    (1, 13, Event::OneThirteen),
    (1, 15, Event::OneFifteen),
    (2, 12, Event::TwoTwelve),
    (2, 17, Event::TwoSeventeen),
    (2, 13, Event::TwoThirteen),
    (2, 15, Event::TwoFifteen),
    (12, 17, Event::TwelveSeventeen),
    (12, 13, Event::TwelveThirteen),
    (12, 15, Event::TwelveFifteen),
    (17, 13, Event::SeventeenThirteen),
    (17, 15, Event::SeventeenFifteen),
    (13, 15, Event::ThirteenFifteen),
];

/// Calls that one caller gets a sheet for and the other is refused: how often a full run
/// must reach them. (02, wish 9.)
const APART: &[(&str, u64)] = &[
    ("1 as the cart, written as the server: n = 17", 100),
    ("1 as the cart, written as the server: n above", 1_000),
    ("2 as the cart, written as the server: L = 65", 100),
    ("2 as the cart, written as the server: L above", 1_000),
];

/// The place of such a call there.
fn apart(call: &Call, refusal: Refusal) -> usize {
    let (seats, rounds) = call.most();
    match refusal {
        Refusal::BadProcessCount => usize::from(call.n > seats + 1),
        _ => 2 + usize::from(call.limit > rounds + 1),
    }
}

/// What the calls of one caller reached.
struct Coverage {
    reached: Reached,
    /// Sheets with L = W, refusals of L = W - 1, and sheets with an L from W up to below
    /// 01's window, refused with 2 before 02, wish 8.
    least: ByN,
    below: ByN,
    shorter: ByN,
}

impl Coverage {
    fn new(caller: Caller) -> Coverage {
        let by_n = |name| ByN::none_for(1..=most(caller).0, name);
        Coverage {
            reached: Reached::none_of(EVENTS),
            least: by_n("L = W written"),
            below: by_n("L = W - 1 refused"),
            shorter: by_n("L below 01's window written"),
        }
    }

    /// Prints what was reached; returns what was expected and was not, with the caller.
    fn print(&self, caller: Caller) -> Vec<String> {
        let caller = word(caller);
        println!("as the {caller}:");
        let mut missing = self.reached.print();
        for by_n in [&self.least, &self.below, &self.shorter] {
            by_n.print(&mut missing);
        }
        let named = |name| format!("{caller}: {name}");
        missing.into_iter().map(named).collect()
    }
}

/// Notes why a call was refused, and what would have been told next.
fn note_refused(call: &Call, refusal: Refusal, coverage: &mut Coverage) {
    let Coverage { reached, below, .. } = coverage;
    match refusal {
        Refusal::BadProcessCount => note_seats(call, reached),
        Refusal::BadRoundLimit => note_limit(call, reached, below),
        Refusal::BadRun => reached.note(match call.entries.len() % ENTRY {
            1 => Event::Ragged1,
            5 => Event::Ragged5,
            _ => Event::Ragged,
        }),
        Refusal::BadCuts => note_cuts(call, reached),
        Refusal::BadEntry => note_entry(call, reached),
        _ => reached.note(match call.size() - call.room {
            _ if call.room == 0 => Event::NoRoom,
            1 => Event::ByteShort,
            _ => Event::Short,
        }),
    }
    if refusal == Refusal::BadBuffer {
        // The last to be tested.
        return;
    }
    let mended = call.mended(refusal);
    if let Err(next) = mended.write(&mut vec![0; mended.room]) {
        let codes = (refusal.code(), next.code());
        let row = ORDER.iter().find(|row| (row.0, row.1) == codes);
        reached.note(row.expect("a later number").2);
    }
}

fn note_seats(call: &Call, reached: &mut Reached) {
    let (n, (most, _)) = (call.n, call.most());
    let cut = usize::from(n as u8);
    reached.note(match n {
        0 => Event::NoSeats,
        _ if n > 255 && (1..=most).contains(&cut) => Event::SeatsCut,
        _ => Event::ManySeats,
    });
    reached.note_if(n == most + 1, Event::NextSeats);
}

fn note_limit(call: &Call, reached: &mut Reached, below: &mut ByN) {
    let (least, (_, most)) = (least_limit(call.n), call.most());
    let cut = usize::from(call.limit as u16);
    reached.note(match call.limit {
        limit if limit < least => Event::LimitLow,
        limit if limit > 65_535 && (1..=most).contains(&cut) => Event::LimitCut,
        _ => Event::LimitHigh,
    });
    reached.note_if(call.limit == most + 1, Event::LimitNext);
    let last = call.limit == least - 1;
    reached.note_if(last, Event::LimitLast);
    below.note_if(last, call.n);
}

fn note_cuts(call: &Call, reached: &mut Reached) {
    let entries = (call.entries.len() / ENTRY) as u128;
    let sum: u128 = call.runs.iter().map(|run| *run as u128).sum();
    if call.runs.len() > MOST_RUNS {
        let seventeen = call.runs.len() == MOST_RUNS + 1 && sum == entries;
        reached.note_if(seventeen, Event::SeventeenRuns);
        return reached.note(Event::ManyRuns);
    }
    if call.size() > MAX_BYTES {
        reached.note_if(call.size() == MAX_BYTES + 1, Event::OneTooLarge);
        return reached.note(Event::TooLarge);
    }
    let cut = sum as u32 == entries as u32 || (6 * sum) as u16 == (6 * entries) as u16;
    reached.note(match sum {
        _ if sum >> 64 != 0 && sum as u64 == entries as u64 => Event::SumWrapped,
        _ if sum >> 64 != 0 => Event::SumPast,
        _ if cut => Event::SumCut,
        0 if call.runs.is_empty() => Event::NoRuns,
        _ if entries == 0 => Event::NoEntries,
        _ if sum + 1 == entries => Event::OneShort,
        _ if sum == entries + 1 => Event::OneOver,
        _ => Event::OtherSum,
    });
}

fn note_entry(call: &Call, reached: &mut Reached) {
    let mut entries = call.entries.chunks_exact(ENTRY);
    let last = entries.len() - 1;
    let wrong = entries.position(|entry| Operation::decode(entry).is_err());
    let place = wrong.expect("some entry is malformed");
    let wrong = &call.entries[ENTRY * place..ENTRY * (place + 1)];
    reached.note(match (wrong[0], wrong[1], &wrong[2..]) {
        (1, ..) => Event::WrongWork,
        (2, ..) => Event::WrongLook,
        (3, ..) => Event::WrongCrash,
        (4, 0, _) => Event::WrongCloseValue,
        (4, 64.., [0, 0, 0, 0]) => Event::WrongCloseSeat64,
        (4, _, [0, 0, 0, 0]) => Event::WrongCloseSeat,
        (4, ..) => Event::WrongClose,
        _ => Event::WrongKind,
    });
    reached.note(match place {
        0 => Event::WrongFirst,
        _ if place == last => Event::WrongLast,
        _ => Event::WrongBetween,
    });
}

/// Notes n and L of a sheet that was written.
fn note_size(call: &Call, coverage: &mut Coverage) {
    let (n, limit) = (call.n, call.limit);
    let (least, shorter) = (limit == least_limit(n), shorter(n, limit));
    coverage.least.note_if(least, n);
    coverage.shorter.note_if(shorter, n);
    let reached = &mut coverage.reached;
    reached.note_if(least, Event::LeastLimit);
    reached.note_if(shorter, Event::Shorter);
    reached.note_if((n, limit) == ONE_SEAT, Event::OneSeat);
    let (most_seats, most_rounds) = call.most();
    reached.note_if(limit == most_rounds, Event::MostLimit);
    reached.note_if(n == most_seats, Event::MostSeats);
}

fn note_written(call: &Call, reached: &mut Reached) {
    let (runs, size) = (call.runs.as_slice(), call.size());
    let fit = if call.room == size {
        Event::ExactFit
    } else {
        Event::Longer
    };
    reached.note(Event::Written);
    reached.note(fit);
    reached.note_if(runs.is_empty(), Event::Empty);
    reached.note_if(
        !runs.is_empty() && call.entries.is_empty(),
        Event::OnlyEmptyRuns,
    );
    reached.note_if(runs.first() == Some(&0), Event::FirstEmpty);
    reached.note_if(runs.last() == Some(&0), Event::LastEmpty);
    let between = runs.len() > 2 && runs[1..runs.len() - 1].contains(&0);
    reached.note_if(between, Event::BetweenEmpty);
    reached.note_if(runs.len() == 1, Event::OneRun);
    reached.note_if(runs.len() == MOST_RUNS, Event::SixteenRuns);
    reached.note_if(size == MAX_BYTES - 1, Event::Largest);
    reached.note_if(runs == [MOST_ENTRIES], Event::LargestOneRun);
    let some = call.closes().any(|close| close);
    reached.note_if(some, Event::Closes);
    reached.note_if(some && call.closes().all(|close| close), Event::OnlyCloses);
}

// ---------------------------------------------------------------- the comparison

/// What the size holds before a call.
const NO_SIZE: usize = 0xAAAA_AAAA_AAAA_AAAA;

/// Both sides write to equal outputs: the sheet, or the refusal.
fn compare(call: &Call, fill: u8) -> Result<Result<Vec<u8>, Refusal>, String> {
    let mut ours = vec![fill; GUARD + call.room + GUARD];
    let mut theirs = ours.clone();
    let lent = GUARD..GUARD + call.room;
    let expected = call.write(&mut ours[lent.clone()]);
    let mut size = NO_SIZE;
    let code = call.library(&mut theirs[lent.clone()], &mut size);
    let (expected_code, expected_size) = match expected {
        Ok(size) => (0, size),
        Err(refusal) => (refusal.code(), NO_SIZE),
    };
    if code != expected_code {
        return Err(format!("code: library {code}, reference {expected_code}"));
    }
    if size != expected_size {
        return Err(format!(
            "code {code}, size: library {size}, reference {expected_size}"
        ));
    }
    same_bytes(&format!("code {code}, output"), &theirs, &ours)?;
    let changed = ours.iter().any(|byte| *byte != fill);
    if expected.is_err() && changed {
        return Err(format!("code {code}: the output is changed"));
    }
    Ok(expected.map(|size| ours[lent][..size].to_vec()))
}

/// What the reference's reader finds in a sheet, as a call with an exact fit.
fn read(caller: u8, bytes: &[u8]) -> Result<Call, String> {
    let sheet = Sheet::read(Caller::named(caller), bytes).map_err(|refusal| {
        let code = refusal.code();
        format!("the sheet is refused with {code}")
    })?;
    let session = sheet.open();
    Ok(Call {
        caller,
        n: session.n,
        limit: session.limit as usize,
        entries: sheet.runs().flatten().copied().collect(),
        runs: sheet.runs().map(|run| run.len() / ENTRY).collect(),
        room: bytes.len(),
    })
}

/// A sheet is read as it was given, and what was read is written as it was.
fn round_trip(call: &Call, sheet: &[u8], fill: u8) -> Result<(), String> {
    let found = read(call.caller, sheet)?;
    if (found.n, found.limit) != (call.n, call.limit) {
        return Err(format!("read: n {}, L {}", found.n, found.limit));
    }
    if found.runs != call.runs {
        return Err(format!("read: runs {:?}", found.runs));
    }
    if found.entries != call.entries {
        return Err("read: other entries".to_string());
    }
    match compare(&found, fill)? {
        Ok(again) if again == sheet => Ok(()),
        Ok(_) => Err("written again: other bytes".to_string()),
        Err(refusal) => Err(format!("written again: {}", refusal.code())),
    }
}

/// Both sides run a sheet by the C entry, which is the server's: its number, and whether a
/// seat decided.
fn run_entry(sheet: &[u8], fill: u8) -> Result<(u32, bool), String> {
    let mut ours = [fill; GUARD + BUFFER + GUARD];
    let mut theirs = ours;
    let lent = GUARD..GUARD + BUFFER;
    let expected = entry(sheet, u64::MAX, &mut ours[lent.clone()]);
    let code = library::run(sheet, u64::MAX, &mut theirs[lent.clone()]);
    if code != expected {
        return Err(format!("run: library {code}, reference {expected}"));
    }
    same_bytes(&format!("run: code {code}, buffer"), &theirs, &ours)?;
    let decided = ours[lent].iter().any(|byte| *byte != 0);
    Ok((code, decided))
}

/// The same by the report as the cart.
fn run_cart(caller: u8, sheet: &[u8], fill: u8) -> Result<(u32, bool), String> {
    let text = text_by(fill, |buffer| {
        library::report_as(caller, sheet, u64::MAX, buffer)
    })?;
    same_text(&text, &report_of(Caller::Cart, u64::MAX, sheet))?;
    let refused = text.strip_prefix("outcome refused ");
    let code = refused.and_then(|rest| rest.split(' ').next()?.parse().ok());
    Ok((code.unwrap_or(0), text.contains(" decided ")))
}

/// Whether a sheet that was written leaves its session closed.
fn leaves_closed(caller: Caller, sheet: &[u8]) -> bool {
    let sheet = Sheet::read(caller, sheet).expect("a sheet in order");
    let (mut session, mut counts) = (sheet.open(), Counts::default());
    run(&sheet, u64::MAX, &mut session, &mut counts);
    session.closed
}

/// Both sides run the sheet of a call as its caller.
fn run_both(call: &Call, sheet: &[u8], fill: u8, reached: &mut Reached) -> Result<(), String> {
    let (code, decided) = match call.caller {
        SERVER => run_entry(sheet, fill)?,
        cart => run_cart(cart, sheet, fill)?,
    };
    reached.note(match code {
        0 => Event::RunFinished,
        _ => Event::RunRefused,
    });
    let late = Refusal::ClosedToProposals.code();
    reached.note_if(code == late, Event::RunLate);
    let closed = decided && leaves_closed(call.caller(), sheet);
    reached.note_if(closed, Event::RunClosed);
    let (n, limit) = (call.n, call.limit);
    reached.note_if(decided, Event::RunDecided);
    reached.note_if(decided && shorter(n, limit), Event::RunShorter);
    reached.note_if(decided && (n, limit) == ONE_SEAT, Event::RunOneSeat);
    Ok(())
}

/// Random calls of the writer.
struct Writes {
    server: Coverage,
    cart: Coverage,
    apart: Reached,
    bytes: usize,
}

/// Compares a call, and what becomes of its sheet: the sheet, or the refusal.
fn check(
    call: &Call,
    fill: u8,
    coverage: &mut Coverage,
) -> Result<Result<Vec<u8>, Refusal>, String> {
    let answer = compare(call, fill)?;
    match &answer {
        Err(refusal) => note_refused(call, *refusal, coverage),
        Ok(sheet) => {
            note_size(call, coverage);
            note_written(call, &mut coverage.reached);
            round_trip(call, sheet, fill)?;
            run_both(call, sheet, fill, &mut coverage.reached)?;
        }
    }
    Ok(answer)
}

impl Writes {
    /// The call as either caller. A sheet of the cart is one of the server too, byte for
    /// byte, and so it is run as either.
    fn check(&mut self, call: &Call, cart: u8, fill: u8) -> Result<(), String> {
        let server = check(call, fill, &mut self.server)?;
        let call = Call {
            caller: cart,
            ..call.clone()
        };
        let cart = check(&call, fill, &mut self.cart)
            .map_err(|words| format!("caller {cart}: {words}"))?;
        self.bytes += server.as_ref().map_or(0, Vec::len);
        match (server, cart) {
            (Ok(server), Ok(cart)) if server == cart => {}
            (_, Ok(_)) => return Err("the sheet of the cart is none of the server".to_string()),
            (Ok(_), Err(refusal)) => self.apart.note(apart(&call, refusal)),
            _ => {}
        }
        Ok(())
    }
}

impl Comparison for Writes {
    const NAME: &'static str = "writes";
    const CASES: &'static str = "calls";
    const KEPT: &'static str = "entries";
    const FULL: u64 = 200_000;
    type Case = Call;

    fn new() -> Writes {
        Writes {
            server: Coverage::new(Caller::Server),
            cart: Coverage::new(Caller::Cart),
            apart: Reached::none_of(APART),
            bytes: 0,
        }
    }

    fn case(random: &mut Random) -> Call {
        Call::of(random)
    }

    fn compare(&mut self, _: u64, call: &Call, random: &mut Random) -> Result<(), String> {
        let (fill, cart) = (random.byte(), cart(random));
        self.check(call, cart, fill)
            .map_err(|words| format!("{}: {words}", Writes::words(call)))
    }

    fn print(&self, _: u64) -> Vec<String> {
        let server = self.server.print(Caller::Server);
        let cart = self.cart.print(Caller::Cart);
        let apart = self.apart.print();
        println!("{} bytes of sheets written as the server", self.bytes);
        [server, cart, apart].concat()
    }

    fn words(call: &Call) -> String {
        let (n, limit, runs, room) = (call.n, call.limit, &call.runs, call.room);
        let bytes = call.entries.len();
        format!("n {n}, L {limit}, {bytes} bytes of entries, runs {runs:?}, output {room}")
    }

    fn kept(call: &Call) -> &[u8] {
        &call.entries
    }
}

fn main() -> ExitCode {
    harness::run::<Writes>()
}
