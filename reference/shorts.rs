//! Compares the short lists of the library with those of the reference: the number that
//! each call gives, and every byte of its buffer and beside it. (02, wish 12.)
//!
//! - Each table, for 1 and 2 seats and lengths 0 to 6: the first list over junk, then the
//!   next one until 21, which leaves the last.
//! - Calls refused with 1, 17 and 15: other seat counts, lengths over 6, and buffers of 0 to
//!   60 bytes.
//! - Every list of choices, legal or not, of lengths up to 4.
//! - Every legal list of lengths up to 3 with one byte changed to each of the 255 others.
//! - 20,000 random lists of lengths 4 to 6, from seed 1.
//!
//! Beside that it checks that each table ascends, that a refused call leaves the buffer, and
//! that `next` gives 20 exactly if the list has a close, or a proposal of another number than
//! seat + 1, or does not finish in the library's runner, as a sheet with L at its least.
//!
//! It prints how many lists there are and how often each thing was reached. It ends with 1
//! after telling the first difference, and if something was not reached.

#[macro_use]
mod harness;
mod library;

use std::process::ExitCode;

use harness::{least_limit, raw, same_bytes, Entry, Random, Reached, CLOSE, GUARD};
use janus_reference::runner::BUFFER;
use janus_reference::sheet::ENTRY;
use janus_reference::{short, Operation, Refusal};

const SEATS: [usize; 2] = [1, 2];
const LONGEST: usize = 6;
/// The longest buffer that is lent.
const MOST_BYTES: usize = 60;
/// What fills a buffer, and the bytes beside it.
const JUNK: u8 = 0xA5;

/// Other seat counts, some of them 1 or 2 in 8, 16 or 32 bits.
const OTHER_SEATS: [usize; 8] = [
    3,
    0,
    255,
    257,
    (1 << 16) + 1,
    (1 << 32) + 2,
    1 << 63,
    usize::MAX,
];

/// Lengths over 6, some of them at most 6 in 8, 16 or 32 bits, or 6 times the length in 64.
const OTHER_LENGTHS: [usize; 9] = [
    7,
    8,
    36,
    258,
    (1 << 16) + 6,
    (1 << 32) + 1,
    1 << 63,
    (1 << 63) + 6,
    usize::MAX,
];

const RANDOM_LISTS: u64 = 20_000;

// ---------------------------------------------------------------- coverage

events! {
    First: "first: accepted",
    First1: "first: 1",
    First1Before17: "first: 1, and 17 would follow",
    First1Before15: "first: 1, and 15 would follow",
    First17: "first: 17",
    First17Before15: "first: 17, and 15 would follow",
    First15: "first: 15",
    Next: "next: accepted",
    NextFirstEntry: "next: the first entry changes",
    NextLastEntry: "next: the last entry alone changes",
    DeadEndOfOne: "a legal list of 1 seat that nothing follows",
    DeadEndOfTwo: "a legal list of 2 seats that nothing follows",
    Next1: "next: 1",
    Next1Before17: "next: 1, and 17 would follow",
    Next1Before15: "next: 1, and 15 would follow",
    Next17: "next: 17",
    Next17Before15: "next: 17, and 15 would follow",
    Next15: "next: 15",
    Next15Before20: "next: 15, and 20 would follow",
    Next15Before21: "next: 15, and 21 would follow",
    Next20: "next: 20",
    Next20Before21: "next: 20, and no legal list is later",
    Next21: "next: 21",
    Next21OfNone: "next: 21, of the list of no entry",
    Close: "20, and the run finishes: a close",
    OtherNumber: "20, and the run finishes: another number",
    LowByte: "20, and the run finishes: a proposal of 257",
    LowByteOfHint: "20, refused with 13: a hint of 256",
    UnknownKind: "20, refused with 13: an unknown kind",
    WrongValue: "20, refused with 13: a wrong value",
    CloseOfSeat: "20, refused with 13: a close with a seat",
    Refused4: "20, refused with 4",
    Refused5: "20, refused with 5",
    Refused6: "20, refused with 6",
    Refused7: "20, refused with 7",
    Refused8: "20, refused with 8",
    Refused18: "20, refused with 18",
}

// ---------------------------------------------------------------- lists

fn entries(list: &[u8]) -> impl Iterator<Item = Entry> + '_ {
    let entry = |bytes: &[u8]| bytes.try_into().expect("the bytes of one entry");
    list.chunks_exact(ENTRY).map(entry)
}

/// Kind, seat and value.
fn numbers([kind, seat, a, b, c, d]: Entry) -> (u8, u8, u32) {
    (kind, seat, u32::from_le_bytes([a, b, c, d]))
}

/// Whether a list comes after another of its length.
fn later(list: &[u8], than: &[u8]) -> bool {
    entries(list).map(numbers).gt(entries(than).map(numbers))
}

/// Both seat counts with each length up to that.
fn sizes(longest: usize) -> impl Iterator<Item = (usize, usize)> {
    let lengths = move |n| (0..=longest).map(move |length| (n, length));
    SEATS.into_iter().flat_map(lengths)
}

/// The entries that a list may have, in any order.
fn choices(n: usize) -> Vec<Entry> {
    let of_seat = |seat| {
        let entries = [(0, seat as u32 + 1), (1, 0), (1, 1), (2, 0), (3, 0)];
        entries.map(|(kind, value)| raw(kind, seat, value))
    };
    (0..n).flat_map(of_seat).collect()
}

/// Every list of so many choices.
fn lists_of_choices(n: usize, length: usize) -> Vec<Vec<u8>> {
    let choices = choices(n);
    let mut lists = vec![Vec::new()];
    for _ in 0..length {
        let longer = |list: &Vec<u8>| -> Vec<_> {
            let with = |entry: &Entry| [&list[..], entry].concat();
            choices.iter().map(with).collect()
        };
        lists = lists.iter().flat_map(longer).collect();
    }
    lists
}

/// A list of bytes from 0 to 5, of choices, or a legal one with one entry replaced.
fn some_list(random: &mut Random, n: usize, table: &[Vec<u8>]) -> Vec<u8> {
    let mut list = table[random.below(table.len())].clone();
    match random.below(3) {
        0 => list.fill_with(|| random.below(6) as u8),
        1 => list
            .chunks_exact_mut(ENTRY)
            .for_each(|entry| entry.copy_from_slice(&random.pick(&choices(n)))),
        _ => {
            let place = ENTRY * random.below(list.len() / ENTRY);
            let value = random.pick(&[0, 1, 2, 3, 256, 257, 1 << 16, 1 << 31, u32::MAX]);
            let entry = match random.below(4) {
                0 => CLOSE,
                1 => raw(random.below(6) as u8, random.below(3), value),
                _ => random.pick(&choices(n)),
            };
            list[place..place + ENTRY].copy_from_slice(&entry);
        }
    }
    list
}

/// The library's runner on a list, as the one run of a sheet with L at its least.
fn run(n: usize, list: &[u8]) -> u32 {
    let (limit, size) = (least_limit(n) as u8, list.len() as u8);
    let sheet = [&[n as u8, 1, limit, 0, 8, 0, size, 0], list].concat();
    library::run(&sheet, LONGEST as u64, &mut [0; BUFFER])
}

// ---------------------------------------------------------------- calls

#[derive(Clone, Copy, PartialEq, Eq)]
enum Call {
    First,
    Next,
}

fn code_of(answer: Result<(), Refusal>) -> u32 {
    answer.map_or_else(Refusal::code, |()| 0)
}

/// What a call is told.
#[derive(Clone, Copy)]
struct Told<'a> {
    n: usize,
    length: usize,
    given: &'a [u8],
}

impl Told<'_> {
    fn too_long(self) -> bool {
        self.length > LONGEST
    }

    /// Whether the buffer is not 6 times the length.
    fn unfit(self) -> bool {
        self.given.len() as u128 != 6 * self.length as u128
    }

    /// In words: the buffer by its entries, if it has as many as it should.
    fn words(self) -> String {
        let word = |entry: Entry| match Operation::decode(&entry) {
            Ok(operation) => operation.to_string(),
            Err(_) => {
                let (kind, seat, value) = numbers(entry);
                format!("entry {kind} {seat} {value}")
            }
        };
        let given = match self.length {
            _ if self.unfit() => vec![format!("{} bytes", self.given.len())],
            0 => vec!["no entry".to_string()],
            _ => entries(self.given).map(word).collect(),
        };
        let (n, length, given) = (self.n, self.length, given.join(", "));
        format!("n {n}, length {length}, {given}")
    }

    /// The call on both sides: its number, and what the buffer then holds.
    fn make(self, call: Call) -> Result<(u32, Vec<u8>), String> {
        let (n, length, lent) = (self.n, self.length, GUARD..GUARD + self.given.len());
        let mut theirs = [JUNK; GUARD + MOST_BYTES + GUARD];
        theirs[lent.clone()].copy_from_slice(self.given);
        let mut ours = theirs;
        let (buffer, own) = (&mut theirs[lent.clone()], &mut ours[lent.clone()]);
        let (found, wanted) = match call {
            Call::First => (
                library::first_list(n, length, buffer),
                code_of(short::first(n, length, own)),
            ),
            Call::Next => (
                library::next_list(n, length, buffer),
                code_of(short::next(n, length, own)),
            ),
        };
        if found != wanted {
            return Err(format!("library {found}, reference {wanted}"));
        }
        same_bytes(&format!("code {found},"), &theirs, &ours)?;
        let left = theirs[lent].to_vec();
        if found != 0 && left != self.given {
            return Err(format!("code {found}, and the buffer is changed"));
        }
        Ok((found, left))
    }
}

// ---------------------------------------------------------------- the comparison

struct Comparison {
    reached: Reached,
    firsts: usize,
    nexts: usize,
    /// The legal lists by n, from 1 on, and by length.
    tables: [Vec<Vec<Vec<u8>>>; 2],
}

impl Comparison {
    fn note<const N: usize>(&mut self, events: [(bool, Event); N]) {
        for (happened, event) in events {
            self.reached.note_if(happened, event);
        }
    }

    /// The table of a size, if it is made.
    fn table_of(&self, n: usize, length: usize) -> Option<&[Vec<u8>]> {
        let tables = self.tables.get(n.checked_sub(1)?)?;
        tables.get(length).map(Vec::as_slice)
    }

    /// The call for the first list, which must be that of the table.
    fn first(&mut self, n: usize, length: usize, given: &[u8]) -> Result<Vec<u8>, String> {
        let told = Told { n, length, given };
        let named = |words| format!("first, {}: {words}", told.words());
        let (code, left) = told.make(Call::First).map_err(named)?;
        let head = self.table_of(n, length).and_then(|table| table.first());
        if code == 0 && head.is_some_and(|head| left != *head) {
            return Err(named("another list than over junk".to_string()));
        }
        self.firsts += 1;
        self.note_first(told, code);
        Ok(left)
    }

    /// The call for the next list: its number, and what the buffer then holds.
    fn next(&mut self, n: usize, length: usize, given: &[u8]) -> Result<(u32, Vec<u8>), String> {
        let told = Told { n, length, given };
        let named = |words| format!("next, {}: {words}", told.words());
        let (code, left) = told.make(Call::Next).map_err(named)?;
        self.nexts += 1;
        self.note_next(told, code);
        if SEATS.contains(&n) && !told.too_long() && !told.unfit() {
            self.check_legal(n, given, code).map_err(named)?;
        }
        Ok((code, left))
    }

    fn note_first(&mut self, told: Told, code: u32) {
        let (long, unfit) = (told.too_long(), told.unfit());
        self.note([
            (code == 0, Event::First),
            (code == 1, Event::First1),
            (code == 1 && long, Event::First1Before17),
            (code == 1 && unfit, Event::First1Before15),
            (code == 17, Event::First17),
            (code == 17 && unfit, Event::First17Before15),
            (code == 15, Event::First15),
        ]);
    }

    fn note_next(&mut self, told: Told, code: u32) {
        let (long, unfit) = (told.too_long(), told.unfit());
        // What follows 15, of the bytes that are not too many.
        let fitting = told.given.get(..ENTRY * told.length.min(LONGEST));
        let behind = fitting.filter(|_| code == 15).map(|given| {
            let mut given = given.to_vec();
            code_of(short::next(told.n, told.length, &mut given))
        });
        self.note([
            (code == 0, Event::Next),
            (code == 1, Event::Next1),
            (code == 1 && long, Event::Next1Before17),
            (code == 1 && unfit, Event::Next1Before15),
            (code == 17, Event::Next17),
            (code == 17 && unfit, Event::Next17Before15),
            (code == 15, Event::Next15),
            (behind == Some(20), Event::Next15Before20),
            (behind == Some(21), Event::Next15Before21),
            (code == 20, Event::Next20),
            (code == 21, Event::Next21),
            (code == 21 && told.length == 0, Event::Next21OfNone),
        ]);
    }

    /// 20 must be given exactly if the list is not legal, by the library's runner: why it is
    /// not is noted.
    fn check_legal(&mut self, n: usize, list: &[u8], code: u32) -> Result<(), String> {
        let any = |test: fn((u8, u8, u32)) -> bool| entries(list).map(numbers).any(test);
        let ran = run(n, list);
        let close = any(|entry| entry == (4, 0, 0));
        let other = any(|(kind, seat, value)| kind == 0 && value != u32::from(seat) + 1);
        if (code == 20) != (ran != 0 || close || other) {
            return Err(format!("library {code}, and its runner {ran}"));
        }
        if code != 20 {
            return Ok(());
        }
        let low_byte = any(|(kind, seat, value)| kind == 0 && value == u32::from(seat) + 257);
        let hint = any(|(kind, _, value)| kind == 1 && (value == 256 || value == 257));
        let unknown = any(|(kind, ..)| kind > 4);
        let value = any(|(kind, _, value)| [2, 3].contains(&kind) && value > 0);
        let seat = any(|(kind, seat, value)| kind == 4 && seat > 0 && value == 0);
        let last = self
            .table_of(n, list.len() / ENTRY)
            .and_then(|table| table.last());
        let beyond = last.is_some_and(|last| later(list, last));
        self.note([
            (beyond, Event::Next20Before21),
            (ran == 0 && close && !other, Event::Close),
            (ran == 0 && other && !close, Event::OtherNumber),
            (ran == 0 && low_byte && !close, Event::LowByte),
            (ran == 13 && hint, Event::LowByteOfHint),
            (ran == 13 && unknown, Event::UnknownKind),
            (ran == 13 && value, Event::WrongValue),
            (ran == 13 && seat, Event::CloseOfSeat),
            (ran == 4, Event::Refused4),
            (ran == 5, Event::Refused5),
            (ran == 6, Event::Refused6),
            (ran == 7, Event::Refused7),
            (ran == 8, Event::Refused8),
            (ran == 18, Event::Refused18),
        ]);
        Ok(())
    }

    /// The first list, then the next one until 21. Each must come after the one before.
    fn table(&mut self, n: usize, length: usize) -> Result<(), String> {
        let mut table = vec![self.first(n, length, &vec![JUNK; ENTRY * length])?];
        loop {
            let list = &table[table.len() - 1];
            let (code, left) = self.next(n, length, list)?;
            match code {
                0 if later(&left, list) => {}
                21 => break,
                _ => {
                    let count = table.len();
                    let words = format!("code {code} for the next of {count} lists");
                    return Err(format!("table, n {n}, length {length}: {words}"));
                }
            }
            let bytes = |place| ENTRY * place..ENTRY * (place + 1);
            let changed = (0..length).find(|&place| left[bytes(place)] != list[bytes(place)]);
            self.note([
                (changed == Some(0), Event::NextFirstEntry),
                (changed == Some(length - 1), Event::NextLastEntry),
            ]);
            table.push(left);
        }
        self.note_dead_ends(n, &table);
        self.tables[n - 1].push(table);
        Ok(())
    }

    /// The legal lists that are one entry shorter, and that no list of the table begins with.
    fn note_dead_ends(&mut self, n: usize, table: &[Vec<u8>]) {
        let Some(shorter) = self.tables[n - 1].last() else {
            return;
        };
        let event = [Event::DeadEndOfOne, Event::DeadEndOfTwo][n - 1];
        for list in shorter {
            let dead = !table.iter().any(|longer| longer.starts_with(list));
            self.reached.note_if(dead, event);
        }
    }

    /// Every list of choices: those that are not refused with 20 are as many as the table has.
    fn lists_of_choices(&mut self, n: usize, length: usize) -> Result<(), String> {
        let mut legal = 0;
        for list in lists_of_choices(n, length) {
            legal += usize::from(self.next(n, length, &list)?.0 != 20);
        }
        let listed = self.tables[n - 1][length].len();
        if legal != listed {
            return Err(format!(
                "table, n {n}, length {length}: {listed} lists, and {legal} are legal"
            ));
        }
        Ok(())
    }

    /// Every list of a table, with one byte changed in every way.
    fn changed_bytes(&mut self, n: usize, length: usize) -> Result<(), String> {
        for list in self.tables[n - 1][length].clone() {
            for place in 0..list.len() {
                for byte in (0..=u8::MAX).filter(|byte| *byte != list[place]) {
                    let mut changed = list.clone();
                    changed[place] = byte;
                    self.next(n, length, &changed)?;
                    self.first(n, length, &changed)?;
                }
            }
        }
        Ok(())
    }

    /// Buffers of every size: of junk, and of the last list with junk behind it, cut to the
    /// size. Of other seat counts it is the last list of two seats.
    fn other_sizes(&mut self, n: usize, length: usize) -> Result<(), String> {
        let seats = if SEATS.contains(&n) { n } else { 2 };
        let last = self.table_of(seats, length).and_then(|table| table.last());
        let junk = [JUNK; MOST_BYTES];
        let last = [last.map_or(&[][..], Vec::as_slice), &junk].concat();
        for size in 0..=MOST_BYTES {
            for given in [&junk[..size], &last[..size]] {
                self.first(n, length, given)?;
                self.next(n, length, given)?;
            }
        }
        Ok(())
    }

    fn random_lists(&mut self) -> Result<(), String> {
        for index in 0..RANDOM_LISTS {
            let mut random = Random::of(1, index);
            let (n, length) = (random.pick(&SEATS), random.between(4, LONGEST));
            let list = some_list(&mut random, n, &self.tables[n - 1][length]);
            self.next(n, length, &list)?;
        }
        Ok(())
    }

    fn compare(&mut self) -> Result<(), String> {
        for (n, length) in sizes(LONGEST) {
            self.table(n, length)?;
        }
        for n in OTHER_SEATS.into_iter().chain(SEATS) {
            for length in (0..=LONGEST).chain(OTHER_LENGTHS) {
                self.other_sizes(n, length)?;
            }
        }
        for (n, length) in sizes(4) {
            self.lists_of_choices(n, length)?;
        }
        for (n, length) in sizes(3) {
            self.changed_bytes(n, length)?;
        }
        self.random_lists()
    }
}

fn main() -> ExitCode {
    let mut comparison = Comparison {
        reached: Reached::none_of(EVENTS),
        firsts: 0,
        nexts: 0,
        tables: [Vec::new(), Vec::new()],
    };
    if let Err(words) = comparison.compare() {
        println!("difference: {words}");
        return ExitCode::FAILURE;
    }
    let missing = comparison.reached.print();
    for name in &missing {
        println!("not reached: {name}");
    }
    if !missing.is_empty() {
        return ExitCode::FAILURE;
    }
    for (n, tables) in SEATS.into_iter().zip(&comparison.tables) {
        let counts: Vec<String> = tables.iter().map(|table| table.len().to_string()).collect();
        println!(
            "shorts: n {n}: {} lists of 0 to {LONGEST} entries",
            counts.join(", ")
        );
    }
    let Comparison { firsts, nexts, .. } = comparison;
    println!("shorts: {firsts} calls for the first list and {nexts} for the next, no difference");
    ExitCode::SUCCESS
}
