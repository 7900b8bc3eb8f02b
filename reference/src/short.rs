//! Every short sheet there is: the legal lists of entries of a length, one after another.
//! (02, wish 12.)
//!
//! A list is found by counting, as an odometer counts: from the given list, or from the
//! lowest one, up to the first list that has no refused entry. All lists that begin like a
//! refused one, as far as its refused entry, are passed at once.

use crate::board::Counts;
use crate::refusal::Refusal;
use crate::session::{Caller, Session, MAX_ROUNDS};
use crate::sheet::{Operation, ENTRY};

/// The most entries of a list. ("all legal entry lists of a given length, 0 to 6".)
const MAX_LENGTH: usize = 6;

/// The bytes of an entry.
type Entry = [u8; ENTRY];

/// Writes the first legal list of so many entries for n seats to the buffer, whatever that
/// holds. Refused, it writes nothing. (Order: 1, 17, 15.)
pub fn first(n: usize, length: usize, buffer: &mut [u8]) -> Result<(), Refusal> {
    check_call(n, length, buffer)?;
    let choices = choices(n);
    let mut list = vec![choices[0]; length];
    count_to_legal(n, &choices, &mut list)?;
    buffer.copy_from_slice(&list.concat());
    Ok(())
}

/// Writes the next legal list of that length over the one in the buffer. Refused, it writes
/// nothing. (Order: 1, 17, 15, 20, 21.)
pub fn next(n: usize, length: usize, buffer: &mut [u8]) -> Result<(), Refusal> {
    check_call(n, length, buffer)?;
    let choices = choices(n);
    let mut list: Vec<Entry> = buffer.chunks_exact(ENTRY).map(entry_of).collect();
    let known = list.iter().all(|entry| choices.contains(entry));
    if !known || refused_place(n, &list).is_some() {
        return Err(Refusal::IllegalList);
    }
    pass(&choices, &mut list, length)?;
    count_to_legal(n, &choices, &mut list)?;
    buffer.copy_from_slice(&list.concat());
    Ok(())
}

/// "1 for a seat count other than 1 or 2, 17 for a length over 6, 15 for a buffer not 6
/// times the length".
fn check_call(n: usize, length: usize, buffer: &[u8]) -> Result<(), Refusal> {
    if n != 1 && n != 2 {
        return Err(Refusal::BadProcessCount);
    }
    if length > MAX_LENGTH {
        return Err(Refusal::BadCuts);
    }
    if buffer.len() != ENTRY * length {
        return Err(Refusal::BadBuffer);
    }
    Ok(())
}

fn entry_of(bytes: &[u8]) -> Entry {
    bytes.try_into().expect("the bytes of one entry")
}

/// The entries that a list for n seats may have, in their order. "Seat s proposes only
/// s + 1; closes are left out."
fn choices(n: usize) -> Vec<Entry> {
    let of_seat = |seat: u8| {
        let entries = [(0, seat + 1), (1, 0), (1, 1), (2, 0), (3, 0)];
        entries.map(|(kind, value)| [kind, seat, value, 0, 0, 0])
    };
    let mut choices: Vec<Entry> = (0..n as u8).flat_map(of_seat).collect();
    choices.sort_by_key(rank);
    choices
}

/// What entries are ordered by: "by kind, then seat, then value".
fn rank(&[kind, seat, a, b, c, d]: &Entry) -> (u8, u8, u32) {
    (kind, seat, u32::from_le_bytes([a, b, c, d]))
}

/// The place of the first entry that is refused "from a fresh session"; a legal list has
/// none.
fn refused_place(n: usize, list: &[Entry]) -> Option<usize> {
    let (mut session, mut counts) = (fresh(n), Counts::default());
    list.iter().position(|entry| {
        Operation::decode(entry)
            .and_then(|operation| session.apply_trusted(operation, &mut counts, |_| {}))
            .is_err()
    })
}

/// A session of n seats "with L at its least": the lowest that an opening takes.
fn fresh(n: usize) -> Session {
    (0..=MAX_ROUNDS)
        .find_map(|limit| Session::open(Caller::Server, n, limit).ok())
        .expect("some L opens a session of one or two seats")
}

/// Counts on to the first legal list, this one or a later one, or 21.
fn count_to_legal(n: usize, choices: &[Entry], list: &mut [Entry]) -> Result<(), Refusal> {
    while let Some(place) = refused_place(n, list) {
        pass(choices, list, place + 1)?;
    }
    Ok(())
}

/// Counts on to the first list after all those that begin with the same `count` entries, or
/// 21: the last of these that has a later choice becomes the next one, and all entries
/// behind it the first. ("Lists are ordered by their first differing entry".)
fn pass(choices: &[Entry], list: &mut [Entry], count: usize) -> Result<(), Refusal> {
    for place in (0..count).rev() {
        let later = |choice: &&Entry| rank(choice) > rank(&list[place]);
        if let Some(&choice) = choices.iter().find(later) {
            list[place] = choice;
            list[place + 1..].fill(choices[0]);
            return Ok(());
        }
    }
    Err(Refusal::LastList)
}
