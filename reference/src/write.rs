//! The writer of sheets. (02, wish 3.)

use crate::refusal::Refusal;
use crate::session::{check_opening, window, Caller};
use crate::sheet::{ENTRY, HEADER, MAX_BYTES, MAX_PAIRS, PAIR};

/// Writes the sheet of n, L and these entries to the first bytes of the output,
/// cut into runs of so many entries each, and returns its size. The first run
/// starts right behind the pairs, and the others follow without gaps. Refused, it
/// writes nothing. (02, wish 3, order: 1, 2, 12 for the entry buffer, 17, 13, 15; wish
/// 9.)
pub fn write(
    caller: Caller,
    n: usize,
    limit: usize,
    entries: &[u8],
    runs: &[usize],
    output: &mut [u8],
) -> Result<usize, Refusal> {
    check_opening(caller.limits(), window, n, limit)?;
    if entries.len() % ENTRY != 0 {
        return Err(Refusal::BadRun);
    }
    let size = size_of_sheet(entries.len(), runs)?;
    check_entries(entries)?;
    if output.len() < size {
        return Err(Refusal::BadBuffer);
    }
    let (header, body) = output[..size].split_at_mut(HEADER + PAIR * runs.len());
    write_header(n, limit, runs, header);
    body.copy_from_slice(entries);
    Ok(size)
}

/// The size of the sheet, or 17: more than 16 runs, over 65,535 bytes, or run
/// lengths that do not add up to the entries, which a sum past 2^64 never does.
fn size_of_sheet(entry_bytes: usize, runs: &[usize]) -> Result<usize, Refusal> {
    if runs.len() > usize::from(MAX_PAIRS) {
        return Err(Refusal::BadCuts);
    }
    let size = HEADER + PAIR * runs.len() + entry_bytes;
    let total = runs
        .iter()
        .try_fold(0, |sum: usize, run| sum.checked_add(*run));
    if size > MAX_BYTES || total != Some(entry_bytes / ENTRY) {
        return Err(Refusal::BadCuts);
    }
    Ok(size)
}

/// The largest seat and value of each kind: any seat but for a close, which has 0; any
/// value for a proposal, a hint for a work turn, and 0 for the others. (01, "Turn
/// sheets"; 02, wish 10.)
const LARGEST: [(u8, u32); 5] = [
    (u8::MAX, u32::MAX),
    (u8::MAX, 1),
    (u8::MAX, 0),
    (u8::MAX, 0),
    (0, 0),
];

/// 01, 13: each entry has a known kind, and a seat and a value that fit it. By the table,
/// since what the entries ask for does not matter here.
fn check_entries(entries: &[u8]) -> Result<(), Refusal> {
    let well_formed = |entry: &[u8]| {
        let value = u32::from_le_bytes([entry[2], entry[3], entry[4], entry[5]]);
        let largest = LARGEST.get(usize::from(entry[0]));
        largest.is_some_and(|most| entry[1] <= most.0 && value <= most.1)
    };
    if entries.chunks_exact(ENTRY).all(well_formed) {
        Ok(())
    } else {
        Err(Refusal::BadEntry)
    }
}

/// n, the number of pairs and L, then offset and length of each run.
fn write_header(n: usize, limit: usize, runs: &[usize], header: &mut [u8]) {
    let mut offset = header.len();
    let (sizes, pairs) = header.split_at_mut(HEADER);
    sizes[..2].copy_from_slice(&[n as u8, runs.len() as u8]);
    sizes[2..].copy_from_slice(&(limit as u16).to_le_bytes());
    for (pair, run) in pairs.chunks_exact_mut(PAIR).zip(runs) {
        let length = ENTRY * run;
        pair[..2].copy_from_slice(&(offset as u16).to_le_bytes());
        pair[2..].copy_from_slice(&(length as u16).to_le_bytes());
        offset += length;
    }
}
