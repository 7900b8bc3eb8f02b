//! The writer of 02, wish 3: what it writes, each of its refusals, their order,
//! and the round trips with the reader.

use super::*;
use crate::{write, Sheet};

/// What a byte of the output is before a call.
const OLD: u8 = 0xAA;

/// The answer for an output of so many bytes, and the output after the call.
fn answer(
    (n, limit): (usize, usize),
    entries: &[u8],
    runs: &[usize],
    length: usize,
) -> (Result<usize, u32>, Vec<u8>) {
    let mut output = vec![OLD; length];
    let answer = write(Caller::Server, n, limit, entries, runs, &mut output);
    (answer.map_err(Refusal::code), output)
}

/// The call is refused with that number, and the output is as it was.
fn refused(code: u32, size: (usize, usize), entries: &[u8], runs: &[usize], length: usize) {
    let (answer, output) = answer(size, entries, runs, length);
    assert_eq!(answer, Err(code));
    assert_eq!(output, vec![OLD; length]);
}

/// The call is refused with 17 even where there is room for every sheet.
fn refused_cuts(entries: usize, runs: &[usize]) {
    refused(17, (1, 2), &looks(entries), runs, 70_000);
}

/// So many entries, each a look of seat 0.
fn looks(count: usize) -> Vec<u8> {
    raw(2, 0, 0).repeat(count)
}

/// Well-formed entries of each kind.
fn different(count: usize) -> Vec<u8> {
    let one = |place: usize| match place % 5 {
        0 => raw(0, (place / 5) as u8, 1_000_000 + place as u32),
        1 => raw(1, (place / 10) as u8, (place / 5 % 2) as u32),
        4 => raw(4, 0, 0),
        kind => raw(kind as u8, (place / 5) as u8, 0),
    };
    (0..count).flat_map(one).collect()
}

/// The sheet of the call, which must fit exactly, be one byte too long for a
/// shorter output, and change no byte behind it in a longer one.
fn written((n, limit): (usize, usize), entries: &[u8], runs: &[usize]) -> Vec<u8> {
    let size = 4 + 4 * runs.len() + entries.len();
    let exact = answer((n, limit), entries, runs, size);
    assert_eq!(exact.0, Ok(size));
    refused(15, (n, limit), entries, runs, size - 1);
    refused(15, (n, limit), entries, runs, 0);
    let longer = answer((n, limit), entries, runs, size + 9);
    assert_eq!(longer.0, Ok(size));
    assert_eq!(longer.1[..size], exact.1);
    assert_eq!(longer.1[size..], [OLD; 9]);
    exact.1
}

/// What the reader finds: n, L, the entries and the run lengths.
fn read(bytes: &[u8]) -> (usize, usize, Vec<u8>, Vec<usize>) {
    let sheet = Sheet::read(Caller::Server, bytes).expect("a sheet in order");
    let session = sheet.open();
    let runs = sheet.runs().map(|run| run.len() / 6).collect();
    let entries = sheet.runs().flatten().copied().collect();
    (session.n, session.limit as usize, entries, runs)
}

/// What is written is read as given, and what is read is written as it was.
fn round_trips((n, limit): (usize, usize), runs: &[usize]) {
    let entries = different(runs.iter().sum());
    let bytes = written((n, limit), &entries, runs);
    let found = read(&bytes);
    assert_eq!(found, (n, limit, entries, runs.to_vec()));
    assert_eq!(written((found.0, found.1), &found.2, &found.3), bytes);
}

#[test]
fn the_empty_sheet() {
    assert_eq!(written((1, 2), &[], &[]), [1, 0, 2, 0]);
    assert_eq!(written((64, 256), &[], &[]), [64, 0, 0, 1]);
}

#[test]
fn one_run() {
    let entries = [raw(0, 1, 7), raw(1, 1, YES), raw(2, 9, 0), raw(3, 255, 0)];
    let bytes = written((2, 3), &entries.concat(), &[4]);
    assert_eq!(bytes, sheet(2, 3, &entries));
    let report = report_sheet();
    assert_eq!(written((1, 2), &report[8..], &[14]), report);
}

#[test]
fn three_runs() {
    let mut expected = header(5, 256, &[(16, 12), (28, 6), (34, 18)]);
    expected.extend(different(6));
    assert_eq!(written((5, 256), &different(6), &[2, 1, 3]), expected);
}

#[test]
fn runs_of_length_0() {
    let mut expected = header(1, 2, &[(20, 0), (20, 6), (26, 0), (26, 0)]);
    expected.extend(looks(1));
    assert_eq!(written((1, 2), &looks(1), &[0, 1, 0, 0]), expected);
    assert_eq!(written((1, 2), &[], &[0]), header(1, 2, &[(8, 0)]));
    let sixteen = header(1, 2, &[(68, 0); 16]);
    assert_eq!(written((1, 2), &[], &[0; 16]), sixteen);
}

#[test]
fn round_trips_with_the_reader() {
    for n in [1, 2, 9, 64] {
        for limit in [crate::window(n) as usize, 256] {
            round_trips((n, limit), &[]);
            round_trips((n, limit), &[40]);
            round_trips((n, limit), &[0, 3, 0, 0, 5, 1, 0]);
            round_trips((n, limit), &[2; 16]);
        }
    }
}

#[test]
fn the_longest_sheets() {
    round_trips((1, 2), &[10_921]);
    round_trips(
        (64, 256),
        &[10_906, 0, 5, 0, 0, 0, 0, 0, 0, 0, 0, 0, 0, 0, 0, 0],
    );
    assert_eq!(written((1, 2), &looks(10_921), &[10_921]).len(), 65_534);
    // An entry more, in one run, in three and in sixteen.
    refused_cuts(10_922, &[10_922]);
    refused_cuts(10_920, &[10_918, 1, 1]);
    refused_cuts(10_912, &[682; 16]);
    assert_eq!(4 + 4 * 3 + 6 * 10_920, 65_536);
}

#[test]
fn one_and_two() {
    for n in [0, 65, 66, 257, 65_537, (1 << 32) + 1, usize::MAX] {
        refused(1, (n, 256), &[], &[], 4);
    }
    for limit in [0, 2, 257, 65_539, (1 << 32) + 3, usize::MAX] {
        refused(2, (2, limit), &[], &[], 4);
    }
    refused(2, (64, 15), &[], &[], 4);
}

#[test]
fn the_least_limit_of_every_n() {
    for n in 1..=64 {
        let least = crate::window(n) as usize;
        assert_eq!(written((n, least), &[], &[]), [n as u8, 0, least as u8, 0]);
        refused(2, (n, least - 1), &[], &[], 4);
    }
}

#[test]
fn twelve() {
    for length in [1, 2, 3, 4, 5, 7, 11, 13] {
        refused(12, (1, 2), &looks(3)[..length], &[length / 6], 100);
    }
}

#[test]
fn seventeen_for_the_number_of_runs() {
    refused_cuts(0, &[0; 17]);
    refused_cuts(17, &[1; 17]);
    refused_cuts(3, &[[3].as_slice(), &[0; 99]].concat());
}

#[test]
fn seventeen_for_the_sum() {
    refused_cuts(3, &[]);
    refused_cuts(3, &[2]);
    refused_cuts(3, &[4]);
    refused_cuts(3, &[1, 1]);
    refused_cuts(3, &[1, 2, 1]);
    refused_cuts(0, &[1]);
    // Right in 16 or 32 bits, or in the bytes of 16 or 64 bits.
    for more in [1 << 15, 1 << 16, 1 << 32, 1 << 63] {
        refused_cuts(3, &[3 + more]);
    }
}

#[test]
fn seventeen_for_a_sum_past_the_largest_number() {
    const MOST: usize = usize::MAX;
    refused_cuts(0, &[MOST, 1]);
    refused_cuts(3, &[MOST, 4]);
    refused_cuts(3, &[4, MOST]);
    refused_cuts(3, &[1 << 63, 1 << 63, 3]);
    refused_cuts(3, &[MOST]);
    refused_cuts(3, &[MOST; 16]);
    refused_cuts(0, &[1 << 60; 16]);
}

#[test]
fn thirteen_at_every_place() {
    let wrong = [
        raw(5, 0, 0),
        raw(255, 0, 0),
        raw(1, 0, 2),
        raw(1, 0, 1 << 24),
        raw(2, 0, 1),
        raw(3, 0, 1 << 31),
        raw(4, 1, 0),
        raw(4, 64, 0),
        raw(4, 255, 0),
        raw(4, 0, 1),
        raw(4, 0, 1 << 24),
        raw(4, 1, 1),
    ];
    for entry in wrong {
        for place in 0..5 {
            let mut entries = looks(5);
            entries[6 * place..6 * place + 6].copy_from_slice(&entry);
            refused(13, (1, 2), &entries, &[2, 3], 100);
        }
    }
    // Neither a seat that is not there nor a proposal of 0 is malformed.
    let accepted = [raw(0, 255, 0), raw(0, 0, u32::MAX), raw(1, 64, 0)];
    round_trip_of(&accepted.concat());
}

/// One run of these entries is read back.
fn round_trip_of(entries: &[u8]) {
    let bytes = written((1, 2), entries, &[entries.len() / 6]);
    assert_eq!(read(&bytes).2, entries);
}

#[test]
fn thirteen_where_the_reader_has_it() {
    let values = [0, 1, 2, 255, 256, 1 << 16, 1 << 24, 1 << 31, u32::MAX];
    for (kind, value) in (0..=255).flat_map(|kind| values.map(|value| (kind, value))) {
        for seat in [0, 1, 2, 63, 64, 128, 255] {
            let entry = raw(kind, seat, value);
            let answer = answer((1, 2), &entry, &[1], 14).0;
            let expected = Operation::decode(&entry).map(|_| 14);
            assert_eq!(answer, expected.map_err(Refusal::code));
        }
    }
}

#[test]
fn each_number_before_the_next() {
    let wrong = raw(9, 0, 0);
    refused(1, (0, 0), &wrong[..5], &[2], 0);
    refused(1, (65, 257), &[], &[], 4);
    refused(2, (1, 1), &wrong[..5], &[2], 0);
    refused(2, (1, 257), &looks(1)[..5], &[0], 100);
    refused(12, (1, 2), &wrong[..5], &[2], 0);
    refused(12, (1, 2), &looks(2)[..11], &[0; 17], 100);
    refused(17, (1, 2), &wrong, &[2], 0);
    refused(17, (1, 2), &wrong, &[0; 17], 100);
    refused(17, (1, 2), &wrong.repeat(10_922), &[10_922], 70_000);
    refused(13, (1, 2), &wrong, &[1], 0);
    refused(13, (1, 2), &wrong, &[1], 13);
    refused(13, (1, 2), &wrong, &[1], 14);
}
