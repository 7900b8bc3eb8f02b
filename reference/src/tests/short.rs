//! Every short sheet there is: the tables of legal lists, their first and last ones and
//! their order, what is not legal, each refusal and its place in the order. (02, wish 12.)

use super::*;
use crate::short::{first, next};
use crate::{run, window, Ending, Sheet};

/// What a byte of the buffer is before a call.
const OLD: u8 = 0xAA;

/// The legal lists of each length, 0 to 6.
const COUNTS: [(usize, [usize; 7]); 2] = [
    (1, [1, 1, 4, 12, 36, 108, 324]),
    (2, [1, 2, 10, 48, 264, 1_536, 9_144]),
];

/// Every n with every length.
fn sizes() -> impl Iterator<Item = (usize, usize)> {
    (1..=2).flat_map(|n| (0..=6).map(move |length| (n, length)))
}

type Calling = fn(usize, usize, &mut [u8]) -> Result<(), Refusal>;

/// What becomes of a buffer with these bytes. Refused, they must stay.
fn after(call: Calling, n: usize, length: usize, bytes: &[u8]) -> Result<Vec<u8>, u32> {
    let mut buffer = bytes.to_vec();
    match call(n, length, &mut buffer) {
        Ok(()) => Ok(buffer),
        Err(refusal) => {
            assert_eq!(buffer, bytes, "{refusal:?}");
            Err(refusal.code())
        }
    }
}

fn first_list(n: usize, length: usize) -> Vec<u8> {
    let old = vec![OLD; 6 * length];
    after(first, n, length, &old).expect("a first list")
}

fn after_next(n: usize, bytes: &[u8]) -> Result<Vec<u8>, u32> {
    after(next, n, bytes.len() / 6, bytes)
}

/// The first list, then the next one as long as there is one: the last is refused with 21.
fn table(n: usize, length: usize) -> Vec<Vec<u8>> {
    let mut table = vec![first_list(n, length)];
    loop {
        match after_next(n, &table[table.len() - 1]) {
            Ok(list) => table.push(list),
            Err(code) => {
                assert_eq!(code, 21, "n {n}, length {length}");
                return table;
            }
        }
    }
}

/// The entries of a list in words, as `examples/sheet.py` has them.
fn words(list: &[u8]) -> String {
    let word = |entry| Operation::decode(entry).expect("a well-formed entry");
    let words: Vec<String> = list.chunks_exact(6).map(|e| word(e).to_string()).collect();
    words.join(", ")
}

/// How the run of a list ends, as the one run of a sheet with L = W.
fn ending(n: usize, list: &[u8]) -> Ending {
    let entries: Vec<[u8; 6]> = list
        .chunks_exact(6)
        .map(|e| e.try_into().unwrap())
        .collect();
    let bytes = sheet(n as u8, window(n) as u16, &entries);
    let sheet = Sheet::read(Caller::Server, &bytes).expect("a sheet in order");
    run(&sheet, 6, &mut sheet.open(), &mut Counts::default())
}

/// Every list of so many entries of these, in their order.
fn all_of(entries: &[[u8; 6]], length: usize) -> Vec<Vec<u8>> {
    let Some(rest) = length.checked_sub(1) else {
        return vec![Vec::new()];
    };
    let rests = all_of(entries, rest);
    let with = |entry: &[u8; 6]| {
        let lists = rests.iter().map(|rest| [entry, &rest[..]].concat());
        lists.collect::<Vec<_>>()
    };
    entries.iter().flat_map(with).collect()
}

// ---------------------------------------------------------------- the tables

#[test]
fn as_many_as_there_are() {
    for (n, counts) in COUNTS {
        for (length, count) in counts.into_iter().enumerate() {
            assert_eq!(table(n, length).len(), count, "n {n}, length {length}");
        }
    }
}

/// The entries of two seats as the wish orders them, "by kind, then seat, then value".
const OF_TWO: [[u8; 6]; 10] = [
    [0, 0, 1, 0, 0, 0],
    [0, 1, 2, 0, 0, 0],
    [1, 0, 0, 0, 0, 0],
    [1, 0, 1, 0, 0, 0],
    [1, 1, 0, 0, 0, 0],
    [1, 1, 1, 0, 0, 0],
    [2, 0, 0, 0, 0, 0],
    [2, 1, 0, 0, 0, 0],
    [3, 0, 0, 0, 0, 0],
    [3, 1, 0, 0, 0, 0],
];

/// A table has each list of these entries that the runner finishes, in order, and no other.
#[test]
fn each_legal_list_in_its_order() {
    for (n, length) in sizes().filter(|(n, length)| n * length <= 8) {
        let entries: Vec<[u8; 6]> = OF_TWO
            .into_iter()
            .filter(|entry| usize::from(entry[1]) < n)
            .collect();
        let mut expected = all_of(&entries, length);
        expected.retain(|list| ending(n, list) == Ending::Finished(length as u64));
        assert_eq!(table(n, length), expected, "n {n}, length {length}");
    }
}

#[test]
fn the_first_and_the_last_list_of_two_seats() {
    let table = table(2, 6);
    assert_eq!(
        words(&table[0]),
        "propose 0 1, propose 1 2, work 0 no, work 0 no, work 0 no, work 0 no"
    );
    assert_eq!(
        words(&table[table.len() - 1]),
        "propose 1 2, crash 1, propose 0 1, look 0, look 0, crash 0"
    );
}

#[test]
fn the_lists_of_one_seat() {
    let lists = |length| -> Vec<String> { table(1, length).iter().map(|l| words(l)).collect() };
    assert_eq!(lists(0), [""]);
    assert_eq!(lists(1), ["propose 0 1"]);
    assert_eq!(
        lists(2),
        ["work 0 no", "work 0 yes", "look 0", "crash 0"].map(|last| format!("propose 0 1, {last}"))
    );
    assert_eq!(lists(3)[3], "propose 0 1, work 0 no, crash 0");
    assert_eq!(lists(3)[4], "propose 0 1, work 0 yes, work 0 no");
    assert_eq!(lists(3)[11], "propose 0 1, look 0, crash 0");
}

/// Nothing follows a crash of the only seat, or of both: the list that begins so is passed.
#[test]
fn dead_ends() {
    let after = |n, list: &[[u8; 6]]| after_next(n, &list.concat()).map(|list| words(&list));
    let (propose, look, crash) = (raw(0, 0, 1), raw(2, 0, 0), raw(3, 0, 0));
    let no = raw(1, 0, 0);
    assert_eq!(
        after(1, &[propose, no, look, crash]),
        Ok("propose 0 1, work 0 yes, work 0 no, work 0 no".to_string())
    );
    assert_eq!(after(1, &[propose, look, look, crash]), Err(21));
    assert_eq!(
        after(
            2,
            &[propose, crash, raw(0, 1, 2), raw(2, 1, 0), raw(3, 1, 0)]
        ),
        Ok("propose 1 2, propose 0 1, work 0 no, work 0 no, work 0 no".to_string())
    );
}

#[test]
fn the_list_of_no_entry() {
    for n in [1, 2] {
        assert_eq!(after(first, n, 0, &[]), Ok(Vec::new()));
        assert_eq!(after(next, n, 0, &[]), Err(21));
        for call in [first, next] {
            assert_eq!(after(call, n, 0, &[OLD]), Err(15));
            assert_eq!(after(call, n, 0, &[OLD; 6]), Err(15));
        }
    }
}

/// "asked for the first, it writes that": over anything.
#[test]
fn the_first_looks_at_no_byte() {
    for (n, length) in sizes() {
        let expected = first_list(n, length);
        for old in 0..=u8::MAX {
            let written = after(first, n, length, &vec![old; 6 * length]);
            assert_eq!(written.as_ref(), Ok(&expected));
        }
        for list in [first_list(n, length), table(n, length).pop().unwrap()] {
            assert_eq!(after(first, n, length, &list).as_ref(), Ok(&expected));
        }
    }
}

// ---------------------------------------------------------------- what is not legal

/// Each list of the length with one entry replaced by this one is refused with 20.
fn never_legal(n: usize, length: usize, entry: [u8; 6]) {
    for list in table(n, length) {
        for place in 0..length {
            let mut list = list.clone();
            list[6 * place..6 * place + 6].copy_from_slice(&entry);
            assert_eq!(after_next(n, &list), Err(20), "{entry:?} at {place}");
        }
    }
}

#[test]
fn entries_that_no_list_has() {
    let wrong = [
        // A close, which the runner takes, and one that it does not.
        raw(4, 0, 0),
        raw(4, 1, 0),
        // Other numbers than seat + 1: blank, of the other seat, right in the low byte.
        raw(0, 0, 0),
        raw(0, 0, 2),
        raw(0, 0, 3),
        raw(0, 1, 1),
        raw(0, 0, 257),
        raw(0, 0, 1 + (1 << 16)),
        raw(0, 1, 258),
        raw(0, 1, 2 + (1 << 24)),
        // Hints and values that do not fit.
        raw(1, 0, 2),
        raw(1, 0, 256),
        raw(1, 0, 257),
        raw(1, 0, 1 << 24),
        raw(2, 0, 1),
        raw(2, 0, 256),
        raw(3, 0, 1),
        raw(3, 0, 1 << 31),
        // Kinds and seats that are not there.
        raw(5, 0, 0),
        raw(255, 0, 0),
        raw(0, 2, 3),
        raw(1, 2, 0),
        raw(2, 2, 0),
        raw(3, 2, 0),
        raw(2, 255, 0),
    ];
    for (n, length) in sizes().filter(|(_, length)| *length <= 4) {
        for entry in wrong {
            never_legal(n, length, entry);
        }
    }
    for seat_one in [raw(0, 1, 2), raw(1, 1, 1), raw(2, 1, 0), raw(3, 1, 0)] {
        never_legal(1, 3, seat_one);
    }
}

/// "legal" is less than what the runner finishes: closes and other numbers are shut out.
#[test]
fn what_the_runner_finishes_and_is_not_legal() {
    let propose = raw(0, 0, 1);
    for list in [
        [propose, raw(4, 0, 0)].concat(),
        [raw(4, 0, 0), raw(4, 0, 0)].concat(),
        [raw(0, 0, 257), raw(2, 0, 0)].concat(),
        [raw(0, 0, 2), raw(0, 1, 1)].concat(),
    ] {
        assert_eq!(ending(2, &list), Ending::Finished(2));
        assert_eq!(after_next(2, &list), Err(20));
    }
}

#[test]
fn refused_entries() {
    let (propose, look, crash) = (raw(0, 0, 1), raw(2, 0, 0), raw(3, 0, 0));
    for list in [
        [look, propose, look],
        [propose, propose, look],
        [propose, crash, look],
        [propose, look, raw(2, 1, 0)],
        [crash, crash, crash],
    ] {
        assert!(matches!(ending(2, &list.concat()), Ending::Refused(..)));
        assert_eq!(after_next(2, &list.concat()), Err(20));
    }
}

// ---------------------------------------------------------------- the refusals

/// Numbers that a byte, 16 or 32 bits would cut to 1, 2 or 6, or 6 times which they would
/// cut to 0.
const HUGE: [usize; 8] = [
    257,
    258,
    262,
    (1 << 16) + 1,
    (1 << 32) + 2,
    (1 << 32) + 6,
    1 << 63,
    usize::MAX,
];

/// Both calls are refused with that number, whatever the bytes are.
fn refused(code: u32, n: usize, length: usize, bytes: usize) {
    for old in [OLD, 0, 1] {
        for call in [first, next] {
            let answer = after(call, n, length, &vec![old; bytes]);
            assert_eq!(answer, Err(code), "n {n}, length {length}, {bytes} bytes");
        }
    }
}

#[test]
fn one() {
    for n in [0, 3, 4, 64, 65, 255, 256].into_iter().chain(HUGE) {
        for length in 0..=6 {
            refused(1, n, length, 6 * length);
        }
    }
}

#[test]
fn seventeen() {
    for length in [7, 8, 10, 36, 255, 256].into_iter().chain(HUGE) {
        for n in [1, 2] {
            refused(17, n, length, 36);
            refused(17, n, length, 6 * length.min(100));
            refused(17, n, length, 0);
        }
    }
}

#[test]
fn fifteen() {
    for (n, length) in sizes() {
        for bytes in (0..=60).filter(|bytes| *bytes != 6 * length) {
            refused(15, n, length, bytes);
        }
    }
}

#[test]
fn each_number_before_the_next() {
    // 1 where 17, 15, 20 or 21 would follow, and all that would follow each.
    refused(1, 3, 7, 0);
    refused(1, 0, 7, 42);
    refused(1, 3, 2, 11);
    let last = table(2, 2).pop().expect("a last list");
    assert_eq!(after(next, 3, 2, &last), Err(1));
    assert_eq!(after(next, 3, 2, &[OLD; 12]), Err(1));
    // 17 where 15, 20 or 21 would follow.
    refused(17, 1, 7, 0);
    refused(17, 1, 7, 43);
    refused(17, 1, 7, 42);
    // 15 where 20 or 21 would follow.
    assert_eq!(after(next, 2, 2, &[OLD; 13]), Err(15));
    assert_eq!(after(next, 2, 2, &[&last[..], &[0]].concat()), Err(15));
    assert_eq!(after(next, 2, 3, &last), Err(15));
    // 20 where no legal list is later.
    for (n, length) in sizes().filter(|(_, length)| *length > 0) {
        let crashes = raw(3, 1, 0).repeat(length);
        assert!(crashes > table(n, length).pop().unwrap());
        assert_eq!(after_next(n, &crashes), Err(20));
    }
}
