//! Sheets, their refusals in order, the runner's budget, the C entry, the
//! report and the trace.

use super::*;
use crate::{entry, report, run, trace, traces, Ending, Sheet};

/// The C entry's answer with a budget that never ends.
fn answer(bytes: &[u8]) -> u32 {
    let mut buffer = [9; 256];
    let code = entry(bytes, u64::MAX, &mut buffer);
    let refused_sheet = matches!(code, 1 | 2 | 10 | 11 | 12 | 15);
    assert_eq!(refused_sheet, buffer == [9; 256], "code {code}");
    code
}

/// The answer to a header with pairs and `spare` bytes of 0 after them.
fn of_pairs(pairs: &[(u16, u16)], spare: usize) -> u32 {
    let mut bytes = header(1, 2, pairs);
    bytes.extend(vec![0; spare]);
    answer(&bytes)
}

/// The answer to one run of entries, for two seats with L = 3.
fn of_entries(entries: &[[u8; 6]]) -> u32 {
    answer(&sheet(2, 3, entries))
}

fn decided(bytes: &[u8], budget: u64) -> (u32, [u8; 256]) {
    let mut buffer = [9; 256];
    let code = entry(bytes, budget, &mut buffer);
    (code, buffer)
}

#[test]
fn ten() {
    assert_eq!(answer(&[1, 0, 2]), 10);
    assert_eq!(answer(&header(1, 2, &[(72, 0); 17])), 10);
    assert_eq!(answer(&header(1, 2, &[(68, 0); 16])), 0);
    assert_eq!(answer(&header(1, 2, &[(8, 0)])[..7]), 10);
    let mut longest = header(1, 2, &[]);
    longest.resize(65_535, 9);
    assert_eq!(answer(&longest), 0);
    longest.push(9);
    assert_eq!(answer(&longest), 10);
    assert_eq!(report(&longest), "sheet refused 10\n");
}

#[test]
fn ten_before_one_before_two() {
    assert_eq!(answer(&[0, 17, 0, 0]), 10);
    assert_eq!(answer(&[0, 1, 0, 0]), 10);
    assert_eq!(answer(&[0, 0, 0, 0]), 1);
    assert_eq!(answer(&[65, 0, 0, 1]), 1);
    assert_eq!(answer(&[1, 0, 1, 0]), 2);
    assert_eq!(answer(&[1, 0, 2, 0]), 0);
    assert_eq!(answer(&[1, 0, 0, 1]), 0);
    assert_eq!(answer(&[1, 0, 1, 1]), 2);
    assert_eq!(answer(&[64, 0, 15, 0]), 2);
    assert_eq!(answer(&[64, 0, 16, 0]), 0);
}

#[test]
fn one_and_two_before_eleven() {
    assert_eq!(answer(&header(0, 2, &[(0, 0)])), 1);
    assert_eq!(answer(&header(1, 1, &[(0, 1)])), 2);
}

#[test]
fn eleven() {
    assert_eq!(of_pairs(&[(8, 0)], 0), 0);
    assert_eq!(of_pairs(&[(7, 0)], 0), 11);
    assert_eq!(of_pairs(&[(9, 0)], 0), 11);
    assert_eq!(of_pairs(&[(9, 0)], 1), 0);
    assert_eq!(of_pairs(&[(8, 6)], 5), 11);
    assert_eq!(of_pairs(&[(65_535, 65_535)], 0), 11);
    assert_eq!(of_pairs(&[(12, 6), (12, 0)], 12), 11);
    assert_eq!(of_pairs(&[(12, 6), (17, 0)], 12), 11);
    assert_eq!(of_pairs(&[(18, 0), (12, 6)], 12), 11);
    assert_eq!(of_pairs(&[(12, 0), (12, 0)], 0), 0);
}

#[test]
fn eleven_over_all_pairs_before_twelve() {
    assert_eq!(of_pairs(&[(12, 5), (16, 0)], 12), 11);
    assert_eq!(of_pairs(&[(12, 5), (17, 0)], 12), 12);
    assert_eq!(of_pairs(&[(12, 0), (12, 7)], 7), 12);
    assert_eq!(of_pairs(&[(12, 1), (13, 5)], 6), 12);
}

#[test]
fn thirteen_first() {
    for wrong in [raw(5, 0, 0), raw(255, 9, 0), raw(1, 9, 2), raw(2, 9, 1)] {
        assert_eq!(of_entries(&[wrong]), 13);
    }
    assert_eq!(of_entries(&[raw(3, 9, 1)]), 13);
    assert_eq!(of_entries(&[raw(1, 9, 1 << 24)]), 13);
    assert_eq!(of_entries(&[raw(2, 0, 1 << 31)]), 13);
}

#[test]
fn entries_refused_by_their_operation() {
    let propose = raw(0, 1, 7);
    assert_eq!(of_entries(&[raw(0, 2, 0)]), 4);
    assert_eq!(of_entries(&[raw(1, 2, 1)]), 4);
    assert_eq!(of_entries(&[propose, raw(0, 1, 0)]), 5);
    assert_eq!(of_entries(&[propose, propose]), 6);
    for kind in 1..=3 {
        assert_eq!(of_entries(&[propose, raw(kind, 0, 0)]), 7);
        assert_eq!(of_entries(&[propose, raw(3, 1, 0), raw(kind, 1, 0)]), 8);
    }
}

#[test]
fn entries_of_a_spent_seat() {
    let mut committed = vec![raw(0, 0, 7)];
    committed.extend([raw(1, 0, YES); 12]);
    for hint in [0, YES] {
        let spent = [&committed[..], &[raw(1, 0, hint)]].concat();
        assert_eq!(answer(&sheet(1, 2, &spent)), 0);
        assert!(report(&sheet(1, 2, &spent)).ends_with("seat 0 spent 7\n"));
        for later in [0, YES] {
            let entries = [&spent[..], &[raw(1, 0, later)]].concat();
            assert_eq!(answer(&sheet(1, 2, &entries)), 9);
        }
    }
}

#[test]
fn fifteen_first() {
    for length in [0, 255, 257, 512] {
        let mut buffer = vec![9; length];
        assert_eq!(entry(&[], 0, &mut buffer), 15);
        assert_eq!(entry(&report_sheet(), 99, &mut buffer), 15);
        assert_eq!(buffer, vec![9; length]);
    }
}

#[test]
fn budgets() {
    let bytes = report_sheet();
    for budget in 0..=13 {
        assert_eq!(decided(&bytes, budget), (100, [0; 256]));
    }
    let mut seven = [0; 256];
    seven[0] = 7;
    for budget in [14, 15, u64::from(u32::MAX) + 1, u64::MAX] {
        assert_eq!(decided(&bytes, budget), (0, seven));
    }
}

#[test]
fn the_entry_after_the_budget_is_not_tried() {
    let bytes = sheet(1, 2, &[raw(0, 0, 7), raw(9, 9, 9)]);
    assert_eq!(decided(&bytes, 1).0, 100);
    assert_eq!(decided(&bytes, 2).0, 13);
}

#[test]
fn a_refused_entry_leaves_what_came_before() {
    let mut bytes = report_sheet();
    bytes[6..8].copy_from_slice(&(84u16 + 12).to_le_bytes());
    bytes.extend(raw(2, 0, 0));
    bytes.extend(raw(0, 0, 1));
    let mut seven = [0; 256];
    seven[0] = 7;
    assert_eq!(decided(&bytes, u64::MAX), (8, seven));
    let text = "outcome refused 8 14\ntally 10 3 0\nboard 2 7 open\nseat 0 decided 7\n";
    assert_eq!(report(&bytes), text);
}

#[test]
fn runs_are_read_in_order_past_ignored_bytes() {
    let mut bytes = header(2, 3, &[(17, 6), (23, 0), (25, 12)]);
    bytes.push(200);
    bytes.extend(raw(0, 1, 7));
    bytes.extend([200, 200]);
    bytes.extend(raw(3, 1, 0));
    bytes.extend(raw(0, 0, 258));
    bytes.push(200);
    let sheet = Sheet::read(Caller::Server, &bytes)
        .ok()
        .expect("a sheet in order");
    let (mut session, mut counts) = (sheet.open(), Counts::default());
    let ending = run(&sheet, 99, &mut session, &mut counts);
    assert_eq!(ending, Ending::Finished(3));
    assert_eq!((ending.code(), ending.carried_out()), (0, 3));
    assert_eq!(session.processes[0].to_string(), "gate round 0 value 258");
    assert_eq!(session.processes[1].to_string(), "crashed round 0 value 7");
}

#[test]
fn report_of_every_kind_of_seat() {
    let mut entries = vec![raw(0, 0, 7), raw(0, 1, 8), raw(0, 2, 9), raw(3, 2, 0)];
    // Five rounds of 2 + r turns, ten checks, the commit.
    entries.extend([raw(1, 0, YES); 36]);
    entries.push(raw(2, 1, 0));
    entries.push(raw(0, 3, 5));
    entries.push(raw(1, 3, YES));
    let text = report(&sheet(5, 5, &entries[..entries.len() - 3]));
    let lines: Vec<&str> = text.lines().collect();
    assert_eq!(lines[2..4], ["board 5 7 open", "seat 0 working 5 7"]);
    assert_eq!(
        lines[4..],
        [
            "seat 1 working 0 8",
            "seat 2 crashed",
            "seat 3 out",
            "seat 4 out"
        ]
    );
    entries.insert(40, raw(1, 0, YES));
    let text = report(&sheet(5, 5, &entries));
    let lines: Vec<&str> = text.lines().collect();
    assert_eq!(lines[0], "outcome finished 44");
    assert_eq!(lines[3..5], ["seat 0 spent 7", "seat 1 decided 7"]);
    assert_eq!(
        lines[5..],
        ["seat 2 crashed", "seat 3 working 1 5", "seat 4 out"]
    );
}

#[test]
fn the_longest_sheet_is_carried_out_whole() {
    let mut entries = vec![raw(0, 0, 7)];
    entries.resize(10_921, raw(1, 0, 0));
    let mut bytes = sheet(1, 2, &entries);
    bytes.push(0);
    assert_eq!(bytes.len(), 65_535);
    assert!(report(&bytes).starts_with("outcome finished 10921\ntally 0 0 0\n"));
    assert_eq!(decided(&bytes, 10_920).0, 100);
    assert_eq!(decided(&bytes, 10_921).0, 0);
}

/// The columns of each line of a trace.
fn columns(text: &str) -> Vec<Vec<&str>> {
    text.lines()
        .map(|line| line.split('|').map(str::trim).collect())
        .collect()
}

#[test]
fn trace_of_a_refused_entry() {
    let bytes = sheet(
        2,
        3,
        &[raw(0, 0, 7), raw(1, 0, YES), raw(9, 1, 4), raw(2, 0, 0)],
    );
    let text = trace(&bytes);
    let lines = columns(&text);
    assert_eq!(lines.len(), 3);
    assert_eq!(
        lines[0],
        ["0", "propose 0 7", "none", "gate round 0 value 7", "0 0 0"]
    );
    assert_eq!(
        lines[1],
        [
            "1",
            "work 0 yes",
            "T[1] read blank",
            "put round 1 value 7",
            "1 0 0"
        ]
    );
    assert_eq!(lines[2], ["2", "entry 9 1 4", "refused 13"]);
    assert_eq!(trace(&[]), "sheet refused 10\n");
}

#[test]
fn trace_of_the_sheet_of_92_bytes() {
    let text = trace(&report_sheet());
    let lines: Vec<&str> = text.lines().collect();
    assert_eq!(lines.len(), 14);
    let rows = columns(&text);
    assert_eq!(
        rows[8][2..],
        [
            "C[2] read unmarked",
            "check-value 0 round 2 value 7",
            "6 2 0"
        ]
    );
    assert_eq!(
        rows[12][2..],
        ["D written 7", "gate round 2 value 7", "9 3 0"]
    );
    assert_eq!(
        rows[13][2..],
        ["D read 7", "decided round 2 value 7", "10 3 0"]
    );
    let bars = |line: &str| -> Vec<usize> { line.match_indices('|').map(|(at, _)| at).collect() };
    assert!(lines.iter().all(|line| bars(line) == bars(lines[0])));
}

#[test]
fn trace_of_the_contested_case() {
    let mut entries = vec![raw(0, 0, 3), raw(0, 1, 8)];
    entries.extend([0, 1, 0, 1, 0, 0, 1, 0, 0, 1, 1, 1].map(|process| raw(1, process, YES)));
    entries.push(raw(2, 1, 0));
    let text = trace(&sheet(2, 3, &entries));
    let lines = columns(&text);
    for (index, expected) in [
        (5, ["T[1] written 8", "compare 0 round 1 value 8", "2 2 0"]),
        (6, ["T[1] read 8", "flag 0 round 1 value 3", "3 2 0"]),
        (7, ["C[1] marked", "gate round 1 value 3", "3 3 1"]),
        (11, ["T[2] read 3", "seek 3 round 2 value 8", "6 4 1"]),
        (12, ["T[3] read blank", "take 2 round 2 value 8", "7 4 1"]),
        (14, ["D read blank", "compare 0 round 2 value 3", "9 4 1"]),
    ] {
        assert_eq!(lines[index][2..], expected);
    }
}

#[test]
fn traces_of_many_sheets() {
    let sheets = [report_sheet(), vec![], sheet(1, 2, &[raw(0, 0, 5)])];
    let mut input = Vec::new();
    for bytes in &sheets {
        input.extend((bytes.len() as u16).to_le_bytes());
        input.extend(bytes);
    }
    let each: Vec<String> = sheets.iter().map(|bytes| trace(bytes) + "\n").collect();
    assert_eq!(traces(&input), each.concat());
}
