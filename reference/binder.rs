//! Prints the training binder: every legal list of so many entries for so many seats, in the
//! lines that `examples/sheet.py` makes a sheet of; or the refusal. (02, wish 12.)
//!
//! usage: binder SEATS LENGTH

use std::io::{self, Write};
use std::process::ExitCode;

use janus_reference::sheet::ENTRY;
use janus_reference::{short, window, Operation, Refusal};

/// The lists from the first to the last.
fn lists(n: usize, length: usize) -> Result<Vec<Vec<u8>>, Refusal> {
    let mut list = vec![0; ENTRY * length];
    short::first(n, length, &mut list)?;
    let mut lists = vec![list.clone()];
    loop {
        match short::next(n, length, &mut list) {
            Ok(()) => lists.push(list.clone()),
            Err(Refusal::LastList) => return Ok(lists),
            Err(refusal) => return Err(refusal),
        }
    }
}

/// A number and what it counts.
fn counted(count: usize, one: &str, several: &str) -> String {
    format!("{count} {}", if count == 1 { one } else { several })
}

/// A list, an entry on each line.
fn lines(list: &[u8]) -> String {
    let line = |entry| format!("{}\n", Operation::decode(entry).expect("a legal entry"));
    list.chunks_exact(ENTRY).map(line).collect()
}

fn binder(n: usize, length: usize) -> Result<String, Refusal> {
    let lists = lists(n, length)?;
    let entries = counted(length, "entry", "entries");
    let seats = counted(n, "seat", "seats");
    let mut text = format!("# Every legal list of {entries} for {seats}, in order.\n");
    text += &format!("n {n}\nL {}\n", window(n));
    for (place, list) in lists.iter().enumerate() {
        text += &format!("\n# list {}\n{}", place + 1, lines(list));
    }
    text += &format!("\n# {}\n", counted(lists.len(), "list", "lists"));
    Ok(text)
}

fn main() -> ExitCode {
    let words = std::env::args().skip(1);
    let numbers: Result<Vec<usize>, _> = words.map(|word| word.parse()).collect();
    let Ok(&[n, length]) = numbers.as_deref() else {
        eprintln!("usage: binder SEATS LENGTH");
        return ExitCode::from(2);
    };
    let refused = |refusal: Refusal| format!("lists refused {}\n", refusal.code());
    let text = binder(n, length).unwrap_or_else(refused);
    match io::stdout().write_all(text.as_bytes()) {
        Ok(()) => ExitCode::SUCCESS,
        Err(error) => {
            eprintln!("binder: {error}");
            ExitCode::FAILURE
        }
    }
}
