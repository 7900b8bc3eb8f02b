//! What the programs share that run random cases through a program of the proved crates
//! and through the reference, and compare what the two print, byte for byte.
//!
//! Many cases make up an input, of at most 60,000 bytes. At the first difference a program
//! makes the case as small as it still differs, tells its calls and both texts, writes it
//! to `difference-SEED-INDEX.CASE`, and ends with 1; a fault or an endless run of the other
//! program counts as one. So does a claim that does not hold of a case, and, in a run of
//! enough cases, what was not reached as often as expected.

use std::io::{self, Read, Write};
use std::process::{Child, Command, ExitCode, Stdio};
use std::sync::mpsc::{channel, Receiver};
use std::time::{Duration, Instant};

use crate::harness::{Entry, Random};

/// The most bytes of an input.
pub const MOST_BYTES: usize = 60_000;

/// One case: a list of calls.
pub trait Case: Clone {
    /// The word for one case and for many, which is the program's name too.
    const ONE: &'static str;
    const MANY: &'static str;
    /// So many cases reach all that is expected, and a run of so many must.
    const FULL: u64;
    type Coverage: Coverage<Self>;

    fn of(random: &mut Random) -> Self;
    fn bytes(&self) -> Vec<u8>;
    /// What the reference prints for the bytes of many cases.
    fn text(bytes: &[u8]) -> String;
    /// Whether its bytes end early, which ends the input.
    fn is_cut(&self) -> bool;
    fn calls(&self) -> &[Entry];
    /// The case with other calls.
    fn with(&self, calls: Vec<Entry>) -> Self;
    /// The case in words, its calls being `calls`.
    fn words(&self, calls: &str) -> String;
    /// A call in words.
    fn call_words(call: Entry) -> String;
}

/// What all cases reached.
pub trait Coverage<C> {
    fn new() -> Self;
    /// Carries a case out call by call, noting what it reaches. Tells which claim does not
    /// hold of it.
    fn case(&mut self, case: &C) -> Result<(), String>;
    /// How many calls there were.
    fn calls(&self) -> u64;
    /// Prints what was reached; returns what was expected and was not.
    fn print(&self) -> Vec<String>;
}

// ---------------------------------------------------------------- the program

/// How long one input may take, and how often a smaller case is tried: a number, and no time, so that the case does not depend on the machine.
const PATIENCE: Duration = Duration::from_secs(60);
const TRIES: usize = 60;

/// A run of the program on one input.
struct Run {
    child: Child,
    output: Receiver<io::Result<Vec<u8>>>,
}

impl Run {
    /// Starts it. Its input is written and its output read beside all else.
    fn start(program: &str, input: Vec<u8>) -> io::Result<Run> {
        let mut child = Command::new(program)
            .stdin(Stdio::piped())
            .stdout(Stdio::piped())
            .spawn()?;
        let mut pipe = child.stdin.take().expect("the input is a pipe");
        // What it leaves unread shows in its output.
        std::thread::spawn(move || pipe.write_all(&input));
        let mut pipe = child.stdout.take().expect("the output is a pipe");
        let (sender, output) = channel();
        std::thread::spawn(move || {
            let mut bytes = Vec::new();
            let read = pipe.read_to_end(&mut bytes).map(|_| bytes);
            sender.send(read)
        });
        Ok(Run { child, output })
    }

    /// What it printed, or how it failed in words.
    fn finish(mut self) -> Result<Vec<u8>, String> {
        let Ok(output) = self.output.recv_timeout(PATIENCE) else {
            let _ = self.child.kill();
            let _ = self.child.wait();
            return Err(format!("no end in {PATIENCE:?}"));
        };
        let status = self.child.wait().map_err(|error| error.to_string())?;
        if !status.success() {
            return Err(format!("a fault ({status})"));
        }
        output.map_err(|error| error.to_string())
    }
}

/// What the program prints for one case, if it is not what the reference prints, and
/// the latter.
fn differs<C: Case>(program: &str, case: &C) -> io::Result<Option<(String, String)>> {
    let run = Run::start(program, case.bytes())?;
    let ours = C::text(&case.bytes());
    let theirs = match run.finish() {
        Ok(text) => String::from_utf8_lossy(&text).into_owned(),
        Err(words) => words,
    };
    Ok((theirs != ours).then_some((theirs, ours)))
}

/// The case without all calls that it can do without and still differ, as far as so many
/// tries lead: long pieces are tried first.
fn in_small<C: Case>(program: &str, mut case: C) -> io::Result<C> {
    let (mut tries, mut length) = (0, case.calls().len());
    while length > 0 {
        let mut start = 0;
        while start < case.calls().len() && tries < TRIES {
            tries += 1;
            let mut calls = case.calls().to_vec();
            let end = calls.len().min(start + length);
            calls.drain(start..end);
            let fewer = case.with(calls);
            if differs(program, &fewer)?.is_some() {
                case = fewer;
            } else {
                start = end;
            }
        }
        length /= 2;
    }
    Ok(case)
}

/// The case in words, equal calls in a row only once.
fn words<C: Case>(case: &C) -> String {
    let mut words: Vec<(usize, String)> = Vec::new();
    for call in case.calls() {
        let call = C::call_words(*call);
        match words.last_mut() {
            Some((times, last)) if *last == call => *times += 1,
            _ => words.push((1, call)),
        }
    }
    let words = words.into_iter().map(|(times, call)| match times {
        1 => call,
        _ => format!("{call} x {times}"),
    });
    case.words(&words.collect::<Vec<String>>().join(", "))
}

/// The lines of a text from that one on, a few of them.
fn lines_from(text: &str, first: usize) -> String {
    let lines: Vec<&str> = text.lines().skip(first).take(6).collect();
    lines.join("\n  ")
}

/// Tells in small how a case differs.
fn tell<C: Case>(program: &str, seed: u64, index: u64, case: C) -> io::Result<()> {
    let (small, one) = (in_small(program, case)?, C::ONE);
    let (theirs, ours) = differs(program, &small)?.expect("a case that differs");
    let equal = theirs.lines().zip(ours.lines()).take_while(|(a, b)| a == b);
    let first = equal.count();
    let line = |text: &str| text.lines().nth(first).unwrap_or("nothing").to_string();
    let (proved, reference) = (line(&theirs), line(&ours));
    println!("difference: seed {seed} index {index}: proved {proved}, reference {reference}");
    println!("in small: {}", words(&small));
    println!("proved from there on:\n  {}", lines_from(&theirs, first));
    println!("reference:\n  {}", lines_from(&ours, first));
    let file = format!("difference-{seed}-{index}.{one}");
    match std::fs::write(&file, small.bytes()) {
        Ok(()) => println!("{one} written to {file}"),
        Err(error) => println!("{file} could not be written: {error}"),
    }
    Ok(())
}

// ---------------------------------------------------------------- the comparison

/// The cases of a seed, from the first on that was not yet compared.
struct Comparison<C: Case> {
    program: String,
    seed: u64,
    first: u64,
    coverage: C::Coverage,
    inputs: u64,
}

impl<C: Case> Comparison<C> {
    /// The next cases, as many as make up an input, below that index.
    fn batch(&self, count: u64) -> Vec<C> {
        let (mut cases, mut room) = (Vec::<C>::new(), MOST_BYTES);
        for index in self.first..count {
            let case = C::of(&mut Random::of(self.seed, index));
            let size = case.bytes().len();
            if size > room || cases.last().is_some_and(C::is_cut) {
                break;
            }
            room -= size;
            cases.push(case);
        }
        cases
    }

    /// Compares the text of these cases, and checks the claims meanwhile; false after
    /// telling what is wrong.
    fn compare(&mut self, cases: &[C]) -> io::Result<bool> {
        let input: Vec<u8> = cases.iter().flat_map(C::bytes).collect();
        let run = Run::start(&self.program, input.clone())?;
        let ours = C::text(&input);
        let claims: Vec<_> = cases.iter().map(|case| self.coverage.case(case)).collect();
        let theirs = run.finish();
        if theirs.as_deref() != Ok(ours.as_bytes()) {
            let words = theirs.err().unwrap_or("another text".to_string());
            self.difference(cases, &words)?;
            return Ok(false);
        }
        for (index, claim) in (self.first..).zip(claims) {
            if let Err(words) = claim {
                println!("claim: seed {} index {index}: {words}", self.seed);
                return Ok(false);
            }
        }
        self.first += cases.len() as u64;
        self.inputs += 1;
        Ok(true)
    }

    /// Tells which of these cases differs, which in one input do so by these words.
    fn difference(&self, cases: &[C], words: &str) -> io::Result<()> {
        let seed = self.seed;
        for (index, case) in (self.first..).zip(cases) {
            if differs(&self.program, case)?.is_some() {
                return tell(&self.program, seed, index, case.clone());
            }
        }
        let (first, count, many) = (self.first, cases.len(), C::MANY);
        println!(
            "difference: seed {seed} index {first}: {words} with {count} {many} in one input, with none alone"
        );
        Ok(())
    }

    /// Prints what all cases reached, which must be enough.
    fn summary(&self, time: Duration) -> ExitCode {
        let (count, many, full) = (self.first, C::MANY, C::FULL);
        let missing = self.coverage.print();
        for name in &missing {
            println!("not reached: {name}");
        }
        let left = missing.len();
        if left > 0 && count >= full {
            return ExitCode::FAILURE;
        }
        if left > 0 {
            println!(
                "{count} {many} are too few for full coverage, {left} short of it; {full} are enough"
            );
        }
        let (calls, inputs) = (self.coverage.calls(), self.inputs);
        let seconds = time.as_secs_f64();
        println!("{calls} calls in {inputs} inputs, {seconds:.1} s");
        println!("{many}: {count} {many}, no difference");
        ExitCode::SUCCESS
    }
}

/// Compares so many cases, after an input without any.
fn compare<C: Case>(program: String, count: u64, seed: u64) -> io::Result<ExitCode> {
    println!("seed {seed}");
    let start = Instant::now();
    let mut comparison = Comparison::<C> {
        program,
        seed,
        first: 0,
        coverage: C::Coverage::new(),
        inputs: 0,
    };
    let mut cases = Vec::new();
    while comparison.compare(&cases)? {
        cases = comparison.batch(count);
        if cases.is_empty() {
            return Ok(comparison.summary(start.elapsed()));
        }
    }
    Ok(ExitCode::FAILURE)
}

/// The program: `NAME PROGRAM COUNT SEED`.
pub fn run<C: Case>() -> ExitCode {
    let words: Vec<String> = std::env::args().skip(1).collect();
    let arguments = match &words[..] {
        [program, count, seed] => Some((program.clone(), count.parse(), seed.parse())),
        _ => None,
    };
    let Some((program, Ok(count @ 1..), Ok(seed))) = arguments else {
        eprintln!("usage: {} PROGRAM COUNT SEED", C::MANY);
        return ExitCode::from(2);
    };
    compare::<C>(program, count, seed).unwrap_or_else(|error| {
        eprintln!("{}: {error}", C::MANY);
        ExitCode::from(2)
    })
}
