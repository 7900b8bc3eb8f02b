//! What a call for the next short list costs, of the proved library beside the separate program: all lists of a length, from the first to
//! the last, the best of several runs that alternate between the two sides.
//!
//! usage: shorts

use janus_reference::short;
use std::time::Instant;

#[path = "../reference/library.rs"]
#[allow(dead_code)]
mod library;

const RUNS: usize = 11;
const TABLES: [(usize, usize); 3] = [(1, 6), (2, 3), (2, 6)];

/// Microseconds a call, and the calls that were made: from the first list on until none follows.
fn walk(n: usize, length: usize, next: impl Fn(&mut [u8]) -> u32) -> (f64, u32) {
    let mut buffer = vec![0; 6 * length];
    short::first(n, length, &mut buffer).expect("there is a first list");
    let mut calls = 1;
    let start = Instant::now();
    while next(&mut buffer) == 0 {
        calls += 1;
    }
    (start.elapsed().as_secs_f64() * 1e6 / f64::from(calls), calls)
}

fn main() {
    println!("{:8} {:8} {:8} {:>12} {:>12} {:>6}", "seats", "length", "lists", "proved, µs", "separate, µs", "ratio");
    for (n, length) in TABLES {
        let mut best = [f64::MAX; 2];
        let mut lists = [0; 2];
        for _ in 0..RUNS {
            let sides = [
                walk(n, length, |buffer| library::next_list(n, length, buffer)),
                walk(n, length, |buffer| short::next(n, length, buffer).map_or_else(|refusal| refusal.code(), |()| 0)),
            ];
            for (side, (time, calls)) in sides.into_iter().enumerate() {
                best[side] = best[side].min(time);
                lists[side] = calls;
            }
        }
        assert_eq!(lists[0], lists[1], "both sides go through the same lists");
        println!("{n:<8} {length:<8} {:<8} {:>12.2} {:>12.2} {:>6.1}", lists[0], best[0], best[1], best[0] / best[1]);
    }
}
