//! The Rust original and the library on the same inputs, in one process. ../docs/BENCHMARK.md tells what is measured.
//!
//!     bench rows              the rows: name, most calls, messages, text
//!     bench ROW rust|ours N   N calls on states made ready before, for callgrind
//!     bench check             both on every row: the same counts, positions and caches?
//!     bench time [ROUNDS]     both on every row: best time of a call, and the ratio

mod library;
mod rows;

use std::hint::black_box;
use std::time::{Duration, Instant};

use oracle::bench::{Call, Done, Outcome};
use rows::{Row, rows};

#[derive(Clone, Copy, PartialEq)]
enum Side {
    Rust,
    Ours,
}

fn run(row: &Row, side: Side, states: usize, n: usize, done: Done<'_>) {
    match side {
        Side::Rust => oracle::bench::run(&row.input, row.call, states, n, done),
        Side::Ours => library::run(&row.input, row.call, states, n, done),
    }
}

fn result(row: &Row, side: Side, states: usize) -> (Duration, Outcome) {
    let mut res = None;
    run(row, side, states, states, &mut |time, outcome| res = Some((time, outcome)));
    res.expect("done is called")
}

/// The buffers alone are the original's only.
fn has_both(row: &Row) -> bool {
    !matches!(row.call, Call::Fill)
}

fn check() {
    for row in rows().iter().filter(|r| has_both(r)) {
        let (_, rust) = result(row, Side::Rust, row.states);
        let (_, ours) = result(row, Side::Ours, row.states);
        println!("{:10} {} {ours:?}", row.name, if rust == ours { "same" } else { "DIFFERENT" });
        assert_eq!(rust, ours);
    }
}

unsafe extern "C" {
    fn mallopt(param: i32, value: i32) -> i32;
}

fn time(rounds: usize) {
    // freed memory stays with the process (M_TRIM_THRESHOLD, M_MMAP_THRESHOLD): no page is asked for anew in a round
    unsafe {
        mallopt(-1, 1 << 30);
        mallopt(-3, 1 << 30);
    }
    println!("| row | Rust, ns | here, ns | here / Rust |");
    println!("|---|---|---|---|");
    for row in rows() {
        let states = row.states / 6;
        let mut best = [f64::MAX; 2];
        for _ in 0..rounds {
            for (i, side) in [Side::Rust, Side::Ours].into_iter().enumerate() {
                if side == Side::Rust || has_both(&row) {
                    let (time, _) = result(&row, side, states);
                    best[i] = best[i].min(time.as_nanos() as f64 / states as f64);
                }
            }
        }
        let [rust, ours] = best;
        if has_both(&row) {
            println!("| {} | {rust:.0} | {ours:.0} | {:.2} |", row.text, ours / rust);
        } else {
            println!("| {} | {rust:.0} | | |", row.text);
        }
    }
    let reads = || {
        let start = Instant::now();
        for _ in 0..1000 {
            black_box(Instant::now());
        }
        start.elapsed().as_nanos() as f64 / 1000.0
    };
    let clock = (0..rounds).map(|_| reads()).fold(f64::MAX, f64::min);
    println!("\nA clock read takes {clock:.0} ns; the Rust makes two for a message of ours.");
}

fn main() {
    let args: Vec<String> = std::env::args().skip(1).collect();
    let args: Vec<&str> = args.iter().map(String::as_str).collect();
    match args[..] {
        ["rows"] => {
            for r in rows() {
                println!("{}\t{}\t{}\t{}", r.name, r.states, r.messages, r.text);
            }
        }
        ["check"] => check(),
        ["time"] => time(40),
        ["time", rounds] => time(rounds.parse().expect("a number of rounds")),
        [name, side, n] => {
            let row = rows().into_iter().find(|r| r.name == name).expect("a row");
            let side = match side {
                "rust" => Side::Rust,
                "ours" => Side::Ours,
                _ => panic!("rust or ours"),
            };
            let n = n.parse().expect("a number of calls");
            // ends before anything is freed or looked at, since that would depend on n
            run(&row, side, row.states, n, &mut |_, _| std::process::exit(0));
        }
        _ => panic!("bench rows | check | time [ROUNDS] | ROW rust|ours N"),
    }
}
