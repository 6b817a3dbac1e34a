//! Times both programs, case by case.

use crate::whole::input::Input;
use crate::whole::process::{Program, Ran};
use crate::whole::program;
use std::time::Duration;

/// How often each program is run, as long as all of its runs take no longer than this.
const RUNS: usize = 15;
const LONG: Duration = Duration::from_secs(3);

pub fn heading() {
    println!("Times of the whole program are in milliseconds, of user and system together.\n");
    println!(
        "{:48}{:>11}{:>15}{:>12}{:>12}{:>8}  line",
        "case", "candidates", "solves", "Rattle", "Rust", "ratio"
    );
}

/// Whether both programs print the same.
pub fn row(programs: &[Program; 2], name: &str, input: &Input) -> bool {
    let bytes = input.bytes();
    let answer = program::answer(&bytes);
    let [rattle, rust] = least(programs, &bytes);
    let equal = rattle.written == rust.written;
    let line = String::from_utf8_lossy(&rattle.written);
    println!(
        "{name:48}{:>11}{:>15}{:12.2}{:12.2}{:8.2}  {}{}",
        candidates(&input.table),
        format!("{}, {}", answer.solves[0], answer.solves[1]),
        rattle.took.as_secs_f64() * 1e3,
        rust.took.as_secs_f64() * 1e3,
        rattle.took.as_secs_f64() / rust.took.as_secs_f64(),
        line.trim_end(),
        if equal { "" } else { ", BUT RUST DIFFERS" },
    );
    equal
}

fn candidates(table: &[u8]) -> u64 {
    let many = |signals: u8| ((1_u64 << signals) - 1).pow(u32::from(table[0]));
    many(table[1]) * many(table[2])
}

/// The quickest run of each, of runs in turn.
fn least(programs: &[Program; 2], bytes: &[u8]) -> [Ran; 2] {
    let run = || [0, 1].map(|it: usize| programs[it].run(bytes));
    let mut best = run();
    for turn in 1..RUNS as u32 {
        if best.iter().any(|it| turn * it.took >= LONG) {
            break;
        }
        for (best, ran) in best.iter_mut().zip(run()) {
            best.took = best.took.min(ran.took);
        }
    }
    best
}
