//! Times the solver against one written in Rust, and compares their answers.

mod arena;
mod bay;
mod bits;
mod cases;
mod clock;
mod compare;
mod game;
mod heap;
mod judge;
mod measure;
mod random;
mod rattle;
mod sheets;
mod solve;
mod whole;

use bay::Bay;
use measure::{Measured, Times, measure};
use std::process::ExitCode;

/// How many random bays are compared.
const BAYS: usize = 10_000;

fn main() -> ExitCode {
    // a word leaves only the rows whose names have it
    let word = std::env::args().nth(1).unwrap_or_default();
    match word.as_str() {
        "bay" => whole::program(),
        "solver" => both(rows(""), compare_answers()),
        "whole" => both(whole::rows("whole"), whole::compare()),
        "compare" => both(compare_answers(), whole::compare()),
        "" => [compare_answers(), whole::rows("whole"), whole::compare()]
            .into_iter()
            .fold(rows(""), both),
        word => both(rows(word), whole::rows(word)),
    }
}

/// Fails where either does.
fn both(first: ExitCode, second: ExitCode) -> ExitCode {
    if first == ExitCode::SUCCESS {
        second
    } else {
        first
    }
}

/// Times the solves whose names have a word.
fn rows(word: &str) -> ExitCode {
    let mut rows = bays();
    rows.retain(|row| row.0.contains(word));
    if !rows.is_empty() {
        heading();
    }
    rows.iter().for_each(|(name, bay)| row(name, bay));
    ExitCode::SUCCESS
}

fn compare_answers() -> ExitCode {
    match compare::compare(BAYS, 1) {
        Ok(counts) => {
            println!("\n{BAYS} random games compared, all equal");
            println!("how many by refusal, 0 for none: {counts:?}");
            ExitCode::SUCCESS
        }
        Err(what) => {
            println!("\nthe answers differ: {what}");
            ExitCode::FAILURE
        }
    }
}

/// The cases, and then two of them again as their positions grow.
fn bays() -> Vec<(&'static str, Bay)> {
    let mut bays = vec![
        ("a: toggle", cases::toggle()),
        ("b: lift, 32 floors, rule of 4", cases::lift(32, 1)),
        ("b: lift, 16 floors, rule of 8", cases::lift(16, 2)),
        ("c: dense, 2 by 2 signals", cases::dense(8, 2, 16)),
        ("c: dense, 4 by 4 signals", cases::dense(8, 4, 16)),
        ("d: chain of goals", cases::chain(8, 1)),
        ("d: chain, corridors of 15", cases::chain(8, 15)),
    ];
    let sizes = [1, 2, 4, 8];
    bays.extend(sizes.map(|phases| ("growth: dense, 2 by 2", cases::dense(phases, 2, 16))));
    bays.extend(sizes.map(|phases| ("growth: chain of goals", cases::chain(phases, 1))));
    bays
}

fn heading() {
    println!("Times of one solve are in microseconds. Ratios are Rattle's time by that of Rust;");
    println!(
        "'layers' is the ratio to Rust where that, too, tries every position in each layer.\n"
    );
    println!("{:90}snapshot included{:30}snapshot apart", "", "");
    let times = format!(
        "{:>12}{:>10}{:>9}{:>9}",
        "Rattle", "Rust", "ratio", "layers"
    );
    println!(
        "{:30}{:>7}{:>10}{:>7}{:>7}{:>13} |{times} |{times}",
        "case", "states", "positions", "rounds", "layers", "allocations",
    );
}

fn row(name: &str, bay: &Bay) {
    let it: Measured = measure(bay);
    let (rattle, rust) = it.allocations;
    println!(
        "{name:30}{:7}{:10}{:7}{:7}{:>13} |{} |{}",
        it.states,
        it.positions,
        it.solved.rounds,
        it.solved.layers,
        format!("{rattle}, {rust}"),
        times(&it.whole),
        times(&it.apart),
    );
}

fn times(it: &Times) -> String {
    format!(
        "{:12.2}{:10.2}{:9.2}{:9.2}",
        it.rattle / 1e3,
        it.rust / 1e3,
        it.rattle / it.rust,
        it.rattle / it.every_layer,
    )
}
