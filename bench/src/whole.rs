//! The whole bay program, beside one written in Rust: each is run as a process, on the same inputs.

mod cases;
mod compare;
mod input;
mod lawful;
mod process;
mod program;
mod random;
mod search;
mod table;
mod worst;

use std::process::ExitCode;

/// How many random inputs are compared.
const INPUTS: usize = 4_000;

/// This program is the Rust bay program, too.
pub fn program() -> ExitCode {
    match program::run() {
        Ok(()) => ExitCode::SUCCESS,
        Err(_) => ExitCode::FAILURE,
    }
}

/// Times the cases whose names have a word. Fails where the programs print different lines.
pub fn rows(word: &str) -> ExitCode {
    let programs = process::both();
    let cases = cases::all().into_iter().chain(worst::all());
    let cases: Vec<_> = cases.filter(|case| case.0.contains(word)).collect();
    if !cases.is_empty() {
        table::heading();
    }
    let equal: Vec<bool> = cases
        .iter()
        .map(|(name, input)| table::row(&programs, name, input))
        .collect();
    ExitCode::from(u8::from(equal.contains(&false)))
}

pub fn compare() -> ExitCode {
    let [rattle, _] = process::both();
    match compare::compare(&rattle, INPUTS, 1) {
        Ok(counts) => {
            println!("\n{INPUTS} random inputs compared, all lines equal");
            println!("how many by refusal, 0 for a deal: {counts:?}");
            ExitCode::SUCCESS
        }
        Err(what) => {
            println!("\nthe lines differ: {what}");
            ExitCode::FAILURE
        }
    }
}
