//! Compares what both programs print on random inputs.

use crate::random::Random;
use crate::whole::process::Program;
use crate::whole::{program, random};
use std::collections::BTreeMap;

/// How often each number was refused; 0 stands for a deal.
pub type Counts = BTreeMap<u8, usize>;

/// Compares so many inputs; on the first difference it tells the input's number.
pub fn compare(rattle: &Program, count: usize, seed: u64) -> Result<Counts, String> {
    let mut random = Random::new(seed);
    let mut counts = Counts::new();
    for number in 0..count {
        let bytes = random::input(&mut random);
        let answer = program::answer(&bytes);
        let line = rattle.run(&bytes).written;
        if line != format!("{answer}\n").into_bytes() {
            let line = String::from_utf8_lossy(&line);
            return Err(format!("input {number}: {line}, not {answer}"));
        }
        *counts.entry(answer.outcome.err().unwrap_or(0)).or_default() += 1;
    }
    Ok(counts)
}
