//! Writes sheets.

use crate::bits::Bits;

/// A machine sheet of these moves, each a key and a target; those past 4,096 are left out.
pub fn sheet(
    signals: (usize, usize),
    start: usize,
    labels: &[u8],
    mut moves: Vec<(usize, usize)>,
) -> Vec<u8> {
    moves.sort_unstable();
    moves.dedup();
    moves.truncate(4096);
    let mut bytes = Vec::new();
    let put = |number: usize| (number as u16).to_le_bytes();
    bytes.extend(put(labels.len()));
    bytes.extend([signals.0 as u8, signals.1 as u8]);
    bytes.extend(put(start));
    bytes.extend(put(moves.len()));
    bytes.extend(labels);
    bytes.extend(moves.iter().flat_map(|it| put(it.0)));
    bytes.extend(moves.iter().flat_map(|it| put(it.1)));
    bytes
}

pub fn marks(forbidden: Bits, goals: Bits) -> Vec<u8> {
    forbidden.to_bytes().chain(goals.to_bytes()).collect()
}

/// A rule sheet; `next` has eight entries for each state of the automaton.
pub fn rule_sheet(accepting: u8, forbidden: u8, start: usize, next: &[u8]) -> Vec<u8> {
    let mut bytes = vec![(next.len() / 8) as u8, accepting, forbidden, start as u8];
    bytes.extend(next);
    bytes
}

/// A phase table that goes round the phases, whatever is shown.
pub fn round(phases: u8, first: u8, second: u8) -> Vec<u8> {
    let pairs = usize::from(first) * usize::from(second);
    let next = (0..phases).map(|phase| (phase + 1) % phases);
    let mut table = vec![phases, first, second];
    table.extend(next.flat_map(|next| std::iter::repeat_n(next, pairs)));
    table
}
