//! The search for the first deal under which both sides have controllers, pruned as the Rattle search is: a verdict at a candidate is
//! noted at all that it decides, before a candidate each side is tried with all its signals to promise, and who fails there is tried with
//! more and more of them.

use crate::arena::{Arena, Seat};
use crate::bay::Terms;
use crate::solve::controls;

pub struct Search<'a> {
    arenas: &'a [Arena; 2],
    table: &'a [u8],
    /// Each side's promises, ascending.
    promises: [Vec<u32>; 2],
    /// For each side and each candidate whether the side has a controller there, as far as is known.
    verdicts: [Vec<Option<bool>>; 2],
    /// How often each side was solved.
    pub solves: [usize; 2],
}

/// The most candidates that are searched.
const MOST: usize = 65_535;

/// A non-empty set of signals for each phase, ascending.
fn promises(phases: u8, signals: u8) -> Vec<u32> {
    (0..phases).fold(vec![0], |lower, phase| {
        let add = |set: u32| lower.iter().map(move |it| it | set << (4 * phase));
        (1..1 << signals).flat_map(add).collect()
    })
}

impl<'a> Search<'a> {
    /// A search, unless there are too many candidates.
    pub fn new(arenas: &'a [Arena; 2], table: &'a [u8]) -> Option<Search<'a>> {
        let [phases, signals0, signals1] = [table[0], table[1], table[2]];
        let many = |signals: u8| ((1_u64 << signals) - 1).pow(u32::from(phases));
        let count = many(signals0).checked_mul(many(signals1))?;
        if count > MOST as u64 {
            return None;
        }
        Some(Search {
            arenas,
            table,
            promises: [promises(phases, signals0), promises(phases, signals1)],
            verdicts: [vec![None; count as usize], vec![None; count as usize]],
            solves: [0; 2],
        })
    }

    /// The place of the first workable candidate.
    pub fn first_workable(&mut self) -> Option<usize> {
        (0..self.verdicts[0].len()).find(|place| self.workable(*place))
    }

    fn workable(&mut self, place: usize) -> bool {
        if self.fails(0, place) || self.fails(1, place) {
            return false;
        }
        let columns = self.promises[1].len();
        let (row, column) = (place / columns, place % columns);
        let last_row = self.promises[0].len() - 1;
        // who fails with all signals to promise fails in the whole column or row
        if self.wins(0, last_row * columns + column) {
            self.wins(1, row * columns + columns - 1);
        }
        [0, 1].into_iter().all(|side| {
            let won = self.wins(side, place);
            if !won {
                self.widen(side, place);
            }
            won
        })
    }

    /// Tries a side that fails at a place with all its signals in the first phase, then in two phases, and so on, until it does not fail.
    fn widen(&mut self, side: usize, place: usize) {
        let sets = (1 << self.table[1 + side]) - 1;
        let columns = self.promises[1].len();
        let (row, column) = (place / columns, place % columns);
        let mut block = 1;
        for _ in 0..self.table[0] {
            block *= sets;
            let last = |place: usize| place / block * block + block - 1;
            let wide = if side == 0 {
                last(row) * columns + column
            } else {
                row * columns + last(column)
            };
            if self.wins(side, wide) {
                return;
            }
        }
    }

    fn fails(&self, side: usize, place: usize) -> bool {
        self.verdicts[side][place] == Some(false)
    }

    fn wins(&mut self, side: usize, place: usize) -> bool {
        if let Some(won) = self.verdicts[side][place] {
            return won;
        }
        let seat = Seat::new(self.table, &self.deal(place), side as u8).expect("a deal");
        let won = controls(&self.arenas[side], &seat);
        self.solves[side] += 1;
        self.note(side, place, won);
        won
    }

    /// The deal at a place: each side relies on what the other promises.
    pub fn deal(&self, place: usize) -> [Terms; 2] {
        let [first, second] = self.at(place);
        let terms = |promise, reliance| Terms { promise, reliance };
        [terms(first, second), terms(second, first)]
    }

    fn at(&self, place: usize) -> [u32; 2] {
        let columns = self.promises[1].len();
        [
            self.promises[0][place / columns],
            self.promises[1][place % columns],
        ]
    }

    /// Notes a verdict at all candidates that it decides: who wins does so with more to promise and less to rely on, who fails does so
    /// with less to promise and more to rely on.
    fn note(&mut self, side: usize, place: usize, won: bool) {
        let [first, second] = self.at(place);
        let up = (side == 0) == won;
        let columns = self.promises[1].len();
        let rows = self.verdicts[side].chunks_mut(columns);
        for (row, promise0) in rows.zip(&self.promises[0]) {
            if ordered(up, first, *promise0) {
                for (verdict, promise1) in row.iter_mut().zip(&self.promises[1]) {
                    if ordered(!up, second, *promise1) {
                        *verdict = Some(won);
                    }
                }
            }
        }
    }
}

/// Whether the first set is in the second; or the second in the first, if it is not to go up.
fn ordered(up: bool, first: u32, second: u32) -> bool {
    first & second == if up { first } else { second }
}
