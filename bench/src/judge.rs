//! Judges the choices of a record by their definition, from its final ranks alone.

use crate::arena::{Arena, Seat};
use crate::bits::ones;

/// A solved record, as bytes, and what it was solved for.
pub struct Judge<'a> {
    pub arena: &'a Arena,
    pub seat: &'a Seat,
    pub record: &'a [u8],
}

const NO_RANK: u16 = u16::MAX;

impl Judge<'_> {
    /// Whether each position that has a rank has the lowest signal that serves there.
    pub fn lowest(&self) -> bool {
        let places = 0..self.arena.states * self.seat.phases;
        places.into_iter().all(|place| {
            let (state, phase) = (place / self.seat.phases, place % self.seat.phases);
            let serving = |own: &usize| self.serves(state, phase, *own);
            let lowest = ones(self.seat.promised[phase]).find(serving);
            self.rank(state, phase) == NO_RANK
                || lowest == Some(usize::from(self.record[4 + place]))
        })
    }

    fn rank(&self, state: usize, phase: usize) -> u16 {
        let ranks = &self.record[4 + self.arena.states * self.seat.phases..];
        let place = 2 * (state * self.seat.phases + phase);
        u16::from_le_bytes([ranks[place], ranks[place + 1]])
    }

    /// Whether under each signal relied on there is a next state, and each is ranked, and lower unless this is a goal.
    fn serves(&self, state: usize, phase: usize, own: usize) -> bool {
        let below = if self.arena.goals.contains(state) {
            NO_RANK
        } else {
            self.rank(state, phase)
        };
        ones(self.seat.relied[phase]).all(|partner| {
            let row = self.arena.row(state, own, partner);
            let next = usize::from(self.seat.follow[phase][own][partner]);
            !row.is_empty() && row.iter().all(|to| self.rank(to, next) < below)
        })
    }
}
