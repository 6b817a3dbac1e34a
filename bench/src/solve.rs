//! The independent solver: the least ranks that any ranked controller has, by a nested fixpoint.

use crate::arena::{Arena, Seat};
use crate::bay::{BUFFER, NO_CONTROLLER, NO_SUCH_SIDE, Refusal, record_size};
use crate::bits::{Bits, ones};
use std::array;

/// For each phase a set of states.
type Phases = [Bits; 8];

/// Which positions a layer tries: those with a move into the layer before, or all that are not ranked yet.
#[derive(Clone, Copy, PartialEq, Eq)]
pub enum Method {
    Frontier,
    EveryLayer,
}

/// What a solution took.
#[derive(Clone, Copy, PartialEq, Eq, Debug)]
pub struct Solved {
    pub bound: u16,
    pub rounds: usize,
    pub layers: usize,
}

struct Solver<'a> {
    arena: &'a Arena,
    seat: &'a Seat,
    method: Method,
    /// The goals that are not given up.
    targets: Phases,
    ranked: Phases,
    /// Rank and choice of each position; only those of ranked positions count.
    entries: Vec<(u16, u8)>,
    rounds: usize,
    layers: usize,
}

/// Writes the solved record, or leaves the buffer as it was.
pub fn solve(
    arena: &Arena,
    seat: &Seat,
    method: Method,
    buffer: &mut [u8],
) -> Result<Solved, Refusal> {
    if !seat.suits(arena) {
        return Err(NO_SUCH_SIDE);
    }
    if buffer.len() != record_size(arena.states, seat.phases) {
        return Err(BUFFER);
    }
    let mut solver = Solver::new(arena, seat, method);
    solver.settle();
    if !solver.ranked[0].contains(arena.start) {
        return Err(NO_CONTROLLER);
    }
    let bound = solver.write(buffer);
    Ok(Solved {
        bound,
        rounds: solver.rounds,
        layers: solver.layers,
    })
}

/// Whether there is a ranked controller.
pub fn controls(arena: &Arena, seat: &Seat) -> bool {
    let mut solver = Solver::new(arena, seat, Method::Frontier);
    solver.settle();
    solver.ranked[0].contains(arena.start)
}

impl<'a> Solver<'a> {
    fn new(arena: &'a Arena, seat: &'a Seat, method: Method) -> Solver<'a> {
        let mut solver = Solver {
            arena,
            seat,
            method,
            targets: [Bits::EMPTY; 8],
            ranked: [Bits::EMPTY; 8],
            entries: vec![(0, 0); arena.states * seat.phases],
            rounds: 0,
            layers: 0,
        };
        solver.targets = solver.in_each_phase(arena.goals.minus(&arena.forbidden));
        solver
    }

    fn in_each_phase(&self, states: Bits) -> Phases {
        let phases = self.seat.phases;
        array::from_fn(|phase| if phase < phases { states } else { Bits::EMPTY })
    }

    /// Rounds until none gives up a goal.
    fn settle(&mut self) {
        loop {
            self.rounds += 1;
            self.attract();
            if !self.prune() {
                return;
            }
        }
    }

    /// Ranks all that is led to the targets, layer by layer.
    fn attract(&mut self) {
        let barred = self.arena.goals.or(&self.arena.forbidden);
        let mut open = self.in_each_phase(Bits::below(self.arena.states).minus(&barred));
        let mut fresh = self.targets;
        self.ranked = self.targets;
        for rank in 1.. {
            fresh = self.layer(rank, &open, &fresh);
            if fresh.iter().all(Bits::is_empty) {
                return;
            }
            self.layers += 1;
            open = array::from_fn(|phase| open[phase].minus(&fresh[phase]));
            self.ranked = array::from_fn(|phase| self.ranked[phase].or(&fresh[phase]));
        }
    }

    /// The positions that are led into the ranked ones, given that the last of these to come were fresh.
    fn layer(&mut self, rank: u16, open: &Phases, fresh: &Phases) -> Phases {
        let near = self.near(fresh);
        let mut layer = [Bits::EMPTY; 8];
        for phase in 0..self.seat.phases {
            let tried = match self.method {
                Method::Frontier => open[phase].and(&near[phase]),
                Method::EveryLayer => open[phase],
            };
            for state in tried.iter() {
                // the lowest signal that leads there leads to lower ranks alone: none of the same rank is in yet
                if let Some(choice) = self.first(state, phase) {
                    self.give(state, phase, rank, choice);
                    layer[phase].insert(state);
                }
            }
        }
        layer
    }

    /// For each phase the states that may have a move into the fresh positions.
    fn near(&self, fresh: &Phases) -> Phases {
        let into = |set: Bits| {
            let add = |all: Bits, state: usize| all.or(&self.arena.into[state]);
            set.iter().fold(Bits::EMPTY, add)
        };
        let before: Phases = array::from_fn(|phase| into(fresh[phase]));
        let add = |all: Bits, phase: usize| all.or(&before[phase]);
        array::from_fn(|phase| ones(self.seat.after[phase]).fold(Bits::EMPTY, add))
    }

    /// Gives up the targets that lead nowhere, and chooses for the others. Whether any was given up.
    fn prune(&mut self) -> bool {
        let mut pruned = false;
        for phase in 0..self.seat.phases {
            for state in self.targets[phase].iter() {
                match self.first(state, phase) {
                    Some(choice) => self.give(state, phase, 0, choice),
                    None => {
                        self.targets[phase].remove(state);
                        pruned = true;
                    }
                }
            }
        }
        pruned
    }

    /// The lowest promised signal that leads into the ranked positions.
    fn first(&self, state: usize, phase: usize) -> Option<usize> {
        ones(self.seat.promised[phase]).find(|own| self.leads(state, phase, *own))
    }

    /// Whether a signal leads into the ranked positions, whichever relied signal the partner shows.
    fn leads(&self, state: usize, phase: usize, own: usize) -> bool {
        ones(self.seat.relied[phase]).all(|partner| {
            let row = self.arena.row(state, own, partner);
            let next = self.seat.follow[phase][own][partner];
            !row.is_empty() && row.is_subset(&self.ranked[usize::from(next)])
        })
    }

    fn give(&mut self, state: usize, phase: usize, rank: u16, choice: usize) {
        self.entries[state * self.seat.phases + phase] = (rank, choice as u8);
    }

    /// Writes the record, and answers its bound.
    fn write(&self, buffer: &mut [u8]) -> u16 {
        let [low, high] = (self.arena.states as u16).to_le_bytes();
        buffer[..4].copy_from_slice(&[low, high, self.seat.phases as u8, self.arena.own as u8]);
        let (choices, ranks) = buffer[4..].split_at_mut(self.entries.len());
        let mut bound = 0;
        for (place, entry) in self.entries.iter().enumerate() {
            let (state, phase) = (place / self.seat.phases, place % self.seat.phases);
            let (mut rank, mut choice) = (u16::MAX, u8::MAX);
            if self.ranked[phase].contains(state) {
                (rank, choice) = *entry;
                bound = bound.max(rank);
            }
            choices[place] = choice;
            ranks[2 * place..][..2].copy_from_slice(&rank.to_le_bytes());
        }
        bound
    }
}
