//! What a solver works on: the moves of a game as sets, and what a side may show and relies on.

use crate::bay::{Bay, NO_SUCH_SIDE, NOT_TERMS, Refusal, TOO_FAR, Terms};
use crate::bits::{Bits, ones};
use crate::game::{Game, Layer, Move, Rule};

/// A game's snapshot.
pub struct Arena {
    pub states: usize,
    pub own: usize,
    pub partner: usize,
    pub start: usize,
    /// The next states under each key, (state × own + signal) × partner + signal.
    rows: Vec<Bits>,
    /// The states with a move to a state, under whichever signals.
    pub into: Vec<Bits>,
    pub forbidden: Bits,
    pub goals: Bits,
}

impl Arena {
    pub fn new(game: &Game) -> Arena {
        match &game.layer {
            Layer::Marks { forbidden, goals } => {
                let mut arena = Arena::empty(game, 1);
                game.machine.each_move(|it| arena.add(it));
                (arena.forbidden, arena.goals) = (*forbidden, *goals);
                arena
            }
            Layer::Rule(rule) => Arena::watched(game, rule),
        }
    }

    fn empty(game: &Game, factor: usize) -> Arena {
        let states = game.machine.states() * factor;
        let (own, partner) = game.machine.signals();
        Arena {
            states,
            own,
            partner,
            start: game.machine.start(),
            rows: vec![Bits::EMPTY; states * own * partner],
            into: vec![Bits::EMPTY; states],
            forbidden: Bits::EMPTY,
            goals: Bits::EMPTY,
        }
    }

    /// The product with an automaton, which reads the label of the state entered.
    fn watched(game: &Game, rule: &Rule) -> Arena {
        let (machine, count) = (&game.machine, rule.states);
        let mut arena = Arena::empty(game, count);
        machine.each_move(|it| {
            let label = machine.label(it.next);
            for q in 0..count {
                arena.add(Move {
                    state: it.state * count + q,
                    next: it.next * count + rule.after(q, label),
                    ..it
                });
            }
        });
        let start = machine.start();
        arena.start = start * count + rule.after(rule.start, machine.label(start));
        let forbidden = |state: &usize| rule.forbidden >> machine.label(state / count) & 1 == 1;
        let accepting = |state: &usize| rule.accepting >> (state % count) & 1 == 1;
        arena.forbidden = (0..arena.states).filter(forbidden).collect();
        arena.goals = (0..arena.states).filter(accepting).collect();
        arena
    }

    fn add(&mut self, it: Move) {
        let key = (it.state * self.own + it.own) * self.partner + it.partner;
        self.rows[key].insert(it.next);
        self.into[it.next].insert(it.state);
    }

    pub fn row(&self, state: usize, own: usize, partner: usize) -> &Bits {
        &self.rows[(state * self.own + own) * self.partner + partner]
    }
}

/// A side's place at a bay: its signals as bits of words, by phase.
pub struct Seat {
    pub phases: usize,
    signals: (usize, usize),
    pub promised: [u64; 8],
    pub relied: [u64; 8],
    /// The phase after a phase, the side's signal and its partner's.
    pub follow: [[[u8; 4]; 4]; 8],
    /// The phases that can come after a phase, as bits.
    pub after: [u64; 8],
}

impl Seat {
    /// A seat at a bay, unless its terms make no deal or there is no such side.
    pub fn read(bay: &Bay) -> Result<Seat, Refusal> {
        Seat::new(&bay.table, &bay.terms, bay.side)
    }

    pub fn new(table: &[u8], deal: &[Terms; 2], side: u8) -> Result<Seat, Refusal> {
        let signals = (usize::from(table[1]), usize::from(table[2]));
        let phases = usize::from(table[0]);
        agree(deal, phases, signals)?;
        let (terms, signals) = match side {
            0 => (deal[0], signals),
            1 => (deal[1], (signals.1, signals.0)),
            _ => return Err(NO_SUCH_SIDE),
        };
        let mut seat = Seat {
            phases,
            signals,
            promised: std::array::from_fn(|phase| nibble(terms.promise, phase)),
            relied: std::array::from_fn(|phase| nibble(terms.reliance, phase)),
            follow: [[[0; 4]; 4]; 8],
            after: [0; 8],
        };
        seat.fill(table, side);
        Ok(seat)
    }

    fn fill(&mut self, table: &[u8], side: u8) {
        for phase in 0..self.phases {
            for own in 0..self.signals.0 {
                for partner in 0..self.signals.1 {
                    let place = if side == 0 {
                        (phase * self.signals.0 + own) * self.signals.1 + partner
                    } else {
                        (phase * self.signals.1 + partner) * self.signals.0 + own
                    };
                    self.follow[phase][own][partner] = table[3 + place];
                }
            }
            for own in ones(self.promised[phase]) {
                for partner in ones(self.relied[phase]) {
                    self.after[phase] |= 1 << self.follow[phase][own][partner];
                }
            }
        }
    }

    pub fn suits(&self, arena: &Arena) -> bool {
        self.signals == (arena.own, arena.partner)
    }
}

/// The signals of one phase.
fn nibble(set: u32, phase: usize) -> u64 {
    u64::from(set >> (4 * phase) & 15)
}

/// Whether a set has some signals in each phase, and none that are not there.
fn described(set: u32, phases: usize, signals: usize) -> bool {
    let full = |phase| nibble(set, phase) != 0 && nibble(set, phase) >> signals == 0;
    (0..phases).all(full) && (phases..8).all(|phase| nibble(set, phase) == 0)
}

/// Refuses terms that are not as described, then a promise that the other side does not rely on.
fn agree(terms: &[Terms; 2], phases: usize, signals: (usize, usize)) -> Result<(), Refusal> {
    let [first, second] = terms;
    let fits = |terms: &Terms, own, partner| {
        described(terms.promise, phases, own) && described(terms.reliance, phases, partner)
    };
    if !fits(first, signals.0, signals.1) || !fits(second, signals.1, signals.0) {
        return Err(NOT_TERMS);
    }
    let kept = first.promise & !second.reliance == 0 && second.promise & !first.reliance == 0;
    if kept { Ok(()) } else { Err(TOO_FAR) }
}
