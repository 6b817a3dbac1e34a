//! The machines and layers of the independent solver, read from lawful sheets.

use crate::bay::{self, Bay};
use crate::bits::Bits;

/// A machine with what watches or marks it, as it was loaded: the moves are not worked out yet.
pub struct Game {
    pub machine: Machine,
    pub layer: Layer,
}

pub enum Machine {
    Sheet(Sheet),
    Lift { floors: usize, signals: usize },
}

pub struct Sheet {
    pub states: usize,
    pub own: usize,
    pub partner: usize,
    pub start: usize,
    pub labels: Vec<u8>,
    pub moves: Vec<Move>,
}

#[derive(Clone, Copy)]
pub struct Move {
    pub state: usize,
    pub own: usize,
    pub partner: usize,
    pub next: usize,
}

pub enum Layer {
    Marks { forbidden: Bits, goals: Bits },
    Rule(Rule),
}

/// An automaton over labels; the product's state is state × states of the automaton + state of the automaton.
pub struct Rule {
    pub states: usize,
    pub accepting: u8,
    pub forbidden: u8,
    pub start: usize,
    pub next: Vec<u8>,
}

impl Game {
    pub fn read(bay: &Bay) -> Game {
        let machine = match &bay.machine {
            bay::Machine::Sheet(bytes) => Machine::Sheet(Sheet::read(bytes)),
            bay::Machine::Lift { floors, signals } => Machine::Lift {
                floors: usize::from(*floors),
                signals: usize::from(*signals),
            },
        };
        let layer = match &bay.layer {
            bay::Layer::Marks(bytes) => Layer::Marks {
                forbidden: Bits::from_bytes(&bytes[..32]),
                goals: Bits::from_bytes(&bytes[32..]),
            },
            bay::Layer::Rule(bytes) => Layer::Rule(Rule::read(bytes)),
        };
        Game { machine, layer }
    }

    /// The machine of a sheet, watched by the automaton of a rule sheet.
    pub fn watched(machine: &[u8], rule: &[u8]) -> Game {
        Game {
            machine: Machine::Sheet(Sheet::read(machine)),
            layer: Layer::Rule(Rule::read(rule)),
        }
    }
}

fn pair(bytes: &[u8]) -> usize {
    usize::from(u16::from_le_bytes([bytes[0], bytes[1]]))
}

impl Sheet {
    fn read(bytes: &[u8]) -> Sheet {
        let (states, own, partner) = (pair(bytes), usize::from(bytes[2]), usize::from(bytes[3]));
        let (labels, moves) = bytes[8..].split_at(states);
        let (keys, targets) = moves.split_at(2 * pair(&bytes[6..]));
        let read = |(key, target)| {
            let key = pair(key);
            Move {
                state: key / partner / own,
                own: key / partner % own,
                partner: key % partner,
                next: pair(target),
            }
        };
        Sheet {
            states,
            own,
            partner,
            start: pair(&bytes[4..]),
            labels: labels.to_vec(),
            moves: keys.chunks(2).zip(targets.chunks(2)).map(read).collect(),
        }
    }
}

impl Rule {
    fn read(bytes: &[u8]) -> Rule {
        Rule {
            states: usize::from(bytes[0]),
            accepting: bytes[1],
            forbidden: bytes[2],
            start: usize::from(bytes[3]),
            next: bytes[4..].to_vec(),
        }
    }

    pub fn after(&self, state: usize, label: u8) -> usize {
        usize::from(self.next[8 * state + usize::from(label)])
    }
}

impl Machine {
    pub fn states(&self) -> usize {
        match self {
            Machine::Sheet(sheet) => sheet.states,
            Machine::Lift { floors, .. } => 2 * floors,
        }
    }

    pub fn signals(&self) -> (usize, usize) {
        match self {
            Machine::Sheet(sheet) => (sheet.own, sheet.partner),
            Machine::Lift { signals, .. } => (4, *signals),
        }
    }

    pub fn start(&self) -> usize {
        match self {
            Machine::Sheet(sheet) => sheet.start,
            Machine::Lift { .. } => 0,
        }
    }

    pub fn label(&self, state: usize) -> u8 {
        match self {
            Machine::Sheet(sheet) => sheet.labels[state],
            Machine::Lift { .. } if state < 2 => 1 + state as u8,
            Machine::Lift { floors, .. } if state >= 2 * floors - 2 => {
                3 + (state - (2 * floors - 2)) as u8
            }
            Machine::Lift { .. } => 0,
        }
    }

    pub fn each_move(&self, take: impl FnMut(Move)) {
        match self {
            Machine::Sheet(sheet) => sheet.moves.iter().copied().for_each(take),
            Machine::Lift { floors, signals } => lift_moves(*floors, *signals, take),
        }
    }
}

/// Signal 0 stays; 1 goes up, and an empty lift may coast up two floors; 2 goes down; 3 flips the load at an end if the partner shows 1.
fn lift_moves(floors: usize, signals: usize, mut take: impl FnMut(Move)) {
    for state in 0..2 * floors {
        let (floor, load) = (state / 2, state % 2);
        let at_end = floor == 0 || floor == floors - 1;
        for partner in 0..signals {
            let possible = [
                (0, Some(state)),
                (1, (floor + 1 < floors).then_some(state + 2)),
                (1, (floor + 2 < floors && load == 0).then_some(state + 4)),
                (2, state.checked_sub(2)),
                (3, (at_end && partner == 1).then_some(state ^ 1)),
            ];
            for (own, next) in possible {
                if let Some(next) = next {
                    take(Move {
                        state,
                        own,
                        partner,
                        next,
                    });
                }
            }
        }
    }
}
