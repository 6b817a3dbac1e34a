//! The games that are timed.

use crate::bay::{Bay, Layer, Machine, Terms};
use crate::bits::Bits;
use crate::random::Random;
use crate::sheets::{marks, round, rule_sheet, sheet};

/// Two states that change places when both sides show signal 1; entering state 1 is the goal.
pub fn toggle() -> Bay {
    let terms = Terms {
        promise: 2,
        reliance: 2,
    };
    Bay {
        machine: Machine::Sheet(include_bytes!("../../examples/toggle.machine").to_vec()),
        layer: Layer::Rule(include_bytes!("../../examples/toggle.rule").to_vec()),
        table: vec![1, 2, 2, 0, 0, 0, 0],
        terms: [terms; 2],
        side: 0,
    }
}

/// Signals that are the same in each phase, as one number.
fn each_phase(phases: usize, signals: u32) -> u32 {
    (0..phases).fold(0, |set, phase| set | signals << (4 * phase))
}

/// The terms of two sides that rely on just what the other promises.
fn mirrored(own: u32, partner: u32) -> [Terms; 2] {
    let side = |promise, reliance| Terms { promise, reliance };
    [side(own, partner), side(partner, own)]
}

/// A lift that has to carry a load up and come back, so often before the automaton accepts; only in phase 0 the partner is sure to help.
pub fn lift(floors: u8, trips: usize) -> Bay {
    let phases = 8;
    let own = each_phase(phases, 15);
    let partner = each_phase(phases, 3) & !1;
    // bottom loaded, top loaded, top empty, bottom empty, in turn
    let awaited: Vec<usize> = [2, 4, 3, 1].repeat(trips);
    let mut next = vec![0; 8 * awaited.len()];
    for (state, label) in awaited.iter().enumerate() {
        next[8 * state..][..8].fill(state as u8);
        next[8 * state + label] = ((state + 1) % awaited.len()) as u8;
    }
    let accepting = 1 << (awaited.len() - 1);
    Bay {
        machine: Machine::Lift { floors, signals: 2 },
        layer: Layer::Rule(rule_sheet(accepting, 0, 0, &next)),
        table: round(phases as u8, 4, 2),
        terms: mirrored(own, partner),
        side: 0,
    }
}

/// 256 states on levels, 4,096 moves. The last own signal goes down some levels, whatever the partner shows; the others go anywhere.
pub fn dense(phases: usize, signals: usize, level: usize) -> Bay {
    let mut random = Random::new(4096);
    let targets = 4096 / 256 / signals / signals;
    let mut moves = Vec::new();
    for key in 0..256 * signals * signals {
        let state = key / signals / signals;
        let down = key / signals % signals == signals - 1 && state >= level;
        let bound = if down { state / level * level } else { 256 };
        let mut chosen = Bits::EMPTY;
        while chosen.iter().count() < targets {
            chosen.insert(random.below(bound));
        }
        moves.extend(chosen.iter().map(|target| (key, target)));
    }
    let mut table = vec![phases as u8, signals as u8, signals as u8];
    table.extend((0..phases * signals * signals).map(|_| random.below(phases) as u8));
    let all = each_phase(phases, (1 << signals) - 1);
    let terms = Terms {
        promise: all,
        reliance: all,
    };
    Bay {
        machine: Machine::Sheet(sheet((signals, signals), 255, &[0; 256], moves)),
        layer: Layer::Marks(marks(Bits::EMPTY, Bits::below(level))),
        table,
        terms: [terms; 2],
        side: 0,
    }
}

/// A chain through the states and then the phases, with a goal before each corridor of some states, and a dead end. The last goal
/// leads nowhere and is given up; then nothing leads on from the corridor before it, so that the goal before that one is given up,
/// and so on: a round for each goal. The start is a goal by itself.
pub fn chain(phases: usize, corridor: usize) -> Bay {
    let start = 255;
    let last = 254 / (corridor + 1) * (corridor + 1) - 1;
    let key = |state: usize, own: usize, partner: usize| 4 * state + 2 * own + partner;
    let mut moves = Vec::new();
    for partner in 0..2 {
        moves.extend((0..last).map(|state| (key(state, 0, partner), state + 1)));
        moves.push((key(last, 1, partner), 0));
        moves.push((key(start, 0, partner), start));
    }
    let goals = (0..last).filter(|state| state % (corridor + 1) == 0);
    let goals = goals.chain([start]).collect();
    // own signal 1 leads to the next phase, where there is one
    let mut table = vec![phases as u8, 2, 2];
    let next = |phase: usize| [phase, phase, phase + 1, phase + 1];
    table.extend(
        (0..phases)
            .flat_map(next)
            .map(|it| it.min(phases - 1) as u8),
    );
    let partner = each_phase(phases, 3);
    let own = partner & !(2 << (4 * (phases - 1)));
    Bay {
        machine: Machine::Sheet(sheet((2, 2), start, &[0; 256], moves)),
        layer: Layer::Marks(marks(Bits::EMPTY, goals)),
        table,
        terms: mirrored(own, partner),
        side: 0,
    }
}
