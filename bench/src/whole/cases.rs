//! The bays that are timed.

use crate::bits::Bits;
use crate::game::Machine;
use crate::random::Random;
use crate::sheets::{round, rule_sheet, sheet};
use crate::whole::input::Input;

pub fn all() -> Vec<(&'static str, Input)> {
    vec![
        ("whole: toggles", toggles()),
        ("whole: two lifts, 32 floors, 1 phase", lifts(1)),
        ("whole: two lifts, 32 floors, 2 phases", lifts(2)),
        ("whole: dense, 16 states, rule of 2", dense(16, 2)),
        ("whole: dense, 32 states, rule of 8", dense(32, 8)),
        ("whole: dense, 64 states, rule of 4", dense(64, 4)),
        ("whole: dense, 128 states, rule of 2", dense(128, 2)),
        ("whole: dense, 256 states, rule of 1", dense(256, 1)),
        ("whole: late deal", late()),
        ("whole: no deal, neither side hopeless", none()),
        ("whole: no deal, one side hopeless", hopeless()),
    ]
}

/// Both sides alike.
fn twins(machine: Vec<u8>, rule: Vec<u8>, table: Vec<u8>) -> Input {
    Input {
        machines: [machine.clone(), machine],
        rules: [rule.clone(), rule],
        table,
    }
}

fn toggles() -> Input {
    let machine = include_bytes!("../../../examples/toggle.machine").to_vec();
    let rule = include_bytes!("../../../examples/toggle.rule").to_vec();
    twins(machine, rule, round(1, 2, 2))
}

/// An automaton that awaits some labels in turn, each any of a few, and accepts when all have come.
fn turns(awaited: &[&[usize]]) -> Vec<u8> {
    let mut next = vec![0; 8 * awaited.len()];
    for (state, labels) in awaited.iter().enumerate() {
        next[8 * state..][..8].fill(state as u8);
        for label in *labels {
            next[8 * state + label] = ((state + 1) % awaited.len()) as u8;
        }
    }
    rule_sheet(1 << (awaited.len() - 1), 0, 0, &next)
}

/// Two lifts of 32 floors, whose rule counts two trips up and down.
fn lifts(phases: u8) -> Input {
    let lift = Machine::Lift {
        floors: 32,
        signals: 4,
    };
    let mut moves = Vec::new();
    lift.each_move(|it| moves.push(((it.state * 4 + it.own) * 4 + it.partner, it.next)));
    let labels: Vec<u8> = (0..lift.states()).map(|state| lift.label(state)).collect();
    let (top, bottom): (&[usize], &[usize]) = (&[3, 4], &[1, 2]);
    let rule = turns(&[top, bottom, top, bottom]);
    twins(sheet((4, 4), 0, &labels, moves), rule, round(phases, 4, 4))
}

/// Moves of these states among themselves, as many under each two of four signals as make so many in all.
fn thicket(
    random: &mut Random,
    states: std::ops::Range<usize>,
    count: usize,
) -> Vec<(usize, usize)> {
    let targets = (count / 16 / states.len()).min(states.len());
    let mut moves = Vec::new();
    for key in 16 * states.start..16 * states.end {
        let mut chosen = Bits::EMPTY;
        while chosen.iter().count() < targets {
            chosen.insert(states.start + random.below(states.len()));
        }
        moves.extend(chosen.iter().map(|target| (key, target)));
    }
    moves
}

/// Dense random machines with four signals each way, under one phase. The last own signal goes down some levels.
fn dense(states: usize, automaton: usize) -> Input {
    let mut random = Random::new(states as u64);
    let level = states / 16;
    let mut side = || {
        let mut moves = thicket(&mut random, 0..states, 4096.min(16 * states * states));
        for (key, target) in &mut moves {
            if *key / 4 % 4 == 3 && *key / 16 >= level {
                *target %= *key / 16 / level * level;
            }
        }
        let labels: Vec<u8> = (0..states).map(|it| u8::from(it < level)).collect();
        (
            sheet((4, 4), states - 1, &labels, moves),
            turns(&vec![&[1][..]; automaton]),
        )
    };
    let (first, second) = (side(), side());
    Input {
        machines: [first.0, second.0],
        rules: [first.1, second.1],
        table: round(1, 4, 4),
    }
}

/// Which partner's signal has no move, if any, at the last state of a ring.
type Bar = Option<usize>;

/// A ring of eight states, each of which goes on by one own signal in its phase, so that all are needed in both; and a thicket beside it.
fn ring(bar: Bar, seed: u64) -> (Vec<u8>, Vec<u8>) {
    let mut moves = thicket(&mut Random::new(seed), 8..128, 3840);
    for state in 0..8 {
        let key = (state * 4 + state / 2) * 4;
        let partners = (0..4).filter(|it| state < 7 || Some(*it) != bar);
        moves.extend(partners.map(|partner| (key + partner, (state + 1) % 8)));
    }
    let mut labels = vec![0; 128];
    labels[7] = 1;
    (sheet((4, 4), 0, &labels, moves), turns(&[&[1], &[0]]))
}

fn pair(first: Bar, second: Bar) -> Input {
    let (first, second) = (ring(first, 1), ring(second, 2));
    Input {
        machines: [first.0, second.0],
        rules: [first.1, second.1],
        table: round(2, 4, 4),
    }
}

/// Workable only where both promise all.
fn late() -> Input {
    pair(None, None)
}

/// Side 0 needs all its signals, and that side 1 does not show its last in phase 1; side 1 needs all its signals.
fn none() -> Input {
    pair(Some(3), None)
}

/// Side 1 never has a goal.
fn hopeless() -> Input {
    let mut input = pair(None, None);
    input.rules[1] = rule_sheet(0, 0, 0, &[0; 8]);
    input
}
