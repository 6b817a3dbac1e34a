//! Bays that take long: beside what decides a verdict each machine has a chain of goals, of which a solve gives up one in each round.

use crate::sheets::{round, rule_sheet, sheet};
use crate::whole::input::Input;
use std::collections::BTreeMap;
use std::iter::repeat_n;

const STATES: usize = 256;
const SIGNALS: usize = 4;

pub fn all() -> Vec<(&'static str, Input)> {
    vec![
        ("worst: chains, 3 phases", chains(3)),
        (
            "worst: differences, 3 phases, 1 by 4",
            differences(3, 1, 4, -3),
        ),
        (
            "worst: differences, 4 phases, 2 by 2",
            differences(4, 2, 2, 0),
        ),
        ("longest: chains, 4 phases", chains(4)),
        (
            "longest: differences, 4 phases, 1 by 4",
            differences(4, 1, 4, -4),
        ),
        (
            "longest: differences, 5 phases, 2 by 2",
            differences(5, 2, 2, 0),
        ),
        (
            "longest: differences, 2 phases, 4 by 4",
            differences(2, 4, 4, 0),
        ),
    ]
}

/// Moves by state, own signal and partner's signal.
struct Moves {
    own: usize,
    partner: usize,
    moves: Vec<(usize, usize)>,
}

impl Moves {
    fn new(own: usize, partner: usize) -> Moves {
        let moves = Vec::new();
        Moves {
            own,
            partner,
            moves,
        }
    }

    fn add(&mut self, state: usize, own: usize, partner: usize, next: usize) {
        let key = (state * self.own + own) * self.partner + partner;
        self.moves.push((key, next));
    }

    /// A sheet with these moves, and a chain of the states from one on.
    fn sheet(mut self, first: usize) -> Vec<u8> {
        for state in first..STATES - 1 {
            for (own, partner) in pairs(self.own, self.partner) {
                self.add(state, own, partner, state + 1);
            }
        }
        sheet((self.own, self.partner), 0, &[0; STATES], self.moves)
    }
}

fn pairs(own: usize, partner: usize) -> impl Iterator<Item = (usize, usize)> {
    (0..own).flat_map(move |it| repeat_n(it, partner).zip(0..))
}

/// Every state is a goal, and a controller has only to go on.
fn bay(machines: [Vec<u8>; 2], table: Vec<u8>) -> Input {
    let rule = rule_sheet(1, 0, 0, &[0; 8]);
    Input {
        machines,
        rules: [rule.clone(), rule],
        table,
    }
}

/// One signal of side 0, four of side 1. Side 0 always has a controller, and side 1 only where it promises all its signals: each candidate is solved for both.
fn chains(phases: usize) -> Input {
    let mut first = Moves::new(1, SIGNALS);
    (0..SIGNALS).for_each(|partner| first.add(0, 0, partner, 0));
    let steps = phases * SIGNALS;
    let mut second = Moves::new(SIGNALS, 1);
    for step in 0..steps {
        second.add(step, step / phases, 0, (step + 1) % steps);
    }
    let table = round(phases as u8, 1, SIGNALS as u8);
    bay([first.sheet(1), second.sheet(steps)], table)
}

/// What a side has to do: in each round of the phases it may show a signal of its own number there and its partner may do the same, as many
/// rounds as there are signals; shown more often than the partner by so many, it goes on, else it is stuck.
fn difference(phases: usize, own: usize, partner: usize, least: i32) -> Vec<u8> {
    let steps = phases * own.max(partner);
    let mut moves = Moves::new(own, partner);
    let mut numbers = BTreeMap::from([((0, 0), 0)]);
    let mut open = vec![(0, 0)];
    while let Some((step, count)) = open.pop() {
        let round = step / phases;
        for (a, b) in pairs(own, partner) {
            let mut next = (
                step + 1,
                count + i32::from(a == round) - i32::from(b == round),
            );
            if next.0 == steps {
                if next.1 < least {
                    continue;
                }
                next = (0, 0);
            }
            let fresh = numbers.len();
            let number = *numbers.entry(next).or_insert_with(|| {
                open.push(next);
                fresh
            });
            moves.add(numbers[&(step, count)], a, b, number);
        }
    }
    moves.sheet(numbers.len())
}

/// Side 0 has a controller where it promises more signals than side 1 by so many, side 1 where it does not: no verdict near the border
/// decides another.
fn differences(phases: usize, first: usize, second: usize, least: i32) -> Input {
    let machines = [
        difference(phases, first, second, least),
        difference(phases, second, first, 1 - least),
    ];
    bay(machines, round(phases as u8, first as u8, second as u8))
}
