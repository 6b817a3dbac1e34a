//! Random bays: mostly small, of every kind, with and without faults.

use crate::bay::{Bay, Layer, Machine, Terms};
use crate::sheets::{marks, rule_sheet, sheet};

/// A small generator of numbers, the same for each seed.
pub struct Random(u64);

impl Random {
    pub fn new(seed: u64) -> Random {
        Random(seed | 1)
    }

    pub fn next(&mut self) -> u64 {
        self.0 ^= self.0 >> 12;
        self.0 ^= self.0 << 25;
        self.0 ^= self.0 >> 27;
        self.0.wrapping_mul(0x2545_F491_4F6C_DD1D)
    }

    pub fn below(&mut self, bound: usize) -> usize {
        ((self.next() >> 32) as usize) % bound
    }

    /// True once in so many times.
    pub fn once_in(&mut self, times: usize) -> bool {
        self.below(times) == 0
    }

    pub fn byte(&mut self) -> u8 {
        self.next() as u8
    }

    /// A set of signals that is not empty.
    fn signals(&mut self, count: usize) -> u32 {
        1 + self.below((1 << count) - 1) as u32
    }
}

/// A bay, and how long the buffer is beyond what its record needs, or short of that.
pub fn bay(random: &mut Random) -> (Bay, isize) {
    let (machine, states, signals) = machine(random);
    let layer = layer(random, states);
    let side = if random.once_in(40) {
        random.byte()
    } else {
        random.below(2) as u8
    };
    let (mut first, mut second) = if side == 0 {
        signals
    } else {
        (signals.1, signals.0)
    };
    if random.once_in(40) {
        (first, second) = (1 + random.below(4), 1 + random.below(4));
    }
    let phases = 1 + random.below(8);
    let mut table = vec![phases as u8, first as u8, second as u8];
    table.extend((0..phases * first * second).map(|_| random.below(phases) as u8));
    let terms = terms(random, phases, first, second);
    let off = if random.once_in(40) {
        random.below(9) as isize - 4
    } else {
        0
    };
    let bay = Bay {
        machine,
        layer,
        table,
        terms,
        side,
    };
    (bay, off)
}

fn machine(random: &mut Random) -> (Machine, usize, (usize, usize)) {
    if random.once_in(4) {
        let kinds = if random.once_in(20) { 31 } else { 8 };
        let floors = 2 + random.below(kinds);
        let signals = 2 + random.below(3);
        let (floors, count) = (floors as u8, signals as u8);
        let lift = Machine::Lift {
            floors,
            signals: count,
        };
        return (lift, 2 * usize::from(floors), (4, signals));
    }
    let most = if random.once_in(4000) {
        256
    } else if random.once_in(100) {
        64
    } else {
        20
    };
    let states = 1 + random.below(most);
    let signals = (1 + random.below(4), 1 + random.below(4));
    let bytes = machine_sheet(random, states, signals);
    (Machine::Sheet(bytes), states, signals)
}

pub fn machine_sheet(random: &mut Random, states: usize, signals: (usize, usize)) -> Vec<u8> {
    let moves = moves(random, states, signals);
    let labels: Vec<u8> = (0..states).map(|_| random.below(8) as u8).collect();
    let start = random.below(states);
    sheet(signals, start, &labels, moves)
}

/// Sparse or dense, with few or many keys that have no move at all.
fn moves(random: &mut Random, states: usize, signals: (usize, usize)) -> Vec<(usize, usize)> {
    let width = [1, 1, 2, 3, states][random.below(5)];
    let gaps = [1000, 1000, 50, 6][random.below(4)];
    let mut moves = Vec::new();
    for key in 0..states * signals.0 * signals.1 {
        if !random.once_in(gaps) {
            for _ in 0..1 + random.below(width) {
                moves.push((key, random.below(states)));
            }
        }
    }
    moves
}

fn layer(random: &mut Random, states: usize) -> Layer {
    let (goals, forbidden) = (1 + random.below(6), 3 + random.below(40));
    if random.once_in(2) {
        let kinds: Vec<usize> = (0..states)
            .map(|_| {
                if random.once_in(goals) {
                    2
                } else {
                    usize::from(random.once_in(forbidden))
                }
            })
            .collect();
        let of = |kind: usize| (0..states).filter(|state| kinds[*state] == kind).collect();
        return Layer::Marks(marks(of(1), of(2)));
    }
    Layer::Rule(rule(random, states))
}

/// A rule for a machine of so many states; sometimes a label is forbidden.
pub fn rule(random: &mut Random, states: usize) -> Vec<u8> {
    let count = 1 + random.below(8.min(256 / states));
    let accepting = random.byte() & ((1u16 << count) - 1) as u8;
    let forbidden = if random.once_in(3) {
        1 << random.below(8)
    } else {
        0
    };
    let next: Vec<u8> = (0..8 * count).map(|_| random.below(count) as u8).collect();
    rule_sheet(accepting, forbidden, random.below(count), &next)
}

/// Mostly terms that agree: the promises, and reliances that hold at least the other's promise.
fn terms(random: &mut Random, phases: usize, first: usize, second: usize) -> [Terms; 2] {
    let mut set = |count| (0..phases).fold(0, |set, p| set | random.signals(count) << (4 * p));
    let (promise0, promise1) = (set(first), set(second));
    let (more0, more1) = (set(second), set(first));
    let mut terms = [
        Terms {
            promise: promise0,
            reliance: promise1,
        },
        Terms {
            promise: promise1,
            reliance: promise0,
        },
    ];
    if random.once_in(2) {
        terms[0].reliance |= more0;
        terms[1].reliance |= more1;
    }
    if random.once_in(40) {
        terms[random.below(2)].reliance = if random.once_in(2) {
            more0
        } else {
            random.next() as u32
        };
    }
    terms
}
