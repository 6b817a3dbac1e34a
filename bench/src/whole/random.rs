//! Random inputs: small bays, and damaged ones.

use crate::random::{Random, machine_sheet, rule};
use crate::whole::input::Input;

pub fn input(random: &mut Random) -> Vec<u8> {
    let mut input = bay(random);
    if random.once_in(60) {
        // past what is read, with lengths that fit
        input.rules[random.below(2)].resize(40_000, 0);
    }
    if random.once_in(4) {
        let part = random.below(5);
        damage(random, part_of(&mut input, part));
    }
    let mut bytes = input.bytes();
    if random.once_in(15) {
        damage(random, &mut bytes);
    }
    bytes
}

fn part_of(input: &mut Input, part: usize) -> &mut Vec<u8> {
    match part {
        0 | 1 => &mut input.machines[part],
        2 | 3 => &mut input.rules[part - 2],
        _ => &mut input.table,
    }
}

fn bay(random: &mut Random) -> Input {
    let phases = 1 + [1, 2, 3, 8].map(|most| random.below(most))[random.below(4)];
    let signals = (1 + random.below(4), 1 + random.below(4));
    let mut second = (signals.1, signals.0);
    if random.once_in(40) {
        second = signals;
    }
    let most = if random.once_in(20) { 60 } else { 12 };
    let sizes = [(); 2].map(|()| 1 + random.below(most));
    let machines = [
        machine_sheet(random, sizes[0], signals),
        machine_sheet(random, sizes[1], second),
    ];
    let mut table = vec![phases as u8, signals.0 as u8, signals.1 as u8];
    let entries = phases * signals.0 * signals.1;
    table.extend((0..entries).map(|_| random.below(phases) as u8));
    Input {
        machines,
        rules: sizes.map(|states| rule(random, states)),
        table,
    }
}

/// Changes a byte or a bit, or the length.
fn damage(random: &mut Random, bytes: &mut Vec<u8>) {
    let early = random.below(bytes.len().min(12) + 1);
    let place = [early, random.below(bytes.len() + 1)][random.below(2)];
    match (random.below(5), bytes.get_mut(place)) {
        (0, _) => bytes.truncate(place),
        (1, _) => bytes.push(random.byte()),
        (2, Some(byte)) => *byte = random.byte(),
        (3, Some(byte)) => *byte ^= 1 << random.below(8),
        (_, Some(byte)) => *byte = byte.wrapping_add(1),
        (_, None) => bytes.clear(),
    }
}
