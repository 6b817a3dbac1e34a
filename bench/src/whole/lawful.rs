//! What is wrong with a sheet, as the number of its first fault.

type Checked = Result<(), u8>;

const SHORT: u8 = 1;
const FIELD: u8 = 2;
const SIZE: u8 = 3;
const ENTRY: u8 = 4;
const ORDER: u8 = 5;
const TOO_LARGE: u8 = 7;

fn check(good: bool, number: u8) -> Checked {
    if good { Ok(()) } else { Err(number) }
}

fn pair(bytes: &[u8]) -> usize {
    usize::from(u16::from_le_bytes([bytes[0], bytes[1]]))
}

fn all_below(bytes: &[u8], bound: u8) -> bool {
    bytes.iter().all(|it| *it < bound)
}

pub fn machine(bytes: &[u8]) -> Checked {
    check(bytes.len() >= 8, SHORT)?;
    let (states, start, count) = (pair(bytes), pair(&bytes[4..]), pair(&bytes[6..]));
    let signals = &bytes[2..4];
    let sized = (1..=256).contains(&states) && start < states && count <= 4096;
    check(
        sized && signals.iter().all(|it| (1..=4).contains(it)),
        FIELD,
    )?;
    check(bytes.len() == 8 + states + 4 * count, SIZE)?;
    let (labels, moves) = bytes[8..].split_at(states);
    check(all_below(labels, 8), ENTRY)?;
    let (keys, targets) = moves.split_at(2 * count);
    let most = states * usize::from(signals[0]) * usize::from(signals[1]);
    let mut last = None;
    for (key, target) in keys.chunks(2).map(pair).zip(targets.chunks(2).map(pair)) {
        check(key < most && target < states, ENTRY)?;
        check(last < Some((key, target)), ORDER)?;
        last = Some((key, target));
    }
    Ok(())
}

/// A rule sheet for a machine of so many states.
pub fn rule(bytes: &[u8], states: usize) -> Checked {
    check(bytes.len() >= 4, SHORT)?;
    let (count, accepting, start) = (bytes[0], bytes[1], bytes[3]);
    let sized = (1..=8).contains(&count) && start < count;
    check(sized && u32::from(accepting) >> count == 0, FIELD)?;
    let next = &bytes[4..];
    check(next.len() == 8 * usize::from(count), SIZE)?;
    check(all_below(next, count), ENTRY)?;
    check(states * usize::from(count) <= 256, TOO_LARGE)
}

pub fn table(bytes: &[u8]) -> Checked {
    check(bytes.len() >= 3, SHORT)?;
    let (phases, signals) = (bytes[0], &bytes[1..3]);
    let sized = (1..=8).contains(&phases) && signals.iter().all(|it| (1..=4).contains(it));
    check(sized, FIELD)?;
    let entries = bytes[..3].iter().map(|it| usize::from(*it)).product();
    check(bytes.len() - 3 == entries, SIZE)?;
    check(all_below(&bytes[3..], phases), ENTRY)
}

/// The states of a lawful machine sheet.
pub fn states(machine: &[u8]) -> usize {
    pair(machine)
}
