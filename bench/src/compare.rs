//! Compares the answers and the records of both solvers on random bays.

use crate::arena::{Arena, Seat};
use crate::bay::{Bay, Refusal, record_size};
use crate::game::Game;
use crate::judge::Judge;
use crate::random::{Random, bay};
use crate::rattle::Question;
use crate::solve::{Method, solve};
use std::collections::BTreeMap;

type Answer = Result<u16, Refusal>;

/// How often each number was refused; 0 stands for a solution.
pub type Counts = BTreeMap<u32, usize>;

/// Compares so many bays; on the first difference it tells the bay's number.
pub fn compare(count: usize, seed: u64) -> Result<Counts, String> {
    let mut random = Random::new(seed);
    let mut counts = Counts::new();
    for number in 0..count {
        let (bay, off) = bay(&mut random);
        let fill = random.byte();
        let answer =
            compare_one(&bay, off, fill).map_err(|what| format!("bay {number}: {what}"))?;
        *counts.entry(answer.err().map_or(0, |it| it.0)).or_default() += 1;
    }
    Ok(counts)
}

fn compare_one(bay: &Bay, off: isize, fill: u8) -> Result<Answer, String> {
    let arena = Arena::new(&Game::read(bay));
    let size = record_size(arena.states, usize::from(bay.table[0]));
    let empty = vec![fill; size.saturating_add_signed(off)];
    let wanted = run(&empty, |buffer| rust(bay, &arena, Method::Frontier, buffer));
    let others = [
        run(&empty, |buffer| {
            rust(bay, &arena, Method::EveryLayer, buffer)
        }),
        run(&empty, |buffer| Question::new(bay).solve(1, buffer)),
        // again in the same workspace, where that does not take long
        run(&empty, |buffer| {
            Question::new(bay).solve(if arena.states > 64 { 1 } else { 2 }, buffer)
        }),
        run(&empty, |buffer| {
            Question::by_bits(bay, &arena).solve(1, buffer)
        }),
    ];
    for (kind, other) in others.iter().enumerate() {
        if *other != wanted {
            return Err(format!("kind {kind}: {:?}, not {:?}", other.0, wanted.0));
        }
    }
    if wanted.0.is_ok() && !is_lowest(bay, &arena, &wanted.1) {
        return Err("a choice is not the lowest that serves".to_string());
    }
    Ok(wanted.0)
}

fn is_lowest(bay: &Bay, arena: &Arena, record: &[u8]) -> bool {
    let judged = Seat::read(bay).map(|seat| {
        let seat = &seat;
        Judge {
            arena,
            seat,
            record,
        }
        .lowest()
    });
    judged == Ok(true)
}

/// The answer, and what became of the buffer.
fn run(empty: &[u8], solve: impl FnOnce(&mut [u8]) -> Answer) -> (Answer, Vec<u8>) {
    let mut buffer = empty.to_vec();
    let answer = solve(&mut buffer);
    (answer, buffer)
}

fn rust(bay: &Bay, arena: &Arena, method: Method, buffer: &mut [u8]) -> Answer {
    let seat = Seat::read(bay)?;
    solve(arena, &seat, method, buffer).map(|it| it.bound)
}
