//! Times of one solve, and how often it takes memory.

use crate::arena::{Arena, Seat};
use crate::bay::{Bay, record_size};
use crate::clock::{Run, least};
use crate::game::Game;
use crate::heap;
use crate::rattle::Question;
use crate::solve::{Method, Solved, solve};
use std::hint::black_box;

/// Nanoseconds of a solve: of the Rattle solver, of the Rust solver, and of the Rust solver that tries every position in each layer.
pub struct Times {
    pub rattle: f64,
    pub rust: f64,
    pub every_layer: f64,
}

pub struct Measured {
    pub states: usize,
    pub positions: usize,
    pub solved: Solved,
    /// With the snapshot, and without it.
    pub whole: Times,
    pub apart: Times,
    /// How often a solve takes memory: the Rattle solver, then the Rust solver.
    pub allocations: (f64, f64),
}

pub fn measure(bay: &Bay) -> Measured {
    let game = Game::read(bay);
    let seat = Seat::read(bay).expect("a deal");
    let arena = Arena::new(&game);
    let size = record_size(arena.states, seat.phases);
    let solved = solve(&arena, &seat, Method::Frontier, &mut vec![0; size]).expect("a solution");
    let question = Question::new(bay);
    let (whole, apart) = times(bay, &game, &arena, &seat);
    Measured {
        states: arena.states,
        positions: arena.states * seat.phases,
        solved,
        whole,
        apart,
        allocations: allocations(&game, &seat, &question, size),
    }
}

fn times(bay: &Bay, game: &Game, arena: &Arena, seat: &Seat) -> (Times, Times) {
    let size = record_size(arena.states, seat.phases);
    let whole = |method| {
        rust(size, move |buffer| {
            let _ = black_box(solve(&Arena::new(black_box(game)), seat, method, buffer));
        })
    };
    let apart = |method| {
        rust(size, move |buffer| {
            let _ = black_box(solve(black_box(arena), seat, method, buffer));
        })
    };
    let barred = |states| rattle(Question::barred(arena, states), record_size(states, 1));
    let times = least(vec![
        rattle(Question::new(bay), size),
        whole(Method::Frontier),
        whole(Method::EveryLayer),
        rattle(Question::by_bits(bay, arena), size),
        barred(arena.states),
        barred(1),
        apart(Method::Frontier),
        apart(Method::EveryLayer),
    ]);
    let whole = Times {
        rattle: times[0],
        rust: times[1],
        every_layer: times[2],
    };
    // The moves stand as bits, so that the snapshot is short, and what it takes by itself is taken off. What one barred
    // state takes is what each solve takes beside snapshot and positions.
    let apart = Times {
        rattle: times[3] - times[4] + times[5],
        rust: times[6],
        every_layer: times[7],
    };
    (whole, apart)
}

/// The loading is in each sample, once for all its solves.
fn rattle<'a>(question: Question, size: usize) -> Run<'a> {
    let mut buffer = vec![0; size];
    Box::new(move |times| {
        let _ = black_box(question.solve(times, &mut buffer));
    })
}

fn rust<'a>(size: usize, solve: impl Fn(&mut [u8]) + 'a) -> Run<'a> {
    let mut buffer = vec![0; size];
    Box::new(move |times| (0..times).for_each(|_| solve(&mut buffer)))
}

/// Of the Rattle solver and the Rust solver, over 16 solves more; those of loading cancel out.
fn allocations(game: &Game, seat: &Seat, question: &Question, size: usize) -> (f64, f64) {
    let mut buffer = vec![0; size];
    let mut taken = |times: u32| {
        let before = heap::taken();
        let _ = question.solve(times, &mut buffer);
        let between = heap::taken();
        for _ in 0..times {
            let _ = solve(&Arena::new(game), seat, Method::Frontier, &mut buffer);
        }
        (between.1 - before.1, heap::taken().0 - between.0)
    };
    let (few, many) = (taken(1), taken(17));
    let each = |few: u64, many: u64| (many - few) as f64 / 16.0;
    (each(few.0, many.0), each(few.1, many.1))
}
