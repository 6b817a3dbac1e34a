//! A bay program in Rust: from an input to its one line.

use crate::arena::{Arena, Seat};
use crate::bay::record_size;
use crate::game::Game;
use crate::solve::{Method, solve};
use crate::whole::input::{LIMIT, Sheets};
use crate::whole::lawful;
use crate::whole::search::Search;
use std::fmt;
use std::io::Read;

/// What the program answers, and how often it solved each side to find it.
pub struct Answer {
    pub outcome: Result<Settlement, u8>,
    pub solves: [usize; 2],
}

pub struct Settlement {
    pub promises: [u32; 2],
    pub tries: usize,
    pub bounds: [u16; 2],
}

impl fmt::Display for Answer {
    fn fmt(&self, f: &mut fmt::Formatter) -> fmt::Result {
        match &self.outcome {
            Ok(Settlement {
                promises: [a, b],
                tries,
                bounds: [x, y],
            }) => write!(f, "deal {a} {b} tries {tries} bounds {x} {y}"),
            Err(number) => write!(f, "refused {number}"),
        }
    }
}

/// Reads the standard input, and prints the line.
pub fn run() -> std::io::Result<()> {
    let mut bytes = Vec::new();
    let most = LIMIT as u64 + 1;
    std::io::stdin().take(most).read_to_end(&mut bytes)?;
    println!("{}", answer(&bytes));
    Ok(())
}

pub fn answer(bytes: &[u8]) -> Answer {
    let refused = |number| Answer {
        outcome: Err(number),
        solves: [0; 2],
    };
    match read(bytes) {
        Ok((arenas, table)) => match Search::new(&arenas, table) {
            Some(search) => settle(search, &arenas, table),
            None => refused(25),
        },
        Err(number) => refused(number),
    }
}

/// Both sides' snapshots and the table, or the number of the first fault.
fn read(bytes: &[u8]) -> Result<([Arena; 2], &[u8]), u8> {
    let sheets = Sheets::cut(bytes)?;
    for (machine, rule) in sheets.machines.iter().zip(sheets.rules) {
        lawful::machine(machine)?;
        lawful::rule(rule, lawful::states(machine))?;
    }
    lawful::table(sheets.table)?;
    let (first, second) = (sheets.table[1], sheets.table[2]);
    let signals = |side: usize| &sheets.machines[side][2..4];
    if signals(0) != [first, second] || signals(1) != [second, first] {
        return Err(10);
    }
    let arena = |side: usize| Arena::new(&Game::watched(sheets.machines[side], sheets.rules[side]));
    Ok(([arena(0), arena(1)], sheets.table))
}

fn settle(mut search: Search, arenas: &[Arena; 2], table: &[u8]) -> Answer {
    let found = search.first_workable();
    let settlement = |place: usize| {
        let deal = search.deal(place);
        let bound = |side: usize| {
            let arena = &arenas[side];
            let seat = Seat::new(table, &deal, side as u8).expect("a deal");
            let mut buffer = vec![0; record_size(arena.states, seat.phases)];
            let solved = solve(arena, &seat, Method::Frontier, &mut buffer);
            solved.expect("a controller").bound
        };
        Settlement {
            promises: deal.map(|it| it.promise),
            tries: place + 1,
            bounds: [bound(0), bound(1)],
        }
    };
    Answer {
        outcome: found.map(settlement).ok_or(27),
        solves: search.solves,
    }
}
