//! The solver under test, by its one exported function.

use crate::arena::Arena;
use crate::bay::{Bay, Layer, Machine, Refusal, Terms};
use crate::bits::Bits;
use crate::sheets::round;

/// The numbers of a question; `crates/solver_c` has the same struct.
#[repr(C)]
#[derive(Clone, Copy)]
struct Ask {
    promise0: u32,
    reliance0: u32,
    promise1: u32,
    reliance1: u32,
    times: u32,
    machine: u8,
    layer: u8,
    side: u8,
}

/// From here on an answer is a refusal.
const REFUSED: u32 = 65_536;

// kinds of machines, and of layers
const SHEET: u8 = 0;
const LIFT: u8 = 1;
const BITS: u8 = 2;
const MARKS: u8 = 0;
const RULE: u8 = 1;

unsafe extern "C" {
    // a slice crosses as a pointer and a length; the allocator has no bytes
    fn solver_c_solve(
        ask: &Ask,
        machine: *const u8,
        machine_size: usize,
        layer: *const u8,
        layer_size: usize,
        table: *const u8,
        table_size: usize,
        buffer: *mut u8,
        buffer_size: usize,
    ) -> u32;
}

/// A bay as the exported function takes it.
pub struct Question {
    ask: Ask,
    machine: Vec<u8>,
    layer: Vec<u8>,
    table: Vec<u8>,
}

impl Question {
    pub fn new(bay: &Bay) -> Question {
        let (machine, bytes) = match &bay.machine {
            Machine::Sheet(bytes) => (SHEET, bytes.clone()),
            Machine::Lift { floors, signals } => (LIFT, vec![*floors, *signals]),
        };
        let (layer, over) = match &bay.layer {
            Layer::Marks(bytes) => (MARKS, bytes.clone()),
            Layer::Rule(bytes) => (RULE, bytes.clone()),
        };
        Question {
            ask: Ask::new(bay.terms, machine, layer, bay.side),
            machine: bytes,
            layer: over,
            table: bay.table.clone(),
        }
    }

    /// The same game with its moves as bits, which answers each question by one look.
    pub fn by_bits(bay: &Bay, arena: &Arena) -> Question {
        let goals = arena.goals.minus(&arena.forbidden);
        Question {
            ask: Ask::new(bay.terms, BITS, MARKS, bay.side),
            machine: bits(arena),
            layer: arena.forbidden.to_bytes().chain(goals.to_bytes()).collect(),
            table: bay.table.clone(),
        }
    }

    /// The same moves, of the first so many states, all of them forbidden, under one phase: solving is the snapshot and little else.
    pub fn barred(arena: &Arena, states: usize) -> Question {
        let (own, partner) = (arena.own as u8, arena.partner as u8);
        let terms = Terms {
            promise: 1,
            reliance: 1,
        };
        let mut machine = bits(arena);
        machine[..2].copy_from_slice(&(states as u16).to_le_bytes());
        machine[4..6].fill(0);
        let all = Bits::below(states).to_bytes();
        Question {
            ask: Ask::new([terms; 2], BITS, MARKS, 0),
            machine,
            layer: all.chain(Bits::EMPTY.to_bytes()).collect(),
            table: round(1, own, partner),
        }
    }

    /// Solves so many times, from one loading, and answers the last bound.
    pub fn solve(&self, times: u32, buffer: &mut [u8]) -> Result<u16, Refusal> {
        let ask = Ask { times, ..self.ask };
        // SAFETY: the declaration fits the export, and each pointer and length are of one slice, the buffer's borrowed alone.
        let answer = unsafe {
            solver_c_solve(
                &ask,
                self.machine.as_ptr(),
                self.machine.len(),
                self.layer.as_ptr(),
                self.layer.len(),
                self.table.as_ptr(),
                self.table.len(),
                buffer.as_mut_ptr(),
                buffer.len(),
            )
        };
        u16::try_from(answer).map_err(|_| Refusal(answer - REFUSED))
    }
}

impl Ask {
    fn new(terms: [Terms; 2], machine: u8, layer: u8, side: u8) -> Ask {
        Ask {
            promise0: terms[0].promise,
            reliance0: terms[0].reliance,
            promise1: terms[1].promise,
            reliance1: terms[1].reliance,
            times: 1,
            machine,
            layer,
            side,
        }
    }
}

/// The fields of a machine sheet up to the start, two bytes of nothing, then 32 bytes for each state and four signals each way.
fn bits(arena: &Arena) -> Vec<u8> {
    let [states, start] = [arena.states, arena.start].map(|it| (it as u16).to_le_bytes());
    let mut bytes = vec![states[0], states[1], arena.own as u8, arena.partner as u8];
    bytes.extend([start[0], start[1], 0, 0]);
    for place in 0..16 * arena.states {
        let (state, own, partner) = (place / 16, place / 4 % 4, place % 4);
        let there = own < arena.own && partner < arena.partner;
        let row = if there {
            *arena.row(state, own, partner)
        } else {
            Bits::EMPTY
        };
        bytes.extend(row.to_bytes());
    }
    bytes
}
