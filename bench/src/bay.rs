//! What both solvers are given: sheets as bytes, and the numbers of a deal.

/// One side of a bay. Nothing is known of the bytes and the numbers.
#[derive(Clone)]
pub struct Bay {
    pub machine: Machine,
    pub layer: Layer,
    pub table: Vec<u8>,
    /// Promise and reliance of side 0, then of side 1: bit 4 × p + j is signal j in phase p.
    pub terms: [Terms; 2],
    pub side: u8,
}

#[derive(Clone)]
pub enum Machine {
    Sheet(Vec<u8>),
    Lift { floors: u8, signals: u8 },
}

#[derive(Clone)]
pub enum Layer {
    Marks(Vec<u8>),
    Rule(Vec<u8>),
}

#[derive(Clone, Copy)]
pub struct Terms {
    pub promise: u32,
    pub reliance: u32,
}

/// The number of a refusal.
#[derive(Clone, Copy, PartialEq, Eq, Debug, PartialOrd, Ord)]
pub struct Refusal(pub u32);

pub const NO_SUCH_SIDE: Refusal = Refusal(10);
pub const NOT_TERMS: Refusal = Refusal(20);
pub const TOO_FAR: Refusal = Refusal(21);
pub const BUFFER: Refusal = Refusal(22);
pub const NO_CONTROLLER: Refusal = Refusal(23);

/// How long a record is.
pub fn record_size(states: usize, phases: usize) -> usize {
    4 + 3 * states * phases
}
