//! Sets of up to 256 states, and of up to 8 signals or phases.

/// A set of states, a bit for each; aligned, so that none lies across two lines of the cache.
#[derive(Clone, Copy, Default, PartialEq, Eq)]
#[repr(align(32))]
pub struct Bits([u64; 4]);

impl Bits {
    pub const EMPTY: Bits = Bits([0; 4]);

    /// The states below a bound.
    pub fn below(states: usize) -> Bits {
        (0..states).collect()
    }

    pub fn insert(&mut self, state: usize) {
        self.0[state / 64] |= 1 << (state % 64);
    }

    pub fn remove(&mut self, state: usize) {
        self.0[state / 64] &= !(1 << (state % 64));
    }

    pub fn contains(&self, state: usize) -> bool {
        self.0[state / 64] >> (state % 64) & 1 == 1
    }

    pub fn is_empty(&self) -> bool {
        self.0 == [0; 4]
    }

    pub fn is_subset(&self, other: &Bits) -> bool {
        self.minus(other).is_empty()
    }

    pub fn and(&self, other: &Bits) -> Bits {
        Bits(std::array::from_fn(|i| self.0[i] & other.0[i]))
    }

    pub fn or(&self, other: &Bits) -> Bits {
        Bits(std::array::from_fn(|i| self.0[i] | other.0[i]))
    }

    pub fn minus(&self, other: &Bits) -> Bits {
        Bits(std::array::from_fn(|i| self.0[i] & !other.0[i]))
    }

    pub fn iter(&self) -> impl Iterator<Item = usize> + use<> {
        let words = self.0;
        (0..4).flat_map(move |i| ones(words[i]).map(move |bit| 64 * i + bit))
    }

    /// 32 bytes, bit i of byte j for state 8 × j + i.
    pub fn to_bytes(self) -> impl Iterator<Item = u8> {
        self.0.into_iter().flat_map(u64::to_le_bytes)
    }

    pub fn from_bytes(bytes: &[u8]) -> Bits {
        let has = |state: &usize| bytes[state / 8] >> (state % 8) & 1 == 1;
        (0..256).filter(has).collect()
    }
}

impl FromIterator<usize> for Bits {
    fn from_iter<I: IntoIterator<Item = usize>>(states: I) -> Bits {
        let mut set = Bits::EMPTY;
        states.into_iter().for_each(|state| set.insert(state));
        set
    }
}

/// The places of the ones of a word, ascending.
pub fn ones(mut word: u64) -> impl Iterator<Item = usize> {
    std::iter::from_fn(move || {
        let bit = word.trailing_zeros() as usize;
        word &= word.wrapping_sub(1);
        (bit < 64).then_some(bit)
    })
}
