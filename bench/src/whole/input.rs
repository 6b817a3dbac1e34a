//! The input of a bay program: five lengths, then the five sheets.

/// For each side a machine sheet and a rule sheet, then the phase table.
#[derive(Clone)]
pub struct Sheets<T> {
    pub machines: [T; 2],
    pub rules: [T; 2],
    pub table: T,
}

pub type Input = Sheets<Vec<u8>>;

/// The longest input that is read.
pub const LIMIT: usize = 40_000;

const HEAD: usize = 10;

impl Input {
    pub fn bytes(&self) -> Vec<u8> {
        let parts = [
            &self.machines[0],
            &self.rules[0],
            &self.machines[1],
            &self.rules[1],
            &self.table,
        ];
        let lengths = parts.iter().flat_map(|it| (it.len() as u16).to_le_bytes());
        let sheets = parts.iter().copied().flatten().copied();
        lengths.chain(sheets).collect()
    }
}

impl<'a> Sheets<&'a [u8]> {
    /// The parts of an input, or the number of what is wrong with its lengths.
    pub fn cut(bytes: &'a [u8]) -> Result<Sheets<&'a [u8]>, u8> {
        let (head, mut rest) = bytes.split_at_checked(HEAD).ok_or(1)?;
        let length = |part: &[u8]| usize::from(u16::from_le_bytes([part[0], part[1]]));
        let lengths: Vec<usize> = head.chunks(2).map(length).collect();
        if bytes.len() > LIMIT || rest.len() != lengths.iter().sum::<usize>() {
            return Err(3);
        }
        let mut take = |part: usize| {
            let (taken, left) = rest.split_at(lengths[part]);
            rest = left;
            taken
        };
        let [machine0, rule0, machine1, rule1, table] = std::array::from_fn(&mut take);
        Ok(Sheets {
            machines: [machine0, machine1],
            rules: [rule0, rule1],
            table,
        })
    }
}
