//! The text register machine on the set's layout of store and lengths; each register has its own capacity (document 02, request 5).

use crate::word::{self, lacking, offset, Instruction};
use crate::{refuse, End, Refusal};

pub const REGISTERS: usize = 64;
pub const CAPACITY: usize = 1_024;

/// The bytes of a store: of each register as many as its capacity.
fn sum(capacities: &[u16]) -> usize {
    capacities.iter().map(|&c| usize::from(c)).sum()
}

/// As many capacities as a machine may have registers, and each of them within the limits.
pub fn are_sizes(capacities: &[u16]) -> bool {
    (1..=REGISTERS).contains(&capacities.len()) && capacities.iter().all(|&c| (1..=CAPACITY).contains(&c.into()))
}

#[derive(Clone, PartialEq, Eq, Debug)]
pub struct Machine {
    pub capacities: Vec<u16>,
    pub store: Vec<u8>,
    pub lengths: Vec<u16>,
    pub place: i32,
    pub steps: u32,
}

impl Machine {
    /// Place 1, no steps, and registers that begin with these contents, the others empty.
    pub fn fresh(capacities: &[u16], contents: &[Vec<u8>]) -> Machine {
        let (capacities, lengths) = (capacities.to_vec(), vec![0; capacities.len()]);
        let mut machine = Machine { store: vec![0; sum(&capacities)], capacities, lengths, place: 1, steps: 0 };
        for (at, symbols) in contents.iter().enumerate() {
            let from = machine.offset(at + 1);
            machine.store[from..from + symbols.len()].copy_from_slice(symbols);
            machine.lengths[at] = symbols.len() as u16;
        }
        machine
    }

    /// The same with so many registers, all of one capacity.
    pub fn alike(registers: usize, capacity: usize, contents: &[Vec<u8>]) -> Machine {
        Machine::fresh(&vec![capacity as u16; registers], contents)
    }

    pub fn registers(&self) -> usize {
        self.capacities.len()
    }

    /// Where the place of register r begins, "the places following one another in register order".
    pub fn offset(&self, r: usize) -> usize {
        sum(&self.capacities[..r - 1])
    }

    pub fn register(&self, r: usize) -> &[u8] {
        let from = self.offset(r);
        &self.store[from..from + usize::from(self.lengths[r - 1])]
    }

    /// Takes all symbols out of register r.
    pub fn empty(&mut self, r: usize) {
        let from = self.offset(r);
        self.store[from..from + usize::from(self.capacities[r - 1])].fill(0);
        self.lengths[r - 1] = 0;
    }

    /// Rule 10.
    pub fn check(&self) -> Result<(), Refusal> {
        let sizes = are_sizes(&self.capacities) && self.store.len() == sum(&self.capacities) && self.lengths.len() == self.registers();
        let mut rest = &self.store[..];
        let laid = |(&capacity, &length): (&u16, &u16)| {
            let (place, after) = rest.split_at(capacity.into());
            rest = after;
            let length = usize::from(length);
            length <= place.len() && place[..length].iter().all(|b| matches!(b, b'1' | b'#')) && place[length..].iter().all(|&b| b == 0)
        };
        if sizes && self.capacities.iter().zip(&self.lengths).all(laid) {
            Ok(())
        } else {
            refuse(10, 0)
        }
    }

    /// The value of a halted word: what register 1 holds, "only when every register but the first is empty"; otherwise it is untidy, and
    /// there is none.
    pub fn value(&self) -> Option<&[u8]> {
        (2..=self.registers()).all(|r| self.register(r).is_empty()).then(|| self.register(1))
    }

    /// The instructions of a word that is to be run here, by rules 10 to 15.
    pub fn accept(&self, word: &[u8]) -> Result<Vec<Instruction>, Refusal> {
        self.check()?;
        let table = word::read(word)?;
        match lacking(&table, self.registers()) {
            Some(entry) => refuse(15, offset(&table, entry)),
            None => Ok(table),
        }
    }

    /// A table that is to be run here, by rules 10, 11, 13, 14 and 15; places are entries.
    pub fn accept_table(&self, table: &[Instruction]) -> Result<(), Refusal> {
        self.check()?;
        word::check_table(table)?;
        match lacking(table, self.registers()) {
            Some(entry) => refuse(15, entry),
            None => Ok(()),
        }
    }

    /// Of register r, whose place begins at `from`.
    fn append(&mut self, r: usize, from: usize, symbol: u8) -> bool {
        let length = self.lengths[r - 1];
        if length == self.capacities[r - 1] {
            return false;
        }
        self.store[from + usize::from(length)] = symbol;
        self.lengths[r - 1] += 1;
        true
    }

    fn delete_first(&mut self, r: usize, from: usize) -> Option<u8> {
        let length = usize::from(self.lengths[r - 1]);
        if length == 0 {
            return None;
        }
        let first = self.store[from];
        self.store.copy_within(from + 1..from + length, from);
        self.store[from + length - 1] = 0;
        self.lengths[r - 1] -= 1;
        Some(first)
    }

    /// A run of an accepted word: its end and the steps taken.
    pub fn run(&mut self, table: &[Instruction], budget: u32) -> (End, u32) {
        let last = table.len() as i32;
        let offsets: Vec<_> = (1..=self.registers()).map(|r| self.offset(r)).collect();
        let mut taken = 0;
        loop {
            if self.place == last + 1 {
                return (End::Halted, taken);
            }
            if !(1..=last).contains(&self.place) {
                return (End::Strayed, taken);
            }
            if taken == budget || self.steps == u32::MAX {
                return (End::Spent, taken);
            }
            let Instruction { kind, operand } = table[self.place as usize - 1];
            let n = operand as usize;
            self.place += match kind {
                1 | 2 => {
                    if !self.append(n, offsets[n - 1], if kind == 1 { b'1' } else { b'#' }) {
                        return (End::Full, taken);
                    }
                    1
                }
                3 => operand as i32,
                4 => -(operand as i32),
                _ => match self.delete_first(n, offsets[n - 1]) {
                    None => 1,
                    Some(b'1') => 2,
                    Some(_) => 3,
                },
            };
            self.steps += 1;
            taken += 1;
        }
    }
}
