//! 1# words and instruction tables: spelling, rules 11 to 15.

use crate::{refuse, Refusal};

pub const SYMBOLS: u64 = 600_000;
pub const INSTRUCTIONS: usize = 8_192;

/// So many 1s, the operand, and then so many #, the kind.
#[derive(Clone, Copy, PartialEq, Eq, Debug)]
pub struct Instruction {
    pub kind: u8,
    pub operand: u32,
}

impl Instruction {
    pub fn size(self) -> usize {
        usize::from(self.kind) + self.operand as usize
    }

    /// The register that an append or cases names.
    pub fn register(self) -> Option<usize> {
        matches!(self.kind, 1 | 2 | 5).then_some(self.operand as usize)
    }
}

pub fn spell(table: &[Instruction]) -> Vec<u8> {
    let mut word = Vec::new();
    for i in table {
        word.resize(word.len() + i.operand as usize, b'1');
        word.resize(word.len() + usize::from(i.kind), b'#');
    }
    word
}

/// A word, by rules 11 to 14.
pub fn read(word: &[u8]) -> Result<Vec<Instruction>, Refusal> {
    if word.is_empty() || word.len() as u64 > SYMBOLS {
        return refuse(11, 0);
    }
    if let Some(place) = word.iter().position(|b| !matches!(b, b'1' | b'#')) {
        return refuse(12, place);
    }
    if word[0] == b'#' {
        return refuse(13, 0);
    }
    let sixth = word.windows(6).position(|w| w.iter().all(|&b| b == b'#'));
    if let Some(from) = sixth {
        return refuse(13, from + 5);
    }
    if word[word.len() - 1] == b'1' {
        return refuse(13, word.len());
    }
    let mut table: Vec<Instruction> = Vec::new();
    let mut place = 0;
    while place < word.len() {
        if table.len() == INSTRUCTIONS {
            return refuse(14, place);
        }
        let ones = word[place..].iter().take_while(|&&b| b == b'1').count();
        let marks = word[place + ones..].iter().take_while(|&&b| b == b'#').count();
        table.push(Instruction { kind: marks as u8, operand: ones as u32 });
        place += ones + marks;
    }
    Ok(table)
}

/// A table handed in, by rules 11, 13 and 14; places are entries.
pub fn check_table(table: &[Instruction]) -> Result<(), Refusal> {
    let sum: u64 = table.iter().map(|i| i.size() as u64).sum();
    if table.is_empty() || sum > SYMBOLS {
        return refuse(11, 0);
    }
    if let Some(entry) = table.iter().position(|i| !(1..=5).contains(&i.kind) || i.operand == 0) {
        return refuse(13, entry);
    }
    if table.len() > INSTRUCTIONS {
        return refuse(14, INSTRUCTIONS);
    }
    Ok(())
}

/// The first instruction that names a register above `registers` (rule 15).
pub fn lacking(table: &[Instruction], registers: usize) -> Option<usize> {
    table.iter().position(|i| i.register().is_some_and(|r| r > registers))
}

pub fn offset(table: &[Instruction], entry: usize) -> usize {
    table[..entry].iter().map(|i| i.size()).sum()
}
