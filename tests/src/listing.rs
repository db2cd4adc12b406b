//! Scan-and-delete listings (document 02, request 6), of "the 1963 register machine of source document 004": lines, rules 1 to 4 and 22,
//! the word, and an interpreter.

use crate::machine::REGISTERS;
use crate::program::{lines, numeral, whole};
use crate::translation::{backward, cases, forward};
use crate::word::Instruction;
use crate::{refuse, Refusal};
use std::collections::VecDeque;

pub const LINES: usize = 256;

/// "Its lines are `P1 n`, `P# n` and `Scd n e f`"; the symbol is the byte that is printed, and `u64::MAX` stands for every larger target.
#[derive(Clone, Copy, PartialEq, Eq, Debug)]
pub enum Line {
    Print { symbol: u8, register: usize },
    Scan { register: usize, on_one: u64, on_hash: u64 },
}

impl Line {
    pub fn spelling(self) -> String {
        match self {
            Line::Print { symbol, register } => format!("P{} {register}", char::from(symbol)),
            Line::Scan { register, on_one, on_hash } => format!("Scd {register} {on_one} {on_hash}"),
        }
    }

    pub fn register(self) -> usize {
        match self {
            Line::Print { register, .. } | Line::Scan { register, .. } => register,
        }
    }
}

pub fn write(listing: &[Line]) -> Vec<u8> {
    listing.iter().map(|line| line.spelling() + "\n").collect::<String>().into_bytes()
}

/// "n from 1 to 64, no leading zeros".
fn register(field: &[u8]) -> Option<usize> {
    let number = target(field)? as usize;
    (1..=REGISTERS).contains(&number).then_some(number)
}

fn target(field: &[u8]) -> Option<u64> {
    whole(numeral(field), b"")
}

/// The line that a text spells, if it is one of the spellings. A register outside 1 to 64 makes it none; a target may be any number.
pub fn line(text: &[u8]) -> Option<Line> {
    let fields: Vec<_> = text.split(|&b| b == b' ').collect();
    match fields[..] {
        [b"P1", n] => Some(Line::Print { symbol: b'1', register: register(n)? }),
        [b"P#", n] => Some(Line::Print { symbol: b'#', register: register(n)? }),
        [b"Scd", n, e, f] => Some(Line::Scan { register: register(n)?, on_one: target(e)?, on_hash: target(f)? }),
        _ => None,
    }
}

/// "22, a target outside 1 to the line count plus 1".
fn check_targets(line: Line, count: usize, place: usize) -> Result<Line, Refusal> {
    match line {
        Line::Scan { on_one, on_hash, .. } if [on_one, on_hash].iter().any(|t| !(1..=count as u64 + 1).contains(t)) => refuse(22, place),
        _ => Ok(line),
    }
}

/// A text, by rules 1 to 4 and 22: "3 is more than 256 lines (place 257)", and 22 comes "after 4, line by line with it".
pub fn read(text: &[u8]) -> Result<Vec<Line>, Refusal> {
    let spelled = lines(text)?;
    let count = spelled.len();
    if count > LINES {
        return refuse(3, LINES + 1);
    }
    let judged = spelled.into_iter().zip(1..).map(|(text, place)| match line(text) {
        None => refuse(4, place),
        Some(line) => check_targets(line, count, place),
    });
    judged.collect()
}

/// The places at which the lines of an accepted listing begin in its word, which starts with F1; the last is that of the line after them,
/// where it halts.
pub fn places(listing: &[Line]) -> Vec<usize> {
    let mut places = vec![2];
    for line in listing {
        let instructions = match line {
            Line::Print { .. } => 1,
            Line::Scan { .. } => 4,
        };
        places.push(places[places.len() - 1] + instructions);
    }
    places
}

/// A transfer from a place to another.
fn transfer(from: usize, to: usize) -> Instruction {
    if to > from {
        forward(to - from)
    } else {
        backward(from - to)
    }
}

/// The word of an accepted listing: "F1, then one append for a P line, and for Scd: cases, F3, and two transfers to the targets".
pub fn word(listing: &[Line]) -> Vec<Instruction> {
    let places = places(listing);
    let mut word = vec![forward(1)];
    for &line in listing {
        match line {
            Line::Print { symbol, register } => {
                let kind = if symbol == b'1' { 1 } else { 2 };
                word.push(Instruction { kind, operand: register as u32 });
            }
            Line::Scan { register, on_one, on_hash } => {
                word.extend([cases(register), forward(3)]);
                for target in [on_one, on_hash] {
                    word.push(transfer(word.len() + 1, places[target as usize - 1]));
                }
            }
        }
    }
    word
}

/// Where a run of a listing stands: its line, and what the registers hold, register r's at r - 1. They hold any amount.
#[derive(Clone, PartialEq, Eq, Debug)]
pub struct State {
    pub line: usize,
    pub registers: Vec<VecDeque<u8>>,
}

impl State {
    /// Line 1, and these contents.
    pub fn fresh(contents: &[Vec<u8>]) -> State {
        State { line: 1, registers: contents.iter().map(|symbols| symbols.iter().copied().collect()).collect() }
    }
}

/// Whether a run halted, and the lines it did.
#[derive(Clone, Copy, PartialEq, Eq, Debug)]
pub struct Ran {
    pub halted: bool,
    pub prints: u32,
    pub scans: u32,
}

impl Ran {
    /// "the word's steps are 1 for the F1, 1 for each P line done and 2 for each Scd done".
    pub fn word_steps(self) -> u32 {
        1 + self.prints + 2 * self.scans
    }
}

/// A run of at most so many lines of an accepted listing, whose registers are all there.
pub fn run(listing: &[Line], state: &mut State, budget: u32) -> Ran {
    let mut ran = Ran { halted: false, prints: 0, scans: 0 };
    // "Line count plus 1 is halted"
    while state.line != listing.len() + 1 {
        if ran.prints + ran.scans == budget {
            return ran;
        }
        let next = state.line + 1;
        state.line = match listing[state.line - 1] {
            // "place a_i on the end of ⟨n⟩" (document 004)
            Line::Print { symbol, register } => {
                state.registers[register - 1].push_back(symbol);
                ran.prints += 1;
                next
            }
            // "goes to the next line on empty, else deletes the first symbol and goes to line e for 1, f for #"
            Line::Scan { register, on_one, on_hash } => {
                ran.scans += 1;
                match state.registers[register - 1].pop_front() {
                    None => next,
                    Some(b'1') => on_one as usize,
                    Some(_) => on_hash as usize,
                }
            }
        };
    }
    Ran { halted: true, ..ran }
}
