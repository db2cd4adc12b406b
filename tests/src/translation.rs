//! Translation in its two forms, and the charges.

use crate::program::{variables, Command, Kind};
use crate::source::State;
use crate::word::Instruction;

/// Document 01's word, or that word with clears after it (document 02, request 2).
#[derive(Clone, Copy, PartialEq, Eq, Debug)]
pub enum Form {
    Plain,
    Tidy,
}

pub fn cases(a: usize) -> Instruction {
    Instruction { kind: 5, operand: a as u32 }
}

pub fn forward(n: usize) -> Instruction {
    Instruction { kind: 3, operand: n as u32 }
}

pub fn backward(n: usize) -> Instruction {
    Instruction { kind: 4, operand: n as u32 }
}

pub fn add(r: usize) -> Instruction {
    Instruction { kind: 1, operand: r as u32 }
}

fn clear(a: usize) -> [Instruction; 3] {
    [cases(a), forward(2), backward(2)]
}

pub fn spread(a: usize, b: usize, t: usize) -> Vec<Instruction> {
    vec![cases(a), forward(4), add(b), add(t), backward(4), cases(t), forward(3), add(a), backward(3)]
}

/// The instructions of the lines from `at` to the end of their block, and the line after it.
fn block(commands: &[Command], k: usize, depth: usize, mut at: usize) -> (Vec<Instruction>, usize) {
    let t = k + 1;
    let mut code = Vec::new();
    while at < commands.len() {
        match commands[at] {
            Command::Clear(i) => code.extend(clear(i as usize + 1)),
            Command::Increment(i) => code.push(add(i as usize + 1)),
            Command::Copy { to, from } if to == from => {
                let a = from as usize + 1;
                code.extend([cases(a), forward(2), add(a)]);
            }
            Command::Copy { to, from } => {
                let (b, a) = (to as usize + 1, from as usize + 1);
                code.extend(clear(b));
                code.extend(spread(a, b, t));
            }
            Command::Open(kind, i) => {
                let a = i as usize + 1;
                let inner = if kind == Kind::Loop { depth + 1 } else { depth };
                let (body, end) = block(commands, k, inner, at + 1);
                let m = body.len();
                if kind == Kind::Loop {
                    let c = k + 2 + depth;
                    code.extend(spread(a, c, t));
                    code.extend([cases(c), forward(m + 2)]);
                    code.extend(body);
                    code.push(backward(m + 2));
                } else {
                    code.extend([cases(a), forward(m + 3), add(a)]);
                    code.extend(body);
                    code.push(backward(m + 3));
                }
                at = end;
            }
            Command::Close(..) => return (code, at),
        }
        at += 1;
    }
    (code, at)
}

/// The word of an accepted program, as its instructions. In the tidy form "clears of registers 2 to K follow in rising order".
pub fn translate(form: Form, commands: &[Command]) -> Vec<Instruction> {
    let k = variables(commands);
    let mut word = vec![forward(1)];
    word.extend(block(commands, k, 0, 0).0);
    if form == Form::Tidy {
        word.extend((2..=k).flat_map(clear));
    }
    word
}

/// The steps of the tidy form's clears, each "charged 2v+2 for its content v", by the contents of registers 2 to K after the plain word.
pub fn tidy_charges<'a>(contents: impl Iterator<Item = &'a [u8]>) -> u64 {
    contents.map(|content| 2 * content.len() as u64 + 2).sum()
}

/// The charge of the step that a state is about to do.
pub fn charge(command: Command, state: &State, passes_after: u64) -> u64 {
    let value = |i: u64| u64::from(state.values[i as usize]);
    match command {
        Command::Increment(_) => 1,
        Command::Clear(i) => 2 * value(i) + 2,
        Command::Copy { to, from } if to == from => 2,
        Command::Copy { to, from } => 2 * value(to) + 7 * value(from) + 6,
        Command::Open(Kind::Loop, i) => match value(i) {
            0 => 6,
            k => 7 * k + 5,
        },
        Command::Close(Kind::Loop, _) => {
            if passes_after > 0 {
                2
            } else {
                3
            }
        }
        Command::Open(Kind::While, _) => 2,
        Command::Close(Kind::While, _) => 1,
    }
}
