//! The source interpreter. Each variable has its own capacity (document 02, request 5).

use crate::program::{layout, variables, Command, Kind};
use crate::translation::charge;
use crate::{refuse, End, Refusal};

pub const CAPACITY: u32 = 1_024;

/// Where the numbers of a state stand for the C entries, behind the capacities; and how many there are.
pub const LINE: usize = 32;
pub const STEPS: usize = 33;
pub const VALUES: usize = 34;
pub const PASSES: usize = 66;
pub const NUMBERS: usize = 82;

#[derive(Clone, PartialEq, Eq, Debug)]
pub struct State {
    /// "A variable's capacity is that of its register": variable i's at i.
    pub capacities: [u32; 32],
    pub line: u32,
    pub steps: u32,
    pub values: [u32; 32],
    pub passes: [u32; 16],
}

impl State {
    pub fn fresh(capacities: [u32; 32], values: [u32; 32]) -> State {
        State { capacities, line: 1, steps: 0, values, passes: [0; 16] }
    }

    /// The same with one capacity for all variables.
    pub fn alike(capacity: u32, values: [u32; 32]) -> State {
        State::fresh([capacity; 32], values)
    }

    /// The state as the C entries have it: capacities, line, steps, values, passes-left.
    pub fn numbers(&self) -> [u32; NUMBERS] {
        let mut numbers = [0; NUMBERS];
        numbers[..LINE].copy_from_slice(&self.capacities);
        numbers[LINE] = self.line;
        numbers[STEPS] = self.steps;
        numbers[VALUES..PASSES].copy_from_slice(&self.values);
        numbers[PASSES..].copy_from_slice(&self.passes);
        numbers
    }

    pub fn from_numbers(numbers: &[u32]) -> Option<State> {
        Some(State {
            capacities: numbers.get(..LINE)?.try_into().ok()?,
            line: *numbers.get(LINE)?,
            steps: *numbers.get(STEPS)?,
            values: numbers.get(VALUES..PASSES)?.try_into().ok()?,
            passes: numbers.get(PASSES..)?.try_into().ok()?,
        })
    }
}

/// The variables of the loops whose body or `endloop` holds a line, outermost first.
fn loops_around(commands: &[Command], line: u32) -> Vec<usize> {
    let mut open = Vec::new();
    for command in &commands[..line as usize - 1] {
        match command {
            Command::Open(Kind::Loop, i) => open.push(*i as usize),
            Command::Close(Kind::Loop, _) => {
                open.pop();
            }
            _ => {}
        }
    }
    open
}

/// Rule 9, which reads the capacities "only of variables below K, and for a passes-left that of its loop's variable".
pub fn check(commands: &[Command], state: &State) -> Result<(), Refusal> {
    let lines = commands.len() as u32;
    let k = variables(commands);
    let sizes = state.capacities[..k].iter().all(|c| (1..=CAPACITY).contains(c)) && (1..=lines + 1).contains(&state.line);
    if !sizes {
        return refuse(9, 0);
    }
    let values = state.values.iter().enumerate().all(|(i, &v)| if i < k { v <= state.capacities[i] } else { v == 0 });
    let around = loops_around(commands, state.line);
    let passes = state.passes.iter().enumerate().all(|(d, &p)| match around.get(d) {
        Some(&i) => (1..=state.capacities[i]).contains(&p),
        None => p == 0,
    });
    if values && passes {
        Ok(())
    } else {
        refuse(9, 0)
    }
}

/// How a run ended, the steps it took and the sum of their charges.
#[derive(Clone, Copy, PartialEq, Eq, Debug)]
pub struct Ran {
    pub end: End,
    pub steps: u32,
    pub charges: u64,
}

/// A run of an accepted program from a good state.
pub fn run(commands: &[Command], state: &mut State, budget: u32) -> Ran {
    let places = layout(commands);
    let mut ran = Ran { end: End::Spent, steps: 0, charges: 0 };
    loop {
        let at = state.line as usize - 1;
        if at == commands.len() {
            ran.end = End::Halted;
            return ran;
        }
        if ran.steps == budget || state.steps == u32::MAX {
            return ran;
        }
        let command = commands[at];
        let depth = places.depth[at];
        let passes_after = match command {
            Command::Close(Kind::Loop, _) => u64::from(state.passes[depth - 1]) - 1,
            _ => 0,
        };
        let cost = charge(command, state, passes_after);
        let after = at + 2;
        let past_partner = places.partner[at] + 2;
        let mut next = after;
        match command {
            Command::Clear(i) => state.values[i as usize] = 0,
            Command::Increment(i) => {
                if state.values[i as usize] == state.capacities[i as usize] {
                    ran.end = End::Full;
                    return ran;
                }
                state.values[i as usize] += 1;
            }
            Command::Copy { to, from } => {
                let value = state.values[from as usize];
                // "a copy too long for its target is full"
                if value > state.capacities[to as usize] {
                    ran.end = End::Full;
                    return ran;
                }
                state.values[to as usize] = value;
            }
            Command::Open(kind, i) => {
                let value = state.values[i as usize];
                if value == 0 {
                    next = past_partner;
                } else if kind == Kind::Loop {
                    state.passes[depth] = value;
                }
            }
            Command::Close(Kind::Loop, _) => {
                state.passes[depth - 1] -= 1;
                if state.passes[depth - 1] > 0 {
                    next = past_partner;
                }
            }
            Command::Close(Kind::While, _) => next = places.partner[at] + 1,
        }
        state.line = next as u32;
        state.steps += 1;
        ran.steps += 1;
        ran.charges += cost;
    }
}
