//! Words that go round for ever, and what nearly does: where whole rounds may be skipped.

use super::drains::{counted, drain, lists, ones};
use crate::machine::{Machine, CAPACITY};
use crate::program::{read, Setting};
use crate::translation::{add, backward, cases, forward, translate, Form};
use crate::word::Instruction;
use crate::End;

type Word = Vec<Instruction>;

/// The steps of a run before the first state that it comes to again, and those of a round; none where the run ends, or goes on for so many
/// steps with no return.
pub fn return_of(word: &[Instruction], machine: &Machine, most: u32) -> Option<(u32, u32)> {
    let fresh = Machine { steps: 0, ..machine.clone() };
    let step = |machine: &mut Machine| {
        machine.steps = 0;
        machine.run(word, 1) == (End::Spent, 1)
    };
    let same = |one: &Machine, other: &Machine| (one.place, &one.lengths, &one.store) == (other.place, &other.lengths, &other.store);
    let (mut noted, mut later, mut room, mut round) = (fresh.clone(), fresh.clone(), 1, 0);
    for _ in 0..most {
        if !step(&mut later) {
            return None;
        }
        round += 1;
        if same(&noted, &later) {
            let (mut before, mut one, mut other) = (0, fresh.clone(), fresh);
            (0..round).for_each(|_| assert!(step(&mut other)));
            while !same(&one, &other) {
                assert!(step(&mut one) && step(&mut other));
                before += 1;
            }
            return Some((before, round));
        }
        if round == room {
            (noted, room, round) = (later.clone(), room * 2, 0);
        }
    }
    None
}

/// A round of so many steps that go forward, and one backward, from behind so many steps forward.
pub fn ring(before: usize, round: usize) -> Word {
    [vec![forward(1); before + round - 1], vec![backward(round - 1)]].concat()
}

/// Every word of at most so many of these instructions.
pub fn words(of: &[Instruction], most: usize) -> Vec<Word> {
    lists(of, most).into_iter().filter(|word| !word.is_empty()).collect()
}

/// Moves the 1s of register `a` to `b` and back, each by way of these instructions.
fn there_and_back(a: usize, b: usize, each: &[Instruction]) -> Word {
    let moved = |from: usize, to: usize| counted(from, &[each, &[add(to)]].concat());
    [moved(a, b), moved(b, a)].concat()
}

/// The same for ever, by loops that have a forward step inside.
pub fn to_and_fro(a: usize, b: usize) -> Word {
    [there_and_back(a, b, &[forward(1)]), vec![backward(10)]].concat()
}

/// The same by way of these instructions, and each time it appends to `c` until that is full.
pub fn never_the_same(a: usize, b: usize, c: usize, each: &[Instruction]) -> Word {
    let moves = there_and_back(a, b, each);
    [&moves[..], &[add(c), backward(moves.len() + 1)]].concat()
}

/// Loops whose rounds change register r alone: it is empty and not, by turns; it grows by one, or by 256, until it is full; it is emptied
/// one by one, and the word halts; it falls one by one, and is then 2 and 1 by turns.
pub fn of_one(r: usize) -> Vec<Word> {
    vec![
        vec![cases(r), add(r), backward(2)],
        vec![add(r), backward(1)],
        [vec![add(r); 256], vec![backward(256)]].concat(),
        vec![cases(r), forward(3), forward(1), backward(3)],
        vec![cases(r), forward(2), cases(r), add(r), add(r), backward(5)],
    ]
}

/// The word of a program, and the registers that it names, of these capacities from the first on, and the same again; with these values.
pub fn program(text: &str, capacities: &[u16], values: &[usize]) -> (Word, Machine) {
    let word = translate(Form::Plain, &read(Setting::Any, text.as_bytes()).expect("an accepted program"));
    let named = word.iter().filter_map(|i| i.register()).max().unwrap_or(1);
    let capacities: Vec<_> = capacities.iter().copied().cycle().take(named).collect();
    let machine = ones(&capacities, values);
    (word, machine)
}

/// An endless loop around these lines.
pub fn endless(lines: &str) -> String {
    format!("while X0 != 0\n{lines}endwhile X0 != 0\n")
}

/// X1 is made one less, by way of X2 and X3.
const ONE_LESS: &str = "X2 <- 0\nX3 <- 0\nloop X1\nX2 <- X3\nX3 <- X3 + 1\nendloop X1\nX1 <- X2\n";

/// Loops of programs that return: at once or after a first round that is another; by rounds of few steps and of many, with and without
/// loops inside of which many turns are done at once; some only after several times round the outermost loop.
pub fn programs() -> Vec<(Word, Machine)> {
    let (most, unequal) = (CAPACITY as u16, [1_000, 1_024, 999, 1_001]);
    let count_down = endless(&format!("X1 <- X4\nwhile X1 != 0\n{ONE_LESS}endwhile X1 != 0\n"));
    let product = "loop X1\nloop X2\nX3 <- X3 + 1\nendloop X2\nendloop X1\nX3 <- 0\n";
    let turned = "X4 <- X1\nX1 <- X2\nX2 <- X3\nX3 <- X4\n";
    vec![
        program(&endless(""), &[1], &[1]),
        program(&endless("X0 <- X0\n"), &[3], &[3]),
        program(&endless("X1 <- X1\n"), &[2, 1], &[2]),
        program(&endless("X1 <- X1 + 1\nX1 <- 0\n"), &[4, 6], &[2, 5]),
        program(&endless("X0 <- 0\nX0 <- X0 + 1\n"), &[most], &[2]),
        program(&endless("X0 <- 0\nX0 <- X0 + 1\n"), &[most], &[700]),
        program(&endless("X1 <- X0\n"), &[1], &[1]),
        program(&endless("X1 <- X0\n"), &[100, 101, 100], &[100]),
        program(&endless("X1 <- X0\n"), &unequal, &[113, 400]),
        program(&endless("X1 <- X0\n"), &unequal, &[999]),
        program(&endless("X3 <- X1\nX1 <- X2\nX2 <- X3\n"), &[9, 8, 7], &[1, 5, 7]),
        program(&endless("X3 <- X1\nX1 <- X2\nX2 <- X3\n"), &unequal, &[1, 100, 300]),
        program(&endless(turned), &unequal, &[1, 256, 0, 512]),
        program(&endless(product), &[16], &[1, 4, 4]),
        program(&endless(product), &unequal, &[1, 9, 9]),
        program(&endless(product), &unequal, &[1, 30, 30]),
        program(&endless(&product.repeat(2)), &unequal, &[1, 7, 40]),
        program(&count_down, &[5], &[1, 0, 0, 0, 3]),
        program(&count_down, &unequal, &[1, 5, 2, 0, 12]),
    ]
}

/// Loops of programs that come back to their place and never to their lengths, until a register is full or the word halts.
pub fn other_programs() -> Vec<(Word, Machine)> {
    vec![
        program(&endless("X1 <- X1 + 1\n"), &[1_024], &[1]),
        program(&endless("X1 <- X1 + 1\nX2 <- X1\n"), &[40, 30, 50, 40], &[1]),
        program(&endless("X2 <- X2 + 1\nX1 <- X1 + 1\nX1 <- 0\n"), &[2, 2, 1_024], &[1]),
        program(&endless("X0 <- X0 + 1\n"), &[1_000], &[1]),
        program(&endless(ONE_LESS).replace("X0", "X1"), &[30], &[0, 24]),
    ]
}

/// Words of their own kind that return, with drains and without.
pub fn other_words() -> Vec<(Word, Machine)> {
    let emptied = [&drain(1, &[2])[..], &drain(2, &[1]), &[backward(8)]].concat();
    let with_more = [&drain(1, &[2, 3])[..], &drain(2, &[1]), &drain(3, &[]), &[backward(12)]].concat();
    let mut found = vec![
        (to_and_fro(1, 2), ones(&[7, 5], &[5])),
        (to_and_fro(2, 1), ones(&[102, 101, 3], &[0, 101, 2])),
        (to_and_fro(1, 4), ones(&[300, 1, 1, 299], &[200, 1, 0, 99])),
        (to_and_fro(1, 2), ones(&[1_024; 2], &[513, 2])),
        (emptied.clone(), ones(&[9, 5], &[4])),
        (emptied.clone(), ones(&[170; 2], &[170])),
        (emptied, ones(&[1_024; 3], &[900, 60, 7])),
        (with_more.clone(), ones(&[255; 3], &[255])),
        (with_more, ones(&[1_024, 1_023, 1_022], &[600, 300, 100])),
    ];
    found.extend([(0, 2), (3, 4), (1_020, 5), (1_023, 1_025), (2, 1_500), (2_500, 700)].map(|(t, p)| (ring(t, p), ones(&[1], &[]))));
    found
}
