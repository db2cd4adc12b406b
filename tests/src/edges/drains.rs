//! Loops of a word that empty a register and add to others, and what is nearly one: where many turns may be done at once.

use crate::machine::{Machine, CAPACITY, REGISTERS};
use crate::translation::{add, backward, cases, forward, spread};
use crate::word::{Instruction, INSTRUCTIONS};

type Word = Vec<Instruction>;

pub fn mark(r: usize) -> Instruction {
    Instruction { kind: 2, operand: r as u32 }
}

/// Cases on `a`, what is done when it is empty, these instructions, and back by `n`.
fn turned(a: usize, when_empty: Instruction, body: &[Instruction], n: usize) -> Word {
    [&[cases(a), when_empty], body, &[backward(n)]].concat()
}

fn adds(to: &[usize]) -> Word {
    to.iter().map(|&r| add(r)).collect()
}

/// The loop that empties `a` and adds 1 to each of `to` a turn; it is left forward when `a` is empty.
pub fn drain(a: usize, to: &[usize]) -> Word {
    turned(a, forward(to.len() + 2), &adds(to), to.len() + 2)
}

/// A loop with this body, counted by `c`.
pub fn counted(c: usize, body: &[Instruction]) -> Word {
    turned(c, forward(body.len() + 2), body, body.len() + 2)
}

/// Every list of at most `most` of these, with those that have one twice.
pub fn lists<T: Copy>(items: &[T], most: usize) -> Vec<Vec<T>> {
    let mut found = vec![Vec::new()];
    let mut shorter = 0;
    for _ in 0..most {
        let longer: Vec<_> =
            found[shorter..].iter().flat_map(|list| items.iter().map(move |&item| [&list[..], &[item]].concat())).collect();
        shorter = found.len();
        found.extend(longer);
    }
    found
}

/// Drains of register 1 of up to 4 appends to registers 1 to 3; where register 1 is among them it is none.
pub fn drains() -> Vec<Word> {
    lists(&[1, 2, 3], 4).iter().map(|to| drain(1, to)).collect()
}

/// Drains of up to two appends with one thing changed: what is done when the register is empty, how far the last step goes, or another
/// instruction among the appends.
pub fn nearly() -> Vec<Word> {
    let mut found = Vec::new();
    for to in lists(&[1, 2, 3], 2) {
        let (body, n) = (adds(&to), to.len() + 2);
        let others =
            [forward(1), forward(2), forward(9), backward(1), backward(2), backward(9), add(1), add(2), mark(3), cases(1), cases(2)];
        found.extend(others.map(|when_empty| turned(1, when_empty, &body, n)));
        found.extend([1, n - 1, n + 1, n + 2, 9].map(|off| turned(1, forward(n), &body, off)));
        // cases when it is empty: the last step may be that of a loop which begins there
        found.extend([n - 1, n, n + 1].map(|off| turned(1, cases(2), &body, off)));
        found.push([&[cases(1), forward(n)], &body[..], &[forward(1)]].concat());
        for at in 0..=body.len() {
            for other in [forward(1), forward(2), backward(1), mark(1), mark(2), cases(1), cases(2), cases(3)] {
                let mixed = [&body[..at], &[other], &body[at..]].concat();
                found.push(turned(1, forward(n + 1), &mixed, n + 1));
            }
        }
    }
    found
}

/// A word with more around it: a step before it, on which a backward step may land, and an append behind it; a `#` appended behind it, or
/// before it where the first step goes past; a drain before it and one behind it; it as the body of a loop; and each of its places come
/// to first.
pub fn among_others(word: &[Instruction]) -> Vec<Word> {
    let long = word.len();
    let mut found = vec![
        [&[forward(1)], word, &[add(3)]].concat(),
        [word, &[mark(2)]].concat(),
        [&[forward(2), mark(2)], word].concat(),
        [&drain(2, &[1]), word, &drain(3, &[2, 2])].concat(),
        counted(3, word),
    ];
    found.extend((1..long).map(|at| [&[forward(1 + at)], word].concat()));
    found
}

/// Drains one after another, inside one another, and across one another.
pub fn several() -> Vec<Word> {
    vec![
        [drain(1, &[2]), drain(2, &[1, 3])].concat(),
        [drain(1, &[2, 3]), drain(3, &[1])].concat(),
        [drain(1, &[]), drain(2, &[]), drain(3, &[])].concat(),
        [&drain(1, &[2]), &drain(2, &[1])[..], &[backward(8)]].concat(),
        [&spread(1, 2, 3)[..], &spread(2, 1, 3), &drain(1, &[])].concat(),
        counted(1, &drain(2, &[3])),
        counted(1, &[drain(2, &[3]), drain(3, &[2, 4])].concat()),
        counted(1, &spread(2, 4, 3)),
        counted(1, &counted(2, &drain(3, &[4]))),
        counted(1, &[&[add(3)], &drain(2, &[4])[..], &[add(2)]].concat()),
        // the last step is that of two loops
        vec![cases(1), cases(2), add(3), add(3), backward(4)],
        vec![cases(1), cases(2), add(3), add(3), backward(3)],
        vec![cases(1), cases(2), backward(2)],
        vec![cases(1), cases(1), cases(1), backward(2)],
        vec![cases(1), add(1), add(2), backward(3)],
        vec![cases(1), add(2), backward(2), cases(2), forward(2), backward(2)],
        // the next turn is that of another loop
        [vec![cases(1), forward(4), add(2), cases(2), backward(2)], drain(2, &[3])].concat(),
        vec![backward(1), cases(1), forward(3), add(2), backward(3)],
        vec![cases(1), forward(3), add(2), backward(3), backward(4)],
    ]
}

/// Registers of these capacities that hold so many 1s, the others none.
pub fn ones(capacities: &[u16], lengths: &[usize]) -> Machine {
    Machine::fresh(capacities, &lengths.iter().map(|&n| vec![b'1'; n]).collect::<Vec<_>>())
}

/// Four registers with room, with little, of capacity 1, the first of them empty, and one of them full.
pub fn machines() -> Vec<Machine> {
    vec![
        ones(&[5, 9, 9, 5], &[3, 0, 1, 2]),
        ones(&[4, 3, 7, 1], &[4, 1, 0, 1]),
        ones(&[1, 1, 1, 1], &[1, 0, 0, 0]),
        ones(&[3, 6, 5, 4], &[0, 2, 3, 1]),
        ones(&[6, 2, 4, 3], &[5, 0, 4, 0]),
    ]
}

/// Four registers of 1s with one `#`, in each register and at each place there.
pub fn marked() -> Vec<Machine> {
    let mut found = Vec::new();
    for at in 0..4 {
        for place in 0..3 {
            let mut contents = [vec![b'1'; 3], vec![b'1'; 2], vec![b'1'; 1], vec![b'1'; 2]];
            contents[at].insert(place.min(contents[at].len()), b'#');
            found.push(Machine::fresh(&[6, 7, 5, 4], &contents));
        }
    }
    found
}

/// Registers 1 to 3 of every capacity from 1 to 3 with every number of 1s.
pub fn rooms() -> Vec<Machine> {
    let fillings: Vec<(u16, usize)> = (1..=3).flat_map(|c| (0..=c).map(move |n| (c, usize::from(n)))).collect();
    let with =
        |first: (u16, usize), second: (u16, usize), third: (u16, usize)| ones(&[first.0, second.0, third.0], &[first.1, second.1, third.1]);
    let pairs = fillings.iter().flat_map(|&first| fillings.iter().map(move |&second| (first, second)));
    pairs.flat_map(|(first, second)| fillings.iter().map(move |&third| with(first, second, third))).collect()
}

/// Long drains: registers near the largest capacity; more steps than 16 bits count; many appends; and one at the end of a word of as many
/// instructions as there may be.
pub fn long() -> Vec<(Word, Machine)> {
    let (most, last) = (CAPACITY as u16, REGISTERS);
    let mut found = Vec::new();
    for (lengths, room, to) in [
        ([1_024, 0], 1_024, &[2][..]),
        ([1_024, 1], 1_024, &[2]),
        ([1_023, 1], 1_024, &[2]),
        ([1_024, 0], 1_023, &[2]),
        ([1_000, 0], 1, &[2]),
        ([512, 0], 1_024, &[2, 2]),
        ([513, 0], 1_024, &[2, 2]),
        ([700, 0], 1_023, &[2, 2]),
        ([400, 5], 1_000, &[2, 2, 2]),
        ([256, 255], 512, &[2]),
        ([1_024, 300], 300, &[]),
    ] {
        found.push((drain(1, to), ones(&[most, room, 7], &lengths)));
    }
    let all: Vec<usize> = (2..=last).collect();
    found.push((drain(1, &all), ones(&[most; REGISTERS], &[CAPACITY])));
    found.push((drain(1, &all), ones(&[[most; REGISTERS - 1].to_vec(), vec![999]].concat(), &[1_000])));
    found.push((drain(last, &[1, last - 1]), ones(&[most; REGISTERS], &[vec![9; REGISTERS - 1], vec![1_000]].concat())));
    found.push((drain(1, &[2; 200]), ones(&[most, 999], &[6, 100])));
    found.push((drain(1, &[2, 3].repeat(300)), ones(&[most, 900, most], &[6, 0])));
    let far = drain(1, &[2, 3]);
    let between = INSTRUCTIONS - 1 - far.len();
    found.push(([vec![forward(between + 1)], vec![add(1); between], far].concat(), ones(&[300, 300, 299], &[300])));
    found
}
