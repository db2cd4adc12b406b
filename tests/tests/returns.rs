//! Runs that come back to a state they were in, where whole rounds may be skipped, and runs that come back to the place alone: every small
//! word, rounds of few steps and of thousands, by budgets around whole rounds and around the steps at which a state may be noted, and near
//! the largest count of steps; reports; and words and programs by chance. Each run is of the word and of its table, on the twin and, where
//! it is linked, on the library.

use twin::cases::{machine_after, outcome, Case};
use twin::edges::drains::ones;
use twin::edges::returns::{endless, never_the_same, of_one, other_programs, other_words, program, programs, return_of, ring, words};
use twin::machine::{Machine, CAPACITY, REGISTERS};
use twin::page::REPORT_BYTES;
use twin::program::{write, Setting};
use twin::random::{rounds, Random, LONGEST};
use twin::runs::{below_the_top, by_each, counted_ends, cut_in_two, end, ran};
use twin::translation::{add, backward, cases, forward};
use twin::word::Instruction;
use twin::{Answer, End};

/// A state may be noted after so many steps, and whenever they have doubled.
const NOTED: u32 = 1_024;

/// A return is looked for within so many steps.
const MOST: u32 = 300_000;

/// Numbers beside one.
fn beside(n: u32) -> [u32; 3] {
    [n.saturating_sub(1), n, n + 1]
}

/// Budgets around those steps.
fn where_noted() -> Vec<u32> {
    [NOTED - 1..=NOTED + 2, 2 * NOTED - 1..=2 * NOTED + 2, 4 * NOTED - 1..=4 * NOTED + 4].into_iter().flatten().collect()
}

/// Budgets that end at a whole round, beside it and inside it, from the start, from where the rounds begin and from where a state is noted.
fn around(before: u32, round: u32) -> Vec<u32> {
    let noted = (0..4).map(|n| NOTED << n);
    let from = [0, before].into_iter().chain(noted.filter(|n| n / 8 <= before + round));
    let after = from.flat_map(|n| [1, 2, 3].map(|rounds| n + rounds * round));
    after.flat_map(|n| [n - 1, n, n + 1, n + round / 2]).collect()
}

/// A run that returns so.
fn returns(word: &[Instruction], machine: &Machine, before: u32, round: u32) {
    by_each(word, machine, where_noted().into_iter().chain(around(before, round)));
}

/// A run that returns; or one that ends.
fn goes(word: &[Instruction], machine: &Machine) -> Option<(u32, u32)> {
    let found = return_of(word, machine, MOST);
    match found {
        Some((before, round)) => returns(word, machine, before, round),
        None => {
            let (ended, steps) = machine.clone().run(word, u32::MAX);
            assert_ne!(ended, End::Spent);
            by_each(word, machine, where_noted().into_iter().chain(beside(steps / 2)).chain(beside(steps)).chain([u32::MAX]));
        }
    }
    found
}

/// By hand: a round is of 5 steps, behind the first step.
#[test]
fn by_hand() {
    let (word, machine) = program(&endless("X0 <- X0\n"), &[7], &[3]);
    assert_eq!(return_of(&word, &machine, MOST), Some((1, 5)));
    let places = [(2, 3), (4, 2), (5, 3), (7, 2), (8, 3)];
    for (n, (place, length)) in (1_000_001..).zip(places) {
        let outcome = ran(&word, &machine, n);
        let after = machine_after(&machine, &outcome);
        assert_eq!((end(&outcome), after.place, after.lengths, after.steps), ((End::Spent, n), place, vec![length], n));
    }
}

/// Steps forward and backward alone.
#[test]
fn every_small_word_of_jumps() {
    let machine = ones(&[1], &[]);
    let jumps: Vec<_> = (1..=3).flat_map(|n| [forward(n), backward(n)]).collect();
    let mut found = 0;
    for word in words(&jumps, 4) {
        if let Some((_, round)) = return_of(&word, &machine, 20) {
            by_each(&word, &machine, (0..=2 * round + 1).chain(where_noted()));
            found += 1;
        }
    }
    assert!(found > 200, "{found}");
}

/// Every word of up to 4 instructions on two registers.
#[test]
fn every_small_word() {
    let instructions = [add(1), add(2), cases(1), cases(2), forward(1), forward(2), backward(1), backward(2), backward(3)];
    let machines = [ones(&[3, 2], &[]), ones(&[1, 3], &[1, 2]), ones(&[300, 200], &[300])];
    let mut found = 0;
    for word in words(&instructions, 4) {
        for machine in &machines {
            if let Some((_, round)) = return_of(&word, machine, 3_000) {
                by_each(&word, machine, beside(NOTED + 3 * round).into_iter().chain([2 * round, NOTED - 1, 2 * NOTED + 1]));
                found += 1;
            } else if word.len() < 4 {
                by_each(&word, machine, [NOTED - 1, NOTED + 1, 2 * NOTED]);
            }
        }
    }
    assert!(found > 2_000, "{found}");
}

/// Rounds of jumps that begin at once or late, and are of as many steps as there are before a state is noted anew, or about.
#[test]
fn every_length() {
    let machine = ones(&[2, 1], &[1]);
    for before in [0, 1, 2, 1_022, 1_023, 1_024, 1_025, 2_048, 2_600] {
        for round in [2, 3, 7, 511, 512, 1_023, 1_024, 1_025, 2_047, 2_048, 2_049, 3_000] {
            let word = ring(before, round);
            returns(&word, &machine, before as u32, round as u32);
        }
    }
}

/// Of 64 registers one changes alone; or all return sooner than one.
#[test]
fn one_register_of_64() {
    let lengths: Vec<usize> = (0..REGISTERS).map(|r| r / 3).collect();
    for r in 1..=REGISTERS {
        let mut capacities: Vec<_> = (0..REGISTERS as u16).map(|r| 30 + r % 3).collect();
        capacities[r - 1] = CAPACITY as u16;
        let mut machine = ones(&capacities, &lengths);
        for word in of_one(r) {
            by_each(&word, &machine, where_noted().into_iter().chain(50..60).chain([3 * NOTED]));
        }
        machine.empty(r);
        let others: Vec<_> = (1..=REGISTERS).filter(|&other| other != r).collect();
        let up = others.iter().map(|&other| add(other));
        let down = others.iter().flat_map(|&other| [cases(other), forward(1)]);
        let mut word: Vec<_> = up.chain(down).chain([cases(r), add(r)]).collect();
        word.push(backward(word.len()));
        by_each(&word, &machine, [NOTED + 500, 2 * NOTED + 999, 3 * NOTED]);
    }
}

#[test]
fn programs_that_return() {
    let found: Vec<_> = programs().iter().map(|(word, machine)| goes(word, machine).expect("a return")).collect();
    let (before, round) = (found.iter().map(|f| f.0), found.iter().map(|f| f.1));
    assert!(before.max() > Some(NOTED) && round.max() > Some(20 * NOTED), "{found:?}");
}

#[test]
fn programs_that_never_return() {
    assert!(other_programs().iter().all(|(word, machine)| goes(word, machine).is_none()));
}

#[test]
fn other_words_that_return() {
    assert!(other_words().iter().all(|(word, machine)| goes(word, machine).is_some()));
}

/// Rounds that are the same but for one register, the last or the first, until it is full.
#[test]
fn all_but_one() {
    let of_64 = |most: u16| ones(&[most; REGISTERS], &[vec![2; 61], vec![9]].concat());
    for ([a, b, c], machine) in [
        ([1, 2, 3], ones(&[5, 4, 1_000], &[4])),
        ([1, 2, 3], ones(&[60, 61, 30], &[60, 0, 2])),
        ([62, 63, 64], of_64(9)),
        ([2, 64, 1], of_64(40)),
    ] {
        assert_eq!(goes(&never_the_same(a, b, c, &[forward(1)]), &machine), None);
    }
}

/// A round of more steps than 16 bits count.
#[test]
fn a_long_round() {
    let (word, machine) = program(&endless("loop X1\nloop X2\nX3 <- X2\nendloop X2\nendloop X1\n"), &[30], &[1, 10, 27]);
    let (before, round) = return_of(&word, &machine, MOST).expect("a return");
    assert!(round > 1 << 16);
    by_each(&word, &machine, beside(before + 4 * round).into_iter().chain([before + 5 * round + round / 2]));
}

/// From every place, and from states before a round and in it.
#[test]
fn every_start() {
    for (word, machine) in programs().into_iter().chain(other_words()).filter(|(word, _)| word.len() < 60) {
        for place in 0..=word.len() as i32 + 2 {
            by_each(&word, &Machine { place, ..machine.clone() }, [NOTED + 3, 3 * NOTED]);
        }
        let (before, round) = return_of(&word, &machine, MOST).expect("a return");
        for done in [1, before / 2, before, before + 1, before + round / 3, before + round - 1, before + round] {
            let mut machine = machine.clone();
            machine.run(&word, done);
            by_each(&word, &machine, [round, NOTED + round, 2 * NOTED + 1]);
        }
    }
}

/// Both the budget and the count of steps have a bound, and either may be the less, by a little or by a round.
#[test]
fn two_bounds() {
    for (word, machine) in programs() {
        let (before, round) = return_of(&word, &machine, MOST).expect("a return");
        let n = before + 3 * round + 2 * NOTED;
        for left in [0, 1, n - round, n - 1, n, n + 1, n + round] {
            ran(&word, &below_the_top(&machine, left), n);
        }
        for steps in [1, NOTED, 5_000, u32::MAX / 2] {
            ran(&word, &Machine { steps, ..machine.clone() }, n);
        }
    }
}

#[test]
fn budgets_cut_in_two() {
    for (word, machine) in programs().into_iter().chain(other_words()) {
        let (before, round) = return_of(&word, &machine, MOST).expect("a return");
        let budget = before + 2 * round + 2 * NOTED;
        cut_in_two(&word, &machine, budget, [1, before, before + 1, before + round, NOTED, NOTED + round / 2, budget - 1]);
    }
}

/// A `#` in one register, named or not: the state is then more than lengths.
#[test]
fn one_mark() {
    for (word, machine) in programs().into_iter().chain(other_words()) {
        for r in 1..=machine.registers() {
            let length = usize::from(machine.lengths[r - 1]);
            for at in [0, length / 2, length.saturating_sub(1)].into_iter().filter(|&at| at < length) {
                let mut marked = machine.clone();
                marked.store[machine.offset(r) + at] = b'#';
                by_each(&word, &marked, [NOTED + 1, 3 * NOTED]);
            }
        }
        let mut unnamed = machine.clone();
        (unnamed.capacities, unnamed.lengths) = ([&machine.capacities[..], &[2]].concat(), [&machine.lengths[..], &[2]].concat());
        unnamed.store.extend(b"1#");
        by_each(&word, &unnamed, [NOTED + 1, 3 * NOTED]);
    }
}

#[test]
fn words_by_chance() {
    let mut random = Random::new(3);
    let (mut ends, mut long, count) = ([0; 4], 0, rounds(40_000));
    for _ in 0..count {
        let (word, machine) = random.going_round();
        let (machine, budget) = if random.once_in(2) {
            random.started(Some(word.clone()), machine)
        } else {
            let budget = random.below(LONGEST as usize + 1) as u32;
            (Machine { steps: random.count(budget), ..machine }, budget)
        };
        let outcome = ran(&word, &machine, budget);
        counted_ends(&mut ends, &outcome);
        long += usize::from(end(&outcome).0 == End::Spent && end(&outcome).1 > NOTED);
    }
    assert!(long > count / 4 && ends.iter().all(|&n| n > count / 50), "{ends:?} {long}");
}

/// Endless loops around programs.
#[test]
fn programs_by_chance() {
    let mut random = Random::new(33);
    let (mut ends, mut long, count) = ([0; 4], 0, rounds(5_000));
    for _ in 0..count {
        let lines = 1 + random.below(6);
        let commands = random.program(Setting::Any, lines, 4);
        let capacities: Vec<_> = (0..8).map(|_| random.pick(&[6, 9, 12, 300])).collect();
        let values: Vec<_> = (0..4).map(|_| 1 + random.below(6)).collect();
        let lines = String::from_utf8(write(&commands)).expect("ASCII");
        let (word, mut machine) = program(&endless(&(lines + "X3 <- 0\n")), &capacities, &values);
        machine.run(&word, random.pick(&[0, 0, 7, 300]));
        let budget = 1 + random.below(LONGEST as usize) as u32;
        let outcome = ran(&word, &machine, budget);
        counted_ends(&mut ends, &outcome);
        long += usize::from(end(&outcome).0 == End::Spent && end(&outcome).1 > NOTED);
        ran(&word, &below_the_top(&machine, budget), LONGEST);
    }
    assert!(long > count / 4 && [ends[0], ends[3]].iter().all(|&n| n > count / 50), "{ends:?} {long}");
}

/// Rows that are spent, among others and alone, on registers alike and not.
#[test]
fn reports() {
    let sheets = ["X0 X1\n1 3\n0 2\n5 0\n", "X1 X0\n100 1\n300 2\n0 0\n", "X0\n1\n1\n1\n1\n", "X1 X2 X0\n7 40 1\n1 1 1\n12 0 3\n"];
    let lines = ["", "X1 <- X1\n", "X2 <- X1\nX2 <- X0\n", "loop X1\nX2 <- X2 + 1\nendloop X1\nX2 <- 0\n", "X2 <- X2 + 1\n", "X0 <- X1\n"];
    let unequal = [vec![310, 300, 305], vec![310; REGISTERS - 3]].concat();
    for capacities in [vec![CAPACITY as u16; REGISTERS], unequal] {
        for sheet in sheets {
            for lines in lines {
                let text = endless(lines) + "X2 <- X2\n";
                let (text, sheet, capacities) = (text.into_bytes(), sheet.as_bytes().to_vec(), capacities.clone());
                let case = Case::ReportOn { text, sheet, capacities, lent: REPORT_BYTES };
                assert!(matches!(outcome(&case).answer, Answer::Done { .. }), "{case:?}");
            }
        }
    }
}

/// Budgets with more steps than the twin can take.
#[cfg(feature = "library")]
mod largest {
    use super::*;
    use twin::edges::drains::drain;
    use twin::library::{run, Code};
    use twin::word::spell;

    /// A run on the library alone, which is to be spent.
    fn spent(word: &[Instruction], machine: &Machine, budget: u32) -> Machine {
        let mut after = machine.clone();
        let taken = budget.min(u32::MAX - machine.steps);
        assert_eq!(run(&mut after, Code::Word(&spell(word)), budget), Answer::Ended(End::Spent, taken));
        after
    }

    /// As many whole rounds fewer end in the same state.
    #[test]
    fn rounds_fewer() {
        for (value, steps, budget) in [(1_000, 0, u32::MAX), (999, 7, u32::MAX), (1_000, 0, u32::MAX - 1), (1_024, 1 << 31, u32::MAX)] {
            let (word, machine) = program(&endless("X1 <- X0\n"), &[CAPACITY as u16], &[value]);
            let (before, round) = return_of(&word, &machine, MOST).expect("a return");
            let taken = budget.min(u32::MAX - steps);
            let mut expected = machine.clone();
            expected.run(&word, before + (taken - before) % round);
            expected.steps = steps + taken;
            assert_eq!(spent(&word, &Machine { steps, ..machine }, budget), expected);
        }
    }

    /// The same where there is no return: as many rounds fewer, with as many 1s more in register 4.
    #[test]
    fn no_return() {
        let word = never_the_same(2, 3, 4, &[drain(1, &[5]), drain(5, &[1])].concat());
        let with = |more: u32| ones(&[CAPACITY as u16; 5], &[1_000, 400, 0, more as usize]);
        let round = 2 * 400 * (2 * (3 * 1_000 + 2) + 3) + 2 * 2 + 2;
        let mut expected = with(u32::MAX / round);
        expected.run(&word, u32::MAX % round);
        expected.steps = u32::MAX;
        assert_eq!(spent(&word, &with(0), u32::MAX), expected);
    }
}
