//! Runs of a word and of its table, by their budgets and near the largest count of steps.

use crate::cases::{machine_after, outcome, Case, Outcome};
use crate::machine::Machine;
use crate::word::Instruction;
use crate::{Answer, End};

/// A run of a word and of its table.
pub fn ran(word: &[Instruction], machine: &Machine, budget: u32) -> Outcome {
    let [run, table] = Case::runs(word, machine, budget).map(|case| outcome(&case));
    assert_eq!(run, table, "{word:?} on {machine:?} by {budget}");
    run
}

pub fn end(outcome: &Outcome) -> (End, u32) {
    match outcome.answer {
        Answer::Ended(end, steps) => (end, steps),
        other => panic!("{other:?}"),
    }
}

/// Where the count of steps is so far below its largest.
pub fn below_the_top(machine: &Machine, by: u32) -> Machine {
    Machine { steps: u32::MAX - by, ..machine.clone() }
}

/// A run with these budgets, and with as many steps left to count.
pub fn by_each(word: &[Instruction], machine: &Machine, budgets: impl IntoIterator<Item = u32>) {
    for n in budgets {
        ran(word, machine, n);
        ran(word, &below_the_top(machine, n), u32::MAX);
    }
}

/// How often runs ended so: halted, strayed, spent, full.
pub fn counted_ends(counts: &mut [usize; 4], outcome: &Outcome) {
    let ends = [End::Halted, End::Strayed, End::Spent, End::Full];
    counts[ends.iter().position(|&e| e == end(outcome).0).expect("an end")] += 1;
}

/// "A budget cut in two gives the same state and the same total": this one, in each of these parts and the rest.
pub fn cut_in_two(word: &[Instruction], machine: &Machine, budget: u32, parts: impl IntoIterator<Item = u32>) {
    let whole = ran(word, machine, budget);
    for part in parts {
        let one = ran(word, machine, part);
        let two = ran(word, &machine_after(machine, &one), budget - part);
        assert_eq!((end(&two).0, end(&one).1 + end(&two).1, &two.memory), (end(&whole).0, end(&whole).1, &whole.memory));
    }
}
