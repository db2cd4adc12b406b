//! Runs through loops that empty a register, of which many turns may be done at once: every small shape and what is nearly one, by every
//! budget and near the largest count of steps, where registers get full, hold a `#` or begin inside a loop; and words and programs by
//! chance. Each run is of the word and of its table, on the twin and, where it is linked, on the library.

use twin::cases::{machine_after, outcome, Case};
use twin::edges::drains::{among_others, counted, drain, drains, lists, long, machines, marked, nearly, ones, rooms, several};
use twin::machine::{Machine, CAPACITY};
use twin::page::REPORT_BYTES;
use twin::program::{variables, write, Setting};
use twin::random::{rounds, Random};
use twin::runs::{by_each, counted_ends, cut_in_two, end, ran};
use twin::translation::{spread, translate, Form};
use twin::word::Instruction;
use twin::{Answer, End};

/// Small runs are looked at for so many steps.
const STEPS: u32 = 40;

/// A run with every budget up to past its end, and with as many steps left to count; and with the largest, if it ends.
fn by_every_budget(word: &[Instruction], machine: &Machine) {
    let (ended, steps) = machine.clone().run(word, STEPS);
    by_each(word, machine, 0..=steps + 1);
    if ended != End::Spent {
        ran(word, machine, u32::MAX);
    }
}

#[test]
fn every_budget() {
    for word in drains().into_iter().chain(several()) {
        machines().iter().for_each(|machine| by_every_budget(&word, machine));
    }
}

#[test]
fn what_is_nearly_a_drain() {
    for word in nearly() {
        machines().iter().for_each(|machine| by_every_budget(&word, machine));
    }
}

/// Each of them at the very start and the very end of a word, and with more around it.
#[test]
fn among_other_instructions() {
    let small = lists(&[1, 2, 3], 2).into_iter().map(|to| drain(1, &to));
    for word in small.chain(several()).chain(nearly()).flat_map(|word| among_others(&word)) {
        for machine in &machines()[..2] {
            let steps = machine.clone().run(&word, STEPS).1;
            by_each(&word, machine, [steps / 2, steps.saturating_sub(1), steps, STEPS]);
        }
    }
}

/// From every place in the word and beside it.
#[test]
fn every_place() {
    let around = lists(&[1, 2], 2).into_iter().flat_map(|to| among_others(&drain(1, &to)));
    for word in drains().into_iter().chain(several()).chain(around) {
        let last = word.len() as i32;
        for place in [i32::MIN, -1, last + 2, i32::MAX].into_iter().chain(0..=last + 1) {
            for machine in &machines()[..2] {
                by_each(&word, &Machine { place, ..machine.clone() }, [0, 1, 2, 3, 5, STEPS]);
            }
        }
    }
}

/// A `#` in one register, named or not, keeps a run from going by lengths alone.
#[test]
fn one_mark() {
    for word in lists(&[1, 2, 3], 2).into_iter().map(|to| drain(1, &to)).chain(several()) {
        marked().iter().for_each(|machine| by_every_budget(&word, machine));
    }
    for machine in marked() {
        for word in nearly() {
            let steps = machine.clone().run(&word, STEPS).1;
            by_each(&word, &machine, [steps / 2, steps]);
        }
    }
}

/// Registers that get full inside a turn, at its end, or not.
#[test]
fn every_room() {
    let words = lists(&[2, 3], 3).into_iter().map(|to| drain(1, &to));
    let others = [spread(1, 2, 3), counted(1, &drain(2, &[3])), [drain(1, &[2]), drain(2, &[1, 3])].concat()];
    for word in words.chain(others) {
        for machine in rooms() {
            let steps = machine.clone().run(&word, STEPS).1;
            by_each(&word, &machine, [steps.saturating_sub(2), steps, steps + 1]);
        }
    }
}

/// Full, by hand: the steps of the turns that there is room for, and those of the next one up to the append that is not done.
#[test]
fn full_by_hand() {
    let left = |capacities: &[u16], lengths: &[usize], to: &[usize]| {
        let machine = ones(capacities, lengths);
        let outcome = ran(&drain(1, to), &machine, 1_000_000);
        let after = machine_after(&machine, &outcome);
        (end(&outcome), after.place, after.lengths)
    };
    assert_eq!(left(&[1_024, 1_000], &[1_000], &[2]), ((End::Halted, 3_002), 5, vec![0, 1_000]));
    assert_eq!(left(&[1_024, 999], &[1_000], &[2]), ((End::Full, 2_998), 3, vec![0, 999]));
    assert_eq!(left(&[1_024, 999], &[999], &[2, 2]), ((End::Full, 499 * 4 + 2), 4, vec![499, 999]));
    assert_eq!(left(&[1_024, 7, 5], &[9], &[2, 3]), ((End::Full, 5 * 4 + 2), 4, vec![3, 6, 5]));
    assert_eq!(left(&[1_024, 5, 7], &[9], &[2, 3]), ((End::Full, 5 * 4 + 1), 3, vec![3, 5, 5]));
    assert_eq!(left(&[3, 3], &[3], &[]), ((End::Halted, 8), 4, vec![0, 0]));
    assert_eq!(left(&[4, 3], &[3], &[1]).0 .0, End::Spent);
}

/// By budgets in the midst of many turns, after the first and before the last.
#[test]
fn long_drains() {
    for (word, machine) in long() {
        let turn = word.iter().rev().find(|i| i.kind == 4).map_or(1, |i| i.operand);
        let (ended, steps) = machine.clone().run(&word, u32::MAX);
        assert_ne!(ended, End::Spent);
        let middle = steps / turn / 2 * turn;
        let budgets = [0, turn, 2 * turn, middle, steps / turn * turn, steps].map(|n| [n.saturating_sub(1), n, n + 1]).concat();
        by_each(&word, &machine, budgets.into_iter().chain([254, 255, 256, 257, steps + turn]));
        ran(&word, &machine, u32::MAX);
    }
}

#[test]
fn budgets_cut_in_two() {
    for word in lists(&[1, 2, 3], 3).into_iter().map(|to| drain(1, &to)).chain(several()) {
        machines().iter().for_each(|machine| cut_in_two(&word, machine, STEPS, 0..STEPS));
    }
}

#[test]
fn words_by_chance() {
    let mut random = Random::new(8);
    let (mut ends, count) = ([0; 4], rounds(30_000));
    for _ in 0..count {
        let (word, machine) = random.drains_on_ones();
        let (machine, budget) = random.started(Some(word.clone()), machine);
        counted_ends(&mut ends, &ran(&word, &machine, budget));
    }
    assert!(ends.iter().all(|&n| n > count / 20), "{ends:?}");
}

#[test]
fn programs_by_chance() {
    let mut random = Random::new(88);
    let (mut ends, count) = ([0; 4], rounds(6_000));
    for _ in 0..count {
        let (word, machine) = random.translated_to_thousands();
        let (machine, budget) = random.started(Some(word.clone()), machine);
        counted_ends(&mut ends, &ran(&word, &machine, budget));
    }
    assert!([ends[0], ends[2], ends[3]].iter().all(|&n| n > count / 30), "{ends:?}");
}

/// Reports with values up to 1,000; the words are run for up to 1,000,000 steps.
#[test]
fn reports_by_chance() {
    let mut random = Random::new(888);
    for _ in 0..rounds(40) {
        let (lines, names) = (1 + random.below(9), 1 + random.below(3));
        let commands = random.program(Setting::Any, lines, names);
        let k = variables(&commands);
        let capacities = if random.once_in(2) { vec![CAPACITY as u16; 64] } else { [vec![1_000; k], vec![1_010; 64 - k]].concat() };
        let line = |value: &mut dyn FnMut(usize) -> String| (0..k).map(value).collect::<Vec<_>>().join(" ") + "\n";
        let mut sheet = line(&mut |i| format!("X{i}"));
        for most in [3, 100, 1_000] {
            sheet += &line(&mut |_| random.below(most + 1).to_string());
        }
        let case = Case::ReportOn { text: write(&commands), sheet: sheet.into_bytes(), capacities, lent: REPORT_BYTES };
        assert!(matches!(outcome(&case).answer, Answer::Done { .. }), "{case:?}");
    }
}

/// A product by hand: 1 + the charges, and nothing but the variables left.
#[test]
fn a_product() {
    let text = b"loop X1\nloop X2\nX0 <- X0 + 1\nendloop X2\nendloop X1\n";
    let word = translate(Form::Plain, &twin::program::read(Setting::Any, text).expect("an accepted program"));
    let machine = ones(&[CAPACITY as u16; 6], &[0, 30, 30]);
    let outcome = ran(&word, &machine, 1_000_000);
    let charges = 7 * 30 + 5 + 30 * (7 * 30 + 5 + 30 * 3 + 1) + 30 * 2 + 1;
    assert_eq!((end(&outcome), machine_after(&machine, &outcome).lengths), ((End::Halted, 1 + charges), vec![900, 30, 30, 0, 0, 0]));
}
