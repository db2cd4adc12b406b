//! Registers of unequal length (document 02, request 5): its claims on programs and capacities by chance, on the twin; and rules 9, 10, 18
//! and 21, runs that get full and budgets cut in two, on the twin and, where it is linked, on the library.

use twin::cases::{machine_after, outcome, Case, Outcome, Program, ANY};
use twin::edges::CAPACITIES;
use twin::machine::Machine;
use twin::page::REPORT_BYTES;
use twin::program::{list, read, variables, write, Command, Kind, Setting};
use twin::random::{rounds, Random};
use twin::source::{self, run, Ran, State};
use twin::tool::check_helpers;
use twin::translation::{tidy_charges, translate, Form};
use twin::word::{spell, Instruction};
use twin::{tool, Answer, End, Refusal};

fn told(outcome: &Outcome) -> (u32, usize) {
    match outcome.answer {
        Answer::Refused(Refusal { number, place }) => (number, place),
        _ => (0, 0),
    }
}

/// Both runs of a program: how the source ended and where it stands, and the word's end and steps and its machine then.
struct Both {
    source: Ran,
    state: State,
    end: End,
    steps: u32,
    machine: Machine,
}

fn both(commands: &[Command], word: &[Instruction], capacities: &[u16], values: [u32; 32]) -> Both {
    let k = variables(commands);
    let ones: Vec<_> = values[..k].iter().map(|&v| vec![b'1'; v as usize]).collect();
    let mut state = State::fresh(std::array::from_fn(|i| capacities[i].into()), values);
    let mut machine = Machine::fresh(capacities, &ones);
    assert_eq!((source::check(commands, &state), machine.check()), (Ok(()), Ok(())), "{commands:?} from {values:?} within {capacities:?}");
    let source = run(commands, &mut state, 3_000);
    let (end, steps) = machine.run(word, 300_000);
    assert_ne!(end, End::Strayed);
    Both { source, state, end, steps, machine }
}

/// The steps that a word which is full has taken, by the state in which its source is: 1, the charges of the completed source steps, and
/// inside a copy those of its clear and of the turns that its target has room for, and the one that finds a symbol more.
fn steps_when_full(commands: &[Command], both: &Both) -> u64 {
    let completed = 1 + both.source.charges;
    match commands[both.state.line as usize - 1] {
        Command::Copy { to, .. } => {
            let (y, room) = (both.state.values[to as usize], both.state.capacities[to as usize]);
            completed + u64::from(2 * y + 2) + u64::from(4 * room) + 1
        }
        Command::Increment(_) => completed,
        other => panic!("full at {other:?}"),
    }
}

/// The scratch register is named by a copy of two variables or a loop, and a counter by each depth of loops.
fn helpers(commands: &[Command]) -> Vec<usize> {
    let k = variables(commands);
    let is_loop = |c: &&Command| matches!(c, Command::Open(Kind::Loop, _));
    let copies = commands.iter().any(|c| matches!(c, Command::Copy { to, from } if to != from));
    let mut found = Vec::new();
    if copies || commands.iter().any(|c| is_loop(&c)) {
        found.push(k + 1);
    }
    let (mut depth, mut deepest) = (0, 0);
    for command in commands {
        match command {
            Command::Open(Kind::Loop, _) => depth += 1,
            Command::Close(Kind::Loop, _) => depth -= 1,
            _ => {}
        }
        deepest = deepest.max(depth);
    }
    found.extend((0..deepest).map(|d| k + 2 + d));
    found
}

/// "Where the capacities pass 21, whether or not the call checks it, source and word are still full for the same runs; a word that fills
/// up inside a copy reports its own steps, and the sum of charges then covers completed source steps only." Where they do not pass, a
/// source that is full has a word that is.
#[test]
fn full_for_the_same_runs() {
    let mut random = Random::new(5);
    // halted, full at an increment, full at a copy; neither full, the word alone, both
    let (mut passed, mut failed) = ([0; 3], [0; 3]);
    let count = rounds(20_000);
    for _ in 0..count {
        let (lines, names) = (random.below(12), 1 + random.below(4));
        let commands = random.program(Setting::Any, lines, names);
        let k = variables(&commands);
        let word = translate(Form::Plain, &commands);
        let capacities = random.capacities_for(k);
        let mut values = [0; 32];
        (0..k).for_each(|i| values[i] = random.below(usize::from(capacities[i]).min(40) + 1) as u32);
        if random.once_in(3) {
            // as much as there is room for, in one of them
            let i = random.below(k.max(1));
            values[i] = if i < k { capacities[i].into() } else { 0 };
        }
        let told = || format!("{commands:?} from {values:?} within {capacities:?}");
        let both = both(&commands, &word, &capacities, values);
        let passes = check_helpers(&word, k, &capacities).is_ok();
        let short = |r: usize| capacities[..k].iter().any(|&c| c > capacities[r - 1]);
        assert_eq!(passes, !helpers(&commands).into_iter().any(short), "rule 21: {}", told());
        if both.source.end == End::Spent || both.end == End::Spent {
            continue;
        }
        let full = (both.source.end == End::Full, both.end == End::Full);
        let at_copy = full.0 && matches!(commands[both.state.line as usize - 1], Command::Copy { .. });
        assert!(!full.0 || full.1, "the source alone is full: {}", told());
        if !passes {
            failed[usize::from(full.0) + usize::from(full.1)] += 1;
            continue;
        }
        assert_eq!(full.0, full.1, "{}", told());
        if full.0 {
            assert_eq!(u64::from(both.steps), steps_when_full(&commands, &both), "{}", told());
        } else {
            assert_eq!((both.source.end, both.end), (End::Halted, End::Halted), "{}", told());
            assert_eq!(u64::from(both.steps), 1 + both.source.charges, "{}", told());
        }
        // the registers are the source's values, but for those of a copy that filled up and what loops have still to count
        for r in (1..=if full.0 { k } else { 64 }).filter(|_| !at_copy) {
            let ones = if r <= k { both.state.values[r - 1] as usize } else { 0 };
            assert_eq!(both.machine.register(r), vec![b'1'; ones], "register {r}: {}", told());
        }
        passed[if at_copy { 2 } else { usize::from(full.0) }] += 1;
    }
    println!("21 passes: {passed:?} halted, full at an increment, at a copy; 21 applies: {failed:?} neither full, the word alone, both");
    assert!(passed.iter().chain(&failed).all(|&n| n > count / 100), "21 passes: {passed:?}; 21 applies: {failed:?}");
}

/// The tidy word ends as the plain word does, whether or not the capacities pass 21; where both halt it has a value.
#[test]
fn tidy_words() {
    let mut random = Random::new(25);
    let (mut halted, mut full) = (0, 0);
    for _ in 0..rounds(4_000) {
        let (lines, names) = (random.below(12), 1 + random.below(4));
        let commands = random.program(Setting::Any, lines, names);
        let k = variables(&commands);
        let capacities = random.capacities_for(k);
        let mut values = [0; 32];
        (0..k).for_each(|i| values[i] = random.below(usize::from(capacities[i]).min(40) + 1) as u32);
        let plain = both(&commands, &translate(Form::Plain, &commands), &capacities, values);
        let tidy = both(&commands, &translate(Form::Tidy, &commands), &capacities, values);
        if plain.end == End::Spent || tidy.end == End::Spent {
            continue;
        }
        let charges = tidy_charges((2..=k).map(|r| plain.machine.register(r)).filter(|_| plain.end == End::Halted));
        let told = || format!("{commands:?} from {values:?} within {capacities:?}");
        assert_eq!((tidy.end, u64::from(tidy.steps)), (plain.end, u64::from(plain.steps) + charges), "{}", told());
        if tidy.end == End::Halted {
            assert_eq!(tidy.machine.value(), Some(plain.machine.register(1)), "{}", told());
            halted += 1;
        } else {
            full += 1;
        }
    }
    assert!(halted > 500 && full > 500, "{halted} halted, {full} full");
}

/// The state and the machine of a program on registers of these capacities, and of 9 for the rest.
fn fresh(text: &str, capacities: &[u16], start: &[u32]) -> (State, Machine, Vec<Instruction>) {
    let mut all = [9; 64];
    all[..capacities.len()].copy_from_slice(capacities);
    let commands = read(Setting::Any, text.as_bytes()).expect("an accepted program");
    let (state, machine) = twin::edges::fresh(&commands, start, &all);
    assert_eq!(start, &state.values[..start.len()]);
    (state, machine, translate(Form::Plain, &commands))
}

/// The ends and steps of both runs, what became of the variables, and the lengths of the registers.
fn ran(text: &str, capacities: &[u16], start: &[u32]) -> (Answer, Answer, Vec<u32>, Vec<u32>) {
    let (state, machine, word) = fresh(text, capacities, start);
    let numbers = state.numbers().to_vec();
    let source = outcome(&Case::RunSource { setting: ANY, program: Program::Text(text.into()), state: numbers, budget: 1_000 });
    let [run, table] = Case::runs(&word, &machine, 1_000).map(|case| outcome(&case));
    assert_eq!(table, run);
    let k = capacities.len();
    let lengths = run.memory[machine.store.len()..].to_vec();
    (source.answer, run.answer, source.memory[source::VALUES..source::VALUES + k].to_vec(), lengths[..k].to_vec())
}

const fn full(steps: u32) -> Answer {
    Answer::Ended(End::Full, steps)
}

const fn halted(steps: u32) -> Answer {
    Answer::Ended(End::Halted, steps)
}

/// "a copy too long for its target is full", with the steps counted by hand: the source's copy is not done; the word's has cleared the
/// target and moved as much as it has room for.
#[test]
fn copies_that_fill_up() {
    // K = 2: registers X0, X1, t
    assert_eq!(ran("X1 <- X0\n", &[5, 3, 5], &[3, 2]), (halted(1), halted(1 + 4 + 21 + 6), vec![3, 3, 0], vec![3, 3, 0]));
    assert_eq!(ran("X1 <- X0\n", &[5, 3, 5], &[4, 2]), (full(0), full(1 + 6 + 12 + 1), vec![4, 2, 0], vec![0, 3, 3]));
    assert_eq!(ran("X1 <- X0\n", &[5, 3, 5], &[5, 0]), (full(0), full(1 + 2 + 12 + 1), vec![5, 0, 0], vec![1, 3, 3]));
    assert_eq!(ran("X0 <- X1\n", &[1, 4, 4], &[1, 4]), (full(0), full(1 + 4 + 4 + 1), vec![1, 4, 0], vec![1, 2, 1]));
    // a copy to itself is never full
    assert_eq!(ran("X0 <- X0\n", &[3], &[3]), (halted(1), halted(3), vec![3], vec![3]));
    // an increment goes by its own variable, however long another is
    assert_eq!(ran("X0 <- X0 + 1\nX1 <- X1 + 1\n", &[9, 2], &[2, 2]), (full(1), full(2), vec![3, 2], vec![3, 2]));
    // the sum of charges covers completed source steps only: X0 <- X0 + 1, 1; loop X2 of 1, 12
    let text = "X0 <- X0 + 1\nloop X2\nX1 <- X0\nendloop X2\n";
    assert_eq!(ran(text, &[4, 2, 1, 4, 4], &[2, 1, 1]), (full(2), full(1 + 1 + 12 + 4 + 8 + 1), vec![3, 1, 1, 0, 0], vec![0, 2, 1, 2, 0]));
}

/// Where 21 applies, the word alone may be full: in the scratch register or in a counter; and it need not be.
#[test]
fn words_that_fill_up_alone() {
    assert_eq!(ran("X1 <- X0\n", &[5, 5, 2], &[3, 0]), (halted(1), full(1 + 2 + 2 * 4 + 2), vec![3, 3, 0], vec![0, 3, 2]));
    assert_eq!(ran("X1 <- X0\n", &[5, 5, 2], &[2, 0]), (halted(1), halted(1 + 20), vec![2, 2, 0], vec![2, 2, 0]));
    assert_eq!(ran("loop X0\nendloop X0\n", &[5, 5, 1], &[2]), (halted(3), full(1 + 4 + 1), vec![2, 0, 0], vec![0, 1, 1]));
}

/// Rule 21: each register behind the variables' in turn is one shorter than the longest of these, and the rest as long.
#[test]
fn rule_21() {
    let applies = |text: &str, k: usize| {
        let short = |r: &usize| {
            let mut capacities = vec![5; 64];
            capacities[..k].fill(3);
            if k > 0 {
                capacities[k / 2] = 5;
            }
            capacities[r - 1] = 4;
            let case = Case::ReportOn { text: text.into(), sheet: b"\n".to_vec(), capacities, lent: REPORT_BYTES };
            match told(&outcome(&case)) {
                (21, 0) => true,
                (0, 0) => false,
                other => panic!("{other:?}: {case:?}"),
            }
        };
        (k + 1..=64).filter(short).collect::<Vec<_>>()
    };
    assert_eq!(applies("", 0), []);
    assert_eq!(applies("X2 <- X2 + 1\nX0 <- 0\nX1 <- X1\n", 3), []);
    assert_eq!(applies("while X1 != 0\nX1 <- 0\nendwhile X1 != 0\n", 2), []);
    assert_eq!(applies("X1 <- X0\n", 2), [3]);
    assert_eq!(applies("loop X0\nendloop X0\n", 1), [2, 3]);
    assert_eq!(applies("loop X0\nloop X2\nendloop X2\nendloop X0\nloop X0\nendloop X0\n", 3), [4, 5, 6]);
    assert_eq!(applies("while X0 != 0\nloop X0\nwhile X0 != 0\nendwhile X0 != 0\nendloop X0\nendwhile X0 != 0\n", 1), [2, 3]);
    assert_eq!(applies(&("loop X31\n".repeat(16) + &"endloop X31\n".repeat(16)), 32), (33..=49).collect::<Vec<_>>());
}

/// "less capacity than the largest of a variable": any of those below K, also one that no line names; and the smallest does not count.
#[test]
fn rule_21_by_the_largest() {
    let report = |text: &str, capacities: &[u16]| {
        let mut all = vec![1; 64];
        all[..capacities.len()].copy_from_slice(capacities);
        told(&outcome(&Case::ReportOn { text: text.into(), sheet: b"\n".to_vec(), capacities: all, lent: REPORT_BYTES }))
    };
    assert_eq!(report("X0 <- X2\n", &[2, 7, 2, 6]), (21, 0)); // X1 is below K
    assert_eq!(report("X0 <- X2\n", &[2, 7, 2, 7]), (0, 0));
    assert_eq!(report("X0 <- X2\n", &[2, 2, 7, 2]), (21, 0));
    assert_eq!(report("X0 <- X2\n", &[2, 1, 2, 2, 1, 9]), (0, 0)); // register 6 is nobody's
    assert_eq!(report("X0 <- 0\n", &[1024, 1, 1]), (0, 0));
    assert_eq!(report("loop X0\nendloop X0\n", &[3, 3, 2]), (21, 0));
    assert_eq!(report("loop X0\nendloop X0\n", &[3, 2, 3]), (21, 0));
}

/// A program, a sheet, capacities, and the answer; 0 and 0 if nothing is refused.
type Row<'a> = (&'a str, &'a str, Vec<u16>, (u32, usize));

/// The order of a report's rules: 1 to 8, 10, 21, 16, 17, 18, 19.
#[test]
fn the_order_of_a_report() {
    let good = vec![5; 64];
    let changed = |at: usize, capacity: u16| {
        let mut capacities = good.clone();
        capacities[at] = capacity;
        capacities
    };
    let long = "X31 <- X30\n".repeat(270);
    let rows: Vec<Row> = vec![
        ("loop X1\n", "", vec![], (8, 1)),
        ("X0 <- X1\n", "", good[1..].to_vec(), (10, 0)),
        ("X0 <- X1\n", "", [&good[..], &[5]].concat(), (10, 0)),
        ("X0 <- X1\n", "", vec![], (10, 0)),
        ("X0 <- X1\n", "", changed(63, 0), (10, 0)),
        ("X0 <- X1\n", "", changed(2, 0), (10, 0)),
        ("X0 <- X1\n", "", changed(0, 1_025), (10, 0)),
        ("X0 <- X1\n", "", changed(2, 4), (21, 0)),
        ("X0 <- X1\n", "", good.clone(), (16, 0)),
        ("X0 <- X1\n", "X1 \n", changed(2, 4), (21, 0)),
        ("X0 <- X1\n", "X1 X0\n1\n", good.clone(), (16, 2)),
        ("X0 <- X1\n", "X2\n9\n", good.clone(), (17, 1)),
        ("X0 <- X1\n", "X1\n6\n", good.clone(), (18, 2)),
        ("X0 <- X1\n", "X0 X1\n4 4\n5 5\n", changed(0, 4), (18, 3)),
        ("X0 <- X1\n", "X1 X0\n5 4\n4 5\n", changed(0, 4), (18, 3)),
        ("X0 <- X1\n", "X1 X0\n4 5\n", changed(1, 4), (0, 0)),
        (&long, "X30\n6\n", good.clone(), (18, 2)),
        (&long, "X30\n5\n", changed(32, 4), (21, 0)),
        (&long, "X30\n5\n", good.clone(), (19, 0)),
        ("", "\n\n", vec![1; 64], (0, 0)),
    ];
    for (text, sheet, capacities, answer) in rows {
        let case = Case::ReportOn { text: text.into(), sheet: sheet.into(), capacities, lent: REPORT_BYTES };
        assert_eq!(told(&outcome(&case)), answer, "{case:?}");
        // what is printed wants room too: 19 is then the call's own answer, and nothing is written
        let length = outcome(&case).memory[0] as usize;
        let Case::ReportOn { text, sheet, capacities, .. } = case else { unreachable!() };
        let short = outcome(&Case::ReportOn { text, sheet, capacities, lent: length - 1 });
        assert_eq!((told(&short), short.memory), ((19, 0), [vec![0], vec![0xa5; length - 1]].concat()));
    }
}

/// What a report prints of runs that fill up, on registers of 3, 5, `third` and all others 5.
#[test]
fn what_is_printed() {
    let printed = |third: u16, text: &str, sheet: &str| {
        let capacities = [vec![3, 5, third], vec![5; 61]].concat();
        let outcome = outcome(&Case::ReportOn { text: text.into(), sheet: sheet.into(), capacities, lent: REPORT_BYTES });
        let bytes: Vec<u8> = outcome.memory[1..=outcome.memory[0] as usize].iter().map(|&b| b as u8).collect();
        String::from_utf8(bytes).expect("ASCII").lines().skip(1).collect::<Vec<_>>().join(", ")
    };
    assert_eq!(printed(5, "X0 <- X1\n", "X0 X1\n2 3\n2 4\n"), "halted 1 halted 32 3, full 0 full 20 2");
    assert_eq!(printed(4, "X2 <- X1\nX0 <- X2\n", "X1\n5\n4\n3\n"), "full 0 full 20 0, full 1 full 50 0, halted 2 halted 55 3");
    let adder = "loop X1\nX0 <- X0 + 1\nendloop X1\n";
    assert_eq!(printed(5, adder, "X1\n3\n4\n"), "halted 7 halted 37 3, full 7 full 43 3");
    // with 64 times 1,024 it is the run tool's
    let sheet = b"X1\n3\n0\n1024\n".to_vec();
    let case = Case::ReportOn { text: adder.into(), sheet: sheet.clone(), capacities: vec![1_024; 64], lent: REPORT_BYTES };
    let report = tool::report(adder.as_bytes(), &sheet);
    let lent: Vec<u32> = outcome(&case).memory[1..=report.len()].to_vec();
    assert_eq!(lent, report.bytes().map(u32::from).collect::<Vec<_>>());
}

/// Rule 9 reads the capacities of variables below K only, and for a passes-left that of its loop's variable. Capacities from K on are
/// handed back as they were.
#[test]
fn rule_9() {
    let told_of = |text: &str, capacities: &[u32], line: u32, values: &[u32], passes: &[u32]| {
        let mut state = State::fresh([0; 32], [0; 32]);
        state.capacities[..capacities.len()].copy_from_slice(capacities);
        state.capacities[31] = 5_000;
        state.values[..values.len()].copy_from_slice(values);
        state.passes[..passes.len()].copy_from_slice(passes);
        state.line = line;
        let numbers = state.numbers().to_vec();
        let commands = read(Setting::Any, text.as_bytes()).expect("an accepted program");
        let run = |program| outcome(&Case::RunSource { setting: ANY, program, state: numbers.clone(), budget: 0 });
        let outcome = run(Program::Text(text.into()));
        assert_eq!(run(Program::List(list(&commands))), outcome);
        assert_eq!(outcome.memory, numbers);
        told(&outcome)
    };
    let (good, bad) = ((0, 0), (9, 0));
    assert_eq!(told_of("", &[], 1, &[], &[]), good); // K is 0: no capacity is read
    assert_eq!(told_of("X0 <- 0\n", &[], 1, &[], &[]), bad);
    assert_eq!(told_of("X0 <- 0\n", &[1_025], 1, &[], &[]), bad);
    assert_eq!(told_of("X0 <- 0\n", &[1_024, 0, 5_000], 1, &[1_024], &[]), good);
    assert_eq!(told_of("X2 <- 0\n", &[4, 0, 4], 1, &[], &[]), bad); // X1 is below K, though no line names it
    assert_eq!(told_of("X2 <- 0\n", &[4, 1, 4], 1, &[4, 1, 4], &[]), good);
    assert_eq!(told_of("X2 <- 0\n", &[4, 1, 4], 1, &[4, 2, 4], &[]), bad);
    assert_eq!(told_of("X0 <- 0\n", &[4, 9], 1, &[4, 1], &[]), bad); // nonzero at index K
    let nested = "loop X0\nloop X1\nX2 <- 0\nendloop X1\nendloop X0\n";
    assert_eq!(told_of(nested, &[2, 6, 9], 3, &[], &[2, 6]), good);
    assert_eq!(told_of(nested, &[2, 6, 9], 3, &[], &[3, 6]), bad);
    assert_eq!(told_of(nested, &[2, 6, 9], 4, &[], &[2, 7]), bad);
    assert_eq!(told_of(nested, &[2, 6, 9], 5, &[], &[2]), good);
    assert_eq!(told_of(nested, &[2, 6, 9], 5, &[], &[3]), bad);
    assert_eq!(told_of(nested, &[2, 6, 9], 5, &[], &[2, 1]), bad);
    assert_eq!(told_of(nested, &[2, 6, 9], 3, &[], &[2, 0]), bad);
    let beside = "while X2 != 0\nloop X1\nwhile X0 != 0\nendwhile X0 != 0\nendloop X1\nendwhile X2 != 0\nloop X0\nendloop X0\n";
    assert_eq!(told_of(beside, &[1, 3, 9], 4, &[], &[3]), good);
    assert_eq!(told_of(beside, &[1, 3, 9], 4, &[], &[4]), bad);
    assert_eq!(told_of(beside, &[1, 3, 9], 8, &[], &[1]), good);
    assert_eq!(told_of(beside, &[1, 3, 9], 8, &[], &[2]), bad);
}

/// Rule 10: the store is exactly the sum of the capacities, and each register's place begins where the one before it ends.
#[test]
fn rule_10() {
    let told_of = |capacities: &[u16], store: &[u8], lengths: &[u16]| {
        let machine = Machine { capacities: capacities.into(), store: store.into(), lengths: lengths.into(), place: 1, steps: 0 };
        let answers = [
            outcome(&Case::Value { machine: machine.clone() }),
            outcome(&Case::RunWord { word: b"1###".to_vec(), machine: machine.clone(), budget: 0 }),
            outcome(&Case::RunTable { kinds: vec![3], operands: vec![1], machine, budget: 0 }),
        ];
        assert!(answers.iter().all(|answer| told(answer) == told(&answers[0])));
        told(&answers[0])
    };
    let (good, bad) = ((0, 0), (10, 0));
    assert_eq!(told_of(&[1, 3, 2], b"1##\0#1", &[1, 2, 2]), good);
    assert_eq!(told_of(&[3, 1, 2], b"1##\0#1", &[1, 2, 2]), bad);
    assert_eq!(told_of(&[3, 1, 2], b"1##\0#1", &[3, 0, 2]), good);
    assert_eq!(told_of(&[2, 3, 1], b"1##\0#1", &[2, 1, 1]), bad);
    assert_eq!(told_of(&[1, 3, 2], b"1##\0#1", &[1, 2]), bad);
    assert_eq!(told_of(&[1, 3], b"1##\0#1", &[1, 2]), bad);
    assert_eq!(told_of(&[1, 3, 2], b"1##\0#", &[1, 2, 1]), bad);
    assert_eq!(told_of(&[1, 3, 2], b"1##\0#1\0", &[1, 2, 2]), bad);
    assert_eq!(told_of(&[0, 4, 2], b"1##\0#1", &[0, 3, 2]), bad);
    assert_eq!(told_of(&[1, 5, 0], b"1##\0\0\0", &[1, 2, 0]), bad);
    assert_eq!(told_of(&[1_024, 1], &[0; 1_025], &[0, 0]), good);
    assert_eq!(told_of(&[1_025], &[0; 1_025], &[0]), bad);
    assert_eq!(told_of(&[1_024; 64], &[0; 65_536], &[0; 64]), good);
    assert_eq!(told_of(&[1; 65], &[0; 65], &[0; 65]), bad);
    assert_eq!(told_of(&[], b"", &[]), bad);
}

/// The value is register 1, whatever lengths the others have.
#[test]
fn values() {
    let value = |capacities: &[u16], contents: &[&[u8]]| {
        let contents: Vec<_> = contents.iter().map(|c| c.to_vec()).collect();
        outcome(&Case::Value { machine: Machine::fresh(capacities, &contents) }).answer
    };
    assert_eq!(value(&[5, 1, 3], &[b"1#1"]), Answer::Done { high: 0, low: 3 });
    assert_eq!(value(&[1, 5, 3], &[b"1"]), Answer::Done { high: 0, low: 1 });
    assert_eq!(value(&[1, 5, 3], &[b"1", b"", b"#"]), Answer::Untidy);
    assert_eq!(value(&[5, 1, 3], &[b"", b"1"]), Answer::Untidy);
}

/// "A budget cut in two gives the same state and the same total", for sources and words on unequal registers; and, as the second part is
/// never 0 here, the same end.
#[test]
fn budgets_cut_in_two() {
    let steps = |outcome: &Outcome| match outcome.answer {
        Answer::Ended(_, steps) => steps,
        other => panic!("{other:?}"),
    };
    let end = |outcome: &Outcome| match outcome.answer {
        Answer::Ended(end, _) => end,
        other => panic!("{other:?}"),
    };
    let mut random = Random::new(9);
    for round in 0..rounds(3_000) {
        let lines = random.below(9);
        let commands = random.program(Setting::Any, lines, 3);
        let k = variables(&commands);
        let capacities: [u16; 64] = match CAPACITIES.get(round) {
            Some(capacities) => *capacities,
            None => random.capacities_for(k).try_into().expect("64 registers"),
        };
        let start: Vec<u32> = capacities[..k].iter().map(|&c| random.below(usize::from(c) + 1) as u32).collect();
        let (state, machine) = twin::edges::fresh(&commands, &start, &capacities);
        let (first, second) = (random.below(60) as u32, 1 + random.below(200) as u32);
        let source = |state: &[u32], budget: u32| {
            outcome(&Case::RunSource { setting: ANY, program: Program::Text(write(&commands)), state: state.to_vec(), budget })
        };
        let one = source(&state.numbers(), first);
        let two = source(&one.memory, second);
        let whole = source(&state.numbers(), first + second);
        assert_eq!((end(&two), steps(&one) + steps(&two), &two.memory), (end(&whole), steps(&whole), &whole.memory), "{commands:?}");
        let word = spell(&translate(Form::Plain, &commands));
        let run = |machine: &Machine, budget: u32| outcome(&Case::RunWord { word: word.clone(), machine: machine.clone(), budget });
        let one = run(&machine, first);
        let two = run(&machine_after(&machine, &one), second);
        let whole = run(&machine, first + second);
        assert_eq!((end(&two), steps(&one) + steps(&two), &two.memory), (end(&whole), steps(&whole), &whole.memory), "{commands:?}");
    }
}
