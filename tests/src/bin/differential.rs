//! The library and the run tool against the twin: `differential [seed] [count]`. First the cases at the limits, then so many of every
//! kind by chance; the same seed gives the same cases. Last it says how often each answer was given, and fails if one that a call has
//! came seldom. RUN_TOOL names the run tool.

use std::collections::BTreeMap;
use std::env;
use std::process::exit;
use std::time::{Duration, Instant};
use twin::cases::{form_of, setting_of, split, Case, Program, ANY, LOOP_ONLY, PLAIN, TIDY};
use twin::library::RunTool;
use twin::machine::Machine;
use twin::program::{list, read, variables, write, Setting};
use twin::random::{Random, LONGEST};
use twin::spellings::every_choice;
use twin::translation::{translate, Form};
use twin::word::{self, spell, Instruction};
use twin::{edges, listing, source, tool, Answer, End};

/// The answers of each call, every one of which must come `LEAST` times.
const ANSWERS: [(&str, &str); 14] = [
    ("read a text", "done 1 2 3 4 5 20 6 7 8 19"),
    ("write a list", "done 3 4 5 20 6 7 8 19"),
    ("translate a text", "done 1 2 3 4 5 20 6 7 8 19"),
    ("translate a list", "done 3 4 5 20 6 7 8 19"),
    ("translate a listing", "done 1 2 3 4 22 19"),
    ("run a text", "halted spent full 1 2 3 4 5 20 6 7 8 9"),
    ("run a list", "halted spent full 3 4 5 20 6 7 8 9"),
    ("read a word", "done 11 12 13 14 19"),
    ("write a word", "done 11 13 14 19"),
    ("run a word", "halted strayed spent full 10 11 12 13 14 15"),
    ("run a table", "halted strayed spent full 10 11 13 14 15"),
    ("value", "done untidy 10"),
    ("the run tool", "done 1 2 3 4 5 6 7 8 16 17 18 19"),
    ("report on registers", "done 1 2 3 4 5 6 7 8 10 21 16 17 18 19"),
];
const LEAST: u64 = 5;

/// Cases that agreed, by call and answer.
struct Tally {
    tool: RunTool,
    counts: BTreeMap<(&'static str, String), u64>,
    seen: u64,
}

impl Tally {
    /// Holds the library's outcome against the twin's; where they differ, the smallest such case that is found is shown, and that is the
    /// end.
    fn hold(&mut self, case: Case) {
        let (twin, library) = (case.twin(), case.library(&self.tool));
        if twin != library {
            let case = self.smallest(case);
            let (twin, library) = (case.twin(), case.library(&self.tool));
            println!("{}: they differ on {case:?}\n  twin    {:?}\n  library {:?}", case.name(), twin.answer, library.answer);
            if let Some(at) = (0..twin.memory.len()).find(|&at| twin.memory.get(at) != library.memory.get(at)) {
                println!("  in memory first at {at}: twin {:?}, library {:?}", twin.memory.get(at), library.memory.get(at));
            }
            exit(1);
        }
        let answer = match twin.answer {
            Answer::Done { .. } => "done".into(),
            Answer::Ended(end, _) => end.name().into(),
            Answer::Untidy => "untidy".into(),
            Answer::Refused(r) => r.number.to_string(),
        };
        *self.counts.entry((case.name(), answer)).or_default() += 1;
        self.seen += 1;
    }

    fn smallest(&self, mut case: Case) -> Case {
        let until = Instant::now() + Duration::from_secs(20);
        let differs = |c: &Case| c.twin() != c.library(&self.tool);
        loop {
            let found = case.smaller().take_while(|_| Instant::now() < until).find(differs);
            match found {
                Some(smaller) => case = smaller,
                None => return case,
            }
        }
    }

    /// The counts; false if an answer came too seldom.
    fn covers(&self) -> bool {
        let mut all = true;
        for (call, answers) in ANSWERS {
            let count = |answer: &str| self.counts.get(&(call, answer.into())).copied().unwrap_or(0);
            let shown: Vec<_> = answers.split(' ').map(|answer| format!("{answer} ×{}", count(answer))).collect();
            println!("differential: {call}: {}", shown.join(", "));
            all &= answers.split(' ').all(|answer| count(answer) >= LEAST);
        }
        all
    }
}

/// The symbols of a program's word in a form, or 9 if it has none.
fn symbols(program: &Program, form: Form) -> usize {
    program.read(Setting::Any).map_or(9, |c| spell(&translate(form, &c)).len())
}

/// A translation in each form, and by a number that is neither's, with outputs of the length that each form's word has, of one less and of
/// one more, and for the plain form of as much as `longest` allows.
fn translation_edges(tally: &mut Tally, setting: u32, program: &Program, longest: usize) {
    let (plain, tidy) = (symbols(program, Form::Plain), symbols(program, Form::Tidy));
    let mut lents = [plain, tidy].map(|length| [length - 1, length, length + 1]).concat();
    lents.sort_unstable();
    lents.dedup();
    for form in [PLAIN, TIDY, u32::MAX] {
        for &lent in &lents {
            tally.hold(Case::Translate { setting, form, program: program.clone(), lent });
        }
    }
    for (form, lent) in [(PLAIN, longest), (TIDY, tidy + 9)] {
        tally.hold(Case::Translate { setting, form, program: program.clone(), lent });
    }
}

/// Each call that is given a program, with outputs of the length that its result has outside the LOOP-only setting, of one less, and of
/// the most that `longest` allows; and with a good state and a bad one.
fn program_edges(tally: &mut Tally, setting: u32, program: &Program, longest: usize) {
    let converted = program.converted(Setting::Any).map_or(9, |c| c.len());
    for lent in [converted.saturating_sub(1), converted, longest.min(16_384)] {
        tally.hold(Case::Convert { setting, program: program.clone(), lent });
    }
    translation_edges(tally, setting, program, longest);
    for capacity in [5, 0] {
        let state = source::State::alike(capacity, [0; 32]).numbers().to_vec();
        tally.hold(Case::RunSource { setting, program: program.clone(), state, budget: 100 });
    }
}

/// Programs at the limits of rule 20 under each number of a setting, as texts and as lists.
fn setting_edges(tally: &mut Tally) {
    for (text, list) in edges::beside_20() {
        for program in [Program::Text(text), Program::List(list)] {
            for setting in [ANY, LOOP_ONLY, u32::MAX] {
                program_edges(tally, setting, &program, 9_999);
            }
        }
    }
    for text in edges::long_whiles() {
        for setting in [ANY, LOOP_ONLY] {
            program_edges(tally, setting, &Program::Text(text.clone()), 99_999);
        }
    }
    for (text, _) in edges::SAMPLES {
        let list = Program::Text(text.into()).converted(Setting::Any).expect("a sample is accepted");
        for program in [Program::Text(text.into()), Program::List(list)] {
            for setting in edges::OTHER_SETTINGS {
                program_edges(tally, setting, &program, 9_999);
            }
        }
    }
}

/// Each sample in each form, and by each number that counts as plain, with outputs of every length up to past the tidy word's.
fn form_edges(tally: &mut Tally) {
    for (text, _) in edges::SAMPLES {
        let list = Program::Text(text.into()).converted(Setting::Any).expect("a sample is accepted");
        for program in [Program::Text(text.into()), Program::List(list)] {
            for form in [PLAIN, TIDY].into_iter().chain(edges::OTHER_FORMS) {
                for lent in 0..symbols(&program, Form::Tidy) + 2 {
                    tally.hold(Case::Translate { setting: ANY, form, program: program.clone(), lent });
                }
            }
        }
    }
}

/// Texts with each two of the names at the limits, and a text in every choice of spelling.
fn spelling_edges(tally: &mut Tally) {
    for text in edges::spellings() {
        program_edges(tally, ANY, &Program::Text(text), 9_999);
    }
    for (text, _) in edges::SAMPLES {
        for text in every_choice(text) {
            program_edges(tally, LOOP_ONLY, &Program::Text(text), 9_999);
        }
    }
}

/// A run of instructions, as a word and as a table.
fn run_both(tally: &mut Tally, table: &[Instruction], machine: &Machine, budget: u32) {
    Case::runs(table, machine, budget).into_iter().for_each(|case| tally.hold(case));
}

/// A word from a fresh machine with every budget up to past its end, every count of steps near the largest, and from every place; and the
/// value of what it leaves.
fn word_edges(tally: &mut Tally, table: &[Instruction], machine: &Machine) {
    let mut left = machine.clone();
    let ends = left.run(table, 200).1;
    tally.hold(Case::Value { machine: left });
    for n in 0..=ends + 2 {
        for (steps, budget) in [(0, n), (u32::MAX - n, 200), (u32::MAX - n, ends), (u32::MAX - ends, n)] {
            run_both(tally, table, &Machine { steps, ..machine.clone() }, budget);
        }
    }
    let last = table.len() as i32;
    for place in [i32::MIN, i32::MIN + 1, -1, last + 2, i32::MAX - 1, i32::MAX].into_iter().chain(0..=last + 1) {
        for budget in [0, 1, 2, 200] {
            run_both(tally, table, &Machine { place, ..machine.clone() }, budget);
        }
    }
}

/// A sample program on these registers from every state at a limit; its source with every budget up to past the end, and every count of
/// steps near the largest; and its word in both forms.
fn sample_edges(tally: &mut Tally, text: &[u8], start: &[u32], capacities: &[u16; 64]) {
    let commands = read(Setting::Any, text).expect("a sample is accepted");
    for state in edges::states(&commands, start, capacities) {
        for setting in [ANY, LOOP_ONLY] {
            tally.hold(Case::RunSource { setting, program: Program::Text(text.into()), state: state.clone(), budget: 9 });
            tally.hold(Case::RunSource { setting, program: Program::List(list(&commands)), state: state.clone(), budget: 9 });
        }
    }
    let (state, machine) = edges::fresh(&commands, start, capacities);
    let ends = source::run(&commands, &mut state.clone(), 200).steps;
    for n in 0..=ends + 2 {
        for (steps, budget) in [(0, n), (u32::MAX - n, 200), (u32::MAX - n, ends), (u32::MAX - ends, n)] {
            let state = source::State { steps, ..state.clone() }.numbers().to_vec();
            tally.hold(Case::RunSource { setting: ANY, program: Program::Text(text.into()), state, budget });
        }
    }
    for form in [Form::Plain, Form::Tidy] {
        word_edges(tally, &translate(form, &commands), &machine);
    }
}

/// A report on registers, with outputs of its length, of one less and of one more, and with none.
fn reports(tally: &mut Tally, text: &[u8], sheet: &[u8], capacities: &[u16]) {
    let length = tool::report_on(text, sheet, capacities).len();
    for lent in [0, length - 1, length, length + 1] {
        tally.hold(Case::ReportOn { text: text.to_vec(), sheet: sheet.to_vec(), capacities: capacities.to_vec(), lent });
    }
}

/// Reports on registers: each number of them at a limit, each of them shorter or longer by one or at a limit, under samples, sheets and
/// programs that other rules turn down.
fn report_edges(tally: &mut Tally) {
    for (text, start) in edges::SAMPLES {
        let names: Vec<_> = (0..start.len()).map(|i| format!("X{i}")).collect();
        let values: Vec<_> = start.iter().map(|v| v.to_string()).collect();
        let sheet = format!("{}\n{}\n{}\n", names.join(" "), values.join(" "), vec!["2"; start.len()].join(" "));
        for lists in edges::CAPACITIES.into_iter().flat_map(|capacities| edges::beside_capacities(&capacities)) {
            reports(tally, text, sheet.as_bytes(), &lists);
        }
    }
    for sheet in edges::sheets() {
        for text in [&b"loop X1\nX0 <- X3\nendloop X1\n"[..], b"", b"loop X1\n"] {
            for (x1, x3, helpers) in [(1_024, 1_024, 1_024), (1, 1_024, 1_024), (3, 1, 3), (1_023, 2, 1_023), (2, 2, 1), (0, 1, 5)] {
                let mut capacities = [helpers; 64];
                (capacities[1], capacities[3]) = (x1, x3);
                reports(tally, text, &sheet, &capacities);
            }
        }
    }
    for commands in edges::long_words() {
        for sheet in ["\n", "X31 X30\n5 4\n", "X32\n", "X31\n6\n", "X30\n5\n", ""] {
            for (x30, scratch) in [(5, 5), (4, 5), (5, 4), (0, 5), (5, 0)] {
                let mut capacities = [5; 64];
                (capacities[30], capacities[32]) = (x30, scratch);
                reports(tally, &write(&commands), sheet.as_bytes(), &capacities);
            }
        }
    }
    for (text, sheet) in edges::budgets() {
        let mut capacities = [1_024; 64];
        capacities[1..3].fill(400);
        reports(tally, text.as_bytes(), sheet.as_bytes(), &capacities);
    }
}

/// The symbols of a listing's word, or 9 if it has none.
fn listed(text: &[u8]) -> usize {
    listing::read(text).map_or(9, |l| spell(&listing::word(&l)).len())
}

/// Listings at the limits with no output, and with ones of the length that the word has, of one less and of one more; samples with every
/// output up to past that, and runs of their words.
fn listing_edges(tally: &mut Tally) {
    for text in edges::listings::texts() {
        let length = listed(&text);
        for lent in [0, length - 1, length, length + 1] {
            tally.hold(Case::Listing { text: text.clone(), lent });
        }
    }
    tally.hold(Case::Listing { text: listing::write(&edges::listings::largest()), lent: 600_000 });
    for (text, registers) in edges::listings::SAMPLES {
        for lent in 0..listed(text.as_bytes()) + 2 {
            tally.hold(Case::Listing { text: text.into(), lent });
        }
        let word = listing::word(&listing::read(text.as_bytes()).expect("a sample is accepted"));
        word_edges(tally, &word, &Machine::alike(3, 5, &edges::listings::contents(registers)));
    }
}

/// All cases at the limits.
fn at_limits(tally: &mut Tally) {
    for text in edges::texts() {
        for setting in [ANY, LOOP_ONLY] {
            program_edges(tally, setting, &Program::Text(text.clone()), 600_000);
        }
        tally.hold(Case::Report { text: text.clone(), sheet: b"\n\n".to_vec() });
        reports(tally, &text, b"\n\n", &[1_024; 64]);
    }
    for list in edges::lists() {
        for setting in [ANY, LOOP_ONLY] {
            program_edges(tally, setting, &Program::List(list.clone()), 600_000);
        }
    }
    setting_edges(tally);
    form_edges(tally);
    spelling_edges(tally);
    for (text, start) in edges::SAMPLES {
        for capacities in edges::CAPACITIES {
            sample_edges(tally, text, start, &capacities);
        }
    }
    report_edges(tally);
    listing_edges(tally);
    for word in edges::words() {
        let count = word::read(&word).map_or(9, |t| t.len());
        for (kinds, operands) in [(count - 1, count), (count, count - 1), (count, count), (8_192, 8_200)] {
            tally.hold(Case::ReadWord { word: word.clone(), kinds, operands });
        }
        for (registers, budget) in [(64, 99), (1, 99), (63, 0)] {
            tally.hold(Case::RunWord { word: word.clone(), machine: Machine::alike(registers, 2, &[b"#".to_vec()]), budget });
        }
    }
    for (kinds, operands) in edges::tables() {
        let length =
            kinds.iter().map(|&kind| kind as usize).sum::<usize>() + operands.iter().map(|&operand| operand as usize).sum::<usize>();
        let around = [length.saturating_sub(1), length, length + 1];
        for lent in [0, 83, 599_999, 600_000].into_iter().chain(around.into_iter().filter(|&lent| lent < 600_000)) {
            tally.hold(Case::WriteWord { kinds: kinds.clone(), operands: operands.clone(), lent });
        }
        for (registers, budget) in [(64, 99), (1, 99), (63, 0)] {
            let machine = Machine::alike(registers, 2, &[b"#".to_vec()]);
            tally.hold(Case::RunTable { kinds: kinds.clone(), operands: operands.clone(), machine, budget });
        }
    }
    for machine in edges::left_over() {
        tally.hold(Case::Value { machine });
    }
    for machine in edges::machines() {
        tally.hold(Case::Value { machine: machine.clone() });
        for word in [&b"1#"[..], b"1###", b"111#####1##11#", b"", b"1111#"] {
            tally.hold(Case::RunWord { word: word.to_vec(), machine: machine.clone(), budget: 9 });
        }
        for (kinds, operands) in [(&[1][..], &[1][..]), (&[3], &[1]), (&[5, 2, 1], &[3, 1, 2]), (&[], &[]), (&[1], &[4]), (&[0], &[1])] {
            tally.hold(Case::RunTable { kinds: kinds.to_vec(), operands: operands.to_vec(), machine: machine.clone(), budget: 9 });
        }
    }
    for sheet in edges::sheets() {
        for text in [&b"loop X1\nX0 <- X3\nendloop X1\n"[..], b"loop X'\nX <- X'''\nendloop X1\n", b"", b"loop X1\n"] {
            tally.hold(Case::Report { text: text.to_vec(), sheet: sheet.clone() });
        }
    }
    for (text, sheet) in edges::budgets() {
        tally.hold(Case::Report { text: text.into(), sheet: sheet.into() });
    }
    for commands in edges::long_words() {
        for sheet in ["\n", "X31 X30\n1024 1024\n", "X32\n", "X31\n1025\n", ""] {
            tally.hold(Case::Report { text: write(&commands), sheet: sheet.into() });
        }
    }
}

/// A length near that of the result.
fn lent(random: &mut Random, length: usize) -> usize {
    match random.below(6) {
        0 => length.saturating_sub(1),
        1 => random.below(length + 1),
        2 => length,
        _ => length + random.below(9),
    }
}

/// A run of a program from a state by chance, or from the middle of a run, with a budget and a count of steps around its end.
fn source_case(random: &mut Random, setting: u32, program: Program) -> Case {
    let commands = program.read(setting_of(setting)).unwrap_or_default();
    let mut state = random.state(&commands);
    let mut budget = random.below(3000) as u32;
    if source::check(&commands, &state).is_ok() {
        let ran = source::run(&commands, &mut state.clone(), LONGEST);
        let done = if random.once_in(2) { random.below(ran.steps as usize + 1) as u32 } else { 0 };
        source::run(&commands, &mut state, done);
        let left = ran.steps - done;
        budget = random.around(left);
        if ran.end == End::Spent {
            budget = budget.min(LONGEST);
        }
        state.steps = random.count(left);
    }
    Case::RunSource { setting, program, state: state.numbers().to_vec(), budget }
}

fn word_case(random: &mut Random, word: Vec<u8>, machine: Machine) -> Case {
    let (machine, budget) = random.started(machine.accept(&word).ok(), machine);
    Case::RunWord { word, machine, budget }
}

/// A table by chance, faulty or not, one of whose lists may be cut short; and the length of its word.
fn table_by_chance(random: &mut Random, registers: usize) -> (Vec<u8>, Vec<u32>, usize) {
    let mut table = random.table(registers);
    if random.once_in(3) {
        let at = random.below(table.len());
        table[at] = Instruction { kind: random.pick(&[0, 5, 6, 255]), operand: random.pick(&[0, 1, 599_995, 600_000, u32::MAX]) };
    }
    let length = if word::check_table(&table).is_ok() { spell(&table).len() } else { 9 };
    let (mut kinds, mut operands) = split(&table);
    match random.below(12) {
        0 => kinds.truncate(random.below(table.len())),
        1 => operands.truncate(random.below(table.len())),
        _ => {}
    }
    (kinds, operands, length)
}

fn written_case(random: &mut Random) -> Case {
    let (kinds, operands, length) = table_by_chance(random, 8);
    Case::WriteWord { kinds, operands, lent: lent(random, length) }
}

fn table_case(random: &mut Random) -> Case {
    let machine = random.machine();
    let named = machine.registers() + usize::from(random.once_in(6));
    let (kinds, operands, _) = table_by_chance(random, named);
    let table: Vec<_> = kinds.iter().zip(&operands).map(|(&kind, &operand)| Instruction { kind, operand }).collect();
    let accepted = (kinds.len() == operands.len() && machine.accept_table(&table).is_ok()).then_some(table);
    let (machine, budget) = random.started(accepted, machine);
    Case::RunTable { kinds, operands, machine, budget }
}

/// One case of every call that is given a program, as text and as list. Under the LOOP-only setting most programs have no WHILE.
fn program_cases(tally: &mut Tally, random: &mut Random) {
    let setting = random.setting();
    let written = if random.once_in(3) { Setting::Any } else { setting_of(setting) };
    for program in [Program::Text(random.text(written)), Program::List(random.list(written))] {
        let length = program.converted(Setting::Any).map_or(9, |c| c.len());
        tally.hold(Case::Convert { setting, program: program.clone(), lent: lent(random, length) });
        let (form, sized) = (random.form(), random.form());
        let length = symbols(&program, form_of(if random.once_in(4) { sized } else { form }));
        tally.hold(Case::Translate { setting, form, program: program.clone(), lent: lent(random, length) });
        tally.hold(source_case(random, setting, program));
    }
}

/// One case of every kind but the run tool's.
fn by_chance(tally: &mut Tally, random: &mut Random) {
    program_cases(tally, random);
    let machine = random.machine();
    let named = machine.registers() + usize::from(random.once_in(6));
    let word = random.word(named);
    let count = word::read(&word).map_or(3, |t| t.len());
    tally.hold(Case::ReadWord { word: word.clone(), kinds: lent(random, count), operands: lent(random, count) });
    tally.hold(word_case(random, word, machine));
    let (word, machine) = random.translated();
    tally.hold(word_case(random, word, machine));
    let text = random.listing_text();
    tally.hold(Case::Listing { lent: lent(random, listed(&text)), text });
    let (word, machine) = random.listed();
    tally.hold(word_case(random, word, machine));
    let (word, machine) = random.drains_on_ones();
    tally.hold(word_case(random, spell(&word), machine));
    tally.hold(written_case(random));
    tally.hold(table_case(random));
    tally.hold(Case::Value { machine: random.left_over() });
}

fn report_case(random: &mut Random) -> Case {
    let lines = random.below(9);
    let small = write(&random.program(Setting::Any, lines, 3));
    let text = if random.once_in(4) { random.text(Setting::Any) } else { random.respell(&small) };
    let sheet = random.sheet(read(Setting::Any, &text).map_or(2, |c| variables(&c)), &[]);
    Case::Report { text, sheet }
}

/// A report on registers of which one may be too few, too many or outside the limits.
fn report_on_case(random: &mut Random) -> Case {
    let lines = random.below(9);
    let small = write(&random.program(Setting::Any, lines, 3));
    let text = if random.once_in(8) { random.text(Setting::Any) } else { random.respell(&small) };
    let k = read(Setting::Any, &text).map_or(2, |c| variables(&c));
    let mut capacities = random.capacities_for(k);
    match random.below(24) {
        0 => drop(capacities.pop()),
        1 => capacities.push(1),
        2 => capacities[random.below(64)] = random.pick(&[0, 1_025, u16::MAX]),
        _ => {}
    }
    let sheet = random.sheet(k, &capacities);
    let lent = lent(random, tool::report_on(&text, &sheet, &capacities).len());
    Case::ReportOn { text, sheet, capacities, lent }
}

fn main() {
    let mut words = env::args().skip(1).map(|w| w.parse::<u64>().expect("a seed and a count, as numbers"));
    let seed = words.next().unwrap_or(1);
    let count = words.next().unwrap_or(4_000);
    let mut tally = Tally { tool: RunTool::new("differential"), counts: BTreeMap::new(), seen: 0 };
    at_limits(&mut tally);
    println!("differential: {} cases at the limits agree", tally.seen);
    let mut random = Random::new(seed);
    for round in 0..count {
        if round % (count / 8).max(1000) == 0 && round > 0 {
            println!("differential: round {round} of {count}");
        }
        by_chance(&mut tally, &mut random);
        if round % 10 == 0 {
            tally.hold(report_case(&mut random));
        }
        if round % 4 == 0 {
            tally.hold(report_on_case(&mut random));
        }
    }
    if !tally.covers() {
        println!("differential: an answer came less than {LEAST} times");
        exit(1);
    }
    println!("differential: {} cases, seed {seed}, {count} rounds: the library and the run tool agree with the twin", tally.seen);
}
