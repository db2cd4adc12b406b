//! The examples of docs/REFUSALS.md and docs/STUDENTS.md, read from the pages themselves, as the cases that try them.

use crate::cases::{Case, Program, ANY, LOOP_ONLY, PLAIN, TIDY};
use crate::machine::{Machine, CAPACITY, REGISTERS};
use crate::program::Setting;
use crate::source::State;
use crate::{Answer, End, Refusal};

/// Room for every report.
pub const REPORT_BYTES: usize = 147_467;

/// A line of a block that is tried: what it is about, its texts and numbers in order, and the answer.
#[derive(Debug)]
pub struct Example {
    pub line: String,
    pub kind: String,
    pub texts: Vec<Vec<u8>>,
    /// The numbers before the first text, after it, and so on; a `/` starts a new group too.
    pub numbers: Vec<Vec<u32>>,
    pub answer: Answer,
}

/// A quoted text with the escapes `\n`, `\r`, `\t`, `\0` and `\BOM`, the byte-order mark; and what follows it.
fn quoted(text: &str) -> (Vec<u8>, &str) {
    let end = text.find('"').expect("a quoted text ends");
    let escapes = [("\\n", "\n"), ("\\r", "\r"), ("\\t", "\t"), ("\\0", "\0"), ("\\BOM", "\u{feff}")];
    let plain = escapes.iter().fold(text[..end].to_string(), |text, (written, meant)| text.replace(written, meant));
    (plain.into_bytes(), &text[end + 1..])
}

/// The number behind ` x `, or 1; and what follows.
fn times(text: &str) -> (usize, &str) {
    let Some(times) = text.strip_prefix("x ") else { return (1, text) };
    let (count, rest) = times.split_once(' ').unwrap_or((times, ""));
    (count.parse().expect("a count"), rest)
}

/// `untidy`, `length` and a value's, `word` and its instructions and symbols, `halted` or `full` and the steps, or the number and place of
/// a refusal; what is said of the example may stand behind it.
fn answer(text: &str) -> Answer {
    let mut words = text.split_whitespace();
    let first = words.next().expect("an answer");
    let mut number = || words.next().and_then(|n| n.parse().ok()).expect("a number");
    match first {
        "untidy" => Answer::Untidy,
        "length" => Answer::Done { high: 0, low: number() },
        "word" => Answer::Done { high: number(), low: number() },
        "halted" => Answer::Ended(End::Halted, number()),
        "full" => Answer::Ended(End::Full, number()),
        rule => Answer::Refused(Refusal { number: rule.parse().expect("a rule"), place: number() as usize }),
    }
}

fn example(line: &str) -> Example {
    let (given, told) = line.split_once(" -> ").expect("an answer");
    let (kind, mut rest) = given.split_once(' ').unwrap_or((given, ""));
    let mut texts: Vec<Vec<u8>> = Vec::new();
    let mut numbers = vec![Vec::new()];
    let mut joined = false;
    while !rest.is_empty() {
        if let Some(inside) = rest.strip_prefix('"') {
            let (text, after) = quoted(inside);
            let (count, after) = times(after.trim_start());
            match texts.last_mut() {
                Some(last) if joined => last.extend(text.repeat(count)),
                _ => texts.push(text.repeat(count)),
            }
            numbers.push(Vec::new());
            rest = after;
            joined = false;
            continue;
        }
        let (word, after) = rest.split_once(' ').unwrap_or((rest, ""));
        rest = after;
        match word {
            "+" => joined = true,
            "/" => numbers.push(Vec::new()),
            number => {
                let (count, after) = times(rest);
                numbers.last_mut().expect("a group").extend(vec![number.parse::<u32>().expect("a number"); count]);
                rest = after;
            }
        }
    }
    Example { line: line.into(), kind: kind.into(), texts, numbers, answer: answer(told) }
}

/// All examples of the page.
pub fn examples(page: &str) -> Vec<Example> {
    let mut tried = false;
    let mut found = Vec::new();
    for line in page.lines() {
        match line {
            "```tried" => tried = true,
            "```" => tried = false,
            _ if tried => found.push(example(line)),
            _ => {}
        }
    }
    found
}

/// Every call that is given a program, and translation in both forms.
fn of_program(setting: u32, program: Program) -> Vec<Case> {
    vec![
        Case::Convert { setting, program: program.clone(), lent: 16_384 },
        Case::Translate { setting, form: PLAIN, program: program.clone(), lent: 600_000 },
        Case::Translate { setting, form: TIDY, program: program.clone(), lent: 600_000 },
        Case::RunSource { setting, program, state: State::alike(1, [0; 32]).numbers().to_vec(), budget: 1 },
    ]
}

/// The same under the LOOP-only setting, by its number and by two that count as it.
fn of_lesson(program: Program) -> Vec<Case> {
    [LOOP_ONLY, 2, u32::MAX].into_iter().flat_map(|setting| of_program(setting, program.clone())).collect()
}

/// A translation of a text, and of its list, into a word of so many bytes.
fn translations(form: u32, program: Program, lent: u32) -> Vec<Case> {
    let list = Program::List(program.converted(Setting::Any).expect("an accepted program"));
    [program, list].map(|program| Case::Translate { setting: ANY, form, program, lent: lent as usize }).to_vec()
}

/// The kinds and the operands of a table.
fn entries(numbers: &[u32]) -> (Vec<u8>, Vec<u32>) {
    (numbers.iter().step_by(2).map(|&n| n as u8).collect(), numbers.iter().skip(1).step_by(2).copied().collect())
}

impl Example {
    /// The capacities, behind a `/` line and values, and behind another the passes-left.
    fn state(&self) -> State {
        let start = |numbers: &[u32]| std::array::from_fn(|i| numbers.get(i).copied().unwrap_or(0));
        let mut state = State::fresh(start(&self.numbers[1]), start(&self.numbers[2][1..]));
        state.line = self.numbers[2][0];
        for (to, from) in state.passes.iter_mut().zip(&self.numbers[3]) {
            *to = *from;
        }
        state
    }

    /// The capacities, the store and the lengths.
    fn machine(&self) -> Machine {
        let small = |numbers: &[u32]| numbers.iter().map(|&n| n as u16).collect();
        let (capacities, lengths) = (small(&self.numbers[0]), small(&self.numbers[1..].concat()));
        Machine { capacities, store: self.texts[0].clone(), lengths, place: 1, steps: 0 }
    }

    /// The calls that must answer as the page says.
    pub fn cases(&self) -> Vec<Case> {
        let text = || self.texts[0].clone();
        let numbers = self.numbers.concat();
        let list = || Program::List(numbers.iter().map(|&n| n as u8).collect());
        match self.kind.as_str() {
            "program" => {
                let mut cases = of_program(ANY, Program::Text(text()));
                cases.push(Case::Report { text: text(), sheet: b"\n".to_vec() });
                cases
            }
            "list" => of_program(ANY, list()),
            "loop-only" => of_lesson(Program::Text(text())),
            "loop-only-list" => of_lesson(list()),
            "source" => {
                let program = Program::Text(text());
                let list = Program::List(program.converted(Setting::Any).expect("an accepted program"));
                let state = self.state().numbers().to_vec();
                let run = |program: Program| Case::RunSource { setting: ANY, program, state: state.clone(), budget: 1 };
                vec![run(program), run(list)]
            }
            "memory" => vec![
                Case::RunWord { word: b"1###".to_vec(), machine: self.machine(), budget: 1 },
                Case::RunTable { kinds: vec![3], operands: vec![1], machine: self.machine(), budget: 1 },
                Case::Value { machine: self.machine() },
            ],
            "value" => vec![Case::Value { machine: self.machine() }],
            "word" => vec![
                Case::ReadWord { word: text(), kinds: 8_192, operands: 8_192 },
                Case::RunWord { word: text(), machine: Machine::alike(REGISTERS, 1, &[]), budget: 1 },
            ],
            "table" => {
                let (kinds, operands) = entries(&numbers);
                let machine = Machine::alike(REGISTERS, 1, &[]);
                vec![
                    Case::WriteWord { kinds: kinds.clone(), operands: operands.clone(), lent: 600_000 },
                    Case::RunTable { kinds, operands, machine, budget: 1 },
                ]
            }
            "entries" => {
                let (kinds, operands) = entries(&self.numbers[1]);
                let machine = Machine::alike(self.numbers[0][0] as usize, 1, &[]);
                vec![Case::RunTable { kinds, operands, machine, budget: 1 }]
            }
            "machine" => vec![Case::RunWord { word: text(), machine: Machine::alike(numbers[0] as usize, 1, &[]), budget: 1 }],
            "sheet" => {
                let (sheet, capacities) = (self.texts[1].clone(), vec![CAPACITY as u16; REGISTERS]);
                vec![
                    Case::Report { text: text(), sheet: sheet.clone() },
                    Case::ReportOn { text: text(), sheet, capacities, lent: REPORT_BYTES },
                ]
            }
            "report" => {
                let capacities = numbers.iter().map(|&n| n as u16).collect();
                vec![Case::ReportOn { text: text(), sheet: self.texts[1].clone(), capacities, lent: REPORT_BYTES }]
            }
            "translate" => translations(PLAIN, Program::Text(text()), numbers[0]),
            "listing" => {
                let lent = numbers.first().map_or(600_000, |&n| n as usize);
                vec![Case::Listing { text: text(), lent }]
            }
            "tidy" => translations(TIDY, Program::Text(text()), numbers[0]),
            other => panic!("{other} is no kind of example"),
        }
    }
}
