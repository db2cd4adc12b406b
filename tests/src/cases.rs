//! A case: one call with all that it is given. The twin and the library each make an outcome of it; one on which they differ can be cut
//! smaller.

#[cfg(feature = "library")]
use crate::library::{self, Code, RunTool};
use crate::machine::Machine;
use crate::program::{self, list, variables, write, Command, Setting};
use crate::source::{self, State};
use crate::translation::{translate, Form};
use crate::word::{self, spell, Instruction};
use crate::{listing, refuse, tool, Answer, Refusal};
use std::fmt;
use std::iter::successors;

/// What lent outputs are filled with, to see what of them was written.
const FILL: u8 = 0xa5;

/// The settings as the C entries are given them.
pub const ANY: u32 = 0;
pub const LOOP_ONLY: u32 = 1;

/// The setting that a number stands for: one that is neither of these counts as LOOP-only.
pub fn setting_of(number: u32) -> Setting {
    match number {
        ANY => Setting::Any,
        _ => Setting::LoopOnly,
    }
}

/// The forms of a word as the C entries are given them.
pub const PLAIN: u32 = 0;
pub const TIDY: u32 = 1;

/// The form that a number stands for: one that is neither of these counts as plain.
pub fn form_of(number: u32) -> Form {
    match number {
        TIDY => Form::Tidy,
        _ => Form::Plain,
    }
}

#[derive(Clone)]
pub enum Program {
    Text(Vec<u8>),
    List(Vec<u8>),
}

impl fmt::Debug for Program {
    fn fmt(&self, f: &mut fmt::Formatter) -> fmt::Result {
        match self {
            Program::Text(text) => write!(f, "\"{}\"", text.escape_ascii()),
            Program::List(list) => list.fmt(f),
        }
    }
}

impl Program {
    pub fn read(&self, setting: Setting) -> Result<Vec<Command>, Refusal> {
        match self {
            Program::Text(text) => program::read(setting, text),
            Program::List(list) => program::read_list(setting, list),
        }
    }

    /// The program in the other form.
    pub fn converted(&self, setting: Setting) -> Result<Vec<u8>, Refusal> {
        match self {
            Program::Text(_) => self.read(setting).map(|c| list(&c)),
            Program::List(_) => self.read(setting).map(|c| write(&c)),
        }
    }

    fn shorter(&self) -> Box<dyn Iterator<Item = Program> + '_> {
        match self {
            Program::Text(text) => Box::new(shorter(text).map(Program::Text)),
            Program::List(list) => Box::new(shorter(list).map(Program::List)),
        }
    }
}

/// A call. `lent`, and the two lengths of a word's reading, are the elements of the output. A text is converted to a list, and a list to
/// a text.
#[derive(Clone)]
pub enum Case {
    Convert { setting: u32, program: Program, lent: usize },
    Translate { setting: u32, form: u32, program: Program, lent: usize },
    Listing { text: Vec<u8>, lent: usize },
    RunSource { setting: u32, program: Program, state: Vec<u32>, budget: u32 },
    ReadWord { word: Vec<u8>, kinds: usize, operands: usize },
    WriteWord { kinds: Vec<u8>, operands: Vec<u32>, lent: usize },
    RunWord { word: Vec<u8>, machine: Machine, budget: u32 },
    RunTable { kinds: Vec<u8>, operands: Vec<u32>, machine: Machine, budget: u32 },
    Value { machine: Machine },
    Report { text: Vec<u8>, sheet: Vec<u8> },
    ReportOn { text: Vec<u8>, sheet: Vec<u8>, capacities: Vec<u16>, lent: usize },
}

impl fmt::Debug for Case {
    fn fmt(&self, f: &mut fmt::Formatter) -> fmt::Result {
        match self {
            Case::Convert { setting, program, lent } => write!(f, "setting {setting}, {program:?}, lent {lent}"),
            Case::Translate { setting, form, program, lent } => {
                write!(f, "setting {setting}, form {form}, {program:?}, lent {lent}")
            }
            Case::Listing { text, lent } => write!(f, "\"{}\", lent {lent}", text.escape_ascii()),
            Case::RunSource { setting, program, state, budget } => {
                write!(f, "setting {setting}, {program:?}, state {state:?}, budget {budget}")
            }
            Case::ReadWord { word, kinds, operands } => write!(f, "\"{}\", lent {kinds} and {operands}", word.escape_ascii()),
            Case::WriteWord { kinds, operands, lent } => write!(f, "kinds {kinds:?}, operands {operands:?}, lent {lent}"),
            Case::RunWord { word, machine, budget } => write!(f, "\"{}\", {machine:?}, budget {budget}", word.escape_ascii()),
            Case::RunTable { kinds, operands, machine, budget } => {
                write!(f, "kinds {kinds:?}, operands {operands:?}, {machine:?}, budget {budget}")
            }
            Case::Value { machine } => write!(f, "{machine:?}"),
            Case::Report { text, sheet } => write!(f, "\"{}\", sheet \"{}\"", text.escape_ascii(), sheet.escape_ascii()),
            Case::ReportOn { text, sheet, capacities, lent } => {
                write!(f, "\"{}\", sheet \"{}\", on {capacities:?}, lent {lent}", text.escape_ascii(), sheet.escape_ascii())
            }
        }
    }
}

/// The answer, and all lent memory as it is after the call; for the run tool, what it printed. A report on given registers has the answer
/// that it prints, and before the memory how many bytes the call says that it wrote.
#[derive(PartialEq, Eq, Debug)]
pub struct Outcome {
    pub answer: Answer,
    pub memory: Vec<u32>,
}

fn numbers<T: Copy + Into<u32>>(items: &[T]) -> Vec<u32> {
    items.iter().map(|&item| item.into()).collect()
}

/// A lent output of so many elements, with these at its start.
fn output(length: usize, start: &[u32]) -> Vec<u32> {
    let mut lent = start.to_vec();
    lent.resize(length, FILL.into());
    lent
}

fn fits<T>(result: Vec<T>, room: usize) -> Result<Vec<T>, Refusal> {
    if result.len() > room {
        return refuse(19, 0);
    }
    Ok(result)
}

/// A result for a lent output; `low` of its elements make one that is counted, and `high` is the other count.
fn written(result: Result<Vec<u8>, Refusal>, lent: usize, high: usize, low: usize) -> Outcome {
    match result.and_then(|r| fits(r, lent)) {
        Ok(bytes) => {
            let answer = Answer::Done { high: high as u32, low: (bytes.len() / low) as u32 };
            Outcome { answer, memory: output(lent, &numbers(&bytes)) }
        }
        Err(r) => Outcome { answer: Answer::Refused(r), memory: output(lent, &[]) },
    }
}

/// A word for a lent output: its instructions and its symbols.
fn translated(word: Result<Vec<Instruction>, Refusal>, lent: usize) -> Outcome {
    let instructions = word.as_ref().map_or(0, |t| t.len());
    written(word.map(|t| spell(&t)), lent, instructions, 1)
}

fn memory(machine: &Machine) -> Vec<u32> {
    let mut memory = numbers(&machine.store);
    memory.extend(numbers(&machine.lengths));
    memory.extend([machine.place as u32, machine.steps]);
    memory
}

/// A machine as a run that came to this outcome left it.
pub fn machine_after(before: &Machine, outcome: &Outcome) -> Machine {
    let (store, rest) = outcome.memory.split_at(before.store.len());
    let (lengths, rest) = rest.split_at(before.registers());
    let store = store.iter().map(|&b| b as u8).collect();
    let lengths = lengths.iter().map(|&n| n as u16).collect();
    Machine { capacities: before.capacities.clone(), store, lengths, place: rest[0] as i32, steps: rest[1] }
}

/// Kinds and operands of a table.
pub fn split(table: &[Instruction]) -> (Vec<u8>, Vec<u32>) {
    (table.iter().map(|i| i.kind).collect(), table.iter().map(|i| i.operand).collect())
}

/// Kinds and operands as a table as long as the longer of them; what is missing counts as 0.
fn zipped(kinds: &[u8], operands: &[u32]) -> Vec<Instruction> {
    let at = |i: usize| Instruction { kind: kinds.get(i).copied().unwrap_or(0), operand: operands.get(i).copied().unwrap_or(0) };
    (0..kinds.len().max(operands.len())).map(at).collect()
}

fn run_source(setting: Setting, program: &Program, numbers: &[u32], budget: u32) -> Outcome {
    let checked = program.read(setting).and_then(|commands| {
        let Some(state) = State::from_numbers(numbers) else { return refuse(9, 0) };
        source::check(&commands, &state).map(|()| (commands, state))
    });
    match checked {
        Err(r) => Outcome { answer: Answer::Refused(r), memory: numbers.to_vec() },
        Ok((commands, mut state)) => {
            let ran = source::run(&commands, &mut state, budget);
            Outcome { answer: Answer::Ended(ran.end, ran.steps), memory: state.numbers().to_vec() }
        }
    }
}

fn read_word(word: &[u8], kinds: usize, operands: usize) -> Outcome {
    let read = word::read(word).and_then(|table| fits(table, kinds.min(operands)));
    let table = read.as_deref().unwrap_or_default();
    let of_kinds: Vec<_> = table.iter().map(|i| u32::from(i.kind)).collect();
    let of_operands: Vec<_> = table.iter().map(|i| i.operand).collect();
    let memory = [output(kinds, &of_kinds), output(operands, &of_operands)].concat();
    let answer = read.map_or_else(Answer::Refused, |table| Answer::Done { high: 0, low: table.len() as u32 });
    Outcome { answer, memory }
}

/// A run of instructions that the machine has accepted, or not.
fn run_accepted(accepted: Result<Vec<Instruction>, Refusal>, from: &Machine, budget: u32) -> Outcome {
    let mut machine = from.clone();
    let answer = match accepted {
        Err(r) => Answer::Refused(r),
        Ok(table) => {
            let (end, steps) = machine.run(&table, budget);
            Answer::Ended(end, steps)
        }
    };
    Outcome { answer, memory: memory(&machine) }
}

fn value(machine: &Machine) -> Outcome {
    let answer = match machine.check().map(|()| machine.value()) {
        Err(r) => Answer::Refused(r),
        Ok(None) => Answer::Untidy,
        Ok(Some(symbols)) => Answer::Done { high: 0, low: symbols.len() as u32 },
    };
    Outcome { answer, memory: memory(machine) }
}

/// The report that a call wrote, by what it answered and what it left in its output.
fn reported(answer: Answer, out: &[u32]) -> Outcome {
    let Answer::Done { high: 0, low } = answer else { return Outcome { answer, memory: [&[0], out].concat() } };
    let text: String = out.iter().take(low as usize).map(|&b| char::from(b as u8)).collect();
    Outcome { answer: printed(&text).answer, memory: [&[low], out].concat() }
}

fn printed(text: &str) -> Outcome {
    let answer = match tool::refusal(text) {
        Some(r) => Answer::Refused(r),
        None => Answer::Done { high: 0, low: text.len() as u32 },
    };
    Outcome { answer, memory: numbers(text.as_bytes()) }
}

impl Case {
    /// A run of instructions, as a word and as a table.
    pub fn runs(table: &[Instruction], machine: &Machine, budget: u32) -> [Case; 2] {
        let (kinds, operands) = split(table);
        [
            Case::RunWord { word: spell(table), machine: machine.clone(), budget },
            Case::RunTable { kinds, operands, machine: machine.clone(), budget },
        ]
    }

    pub fn name(&self) -> &'static str {
        match self {
            Case::Convert { program: Program::Text(_), .. } => "read a text",
            Case::Convert { program: Program::List(_), .. } => "write a list",
            Case::Translate { program: Program::Text(_), .. } => "translate a text",
            Case::Translate { program: Program::List(_), .. } => "translate a list",
            Case::Listing { .. } => "translate a listing",
            Case::RunSource { program: Program::Text(_), .. } => "run a text",
            Case::RunSource { program: Program::List(_), .. } => "run a list",
            Case::ReadWord { .. } => "read a word",
            Case::WriteWord { .. } => "write a word",
            Case::RunWord { .. } => "run a word",
            Case::RunTable { .. } => "run a table",
            Case::Value { .. } => "value",
            Case::Report { .. } => "the run tool",
            Case::ReportOn { .. } => "report on registers",
        }
    }

    pub fn twin(&self) -> Outcome {
        match self {
            Case::Convert { setting, program, lent } => {
                let setting = setting_of(*setting);
                let (high, low) = match program {
                    Program::Text(_) => (program.read(setting).map_or(0, |c| variables(&c)), 3),
                    Program::List(_) => (0, 1),
                };
                written(program.converted(setting), *lent, high, low)
            }
            Case::Translate { setting, form, program, lent } => {
                translated(program.read(setting_of(*setting)).map(|c| translate(form_of(*form), &c)), *lent)
            }
            Case::Listing { text, lent } => translated(listing::read(text).map(|l| listing::word(&l)), *lent),
            Case::RunSource { setting, program, state, budget } => run_source(setting_of(*setting), program, state, *budget),
            Case::ReadWord { word, kinds, operands } => read_word(word, *kinds, *operands),
            Case::WriteWord { kinds, operands, lent } => {
                let table = zipped(kinds, operands);
                written(word::check_table(&table).map(|()| spell(&table)), *lent, 0, 1)
            }
            Case::RunWord { word, machine, budget } => run_accepted(machine.accept(word), machine, *budget),
            Case::RunTable { kinds, operands, machine, budget } => {
                let table = zipped(kinds, operands);
                run_accepted(machine.accept_table(&table).map(|()| table), machine, *budget)
            }
            Case::Value { machine } => value(machine),
            Case::Report { text, sheet } => printed(&tool::report(text, sheet)),
            Case::ReportOn { text, sheet, capacities, lent } => {
                let written = written(Ok(tool::report_on(text, sheet, capacities).into_bytes()), *lent, 0, 1);
                reported(written.answer, &written.memory)
            }
        }
    }

    #[cfg(feature = "library")]
    pub fn library(&self, tool: &RunTool) -> Outcome {
        let bytes = |lent: usize, call: &dyn Fn(&mut [u8]) -> Answer| {
            let mut out = vec![FILL; lent];
            Outcome { answer: call(&mut out), memory: numbers(&out) }
        };
        let run = |machine: &Machine, code: Code, budget: u32| {
            let mut machine = machine.clone();
            let answer = library::run(&mut machine, code, budget);
            Outcome { answer, memory: memory(&machine) }
        };
        match self {
            Case::Convert { setting, program, lent } => bytes(*lent, &|out| match program {
                Program::Text(text) => library::read_program(*setting, text, out),
                Program::List(list) => library::write_program(*setting, list, out),
            }),
            Case::Translate { setting, form, program, lent } => bytes(*lent, &|out| match program {
                Program::Text(text) => library::translate(*setting, *form, text, out),
                Program::List(list) => library::translate_list(*setting, *form, list, out),
            }),
            Case::Listing { text, lent } => bytes(*lent, &|out| library::translate_listing(text, out)),
            Case::RunSource { setting, program, state, budget } => {
                let mut memory = state.clone();
                let answer = match program {
                    Program::Text(text) => library::run_source(*setting, text, &mut memory, *budget),
                    Program::List(list) => library::run_source_list(*setting, list, &mut memory, *budget),
                };
                Outcome { answer, memory }
            }
            Case::ReadWord { word, kinds, operands } => {
                let (mut of_kinds, mut of_operands) = (vec![FILL; *kinds], vec![u32::from(FILL); *operands]);
                let answer = library::read_word(word, &mut of_kinds, &mut of_operands);
                Outcome { answer, memory: [numbers(&of_kinds), of_operands].concat() }
            }
            Case::WriteWord { kinds, operands, lent } => bytes(*lent, &|out| library::write_word(kinds, operands, out)),
            Case::RunWord { word, machine, budget } => run(machine, Code::Word(word), *budget),
            Case::RunTable { kinds, operands, machine, budget } => run(machine, Code::Table(kinds, operands), *budget),
            Case::Value { machine } => Outcome { answer: library::value(machine), memory: memory(machine) },
            Case::Report { text, sheet } => printed(&tool.run(text, sheet)),
            Case::ReportOn { text, sheet, capacities, lent } => {
                let called = bytes(*lent, &|out| library::report_on(text, sheet, capacities, out));
                reported(called.answer, &called.memory)
            }
        }
    }

    /// Cases with a little less in them.
    pub fn smaller(&self) -> Box<dyn Iterator<Item = Case> + '_> {
        match self {
            Case::Convert { setting, program, lent } => {
                Box::new(with_less(*setting, program, *lent).map(|(setting, program, lent)| Case::Convert { setting, program, lent }))
            }
            Case::Translate { setting, form, program, lent } => {
                let with = |form| move |(setting, program, lent): (u32, Program, usize)| Case::Translate { setting, form, program, lent };
                let forms = less(*form as usize).map(move |form| with(form as u32)((*setting, program.clone(), *lent)));
                Box::new(with_less(*setting, program, *lent).map(with(*form)).chain(forms))
            }
            Case::Listing { text, lent } => {
                let texts = shorter(text).map(|text| Case::Listing { text, lent: *lent });
                Box::new(texts.chain(less(*lent).map(|lent| Case::Listing { text: text.clone(), lent })))
            }
            Case::RunSource { setting, program, state, budget } => {
                let calls = with_less(*setting, program, *budget as usize);
                let calls = calls.map(|(setting, program, b)| Case::RunSource { setting, program, state: state.clone(), budget: b as u32 });
                let with = |state| Case::RunSource { setting: *setting, program: program.clone(), state, budget: *budget };
                Box::new(calls.chain(lower(state).map(with)))
            }
            Case::ReadWord { word, kinds, operands } => {
                let words = shorter(word).map(|word| Case::ReadWord { word, kinds: *kinds, operands: *operands });
                Box::new(words.chain(less(*kinds).map(|kinds| Case::ReadWord { word: word.clone(), kinds, operands: *operands })))
            }
            Case::WriteWord { kinds, operands, lent } => {
                let tables =
                    shorter(kinds).zip(shorter(operands)).map(|(kinds, operands)| Case::WriteWord { kinds, operands, lent: *lent });
                Box::new(tables.chain(lower(operands).map(|operands| Case::WriteWord { kinds: kinds.clone(), operands, lent: *lent })))
            }
            Case::RunWord { word, machine, budget } => {
                let words = shorter(word).map(|word| Case::RunWord { word, machine: machine.clone(), budget: *budget });
                let machines = emptier(machine).into_iter().map(|machine| Case::RunWord { word: word.clone(), machine, budget: *budget });
                let budgets =
                    less(*budget as usize).map(|b| Case::RunWord { word: word.clone(), machine: machine.clone(), budget: b as u32 });
                Box::new(words.chain(machines).chain(budgets))
            }
            Case::RunTable { kinds, operands, machine, budget } => {
                let with = |kinds: &[u8], operands: &[u32], machine: &Machine, budget: u32| Case::RunTable {
                    kinds: kinds.to_vec(),
                    operands: operands.to_vec(),
                    machine: machine.clone(),
                    budget,
                };
                let tables = shorter(kinds).zip(shorter(operands)).map(move |(k, o)| with(&k, &o, machine, *budget));
                let operands_less = lower(operands).map(move |o| with(kinds, &o, machine, *budget));
                let machines = emptier(machine).into_iter().map(move |m| with(kinds, operands, &m, *budget));
                let budgets = less(*budget as usize).map(move |b| with(kinds, operands, machine, b as u32));
                Box::new(tables.chain(operands_less).chain(machines).chain(budgets))
            }
            Case::Value { machine } => Box::new(emptier(machine).into_iter().map(|machine| Case::Value { machine })),
            Case::Report { text, sheet } => {
                let texts = shorter(text).map(|text| Case::Report { text, sheet: sheet.clone() });
                Box::new(texts.chain(shorter(sheet).map(|sheet| Case::Report { text: text.clone(), sheet })))
            }
            Case::ReportOn { text, sheet, capacities, lent } => {
                let with = |text: &[u8], sheet: &[u8], capacities: &[u16], lent: usize| Case::ReportOn {
                    text: text.to_vec(),
                    sheet: sheet.to_vec(),
                    capacities: capacities.to_vec(),
                    lent,
                };
                let texts = shorter(text).map(move |text| with(&text, sheet, capacities, *lent));
                let sheets = shorter(sheet).map(move |sheet| with(text, &sheet, capacities, *lent));
                let narrower = lower(&numbers(capacities)).map(|c| c.iter().map(|&n| n as u16).collect::<Vec<_>>()).collect::<Vec<_>>();
                let narrower = narrower.into_iter().map(move |capacities| with(text, sheet, &capacities, *lent));
                Box::new(texts.chain(sheets).chain(narrower).chain(less(*lent).map(move |lent| with(text, sheet, capacities, lent))))
            }
        }
    }
}

/// What comes of a case that isn't the run tool's.
#[cfg(not(feature = "library"))]
pub fn outcome(case: &Case) -> Outcome {
    case.twin()
}

/// The same on the library, with which the twin agrees.
#[cfg(feature = "library")]
pub fn outcome(case: &Case) -> Outcome {
    thread_local!(static TOOL: RunTool = RunTool::new("outcome"));
    let outcome = TOOL.with(|tool| case.library(tool));
    assert_eq!(outcome, case.twin(), "{case:?}");
    outcome
}

/// What is left when one piece is cut out, largest pieces first.
fn shorter<T: Clone>(items: &[T]) -> impl Iterator<Item = Vec<T>> + '_ {
    let pieces = successors(Some(items.len()), |n| Some(n / 2)).take_while(|&n| n > 0);
    pieces.flat_map(move |piece| {
        (0..items.len()).step_by(piece).map(move |at| [&items[..at], &items[(at + piece).min(items.len())..]].concat())
    })
}

/// A call that is given a program, with less of the program, a lower number of the setting, or less of what else it has.
fn with_less(setting: u32, program: &Program, rest: usize) -> impl Iterator<Item = (u32, Program, usize)> + '_ {
    let programs = program.shorter().map(move |program| (setting, program, rest));
    let settings = less(setting as usize).map(move |setting| (setting as u32, program.clone(), rest));
    programs.chain(settings).chain(less(rest).map(move |rest| (setting, program.clone(), rest)))
}

fn less(n: usize) -> impl Iterator<Item = usize> {
    [0, n / 2, n.saturating_sub(1)].into_iter().filter(move |&m| m < n)
}

/// One of the numbers lowered.
fn lower(numbers: &[u32]) -> impl Iterator<Item = Vec<u32>> + '_ {
    let with = |at: usize, n: usize| [&numbers[..at], &[n as u32], &numbers[at + 1..]].concat();
    (0..numbers.len()).flat_map(move |at| less(numbers[at] as usize).map(move |n| with(at, n)))
}

/// Fewer steps, the first place, a register emptied, the last register gone.
fn emptier(machine: &Machine) -> Vec<Machine> {
    let mut found: Vec<Machine> = less(machine.steps as usize).map(|n| Machine { steps: n as u32, ..machine.clone() }).collect();
    if machine.place != 1 {
        found.push(Machine { place: 1, ..machine.clone() });
    }
    let registers = machine.registers();
    if machine.store.len() != machine.offset(registers + 1) || machine.lengths.len() != registers {
        return found;
    }
    for r in (1..=registers).filter(|&r| machine.lengths[r - 1] > 0) {
        let mut emptied = machine.clone();
        emptied.empty(r);
        found.push(emptied);
    }
    if registers > 1 {
        let mut fewer = machine.clone();
        fewer.store.truncate(machine.offset(registers));
        fewer.lengths.pop();
        fewer.capacities.pop();
        found.push(fewer);
    }
    found
}
